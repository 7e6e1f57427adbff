"""What the trace says of each row, held against the sheets and the journal."""

from __future__ import annotations

import random
import re
import unittest
from collections import Counter
from itertools import pairwise

from lock_bench import Entry, Run, Schedule, Sheet, Till, TillEntry, journal, load, notation, orders, run, states, trace
from lock_bench.schedule import call_of
from lock_bench.stuck import STUCK

from .support import EXAMPLES, bench_here, drawn_schedule, example_files, good_till, has_two_locks, needs, wanted_calls


def told(text: str) -> list[tuple[str, list[str]]]:
    """The trace of a text: what each row did, and what changed."""
    schedule = notation.parse(text)
    return list(trace.rows_told(run(schedule), states(schedule)))


def runs(seed: int) -> list[Run]:
    """Runs of rows drawn at random, and of rows that the dispatcher gives."""
    rng = random.Random(seed)
    schedules = [drawn_schedule(rng, 100) for _ in range(40)]
    schedules += [Schedule.from_bytes(load().dispatch_sheet(wanted_calls(rng, 30).to_bytes()).schedule) for _ in range(10)]
    return [run(schedule) for schedule in schedules]


class Examples(unittest.TestCase):
    def test_colliding_readers(self) -> None:
        self.assertEqual(
            told("threads 2 0: read 0 1: read 0 0: go 1: go 0: go 1: go*2"),
            [
                ("begins a read-lock straight at the root", ["thread 0: idle -> calling"]),
                ("begins a read-lock straight at the root", ["thread 1: idle -> calling"]),
                ("read root (0, 0, open)", []),
                ("read root (0, 0, open)", []),
                ("swapped root to (1, 0, open)", ["root: (0, 0, open) -> (1, 0, open)", "thread 0: calling -> reading by 0"]),
                ("swap of root failed: (0, 0, open), found (1, 0, open)", ["failures of 1: 0 -> 1"]),
                ("swapped root to (2, 0, open)", ["root: (1, 0, open) -> (2, 0, open)", "thread 1: calling -> reading by 0"]),
            ],
        )

    def test_node_and_failed_swap_of_a_node(self) -> None:
        """Both readers read node 1 at 0 and arrive above; the second to come down finds it at 1."""
        text = "nodes 2 threads 2 0: read 1, go*3 1: read 1, go*3 0: go 1: go*2 0: go 1: go"
        rows = [did for did, _ in told(text)]
        self.assertEqual(rows[2], "read node 1 (0)")
        self.assertEqual(rows[9], "swap of root failed: (0, 0, open), found (0, 1, open)")
        self.assertEqual(rows[11], "swapped node 1 to 1")
        self.assertEqual(rows[12], "swap of node 1 failed: 0, found 1")

    def test_mutex_queue_sleep_and_wake(self) -> None:
        text = "threads 4 0: write, go*2 1: read 0, go*2 2: write, go*2 1: go*3 3: read 0, go*5 2: go*4, go 0: unlock, go*5"
        rows = told(text)
        self.assertIn(("held up at the mutex that thread 1 has", []), rows)
        self.assertIn(("held up: asleep", []), rows)
        self.assertIn(("joined the queue to read", ["groups: 0 -> 1"]), rows)
        self.assertIn(("joined the readers in the queue", []), rows)
        self.assertIn(("joined the queue to write", ["groups: 1 -> 2", "writers: 0 -> 1"]), rows)
        self.assertIn(("released the mutex, and sleeps", ["mutex: thread 3 -> free", "thread 3: calling -> asleep"]), rows)
        self.assertIn(("took the readers from the queue", ["groups: 2 -> 1"]), rows)
        self.assertEqual(
            rows[-1], ("wakes 1 3", ["thread 0: calling -> idle", "thread 1: asleep -> reading by 0", "thread 3: asleep -> reading by 0"])
        )

    def test_upgrades_and_downgrades(self) -> None:
        self.assertEqual(told("threads 2 0: read 0, go*2 1: read 0, go*2 0: upgrade, go")[-1][0], "read root (2, 0, open): upgrade denied")
        self.assertEqual(told("0: write, go*2, downgrade, go*2")[-1][0], "found the queue empty")
        self.assertEqual(told("threads 2 0: write, go*2 1: write, go*5 0: downgrade, go*2")[-1][0], "found no readers in the queue")
        self.assertEqual(told("0: write, go*2, downgrade, go*3")[-1][0], "stored root (1, 0, open)")

    def test_what_is_not_told_is_not_said(self) -> None:
        schedule = notation.parse("threads 2 0: read 0 1: read 0 0: go 1: go 0: go 1: go")
        before, after = list(states(schedule))[-2:]
        self.assertEqual(trace.describe(schedule, 5, before, after, Entry(3, 0)), "swap of root failed: found (1, 0, open)")
        self.assertEqual(trace.describe(schedule, 5, before, after, Entry(3, 0), "(0, 0, open)"), "swap of root failed: (0, 0, open), found (1, 0, open)")
        self.assertEqual(trace.describe(schedule, 5, before, after, Entry(99, 7)), "kind 99 on word 7")

    def test_refusals(self) -> None:
        for text, said in (
            ("0: read 0, read 0", "refused with 7: the order does not suit the thread (thread 0 is calling"),
            ("0: read 0, go*2, write", "refused with 7: the order does not suit the thread (thread 0 is reading by 0"),
            ("nodes 3 0: read 3", "refused with 6: there is no such order (N is 3)"),
            ("0: 9", "refused with 6: there is no such order"),
            ("0: write, go*2, book 0", "refused with 6: there is no such order (there is no till)"),
            ("threads 2 2: read 0", "refused with 5: there is no such thread (T is 2)"),
        ):
            self.assertTrue(trace.refusal_text(run(notation.parse(text))).startswith(said), text)

    @needs("credit_sheet")
    def test_refused_bookings(self) -> None:
        till = Till(1, (TillEntry(0, 5), TillEntry(0, -3)))
        for text, said in (
            ("0: write, go*2, book 2", "refused with 6: there is no such order (E is 2)"),
            ("0: book 2", "refused with 6: there is no such order (E is 2)"),
            ("0: write, go*2, 224", "refused with 6: there is no such order"),
            ("0: read 0, go*2, book 1", "refused with 7: the order does not suit the thread (thread 0 is reading by 0, in the second lock idle)"),
            ("0: write, go*2, read 0 second, book 1", "refused with 7: the order does not suit the thread (thread 0 is writing, in the second lock calling)"),
            ("threads 2 0: write, go*2 2: book 0", "refused with 5: there is no such thread (T is 2)"),
        ):
            self.assertEqual(trace.refusal_text(run(notation.parse(text), till)), said, text)


class Properties(unittest.TestCase):
    def setUp(self) -> None:
        self.seen: Counter[int] = Counter()

    def rows(self, ran: Run) -> None:
        """Holds every row's words and changes against its sheets and its entry."""
        after_rows = list(states(ran.schedule, ran.till))
        lines = list(trace.rows_told(ran, after_rows))
        self.assertEqual(len(lines), len(ran.journal))
        for i, ((before, after), entry, (did, changed)) in enumerate(zip(pairwise(after_rows), ran.journal, lines)):
            self.seen[entry.kind] += 1
            self.row(ran.schedule, i, before, after, entry, did, changed)

    def row(self, schedule: Schedule, i: int, before: Sheet, after: Sheet, entry: Entry, did: str, changed: list[str]) -> None:
        thread, call = schedule.rows[i].thread, call_of(schedule, i)
        prefix = "" if entry.lock == 0 else "second lock: "
        self.assertTrue(did.startswith(prefix))
        did = did.removeprefix(prefix)
        own = "" if entry.lock == 0 else "second lock's "
        for change in changed:
            self.assertTrue(change.startswith((own, "room ")))
        changed = [change.removeprefix(own) for change in changed]
        self.assertEqual(changed == [], before.locks == after.locks and before.rooms == after.rooms)
        others = [change for change in changed if not change.startswith(f"thread {thread}: ")]
        word = trace.word_name(entry)
        match entry.kind:
            case journal.BEGUN:
                self.assertEqual(others, [])
                self.assertNotEqual(schedule.rows[i].order, orders.GO_ON)
            case journal.READ | journal.DENIED_UPGRADE:
                self.assertEqual(others, [])
                self.assertTrue(did.startswith(f"read {word} ("))
            case journal.SWAPPED:
                old, new = trace.word_value(before, entry), trace.word_value(after, entry)
                self.assertEqual(others, [f"{word}: {old} -> {new}"])
                self.assertEqual(did, f"swapped {word} to {new}")
            case journal.FAILED:
                said = re.fullmatch(rf"swap of {word} failed: (.+), found (.+?)(: upgrade denied)?", did)
                assert said is not None, did
                self.assertEqual(said[3] is not None, call == orders.UPGRADE and f"thread {thread}: calling -> reading by 0" in changed)
                self.assertNotEqual(said[1], said[2])
                self.assertEqual(said[2], trace.word_value(before, entry))
                self.assertEqual(len(others), 1)
                self.assertRegex(others[0], f"^failures of {thread}: [0-9]+ -> [0-9]+$")
            case journal.HELD_UP:
                self.assertEqual(changed, [])
                self.assertRegex(did, "^held up(: asleep| at the mutex that thread [0-9]+ has)$")
            case journal.STORED:
                self.assertTrue(did.startswith(f"stored {word} ("))
                self.assertTrue(all(change.startswith("root: ") for change in others))
            case journal.TOOK_MUTEX:
                self.assertEqual(changed, [f"mutex: free -> thread {thread}"])
            case journal.RELEASED_MUTEX:
                self.assertEqual(others, [f"mutex: thread {thread} -> free"])
            case journal.CHANGED_QUEUE:
                self.assertEqual("joined" in did, call == orders.WRITE_LOCK or call >= orders.READ_LOCK, did)
                self.assertEqual("to write" in did, call == orders.WRITE_LOCK, did)
                self.assertTrue(all(change.startswith(("groups: ", "writers: ")) for change in changed))
            case journal.WOKE:
                woken = did.split()[1:]
                self.assertEqual([change.split()[1].rstrip(":") for change in others], woken)
                self.assertTrue(all("asleep -> " in change for change in others))
                self.assertGreater(len(woken), 0)
            case journal.BOOKED | journal.REPEATED | journal.DENIED_BOOKING:
                self.assertRegex(did, f"^(booked|repeated|denied) entry {schedule.rows[i].order - orders.BOOK}([,:]|$)")
                self.assertEqual(journal.KINDS[entry.kind].split()[-1], did.split()[0])
                self.assertTrue(all(change.startswith("room ") for change in changed))
                self.assertTrue(entry.kind == journal.BOOKED or changed == [])
            case _:
                self.fail(f"kind {entry.kind}")

    def test_rows(self) -> None:
        for ran in runs(30):
            self.rows(ran)
        for kind in range(journal.BEGUN, journal.DENIED_UPGRADE + 1):
            self.assertGreater(self.seen[kind], 0, journal.KINDS[kind])

    @needs("credit_sheet")
    def test_bookings(self) -> None:
        rng = random.Random(31)
        for _ in range(40):
            till = good_till(rng)
            self.rows(run(drawn_schedule(rng, 60, till), till))
        for kind in (journal.BOOKED, journal.REPEATED, journal.DENIED_BOOKING):
            self.assertGreater(self.seen[kind], 0, journal.KINDS[kind])

    def test_second_lock(self) -> None:
        if not has_two_locks():
            self.skipTest("the library has one lock")
        second = [entry for ran in runs(32) for entry in ran.journal if entry.lock == 1]
        self.assertGreater(len(second), 100)
        text = "threads 2 0: write, go*2, read 0 second, go*2 1: write second, go*6, go 0: unlock second, go*6"
        rows = told(text)
        changed = ["second lock's root: (0, 0, open) -> (1, 0, open)", "second lock's thread 0: calling -> reading by 0"]
        self.assertEqual(rows[5], ("second lock: swapped root to (1, 0, open)", changed))
        self.assertEqual(rows[-1], ("second lock: wakes 1", ["second lock's thread 0: calling -> idle", "second lock's thread 1: asleep -> writing"]))


class Ends(unittest.TestCase):
    """What the command says at the end of a trace."""

    def test_stuck(self) -> None:
        """The last line says so where the last state is stuck, and nowhere else."""
        said = bench_here("trace", EXAMPLES / "crossed-locks.schedule")
        self.assertEqual(said.out.splitlines()[-2:], ["answer 0 at 18", "stuck: no row of any thread would change anything"])
        self.assertEqual(bench_here("trace", "--failures", EXAMPLES / "crossed-locks.schedule").out.splitlines()[-1], STUCK)
        others = [path for path in example_files("schedule") if path.stem != "crossed-locks"]
        self.assertGreater(len(others), 10)
        for path in others:
            self.assertNotIn("stuck", bench_here("trace", path).out, path.name)

    def test_no_row_is_chosen(self) -> None:
        said = bench_here("trace", "--thread", 7, EXAMPLES / "late-reader.schedule")
        self.assertEqual((said.status, said.err), (0, "bench: no rows selected (of 16)\n"))
        self.assertEqual(bench_here("trace", "-e", "threads 2").err, "")

    def test_upgrade_denied_by_a_swap(self) -> None:
        """Whichever step denies an upgrade, the trace says so; other failed swaps within an upgrade do not."""
        said = bench_here("trace", EXAMPLES / "upgrade-denied-by-a-swap.schedule").out
        self.assertIn("swap of root failed: (1, 0, open), found (2, 0, open): upgrade denied", said)
        traded = bench_here("trace", "-e", "nodes 2 threads 2 0: read 1, go*5, upgrade, go 1: read 0, go*2 0: go").out
        self.assertIn("swap of root failed: (0, 1, open), found (1, 1, open)  ", traded)
        self.assertNotIn("denied", traded)
