"""Schedules found and shrunk: ten conditions and more, what a theorem excludes, the worst for a site."""

from __future__ import annotations

import random
import re
import subprocess
import time
import unittest
from dataclasses import replace

from lock_bench import Row, Schedule, condition, find, journal, load, notation, orders, run
from lock_bench.history import History
from lock_bench.search import Goal, Search, Space
from lock_bench.shrink import Keeping, shrunk, shrunk_rows

from .support import BENCH, EXAMPLES, ROOT, bench, bench_here, bench_in_terminal, drawn_schedule, environment, needs
from .test_command import InFolder

# Conditions that are found, and the fewest rows that are known of each.
FOUND = {
    "thread 2 asleep and root open": 13,
    "failures of 1 >= 3": 12,
    "queue writers >= 2": 14,
    "upgrade denied": 8,
    "upgrade granted and failures >= 1": 9,
    "late arrival": 11,
    "stuck": 18,
    "thread 1 reading by 1 and thread 0 asleep": 13,
    "held up by 1 >= 2": 7,
    "mutex by 2 and thread 0 writing": 6,
    "node 1 = 2 and root closed": 15,
    "swap failed on node 1": 10,
    "root direct = 2 and root closed": 10,
    "woken and thread 1 reading": 15,
    "thread 0 writing and thread 0 writing second": 6,
    "queue groups >= 2 and queue writers = 1": 14,
}


def holds(text: str, schedule: Schedule) -> bool:
    """Whether a condition holds after all rows of a schedule, of which none is refused."""
    history = History.of(schedule)
    return history.answer == 0 and condition.parse(text).holds(history)


def is_minimal(text: str, schedule: Schedule) -> bool:
    """Whether no single row can be left out: the rows left, those dropped that are refused then, do not come to the condition."""
    keeping = Keeping(condition.parse(text), None, load())
    return all(keeping.first(replace(schedule, rows=(*schedule.rows[:row], *schedule.rows[row + 1 :]))) is None for row in range(len(schedule.rows)))


class Found(InFolder):
    def test_conditions_are_found_and_shrunk(self) -> None:
        """Each is found; the condition holds after the rows that are printed; and none of them can be left out, before and after shrinking."""
        for text, fewest in FOUND.items():
            with self.subTest(text):
                said = bench_here("find", text, "--random", "--tries", 1024, "--jobs", 2)
                self.assertEqual((said.status, said.err), (0, ""))
                read = notation.parse_script(said.out).read()
                self.assertEqual((read.unmet, said.out.splitlines()[-1]), ((), f"expect {text}"))
                self.assertTrue(holds(text, read.schedule))
                self.assertTrue(is_minimal(text, read.schedule))
                self.assertLessEqual(fewest, len(read.schedule.rows))
                self.assertLessEqual(len(read.schedule.rows), fewest + 8)
                shrunk_text = bench_here("shrink", "-e", said.out, "--keep", text)
                self.assertEqual((shrunk_text.status, shrunk_text.err), (0, ""))
                small = notation.parse(shrunk_text.out)
                self.assertTrue(holds(text, small))
                self.assertTrue(is_minimal(text, small))
                self.assertLessEqual((small.threads, small.nodes, len(small.rows)), (read.schedule.threads, read.schedule.nodes, len(read.schedule.rows)))

    def test_same_seed_same_schedule_for_any_number_of_processes(self) -> None:
        one = bench("find", "failures of 1 >= 2", "--tries", 256, "--jobs", 1, "--seed", 5)
        two = bench("find", "failures of 1 >= 2", "--tries", 256, "--jobs", 2, "--seed", 5)
        self.assertEqual((one.status, one), (0, two))
        other = bench("find", "failures of 1 >= 2", "--tries", 256, "--jobs", 1, "--seed", 6)
        self.assertEqual(other.status, 0)

    def test_sizes(self) -> None:
        said = bench_here("find", "late arrival", "--threads", 4, "--nodes", 5, "--fan", 2, "--random", "--tries", 512, "--jobs", 1)
        found = notation.parse(said.out)
        self.assertEqual((said.status, found.threads, found.nodes, found.fan), (0, 4, 5, 2))
        self.assertEqual(notation.parse(bench_here("find", "thread 5 reading by 3", "--random", "--tries", 256, "--jobs", 1).out).threads, 6)

    def test_sizes_that_can_hold_the_condition(self) -> None:
        """As many threads as sleep, hold and are idle, one that does not sleep, and as many rows as are counted."""
        for text, threads in (
            ("queue groups >= 3 and queue writers = 2", 4),
            ("queue writers > 3", 5),
            ("threads asleep = 4", 5),
            ("threads reading >= 4 and queue groups >= 1", 5),
            ("root direct = 5 or root open", 5),
            ("threads idle = 2 and threads holding = 3 and any thread calling", 6),
            ("not (threads reading < 4)", 4),
            ("root open", 0),
            ("threads reading < 9", 0),
        ):
            self.assertEqual(find.threads_for(condition.parse(text)), threads, text)
        for text, rows in (("rows = 100", 164), ("root open", 64), ("held up by 2 >= 40 and wait > 10", 104), ("rows = 9000", 4096)):
            self.assertEqual(find.rows_for(condition.parse(text)), rows, text)
        found = notation.parse(bench_here("find", "queue groups >= 3 and queue writers = 2", "--random", "--tries", 512, "--jobs", 1).out)
        self.assertEqual(found.threads, 4)
        self.assertEqual(len(notation.parse(bench_here("find", "rows = 100", "--tries", 128, "--jobs", 1).out).rows), 100)

    def test_at_once(self) -> None:
        for text in ("root open", "rows = 0"):
            said = bench_here("find", text, "--jobs", 1)
            self.assertEqual((said.status, notation.parse(said.out).rows), (0, ()))
            self.assertEqual(said.out.splitlines()[:2], [f"# {text}", "# 0 rows, so none is shorter: it holds of the fresh lock"])

    def test_condition_of_several_lines(self) -> None:
        """Comments and line breaks of a condition are not in the text that is printed, which can be read."""
        said = bench_here("find", "thread 0 writing # it holds\n  and root closed", "--threads", 2)
        self.assertEqual((said.status, said.out.splitlines()[0], said.out.splitlines()[-1]), (0, "# thread 0 writing and root closed", "expect thread 0 writing and root closed"))
        self.assertEqual(notation.parse_script(said.out).read().unmet, ())
        again = bench_here("shrink", "-e", said.out, "--keep", "thread 0 writing\nand root closed")
        self.assertEqual((again.status, again.out.splitlines()[-1]), (0, "expect thread 0 writing and root closed"))

    def test_wanted_calls(self) -> None:
        """Only wanted calls are made, in their order."""
        said = bench_here("find", "thread 1 asleep", "--wants", EXAMPLES / "writer-and-reader.wants", "--tries", 256, "--jobs", 1)
        self.assertEqual(said.status, 0)
        rows = notation.parse(said.out).rows
        self.assertEqual([row.order for row in rows if row.thread == 1 and row.order], [64])
        self.assertEqual([row.order for row in rows if row.thread == 0 and row.order][:1], [1])
        never = bench_here("find", "thread 1 writing", "--wants", EXAMPLES / "writer-and-reader.wants", "--tries", 128, "--jobs", 1)
        self.assertEqual(never.status, 4)

    @needs("credit_sheet")
    def test_till(self) -> None:
        till = EXAMPLES / "one-song-charged-once.till"
        said = bench_here("find", "room 0 = 3 and repeated", "--till", till, "--tries", 1024, "--jobs", 2)
        self.assertEqual(said.status, 0)
        self.assertEqual(bench_here("sheet", "--till", till, "-e", said.out).status, 0)
        self.assertIn(orders.BOOK + 1, [row.order for row in notation.parse_script(said.out).read(till.read_bytes()).schedule.rows])

    def test_output(self) -> None:
        for name in ("a.schedule", "a.txt"):
            path = self.folder / name
            self.assertEqual(bench_here("find", "upgrade denied", "--threads", 2, "-o", path), (0, "", ""))
            self.assertEqual(bench_here("sheet", path).status, 0)
        self.assertTrue(holds("upgrade denied", Schedule.from_bytes((self.folder / "a.schedule").read_bytes())))

    def test_in_a_terminal(self) -> None:
        """The bar is there while it searches, and leaves no trace."""
        said = bench_in_terminal("find", "thread 0 writing", "--random", "--tries", "256", "--jobs", "1")
        self.assertEqual(said.status, 0)
        self.assertIn("\r\x1b[K[", said.out)
        self.assertIn("# thread 0 writing\n# 3 rows, the shortest found in ", said.out)


class NotFound(InFolder):
    def test_theorems(self) -> None:
        for text, why in (
            ("threads writing >= 2", "no thread holds beside one that writes (laws, specs/Exclusion, Locks)"),
            ("thread 1 writing and root open", "a held lock is never shown free (laws, specs/Exclusion, Locks)"),
            ("thread 1 reading and root = 0", "a held lock is never shown free (laws, specs/Exclusion, Locks)"),
            ("all threads asleep", "someone sleeps, someone holds (laws, specs/Sleeping, Remembers)"),
        ):
            said = bench_here("find", text)
            self.assertEqual((said.status, said.out), (4, ""))
            self.assertIn(f"impossible: '{text}': ", said.err)
            self.assertIn(why, said.err)
            # The place is one of the repository's.
            for crate, spec in re.findall(r"\(([a-z]+), specs/([A-Za-z]+),", said.err):
                self.assertTrue((ROOT / "crates" / crate / "specs" / f"{spec}.antt").exists(), said.err)

    def test_one_lock_is_never_stuck(self) -> None:
        """Of wanted calls of one lock."""
        said = bench_here("find", "stuck", "--wants", EXAMPLES / "writer-and-reader.wants")
        self.assertEqual((said.status, said.out), (4, ""))
        self.assertIn("with one lock no state is stuck", said.err)
        crossed = bench_here("find", "stuck", "--wants", self.file("w.txt", "threads 2 0: write, write second 1: write second, write"), "--tries", 512, "--jobs", 2)
        self.assertEqual((crossed.status, len(notation.parse(crossed.out).rows)), (0, 18))

    def test_nothing_is_proved_by_not_finding(self) -> None:
        """A condition that no theorem here excludes, and that does not come within these rows."""
        said = bench("find", "failures of 0 >= 30", "--rows", 12, "--tries", 200, "--jobs", 1)
        self.assertEqual((said.status, said.out), (4, ""))
        where = "on N 2, F 1, T 3, in schedules of up to 12 rows"
        self.assertRegex(said.err, rf"^bench: not found in 256 tries and \d+ s {where}, which proves nothing: more --time, another --seed or other sizes may find it\n$")

    def test_time(self) -> None:
        """A second, and the round that is under way then, of processor time: other work says nothing."""
        begun = time.process_time()
        self.assertEqual(bench_here("find", "failures of 0 >= 300", "--time", 1, "--jobs", 1).status, 4)
        self.assertLess(time.process_time() - begun, 30)

    def test_usage(self) -> None:
        for arguments, status, why in (
            ((), 2, "bench: give either a CONDITION or --most NUMBER (see --help)\n"),
            (("stuck", "--most", "wait"), 2, "bench: give either a CONDITION or --most NUMBER (see --help)\n"),
            (("stuck", "--time", "0"), 2, "bench: --time must be a number of seconds above 0\n"),
            (("stuck", "--time", "nan"), 2, "bench: --time must be a number of seconds above 0\n"),
            (("stuck", "--wants", "x", "--threads", 3), 2, "bench: --wants excludes --threads, --nodes, --fan and --till: wanted calls have sizes of their own, and no till\n"),
            (("stuck", "--wants", "no-such-file"), 2, "no-such-file: No such file or directory\n"),
            (("thread 2 asleap",), 3, "condition:1:10: unknown standing 'asleap'; did you mean 'asleep'?\n"),
            (("thread 2 asleep", "--threads", 2), 3, "condition:1:8: thread must be 0 to 1, not 2\n"),
            (("room 1 < 5",), 3, "condition:1:6: there is no till, so there are no rooms\n"),
            (("--most", "fast"), 3, "--most:1:1: unknown word 'fast'\n"),
            (("stuck", "--wants", self.file("w.txt", "threads 1 3: write")), 3, f"{self.folder}/w.txt, row 0: there is no thread 3\n"),
            (("stuck", "--wants", self.file("v.txt", "0: write, go until done")), 3, f"{self.folder}/v.txt:1:11: 'go until' and 'expect' are for schedules only\n"),
            (("root open", "--wants", self.file("w", b"\1\1\1")), 3, f"{self.folder}/w: not a schedule: 3 bytes, and its sizes alone take 5\n"),
            (("root open", "--wants", self.file("x", b"\0\1\1\0\0")), 3, "bench: refused with 2: a size is out of range\n"),
        ):  # fmt: skip
            said = bench_here("find", *arguments)
            self.assertEqual((said.status, said.out, said.err), (status, "", why), arguments)
        self.assertEqual(bench("find", "stuck", "--threads", 65).status, 2)


class Most(InFolder):
    def test_failures_and_their_bound(self) -> None:
        """The worst that is found has as many failures as it says, each within the bound that stands beside it."""
        wants = EXAMPLES / "shape-between.wants"
        said = bench_here("find", "--most", "failures", "--wants", wants, "--tries", 128, "--jobs", 2, "--rows", 400)
        self.assertEqual((said.status, said.err), (0, ""))
        found = notation.parse_script(said.out).read()
        self.assertEqual(found.unmet, ())
        ran = run(found.schedule)
        failures = sum(line.failures for line in ran.sheet.locks[0].threads)
        self.assertIn(f"# failures: {failures}, the most found in 128 tries; there may be more\n", said.out)
        # The dispatcher's turns, which the search begins with, have 61.
        self.assertGreater(failures, 61)
        told = re.findall(r"^# thread (\d+) on (root|node \d+): (\d+) failed, of at most (\d+), the changes by others \(demand 3\)$", said.out, re.MULTILINE)
        self.assertEqual(sum(int(failed) for _, _, failed, _ in told), failures)
        for thread, word, failed, others in told:
            number = 0 if word == "root" else int(word.split()[1])
            changes = [row for row, entry in zip(ran.schedule.rows, ran.journal) if entry in ((journal.SWAPPED, number), (journal.STORED, number)) and row.thread != int(thread)]
            self.assertEqual(len(changes), int(others))
            self.assertLessEqual(int(failed), int(others))

    def test_more_than_the_dispatcher(self) -> None:
        """For a writer and a reader the worst has more failures than the dispatcher's turns; held-up rows are left out."""
        wants = EXAMPLES / "writer-and-reader.wants"
        said = bench_here("find", "--most", "failures", "--wants", wants, "--tries", 256, "--jobs", 1)
        ran = run(notation.parse(said.out))
        self.assertGreater(sum(line.failures for line in ran.sheet.locks[0].threads), 1)
        self.assertNotIn(journal.HELD_UP, [entry.kind for entry in ran.journal])

    def test_wait_and_rows(self) -> None:
        wants = EXAMPLES / "writer-and-reader.wants"
        for number in ("wait", "rows", "failures of 1", "threads asleep"):
            said = bench_here("find", "--most", number, "--wants", wants, "--tries", 128, "--jobs", 1)
            self.assertEqual((said.status, said.err), (0, ""), number)
            self.assertEqual(notation.parse_script(said.out).read().unmet, (), number)

    def test_bounds_of_drawn_rows(self) -> None:
        rng = random.Random(90)
        for _ in range(5):
            history = History.of(drawn_schedule(rng, 120))
            for lock in range(2):
                for line in find.bounds(history, None, lock):
                    failed, most = map(int, re.findall(r": (\d+) failed, of at most (\d+),", line)[0])
                    self.assertLessEqual(failed, most)


class Shrink(InFolder):
    def test_nothing_can_be_taken_away(self) -> None:
        """Of what is left, every row, thread and node is needed: each is left out in turn."""
        for text, schedule in (
            ("failures >= 3", Schedule.from_bytes(load().dispatch_sheet((EXAMPLES / "site-of-19-threads.wants").read_bytes()).schedule)),
            ("late arrival", Schedule.from_bytes((EXAMPLES / "late-reader.schedule").read_bytes())),
            ("stuck", Schedule.from_bytes((EXAMPLES / "crossed-locks.schedule").read_bytes())),
            ("upgrade denied", Schedule.from_bytes((EXAMPLES / "upgrade-denied-by-a-swap.schedule").read_bytes())),
            ("woken and thread 2 reading", Schedule.from_bytes((EXAMPLES / "hand-over-with-writer-queued.schedule").read_bytes())),
        ):
            keeping = Keeping(condition.parse(text), None, load())
            small = shrunk(schedule, keeping)
            assert small is not None
            self.assertTrue(holds(text, small))
            self.assertTrue(is_minimal(text, small), text)
            used = {row.thread for row in small.rows}
            named = {quantity.thread for quantity in condition.quantities(keeping.kept) if quantity.thread is not None}
            self.assertLessEqual(small.threads, 1 + max(max(used), *named, 0))
            for thread in used:
                self.assertIsNone(keeping.first(replace(small, rows=tuple(row for row in small.rows if row.thread != thread))), text)
            if small.nodes > 1:
                for node in range(small.nodes - 1):
                    moved = tuple(Row(row.thread, orders.READ_LOCK + node) if row.order == orders.READ_LOCK + small.nodes - 1 else row for row in small.rows)
                    self.assertIsNone(keeping.first(replace(small, nodes=small.nodes - 1, rows=moved)), text)

    def test_known(self) -> None:
        small = notation.parse(bench("shrink", EXAMPLES / "late-reader.schedule", "--keep", "late arrival").out)
        self.assertEqual((small.threads, small.nodes, len(small.rows)), (3, 2, 14))
        said = bench("shrink", "--dispatch", EXAMPLES / "site-of-19-threads.wants", "--keep", "failures >= 3")
        self.assertIn("# 1044 rows, 19 threads, 7 nodes shrunk to 12 rows, 4 threads, 1 node: none can be taken away any more\n", said.out)

    def test_rows_are_left_out_with_their_calls(self) -> None:
        schedule = notation.parse("threads 3 2: read 0, go*2, unlock, go*2 0: write, go*2 2: read 0, go*7 1: write, go*6")
        keeping = Keeping(condition.parse("thread 1 asleep"), None, load())
        small = shrunk_rows(schedule, keeping)
        assert small is not None
        self.assertEqual({row.thread for row in small.rows}, {0, 1})
        # Held-up rows go first, but where the condition counts them.
        kept = shrunk_rows(schedule, Keeping(condition.parse("held up by 2 >= 2"), None, load()))
        assert kept is not None
        self.assertEqual([kind for kind in History.of(kept).kinds if kind == journal.HELD_UP], [journal.HELD_UP] * 2)

    def test_what_does_not_hold(self) -> None:
        path = EXAMPLES / "late-reader.schedule"
        said = bench("shrink", path, "--keep", "failures >= 3")
        self.assertEqual((said.status, said.out, said.err), (4, "", f"{path}: 'failures >= 3' holds after none of its rows; at the end, failures is 0\n"))
        self.assertEqual(bench_here("shrink", path, "--keep", "thread 3 idle").err, "--keep:1:8: thread must be 0 to 2, not 3\n")
        self.assertEqual(bench_here("shrink", self.file("a", b"\0\1\1\0\0"), "--keep", "root open").status, 3)

    def test_refused_rows(self) -> None:
        """Of a schedule with a refused row what is taken counts, and so do the rows behind it that can be taken then."""
        small = notation.parse(bench_here("shrink", EXAMPLES / "refused-row.schedule", "--keep", "swap done >= 2").out)
        self.assertEqual(len(small.rows), 6)

    def test_in_a_pipe(self) -> None:
        command = f"{BENCH} find 'upgrade denied' --threads 5 --nodes 4 --random --tries 128 --jobs 1 | {BENCH} shrink --text - --keep 'upgrade denied' | {BENCH} sheet --text - | head -1"
        done = subprocess.run(["bash", "-o", "pipefail", "-c", command], capture_output=True, text=True, env=environment(), check=False)
        self.assertEqual((done.returncode, done.stderr), (0, ""))
        self.assertRegex(done.stdout, r"^answer 0 at \d+\n$")

    @needs("credit_sheet")
    def test_till(self) -> None:
        song = EXAMPLES / "one-song-charged-once"
        said = bench_here("shrink", "--till", f"{song}.till", f"{song}.bookings", "--keep", "repeated")
        small = notation.parse(said.out)
        # One thread does what two did.
        self.assertEqual((said.status, small.threads, [row.order for row in small.rows]), (0, 1, [1, 0, 0, 96, 97, 97]))

    @needs("credit_sheet")
    def test_threads_are_renamed_and_calls_replaced(self) -> None:
        till = EXAMPLES / "one-song-charged-once.till"
        text = "threads 3  0: read 1, go*9, upgrade, go*9, book 1, unlock, go*4  1: write, go*2, book 0, unlock, go*4  2: write, go*2, book 0, book 1"
        said = bench_here("shrink", "--till", till, "-e", f"nodes 2 {text}", "--keep", "booking denied and repeated")
        small = notation.parse(said.out)
        self.assertEqual((said.status, small.threads, small.nodes, [row.order for row in small.rows]), (0, 1, 1, [1, 0, 0, 97, 96, 96]))


class Rounds(unittest.TestCase):
    def test_found_is_never_longer_later(self) -> None:
        search = Search(Space(2, 1, 3, 1, None, None, 40), Goal("late arrival"), 3, load().path, 1)
        lengths = []
        for _ in range(6):
            search.round()
            if search.found is not None:
                lengths.append(len(search.found))
        self.assertEqual((lengths, search.tries), (sorted(lengths, reverse=True), 6 * 128))
        self.assertGreater(len(lengths), 0)

    def test_every_row_of_a_walk_is_taken(self) -> None:
        """Prefixes are rows that the library takes, and none is held up."""
        search = Search(Space(3, 2, 4, 2, None, None, 30), Goal("failures", True), 4, load().path, 1)
        search.round()
        self.assertGreater(len(search.prefixes), 10)
        for prefix in search.prefixes:
            ran = run(Schedule(3, 2, 4, prefix.rows))
            self.assertEqual((ran.sheet.answer, ran.sheet.taken), (0, len(prefix.rows)))
            self.assertNotIn(journal.HELD_UP, [entry.kind for entry in ran.journal])
            self.assertEqual(-prefix.distance, sum(line.failures for line in ran.sheet.locks[0].threads))
