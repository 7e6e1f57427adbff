"""What schedules cost: worked by hand, and held against a sheet for each row."""

from __future__ import annotations

import random
import unittest

from lock_bench import BenchError, Schedule, Sheet, journal, load, notation, orders, run, states
from lock_bench.draw import drawn_schedule
from lock_bench.measure import Cost, Waits, cost_of
from lock_bench.site import Shape, Site
from lock_bench.sweep_standings import Standings
from lock_bench.sweep_work import given_file

from .support import any_schedule


def cost(text: str) -> Cost:
    """The cost of a schedule, as text."""
    return cost_of(notation.parse(text), load())


def got(*waits: int) -> Waits:
    """The waits for locks that were all got."""
    return Waits(len(waits), max(waits), rows=sum(waits))


def cost_slowly(schedule: Schedule) -> Cost:
    """The same as ``cost_of``, from the state after each row: a lock is waited for until its thread holds."""
    ran, after = run(schedule), list(states(schedule))
    calls = cut = 0
    over: dict[str, list[int]] = {"writing": [], "reading": []}
    still: dict[str, list[int]] = {"writing": [], "reading": []}
    for number, row in enumerate(schedule.rows):
        if row.order == orders.GO_ON:
            continue
        standings = [state.locks[0].threads[row.thread].standing for state in after[number + 1 :]]
        at_rest = [later for later, standing in enumerate(standings) if standing in ("idle", "reading", "writing")]
        calls += bool(at_rest)
        cut += not at_rest
        if row.order == orders.WRITE_LOCK or row.order >= orders.READ_LOCK:
            held = "writing" if row.order == orders.WRITE_LOCK else "reading"
            if at_rest:
                assert standings[at_rest[0]] == held
                over[held].append(at_rest[0])
            else:
                still[held].append(len(standings) - 1)
    waits = [
        Waits(len(over[held]), max(over[held], default=0), len(still[held]), max(still[held], default=0), sum(over[held] + still[held]))
        for held in ("writing", "reading")
    ]
    return Cost(
        calls=calls,
        cut=cut,
        rows=len(schedule.rows),
        failed=sum(line.failures for line in ran.sheet.locks[0].threads),
        root=sum(entry.word == 0 for entry in ran.journal),
        held_up=sum(entry.kind == journal.HELD_UP for entry in ran.journal),
        writer=waits[0],
        reader=waits[1],
    )


class ByHand(unittest.TestCase):
    def test_nothing(self) -> None:
        self.assertEqual(cost("threads 2"), Cost(0, 0, 0, 0, 0, 0, Waits(), Waits()))

    def test_one_reader(self) -> None:
        """P2: begun, root read, root swapped."""
        self.assertEqual(cost("0: read 0, go*2"), Cost(calls=1, cut=0, rows=3, failed=0, root=2, held_up=0, writer=Waits(), reader=got(2)))

    def test_reader_and_writer_alone(self) -> None:
        """P3, then P7: the unlock of a writer takes the mutex and the next group, stores the root and releases."""
        self.assertEqual(cost("0: read 0, go*2, unlock, go*2"), Cost(2, 0, 6, 0, 4, 0, Waits(), got(2)))
        self.assertEqual(cost("0: write, go*2, unlock, go*4"), Cost(2, 0, 8, 0, 3, 0, got(2), Waits()))

    def test_reader_by_a_node(self) -> None:
        """P5 and P6: on the root the look, a read and a swap, then a read and a swap to leave."""
        self.assertEqual(cost("nodes 2 0: read 1, go*5"), Cost(1, 0, 6, 0, 3, 0, Waits(), got(5)))
        self.assertEqual(cost("nodes 2 0: read 1, go*5, unlock, go*4"), Cost(2, 0, 11, 0, 5, 0, Waits(), got(5)))

    def test_colliding_readers(self) -> None:
        """Thread 0 begins at row 0 and holds from row 4 on; thread 1 begins at row 1, fails once, and holds from row 6 on."""
        self.assertEqual(cost("threads 2 0: read 0 1: read 0 0: go 1: go 0: go 1: go*2"), Cost(2, 0, 7, 1, 5, 0, Waits(), got(4, 5)))

    def test_reader_who_is_woken(self) -> None:
        """P10: thread 1 begins at row 3, sleeps from row 8 on, and holds from row 14 on, where thread 0 wakes it."""
        text = "threads 2 0: write, go*2 1: read 0, go*5 0: unlock, go*5"
        self.assertEqual(cost(text), Cost(3, 0, rows=15, failed=0, root=5, held_up=0, writer=got(2), reader=got(11)))

    def test_writer_who_is_woken(self) -> None:
        """The writer begins at row 3, closes the root and sleeps; the last reader wakes it in row 16."""
        text = "threads 2 0: read 0, go*2 1: write, go*6 0: unlock, go*6"
        self.assertEqual(cost(text), Cost(3, 0, rows=17, failed=0, root=7, held_up=0, writer=got(13), reader=got(2)))

    def test_woken_at_the_same_row(self) -> None:
        """Threads 1 and 2 begin at rows 3 and 9 and are woken in row 20."""
        text = "threads 3 0: write, go*2 1: read 0, go*5 2: read 0, go*5 0: unlock, go*5"
        self.assertEqual(cost(text), Cost(4, 0, 21, 0, 7, 0, got(2), got(17, 11)))

    def test_sleeper_who_is_cut(self) -> None:
        """P9: the read-lock is no call finished and no lock got, but one that is waited for, from row 3 to row 8."""
        still = Waits(got=0, longest=0, waiting=1, longest_waiting=5, rows=5)
        self.assertEqual(cost("threads 2 0: write, go*2 1: read 0, go*5"), Cost(1, 1, 9, 0, 4, 0, got(2), still))

    def test_held_up_at_the_mutex(self) -> None:
        """Thread 1 has the mutex from row 5 on; thread 2 begins a write-lock at row 6, is held up in rows 8 and 9, and waits still."""
        text = "threads 3 0: write, go*2 1: read 0, go*2 2: write, go*3"
        self.assertEqual(cost(text), Cost(1, 2, rows=10, failed=0, root=4, held_up=2, writer=Waits(1, 2, 1, 3, 5), reader=Waits(0, 0, 1, 6, 6)))

    def test_cut_within_an_unlock(self) -> None:
        """An unlock that is not over is no call finished, and nobody waits for it."""
        self.assertEqual(cost("0: read 0, go*2, unlock, go"), Cost(1, 1, 5, 0, 3, 0, Waits(), got(2)))

    def test_upgrade(self) -> None:
        """An upgrade is a call, and no lock that is waited for: granted by a read and a swap of the root, denied by a read (kind 10)."""
        self.assertEqual(cost("0: read 0, go*2, upgrade, go*2, unlock, go*4"), Cost(3, 0, 11, 0, 5, 0, Waits(), got(2)))
        self.assertEqual(cost("threads 2 0: read 0, go*2 1: read 0, go*2 0: upgrade, go"), Cost(3, 0, 8, 0, 5, 0, Waits(), got(2, 2)))

    def test_refused(self) -> None:
        with self.assertRaisesRegex(BenchError, "^row 3: the schedule is refused with 7$"):
            cost("0: read 0, go*3")
        with self.assertRaisesRegex(BenchError, "^the schedule is refused with 2$"):
            cost("nodes 33 0: read 0")


class HeldAgainstEveryState(unittest.TestCase):
    def test_random_and_dispatched_schedules(self) -> None:
        woke = failed = cut = 0
        for number in range(8):
            site = Site(2 + 2 * number, 15, 10, 60, ("leaves", "nodes")[number % 2], number)
            wanted = site.wanted(Shape(1 + 3 * number, (1 + number % 4,)), number)
            for schedule in (drawn_schedule(wanted, site.turns(number), load()), Schedule.from_bytes(given_file(wanted.to_bytes(), load()))):
                # Cut anywhere, so that calls are cut too.
                for rows in (len(schedule.rows), 200, 77):
                    first = schedule.first(min(rows, len(schedule.rows)))
                    found = cost_of(first, load())
                    self.assertEqual(found, cost_slowly(first), (site, rows))
                    woke += any(entry.kind == journal.WOKE for entry in run(first).journal)
                    failed += found.failed
                    cut += found.writer.waiting > 0 and found.reader.waiting > 0
        self.assertTrue(woke > 10 and failed > 100 and cut > 10, (woke, failed, cut))

    def test_full_schedule(self) -> None:
        """One of 4,096 rows, with calls that are cut."""
        site = Site(40, 2, 0, 400)
        drawn = drawn_schedule(site.wanted(Shape(7, (2,)), 0), site.turns(0), load())
        self.assertEqual(len(drawn.rows), 4096)
        found = cost_of(drawn, load())
        self.assertEqual(found, cost_slowly(drawn))
        self.assertLess(found.calls, site.wanted_calls)
        self.assertGreater(found.cut, 10)


class ReadInPart(unittest.TestCase):
    def test_same_as_the_whole_sheet(self) -> None:
        """What is read of a sheet is what the whole of it says, refused or not."""
        rng = random.Random(63)
        for _ in range(300):
            sheet = load().bench_sheet(any_schedule(rng).to_bytes()).sheet
            whole, part = Sheet.parse(sheet), Standings.parse(sheet)
            self.assertEqual((part.answer, part.taken), (whole.answer, whole.taken))
            self.assertEqual(part.threads, [line.standing.encode() for line in whole.locks[0].threads] if whole.locks else [])
        drawn = notation.parse("threads 3 0: write, go*2 1: read 0, go*5 2: read 0")
        shown = Standings.parse(load().bench_sheet(drawn.to_bytes()).sheet)
        self.assertEqual((shown.threads, shown.asleep), ([b"writing", b"asleep", b"calling"], [False, True, False]))
