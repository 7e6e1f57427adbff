"""What a site wants, and the random schedules drawn for it."""

from __future__ import annotations

import random
import unittest
from collections import Counter
from collections.abc import Iterable
from itertools import islice

from lock_bench import BenchError, Row, Schedule, Sheet, load, notation, orders, run, states
from lock_bench.draw import drawn_schedule
from lock_bench.site import Shape, Site, calls_of, shapes

SITES = (
    Site(1, 10, 10, 20),
    Site(3, 30, 10, 30),
    Site(5, 0, 0, 40),
    Site(6, 10, 40, 60, "nodes", 3),
    Site(9, 50, 50, 60),
    Site(19, 10, 5, 80, seed=-4),
)
TREES = (Shape(1, (1,)), Shape(2, (1,)), Shape(7, (2,)), Shape(9, (8,)), Shape(6, (1,)), Shape(32, (3,)))


def parents(nodes: int, fan: int) -> list[int]:
    """Document 01's tree: the parent of each node above 0."""
    return [(node - 1) // fan for node in range(1, nodes)]


def _letter(order: int) -> str:
    return "w" if order == orders.WRITE_LOCK else "r" if order >= orders.READ_LOCK else "-uU"[order - 1]


def drawn_slowly(wanted: Schedule, turns: Iterable[int]) -> Schedule:
    """The same as ``drawn_schedule``, with a sheet for each turn."""
    calls = {thread: [row.order for row in wanted.rows if row.thread == thread] for thread in range(wanted.threads)}
    rows: list[Row] = []
    for thread in turns:
        lines = run(Schedule(wanted.nodes, wanted.fan, wanted.threads, tuple(rows))).sheet.locks[0].threads
        if len(rows) == 4096 or all(line.standing == "asleep" or line.standing != "calling" and not calls[number] for number, line in enumerate(lines)):
            break
        if lines[thread].standing == "calling":
            rows.append(Row(thread, orders.GO_ON))
        elif lines[thread].standing != "asleep" and calls[thread]:
            rows.append(Row(thread, calls[thread].pop(0)))
    return Schedule(wanted.nodes, wanted.fan, wanted.threads, tuple(rows))


class Shapes(unittest.TestCase):
    def test_each_tree_once(self) -> None:
        for nodes in range(1, 33):
            trees = [parents(nodes, fan) for fan in range(1, 17)]
            found = shapes([nodes], range(1, 17))
            self.assertEqual([fan for shape in found for fan in shape.fans], list(range(1, 17)))
            self.assertEqual(len(found), len({tuple(tree) for tree in trees}))
            for shape in found:
                self.assertEqual({tuple(parents(nodes, fan)) for fan in shape.fans}, {tuple(parents(nodes, shape.fan))})

    def test_order_and_repetition(self) -> None:
        found = shapes([3, 1, 3], [4, 2, 1, 4])
        self.assertEqual(list(map(str, found)), ["N 1 F 1-2,4", "N 3 F 1", "N 3 F 2,4"])

    def test_leaves(self) -> None:
        for nodes in range(1, 33):
            for fan in range(1, 17):
                inner = set(parents(nodes, fan))
                self.assertEqual(Shape(nodes, (fan,)).leaves(), [node for node in range(nodes) if node not in inner])


class Wants(unittest.TestCase):
    def test_shares_are_exact(self) -> None:
        """Of 40 critical sections 10 % write and 25 % upgrade, whatever is drawn."""
        site = Site(8, 10, 25, 90)
        self.assertEqual((site.sections, site.wanted_calls), (40, 90))
        for number in range(20):
            counted = Counter(row.order for row in site.wanted(Shape(1, (1,)), number).rows)
            self.assertEqual(counted, {orders.WRITE_LOCK: 4, orders.UPGRADE: 10, orders.READ_LOCK: 36, orders.UNLOCK: 40})

    def test_shares_that_do_not_come_out_even(self) -> None:
        for writers, upgrades in ((0, 0), (100, 0), (0, 100), (50, 50), (33.3, 33.3), (99.5, 0.5), (2.5, 12.25)):
            for calls in (10, 11, 12, 97):
                site = Site(3, writers, upgrades, calls)
                wanted = site.wanted(Shape(3, (2,)), 0)
                self.assertEqual(len(wanted.rows), site.wanted_calls)
                self.assertIn(site.wanted_calls - calls, (0, 1, 2))
                self.assertLess(calls_of(site.sections - 1, writers, upgrades), calls)
                counted = Counter(row.order for row in wanted.rows)
                self.assertEqual(counted[orders.UNLOCK], site.sections)
                self.assertLessEqual(abs(counted[orders.WRITE_LOCK] - writers * site.sections / 100), 0.5)
                self.assertLessEqual(abs(counted[orders.UPGRADE] - upgrades * site.sections / 100), 1)

    def test_shares_of_every_stretch(self) -> None:
        """Every 20 critical sections have their share, so that a run that ends early has too."""
        for writers, upgrades in ((5, 0), (10, 25), (33.3, 0.4), (0, 100), (50, 49.9)):
            site = Site(1, writers, upgrades)
            self.assertTrue(4094 <= site.wanted_calls <= 4096)
            text = "".join(_letter(row.order) for row in site.wanted(Shape(1, (1,)), 3).rows)
            sections = text.split("u")[:-1]
            self.assertEqual(len(sections), site.sections)
            for end in range(20, len(sections) + 1, 20):
                self.assertLessEqual(abs(sections[:end].count("w") - writers * end / 100), 0.5)
                self.assertLessEqual(abs(sections[:end].count("rU") - upgrades * end / 100), 1.5)

    def test_calls_without_end(self) -> None:
        """No thread runs out of calls within the steps of a run."""
        for threads in (1, 2, 19, 64):
            site = Site(threads, 5, 5)
            drawn = drawn_schedule(site.wanted(TREES[2], 0), site.turns(0), load())
            self.assertEqual(len(drawn.rows), 4096)
            begun = Counter(row.thread for row in drawn.rows if row.order != orders.GO_ON)
            wanted = Counter(row.thread for row in site.wanted(TREES[2], 0).rows)
            self.assertTrue(all(begun[thread] < wanted[thread] for thread in range(threads)))

    def test_critical_sections_are_whole_and_dealt_round(self) -> None:
        for site in SITES:
            wanted = site.wanted(Shape(7, (2,)), 1)
            unlocks = [0] * site.threads
            for thread in range(site.threads):
                calls = [row.order for row in wanted.rows if row.thread == thread]
                text = "".join(map(_letter, calls))
                self.assertRegex(text, "^(wu|ru|rUu)*$")
                unlocks[thread] = text.count("u")
            self.assertEqual(sum(unlocks), site.sections)
            self.assertLessEqual(max(unlocks) - min(unlocks), 1)
            self.assertGreaterEqual(min(unlocks), 1)

    def test_routes(self) -> None:
        for routes, nodes in (("leaves", [3, 4, 5, 6]), ("nodes", [0, 1, 2, 3, 4, 5, 6])):
            wanted = Site(9, 0, 0, 40, routes).wanted(Shape(7, (2,)), 0)
            for row in wanted.rows:
                self.assertIn(row.order, (orders.UNLOCK, orders.READ_LOCK + nodes[row.thread % len(nodes)]))

    def test_same_wants_on_every_shape(self) -> None:
        def kinds(shape: Shape, number: int, seed: int = 0) -> list[tuple[int, int]]:
            rows = Site(6, 20, 20, 100, seed=seed).wanted(shape, number).rows
            return [(row.thread, min(row.order, orders.READ_LOCK)) for row in rows]

        for number in range(5):
            self.assertEqual(len({tuple(kinds(shape, number)) for shape in TREES}), 1)
        self.assertEqual(len({tuple(kinds(TREES[0], number)) for number in range(5)}), 5)
        self.assertEqual(len({tuple(kinds(TREES[0], 0, seed)) for seed in range(5)}), 5)

    def test_turns(self) -> None:
        site = Site(7, 10, 0, 40)
        drawn = list(islice(site.turns(0), 7000))
        self.assertEqual(drawn, list(islice(site.turns(0), 7000)))
        self.assertNotEqual(drawn, list(islice(site.turns(1), 7000)))
        for thread in range(7):
            # Five standard deviations on either side.
            self.assertTrue(850 < drawn.count(thread) < 1150)

    def test_what_cannot_be(self) -> None:
        for site, why in (
            ((4, 60, 50, 100), "60 % that write and 50 % that upgrade are more than 100 %"),
            ((64, 10, 0, 100), "100 calls are too few for 64 threads: a critical section for each has 128"),
            ((10, 0, 50, 20), "20 calls are too few for 10 threads: a critical section for each has 25"),
            ((4, 0, 100, 4096), "4098 calls do not fit a file of wanted calls (4096 at most)"),
        ):
            with self.assertRaises(BenchError) as raised:
                Site(*site)
            self.assertEqual(str(raised.exception), why)


class Drawing(unittest.TestCase):
    def test_same_as_with_a_sheet_for_each_turn(self) -> None:
        """Held against a slow way that has nothing of it."""
        for site in SITES:
            for number, tree in enumerate(TREES):
                wanted = site.wanted(tree, number)
                self.assertEqual(drawn_schedule(wanted, site.turns(number), load()), drawn_slowly(wanted, site.turns(number)), (site, tree))

    def test_same_for_any_number_of_turns_ahead(self) -> None:
        for number in range(6):
            site, tree = Site(12, 15, 10, 60, seed=number), TREES[number]
            wanted = site.wanted(tree, number)
            drawn = drawn_schedule(wanted, site.turns(number), load())
            for ahead in (1, 2, 5, 33, 500, 5000):
                self.assertEqual(drawn_schedule(wanted, site.turns(number), load(), ahead), drawn, ahead)

    def test_every_call_is_made(self) -> None:
        for site in SITES:
            for number, tree in enumerate(TREES):
                wanted = site.wanted(tree, number)
                drawn = drawn_schedule(wanted, site.turns(number), load())
                ran = run(drawn)
                self.assertEqual((ran.sheet.answer, ran.sheet.taken), (0, len(drawn.rows)))
                self.assertLess(len(drawn.rows), 4096)
                for thread in range(site.threads):
                    begun = [row for row in drawn.rows if row.thread == thread and row.order != orders.GO_ON]
                    self.assertEqual(begun, [row for row in wanted.rows if row.thread == thread])
                self.assertEqual({line.standing for line in ran.sheet.locks[0].threads}, {"idle"})

    def test_sleepers_get_no_turn(self) -> None:
        slept = 0
        for number in range(4):
            site = Site(6, 40, 0, 60, seed=number)
            drawn = drawn_schedule(site.wanted(TREES[2], number), site.turns(number), load())
            for row, before in zip(drawn.rows, states(drawn)):
                self.assertNotEqual(before.locks[0].threads[row.thread].standing, "asleep")
                slept += any(line.standing == "asleep" for line in before.locks[0].threads)
        self.assertGreater(slept, 100)

    def test_every_thread_has_the_same_chance(self) -> None:
        """While all can move, the rows are the turns."""
        site = Site(5, 0, 0, 400)
        drawn = drawn_schedule(site.wanted(Shape(1, (1,)), 0), site.turns(0), load())
        self.assertEqual([row.thread for row in drawn.rows[:200]], list(islice(site.turns(0), 200)))

    def test_cut_at_4096_rows(self) -> None:
        site = Site(64, 20, 0, 600)
        wanted = site.wanted(Shape(7, (2,)), 0)
        drawn = drawn_schedule(wanted, site.turns(0), load())
        self.assertEqual(len(drawn.rows), 4096)
        self.assertEqual((run(drawn).sheet.answer, run(drawn).sheet.taken), (0, 4096))
        self.assertLess(sum(row.order != orders.GO_ON for row in drawn.rows), len(wanted.rows))
        self.assertEqual(drawn_schedule(wanted, site.turns(0), load(), 1000), drawn)

    def test_window(self) -> None:
        """A run of fewer steps is the beginning of one of more."""
        for site in SITES:
            wanted = site.wanted(TREES[4], 0)
            drawn = drawn_schedule(wanted, site.turns(0), load())
            for most in (1, 17, 100):
                self.assertEqual(drawn_schedule(wanted, site.turns(0), load(), most=most), drawn.first(most))

    def test_turns_that_end(self) -> None:
        wanted = notation.parse("threads 2 0: read 0, unlock 1: write, unlock")
        drawn = drawn_schedule(wanted, [0, 0, 1, 1, 0], load())
        self.assertEqual(notation.print_schedule(drawn, numbers=True), "N = 1, F = 1, T = 2:\n0:64,0 1:1,0 0:0\n")
        self.assertEqual(drawn_schedule(wanted, [], load()).rows, ())
        self.assertEqual(drawn_schedule(Schedule(1, 1, 2, ()), [0, 1], load()).rows, ())
        # A thread that wants nothing is passed over for as long as its turns come.
        self.assertEqual(drawn_schedule(notation.parse("threads 2 0: read 0"), [1] * 1000 + [0, 1, 0, 0, 0], load()).rows, (Row(0, 64), Row(0, 0), Row(0, 0)))

    def test_sleepers_that_nobody_wakes(self) -> None:
        """Thread 0 keeps the lock: the others sleep in the end, and nobody can move."""
        wanted = notation.parse("threads 3 0: write 1: read 0, unlock 2: write, unlock")
        drawn = drawn_schedule(wanted, [0, 0, 0] + [1, 2] * 30, load())
        self.assertEqual([line.standing for line in run(drawn).sheet.locks[0].threads], ["writing", "asleep", "asleep"])

    def test_calls_that_do_not_suit(self) -> None:
        with self.assertRaisesRegex(BenchError, "^row 3: thread 0 wants 'write', which is refused with 7$"):
            drawn_schedule(notation.parse("0: read 0, write"), [0] * 9, load())
        with self.assertRaisesRegex(BenchError, "^row 0: thread 1 wants 'read 1', which is refused with 6$"):
            drawn_schedule(notation.parse("threads 2 1: read 1"), [0, 1, 1], load())
        with self.assertRaisesRegex(BenchError, "sizes is refused with 2$"):
            drawn_schedule(Schedule(33, 1, 1, (Row(0, 64),)), [0], load())
        with self.assertRaisesRegex(BenchError, "^row 1: there is no thread 2$"):
            drawn_schedule(Schedule(1, 1, 2, (Row(1, 64), Row(2, 64))), [0], load())

    def test_seldom_asked(self) -> None:
        """The library is asked far less than once for each row, which is what the turns drawn ahead are for."""
        asked = 0

        class Counting:
            def bench_sheet(self, file: bytes, journal_length: int | None = None) -> object:
                nonlocal asked
                asked += 1
                return load().bench_sheet(file, journal_length)

        site = Site(19, 10, 0, 100)
        drawn = drawn_schedule(site.wanted(TREES[2], 0), site.turns(0), Counting())  # type: ignore[arg-type]
        self.assertLess(asked, len(drawn.rows) / 4)


class Same(unittest.TestCase):
    def test_shapes_that_are_the_same_tree(self) -> None:
        """The library gives the same for every fan-out that makes the same tree."""
        rng = random.Random(60)
        site = Site(6, 20, 10, 40)
        for shape in rng.sample([shape for shape in shapes(range(1, 17), range(1, 17)) if len(shape.fans) > 1], 6):
            wanted = site.wanted(shape, 0)
            given = {load().dispatch_sheet(Schedule(shape.nodes, fan, 6, wanted.rows).to_bytes()).schedule[5:] for fan in shape.fans}
            self.assertEqual(len(given), 1)
            drawn = {drawn_schedule(Schedule(shape.nodes, fan, 6, wanted.rows), site.turns(0), load()).rows for fan in shape.fans}
            self.assertEqual(len(drawn), 1)
            sheets = {Sheet.parse(load().bench_sheet(Schedule(shape.nodes, fan, 6, next(iter(drawn))).to_bytes()).sheet) for fan in shape.fans}
            self.assertEqual(len(sheets), 1)
