"""``./bench draw``: what is drawn is taken by the bench, whole, and is the same for the same seed."""

from __future__ import annotations

import tempfile
import unittest
from itertools import chain
from pathlib import Path

from lock_bench import notation, orders
from lock_bench.draw import drawn_file
from lock_bench.native import load
from lock_bench.random_schedules import Draw
from lock_bench.schedule import Schedule
from lock_bench.sheet import answer_of
from lock_bench.site import Shape, Site

from .support import bench_here, needs


def answered(schedule: Schedule) -> tuple[int, int]:
    """The bench's answer to a schedule, and the rows taken."""
    return answer_of(load().bench_sheet(schedule.to_bytes()).sheet.split(b"\n")[0])


@needs("draw_sheet")
class Draws(unittest.TestCase):
    def test_all_rows_are_taken(self) -> None:
        for draw in (Draw(1, 1, 1, 6), Draw(7, 2, 4, 10), Draw(13, 3, 19, 8), Draw(32, 4, 64, 30), Draw(3, 1, 5, 12, locks=2), Draw(32, 2, 64, 30, locks=2)):
            for number in range(5):
                schedule = draw.schedule(number, load())
                self.assertTrue(schedule.rows)
                self.assertEqual(answered(schedule), (0, len(schedule.rows)))

    def test_every_order_is_drawn(self) -> None:
        """At both locks, and read-locks by every node."""
        draw = Draw(3, 2, 6, 20, locks=2)
        drawn = {row.order for number in range(20) for row in draw.schedule(number, load()).rows}
        calls = {*range(1, 5), *range(orders.READ_LOCK, orders.READ_LOCK + 3)}
        self.assertEqual(drawn, {0} | calls | {orders.SECOND + call for call in calls})

    def test_refusals(self) -> None:
        for draw in (Draw(1, 1, 1, 4, refused=True), Draw(7, 2, 4, 6, refused=True), Draw(7, 2, 4, 6, locks=2, refused=True)):
            for number in range(6):
                schedule = draw.schedule(number, load())
                self.assertEqual(answered(schedule), ((5, 6, 7)[number % 3], len(schedule.rows) - 1))

    def test_same_seed_same_schedules(self) -> None:
        first, again, other = (Draw(7, 2, 4, 10, seed=seed).schedule(2, load()) for seed in (5, 5, 6))
        self.assertEqual(first, again)
        self.assertNotEqual(first, other)

    def test_as_it_is_drawn_row_by_row(self) -> None:
        """The library gives the steps that asking it for the state after every row gives, at the same turns."""
        for number, (threads, writers, upgrades) in enumerate(((1, 0, 0), (4, 20, 10), (19, 5, 0), (64, 10, 2))):
            site = Site(threads, writers, upgrades, calls=400, seed=number)
            wanted = site.wanted_file(Shape(7, (2,)), 0)
            turns = bytes(turn for turn, _ in zip(site.turns(0), range(2000)))
            self.assertEqual(load().draw_sheet(wanted, turns).schedule, drawn_file(wanted, turns, load()))

    def test_command(self) -> None:
        said = bench_here("draw", "--threads", 3, "--number", 2, "--seed", 4)
        self.assertEqual((said.status, said.err), (0, ""))
        texts = said.out.split("# Schedule ")[1:]
        for number, text in enumerate(texts):
            title, rows = text.split("\n", 1)
            schedule = Draw(7, 2, 3, 6, seed=4).schedule(number, load())
            self.assertEqual(title, f"{number} of seed 4: {len(schedule.rows)} rows.")
            self.assertEqual(notation.parse(rows), schedule)
        self.assertEqual(len(texts), 2)

    def test_folder(self) -> None:
        with tempfile.TemporaryDirectory() as folder:
            there = Path(folder) / "drawn"
            for _ in range(2):
                self.assertEqual(bench_here("draw", "--number", 3, "--locks", 2, "-o", there), (0, "", ""))
            files = sorted(there.iterdir())
            self.assertEqual([file.name for file in files], ["drawn-0.schedule", "drawn-1.schedule", "drawn-2.schedule"])
            rows = chain.from_iterable(Schedule.from_bytes(file.read_bytes()).rows for file in files)
            self.assertEqual({row.order >= orders.SECOND for row in rows}, {False, True})
            self.assertEqual(bench_here("draw", "-o", Path(folder) / "no" / "such").status, 1)

    def test_two_locks_need_two_threads(self) -> None:
        said = bench_here("draw", "--threads", 1, "--locks", 2)
        self.assertEqual((said.status, said.out, said.err), (2, "", "bench: two locks need two threads at least\n"))
