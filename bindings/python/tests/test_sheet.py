"""Sheets: parsed, and printed back byte for byte."""

from __future__ import annotations

import random
import unittest

from lock_bench import BenchError, LockState, Queue, Root, Row, Sheet, ThreadLine, TicketSchedule, TicketSheet, load

from .support import any_schedule, drawn_schedule, good_till, needs, stored_runs, wanted_calls

TWO_LOCKS = b"""\
answer 0 at 6
root 0 1 open
node 1 1
queue free 0 0
thread 0 reading 1 0
thread 1 idle - 3
root 0 0 closed
node 1 0
queue 1 2 1
thread 0 asleep - 0
thread 1 calling - 12
room 0 17
room 1 0
"""


class Parsing(unittest.TestCase):
    def comes_back(self, sheet: bytes) -> None:
        self.assertEqual(Sheet.parse(sheet).to_bytes(), sheet)

    def test_two_locks_and_rooms(self) -> None:
        first = LockState(Root(0, 1, False), (1,), Queue(None, 0, 0), (ThreadLine("reading", 1, 0), ThreadLine("idle", None, 3)))
        second = LockState(Root(0, 0, True), (0,), Queue(1, 2, 1), (ThreadLine("asleep", None, 0), ThreadLine("calling", None, 12)))
        self.assertEqual(Sheet.parse(TWO_LOCKS), Sheet(0, 6, (first, second), (17, 0)))
        self.comes_back(TWO_LOCKS)

    def test_plain_engine(self) -> None:
        sheet = b"answer 0 at 1\nroot 2 closed\nqueue free 0 0\nthread 0 writing - 0\n"
        self.assertEqual(Sheet.parse(sheet).locks[0].root, Root(2, None, True))
        self.assertEqual(Sheet.parse(sheet).locks[0].root.count, 2)
        self.comes_back(sheet)

    def test_refused_file(self) -> None:
        self.assertEqual(Sheet.parse(b"answer 3 at 0\n"), Sheet(3, 0))
        self.comes_back(b"answer 3 at 0\n")

    def test_stored_runs(self) -> None:
        for crate, least in (("runs", 300), ("plain_runs", 100), ("dispatch_runs", 75)):
            sheets = [run.sheet() for run in stored_runs(crate)]
            self.assertGreaterEqual(len(sheets), least, crate)
            for sheet in sheets:
                self.comes_back(sheet)

    def test_drawn_schedules(self) -> None:
        rng = random.Random(5)
        library = load()
        for _ in range(60):
            schedule = drawn_schedule(rng, 40)
            for i in range(len(schedule.rows) + 1):
                sheet = library.bench_sheet(schedule.first(i).to_bytes()).sheet
                self.comes_back(sheet)
                self.assertEqual((Sheet.parse(sheet).answer, Sheet.parse(sheet).taken), (0, i))

    def test_any_schedules(self) -> None:
        rng = random.Random(6)
        library = load()
        for _ in range(1000):
            schedule = any_schedule(rng)
            sizes = bytes((rng.randint(0, 33), rng.randint(0, 17), rng.randint(0, 65)))
            file = sizes + schedule.to_bytes()[3:]
            for sheet in (library.bench_sheet(file).sheet, library.plain_sheet(file), library.dispatch_sheet(file).sheet):
                self.comes_back(sheet)

    def test_dispatched(self) -> None:
        rng = random.Random(7)
        library = load()
        for _ in range(100):
            given = library.dispatch_sheet(wanted_calls(rng, 60).to_bytes())
            self.comes_back(given.sheet)
            self.comes_back(library.bench_sheet(given.schedule).sheet)

    @needs("credit_sheet")
    def test_tills(self) -> None:
        rng = random.Random(8)
        for _ in range(40):
            till = good_till(rng)
            schedule = drawn_schedule(rng, 40, till)
            sheet = load().credit_sheet(schedule.to_bytes(), till.to_bytes()).sheet
            self.comes_back(sheet)
            self.assertEqual(len(Sheet.parse(sheet).rooms), till.rooms)


    @needs("ticket_sheet")
    def test_ticket_lock(self) -> None:
        rng = random.Random(14)
        answers = set()
        for _ in range(500):
            threads = rng.randint(1, 64)
            rows = tuple(Row(rng.randrange(min(threads, 3)), rng.randrange(3)) for _ in range(rng.randrange(30)))
            schedule = TicketSchedule(threads, rng.choice((0, 65530, 65535, rng.randrange(65536))), rows)
            sheet = load().ticket_sheet(schedule.to_bytes())
            self.assertEqual(TicketSheet.parse(sheet).to_bytes(), sheet)
            answers.add(TicketSheet.parse(sheet).answer)
        self.assertEqual(answers, {0, 7})


class Damaged(unittest.TestCase):
    def test_lines_are_named(self) -> None:
        for line, new, message in (
            (1, b"answer 0 at", "line 1: not a line of a sheet: 'answer 0 at'"),
            (1, b"answer 00 at 6", "line 1: "),
            (2, b"root 0 1 shut", "line 2: not a line of a sheet: 'root 0 1 shut'"),
            (3, b"node 2 1", "line 3: expected number 1, found 'node 2 1'"),
            (3, b"node 1 -1", "line 3: "),
            (4, b"queue free 0", "line 4: "),
            (4, b"", "line 4: expected a queue line, found ''"),
            (5, b"thread 0 sitting - 0", "line 5: "),
            (6, b"thread 2 idle - 3", "line 6: expected number 1, found 'thread 2 idle - 3'"),
            (12, b"room 1 0", "line 12: expected number 0, found 'room 1 0'"),
            (13, b"room 1 0 0", "line 13: "),
            (13, b"thread 2 idle - 0", "line 13: expected no further line, found 'thread 2 idle - 0'"),
            (13, b"\xff", r"line 13: expected no further line, found '\\xff'"),
        ):
            lines = TWO_LOCKS.split(b"\n")
            lines[line - 1] = new
            with self.assertRaisesRegex(BenchError, f"^sheet, {message}"):
                Sheet.parse(b"\n".join(lines))

    def test_ends(self) -> None:
        with self.assertRaisesRegex(BenchError, "line 13: the last line has no newline"):
            Sheet.parse(TWO_LOCKS[:-1])
        with self.assertRaisesRegex(BenchError, "line 1: the last line has no newline"):
            Sheet.parse(b"")
        with self.assertRaisesRegex(BenchError, "line 4: expected a queue line, found the end"):
            Sheet.parse(b"".join(TWO_LOCKS.splitlines(keepends=True)[:3]))

    def test_any_damage_is_named_or_comes_back(self) -> None:
        """A damaged sheet is refused, or it is another sheet, and then it comes back as it is."""
        rng = random.Random(9)
        refused = 0
        for _ in range(5000):
            sheet = bytearray(TWO_LOCKS)
            for _ in range(rng.randint(1, 3)):
                place = rng.randrange(len(sheet))
                match rng.randrange(3):
                    case 0:
                        sheet[place] = rng.randrange(256)
                    case 1:
                        del sheet[place]
                    case _:
                        sheet.insert(place, rng.choice(b"0123456789 -\nadeinoprt"))
            try:
                self.assertEqual(Sheet.parse(bytes(sheet)).to_bytes(), bytes(sheet))
            except BenchError as error:
                self.assertRegex(str(error), "^sheet, line [0-9]+: ")
                refused += 1
        self.assertGreater(refused, 3000)
        self.assertLess(refused, 5000)
