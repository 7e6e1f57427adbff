"""Orders, schedules, tills, files of the ticket lock and journals as values."""

from __future__ import annotations

import pickle
import random
import unittest

from lock_bench import (
    BenchError,
    Entry,
    Journal,
    LibraryError,
    NotationError,
    Row,
    Schedule,
    TicketSchedule,
    TicketSheet,
    Till,
    TillEntry,
    order_of,
    orders,
    words,
)

from .support import any_schedule, any_till


class Errors(unittest.TestCase):
    def test_texts(self) -> None:
        self.assertEqual(str(BenchError("too long")), "too long")
        self.assertEqual(str(BenchError("too long", "row 3")), "row 3: too long")
        self.assertEqual(str(NotationError("no order", "a.txt", 3, 7)), "a.txt:3:7: no order")
        for kind in (NotationError("", "", 1, 1), LibraryError("")):
            self.assertIsInstance(kind, BenchError)
        self.assertIsInstance(BenchError(""), ValueError)

    def test_they_pass_between_processes(self) -> None:
        for error in (BenchError("a", "b"), BenchError("a"), NotationError("a", "b", 1, 2), LibraryError("a", "b")):
            again = pickle.loads(pickle.dumps(error))
            self.assertEqual((type(again), str(again), vars(again)), (type(error), str(error), vars(error)))


class Orders(unittest.TestCase):
    def test_each_has_words_that_give_it_back(self) -> None:
        self.assertEqual(len({words(order) for order in range(256)}), 256)
        for order in range(256):
            self.assertEqual(order_of(words(order)), order)
            self.assertEqual(order_of(str(order)), order)
            self.assertEqual(order_of(f" order  {order} "), order)

    def test_words(self) -> None:
        for order, text in (
            (0, "go"), (1, "write"), (2, "unlock"), (3, "upgrade"), (4, "downgrade"), (5, "order 5"), (63, "order 63"), (64, "read 0"), (95, "read 31"),
            (96, "book 0"), (127, "book 31"), (128, "order 128"), (129, "write second"), (132, "downgrade second"), (133, "order 133"),
            (192, "read 0 second"), (223, "read 31 second"), (224, "order 224"), (255, "order 255"),
        ):  # fmt: skip
            self.assertEqual(words(order), text)

    def test_what_is_none(self) -> None:
        for text in ("", "read", "read 32", "book 32", "go second", "book 3 second", "order", "order 256", "256", "-1", "write third", "read ³", "٣", "9" * 5000):
            with self.assertRaises(BenchError, msg=text):
                order_of(text)
        for number in (-1, 256):
            with self.assertRaisesRegex(BenchError, f"^order must be 0 to 255, not {number}$"):
                words(number)

    def test_numbers_are_those_of_the_documents(self) -> None:
        self.assertEqual((orders.GO_ON, orders.WRITE_LOCK, orders.UNLOCK, orders.UPGRADE, orders.DOWNGRADE), (0, 1, 2, 3, 4))
        self.assertEqual((orders.READ_LOCK, orders.BOOK, orders.SECOND), (64, 96, 128))


class Schedules(unittest.TestCase):
    def test_worked_example(self) -> None:
        schedule = Schedule(2, 1, 2, (Row(0, 65), *[Row(0, 0)] * 5))
        self.assertEqual(schedule.to_bytes(), bytes.fromhex("02 01 02 06 00  00 00 00 00 00 00  41 00 00 00 00 00"))
        self.assertEqual(Schedule.from_bytes(schedule.to_bytes()), schedule)
        self.assertEqual(schedule.first(1), Schedule(2, 1, 2, (Row(0, 65),)))

    def test_any_bytes_come_back(self) -> None:
        rng = random.Random(1)
        for _ in range(500):
            schedule = any_schedule(rng, 300)
            file = schedule.to_bytes()
            self.assertEqual(Schedule.from_bytes(file), schedule)
            self.assertEqual(Schedule.from_bytes(file).to_bytes(), file)

    def test_most_rows(self) -> None:
        rows = (Row(255, 255),) * 65535
        self.assertEqual(Schedule.from_bytes(Schedule(1, 1, 1, rows).to_bytes()).rows, rows)
        with self.assertRaisesRegex(BenchError, "65536 rows do not fit the file"):
            Schedule(1, 1, 1, (*rows, Row(0, 0)))

    def test_what_no_file_can_hold(self) -> None:
        good = Row(0, 0)
        for sizes, rows, message in (
            ((256, 1, 1), (), r"^nodes must be 0 to 255, not 256$"),
            ((1, -1, 1), (), "^fan must be .* not -1"),
            ((1, 1, 1000), (), "^threads must be .* not 1000"),
            ((1, 1, 1), (good, good, good, Row(300, 0)), r"^row 3: thread must be 0 to 255, not 300$"),
            ((1, 1, 1), (good, Row(0, -1)), "^row 1: order must be .* not -1"),
            ((1, 1, 1), (good, Row("1", 0)), "^row 1: thread must be a whole number, not '1'$"),  # type: ignore[arg-type]
            ((1, 1, 1), (Row(0, 1.0),), "^row 0: order must be a whole number, not 1.0$"),  # type: ignore[arg-type]
            (("a", 1, 1), (), "^nodes must be a whole number, not 'a'$"),
        ):
            with self.assertRaisesRegex(BenchError, message):
                Schedule(*sizes, rows)  # type: ignore[arg-type]

    def test_what_the_bench_refuses_is_a_value(self) -> None:
        self.assertEqual(Schedule(0, 17, 65, (Row(9, 5),)).to_bytes(), bytes((0, 17, 65, 1, 0, 9, 5)))

    def test_files_that_are_none(self) -> None:
        for file, message in (
            (b"", "^f: not a schedule: 0 bytes, and its sizes alone take 5$"),
            (b"\1\1\1\0", "^f: not a schedule: 4 bytes"),
            (b"\1\1\1\1\0\0", "^f: not a schedule: 6 bytes, and with 1 rows it must have 7$"),
            (b"\1\1\1\0\0\0", "^f: not a schedule: 6 bytes, and with 0 rows it must have 5$"),
        ):
            with self.assertRaisesRegex(BenchError, message):
                Schedule.from_bytes(file, "f")

    def test_first_rows(self) -> None:
        schedule = any_schedule(random.Random(2))
        self.assertEqual(schedule.first(len(schedule.rows)), schedule)
        for i in (-1, len(schedule.rows) + 1):
            with self.assertRaisesRegex(BenchError, f"no first {i} rows"):
                schedule.first(i)


class Tills(unittest.TestCase):
    def test_bytes(self) -> None:
        till = Till(2, (TillEntry(1, 20), TillEntry(0, -3), TillEntry(1, -0x8000)))
        self.assertEqual(till.to_bytes(), bytes.fromhex("02 03  01 00 01  14 00 fd ff 00 80"))
        self.assertEqual(Till.from_bytes(till.to_bytes()), till)

    def test_any_bytes_come_back(self) -> None:
        rng = random.Random(3)
        for _ in range(500):
            till = any_till(rng)
            self.assertEqual(Till.from_bytes(till.to_bytes()), till)
            self.assertEqual(Till.from_bytes(till.to_bytes()).to_bytes(), till.to_bytes())

    def test_what_no_file_can_hold(self) -> None:
        for rooms, entries, message in (
            (256, (), "^rooms must be .* not 256"),
            (1, (TillEntry(0, 0), TillEntry(-1, 0)), "^entry 1: room must be .* not -1"),
            (1, (TillEntry(0, 0x8000),), r"^entry 0: amount must be -32768 to 32767, not 32768$"),
            (1, (TillEntry(0, 0),) * 256, "^256 entries do not fit"),
        ):
            with self.assertRaisesRegex(BenchError, message):
                Till(rooms, entries)

    def test_files_that_are_none(self) -> None:
        for file, message in ((b"\1", "^t: not a till: 1 bytes"), (b"\1\1\0\0", "^t: not a till: 4 bytes, and with 1 entries it must have 5$")):
            with self.assertRaisesRegex(BenchError, message):
                Till.from_bytes(file, "t")


class Tickets(unittest.TestCase):
    def test_bytes(self) -> None:
        schedule = TicketSchedule(3, 65535, (Row(2, 1), Row(2, 0)))
        self.assertEqual(schedule.to_bytes(), bytes.fromhex("03 02 00 ff ff  02 02  01 00"))
        self.assertEqual(TicketSchedule.from_bytes(schedule.to_bytes()), schedule)

    def test_any_bytes_come_back(self) -> None:
        rng = random.Random(4)
        for _ in range(500):
            schedule = TicketSchedule(rng.randrange(256), rng.randrange(65536), any_schedule(rng).rows)
            self.assertEqual(TicketSchedule.from_bytes(schedule.to_bytes()), schedule)
            self.assertEqual(TicketSchedule.from_bytes(schedule.to_bytes()).to_bytes(), schedule.to_bytes())

    def test_what_no_file_can_hold(self) -> None:
        with self.assertRaisesRegex(BenchError, "^start must be .* not 65536"):
            TicketSchedule(1, 65536, ())
        with self.assertRaisesRegex(BenchError, "^row 0: thread must be .* not 256"):
            TicketSchedule(1, 0, (Row(256, 0),))
        with self.assertRaisesRegex(BenchError, "^f: not a file of the ticket lock: 6 bytes, and with 0 rows it must have 5$"):
            TicketSchedule.from_bytes(b"\1\0\0\0\0\0", "f")

    def test_sheets_come_back(self) -> None:
        for sheet in (
            b"answer 0 at 5\nticket 2\ngrant 65535\nthread 0 holding\nthread 1 near\nthread 2 far\nthread 3 idle\n",
            b"answer 3 at 0\n",
        ):
            self.assertEqual(TicketSheet.parse(sheet).to_bytes(), sheet)
        self.assertEqual(TicketSheet.parse(b"answer 7 at 1\nticket 1\ngrant 0\nthread 0 near\n"), TicketSheet(7, 1, 1, 0, ("near",)))

    def test_sheets_that_are_none(self) -> None:
        for sheet, message in (
            (b"answer 0 at 5\nticket 2", "line 2: the last line has no newline"),
            (b"answer 0 at 5\nticket 02\ngrant 0\n", "line 2: expected the ticket line"),
            (b"answer 0 at 5\nticket 2\nticket 2\n", "line 3: expected the grant line"),
            (b"answer 0 at 5\nticket 2\n", "line 3: expected the grant line"),
            (b"answer 0 at 5\nticket 2\ngrant 0\nthread 1 idle\n", "line 4: expected the line of thread 0"),
            (b"answer 0 at 5\nticket 2\ngrant 0\nthread 0 asleep\n", "line 4: expected the line of thread 0"),
        ):
            with self.assertRaisesRegex(BenchError, message):
                TicketSheet.parse(sheet)


class Journals(unittest.TestCase):
    def test_entries(self) -> None:
        journal = Journal.from_bytes(bytes.fromhex("00 01 ee  61 41 ee"), 2, 3)
        self.assertEqual(journal, (Entry(0, 0x61), Entry(1, 0x41)))
        self.assertEqual([(entry.lock, entry.place) for entry in journal], [(1, 33), (1, 1)])
        self.assertEqual((Entry(2, 31).lock, Entry(2, 31).place), (0, 31))

    def test_lengths(self) -> None:
        self.assertEqual(Journal.from_bytes(b"", 0, 3), ())
        with self.assertRaisesRegex(BenchError, "^journal: 5 bytes; with 3 rows it must have 6$"):
            Journal.from_bytes(bytes(5), 1, 3)
        with self.assertRaisesRegex(BenchError, "^journal: rows taken must be 0 to 3, not 4$"):
            Journal.from_bytes(bytes(6), 4, 3)
