"""The library's functions by ctypes, and the runs and states made from them."""

from __future__ import annotations

import random
import unittest
from concurrent.futures import ThreadPoolExecutor
from pathlib import Path

from lock_bench import BenchError, Entry, LibraryError, Row, Schedule, Sheet, Till, TillEntry, load, run, states
from lock_bench.native import Library

from .support import any_schedule, drawn_schedule, needs, stored_bookings, stored_draws, stored_runs, stored_sites, wanted_calls

WORKED = Schedule(2, 1, 2, (Row(0, 65), *[Row(0, 0)] * 5))
WORKED_JOURNAL = bytes.fromhex("00 01 01 01 02 02  21 00 01 00 00 01")


class Functions(unittest.TestCase):
    def test_worked_example(self) -> None:
        sheet, journal = load().bench_sheet(WORKED.to_bytes())
        self.assertTrue(sheet.startswith(b"answer 0 at 6\nroot 0 1 open\nnode 1 1\nqueue free 0 0\nthread 0 reading 1 0\nthread 1 idle - 0\n"))
        self.assertEqual(journal, WORKED_JOURNAL)

    def test_journal_of_another_length(self) -> None:
        ran = load().bench_sheet(WORKED.to_bytes(), 11)
        self.assertEqual((ran.sheet, ran.journal), (b"answer 4 at 0\n", b"\xee" * 11))
        self.assertEqual(load().bench_sheet(WORKED.to_bytes(), 13).journal, WORKED_JOURNAL + b"\xee")
        with self.assertRaisesRegex(BenchError, "the length of a journal must be 0 or more, not -1"):
            load().bench_sheet(WORKED.to_bytes(), -1)

    def test_entries_of_rows_not_taken(self) -> None:
        sheet, journal = load().bench_sheet(bytes.fromhex("01 01 01 02 00  00 00  40 40"))
        self.assertTrue(sheet.startswith(b"answer 7 at 1\n"))
        self.assertEqual(journal, bytes.fromhex("00 ee  21 ee"))

    def test_small_inputs_of_document_01(self) -> None:
        for answer, file in (
            (1, "01 01 01"), (2, "00 01 01 00 00"), (3, "01 01 01 01 00 00"), (5, "01 01 01 01 00 01 40"), (6, "01 01 01 01 00 00 41"),
            (7, "01 01 01 01 00 00 00"),
        ):  # fmt: skip
            self.assertEqual(Sheet.parse(load().bench_sheet(bytes.fromhex(file)).sheet).answer, answer)
        self.assertEqual(load().bench_sheet(bytes.fromhex("01 01 01 01 00 00 40"), 1).sheet, b"answer 4 at 0\n")

    def test_empty_file(self) -> None:
        self.assertEqual(load().bench_sheet(b""), (b"answer 1 at 0\n", b""))
        self.assertEqual(load().plain_sheet(b""), b"answer 1 at 0\n")
        self.assertEqual(load().dispatch_sheet(b""), (b"answer 1 at 0\n", b""))

    def test_plain_engine(self) -> None:
        sheet = load().plain_sheet(bytes.fromhex("01 01 02 03 00  00 01 00  01 40 02"))
        self.assertEqual(sheet, b"answer 0 at 3\nroot 1 open\nqueue free 0 0\nthread 0 idle - 0\nthread 1 reading - 0\n")

    @needs("record_sheet")
    def test_record(self) -> None:
        """A record in bytes, in an array and in as many bytes of it as are named; values are held too."""
        record = bytes.fromhex("01 01 01  00 01 00 21 ff ff ff ff  00 00 01 00 00 00 00 00  00 00 02 00 01 00 00 00")
        end = b"root 0 0 closed\nqueue free 0 0\nthread 0 writing - 0\nroot 0 0 open\nqueue free 0 0\nthread 0 idle - 0\n"
        self.assertEqual(load().record_sheet(record), b"answer 0 at 3\n" + end)
        self.assertEqual(load().record_sheet(bytearray(record)), b"answer 0 at 3\n" + end)
        for length, answer in ((0, b"answer 1 at 0\n"), (3, b"answer 0 at 0\n"), (11, b"answer 0 at 1\n"), (12, b"answer 3 at 0\n")):
            for lent in (record, bytearray(record)):
                self.assertTrue(load().record_sheet(lent, length).startswith(answer))
        self.assertTrue(load().record_sheet(record[:-4] + bytes(4)).startswith(b"answer 12 at 2\nentry 2 0 1\nroot 0 0 open\n"))
        self.assertTrue(load().record_sheet(record[:-6] + b"\7" + record[-5:]).startswith(b"answer 11 at 2\nentry 2 0 1\n"))

    def test_stored_runs(self) -> None:
        """The functions give what the repository's stored output says, from an implementation that is not the library's."""
        library = load()
        for stored in stored_runs("plain_runs"):
            self.assertEqual(library.plain_sheet(stored.file), stored.sheet(), stored.name)
        for stored in stored_runs("dispatch_runs"):
            given = library.dispatch_sheet(stored.file)
            self.assertEqual(given.sheet, stored.sheet(), stored.name)
            # Where no schedule is given, the first five bytes of the buffer are printed as they were.
            self.assertEqual(given.schedule or b"\xee" * 5, stored.listed("bytes"), stored.name)
        for stored in stored_draws():
            given = library.draw_sheet(stored.file, stored.till or b"")
            self.assertEqual(given.sheet, stored.sheet(), stored.name)
            self.assertEqual(given.schedule or b"\xee" * 5, stored.listed("bytes"), stored.name)
        for stored in stored_runs("runs"):
            journal = stored.listed("kinds") + stored.listed("words")
            self.assertEqual(library.bench_sheet(stored.file, len(journal)), (stored.sheet(), journal), stored.name)

    def test_stored_sites(self) -> None:
        """Of sites too."""
        library = load()
        for stored in stored_sites():
            sheet = library.site_sheet(stored.file, stored.till or b"")
            self.assertEqual([*sheet.decode().splitlines(), f"length {len(sheet)}"], stored.lines, stored.name)

    def test_dispatcher(self) -> None:
        given = load().dispatch_sheet(bytes.fromhex("01 01 01 02 00  00 00  40 02"))
        self.assertEqual(given.schedule, bytes.fromhex("01 01 01 06 00  00 00 00 00 00 00  40 00 00 02 00 00"))
        self.assertTrue(given.sheet.startswith(b"answer 0 at 6\n"))

    @needs("draw_sheet")
    def test_turns(self) -> None:
        """A turn of no thread is passed over, and one of a thread that rests; without turns no step is given."""
        wanted = bytes.fromhex("01 01 02 02 00  00 00  40 02")
        given = load().draw_sheet(wanted, bytes((0, 1, 2, 255, 0, 0)))
        self.assertEqual(given.schedule, bytes.fromhex("01 01 02 03 00  00 00 00  40 00 00"))
        self.assertTrue(given.sheet.startswith(b"answer 0 at 3\n"))
        self.assertEqual(load().draw_sheet(wanted, b"").schedule, bytes.fromhex("01 01 02 00 00"))
        self.assertEqual(load().draw_sheet(b"", bytes(9)), (b"answer 1 at 0\n", b""))
        self.assertEqual(load().draw_sheet(wanted, bytes((0, 1)) * 99), load().dispatch_sheet(wanted))

    def test_no_schedule_after_refused_file(self) -> None:
        for file in (b"", bytes.fromhex("00 01 01 00 00"), bytes.fromhex("01 01 01 01 00")):
            self.assertEqual(load().dispatch_sheet(file).schedule, b"")
        self.assertEqual(load().dispatch_sheet(bytes.fromhex("01 01 01 01 00 00 00")).schedule, bytes.fromhex("01 01 01 00 00"))

    @needs("ticket_sheet")
    def test_ticket_lock(self) -> None:
        sheet = load().ticket_sheet(bytes.fromhex("02 03 00 ff ff  00 01 00  01 01 00"))
        self.assertEqual(sheet, b"answer 0 at 3\nticket 1\ngrant 65535\nthread 0 holding\nthread 1 near\n")

    @needs("credit_sheet")
    def test_till(self) -> None:
        file = bytes.fromhex("01 01 01 04 00  00 00 00 00  01 00 00 60")
        sheet, journal = load().credit_sheet(file, Till(2, (TillEntry(1, 20),)).to_bytes())
        self.assertTrue(sheet.startswith(b"answer 0 at 4\n"))
        self.assertTrue(sheet.endswith(b"room 0 0\nroom 1 20\n"))
        self.assertEqual(journal, bytes.fromhex("00 01 02 0b  21 00 00 21"))
        self.assertEqual(load().credit_sheet(file, b"").sheet, b"answer 10 at 0\n")

    @needs("credit_sheet")
    def test_journal_of_bookings(self) -> None:
        """Kinds 11, 12 and 13 on word 33, whatever the entry; an untouched journal after a refused till, and after one that is too short."""
        file = Schedule(1, 1, 1, tuple(Row(0, order) for order in (1, 0, 0, 97, 96, 97, 96, 97))).to_bytes()
        till = Till(1, (TillEntry(0, 5), TillEntry(0, -5))).to_bytes()
        sheet, journal = load().credit_sheet(file, till)
        self.assertTrue(sheet.startswith(b"answer 0 at 8\n"))
        self.assertTrue(sheet.endswith(b"\nroom 0 0\n"))
        self.assertEqual(journal, bytes.fromhex("00 01 02 0d 0b 0b 0c 0c  21 00 00 21 21 21 21 21"))
        self.assertEqual(load().credit_sheet(file, till, 15), (b"answer 4 at 0\n", b"\xee" * 15))
        # 10 comes before 4.
        self.assertEqual(load().credit_sheet(file, till[:-1], 15), (b"answer 10 at 0\n", b"\xee" * 15))

    @needs("credit_sheet")
    def test_stored_bookings(self) -> None:
        """The stored runs with a till."""
        tried = 0
        for stored in stored_bookings():
            assert stored.till is not None
            journal = stored.listed("kinds") + stored.listed("words")
            ran = load().credit_sheet(stored.file, stored.till, len(journal))
            self.assertEqual(ran, (stored.sheet(), journal), stored.name)
            tried += 1
        self.assertGreater(tried, 50)

    def test_several_threads_at_once(self) -> None:
        rng = random.Random(10)
        files = [drawn_schedule(rng, 30).to_bytes() for _ in range(20)] * 20
        alone = [load().bench_sheet(file) for file in files]
        with ThreadPoolExecutor(8) as pool:
            self.assertEqual(list(pool.map(load().bench_sheet, files)), alone)


class Loading(unittest.TestCase):
    def test_each_library_is_loaded_once(self) -> None:
        self.assertIs(load(), load())
        self.assertIs(load(load().path), load())

    def test_no_such_library(self) -> None:
        with self.assertRaisesRegex(LibraryError, "^no/such/library.so: cannot load the library: "):
            Library(Path("no/such/library.so"))

    def test_no_such_function(self) -> None:
        self.assertFalse(load().has("no_sheet"))
        with self.assertRaisesRegex(LibraryError, "the library has no function no_sheet$"):
            load()._sheet("no_sheet", b"")


class Runs(unittest.TestCase):
    def test_run(self) -> None:
        ran = run(WORKED)
        self.assertEqual(ran.schedule, WORKED)
        self.assertEqual(ran.journal, tuple(map(Entry, WORKED_JOURNAL[:6], WORKED_JOURNAL[6:])))
        self.assertEqual(ran.sheet.locks[0].threads[0].ticket, 1)

    def test_states_are_sheets_of_first_rows(self) -> None:
        rng = random.Random(11)
        for schedule in (WORKED, *(drawn_schedule(rng, 40) for _ in range(20)), Schedule(1, 1, 1, ())):
            after = list(states(schedule))
            self.assertEqual(len(after), len(schedule.rows) + 1)
            for i, state in enumerate(after):
                self.assertEqual(state, run(schedule.first(i)).sheet)

    def test_refused_row_ends_the_states(self) -> None:
        schedule = Schedule(1, 1, 1, (Row(0, 64), Row(0, 64), Row(0, 0)))
        self.assertEqual((run(schedule).sheet.answer, run(schedule).sheet.taken, len(run(schedule).journal)), (7, 1, 1))
        self.assertEqual(len(list(states(schedule))), 2)

    def test_refused_file_has_no_states(self) -> None:
        self.assertEqual(list(states(Schedule(0, 1, 1, (Row(0, 64),)))), [])
        self.assertEqual(run(Schedule(0, 1, 1, (Row(0, 64),))).journal, ())

    def test_any_schedules(self) -> None:
        rng = random.Random(12)
        for _ in range(300):
            schedule = any_schedule(rng)
            ran = run(schedule)
            self.assertEqual(len(ran.journal), ran.sheet.taken)
            self.assertEqual(len(list(states(schedule))), ran.sheet.taken + 1 if ran.sheet.locks else 0)

    def test_dispatched_schedules(self) -> None:
        rng = random.Random(13)
        for _ in range(20):
            given = load().dispatch_sheet(wanted_calls(rng, 20).to_bytes())
            ran = run(Schedule.from_bytes(given.schedule))
            self.assertEqual(ran.sheet.to_bytes(), given.sheet)
