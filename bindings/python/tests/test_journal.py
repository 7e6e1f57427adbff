"""Journals as a result: their bytes, the command ``journal``, and the forms that it writes."""

from __future__ import annotations

import csv
import io
import json
import random
import subprocess
import unittest

from lock_bench import Entry, Journal, Schedule, Till, journal, load, orders, recorded, run

from .support import BENCH, EXAMPLES, any_schedule, bench, bench_here, bench_in_terminal, drawn_schedule, environment, example_files, good_till, needs, stored_runs
from .test_command import InFolder

SONG = EXAMPLES / "one-song-charged-once"


class Bytes(unittest.TestCase):
    def test_the_librarys_bytes_come_back(self) -> None:
        """Of every stored run, refused ones among them, the bytes are those that the library left."""
        tried = 0
        for stored in stored_runs("runs"):
            ran = load().bench_sheet(stored.file)
            if b"root" in ran.sheet:
                found = run(Schedule.from_bytes(stored.file)).journal
                self.assertEqual(found.to_bytes(len(ran.journal) // 2), ran.journal, stored.name)
                self.assertEqual(Journal.from_bytes(found.to_bytes(), len(found), len(found)), found)
                tried += 1
        self.assertGreater(tried, 50)

    def test_specification(self) -> None:
        """Document 01's worked example, byte for byte."""
        ran = run(Schedule.from_bytes((EXAMPLES / "worked-example.schedule").read_bytes()))
        self.assertEqual(ran.journal.to_bytes().hex(" "), "00 01 01 01 02 02 21 00 01 00 00 01")

    def test_rows_not_run(self) -> None:
        self.assertEqual(Journal((Entry(0, 33),)).to_bytes(3), bytes.fromhex("00eeee21eeee"))
        self.assertEqual(Journal().to_bytes(), b"")
        with self.assertRaisesRegex(ValueError, "1 entries do not fit 0 rows"):
            Journal((Entry(0, 33),)).to_bytes(0)

    def test_names(self) -> None:
        self.assertEqual([journal.word_text(word) for word in (0, 3, 32, 33, 64, 67, 96, 97)], [
            "root", "node 3", "queue", "none", "root second", "node 3 second", "queue second", "none second",
        ])  # fmt: skip
        for word in (34, 63, 98, 128, 255):
            self.assertEqual(journal.word_text(word), f"unknown word {word}")
        self.assertEqual(journal.kind_text(3), "swap failed")
        self.assertEqual(journal.kind_text(14), "unknown kind 14")


class Command(InFolder):
    def test_table(self) -> None:
        said = bench("journal", EXAMPLES / "colliding-readers.schedule")
        self.assertEqual((said.status, said.err), (0, ""))
        lines = said.out.splitlines()
        self.assertEqual(lines[0].split(), ["row", "thread", "order", "kind", "word"])
        self.assertEqual(lines[6], "  5       1    0 go       3 swap failed   0 root")
        self.assertEqual(lines[-1], "answer 0 at 7")

    def test_forms_agree_with_the_journal(self) -> None:
        """The rows that CSV and JSON have are those of the schedule and of the library's journal, two locks and a till among them."""
        for path in example_files("schedule"):
            ran = run(Schedule.from_bytes(path.read_bytes()))
            rows = [
                {"row": i, "thread": row.thread, "order": row.order, "kind": entry.kind, "word": entry.word}
                for i, (row, entry) in enumerate(zip(ran.schedule.rows, ran.journal))
            ]
            table = list(csv.DictReader(io.StringIO(bench_here("journal", "--csv", path).out)))
            self.assertEqual([{name: int(row[name]) for name in ("row", "thread", "order", "kind", "word")} for row in table], rows)
            self.assertEqual([row["order_name"] for row in table], [orders.words(row["order"]) for row in rows])
            shown = json.loads(bench_here("journal", "--json", path).out)
            self.assertEqual([{name: row[name] for name in ("row", "thread", "order", "kind", "word")} for row in shown["journal"]], rows)
            self.assertEqual((shown["answer"], shown["taken"], shown["rows"]), (ran.sheet.answer, ran.sheet.taken, len(ran.schedule.rows)))
            self.assertEqual(bytes.fromhex(bench_here("journal", "--hex", path).out), load().bench_sheet(path.read_bytes()).journal)

    def test_bytes_to_a_file(self) -> None:
        made = self.folder / "a.journal"
        for path in example_files("schedule"):
            self.assertEqual(bench_here("journal", path, "-o", made), (0, "", ""))
            self.assertEqual(made.read_bytes(), load().bench_sheet(path.read_bytes()).journal)

    def test_ending_says_the_form(self) -> None:
        path = EXAMPLES / "late-reader.schedule"
        for form in ("csv", "json", "hex"):
            made = self.folder / f"a.{form}"
            self.assertEqual(bench_here("journal", path, "-o", made), (0, "", ""))
            self.assertEqual(made.read_text(), bench_here("journal", f"--{form}", path).out)
        other = self.folder / "b.txt"
        self.assertEqual(bench_here("journal", "--json", path, "-o", other), (0, "", ""))
        self.assertEqual(other.read_text(), bench_here("journal", "--json", path).out)

    @needs("credit_sheet")
    def test_till_and_dispatcher(self) -> None:
        said = bench_here("journal", "--till", f"{SONG}.till", f"{SONG}.bookings")
        self.assertIn(" 16       1   97 book 1  12 repeated", said.out)
        dispatched = bench_here("journal", "--dispatch", EXAMPLES / "writer-and-reader.wants")
        self.assertEqual((dispatched.status, dispatched.out.splitlines()[-1]), (0, "answer 0 at 22"))

    def test_refused(self) -> None:
        said = bench_here("journal", EXAMPLES / "refused-row.schedule")
        self.assertEqual((said.status, said.out.splitlines()[-1]), (0, "answer 7 at 6: the order does not suit the thread"))
        path = self.file("a.schedule", b"\0\1\1\0\0")
        said = bench_here("journal", path)
        self.assertEqual((said.status, said.out), (3, ""))
        self.assertIn("no journal: the file is refused with 2", said.err)

    def test_in_pipes(self) -> None:
        """Each form, through a pipe, is held to be the same; and so are the bytes."""
        for form in ("--csv", "--json", "--hex", "-o -"):
            command = f"{BENCH} journal {form} {EXAMPLES}/two-locks.schedule | {BENCH} hold {EXAMPLES}/two-locks.schedule -"
            done = subprocess.run(["bash", "-o", "pipefail", "-c", command], capture_output=True, text=True, env=environment(), check=False)
            self.assertEqual((done.returncode, done.stdout, done.stderr), (0, "the same: 20 rows\n", ""), form)

    def test_no_bytes_to_a_terminal(self) -> None:
        said = bench_in_terminal("journal", "-e", "0: read 0", "-o", "-")
        self.assertEqual((said.status, said.out), (2, "bench: bytes are not written to a terminal: name a file with -o FILE, or see --hex\n"))

    @needs("credit_sheet")
    def test_what_is_written_is_read_again(self) -> None:
        """Journals of any files and of drawn rows, in every form."""
        rng = random.Random(60)
        till = good_till(rng)
        runs = [run(any_schedule(rng)) for _ in range(40)] + [run(drawn_schedule(rng, 50)) for _ in range(5)] + [run(drawn_schedule(rng, 50, till), till)]
        tried = 0
        for ran in runs:
            if ran.sheet.locks:
                tried += 1
                for form in recorded.FORMS:
                    (record,) = recorded.read(recorded.written(ran, form), form, len(ran.schedule.rows), "a")
                    self.assertEqual([(row.kind, row.word) for row in record.rows], list(ran.journal), form)
        self.assertGreaterEqual(tried, 6)


class Tills(unittest.TestCase):
    @needs("credit_sheet")
    def test_python(self) -> None:
        """The README's way: a run with a till, and its journal's bytes."""
        schedule, till = Schedule.from_bytes(SONG.with_suffix(".bookings").read_bytes()), Till.from_bytes(SONG.with_suffix(".till").read_bytes())
        self.assertEqual(run(schedule, till).journal.to_bytes(), load().credit_sheet(schedule.to_bytes(), till.to_bytes()).journal)
