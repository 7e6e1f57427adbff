"""Records and journals held to the bench: the same, each kind of fault, damaged ones, the page, and what docs/RECORDING.md says."""

from __future__ import annotations

import json
import mmap
import random
import re
import subprocess
import unittest
from collections.abc import Callable
from pathlib import Path

from lock_bench import Entry, Journal, Run, Schedule, hold, journal, load, notation, record, recorded, run
from lock_bench.recorded import Recorded

from .browser import Browser, find_chromium
from .support import BENCH, EXAMPLES, ROOT, bench, bench_here, bench_in_terminal, drawn_schedule, environment, example_files, needs
from .test_command import InFolder

LATE = EXAMPLES / "late-reader.schedule"
# A site of 19 threads as the dispatcher gives it its turns: 1,044 rows, after which every thread is idle.
SITE = Schedule.from_bytes(load().dispatch_sheet((EXAMPLES / "site-of-19-threads.wants").read_bytes()).schedule)
SONG = EXAMPLES / "one-song-charged-once"


def record_of(entries: tuple[Entry, ...]) -> list[Recorded]:
    return [Recorded(entry.kind, entry.word) for entry in entries]


class FirstDifference(unittest.TestCase):
    def test_every_row_and_every_fault(self) -> None:
        """Whichever row of a record is changed, in its kind or its word, that row is named; rows before it never are."""
        rng = random.Random(61)
        for _ in range(6):
            ran = run(drawn_schedule(rng, 40))
            self.assertIsNone(hold.first_difference(record_of(ran.journal), ran))
            for row in range(len(ran.journal)):
                for changed in (Entry((ran.journal[row].kind + rng.randrange(1, 256)) % 256, ran.journal[row].word), Entry(ran.journal[row].kind, ran.journal[row].word ^ 1)):
                    found = hold.first_difference(record_of((*ran.journal[:row], changed, *ran.journal[row + 1 :])), ran)
                    assert found is not None
                    self.assertEqual((found.row, found.entry), (row, ran.journal[row]))

    def test_length(self) -> None:
        ran = run(Schedule.from_bytes(LATE.read_bytes()))
        for rows in range(len(ran.journal) + 1):
            self.assertIsNone(hold.first_difference(record_of(ran.journal[:rows]), ran))
        found = hold.first_difference(record_of((*ran.journal, Entry(1, 0))), ran)
        assert found is not None
        self.assertEqual((found.row, found.entry), (16, None))

    def test_thread_and_order(self) -> None:
        ran = run(Schedule.from_bytes(LATE.read_bytes()))
        rows = [Recorded(entry.kind, entry.word, row.thread, row.order) for row, entry in zip(ran.schedule.rows, ran.journal)]
        self.assertIsNone(hold.first_difference(rows, ran))
        for changed in (rows[7]._replace(thread=0), rows[7]._replace(order=64)):
            found = hold.first_difference([*rows[:7], changed, *rows[8:]], ran)
            assert found is not None
            self.assertEqual(found.row, 7)


# Faults of a server: how each changes a true record of late-reader.schedule, and what is said.
Change = Callable[[list[Entry]], object]
FAULTS: dict[str, tuple[Change, int, str, str]] = {
    "a swap that fails without a cause": (lambda rows: rows.__setitem__(2, Entry(3, 0)), 2, "3 swap failed, on 0 root", "2 swap done, on 0 root: swapped root to (1, 0, open)"),
    "the node raised before the arrival above": (lambda rows: rows.__setitem__(13, Entry(2, 1)), 13, "2 swap done, on 1 node 1", "1 word read, on 0 root: read root (1, 0, closed)"),
    "a late arrival turned away": (lambda rows: rows.__setitem__(14, Entry(6, 32)), 14, "6 queue mutex taken, on 32 queue", "2 swap done, on 0 root"),
    "a node read again on the way down": (lambda rows: rows.__setitem__(15, Entry(1, 1)), 15, "1 word read, on 1 node 1", "2 swap done, on 1 node 1: swapped node 1 to 1"),
    "a word of another node": (lambda rows: rows.__setitem__(12, Entry(1, 2)), 12, "1 word read, on 2 node 2", "1 word read, on 1 node 1"),
    "a word that is none": (lambda rows: rows.__setitem__(12, Entry(1, 40)), 12, "1 word read, on 40 unknown word 40", "1 word read, on 1 node 1"),
    "a kind that is none": (lambda rows: rows.__setitem__(0, Entry(77, 33)), 0, "77 unknown kind 77, on 33 none", "0 call begun, on 33 none"),
    "the second lock's word": (lambda rows: rows.__setitem__(1, Entry(1, 64)), 1, "1 word read, on 64 root second", "1 word read, on 0 root"),
    "a row lost": (lambda rows: rows.pop(9), 9, "8 queue changed or found empty, on 32 queue", "2 swap done, on 0 root: swapped root to (1, 0, closed)"),
    "a row twice": (lambda rows: rows.insert(5, rows[4]), 5, "1 word read, on 0 root", "0 call begun, on 33 none"),
    "two rows in each other's place": (lambda rows: rows.__setitem__(slice(10, 12), [rows[11], rows[10]]), 10, "7 mutex released, on 32 queue", "8 queue changed"),
    "a row too many": (lambda rows: rows.append(Entry(0, 33)), 16, "0 call begun, on 33 none", "there is no such row: 16 rows are taken"),
}


class Command(InFolder):
    def hold(self, rows: list[Entry], form: str, schedule: Path = LATE, *options: str) -> tuple[int, str]:
        """Holds rows, in a form, to a schedule."""
        if form == "json":
            path = self.file("r.json", json.dumps([list(row) for row in rows]))
        elif form == "csv":
            path = self.file("r.csv", "kind,word\n" + "".join(f"{row.kind},{row.word}\n" for row in rows))
        else:
            data = Journal(rows).to_bytes()
            path = self.file(f"r.{form}", data if form == "bytes" else data.hex(" ") + "\n")
        said = bench_here("hold", *options, schedule, path)
        self.assertEqual(said.err, "")
        return said.status, said.out

    def test_each_kind_of_fault(self) -> None:
        true = list(run(Schedule.from_bytes(LATE.read_bytes())).journal)
        for form in recorded.FORMS:
            self.assertEqual(self.hold(true, form), (0, "the same: 16 rows\n"))
            for name, (change, row, says, bench_says) in FAULTS.items():
                if form in ("bytes", "hex") and name in ("a row twice", "a row too many"):
                    # A buffer that is longer than the schedule's journal is read as the bench fills it.
                    continue
                rows = list(true)
                change(rows)
                status, out = self.hold(rows, form)
                lines = [line for line in out.splitlines() if not line.startswith("note: ")]
                self.assertEqual((status, lines[0].split(":")[0]), (4, f"row {row} differs"), name)
                self.assertTrue(lines[1].startswith(f"  the record says  {says}"), f"{name}: {lines[1]}")
                self.assertTrue(lines[2].startswith(f"  the bench says   {bench_says}"), f"{name}: {lines[2]}")
                before = f"; {row} row{'' if row == 1 else 's'} before it the same" if row else ""
                self.assertEqual(lines[-1], f"different at row {row}{before}", name)

    def test_what_is_shown_around_it(self) -> None:
        """The rows of the thread and of the word before it, and the lock before and after it, as trace and sheet have them."""
        rows = list(run(Schedule.from_bytes(LATE.read_bytes())).journal)
        rows[14] = Entry(6, 32)
        out = self.hold(rows, "bytes")[1]
        traced = bench_here("trace", LATE).out.splitlines()
        # Thread 1's rows are 3, 4, 12, 13 and 14; the others on the root or at the queue are 1, 2, 6 to 11.
        for row in (4, 6, 7, 8, 9, 10, 11, 12, 13, 14):
            self.assertIn(traced[row + 1], out)
        self.assertIn("the lock before row 14  by the bench after it\nroot 1 0 closed         root 1 1 closed\n", out)
        self.assertIn("\nthread 2 asleep - 0\n", out)

    def test_shorter_record(self) -> None:
        """A record that ends before its schedule does differs, an empty one too, unless --prefix allows that."""
        rows = list(run(Schedule.from_bytes(LATE.read_bytes())).journal)
        cases: tuple[tuple[list[Entry], str], ...] = (
            (rows[:9], "the record ends at row 9 of 16: thread 2, go is next, by the bench 2 swap done, on 0 root\n"),
            ([], "the record ends at row 0 of 16: thread 0, read 0 is next, by the bench 0 call begun, on 33 none\n"),
        )
        for form in recorded.FORMS:
            for held, said in cases:
                status, out = self.hold(held, form)
                self.assertEqual(status, 4)
                self.assertIn(said, out)
                self.assertIn("different: the record ends early", out)
                status, out = self.hold(held, form, LATE, "--prefix")
                self.assertEqual((status, out.splitlines()[-1]), (0, f"the same as far as it goes: {len(held)} rows of 16"))
        self.assertEqual(self.hold([*rows[:8], Entry(9, 9)], "csv", LATE, "--prefix")[0], 4)

    def test_cut_journal(self) -> None:
        """A byte journal that is cut off says its length, and no row is blamed for it."""
        data = run(Schedule.from_bytes(LATE.read_bytes())).journal.to_bytes()
        for length in range(len(data)):
            for name, cut in (("r", data[:length]), ("r.hex", data[:length].hex().encode())):
                said = bench_here("hold", LATE, self.file(name, cut))
                self.assertIn(said.status, (3, 4))
                self.assertNotIn("row 0 differs", said.out)
                self.assertIn(f"{length} bytes", said.out + said.err)
        said = bench_here("hold", LATE, self.file("r", data[:29]))
        self.assertIn("read as one that is cut off in its words\nthe record ends at row 13 of 16", said.out)

    def test_guess(self) -> None:
        """A row of a journal that is lost, doubled or exchanged is guessed at, and said as a guess, where that makes what follows right."""
        ran = run(SITE)
        rows = list(ran.journal)
        schedule = self.file("s.schedule", SITE.to_bytes())
        # A row that is neither like the one before it nor like the one behind it.
        at = next(row for row in range(300, 900) if len({*rows[row - 1 : row + 2]}) == 3)
        for changed, said in (
            ([*rows[:at], *rows[at + 1 :]], f"row {at} is missing"),
            ([*rows[:at], rows[at - 1], *rows[at:]], f"row {at} is one too many"),
            ([*rows[:at], rows[at + 1], rows[at], *rows[at + 2 :]], f"rows {at} and {at + 1} are in each other's place"),
        ):
            status, out = self.hold(changed, "csv", schedule)
            self.assertEqual((status, out.partition(" differs")[0]), (4, f"row {at}"))
            self.assertIn(f"  a guess: {said}; then the next 100 rows are right\n", out)
        rows[at] = Entry(9, 9)
        self.assertNotIn("a guess", self.hold(rows, "csv", schedule)[1])

    @needs("record_sheet")
    def test_values(self) -> None:
        """A journal with values: a wrong one is found at its own row, and so is one where there is none."""
        ran = run(Schedule.from_bytes(LATE.read_bytes()))
        true = list(record.rows_of(ran))

        def hold(rows: list[Recorded]) -> tuple[int, str]:
            text = "kind,word,value\n" + "".join(f"{row.kind},{row.word},{'' if row.value is None else row.value}\n" for row in rows)
            said = bench_here("hold", LATE, self.file("r.csv", text))
            return said.status, said.out

        self.assertEqual(hold(true), (0, "the same: 16 rows\n"))
        for row in range(16):
            wrong = 7 if true[row].value is None else (true[row].value or 0) + 131072
            status, out = hold([*true[:row], true[row]._replace(value=wrong), *true[row + 1 :]])
            self.assertEqual((status, out.partition(" differs")[0]), (4, f"row {row}"))
            self.assertIn("value 7, and such a row has none" if true[row].value is None else f"value {wrong}", out)

    def test_lent_buffer(self) -> None:
        """A buffer that is longer than the journal is read as the bench fills one, and that is said."""
        data = run(Schedule.from_bytes(LATE.read_bytes())).journal.to_bytes() + bytes(10)
        said = bench_here("hold", LATE, self.file("r", data))
        note = "note: the record has 42 bytes; of a journal of 16 rows the first 32 are taken\n"
        self.assertEqual(said, (0, f"{note}the same: 16 rows\n", ""))

    def test_refused_row(self) -> None:
        refused = EXAMPLES / "refused-row.schedule"
        rows = list(run(Schedule.from_bytes(refused.read_bytes())).journal)
        self.assertEqual(self.hold(rows, "csv", refused)[1], "the same: 6 rows; row 6 is refused with 7, and the record ends before it\n")
        # The journal's 2 x S bytes have ee for the row that was not run.
        path = self.folder / "r.journal"
        self.assertEqual(bench_here("journal", refused, "-o", path).status, 0)
        self.assertEqual(bench_here("hold", refused, path).status, 0)
        status, out = self.hold([*rows, Entry(0, 33)], "csv", refused)
        self.assertEqual((status, out.splitlines()[2]), (4, "  the bench says   the row is refused with 7: the order does not suit the thread (thread 0 is idle, in the second lock idle)"))

    def test_names_and_columns(self) -> None:
        text = bench_here("journal", "--csv", LATE).out
        self.assertEqual(bench_here("hold", LATE, self.file("r.csv", text)).status, 0)
        named = "order;Kind;word\n" + "".join(
            f"{row['order_name']};{row['kind_name']};{row['word_name']}\n" for row in recorded.rows_of(run(Schedule.from_bytes(LATE.read_bytes())))
        )
        self.assertEqual(bench_here("hold", LATE, self.file("r.csv", named)).status, 0)
        said = bench_here("hold", LATE, self.file("r.csv", named.replace("read 1", "read 0")))
        self.assertEqual((said.status, said.out.splitlines()[1]), (4, "  the record says  0 call begun, on 33 none, order 64 (read 0)"))
        said = bench_here("hold", LATE, self.file("r.csv", text.replace("\n5,2,1,", "\n5,1,1,")))
        self.assertEqual((said.status, said.out.splitlines()[1]), (4, "  the record says  0 call begun, on 33 none, by thread 1"))
        kinds = {"kinds": [0, 1], "words": ["none", "root"]}
        self.assertEqual(bench_here("hold", "--prefix", LATE, self.file("r.json", json.dumps(kinds))).status, 0)

    def test_form_by_its_bytes(self) -> None:
        ran = run(Schedule.from_bytes(LATE.read_bytes()))
        for form in recorded.FORMS:
            path = self.file("record", recorded.written(ran, form))
            self.assertEqual(bench_here("hold", LATE, path).status, 0, form)
            self.assertEqual(bench_here("hold", "--as", form, LATE, path).status, 0, form)

    @needs("credit_sheet")
    def test_till_and_two_locks_and_wanted_calls(self) -> None:
        for arguments in (
            ("--till", f"{SONG}.till", f"{SONG}.bookings"),
            (EXAMPLES / "two-locks.schedule",),
            ("--dispatch", EXAMPLES / "writer-and-reader.wants"),
        ):
            path = self.folder / "r.csv"
            self.assertEqual(bench_here("journal", *arguments, "-o", path).status, 0)
            self.assertEqual(bench_here("hold", *arguments, path).status, 0)
            # The first swap fails.
            path.write_text(path.read_text().replace(",2,0,", ",3,0,", 1))
            self.assertEqual(bench_here("hold", *arguments, path).status, 4)
        said = bench_here("hold", "--till", f"{SONG}.till", f"{SONG}.bookings", self.file("s.csv", "kind,word\n" + "0,33\n1,0\n2,0\n13,33\n"))
        self.assertIn("room 0 0               room 0 5\n", said.out)

    def test_all_examples_are_the_same_and_differ_from_each_other(self) -> None:
        data = {path: self.file(f"{path.stem}.hex", bench_here("journal", "--hex", path).out) for path in example_files("schedule")}
        for path, record in data.items():
            self.assertEqual(bench_here("hold", path, record).status, 0)
        self.assertEqual(bench_here("hold", EXAMPLES / "two-locks.schedule", data[EXAMPLES / "crossed-locks.schedule"]).status, 4)

    def test_page_opens_at_the_row(self) -> None:
        rows = list(run(Schedule.from_bytes(LATE.read_bytes())).journal)
        rows[14] = Entry(6, 32)
        page = self.folder / "p.html"
        said = bench_here("hold", LATE, self.file("r", Journal(rows).to_bytes()), "--page", page)
        self.assertEqual(said.status, 4)
        self.assertIn(f"page: {page}#row=14\n", said.out)
        found = re.search(r'"opened":(\d+)', page.read_text())
        assert found is not None
        self.assertEqual(found[1], "14")
        # It shows what the record said.
        self.assertIn("swapped root to (1, 1, closed) - but the record says 6 queue mutex taken, on 32 queue", page.read_text())
        # Where nothing differs there is none.
        page.unlink()
        self.assertEqual(bench_here("hold", "--prefix", LATE, self.file("r", Journal(rows[:14]).to_bytes()), "--page", page).status, 0)
        self.assertFalse(page.exists())

    @unittest.skipIf(find_chromium() is None, "there is no Chromium")
    def test_page_in_a_browser(self) -> None:
        """It opens at the row that differs; a link to another row goes there."""
        rows = list(run(Schedule.from_bytes(LATE.read_bytes())).journal)
        rows[12] = Entry(2, 1)
        page = self.folder / "p.html"
        self.assertEqual(bench_here("hold", LATE, self.file("r", Journal(rows).to_bytes()), "--page", page).status, 4)
        with Browser() as browser:
            for fragment, title in (("", "late-reader.schedule: row 12 differs, row 12"), ("#row=3", "late-reader.schedule: row 12 differs, row 3")):
                browser.open(page, fragment)
                browser.wait(lambda: bool(browser.value("document.title") == title), "the title")
            self.assertEqual(browser.complaints(), [])

    def test_in_a_pipe(self) -> None:
        command = f"{BENCH} journal --json {LATE} | sed 's/\"kind\": 6,/\"kind\": 3,/' | {BENCH} hold {LATE} - | head -1"
        done = subprocess.run(["bash", "-c", command], capture_output=True, text=True, env=environment(), check=False)
        self.assertEqual((done.stdout, done.stderr), ("row 7 differs: thread 2, go\n", ""))
        said = bench("hold", "--prefix", "-", self.file("r.csv", b"kind,word\n"), given=LATE.read_bytes())
        self.assertEqual((said.status, said.out), (0, "the same as far as it goes: 0 rows of 16\n"))


@needs("record_sheet")
class Records(InFolder):
    """A record that stands alone, of any length."""

    head = bytes((SITE.nodes, SITE.fan, SITE.threads))
    rows = [record.packed(row) for row in record.rows_of(run(SITE))]

    def record(self, rows: list[bytes], name: str = "r.record", behind: bytes = b"") -> Path:
        return self.file(name, self.head + b"".join(rows) + behind)

    def differs(self, rows: list[bytes], row: int, *options: str) -> str:
        """What is said of a record that differs at this row."""
        said = bench_here("hold", *options, self.record(rows))
        self.assertEqual((said.status, said.err, said.out.partition(" differs")[0]), (4, "", f"row {row}"))
        self.assertTrue(said.out.endswith(f"\ndifferent at row {row}; {row} rows before it the same\n"))
        return said.out

    def test_forms_of_any_length(self) -> None:
        """Bytes, hexadecimal, CSV and JSON, by the name's ending, by their bytes and in a pipe; far more rows than a schedule has."""
        rows = [Recorded(*fields) for fields in record.rows_of(run(SITE))] * 70
        sizes = {"nodes": SITE.nodes, "fan": SITE.fan, "threads": SITE.threads}
        data = self.head + b"".join(self.rows * 70)
        lines = (f"{number};{row.thread};{row.order};{row.kind};{row.word};{'-' if row.value is None else row.value}" for number, row in enumerate(rows))
        forms = {
            "record": data,
            "hex": data.hex().encode(),
            "csv": "\n".join(("# " + " ".join(f"{name} {size}" for name, size in sizes.items()), "row;thread;order;kind;word;value", *lines)).encode(),
            "json": json.dumps({**sizes, "journal": [row._asdict() for row in rows]}).encode(),
        }
        for form, written in forms.items():
            self.assertEqual(bench_here("hold", self.file(f"r.{form}", written)), (0, "the same: 73080 rows\n", ""), form)
            self.assertEqual(bench_here("hold", self.file("r", written)), (0, "the same: 73080 rows\n", ""), form)
            self.assertEqual(bench("hold", "-", given=written), (0, "the same: 73080 rows\n", ""), form)

    def test_columns(self) -> None:
        """A CSV file has all four columns, and may have the value; the sizes stand in it or are named."""
        text = "thread,order,kind,word\n0,65,0,33\n0,0,1,0\n0,0,1,1\n0,0,1,0\n0,0,2,0\n0,0,1,1\n"
        sizes = ("--nodes", "2", "--fan", "1", "--threads", "1")
        out = bench_here("hold", *sizes, self.file("r.csv", text)).out
        self.assertEqual(out.splitlines()[:3], ["row 5 differs: thread 0, go", "  the record says  1 word read, on 1 node 1", "  the bench says   2 swap done, on 1 node 1: swapped node 1 to 1"])
        self.assertEqual(bench_here("hold", self.file("r.csv", f"# nodes 2 fan 1 threads 1\n{text}")).out, out)
        self.assertEqual(bench_here("hold", *sizes, EXAMPLES / "read-again.csv").out, out)
        for text, said in (
            (text, "the sizes are not in the file: give them with --nodes and --fan and --threads"),
            ("# nodes 2 fan 1 threads 65\n" + text, "not a record: threads must be 1 to 64, not 65"),
            ("kind,word,thread\n0,33,0\n", "row 0 has no order: a record without a schedule needs both"),
            ("kind,word,thread,order,value\n0,33,0,1,4294967296\n", "value must be 0 to 4294967295, not '4294967296'"),
        ):
            said_of = bench_here("hold", self.file("r.csv", text))
            self.assertEqual((said_of.status, said_of.out), (3, ""))
            self.assertIn(said, said_of.err)

    def test_damaged(self) -> None:
        for name, data, said in (
            ("r.record", b"\1\2", "not a record: 2 bytes, and its sizes alone take 3"),
            ("r.record", b"\0\1\1", "not a record: nodes must be 1 to 32, not 0"),
            ("r.json", b'{"nodes": 1, "rows": []}', "expected a list of rows, or an object with the sizes and such a list as 'journal'"),
            ("r.json", b'[{"kind": 0, "word": 33, "thread": 0, "order": 1}, {"kind"', "row 1: not JSON: Expecting"),
            ("r.json", b'[[0, 33] [1, 0]]', "row 0: not JSON: Expecting ',' delimiter"),
            ("r.json", b"[" * 100_000, "row 0: not JSON"),
            ("r.hex", b"01 01 01 0g", "not bytes in hexadecimal, two digits each: 'g'"),
            ("r.hex", b"01 01 01 0", "the last byte has only one digit, '0'"),
            ("r.hex", b"01 11 01", "not a record: fan must be 1 to 16, not 17"),
            ("r.csv", b"# nodes 1 fan 1 threads 300\nkind,word,thread,order\n", "not a record: threads must be 1 to 64, not 300"),
            ("r.csv", b"kind,word\n0,\xff\n", "byte ff is not UTF-8"),
        ):
            said_of = bench_here("hold", self.file(name, data))
            self.assertEqual((said_of.status, said_of.out), (3, ""), name)
            self.assertIn(f"{self.folder / name}", said_of.err)
            self.assertIn(said, said_of.err)
        self.assertEqual(bench_here("hold", "/dev/zero").status, 3)
        self.assertEqual(bench_here("hold", "--till", "t", self.record(self.rows)).status, 2)

    def test_damaged_records_never_give_a_traceback(self) -> None:
        rng = random.Random(63)
        statuses = {0: 0, 3: 0, 4: 0}
        for number in range(400):
            form = recorded.FORMS[number % 4]
            data = bytearray(record.written(run(SITE.first(rng.randrange(40))), form))
            for _ in range(rng.randrange(3)):
                place = rng.randrange(len(data))
                data[place : place + rng.randrange(2)] = rng.randbytes(rng.randrange(1, 3))
            said = bench_here("hold", "--prefix", "--as", form, self.file("r", bytes(data)))
            self.assertIn(said.status, statuses, said.err)
            self.assertEqual(bool(said.err), said.status == 3, said.err)
            statuses[said.status] += 1
        self.assertGreater(min(statuses.values()), 10, statuses)

    def test_early_end(self) -> None:
        """A record that leaves a thread in the lock ends early, and so does one without rows, or with a part of one; --prefix allows that."""
        cases: tuple[tuple[list[bytes], bytes, str], ...] = (
            (self.rows[:300], b"", "the record ends at row 300: thread 1 calling, "),
            (self.rows, b"\1\2\3", "the record has 8358 bytes: 1044 rows, and 3 of the 8 bytes of another\n"),
            ([], b"", "the record has no rows\n"),
            ([], b"\0", "the record has 4 bytes: 0 rows, and 1 of the 8 bytes of another\n"),
        )
        for rows, behind, said in cases:
            path = self.record(rows, behind=behind)
            out = bench_here("hold", path)
            self.assertEqual(out.status, 4)
            self.assertTrue(out.out.startswith(said), out.out)
            self.assertIn("\ndifferent: the record ends early", out.out)
            out = bench_here("hold", "--prefix", path)
            self.assertEqual((out.status, out.out.splitlines()[0]), (0, f"the same as far as it goes: {len(rows)} row{'s' * (len(rows) != 1)}"))
        self.assertEqual(bench_here("record", EXAMPLES / "crossed-locks.schedule", "-o", self.folder / "r.record").status, 0)
        two = "the record ends at row 18: thread 0 writing, thread 1 asleep, thread 0 asleep at the second lock, thread 1 writing at the second lock\n"
        self.assertTrue(bench_here("hold", self.folder / "r.record").out.startswith(two))
        for name in ("r", "r.record", "r.hex"):
            self.assertEqual(bench_here("hold", self.file(name, b"")), (4, "", f"{self.folder}/{name}: the record is empty\n"))

    def test_every_field_of_a_row(self) -> None:
        """Whichever byte of a row's entry or value is changed, that row is named, near and far."""
        for rows, at in ((self.rows, 500), (self.rows * 6, 1044 * 5 + 500)):
            for byte in range(2, 8):
                changed = bytearray(rows[at])
                changed[byte] ^= 1
                out = self.differs([*rows[:at], bytes(changed), *rows[at + 1 :]], at)
                self.assertIn("\n  the record says  ", out)
                self.assertIn("\n  the bench says   2 swap done, on 0 root", out)

    def test_what_is_shown(self) -> None:
        """A row that read what another wrote wrong: the row that wrote it is named. Here no values are recorded."""
        # Flaw 36 of examples/server_lock: a downgrade stores (0, 0, open), and the upgrade behind it is denied.
        ran = run(notation.parse("0: write, go*2, downgrade, go*4, upgrade, go"))
        rows = [record.packed(row._replace(value=None)) for row in record.rows_of(ran)]
        rows[9] = rows[9][:2] + bytes((10, 0)) + rows[9][4:]
        out = bench_here("hold", self.file("r.record", b"\1\1\1" + b"".join(rows))).out
        self.assertIn("  it went by root, which row 6 wrote last: thread 0, 5 plain store\n", out)
        # With its values the guilty row itself is named.
        rows = [record.packed(row) for row in record.rows_of(ran)]
        rows[6] = rows[6][:4] + bytes(4)
        out = bench_here("hold", self.file("r.record", b"\1\1\1" + b"".join(rows))).out
        self.assertTrue(out.startswith("row 6 differs: thread 0, go\n  the record says  5 plain store, on 0 root, value 0 (0, 0, open)\n"), out)
        self.assertIn("the lock before row 6  by the bench after it\nroot 0 0 closed        root 1 0 open\n", out)
        # A row that the bench refuses; what its thread looked at last had been written by another.
        out = self.differs([*self.rows[:410], *self.rows[411:]], 427)
        self.assertIn("the row is refused with 7: the order does not suit the thread (thread 11 is reading by 4, in the second lock idle)", out)

    def test_what_is_shown_of_a_later_row(self) -> None:
        """The library's entry and sheet, and the record's own rows: no schedule leads so far."""
        rows, at = self.rows * 6, 1044 * 5 + 500
        changed = rows[at][:2] + bytes((7, 32)) + rows[at][4:]
        out = self.differs([*rows[:at], changed, *rows[at + 1 :]], at, "--page", str(self.folder / "p.html"))
        held = record.Held.parse(load().record_sheet(self.head + b"".join(rows[:at]) + changed))
        assert held.entry is not None
        self.assertEqual((held.sheet.answer, held.sheet.taken), (11, at))
        self.assertIn(f"\n  the bench says   2 swap done, on 0 root, {record.value_text(0, held.value)}\n", out)
        self.assertIn(f"\nthe lock before row {at}\n{held.sheet.locks[0].root.line()}\n", out)
        shown = [int(number) for number in re.findall(r"^  row +(\d+)  thread", out, re.MULTILINE)]
        # The site's rows are the same each time round.
        wrote = max(row for row in range(at) if rows[row][2:4] in (b"\2\0", b"\5\0"))
        self.assertIn(f"it went by root, which row {wrote} wrote last", out)
        self.assertIn(wrote, shown)
        self.assertGreater(len(shown), 5)
        self.assertTrue(all(rows[row][0] == rows[at][0] or rows[row][3] in (0, 32) for row in shown))
        self.assertIn("no page: it would show the first 4096 rows, and this one is later\n", out)
        self.assertFalse((self.folder / "p.html").exists())

    def test_page(self) -> None:
        page = self.folder / "p.html"
        wrong = self.rows[500][:4] + b"\7\0\0\0"
        out = self.differs([*self.rows[:500], wrong, *self.rows[501:]], 500, "--page", str(page))
        self.assertIn(f"page: {page}#row=500\n", out)
        self.assertIn(" - but the record says 2 swap done, on 0 root, value 7 (3, 0, closed)", page.read_text())

    def test_guess(self) -> None:
        """A row that is lost, doubled or exchanged is guessed at, near and far: the library holds the record that the guess makes."""
        for rows, before in ((self.rows, 0), (self.rows * 8, 1044 * 6)):
            # Rows of one thread, so that none of the changes goes unseen: a call's beginning and the row behind it.
            begin = before + 410
            thread = rows[begin][0]
            after = next(row for row in range(begin + 1, len(rows)) if rows[row][0] == thread)
            joined = [*rows[:begin], *rows[begin + 1 : after], rows[begin], *rows[after:]]
            for changed, at, said in (
                ([*rows[:begin], *rows[begin + 1 :]], after - 1, f"before row {after - 1} one is missing: thread {thread}, unlock, 0 call begun, on 33 none"),
                ([*rows[: begin + 1], *rows[begin:]], begin + 1, f"row {begin + 1} is one too many"),
                ([*joined[: after - 1], joined[after], joined[after - 1], *joined[after + 1 :]], after - 1, f"rows {after - 1} and {after} are in each other's place"),
            ):
                self.assertIn(f"\n  a guess: {said}; then the next 100 rows are right\n", self.differs(changed, at))
        # Too few rows follow to tell.
        self.assertNotIn("a guess", self.differs(self.rows[:411] + self.rows[410:415], 411))

    def test_a_guess_leaves_the_file_as_it_is(self) -> None:
        rows = [*self.rows[:411], *self.rows[410:]]
        self.differs(rows, 411)
        self.assertEqual((self.folder / "r.record").read_bytes(), self.head + b"".join(rows))

    def test_mapped_and_not_read(self) -> None:
        file = record.opened(str(self.record(self.rows)), None, {})
        self.assertIsInstance(file.memory, mmap.mmap)
        self.assertEqual((file.rows, file.cut, file.row(0)), (1044, 0, Recorded(0, 33, 0, 64, None)))

    def test_progress_in_a_terminal(self) -> None:
        """How far it is is shown on a terminal, and nothing of it stays there."""
        said = bench_in_terminal("hold", self.record(self.rows * 1500))
        self.assertIn("holding [", said.out)
        self.assertTrue(said.out.endswith("\r\x1b[Kthe same: 1566000 rows\n"), said.out[-200:])
        text = "# nodes 7 fan 2 threads 19\nthread,order,kind,word\n" + "".join(f"{row[0]},{row[1]},{row[2]},{row[3]}\n" for row in self.rows * 100)
        self.assertIn("reading [", bench_in_terminal("hold", self.file("r.csv", text)).out)

    def test_beside_its_schedule(self) -> None:
        """A record file beside its schedule is held to that too: threads, orders, values, and where it ends."""
        schedule = self.file("s.schedule", SITE.to_bytes())
        self.assertEqual(bench_here("hold", schedule, self.record(self.rows)), (0, "the same: 1044 rows\n", ""))
        said = bench_here("hold", schedule, self.record(self.rows[:-1]))
        self.assertEqual(said.status, 4)
        self.assertIn("the record ends at row 1043 of 1044: thread ", said.out)
        wrong = self.rows[500][:4] + b"\7\0\0\0"
        self.assertTrue(bench_here("hold", schedule, self.record([*self.rows[:500], wrong, *self.rows[501:]])).out.startswith("row 500 differs"))
        self.assertIn("other sizes", bench_here("hold", schedule, self.file("r.record", b"\1\1\1")).err)

    def test_sheet_of_the_server(self) -> None:
        """The server's own last sheet is compared too, field by field; it may have one lock."""
        end = run(SITE).sheet.to_bytes().decode()
        one = "".join(f"{line}\n" for line in end.splitlines()[: 2 + SITE.nodes + SITE.threads])
        path = self.record(self.rows)
        for text in (end, one):
            self.assertEqual(bench_here("hold", "--sheet", self.file("s", text), path), (0, "the same: 1044 rows\nthe server's sheet is the same\n", ""))
        changed = one.replace("root 0 0 open", "root 65504 3 open").replace("thread 3 idle - ", "thread 3 asleep - ").replace("node 2 0", "node 2 1").replace("queue free 0 0", "queue 5 1 1")
        said = bench_here("hold", "--sheet", self.file("s", changed), path)
        self.assertEqual(said.status, 4)
        for line in (
            "root: the server has (65504, 3, open), the bench (0, 0, open)",
            "node 2: the server has 1, the bench 0",
            "mutex: the server has thread 5, the bench free",
            "writers: the server has 1, the bench 0",
            "thread 3: the server has asleep, the bench idle",
        ):
            self.assertIn(f"\n  {line}\n", said.out)
        said = bench_here("hold", "--sheet", self.file("s", "answer 0 at 0\n"), path)
        self.assertEqual((said.status, said.out), (3, ""))
        # Beside a schedule, and where the record ends before it.
        late, first = Schedule.from_bytes(LATE.read_bytes()), self.folder / "late.record"
        self.assertEqual(bench_here("record", LATE, "-o", first).status, 0)
        self.assertEqual(bench_here("hold", "--sheet", self.file("s", run(late).sheet.to_bytes()), LATE, first).status, 0)
        cut = self.file("cut.record", first.read_bytes()[: 3 + 8 * 9])
        self.assertEqual(bench_here("hold", "--prefix", "--sheet", self.file("s", run(late.first(9)).sheet.to_bytes()), LATE, cut).status, 0)
        self.assertEqual(bench_here("hold", "--prefix", "--sheet", self.file("s", run(late).sheet.to_bytes()), LATE, cut).status, 4)

    def test_record(self) -> None:
        """What ``record`` writes of a schedule is held, in each form; every example too, as far as it goes."""
        for form in recorded.FORMS:
            path = self.folder / f"w.{form}"
            self.assertEqual(bench_here("record", "--dispatch", EXAMPLES / "site-of-19-threads.wants", "-o", path), (0, "", ""))
            self.assertEqual(bench_here("hold", "--as", form, path), (0, "the same: 1044 rows\n", ""))
        self.assertEqual((self.folder / "w.bytes").read_bytes(), self.head + b"".join(self.rows))
        for path in example_files("schedule"):
            self.assertEqual(bench_here("record", path, "-o", self.folder / "e.record").status, 0)
            self.assertEqual(bench_here("hold", "--prefix", self.folder / "e.record").status, 0, path)
            self.assertEqual(bench_here("hold", path, self.folder / "e.record").status, 0, path)
        said = bench_here("record", EXAMPLES / "refused-row.schedule", "-o", self.folder / "e.record")
        self.assertIn("the record has 6 rows: the next is refused with 7", said.err)
        self.assertEqual(bench("record", LATE).status, 2)


class Damaged(InFolder):
    def test_what_is_said(self) -> None:
        for name, data, why in (
            ("r", b"\0\1\2", "r: 3 bytes, an odd number: a journal has a kind and a word for each row"),
            ("r.hex", b"00 01\n2x 00", "r.hex:2:1: not bytes in hexadecimal, two digits each: '2x'"),
            ("r.hex", b"kinds 00 01 words 00", "r.hex: 2 kinds, but 1 words"),
            ("r.csv", b"", "r.csv:1:1: the first line must name the columns, with 'kind' exactly once"),
            ("r.csv", b"kind;row\n0;0\n", "r.csv:1:1: the first line must name the columns, with 'word' exactly once"),
            ("r.csv", b"kind,word\n0,33\n300,0\n", "r.csv:3: unknown kind 300"),
            ("r.csv", b"kind,word\n0\n", "r.csv:2: row 0 has no word"),
            ("r.csv", b"row,kind,word\n0,0,33\n2,1,0\n", "r.csv:3: expected row 1, found row 2: is one lost, or out of place?"),
            ("r.csv", b"kind,word,order\n0,33,fly\n", "r.csv:2: unknown order 'fly'"),
            ("r.csv", b"kind,word,thread\n0,33,-1\n", "r.csv:2: thread must be 0 to 255, not '-1'"),
            ("r.csv", b"kind,word\n0,\xff\n", "r.csv:2:3: byte ff is not UTF-8"),
            ("r.json", b"[[0, 33], [1]]", "r.json, row 1: row 1 has no kind"),
            ("r.json", b"[0", "r.json:1:3: not JSON: Expecting ',' delimiter"),
            ("r.json", b'{"journal": 3}', "r.json: expected a list of rows, each with 'kind' and 'word', or an object with such a list as 'journal'"),
            ("r.json", b'{"kinds": [0], "words": []}', "r.json: 1 kinds, but 0 words"),
            ("r.json", b'[{"kind": true, "word": 0}]', "r.json, row 0: unknown kind True"),
            ("r.json", b"[" * 100_000, "r.json: not JSON: too many nested brackets"),
        ):
            path = self.file(name, data)
            said = bench_here("hold", LATE, path)
            self.assertEqual((said.status, said.out, said.err), (3, "", f"{self.folder}/{why}\n"))

    def test_usage(self) -> None:
        self.assertEqual(bench("hold", "-", "-"), (2, "", "bench: the schedule and the record cannot both be standard input\n"))
        self.assertEqual(bench("hold", LATE, "no-such-file"), (2, "", "no-such-file: No such file or directory\n"))
        self.assertEqual(bench("hold", LATE), (2, "", f"{LATE}: this looks like a schedule: give its journal too (see --help)\n"))
        bad = self.file("a.schedule", b"\0\1\1\0\0")
        said = bench_here("hold", bad, self.file("r", b""))
        self.assertEqual(said.status, 3)
        self.assertIn("no journal to compare with: the file is refused with 2", said.err)
        said = bench("hold", LATE, "/dev/zero")
        self.assertEqual((said.status, said.err), (3, "/dev/zero: the journal is longer than 16,777,216 bytes\n"))

    def test_damaged_records_never_give_a_traceback(self) -> None:
        rng = random.Random(62)
        ran = run(Schedule.from_bytes(LATE.read_bytes()))
        statuses = {0: 0, 3: 0, 4: 0}
        for number in range(600):
            form = recorded.FORMS[number % 4]
            data = bytearray(recorded.written(ran, form))
            for _ in range(rng.randrange(1, 4)):
                place = rng.randrange(len(data))
                match rng.randrange(3):
                    case 0:
                        data[place] = rng.randrange(256)
                    case 1:
                        del data[place : place + rng.randrange(1, 8)]
                    case _:
                        data[place:place] = rng.randbytes(rng.randrange(1, 4))
                if not data:
                    break
            said = bench_here("hold", "--as", form, LATE, self.file("r", bytes(data)))
            self.assertIn(said.status, statuses, said.err)
            self.assertNotIn("Traceback", said.err)
            self.assertEqual(bool(said.err), said.status == 3, said.err)
            statuses[said.status] += 1
        self.assertGreater(min(statuses.values()), 10, statuses)


class Recording(unittest.TestCase):
    """docs/RECORDING.md says what is so."""

    def setUp(self) -> None:
        self.text = (ROOT / "docs/RECORDING.md").read_text()

    def test_whole_calls(self) -> None:
        calls = re.findall(r"^\| .* \| `(.*?)` \| `([0-9a-f ]+)` \| `([0-9a-f ]+)` \|$", self.text, re.MULTILINE)
        self.assertGreaterEqual(len(calls), 13)
        for rows, kinds, words in calls:
            ran: Run = run(notation.parse(rows))
            self.assertEqual((ran.sheet.answer, ran.journal.to_bytes().hex(" ")), (0, f"{kinds} {words}"), rows)

    def test_example(self) -> None:
        self.assertIn(f"```\n{(EXAMPLES / 'read-again.csv').read_text()}```", self.text)

    def test_every_kind_is_told(self) -> None:
        """The column of the kinds has each of them, those of a beginning and of bookings aside; where a name stands beside one, it is the journal's."""
        cells = re.findall(r"^\|[^|]*\|[^|]*\|([^|]*)\|[^|]*\|$", self.text, re.MULTILINE)
        told = {int(number) for cell in cells for number in re.findall(r"\b\d+\b", cell) if "`" not in cell}
        self.assertLessEqual(set(range(1, 11)), told)
        self.assertIn("a row of kind 0, *call begun*, on word 33", self.text)
        self.assertIn("11 booked, 12 repeated, 13 denied", self.text)
        named = re.findall(rf"\b(\d+) ({'|'.join(journal.KINDS.values())})\b", self.text)
        self.assertGreater(len(named), 10)
        for kind, name in named:
            self.assertEqual(journal.KINDS[int(kind)], name)
