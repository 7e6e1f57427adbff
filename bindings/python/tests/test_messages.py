"""What the commands say: of themselves, of files that are refused, and of texts before anything is built."""

from __future__ import annotations

import os
import random
import re
import shutil
import subprocess
import sys
import tempfile
import unittest
from pathlib import Path
from unittest.mock import patch

from lock_bench import BenchError, Row, Schedule, build, cli, excluded, identity, journal, load, notation, orders, refusal
from lock_bench import Sheet as Parsed
from lock_bench.notation import _Reader
from lock_bench.schedule import first_rows
from lock_bench.sources import PROGRAMS, ROOT

from .standin import Repository
from .support import EXAMPLES, Said, bench, bench_here, environment, example_files, needs, stored_runs

# Whoever needs this library fails.
NO_LIBRARY = "/no/such.so"


class Refused(unittest.TestCase):
    def setUp(self) -> None:
        folder = tempfile.TemporaryDirectory()
        self.addCleanup(folder.cleanup)
        self.path = Path(folder.name) / "a.schedule"

    def said(self, data: bytes, command: str = "sheet") -> Said:
        self.path.write_bytes(data)
        return bench_here(command, self.path)

    def test_sizes(self) -> None:
        """Each size that is out of its range is named, with the range."""
        for data, said in (
            (b"\0\1\1\0\0", "nodes must be 1 to 32, not 0"),
            (b"\x21\1\1\0\0", "nodes must be 1 to 32, not 33"),
            (b"\1\x11\1\0\0", "fan must be 1 to 16, not 17"),
            (b"\1\1\x41\0\0", "threads must be 1 to 64, not 65"),
            (b"\1\1\1\1\x10", "rows must be 0 to 4096, not 4097"),
            (b"\0\0\1\0\0", "nodes must be 1 to 32, not 0; fan must be 1 to 16, not 0"),
        ):
            for command in ("sheet", "plain", "dispatch", "trace"):
                told = self.said(data, command)
                self.assertEqual((told.status, told.out[:13], told.err), (0, "answer 2 at 0", f"{self.path}: {said}\n"), command)
        told = self.said(b"\x41\0\0\0\0", "ticket")
        self.assertEqual((told.out, told.err), ("answer 2 at 0\n", f"{self.path}: threads must be 1 to 64, not 65\n"))

    def test_true_length(self) -> None:
        """Also of a file that is longer than any that is taken."""
        for data, said in (
            (b"\1\1\1", "the file has 3 bytes; its sizes alone take 5"),
            (b"\1\1\1\2\0\0\0\0", "the file has 8 bytes; with 2 rows it must have 9"),
            (b"\1\1\1\0\1" + bytes(300_000), "the file has 300005 bytes; with 256 rows it must have 517"),
        ):
            self.assertEqual(self.said(data).err, f"{self.path}: {said}\n")
        said_of = bench_here("show", self.path)
        self.assertEqual((said_of.status, said_of.err), (3, f"{self.path}: not a schedule: 300005 bytes, and with 256 rows it must have 517\n"))

    def test_texts(self) -> None:
        for text, said in (
            ("threads 300", "<text>:1:9: threads must be 1 to 64, not 300\n"),
            ("nodes 256", "<text>:1:7: nodes must be 1 to 32, not 256\n"),
            ("fan 999", "<text>:1:5: fan must be 1 to 16, not 999\n"),
        ):
            self.assertEqual(bench_here("sheet", "-e", text), (3, "", said))
        self.assertEqual(bench_here("ticket", "-e", "tickets threads 300").err, "<text>:1:17: threads must be 1 to 64, not 300\n")

    def test_looks_like_another(self) -> None:
        for name, command, said in (
            ("across-the-wrap.tickets", "sheet", "a file of the ticket lock: use `bench ticket`"),
            ("late-reader.schedule", "ticket", "a schedule: use `bench sheet`"),
            ("one-song-charged-once.till", "sheet", "a till, which goes beside a schedule: `bench sheet --till TILL SCHEDULE`"),
        ):
            path = EXAMPLES / name
            self.assertEqual(bench_here(command, path).err, f"{path}: this looks like {said}\n")

    def test_why_and_the_library_agree(self) -> None:
        """What is said to be wrong is refused by the library with 1 to 3, and nothing else is: over the stored files, damaged ones among them."""
        library, seen = load(), {True: 0, False: 0}
        for crate in ("runs", "plain_runs", "dispatch_runs"):
            for stored in stored_runs(crate):
                refused = library.bench_sheet(stored.file).sheet.split()[1] in (b"1", b"2", b"3")
                self.assertEqual(refusal.why("schedule", stored.file) is not None, refused, stored.name)
                seen[refused] += 1
        for stored in stored_runs("ticket_runs"):
            refused = library.ticket_sheet(stored.file).split()[1] in (b"1", b"2", b"3")
            self.assertEqual(refusal.why("tickets", stored.file) is not None, refused, stored.name)
        for path in example_files("till"):
            self.assertIsNone(refusal.why("till", path.read_bytes()))
        self.assertGreater(min(seen.values()), 5)


    def test_text_is_no_till(self) -> None:
        """The bytes of `threads 0` would be a till's too: a text is what it says, and so is a file that has the length of its kind."""
        told = bench_here("sheet", "-e", "threads 0")
        self.assertEqual(told, (0, "answer 2 at 0\n", "<text>: threads must be 1 to 64, not 0\n"))
        self.assertEqual(self.said(b"\1\1\0\0\0").err, f"{self.path}: threads must be 1 to 64, not 0\n")


class RefusedCall(unittest.TestCase):
    """A wanted call that the dispatcher refuses is named by its row."""

    def test_named(self) -> None:
        late, turn = EXAMPLES / "late-reader.schedule", EXAMPLES / "refused-at-its-turn.wants"
        hint = " (this looks like a schedule: each row of wanted calls is a whole call)"
        for command in (("trace", "--dispatch"), ("journal", "--dispatch"), ("dispatch",)):
            self.assertEqual(bench_here(*command, late).err, f"{late}: row 1, '0: go', is refused with 6: there is no such order{hint}\n")
            self.assertEqual(bench_here(*command, turn).err, f"{turn}: row 1, '0: read 0', is refused with 7: the order does not suit the thread\n")
            told = bench_here(*command, "-e", "threads 2\n0: write\n7: read 0").err
            self.assertEqual(told, "<text>:3:4: row 1, '7: read 0', is refused with 5: there is no such thread\n")
        self.assertEqual(bench_here("dispatch", EXAMPLES / "writer-and-reader.wants").err, "")
        strict = bench_here("dispatch", "--strict", turn)
        self.assertEqual((strict.status, strict.err.count("\n")), (4, 1))

    def test_it_is_the_one(self) -> None:
        """Over calls drawn at random: a row that is found early is refused in every file that begins so; the bench refuses the other behind the steps given."""
        rng, library, seen = random.Random(5), load(), {5: 0, 6: 0, 7: 0}
        while min(seen.values()) < 20:
            calls = [orders.WRITE_LOCK, orders.UNLOCK, orders.READ_LOCK, orders.READ_LOCK + 1, orders.UPGRADE, orders.DOWNGRADE]
            calls += [orders.SECOND + order for order in calls]
            threads = rng.randint(1, 5)
            rows = [Row(rng.randrange(threads), rng.choice(calls)) for _ in range(rng.randint(1, 12))]
            if rng.random() < 0.3:
                rows.insert(rng.randint(0, len(rows)), rng.choice((Row(0, orders.GO_ON), Row(threads, orders.WRITE_LOCK))))
            wants = Schedule(2, 1, threads, tuple(rows)).to_bytes()
            given = library.dispatch_sheet(wants)
            end, steps = Parsed.parse(given.sheet), Schedule.from_bytes(given.schedule)
            if end.answer == 0:
                continue
            seen[end.answer] += 1
            number = refusal.refused_call(wants, end, steps, lambda file: Parsed.parse(library.dispatch_sheet(file).sheet).answer)
            if end.answer == 7:
                asked = Schedule(2, 1, threads, (*steps.rows, rows[number]))
                self.assertEqual(Parsed.parse(library.bench_sheet(asked.to_bytes()).sheet).answer, 7)
                self.assertEqual(sum(row.thread == rows[number].thread for row in rows[:number]), sum(row.thread == rows[number].thread and row.order != orders.GO_ON for row in steps.rows))
            else:
                answers = [Parsed.parse(library.dispatch_sheet(first_rows(wants, count)).sheet).answer for count in range(len(rows) + 1)]
                self.assertEqual([answer == end.answer for answer in answers], [count > number for count in range(len(rows) + 1)])


class Mistakes(unittest.TestCase):
    """What used to end in a traceback, or took long: each is a message, and soon."""

    def setUp(self) -> None:
        folder = tempfile.TemporaryDirectory()
        self.addCleanup(folder.cleanup)
        self.folder = Path(folder.name)

    def file(self, name: str, data: bytes) -> Path:
        path = self.folder / name
        path.write_bytes(data)
        return path

    def test_nested_brackets(self) -> None:
        nested = "(" * 200 + "root open" + ")" * 200
        self.assertEqual(bench_here("find", nested), (3, "", "condition:1:52: too many nested brackets (50 at most)\n"))
        self.assertEqual(bench_here("sheet", "-e", f"expect {nested}"), (3, "", "<text>:1:59: too many nested brackets (50 at most)\n"))
        self.assertEqual(bench_here("sheet", "-e", f"0: go until {nested}").status, 3)
        for deep in (f"{'(' * 50}root open{')' * 50}", f"{'not ' * 4000}root open"):
            self.assertEqual(bench_here("sheet", "-e", f"expect {deep}").status, 0)
        longer = f"expect root open{' and root open' * 2000}"
        self.assertRegex(bench_here("sheet", "-e", longer).err, "^<text>:1:[0-9]+: the condition is too long ")

    def test_long_numbers_in_json(self) -> None:
        schedule, digits = EXAMPLES / "late-reader.schedule", "9" * 6000
        shown = f"'{'9' * 40}..'"
        row = self.file("row.json", f'[{{"kind": {digits}, "word": 0, "thread": 0, "order": 1}}]'.encode())
        sizes = self.file("sizes.json", f'{{"nodes": {digits}, "fan": 1, "threads": 1, "journal": []}}'.encode())
        for arguments, said in (
            ((schedule, row), f"{row}, row 0: unknown kind {shown}\n"),
            ((row,), f"{row}, row 0: unknown kind {shown}\n"),
            ((sizes,), f"{sizes}: nodes must be 0 to 255, not {shown}\n"),
        ):
            self.assertEqual(bench_here("hold", *arguments), (3, "", said))
        sweep = self.file("sweep.record", f"{digits}\n".encode())
        self.assertRegex(bench_here("sweep", "--merge", sweep).err, f"^{sweep}:1: not a record of a sweep: ")

    def test_nested_json(self) -> None:
        nested = self.file("nested.json", b"[" * 100_000)
        for arguments in ((nested,), (EXAMPLES / "late-reader.schedule", nested)):
            said = bench_here("hold", *arguments)
            self.assertEqual(said.status, 3)
            self.assertRegex(said.err, ": not JSON: too many nested brackets\n$")
        self.assertEqual(bench_here("sweep", "--merge", nested).status, 3)

    def test_names_that_are_not_utf_8(self) -> None:
        """A file is read and written whatever its name; a title that is shown has to be UTF-8."""
        name = os.fsdecode(os.fsencode(self.folder) + b"/\xff.schedule")
        shutil.copy(EXAMPLES / "worked-example.schedule", name)
        page = os.fsdecode(os.fsencode(self.folder) + b"/\xfe.html")
        self.assertEqual(bench("page", name, "-o", page), (0, "", ""))
        self.assertIn("<title>\ufffd</title>", Path(page).read_text("utf-8"))
        other = self.folder / "other.html"
        held = bench("hold", name, EXAMPLES / "read-again.csv", "--page", other)
        self.assertEqual((held.status, held.err), (4, ""))
        self.assertIn("\ufffd.schedule: row 5 differs", other.read_text("utf-8"))
        title = os.fsdecode(b"\xff")
        self.assertEqual(bench("page", name, "-o", page, "--title", title), (2, "", "bench: --title: unexpected byte ff, which is not UTF-8\n"))
        self.assertEqual(bench("sheet", "-e", f"0: {title}"), (3, "", "<text>:1:4: unexpected byte ff, which is not UTF-8\n"))
        self.assertEqual(bench("find", f"root {title}"), (3, "", "condition:1:6: unexpected byte ff, which is not UTF-8\n"))

    def test_long_texts(self) -> None:
        """They are refused by their length, or where they are wrong, and no more of them is split into words than that takes."""
        self.assertEqual(bench("sheet", "--text", "-", given=b" " * 6_000_000), (3, "", "<standard input>: the text is longer than 4,194,304 bytes\n"))
        for text, said, split in (
            ("0: go\n" * 600_000, "too many rows: a file holds 65535 at most", 3 * 65536),
            ("expect root open\n" * 200_000, "too many `expect`: 4096 at most", 3 * 4097),
            ("x" * 4_000_000, f"unknown size '{'x' * 40}..'", 2),
            ("9" * 4_000_000, f"expected a thread with its colon, such as '0:', found '{'9' * 40}..'", 2),
            ("0: wirte\n" + "0: go\n" * 600_000, "unknown order 'wirte'; did you mean 'write'?", 5),
        ):
            reader = _Reader(text, "<text>")
            with patch.object(notation, "_Reader", return_value=reader), self.assertRaises(BenchError) as raised:
                notation.parse_script(text)
            self.assertEqual(raised.exception.what, said)
            self.assertLessEqual(len(reader.tokens), split + 2)

    def test_many_rows_and_expectations(self) -> None:
        """As many rows as a file holds fit, also with `expect` among them."""
        text = "expect root open " + "0: go*65535"
        self.assertEqual(len(notation.parse_script(text).items), 65536)

    def test_bytes_of_any_kind(self) -> None:
        library, file = load(), (EXAMPLES / "late-reader.schedule").read_bytes()
        for kind in (bytearray, memoryview):
            self.assertEqual(library.bench_sheet(kind(file)), library.bench_sheet(file))
            self.assertEqual(library.plain_sheet(kind(file)), library.plain_sheet(file))
            self.assertEqual(library.dispatch_sheet(kind(file)), library.dispatch_sheet(file))
            self.assertEqual(library.ticket_sheet(kind(file)), library.ticket_sheet(file))
            self.assertEqual(library.record_sheet(kind(file)), library.record_sheet(file))
            self.assertEqual(library.credit_sheet(kind(file), kind(b"\1\0")), library.credit_sheet(file, b"\1\0"))
        for wrong in ("text", None, 5, [1, 2]):
            with self.assertRaisesRegex(BenchError, f"^the schedule must be bytes, not {type(wrong).__name__}$"):
                library.bench_sheet(wrong)  # type: ignore[arg-type]
        with self.assertRaisesRegex(BenchError, "^the length of the record must be 0 to 3, not 4$"):
            library.record_sheet(bytearray(b"abc"), 4)


class Words(unittest.TestCase):
    """Messages in the words of whoever reads them."""

    def test_words(self) -> None:
        late = EXAMPLES / "late-reader.schedule"
        for arguments, said in (
            (("sheet", "-e", "0: wirte"), "<text>:1:4: unknown order 'wirte'; did you mean 'write'?"),
            (("sheet", "-e", "nodes 0"), "<text>: nodes must be 1 to 32, not 0"),
            (("sheet", "-e", "0: read 0, go until asleep"), "<text>:1:12: never reached 'asleep': the call of thread 0 is over, after 2 rows of 'go'"),
            (("sheet", "-e", "0: write expect root open and thread 0 idle"), "<text>:1:10: expect failed: 'root open and thread 0 idle', but after 1 row thread 0 is calling"),
            (("find", "threads writing >= 2"), "bench: impossible: 'threads writing >= 2': no thread holds beside one that writes (laws, specs/Exclusion, Locks)"),
            (("trace", "--from", "99", late), "bench: no rows selected (of 16)"),
            (("find", "fast"), "condition:1:1: unknown word 'fast'"),
            (("compare", late), "bench: give either B or the sizes of another shape (see --help)"),
        ):
            self.assertEqual(bench_here(*arguments).err, f"{said}\n", arguments)
        self.assertEqual((journal.kind_text(99), journal.word_text(50)), ("unknown kind 99", "unknown word 50"))
        with self.assertRaisesRegex(BenchError, "^sheet, line 3: expected a queue line, found 'thread 0 idle - 0'$"):
            Parsed.parse(b"answer 0 at 0\nroot 0 0 open\nthread 0 idle - 0\n")
        self.assertRegex(bench("sheet", "-e", "0: go", LOCK_BENCH_LIBRARY=NO_LIBRARY).err, f"^{NO_LIBRARY}: cannot load the library: ")

    def test_unknown_command(self) -> None:
        """What argparse says, and which command may be meant."""
        for command, near in (("pley", "; did you mean 'play'?"), ("fly", "")):
            said = bench(command).err.splitlines()[-1]
            self.assertTrue(said.startswith("bench: error: argument COMMAND: invalid choice: ") and f"'{command}'" in said, said)
            self.assertEqual(said.rpartition(")")[2], near)

    def test_step_of_a_range(self) -> None:
        for given, said in (
            ("8..64/0", "the step in '8..64/0' must be a whole number from 1 to 64, not '0'"),
            ("8..65", "the last number in '8..65' must be a whole number from 1 to 64, not '65'"),
            ("0..64/8", "the first number in '0..64/8' must be a whole number from 1 to 64, not '0'"),
            ("4,x", "must be a whole number from 1 to 64, not 'x'"),
        ):
            told = bench("sweep", "--threads", given)
            self.assertEqual((told.status, told.err.splitlines()[-1]), (2, f"bench sweep: error: argument --threads: {said}"))

    def test_theorems_are_where_they_are_said_to_be(self) -> None:
        """Each names a crate, a file of its definitions, and a name that is defined there."""
        theorems = [said for name, said in vars(excluded).items() if name.isupper() and isinstance(said, str) and said != excluded.CONTRADICTION]
        self.assertGreaterEqual(len(theorems), 10)
        for theorem in theorems:
            place = re.search(r"\((\w+), specs/(\w+), (\w+)\)$", theorem)
            assert place is not None, theorem
            text = (ROOT / "crates" / place[1] / "specs" / f"{place[2]}.antt").read_text()
            self.assertRegex(text, rf"(?m)^ *(pub record|abbrev pub) {place[3]}\b", theorem)
        said = bench_here("find", "room 0 < 0", "--till", EXAMPLES / "one-song-charged-once.till")
        self.assertEqual(said.err, f"bench: impossible: 'room 0 < 0': {excluded.BALANCED}\n")

    def test_help_within_100_columns(self) -> None:
        for name, parser in (("bench", cli.parser()), *cli.commands().items()):
            with patch.dict(os.environ, COLUMNS="300"):
                helped = parser.format_help()
            for line in helped.splitlines():
                self.assertLessEqual(len(line), 100, (name, line))
            with patch.dict(os.environ, COLUMNS="60"):
                self.assertEqual(helped.split(), parser.format_help().split())
        done = subprocess.run([ROOT / "sheet", "--help"], capture_output=True, text=True, env=environment(), check=True)
        for text in (notation.GUIDE, done.stdout.split("\nversion ")[0]):
            self.assertLessEqual(max(map(len, text.splitlines())), 100)

    def test_help_that_cannot_be_written(self) -> None:
        for command in (["bench", "--help"], ["bench", "--version"], ["bench", "sweep", "--help"], ["bench", "notation"], ["sheet", "--help"], ["sheet", "--version"]):
            with open("/dev/full", "wb") as full:
                done = subprocess.run([ROOT / command[0], *command[1:]], stdout=full, stderr=subprocess.PIPE, text=True, env=environment(), check=False)
            self.assertEqual(done.returncode, 1, command)
            self.assertRegex(done.stderr, rf"\A{command[0]}: (cannot write to standard output|standard output: No space left on device)\n\Z")

    def test_signs_of_the_locale(self) -> None:
        """Where the locale is not UTF-8 there is no sign beyond ASCII; else they are the same."""
        sweep = ("sweep", "--threads", 2, "--nodes", 3, "--fan", 2, "--steps", 100, "--rounds", 1, "--jobs", 1)
        plain = bench(*sweep, LC_ALL="C").out
        self.assertTrue(plain.isascii())
        self.assertIn(" +- ", plain)
        for name in ("C.UTF-8", "de_DE.utf8", "en_US.UTF-8@euro"):
            signs = bench(*sweep, LC_ALL=name).out
            self.assertIn(" \xb1 ", signs)
            self.assertEqual(signs.replace("\xb1", "+-"), plain)

    def test_older_python(self) -> None:
        """It is told by both scripts, before anything that it could not read is loaded."""
        with tempfile.TemporaryDirectory() as folder:
            old = Path(folder) / "python3"
            old.write_text(
                f"#!/bin/sh\ntest \"$1\" = -c || {{ echo unknown option $1 >&2; exit 9; }}\nexec {sys.executable} -c 'import sys\n"
                "sys.version_info = (3, 10, 13, \"final\", 0)\nsys.modules[\"lock_bench\"] = None\ncode = sys.argv[2]\nexec(code)' \"$@\"\n"
            )
            old.chmod(0o755)
            for script, *arguments in (("bench", "--help"), ("bench", "sheet", "-e", "0: go"), ("sheet", str(EXAMPLES / "late-reader.schedule")), ("sheet", "--version")):
                path = f"{folder}:{os.environ['PATH']}"
                done = subprocess.run([str(ROOT / script), *arguments], capture_output=True, text=True, env=environment(PATH=path), check=False)
                self.assertEqual((done.returncode, done.stdout, done.stderr), (2, "", f"{script}: Python 3.11 or newer is needed; python3 on PATH is 3.10\n"))


class BeforeABuild(unittest.TestCase):
    def test_texts_are_read_first(self) -> None:
        """A mistake in a text or in the arguments is told where the library cannot even be had."""
        for command in ("sheet", "plain", "dispatch", "ticket", "trace", "page", "journal"):
            output = ("-o", os.devnull) if command == "page" else ()
            for arguments, status, said in (
                (("-e", "0: wirte"), 3, "<text>:1:"),
                (("no-such-file",), 2, "no-such-file: No such file or directory"),
            ):
                told = bench(command, *output, *arguments, LOCK_BENCH_LIBRARY=NO_LIBRARY)
                self.assertEqual((told.status, told.err[: len(said)]), (status, said), command)
            self.assertEqual(bench(command, *output, "-e", "tickets" if command == "ticket" else "0: go", LOCK_BENCH_LIBRARY=NO_LIBRARY).status, 1)
        told = bench("trace", "--dispatch", "--till", "no-such-file", "-e", "0: write", LOCK_BENCH_LIBRARY=NO_LIBRARY)
        self.assertEqual(told, (2, "", "bench: --dispatch and --till exclude each other: the dispatcher has no till\n"))


class OfThemselves(unittest.TestCase):
    def test_version(self) -> None:
        for said in (bench("--version"), bench("--version", LOCK_BENCH_LIBRARY=NO_LIBRARY)):
            self.assertEqual((said.status, said.err), (0, ""))
            lines = said.out.splitlines()
            self.assertEqual(lines[0], f"version    {identity.version()}")
            self.assertEqual(lines[1], f"toolchain  {identity.toolchain() or 'rt is not on PATH'}")
            self.assertRegex(lines[2], "^library    ")
        self.assertRegex(lines[2], f"^library    {NO_LIBRARY}: cannot load the library: ")
        self.assertTrue(bench("--help").out.endswith(bench("--version").out))

    def test_sheet_says_the_same(self) -> None:
        said, helped = (subprocess.run([ROOT / "sheet", option], capture_output=True, text=True, env=environment(), check=True).stdout for option in ("--version", "-h"))
        self.assertEqual(said.splitlines()[0], f"version    {identity.version()}")
        self.assertRegex(said.splitlines()[2], "^program    ")
        self.assertTrue(helped.startswith("usage: ./sheet ") and helped.endswith(said))

    def test_one_version(self) -> None:
        """The Rust binding's is the same."""
        self.assertIn(f'\nversion = "{identity.version()}"\n', (ROOT / "bindings" / "rust" / "Cargo.toml").read_text())

    def test_manual_pages(self) -> None:
        """They are made from what --help says, and the formatter has no complaint."""
        for command, words in (("bench", ("COMMANDS", "EXIT STATUS", "./bench sweep", "--till FILE")), ("sheet", ("--dispatch FILE [SCHEDULE]", "EXIT STATUS"))):
            said = bench("manual", command)
            self.assertEqual((said.status, said.err), (0, ""))
            if shutil.which("man") is None:
                continue
            shown = subprocess.run(["man", "-l", "--warnings", "-"], input=said.out, capture_output=True, text=True, env=environment(MANWIDTH="100"), check=True)
            self.assertEqual(shown.stderr, "")
            for word in words:
                self.assertIn(word, shown.stdout)
        for word in re.findall(r"^    (\w+) ", bench("--help").out, re.MULTILINE):
            self.assertIn(f"\n.SS {word}\n", bench("manual").out)


class Sheet(unittest.TestCase):
    """The script ``./sheet``, in a small repository with a stand-in for Rattle's kit."""

    def setUp(self) -> None:
        folder = tempfile.TemporaryDirectory()
        self.addCleanup(folder.cleanup)
        self.root = Path(folder.name) / "repository"
        self.root.mkdir()
        self.repository = Repository(self.root)
        shutil.copy(ROOT / "sheet", self.root)
        shutil.copytree(ROOT / "bindings" / "python" / "lock_bench", self.root / "bindings" / "python" / "lock_bench")
        self.folder = Path(folder.name) / "here"
        self.folder.mkdir()
        (self.folder / "a.schedule").write_bytes(b"\1\1\1\0\0")

    def sheet(self, *arguments: str) -> Said:
        done = subprocess.run(
            [self.root / "sheet", *arguments], cwd=self.folder, capture_output=True, text=True, env=environment(PATH=self.repository.path), check=False
        )
        return Said(done.returncode, done.stdout, done.stderr)

    def test_each_program_is_built_once(self) -> None:
        """The first call of a program builds that one alone."""
        for number, name in enumerate(("sheet", "plain", "ticket", "dispatch", "record"), 1):
            words = (*(() if name == "sheet" else (f"--{name}",)), "a.schedule")
            first = self.sheet(*words)
            self.assertEqual((first.status, first.out), (0, f"{name}\n"))
            self.assertIn(f"build: proving 3 crates and building the program {name}, once", first.err)
            self.assertEqual(self.sheet(*words), (0, f"{name}\n", ""))
            self.assertEqual(self.repository.calls()[number - 1 :], [f"run {name}"])

    def test_files_are_looked_at_first(self) -> None:
        self.assertEqual(self.sheet("no-such-file"), (2, "", "sheet: no-such-file: no such file\n"))
        self.assertEqual(self.sheet("--bogus"), (2, "", "sheet: unknown option --bogus (see ./sheet --help)\n"))
        self.assertEqual(self.sheet("--", "--bogus"), (2, "", "sheet: --bogus: no such file\n"))
        self.assertEqual(self.sheet("--plain", "--ticket", "a"), (2, "", "sheet: --plain and --ticket exclude each other (see ./sheet --help)\n"))
        self.assertEqual(self.sheet("a", "b"), (2, "", "sheet: too many arguments (see ./sheet --help)\n"))
        self.assertEqual(self.repository.calls(), [])

    def test_till(self) -> None:
        """It is said that a till was taken, beside the sheet."""
        self.sheet("a.schedule")
        self.sheet("--plain", "a.schedule")
        (self.folder / "till").write_bytes(b"\1\0")
        self.assertEqual(self.sheet("a.schedule"), (0, "sheet\n", "sheet: using the file till of this folder as the till\n"))
        self.assertEqual(self.sheet("--plain", "a.schedule"), (0, "plain\n", ""))

    def test_failed_proof(self) -> None:
        (self.root / "fail").touch()
        said = self.sheet("a.schedule")
        self.assertEqual((said.status, said.out), (1, ""))
        self.assertRegex(said.err, r"sheet: .*/build.log: `rt run sheet` failed; the end of its output is above, all of it in that file\n$")


@needs("bench_sheet")
class RealSheet(unittest.TestCase):
    """The script ``./sheet`` of this repository."""

    @classmethod
    def setUpClass(cls) -> None:
        """A first call says how far its build is."""
        for name in PROGRAMS:
            build.built(name)

    def test_examples(self) -> None:
        from lock_bench import build

        if build.current() is None:
            self.skipTest("the programs are not built")
        for path in example_files("schedule"):
            done = subprocess.run([ROOT / "sheet", path], capture_output=True, env=environment(), check=True)
            self.assertEqual(done.stdout, load().bench_sheet(path.read_bytes()).sheet, path)

    def test_texts(self) -> None:
        """It is said of a text that it is one, and what to call."""
        for words, name, call in (
            ((), "late-reader.schedule.txt", "./bench sheet {}"),
            (("--plain",), "hand-over.calls.txt", "./bench plain {}"),
            (("--ticket",), "hand-over.tickets.txt", "./bench ticket {}"),
            (("--dispatch",), "writer-and-reader.wants.txt", "./bench dispatch {}"),
            (("--record",), "read-again.csv", "./bench hold {}"),
            ((), "read-again.csv", "./bench sheet --text {}"),
        ):
            path = EXAMPLES / name
            done = subprocess.run([ROOT / "sheet", *words, path], capture_output=True, text=True, env=environment(), check=False)
            said = f"sheet: {path}: this is a text, and ./sheet takes files of bytes: call `{call.format(path)}`\n"
            self.assertEqual((done.returncode, done.stdout, done.stderr), (0, "answer 2 at 0\n", said))
        with (EXAMPLES / "late-reader.schedule.txt").open() as given:
            done = subprocess.run([ROOT / "sheet"], stdin=given, capture_output=True, text=True, env=environment(), check=False)
        self.assertRegex(done.stderr, "^sheet: standard input: this is a text, ")
        # What is no text is refused without a word.
        for data in (b"", b"\0\1\1\0\0", b"\1\1"):
            with tempfile.TemporaryFile() as file:
                file.write(data)
                file.seek(0)
                done = subprocess.run([ROOT / "sheet"], stdin=file, capture_output=True, text=True, env=environment(), check=False)
            self.assertEqual((done.returncode, done.stderr), (0, ""))
