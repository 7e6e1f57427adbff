"""The command ``./bench`` as people use it: in a pipe, in a terminal, with wrong arguments and damaged input."""

from __future__ import annotations

import os
import random
import re
import shutil
import signal
import subprocess
import tempfile
import unittest
from pathlib import Path

from lock_bench import Schedule, Till, TillEntry, cli, load, notation, run
from lock_bench.build import current
from lock_bench.stuck import STUCK, is_stuck

from .support import (
    BENCH,
    EXAMPLES,
    PATIENCE,
    ROOT,
    any_schedule,
    bench,
    bench_here,
    bench_in_terminal,
    bench_or_here,
    drawn_schedule,
    environment,
    example_files,
    has_two_locks,
    needs,
    stored_runs,
)
from .test_notation import damaged

COMMANDS = (
    "make", "show", "notation", "sheet", "plain", "dispatch", "ticket", "trace", "page", "play", "journal", "record", "hold", "find", "shrink", "explore", "cover", "compare", "sweep",
    "build", "manual",
)  # fmt: skip
ESCAPE = "\x1b["


class InFolder(unittest.TestCase):
    def setUp(self) -> None:
        folder = tempfile.TemporaryDirectory()
        self.addCleanup(folder.cleanup)
        self.folder = Path(folder.name)

    def file(self, name: str, data: bytes | str) -> Path:
        path = self.folder / name
        path.write_bytes(data.encode() if isinstance(data, str) else data)
        return path


class Help(unittest.TestCase):
    def test_top(self) -> None:
        said = bench("--help")
        self.assertEqual((said.status, said.err), (0, ""))
        for word in (*COMMANDS, "exit status", "FILE:LINE:COLUMN"):
            self.assertIn(word, said.out)

    def test_each_command_has_an_example_that_works(self) -> None:
        """The examples of every help text are run, each line in a folder of its own that has the repository's examples."""
        tried = 0
        for command in COMMANDS:
            said = bench(command, "--help")
            self.assertEqual(said.status, 0)
            examples = re.findall(r"^  (\./bench .*(?:\n    .*)*)$", said.out, re.MULTILINE)
            self.assertTrue(examples or command == "notation", command)
            for example in examples:
                # A build takes minutes where it is due; its tests have a stand-in for it. `play` serves until it is ended; its own tests do that.
                if command in ("build", "play"):
                    continue
                with tempfile.TemporaryDirectory() as folder:
                    for name in ("bench", "examples", "bindings"):
                        os.symlink(ROOT / name, Path(folder) / name)
                    done = subprocess.run(["bash", "-c", example], cwd=folder, capture_output=True, text=True, env=environment(), timeout=PATIENCE, check=False)
                self.assertEqual((done.returncode, done.stderr), (0, ""), example)
                tried += 1
        self.assertGreaterEqual(tried, 10)

    def test_first_steps(self) -> None:
        self.assertEqual(bench("notation").out, notation.GUIDE)
        shown = "\n".join(line for line in cli.DESCRIPTION.splitlines() if line.startswith("  "))
        self.assertEqual(notation.parse(shown).to_bytes(), (EXAMPLES / "colliding-readers.schedule").read_bytes())


class Everywhere(InFolder):
    """Each command says the same in a pipe and in a terminal, but for colours and the bar that shows how far it is."""

    def test_every_command(self) -> None:
        late, flat = EXAMPLES / "late-reader.schedule", EXAMPLES / "shape-too-flat.wants"
        words: dict[str, tuple[object, ...]] = {
            "make": ("-e", "0: go", "-o", self.folder / "a.schedule"),
            "show": (late,),
            "notation": (),
            "sheet": (late,),
            "plain": (EXAMPLES / "hand-over.calls",),
            "dispatch": (flat,),
            "ticket": (EXAMPLES / "hand-over.tickets",),
            "trace": (late,),
            "page": (late, "-o", self.folder / "a.html"),
            "journal": (late,),
            "record": (late, "-o", self.folder / "a.record"),
            "hold": (EXAMPLES / "worked-example.schedule", EXAMPLES / "read-again.csv"),
            "find": ("upgrade denied", "--threads", 2),
            "explore": ("--threads", 2),
            "cover": ("--nodes", 1, "--threads", 2),
            "shrink": (late, "--keep", "late arrival"),
            "draw": ("--threads", 2, "--nodes", 1, "--calls", 2),
            "compare": ("--dispatch", flat, "--fan", 3),
            "sweep": ("--threads", 2, "--nodes", "1,3", "--fan", 2, "--steps", 60, "--rounds", 8, "--jobs", 1),
            "build": (),
            "manual": (),
            "completion": ("bash",),
        }
        # `play` serves until it is ended: test_play.py.
        self.assertEqual(set(words), set(cli.commands()) - {"play"})
        for command, rest in words.items():
            if command == "build" and current() is None:
                # A build takes minutes; its tests have a stand-in for it.
                continue
            with self.subTest(command):
                piped, shown = bench(command, *rest), bench_in_terminal(command, *rest)
                self.assertEqual((piped.status, piped.err), (4 if command in ("hold", "compare") else 0, ""))
                self.assertEqual(shown.status, piped.status)
                self.assertEqual(re.sub(r"\x1b\[[0-9]*m", "", shown.out.split("\r\x1b[K")[-1]), piped.out)


class Statuses(InFolder):
    def test_wrong_arguments(self) -> None:
        for arguments in ((), ("fly",), ("sheet", "--no-such"), ("sheet", "a", "b"), ("trace", "--from", "x", "a"), ("show", "--as", "x", "a")):
            said = bench(*arguments)
            self.assertEqual((said.status, said.out), (2, ""), arguments)
            self.assertIn("usage: ", said.err)
            self.assertNotIn("Traceback", said.err)

    def test_file_that_cannot_be_read(self) -> None:
        for name, why in (("no-such-file", "No such file or directory"), (self.folder, "Is a directory")):
            for command in ("make", "show", "sheet", "plain", "dispatch", "ticket", "trace"):
                said = bench_here(command, name)
                self.assertEqual((said.status, said.out, said.err), (2, "", f"{name}: {why}\n"), command)
        said = bench("sheet", "--till", "no-such-file", EXAMPLES / "late-reader.schedule")
        self.assertEqual((said.status, said.err), (2, "no-such-file: No such file or directory\n"))

    def test_both_file_and_text(self) -> None:
        said = bench("sheet", "-e", "0: go", "a.txt")
        self.assertEqual((said.status, said.err), (2, "bench: give a file or -e TEXT, not both\n"))

    def test_no_file_in_a_terminal(self) -> None:
        said = bench_in_terminal("sheet")
        self.assertEqual((said.status, said.out), (2, "bench: no file given (see --help)\n"))

    def test_damaged_text(self) -> None:
        path = self.file("a.txt", "threads 2\n0: read 0, go*2\n1: wirte\n")
        for command in ("make", "show", "sheet", "plain", "dispatch", "trace"):
            said = bench_here(command, path)
            self.assertEqual((said.status, said.out, said.err), (3, "", f"{path}:3:4: unknown order 'wirte'; did you mean 'write'?\n"))
        said = bench("sheet", "--text", "-", given=b"0: read 0,\n\xff")
        self.assertEqual((said.status, said.err), (3, "<standard input>:2:1: byte ff is not UTF-8\n"))

    def test_endless_input(self) -> None:
        """Of an endless file no more is read than matters."""
        self.assertEqual(bench("sheet", "/dev/zero")[:2], (0, "answer 2 at 0\n"))
        self.assertEqual(bench("make", "/dev/zero", "-o", "-"), (3, "", "/dev/zero: the text is longer than 4,194,304 bytes\n"))

    def test_show_of_what_is_no_file(self) -> None:
        for data, why in ((b"", "not a schedule: 0 bytes, and its sizes alone take 5"), (b"\1\1\1\2\0\0\0\0", "not a schedule: 8 bytes, and with 2 rows it must have 9")):
            path = self.file("a.schedule", data)
            self.assertEqual(bench("show", path), (3, "", f"{path}: {why}\n"))
        path = self.file("a.till", b"\1")
        self.assertEqual(bench("show", path), (3, "", f"{path}: not a till: 1 bytes, and its sizes alone take 2\n"))

    def test_refused_files_and_rows_are_no_failure(self) -> None:
        for data, line in ((b"", "answer 1 at 0"), (b"\0\1\1\0\0", "answer 2 at 0"), (b"\1\1\1\1\0\0", "answer 3 at 0"), (b"\1\1\1\1\0\0\0", "answer 7 at 0")):
            said = bench_here("sheet", self.file("a.schedule", data))
            self.assertEqual((said.status, said.out.split("\n")[0]), (0, line))

    def test_text_under_another_name(self) -> None:
        path = self.file("a.schedule", "threads 2\n0: read 0\n")
        hint = f"{path}: this looks like a text: give it a name that ends in .txt, or use --text\n"
        for command in ("sheet", "plain", "dispatch", "trace"):
            said = bench_here(command, path)
            self.assertEqual((said.status, said.err), (0, hint), command)
            self.assertIn("answer 2", said.out)
            said = bench_here(command, "--text", path)
            self.assertEqual((said.status, said.err), (0, ""), command)
            self.assertNotIn("answer 2", said.out)

    def test_no_library(self) -> None:
        said = bench("sheet", EXAMPLES / "late-reader.schedule", LOCK_BENCH_LIBRARY="/no/such.so")
        self.assertEqual((said.status, said.out), (1, ""))
        self.assertRegex(said.err, "^/no/such.so: cannot load the library: .*\n$")
        # Texts are made and shown without it.
        self.assertEqual(bench("show", EXAMPLES / "late-reader.schedule", LOCK_BENCH_LIBRARY="/no/such.so").status, 0)

    def test_output_that_cannot_be_written(self) -> None:
        late = str(EXAMPLES / "late-reader.schedule")
        for arguments in (["sheet", late], ["trace", late], ["notation"]):
            with open("/dev/full", "wb") as full:
                done = subprocess.run([str(BENCH), *arguments], stdout=full, stderr=subprocess.PIPE, text=True, env=environment(), check=False)
            self.assertEqual((done.returncode, done.stderr), (1, "bench: standard output: No space left on device\n"), arguments)
        said = bench("make", "-e", "0: go", "-o", self.folder / "none" / "a")
        self.assertEqual((said.status, said.err), (1, f"{self.folder}/none/a: No such file or directory\n"))
        said = bench("make", "-e", "0: go", "-o", self.folder)
        self.assertEqual((said.status, said.err), (1, f"{self.folder}: Is a directory\n"))

    def test_closed_output(self) -> None:
        for arguments in (f"sheet {EXAMPLES}/late-reader.schedule", f"trace {EXAMPLES}/late-reader.schedule", "notation"):
            done = subprocess.run(["bash", "-c", f"{BENCH} {arguments} >&-"], capture_output=True, text=True, env=environment(), check=False)
            self.assertEqual((done.returncode, done.stderr), (1, "bench: standard output is closed\n"), arguments)
        done = subprocess.run(["bash", "-c", f"{BENCH} sheet <&-"], capture_output=True, text=True, env=environment(), check=False)
        self.assertEqual((done.returncode, done.stderr), (2, "bench: standard input is closed\n"))

    def test_reader_who_has_seen_enough(self) -> None:
        command = f"{BENCH} trace --dispatch {EXAMPLES}/site-of-19-threads.wants | head -1"
        done = subprocess.run(["bash", "-c", command], capture_output=True, text=True, env=environment(), check=False)
        self.assertEqual((len(done.stdout.splitlines()), done.stderr), (1, ""))

    def test_interrupted_while_modules_are_loaded(self) -> None:
        """Control-C ends it at once and quietly, before there is a command to hear it; a stand-in's module waits for it while it is loaded."""
        package = self.folder / "bindings" / "python" / "lock_bench"
        package.mkdir(parents=True)
        (package / "__init__.py").write_text("")
        (package / "cli.py").write_text("import signal\nprint('loading', flush=True)\nsignal.pause()\n")
        shutil.copy2(BENCH, self.folder / "bench")
        with subprocess.Popen([str(self.folder / "bench"), "notation"], stdout=subprocess.PIPE, stderr=subprocess.PIPE, env=environment()) as process:
            assert process.stdout is not None
            self.assertEqual(process.stdout.readline(), b"loading\n")
            process.send_signal(signal.SIGINT)
            out, err = process.communicate(timeout=PATIENCE)
        self.assertEqual((process.returncode, out, err), (-signal.SIGINT, b"", b""))


class Texts(InFolder):
    def test_make_and_show(self) -> None:
        for number, path in enumerate([*example_files("schedule"), *example_files("calls"), *example_files("wants")]):
            call = bench_or_here(number)
            text, made = self.folder / "a.txt", self.folder / "a"
            self.assertEqual(call("show", path, "-o", text), (0, "", ""))
            self.assertEqual(call("show", text).out, text.read_text())
            self.assertEqual(call("make", text, "-o", made), (0, "", ""))
            self.assertEqual(made.read_bytes(), path.read_bytes())

    def test_in_pipes(self) -> None:
        rng = random.Random(40)
        for _ in range(3):
            file = any_schedule(rng).to_bytes()
            command = f"{BENCH} show - | {BENCH} make - -o -"
            done = subprocess.run(["bash", "-o", "pipefail", "-c", command], input=file, capture_output=True, env=environment(), check=False)
            self.assertEqual((done.returncode, done.stdout, done.stderr), (0, file, b""))

    def test_kinds(self) -> None:
        for kind in ("tickets", "till"):
            self.assertGreater(len(example_files(kind)), 0, kind)
            for path in example_files(kind):
                text = bench("show", path).out
                self.assertEqual(text.split()[0], kind)
                made = self.folder / "a"
                self.assertEqual(bench("make", "-e", text, "-o", made).status, 0)
                self.assertEqual(made.read_bytes(), path.read_bytes())
                self.assertEqual(bench("show", "--as", kind, made).out, text)

    def test_numbers(self) -> None:
        said = bench("show", "--numbers", EXAMPLES / "late-reader.schedule")
        self.assertEqual(said.out, "N = 2, F = 1, T = 3:\n0:64,0,0 1:65,0 2:1,0,0,0,0,0,0 1:0,0,0,0\n")
        said = bench("show", "--numbers", "-e", "till")
        self.assertEqual((said.status, said.err), (3, "<text>: --numbers is for schedules only\n"))

    def test_no_bytes_to_a_terminal(self) -> None:
        said = bench_in_terminal("make", "-e", "0: go")
        self.assertEqual((said.status, said.out), (2, "bench: bytes are not written to a terminal: name a file with -o FILE\n"))

    def test_old_file_stays_where_nothing_is_made(self) -> None:
        old = self.file("a", b"old")
        self.assertEqual(bench("make", "-e", "0: goo", "-o", old).status, 3)
        self.assertEqual(old.read_bytes(), b"old")
        link = self.folder / "link"
        link.symlink_to(old)
        self.assertEqual(bench("make", "-e", "0: go", "-o", link).status, 0)
        self.assertTrue(link.is_symlink())
        self.assertEqual(old.read_bytes(), notation.parse("0: go").to_bytes())
        self.assertEqual(sorted(path.name for path in self.folder.iterdir()), ["a", "link"])

    def test_new_file_takes_the_place_of_the_old_one_whole(self) -> None:
        """The old file is never half written over: whoever still has it keeps it whole."""
        old = self.file("a", b"old")
        kept = self.folder / "kept"
        os.link(old, kept)
        self.assertEqual(bench_here("make", "-e", "0: go", "-o", old).status, 0)
        self.assertEqual((kept.read_bytes(), old.read_bytes()), (b"old", notation.parse("0: go").to_bytes()))

    def test_device_is_written_in_place(self) -> None:
        self.assertEqual(bench_here("make", "-e", "0: go", "-o", os.devnull), (0, "", ""))
        self.assertFalse(Path(os.devnull).is_file())
        self.assertEqual(bench("show", "-e", "0: go", "-o", "/dev/stdout").out, notation.print_schedule(notation.parse("0: go")))

    def test_damaged_texts_never_give_a_traceback(self) -> None:
        """A thousand damaged texts through every command that reads one, within one process; the exit status says what became of them."""
        rng = random.Random(41)
        texts = [path.read_text() for path in sorted(EXAMPLES.glob("*.txt"))]
        statuses = {0: 0, 3: 0}
        commands = ["make", "show", "sheet", "plain", "dispatch", "trace"]
        for number in range(1000):
            data = damaged(rng, rng.choice(texts)).encode()
            if number % 10 == 0:
                data = data.replace(b" ", rng.randbytes(1), 1)
            path = self.file("d.txt", data)
            command = commands[number % len(commands)]
            said = bench_here(command, path)
            self.assertIn(said.status, statuses, said.err)
            statuses[said.status] += 1
            # What is refused is said too, and is no failure.
            where = rf"{re.escape(str(path))}(?::[0-9]+:[0-9]+)?"
            self.assertRegex(said.err, rf"^{where}: .*\n$" if said.status == 3 else rf"^(?:{where}: .*\n)?$")
        self.assertGreater(min(statuses.values()), 100)

    def test_damaged_texts_in_a_process_of_their_own(self) -> None:
        rng = random.Random(42)
        texts = [path.read_text() for path in sorted(EXAMPLES.glob("*.txt"))]
        for _ in range(8):
            said = bench("trace", "--text", "-", given=damaged(rng, rng.choice(texts)).encode())
            self.assertIn(said.status, (0, 3))
            self.assertNotIn("Traceback", said.out + said.err)


class Sheets(InFolder):
    def test_files_and_texts(self) -> None:
        for kind, command in (("schedule", "sheet"), ("calls", "plain")):
            for number, path in enumerate(example_files(kind)):
                file = path.read_bytes()
                sheet = (load().bench_sheet(file).sheet if kind == "schedule" else load().plain_sheet(file)).decode()
                call = bench_or_here(number)
                self.assertEqual(call(command, path), (0, sheet, ""))
                for said in (call(command, f"{path}.txt"), call(command, "-e", Path(f"{path}.txt").read_text())):
                    self.assertEqual(said[:2], (0, sheet))
                    # A refused row is named by its place in the text.
                    self.assertRegex(said.err, "^$" if sheet.startswith("answer 0 ") else r":[0-9]+:[0-9]+: row [0-9]+ is refused with 7: ")
                if number == 0:
                    self.assertEqual(bench(command, given=file), (0, sheet, ""))
                    self.assertEqual(bench(command, "-", given=file), (0, sheet, ""))

    def test_dispatcher(self) -> None:
        given, text = self.folder / "given.schedule", self.folder / "given.txt"
        for path in example_files("wants"):
            sheet, schedule = load().dispatch_sheet(path.read_bytes())
            # A call that is refused is named; its row is tested with the messages.
            said = bench_here("dispatch", f"{path}.txt")
            self.assertEqual((said[:2], said.err.count("\n")), ((0, sheet.decode()), int(not sheet.startswith(b"answer 0 "))))
            self.assertEqual(bench_here("dispatch", path, "-o", given)[:2], (0, sheet.decode()))
            self.assertEqual(given.read_bytes(), schedule)
            self.assertEqual(bench_here("dispatch", path, "-o", text)[:2], (0, sheet.decode()))
            self.assertEqual(notation.parse(text.read_text()).to_bytes(), schedule)
        self.assertEqual(bench("dispatch", "-e", "nodes 0", "-o", given)[:2], (0, "answer 2 at 0\n"))
        self.assertEqual(given.read_bytes(), schedule)

    def test_stored_files(self) -> None:
        """The stored files, damaged ones among them, byte for byte as they are printed."""
        for crate, command in (("runs", "sheet"), ("plain_runs", "plain"), ("dispatch_runs", "dispatch")):
            for stored in stored_runs(crate):
                # Refusal 4 is that of a journal that is too short, which the command never has.
                if b"answer 4" not in stored.sheet():
                    said = bench_here(command, self.file("a", stored.file))
                    self.assertEqual((said.status, said.out), (0, stored.sheet().decode()), stored.name)

    @needs("ticket_sheet")
    def test_ticket_lock(self) -> None:
        for path in example_files("tickets"):
            sheet = load().ticket_sheet(path.read_bytes()).decode()
            self.assertEqual(bench("ticket", path), (0, sheet, ""))
            self.assertEqual(bench("ticket", f"{path}.txt"), (0, sheet, ""))

    @needs("credit_sheet")
    def test_till(self) -> None:
        till = Till(2, (TillEntry(1, 20), TillEntry(0, -3)))
        schedule = notation.parse("0: write, go*2, book 0, book 1")
        sheet = load().credit_sheet(schedule.to_bytes(), till.to_bytes()).sheet.decode()
        for name, data in (("a.till", till.to_bytes()), ("till.txt", notation.print_till(till).encode())):
            said = bench("sheet", "--till", self.file(name, data), "-e", notation.print_schedule(schedule))
            self.assertEqual(said, (0, sheet, ""))
        self.assertEqual(bench("sheet", "--till", self.file("none", b""), "-e", "0: go")[:2], (0, "answer 10 at 0\n"))

    @needs("credit_sheet")
    def test_till_of_the_examples(self) -> None:
        """Schedule and till as files and as texts give the sheet that ends with the balances, and the same trace."""
        for path in example_files("bookings"):
            till = path.with_suffix(".till")
            sheet = load().credit_sheet(path.read_bytes(), till.read_bytes()).sheet.decode()
            self.assertIn("\nroom 0 ", sheet)
            told = bench_here("trace", "--till", till, path)
            self.assertEqual((told.status, told.err), (0, ""))
            self.assertIn("room 0: 0 -> ", told.out)
            for run_of, beside in ((path, f"{till}.txt"), (f"{path}.txt", till), (f"{path}.txt", f"{till}.txt")):
                self.assertEqual(bench_here("sheet", "--till", beside, run_of), (0, sheet, ""))
                self.assertEqual(bench_here("trace", "--till", beside, run_of), told)
            # Without its till the run ends at the first booking, and there is no room.
            alone = bench_here("sheet", path)
            self.assertEqual((alone.status, alone.out.splitlines()[0]), (0, "answer 6 at 3"))
            self.assertNotIn("room", alone.out)

    @needs("credit_sheet")
    def test_page_with_a_till(self) -> None:
        page = self.folder / "a.html"
        path = EXAMPLES / "one-song-charged-once"
        self.assertEqual(bench("page", "--till", f"{path}.till", f"{path}.bookings", "-o", page), (0, "", ""))
        self.assertIn('"rooms":2,', page.read_text())
        self.assertIn("repeated entry 1, booked before", page.read_text())

    @needs("credit_sheet")
    def test_refused_till(self) -> None:
        """Its number, and nothing to step through; a text under another name is seen for one."""
        why = "the till file's sizes, length or room numbers are wrong"
        for data, wrong in (
            (b"", "the file has 0 bytes; its sizes alone take 2"),
            (b"\0\0", "rooms must be 1 to 32, not 0"),
            (b"\1\1\1\5\0", "entry 0 names room 1, and the rooms are 0 to 0"),
            (Till(1, (TillEntry(0, 5),)).to_bytes() + b"\0", "the file has 6 bytes; with 1 entries it must have 5"),
        ):
            till = self.file("till", data)
            self.assertEqual(bench_here("sheet", "--till", till, "-e", "0: go"), (0, "answer 10 at 0\n", f"{till}: {wrong}\n"))
            self.assertEqual(bench_here("trace", "--till", till, "-e", "0: go"), (0, f"answer 10 at 0: {why}\n", f"{till}: {wrong}\n"))
            said = bench_here("page", "--till", till, "-e", "0: go", "-o", self.folder / "a.html")
            self.assertEqual(said, (3, "", f"{till}: {wrong}\n<text>: nothing to step through: the file is refused with 10: {why}\n"))
        self.assertFalse((self.folder / "a.html").exists())
        # A file of its own kind that is refused comes first.
        self.assertEqual(bench_here("sheet", "--till", till, "-e", "nodes 0"), (0, "answer 2 at 0\n", "<text>: nodes must be 1 to 32, not 0\n"))
        till = self.file("till", "till rooms 2\n0: room 1, +20\n")
        hint = f"{till}: this looks like a text: give it a name that ends in .txt\n"
        self.assertEqual(bench_here("sheet", "--till", till, "-e", "0: go"), (0, "answer 10 at 0\n", hint))
        self.assertEqual(bench_here("trace", "--till", till, "-e", "0: go").err, hint)

    def test_damaged_text_of_a_till(self) -> None:
        path = self.file("till.txt", "till rooms 2\n0: romo 1, +20\n")
        said = bench("sheet", "--till", path, "-e", "0: go")
        self.assertEqual(said, (3, "", f"{path}:2:4: expected 'room', found 'romo'\n"))

    def test_the_dispatcher_has_no_till(self) -> None:
        for command in (("trace",), ("page", "-o", self.folder / "a.html")):
            said = bench_here(*command, "--dispatch", "--till", EXAMPLES / "one-song-charged-once.till", EXAMPLES / "convoy-of-writers.wants")
            self.assertEqual(said, (2, "", "bench: --dispatch and --till exclude each other: the dispatcher has no till\n"))

    def test_without_a_till_no_booking_is_taken(self) -> None:
        said = bench("trace", "-e", "0: write, go*2, book 0")
        self.assertEqual((said.status, said.out.splitlines()[-1]), (0, "answer 6 at 3: there is no such order"))


class Trace(InFolder):
    def test_colliding_readers(self) -> None:
        said = bench("trace", EXAMPLES / "colliding-readers.schedule")
        self.assertEqual((said.status, said.err), (0, ""))
        lines = said.out.splitlines()
        self.assertEqual(lines[0].split(), ["row", "thread", "order", "what", "it", "did", "what", "changed"])
        self.assertEqual(lines[6], "  5       1  go      swap of root failed: (0, 0, open), found (1, 0, open)     failures of 1: 0 -> 1")
        self.assertEqual(lines[-1], "answer 0 at 7")
        self.assertEqual(len(lines), 9)
        self.assertEqual(bench("trace", EXAMPLES / "colliding-readers.schedule.txt").out, said.out)

    def test_choosing_rows(self) -> None:
        path = EXAMPLES / "site-of-19-threads.wants"
        everything = bench("trace", "--dispatch", path).out.splitlines()
        head, *rows, answer = everything
        self.assertEqual([int(row.split()[0]) for row in rows], list(range(1044)))
        choices: list[tuple[tuple[object, ...], list[str]]] = [
            (("--from", 100, "--to", 120), [row for row in rows if 100 <= int(row.split()[0]) <= 120]),
            (("--thread", 4), [row for row in rows if row.split()[1] == "4"]),
            (("--thread", 4, "--thread", 14, "--to", 50), [row for row in rows[:51] if row.split()[1] in ("4", "14")]),
            (("--failures",), [row for row in rows if " failed: " in row]),
            (("--failures", "--thread", 18, "--from", 500), [row for row in rows[500:] if row.split()[1] == "18" and " failed: " in row]),
            (("--from", 5000), []),
        ]
        for arguments, chosen in choices:
            self.assertEqual(bench("trace", "--dispatch", *arguments, path).out.splitlines(), [head, *chosen, answer], arguments)
        self.assertEqual(bench("trace", "--dispatch", "--from", 5000, path).err, "bench: no rows selected (of 1044)\n")
        failures = sum(thread.failures for thread in run(Schedule.from_bytes(load().dispatch_sheet(path.read_bytes()).schedule)).sheet.locks[0].threads)
        self.assertEqual(sum(" failed: " in row for row in rows), failures)

    def test_refused_row(self) -> None:
        said = bench("trace", EXAMPLES / "refused-row.schedule").out.splitlines()
        where = ", in the second lock idle" if has_two_locks() else ""
        self.assertEqual(said[-2], f"  6       0  unlock  refused with 7: the order does not suit the thread (thread 0 is idle{where})")
        self.assertEqual(said[-1], "answer 7 at 6: the order does not suit the thread")
        self.assertEqual(len(bench("trace", "--failures", EXAMPLES / "refused-row.schedule").out.splitlines()), 2)

    def test_refused_file(self) -> None:
        said = (0, "answer 2 at 0: a size is out of range\n", "<text>: nodes must be 1 to 32, not 0\n")
        self.assertEqual(bench("trace", "-e", "nodes 0 0: go"), said)

    def test_colours_on_a_terminal_alone(self) -> None:
        path = EXAMPLES / "colliding-readers.schedule"
        plain = bench("trace", path).out
        self.assertNotIn(ESCAPE, plain)
        coloured = bench_in_terminal("trace", path)
        self.assertEqual(coloured.status, 0)
        self.assertIn(f"{ESCAPE}31mswap of root failed: (0, 0, open), found (1, 0, open){ESCAPE}0m", coloured.out)
        self.assertEqual(re.sub(r"\x1b\[[0-9]*m", "", coloured.out), plain)
        for changed in ({"NO_COLOR": "1"}, {"TERM": "dumb"}):
            self.assertEqual(bench_in_terminal("trace", path, **changed).out, plain)
        self.assertEqual(bench_in_terminal("trace", "--color", "never", path).out, plain)
        self.assertEqual(bench("trace", "--color", "always", path, NO_COLOR="1").out, coloured.out)
        self.assertEqual(bench_in_terminal("trace", path, NO_COLOR="").out, coloured.out)

    def test_any_schedule_has_a_trace(self) -> None:
        rng = random.Random(44)
        for schedule in (*(any_schedule(rng) for _ in range(200)), *(drawn_schedule(rng, 30) for _ in range(20))):
            said = bench_here("trace", self.file("a", schedule.to_bytes()))
            sheet, lines = run(schedule).sheet, said.out.splitlines()
            self.assertEqual(said.status, 0)
            if sheet.locks and is_stuck(schedule):
                self.assertEqual(lines.pop(), STUCK)
            self.assertEqual(lines[-1].split(":")[0], f"answer {sheet.answer} at {sheet.taken}")
            self.assertEqual(len(lines), 1 if not sheet.locks else 2 + sheet.taken + (sheet.answer != 0))
