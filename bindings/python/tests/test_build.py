"""What ``./sheet`` and ``./bench`` need: built when it is due, once, and whole or not at all."""

from __future__ import annotations

import ctypes
import os
import pty
import shutil
import signal
import subprocess
import tempfile
import unittest
from contextlib import redirect_stderr
from io import StringIO
from pathlib import Path
from typing import Any
from unittest.mock import patch

from lock_bench import Library, LibraryError, build, identity, linking, native, sources
from lock_bench.build import Built, built
from lock_bench.building import Watch, clock, made, planned
from lock_bench.identity import Identity
from lock_bench.sources import ARCHIVES, PROGRAMS

from .standin import ONE_BUILD, Repository
from .support import PATIENCE, wait_until


def is_running(process: int) -> bool:
    """Whether there is such a process, and it has not ended."""
    try:
        return Path(f"/proc/{process}/stat").read_text().rpartition(")")[2].split()[0] != "Z"
    except FileNotFoundError:
        return False


class InRepository(unittest.TestCase):
    def setUp(self) -> None:
        folder = tempfile.TemporaryDirectory()
        self.addCleanup(folder.cleanup)
        self.root = Path(folder.name) / "a repository"
        self.root.mkdir()
        self.repository = Repository(self.root)
        self.said = StringIO()

    def build(self, path: str | None = None, program: str | None = None) -> Built:
        self.said = StringIO()
        with patch.dict(os.environ, PATH=path or self.repository.path), redirect_stderr(self.said):
            return built(program, self.root)


class Building(InRepository):
    def test_built_once(self) -> None:
        made = self.build()
        self.assertEqual(self.repository.calls(), ONE_BUILD)
        library = ctypes.CDLL(str(made.library))
        self.assertEqual([library[f"number_of_{crate}"]() for crate in ARCHIVES], list(range(1, 1 + len(ARCHIVES))))
        self.assertEqual(self.build(), made)
        self.assertEqual((self.repository.calls(), self.said.getvalue()), (ONE_BUILD, ""))

    def test_each_by_itself(self) -> None:
        """A program needs what it builds on alone, and the library no program; what was proved for one is not proved for another."""
        called: list[str] = []
        for name in PROGRAMS:
            made = self.build(program=name)
            called.append(f"run {name}")
            self.assertEqual(self.repository.calls(), called)
            self.assertEqual(sorted(path.name for path in made.folder.iterdir()), sorted((name, "identity")))
            self.assertEqual(subprocess.run([made.folder / name], capture_output=True, text=True, check=True).stdout, f"{name}\n")
            self.assertEqual((self.build(program=name), self.said.getvalue()), (made, ""))
            self.assertEqual(made.identity.sources, sources.sum_of((name,), self.root))
        self.assertNotIn(" for bench\n", (self.root / "target" / "build.log").read_text())
        self.assertIsNone(build.current(root=self.root))
        self.build()
        self.assertEqual(self.repository.calls(), called + ONE_BUILD)
        self.assertEqual(len(self.repository.sets()), len(PROGRAMS) + 1)
        # A change that a program alone has is not one of the library.
        (self.root / "crates" / "plain" / "src" / "lib.rt").write_text("another source")
        self.assertIsNone(build.current("plain", self.root))
        self.assertIsNotNone(build.current("sheet", self.root))
        self.assertIsNotNone(build.current(root=self.root))

    def test_identity(self) -> None:
        """The shared object says what it was made from, wherever it stands."""
        made = self.build()
        expected = Identity(identity.version(), sources.sum_of(root=self.root), "stand-in 1")
        self.assertEqual(made.identity, expected)
        moved = self.root / "moved.so"
        shutil.copy(made.library, moved)
        self.assertEqual(Library(moved).identity, expected)
        self.assertEqual(build.current(root=self.root), made)

    def test_linked(self) -> None:
        """Archive and shared object have the functions of all crates and the identity: a program that is linked with either starts."""
        made = self.build()
        program = self.root / "program"
        numbers = " + ".join(f"number_of_{crate}()" for crate in ARCHIVES)
        declared = "".join(f"int number_of_{crate}(void); " for crate in ARCHIVES)
        source = f"#include <stdio.h>\nextern const char {linking.IDENTITY}[]; {declared} int main(void) {{ printf(\"%d %s\", {numbers}, {linking.IDENTITY}); }}"
        for library in (linking.ARCHIVE, linking.SHARED):
            command = ["cc", "-x", "c", "-", "-x", "none", f"{made.folder}/{library}", f"-Wl,-rpath,{made.folder}", "-o", str(program)]
            subprocess.run(command, input=source, text=True, check=True)
            printed = subprocess.run([program], capture_output=True, text=True, check=True).stdout
            self.assertEqual(printed, f"{sum(range(1, 1 + len(ARCHIVES)))} {made.identity.to_text()}")

    def test_name_of_the_shared_object(self) -> None:
        """Programs ask for it by the first number of the version."""
        told = subprocess.run(["readelf", "-d", self.build().library], capture_output=True, text=True, check=True).stdout
        self.assertIn(f"soname: [liblock_bench.so.{identity.version().split('.')[0]}]", told)
        self.assertEqual(linking.soname("12.3.4"), "liblock_bench.so.12")

    def test_check_builds_nothing(self) -> None:
        for _ in range(2):
            with self.assertRaisesRegex(LibraryError, "^nothing is built from these sources; ./bench build does it$"):
                build.checked(self.root)
            self.assertEqual(self.repository.calls(), [])
        made = self.build()
        self.assertEqual(build.checked(self.root), made)
        self.repository.change()
        with self.assertRaisesRegex(LibraryError, "^nothing is built from these sources"):
            build.checked(self.root)
        with self.assertRaisesRegex(LibraryError, "^nothing is built from these sources"):
            build.checked(self.root / "crates")

    def test_folder_without_an_archive(self) -> None:
        """An earlier version made no archive: what it built is built anew."""
        made = self.build()
        (made.folder / linking.ARCHIVE).unlink()
        self.assertIsNone(build.current(root=self.root))
        self.assertEqual(self.build(), made)
        self.assertTrue((made.folder / linking.ARCHIVE).exists())

    def test_told(self) -> None:
        with patch.dict(os.environ, PATH=self.repository.path):
            before = build.told("plain", self.root)
        self.assertEqual(before[:2], [f"version    {identity.version()}", "toolchain  stand-in 1"])
        self.assertRegex(before[2], r"^program    not built yet from these sources, [0-9a-f]{16}: the first call that needs it proves 3 crates and builds it$")
        number = 2 + len(ARCHIVES)
        self.assertRegex(build.not_built(root=self.root)[2], rf"^library    not built yet from these sources, [0-9a-f]{{16}}: .* proves {number} crates and builds it$")
        made = self.build(program="plain")
        with patch.dict(os.environ, PATH=self.repository.path):
            after = build.told("plain", self.root)
        short = made.identity.sources[:16]
        self.assertEqual(after[2:], [f"program    {made.folder / 'plain'}", f"           proved from these sources, {short}", "           with stand-in 1"])
        self.assertEqual(identity.told("library", made.library, made.identity, "0" * 64)[3].split(",")[0], "           NOT proved from these sources")
        self.assertIn("does not say what it was proved from", identity.told("library", made.library, None, None)[3])

    def test_built_anew_after_a_change_alone(self) -> None:
        first = self.build()
        # The time of a file says nothing.
        os.utime(self.repository.source)
        self.assertEqual(self.build(), first)
        before = self.repository.source.read_text()
        self.repository.change()
        second = self.build()
        self.assertNotEqual(second.folder, first.folder)
        self.assertEqual(self.repository.calls(), ONE_BUILD * 2)
        # Whoever goes back finds what was built.
        self.repository.source.write_text(before)
        self.assertEqual(self.build(), first)
        self.assertEqual(self.repository.calls(), ONE_BUILD * 2)

    def test_what_counts_as_a_source(self) -> None:
        first = sources.sum_of(root=self.root)
        (self.root / "crates.txt").write_text((self.root / "crates.txt").read_text() + "# A comment.\nother: lock\n")
        (self.root / "crates" / "lock" / "must-fail").mkdir()
        (self.root / "crates" / "lock" / "must-fail" / "a.edit").write_text("an edit")
        self.assertEqual(sources.sum_of(root=self.root), first)
        (self.root / "crates" / "lock" / "specs").mkdir()
        (self.root / "crates" / "lock" / "specs" / "a.antt").write_text("a definition")
        second = sources.sum_of(root=self.root)
        (self.root / "crates.txt").write_text((self.root / "crates.txt").read_text().replace("capi staticlib: bench", "capi staticlib: bench lock"))
        self.assertEqual(len({first, second, sources.sum_of(root=self.root)}), 3)

    def test_change_during_a_build(self) -> None:
        (self.root / "slow").touch()
        process = self.repository.start()
        wait_until(lambda: (self.root / "target" / "stamp" / "lock").exists())
        self.repository.source.write_text("another source")
        (self.root / "slow").unlink()
        out, err = process.communicate(timeout=PATIENCE)
        self.assertEqual((process.returncode, out), (1, ""))
        self.assertIn("the sources changed while they were proved; try again", err)
        self.assertEqual(self.repository.sets(), [])

    def test_nothing_is_written_once_it_is_built(self) -> None:
        """As another user, who may read alone."""
        made = self.build()
        if os.geteuid() == 0:
            for folder in (self.root.parent, self.root):
                folder.chmod(0o755)
            os.seteuid(65534)
            self.addCleanup(os.seteuid, 0)
        else:
            for path in (self.root, *self.root.rglob("*")):
                path.chmod(path.stat().st_mode & 0o555)
        with self.assertRaises(PermissionError):
            (self.root / "target" / "a").touch()
        self.assertEqual(self.build(), made)

    def test_no_write_access_before_it_is_built(self) -> None:
        (self.root / "target").write_text("a file")
        with self.assertRaisesRegex(LibraryError, "target: cannot build the library: File exists"):
            self.build()

    def test_failed_proof(self) -> None:
        (self.root / "fail").touch()
        for _ in range(2):
            with self.assertRaisesRegex(LibraryError, "build.log: `rt lib capi` failed; the end of its output is above, all of it in that file$"):
                self.build()
            self.assertIn("fn lock::a: not proved", self.said.getvalue())
        self.assertEqual(self.repository.sets(), [])
        (self.root / "fail").unlink()
        self.build()

    def test_missing_tools(self) -> None:
        with self.assertRaisesRegex(LibraryError, "^cannot build the library: rt, Rattle's kit, is not on PATH$"):
            self.build(str(self.root / "no-tools"))
        with self.assertRaisesRegex(LibraryError, "^cannot build the library: cc, a C compiler, is not on PATH$"):
            self.build(str(self.root / "tools"))

    def test_no_sources(self) -> None:
        with self.assertRaisesRegex(LibraryError, "^no library in this package, and no crates.txt in "):
            built(root=self.root / "crates")
        self.assertIn("none, and no crates.txt", build.not_built(root=self.root / "crates")[2])

    def test_wrong_crates(self) -> None:
        for text, why in (("lock: bench\nbench: lock\nsheet: bench\n", "in a cycle through"), ("lock:\n", "the crate sheet is not listed")):
            (self.root / "crates.txt").write_text(text)
            with self.assertRaisesRegex(LibraryError, f"crates.txt: .*{why}"):
                self.build(program="sheet")

    def test_archive_that_is_none(self) -> None:
        """What cannot be linked leaves nothing behind that could be taken for a library."""
        rt = self.root / "tools" / "rt"
        rt.write_text(rt.read_text().replace("ar rc", "echo none >"))
        with self.assertRaisesRegex(LibraryError, "liblock_bench.a: cannot link the library: "):
            self.build()
        self.assertIsNone(build.current(root=self.root))
        rt.write_text(rt.read_text().replace("echo none >", "ar rc"))
        self.build()
        self.assertEqual(len(self.repository.sets()), 1)


class Stopped(InRepository):
    """A build that is stopped leaves nothing half made, and the next one goes on from what is proved."""

    def setUp(self) -> None:
        super().setUp()
        (self.root / "slow").touch()

    def started(self) -> subprocess.Popen[str]:
        (self.root / "running").unlink(missing_ok=True)
        process = self.repository.start()
        wait_until(lambda: self.has_started() and (self.root / "target" / "stamp" / "lock").exists())
        return process

    def has_started(self) -> bool:
        """Whether the stand-in has said which process it is; a file that it has only opened is empty."""
        running = self.root / "running"
        return running.exists() and running.read_text().endswith("\n")

    def rt(self) -> int:
        """The process of the stand-in that was started last."""
        return int((self.root / "running").read_text())

    def test_ended_by_a_signal(self) -> None:
        for number, status in ((signal.SIGINT, -signal.SIGINT), (signal.SIGTERM, 128 + signal.SIGTERM), (signal.SIGHUP, 128 + signal.SIGHUP)):
            process = self.started()
            self.assertTrue(is_running(self.rt()))
            process.send_signal(number)
            out, err = process.communicate(timeout=PATIENCE)
            self.assertEqual((process.returncode, out), (status, ""), err)
            self.assertIn("build: stopped; what is proved is kept, and the next call goes on from there\n", err)
            wait_until(lambda: not is_running(self.rt()))
            self.assertEqual(self.repository.sets(), [])
        (self.root / "slow").unlink()
        self.build()
        self.assertNotIn(" for lock\n", (self.root / "target" / "build.log").read_text())

    def test_ended_while_rt_is_started(self) -> None:
        """A signal that comes before there is a process to end ends it all the same."""
        start = subprocess.Popen

        def started(words: list[str], **rest: Any) -> subprocess.Popen[bytes]:
            process: subprocess.Popen[bytes] = start(words, **rest)
            if words[1] == "lib":
                wait_until(lambda: self.has_started() and is_running(process.pid))
                os.kill(os.getpid(), number)
            return process

        for number, raised in ((signal.SIGINT, KeyboardInterrupt), (signal.SIGTERM, SystemExit), (signal.SIGHUP, SystemExit)):
            (self.root / "running").unlink(missing_ok=True)
            with patch.object(subprocess, "Popen", started), self.assertRaises(raised):
                self.build()
            self.assertFalse(is_running(self.rt()))
            self.assertIn("build: stopped; what is proved is kept", self.said.getvalue())

    def test_killed(self) -> None:
        """What a killed build started is killed too; the next one goes on from what is proved."""
        first, rt = self.started(), self.rt()
        first.kill()
        first.communicate(timeout=PATIENCE)
        wait_until(lambda: not is_running(rt))
        self.assertEqual(self.repository.calls(), ONE_BUILD[:1])
        (self.root / "slow").unlink()
        second = self.repository.start()
        out, _ = second.communicate(timeout=PATIENCE)
        self.assertEqual((second.returncode, out), (0, f"{self.root}/target/{self.repository.sets()[0]}\n"))
        self.assertEqual(self.repository.calls(), [ONE_BUILD[0], *ONE_BUILD])

    def test_killed_while_it_puts_things_together(self) -> None:
        (self.root / "slow").unlink()
        made = self.build()
        left = made.folder.with_name(f"{made.folder.name}.new")
        made.folder.rename(left)
        (left / "liblock_bench.so").write_text("half of it")
        self.assertIsNone(build.current(root=self.root))
        self.assertEqual(self.build(), made)
        self.assertEqual(self.repository.sets(), [made.folder.name])
        self.assertEqual(Library(made.library).identity, made.identity)

    def test_second_call_waits(self) -> None:
        first, second = self.started(), self.repository.start()
        assert second.stderr is not None
        self.assertEqual(second.stderr.readline(), "build: another call is building; waiting for it\n")
        (self.root / "slow").unlink()
        folders = [process.communicate(timeout=PATIENCE)[0] for process in (first, second)]
        self.assertEqual(folders, [f"{self.root}/target/{self.repository.sets()[0]}\n"] * 2)
        self.assertEqual(self.repository.calls(), ONE_BUILD)


class Told(InRepository):
    """How far a build is."""

    def test_in_a_pipe(self) -> None:
        self.build()
        first, *lines, last = self.said.getvalue().splitlines()
        total = 2 + len(ARCHIVES)
        self.assertRegex(first, rf"^build: proving {total} crates and building the library, once$")
        for line in lines:
            self.assertRegex(line, rf"^build: \d+ of {total} proved, (now [a-z_]+|linking)$")
        counts = [int(line.split()[1]) for line in lines]
        self.assertEqual((counts, counts[-1]), (sorted(set(counts)), total))
        self.assertRegex(last, r"^build: done in 0:\d\d$")

    def test_in_a_terminal(self) -> None:
        """One line that changes, and is gone at the end."""
        master, slave = pty.openpty()
        process = self.repository.start(stderr=slave)
        os.close(slave)
        process.communicate(timeout=PATIENCE)
        said = os.read(master, 65536).decode()
        os.close(master)
        self.assertEqual(said.count("\n"), 2)
        self.assertRegex(said, rf"\r\x1b\[Kbuild: \d+ of {2 + len(ARCHIVES)} proved, ")
        self.assertRegex(said, r"\r\x1b\[Kbuild: done in 0:\d\d\r\n$")

    def test_how_far(self) -> None:
        """What the log has: which crate was begun last, and what is made."""
        log = self.root / "log"
        watch = Watch(log, StringIO())
        self.assertEqual(watch.line(), "")
        log.write_text(planned(["lock", "file", "cells", "till", "capi"]))
        self.assertEqual(log.read_text(), "build: lock file cells till capi\n")
        for added, line in (
            ("", "0 of 5 proved, now lock"),
            ("rt: chose --jobs 1 for lock\nfn lock::a: proved\n", "0 of 5 proved, now lock"),
            ("rt: chose --jobs 4 for file\n", "1 of 5 proved, now file"),
            # Those between were proved before.
            ("rt: chose --jobs 2 for till\nrt: chose --jobs 1 for another\n", "3 of 5 proved, now till"),
            ("rt: chose --jobs 1 for capi\n", "4 of 5 proved, now capi"),
            (made("capi"), "5 of 5 proved, linking"),
        ):
            log.write_text(log.read_text() + added)
            self.assertEqual(watch.line(), f"build: {line}")

    def test_said_once(self) -> None:
        """In a pipe a line is printed where something is new."""
        stream = StringIO()
        watch = Watch(self.root / "log", stream)
        for text in ("", "build: lock file\n", "build: lock file\nrt: chose --jobs 1 for file\n"):
            (self.root / "log").write_text(text)
            watch.look()
            watch.look()
        self.assertEqual(stream.getvalue(), "build: 0 of 2 proved, now lock\nbuild: 1 of 2 proved, now file\n")

    def test_clock(self) -> None:
        self.assertEqual([clock(seconds) for seconds in (0, 59.4, 59.6, 125)], ["0:00", "0:59", "1:00", "2:05"])

    def test_plan_of_the_repository(self) -> None:
        """Every crate stands behind what it depends on, and none is left out."""
        crates = sources.crates_of(sources.ROOT)
        for wanted in (*((name,) for name in PROGRAMS), ARCHIVES):
            names = sources.in_order(crates, wanted)
            for number, name in enumerate(names):
                self.assertLessEqual({other for other in crates[name] if other in crates}, set(names[:number]), name)
            whole, left = set[str](), list(wanted)
            while left:
                name = left.pop()
                whole.add(name)
                left += (other for other in crates[name] if other in crates)
            self.assertEqual(sorted(names), sorted(whole))


class Loaded(InRepository):
    """Which library is used."""

    def test_order(self) -> None:
        made = self.build()
        packaged = Path(native.__file__).with_name(linking.SHARED)
        with patch.dict(os.environ, LOCK_BENCH_LIBRARY=str(made.library)):
            self.assertEqual(native.load().path, made.library)
            self.assertEqual(native.load(made.library), native.load())
        self.assertFalse(packaged.exists())

    def test_told(self) -> None:
        made = self.build()
        with patch.dict(os.environ, LOCK_BENCH_LIBRARY=str(made.library), PATH=self.repository.path):
            lines = native.told()
        self.assertEqual(lines[1:3], ["toolchain  stand-in 1", f"library    {made.library}"])
        self.assertIn("NOT proved from these sources", lines[3])
        with patch.dict(os.environ, LOCK_BENCH_LIBRARY="/no/such.so"):
            self.assertRegex(native.told()[2], "^library    /no/such.so: cannot load the library: ")
