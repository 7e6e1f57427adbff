"""Processes that share the work of a command, and what a signal leaves of them: nothing."""

from __future__ import annotations

import os
import re
import signal
import subprocess
import sys
import tempfile
import unittest
import uuid
from pathlib import Path

from lock_bench import processes
from lock_bench.errors import LibraryError

from .support import BENCH, PATIENCE, ROOT, environment, wait_until

PACKAGE = Path(__file__).resolve().parents[1]

# Control-C comes within the start of each process.
INTERRUPTED = """
import os, signal
from lock_bench import processes
os.register_at_fork(before=lambda: os.kill(os.getpid(), signal.SIGINT))
try:
    processes.started(2)
except KeyboardInterrupt:
    print("heard")
"""
# A command that is ended stays; one of its own processes does not hear the first signal.
DEAF = """
import subprocess, sys
from lock_bench import processes
with processes.Group() as group:
    group.start(["/bin/sh", "-c", "trap '' TERM; sleep 600 & wait"]).wait()
"""
# The commands that share their work; without a signal they take longer than any test waits.
SHARING = (
    ("find", "failures of 0 >= 300", "--tries", "1000000000", "--jobs", "2"),
    ("sweep", "--threads", "64", "--nodes", "31", "--fan", "4", "--rounds", "10000", "--jobs", "2"),
)
# The processes of each: the first, the guard, and the two that share the work.
SHARED = 4


def ignores_interrupts(*_: object) -> bool:
    return signal.getsignal(signal.SIGINT) is signal.SIG_IGN


def inverse(number: int) -> float:
    return 1 / number


def third_ends(number: int) -> int:
    return os._exit(1) if number == 3 else number


def running(marker: str) -> list[int]:
    """The processes that have this mark in their environment, with which a command was started."""
    found = []
    for path in Path("/proc").glob("[0-9]*"):
        try:
            if marker.encode() in (path / "environ").read_bytes():
                found.append(int(path.name))
        except (FileNotFoundError, PermissionError, ProcessLookupError):
            # It has ended meanwhile, or is another user's.
            continue
    return found


class Started(unittest.TestCase):
    def test_only_the_first_is_interrupted(self) -> None:
        with processes.started(2) as pool:
            self.assertEqual(list(pool.map(ignores_interrupts, range(40))), [True] * 40)
        self.assertFalse(ignores_interrupts())

    def test_interrupted_while_they_are_started(self) -> None:
        """It is heard once all are started, and nothing is said of it."""
        command = [sys.executable, "-c", INTERRUPTED]
        done = subprocess.run(command, capture_output=True, text=True, env=environment(PYTHONPATH=str(PACKAGE)), timeout=PATIENCE, check=False)
        self.assertEqual((done.returncode, done.stdout, done.stderr), (0, "heard\n", ""))

    def test_answers_come_in_order(self) -> None:
        """For any size of parcels, also behind a caller who went away."""
        with processes.started(3) as pool:
            for chunksize in (1, 2, 7, 100):
                self.assertEqual(list(pool.map(inverse, range(1, 20), chunksize)), list(map(inverse, range(1, 20))))
                self.assertEqual(next(pool.map(inverse, range(2, 9), chunksize)), 0.5)
            self.assertEqual(list(pool.map(inverse, [])), [])

    def test_errors_come_through(self) -> None:
        with processes.started(2) as pool:
            with self.assertRaises(ZeroDivisionError) as raised:
                list(pool.map(inverse, [1, 0]))
            self.assertIn("Traceback", raised.exception.__notes__[0])
            with self.assertRaisesRegex(LibraryError, "^one of the processes that share the work ended early$"):
                list(pool.map(third_ends, range(5)))

    def test_one_place(self) -> None:
        """No other module starts a process or sets what a signal does; the browser that `play` opens is not the command's own."""
        for path in (PACKAGE / "lock_bench").glob("*.py"):
            used = re.findall(r"^\s*(?:import|from) (subprocess|signal|multiprocessing|concurrent\.futures\.process)\b|\bos\.(fork|kill|exec\w*|spawn\w*|system)\b", path.read_text(), re.M)
            self.assertEqual(bool(used), path.name == "processes.py", (path.name, used))


class Ended(unittest.TestCase):
    """Whatever signal ends a command, none of its processes is left."""

    def ended(self, command: tuple[str, ...], count: int, *numbers: int) -> tuple[int, str]:
        """The status and the messages of a command that gets these signals once it has so many processes; it is waited for until none is left."""
        marker = f"LOCK_BENCH_TEST={uuid.uuid4().hex}"
        started = environment(PYTHONPATH=str(PACKAGE), **dict([marker.split("=")]))
        with tempfile.TemporaryDirectory() as folder, subprocess.Popen(
            command, stdout=subprocess.DEVNULL, stderr=subprocess.PIPE, env=started, cwd=folder, start_new_session=True, text=True
        ) as process:
            wait_until(lambda: len(running(marker)) == count)
            for number in numbers:
                # A terminal sends it to its whole group.
                os.killpg(process.pid, number)
            _, err = process.communicate(timeout=PATIENCE)
            wait_until(lambda: not running(marker))
        return process.returncode, err

    def test_by_a_signal(self) -> None:
        for command in SHARING:
            for number in (signal.SIGTERM, signal.SIGHUP, signal.SIGKILL):
                with self.subTest(command=command[0], signal=number):
                    self.assertEqual(self.ended((str(BENCH), *command), SHARED, number), (-number, ""))

    def test_by_an_interrupt(self) -> None:
        """Once or twice: it ends quietly, but for what a sweep says of its runs."""
        for command in SHARING:
            for times in (1, 2):
                with self.subTest(command=command[0], times=times):
                    status, err = self.ended((str(BENCH), *command), SHARED, *[signal.SIGINT] * times)
                    self.assertIn(status, (130, -signal.SIGINT) if times > 1 else (130,))
                    self.assertRegex(err, r"\A(bench: stopped; .*\n)?\Z")

    def test_command_that_does_not_want_to(self) -> None:
        """A command that this one runs is asked to end, then it is killed with all that it started."""
        for number in (signal.SIGINT, signal.SIGTERM, signal.SIGKILL):
            # The first, the guard, the shell and its own command.
            status, _ = self.ended((sys.executable, "-c", DEAF), 4, number)
            self.assertEqual(status, -number)

    def test_sheet(self) -> None:
        """The program of ./sheet, which waits for its input here."""
        reading, writing = os.pipe()
        try:
            for number in (signal.SIGTERM, signal.SIGHUP, signal.SIGKILL):
                command = ("/bin/sh", "-c", f"exec '{ROOT}/sheet' --record <&{reading}")
                os.set_inheritable(reading, True)
                marker = f"LOCK_BENCH_TEST={uuid.uuid4().hex}"
                with subprocess.Popen(command, env=environment(**dict([marker.split("=")])), pass_fds=(reading,), stderr=subprocess.DEVNULL) as process:
                    program = str(ROOT / "target")
                    wait_until(lambda: any(os.readlink(f"/proc/{one}/exe").startswith(program) for one in running(marker)))
                    process.send_signal(number)
                    self.assertEqual(process.wait(PATIENCE), -number)
                    wait_until(lambda: not running(marker))
        finally:
            os.close(reading)
            os.close(writing)
