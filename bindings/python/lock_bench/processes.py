"""The processes that a command starts, and the signals that end it: whatever ends this process ends them too.

All that is started is in a process group of its own, which a guard watches: a shell that waits at a pipe whose other end this process alone has. However this
process ends, also by SIGKILL, the pipe closes, and the guard kills the group. A terminal sends Control-C to its own group alone, so that only this process hears
it. No other module of the package starts a process or sets what a signal does.
"""

from __future__ import annotations

import contextlib
import ctypes
import os
import pickle
import signal
import subprocess
import threading
import traceback
from collections.abc import Callable, Iterable, Iterator, Sequence
from multiprocessing.connection import Connection, Pipe, wait
from types import FrameType, TracebackType
from typing import IO, Any, Final, NoReturn, TypeVar

from .errors import BenchError, LibraryError

# The signals that end a process and can be held back.
_ENDING: Final = (signal.SIGINT, signal.SIGTERM, signal.SIGHUP)
# Signals for the whole group are for the others: the guard stays until the pipe closes.
_GUARD: Final = "trap '' INT TERM HUP; read -r end; kill -KILL 0"
# Seconds that a command is given to end by itself.
_MERCY: Final = 1.0
# Of prctl(2): the signal that comes when the parent ends.
_PARENT_DEATH_SIGNAL: Final = 1

Task = TypeVar("Task")
Done = TypeVar("Done")


class Group:
    """A process group that ends with the ``with`` statement, and with this process."""

    def __init__(self) -> None:
        with signals_held():
            self._guard = subprocess.Popen(["/bin/sh", "-c", _GUARD], stdin=subprocess.PIPE, stdout=subprocess.DEVNULL, stderr=subprocess.DEVNULL, process_group=0)
        assert self._guard.stdin is not None
        self._pipe: IO[bytes] = self._guard.stdin
        self._forked: list[int] = []
        self._commands: list[subprocess.Popen[Any]] = []

    def __enter__(self) -> Group:
        return self

    def __exit__(self, kind: type[BaseException] | None, error: BaseException | None, trace: TracebackType | None) -> None:
        self.end()

    def start(self, words: Sequence[str | os.PathLike[str]], **rest: Any) -> subprocess.Popen[Any]:
        """Starts a command in the group; it has no input where none is named."""
        with signals_held():
            rest.setdefault("stdin", subprocess.DEVNULL)
            process: subprocess.Popen[Any] = subprocess.Popen(words, process_group=self._guard.pid, **rest)
            self._commands.append(process)
        return process

    def fork(self, work: Callable[[], object]) -> None:
        """Does some work in a process of its own, which ends with it. It does not hear Control-C."""
        with signals_held():
            process = os.fork()
            if process == 0:
                self._work(work)
            self._forked.append(process)
            # Both set it, for either may come first.
            with contextlib.suppress(OSError):
                os.setpgid(process, self._guard.pid)

    def _work(self, work: Callable[[], object]) -> NoReturn:
        try:
            os.setpgid(0, self._guard.pid)
            # With its copy of the pipe the guard would wait for this process too.
            os.close(self._pipe.fileno())
            for number in _ENDING:
                signal.signal(number, signal.SIG_IGN if number == signal.SIGINT else signal.SIG_DFL)
            work()
        finally:
            # What the first process has not written yet, and does at its end, is its own.
            os._exit(0)

    def end(self) -> None:
        """Ends all that runs in the group: a command is asked to and given a moment, then whoever is left is killed."""
        with signals_held():
            if self._guard.returncode is not None:
                return
            if any(process.poll() is None for process in self._commands):
                os.killpg(self._guard.pid, signal.SIGTERM)
                with contextlib.suppress(subprocess.TimeoutExpired):
                    for process in self._commands:
                        process.wait(_MERCY)
            os.killpg(self._guard.pid, signal.SIGKILL)
            for process in (self._guard, *self._commands):
                process.wait()
            for forked in self._forked:
                os.waitpid(forked, 0)
            self._pipe.close()


def run(words: Sequence[str | os.PathLike[str]], given: str = "", folder: os.PathLike[str] | None = None) -> subprocess.CompletedProcess[str]:
    """Runs a command to its end, in this folder if one is named: what it said, and its exit status."""
    with Group() as group:
        process = group.start(words, stdin=subprocess.PIPE, stdout=subprocess.PIPE, stderr=subprocess.PIPE, text=True, cwd=folder)
        out, err = process.communicate(given)
        return subprocess.CompletedProcess(list(words), process.returncode, out, err)


def is_running(process: subprocess.Popen[Any], seconds: float) -> bool:
    """Whether a command still runs after so many seconds; it is known sooner where it does not."""
    try:
        process.wait(seconds)
        return False
    except subprocess.TimeoutExpired:
        return True


class Pool:
    """Processes that share the work of a command, as long as the ``with`` statement lasts."""

    def __init__(self, jobs: int) -> None:
        self._group = Group()
        # For each process the connection to it, and the parcel that it is at, if it is at one.
        self._at: dict[Connection, int | None] = {}
        self._parcels = 0
        try:
            for _ in range(jobs):
                ours, theirs = Pipe()
                self._group.fork(lambda: _serve(theirs, [ours, *self._at]))
                theirs.close()
                self._at[ours] = None
        except BaseException:
            self.close()
            raise

    def __enter__(self) -> Pool:
        return self

    def __exit__(self, kind: type[BaseException] | None, error: BaseException | None, trace: TracebackType | None) -> None:
        self.close()

    def map(self, work: Callable[[Task], Done], tasks: Iterable[Task], chunksize: int = 1) -> Iterator[Done]:
        """What comes of each task, in order, for one caller at a time. Tasks go out in parcels of this size; what the caller does not wait for is dropped."""
        given = list(tasks)
        first, self._parcels = self._parcels, self._parcels + -(-len(given) // chunksize)
        coming, came = first, dict[int, list[Done]]()
        for number in range(first, self._parcels):
            while number not in came:
                for connection in [one for one, at in self._at.items() if at is None][: self._parcels - coming]:
                    begin = (coming - first) * chunksize
                    self._send(connection, (work, given[begin : begin + chunksize]))
                    self._at[connection], coming = coming, coming + 1
                for connection in self._answering():
                    parcel, done = self._at[connection], self._received(connection)
                    self._at[connection] = None
                    # A parcel of before is one whose caller went away.
                    if parcel is not None and parcel >= first:
                        if isinstance(done, Exception):
                            raise done
                        came[parcel] = done
            yield from came.pop(number)

    def _answering(self) -> list[Connection]:
        """The processes that have an answer, or have ended; there is one that is at a parcel."""
        return [one for one in wait([one for one, at in self._at.items() if at is not None]) if isinstance(one, Connection)]

    def _send(self, connection: Connection, parcel: object) -> None:
        try:
            connection.send(parcel)
        except OSError:
            raise _ended_early() from None

    def _received(self, connection: Connection) -> Any:
        try:
            return connection.recv()
        except (EOFError, OSError):
            raise _ended_early() from None

    def close(self) -> None:
        """Ends the processes, whatever they are at."""
        self._group.end()
        for connection in self._at:
            connection.close()


def started(jobs: int) -> Pool:
    """So many processes, all started."""
    return Pool(jobs)


def _ended_early() -> LibraryError:
    return LibraryError("one of the processes that share the work ended early")


def _serve(connection: Connection, others: Sequence[Connection]) -> None:
    """Does the work that comes, until nobody sends any more."""
    for other in others:
        other.close()
    with contextlib.suppress(EOFError, OSError):
        while True:
            parcel = connection.recv_bytes()
            try:
                work, tasks = pickle.loads(parcel)
                done: object = [work(task) for task in tasks]
            except Exception as error:
                if not isinstance(error, BenchError):
                    # Where it comes from is not known where it is raised again.
                    error.add_note("".join(traceback.format_exception(error)))
                done = error
            connection.send(done)


def replaced_by(program: os.PathLike[str], words: Sequence[str], messages: str) -> NoReturn:
    """Has a program take the place of this process, and end with its parent; its messages go to this file."""
    end_with_parent(signal.SIGKILL)
    signal.signal(signal.SIGPIPE, signal.SIG_DFL)
    os.dup2(os.open(messages, os.O_WRONLY), 2)
    os.execv(program, [os.fspath(program), *words])


# ---- Signals.


@contextlib.contextmanager
def signals_held() -> Iterator[None]:
    """Has the signals that end this process come at the end: one that came while a process is started or ended would leave it running."""
    if threading.current_thread() is not threading.main_thread():
        # Python tells the first thread alone of a signal.
        yield
        return
    came: list[int] = []
    before = {number: signal.getsignal(number) for number in _ENDING}
    for number, handler in before.items():
        if handler is not signal.SIG_IGN:
            signal.signal(number, lambda number, frame: came.append(number))
    try:
        yield
    finally:
        for number, handler in before.items():
            signal.signal(number, handler)
        if came:
            signal.raise_signal(came[0])


@contextlib.contextmanager
def signals_raised() -> Iterator[None]:
    """Has the signals that would end this process at once raise instead, so that it can say what it leaves."""

    def end(number: int, frame: FrameType | None) -> None:
        raise SystemExit(128 + number)

    if threading.current_thread() is not threading.main_thread():
        yield
        return
    before = {number: signal.signal(number, end) for number in (signal.SIGTERM, signal.SIGHUP)}
    try:
        yield
    finally:
        for number, handler in before.items():
            signal.signal(number, handler)


def hear_interrupts() -> None:
    """Has Control-C raise, where it was left to end the process at once; where it is ignored, that stays."""
    if threading.current_thread() is threading.main_thread() and signal.getsignal(signal.SIGINT) is signal.SIG_DFL:
        signal.signal(signal.SIGINT, signal.default_int_handler)


def end_with_parent(number: int = signal.SIGTERM) -> None:
    """Has this signal come when the process that started this one ends, also where another program takes this one's place."""
    parent = os.getppid()
    ctypes.CDLL(None).prctl(_PARENT_DEATH_SIGNAL, ctypes.c_ulong(number))
    if os.getppid() != parent:
        # It has ended meanwhile.
        signal.raise_signal(number)
