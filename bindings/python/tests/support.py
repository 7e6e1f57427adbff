"""What the tests share: the repository's files, schedules drawn at random, and the command."""

from __future__ import annotations

import contextlib
import io
import os
import pty
import random
import subprocess
import time
import unittest
from collections.abc import Callable, Iterator
from pathlib import Path
from typing import NamedTuple, TypeVar
from unittest.mock import patch

from lock_bench import Library, Row, Schedule, Sheet, Till, TillEntry, cli, load, orders
from lock_bench.sources import ROOT as ROOT

EXAMPLES = ROOT / "examples"
CRATES = ROOT / "crates"
BENCH = ROOT / "bench"

#: Seconds after which whatever is waited for is taken to hang: far more than a machine with much other work needs.
PATIENCE = 300

# The labels of the lines of a stored run that list bytes in hexadecimal.
LISTED = ("behind", "kinds", "words", "left", "bytes")

Test = TypeVar("Test", bound=Callable[..., object])


def needs(function: str) -> Callable[[Test], Test]:
    """Skips a test of a function that the library lacks."""
    return unittest.skipUnless(load().has(function), f"the library has no {function}")


def example_files(kind: str) -> list[Path]:
    """The examples of this kind, by their names' ending."""
    return sorted(EXAMPLES.glob(f"*.{kind}"))


def has_two_locks() -> bool:
    """Whether the library's sheets have a second lock's lines."""
    return len(Sheet.parse(load().bench_sheet(b"\1\1\1\0\0").sheet).locks) == 2


class Stored(NamedTuple):
    """A run that the repository stores: its file, the lines that it prints, without the line of its name, and its till if it has one."""

    name: str
    file: bytes
    lines: list[str]
    till: bytes | None = None

    def sheet(self) -> bytes:
        """The sheet among the lines: behind it bytes are printed in hexadecimal, under the labels in `LISTED`."""
        return "".join(f"{line}\n" for line in self.lines if line.split()[0] not in LISTED).encode()

    def listed(self, label: str) -> bytes:
        """The bytes of the line with this label."""
        (line,) = (line for line in self.lines if line.split()[0] == label)
        return bytes.fromhex(line.removeprefix(label))


def stored_runs(crate: str) -> Iterator[Stored]:
    """The stored runs of a crate without a till, in the order of its output."""
    return (stored for stored in _stored(crate) if stored.till is None)


def stored_draws() -> Iterator[Stored]:
    """The stored runs of the dispatcher at lent turns, which stand where others have a till."""
    return _stored("draw_runs")


def stored_sites() -> Iterator[Stored]:
    """The stored runs of sites at lent turns, which stand where others have a till; each ends with the sheet's length."""
    return _stored("site_runs")


def stored_bookings() -> Iterator[Stored]:
    """The stored runs of the bench with a till."""
    return (stored for stored in _stored("runs") if stored.till is not None)


def _stored(crate: str) -> Iterator[Stored]:
    """All stored runs of a crate. The titles of `runs` name a schedule and a till, or - for no till, those of `draw_runs` and `site_runs` calls and turns."""
    data = CRATES / crate / "data"
    for text in (CRATES / crate / "stdout").read_text().split("run ")[1:]:
        title, *lines = text.splitlines()
        name, *rest = title.split()
        till = rest[0] if rest else "-"
        yield Stored(title, (data / name).read_bytes(), lines, None if till == "-" else (data / till).read_bytes())


def any_schedule(rng: random.Random, most_rows: int = 40) -> Schedule:
    """A schedule of any bytes that a file can hold, mostly refused."""
    rows = tuple(Row(rng.randrange(256), rng.randrange(256)) for _ in range(rng.randrange(most_rows + 1)))
    return Schedule(rng.randrange(256), rng.randrange(256), rng.randrange(256), rows)


def any_till(rng: random.Random) -> Till:
    """A till of any bytes that a file can hold."""
    entries = tuple(TillEntry(rng.randrange(256), rng.randrange(-0x8000, 0x8000)) for _ in range(rng.randrange(33)))
    return Till(rng.randrange(256), entries)


def good_till(rng: random.Random) -> Till:
    """A till that is taken."""
    rooms = rng.randint(1, 4)
    entries = tuple(TillEntry(rng.randrange(rooms), rng.randint(-20, 30)) for _ in range(rng.randint(1, 32)))
    return Till(rooms, entries)


def suiting_order(rng: random.Random, nodes: int, sheet: Sheet, thread: int, till: Till | None) -> int:
    """An order that suits a thread, as the library's sheet shows it."""
    standings = [lock.threads[thread].standing for lock in sheet.locks]
    if "calling" in standings or "asleep" in standings:
        return orders.GO_ON
    lock = rng.randrange(len(standings))
    added = orders.SECOND * lock
    match standings[lock]:
        case "reading":
            return added + rng.choice((orders.UNLOCK, orders.UNLOCK, orders.UPGRADE))
        case "writing":
            if lock == 0 and till is not None and rng.random() < 0.6:
                return orders.BOOK + rng.randrange(len(till.entries))
            return added + rng.choice((orders.UNLOCK, orders.UNLOCK, orders.DOWNGRADE))
        case _:
            return added + (orders.WRITE_LOCK if rng.random() < 0.3 else orders.READ_LOCK + rng.randrange(nodes))


def drawn_schedule(rng: random.Random, rows: int, till: Till | None = None, library: Library | None = None) -> Schedule:
    """A schedule of rows that are all taken, each drawn by what the library's sheet of the rows before it shows; threads that sleep seldom move."""
    library = library or load()
    nodes, fan, threads = rng.choice((1, 2, 3, 7, 9, 32)), rng.choice((1, 2, 3, 16)), rng.choice((1, 2, 3, 5, 9))
    drawn = Schedule(nodes, fan, threads, ())
    beside = None if till is None else till.to_bytes()
    while len(drawn.rows) < rows:
        sheet = Sheet.parse(library.sheet(drawn.to_bytes(), beside).sheet)
        thread = rng.randrange(threads)
        if any(lock.threads[thread].standing == "asleep" for lock in sheet.locks) and rng.random() < 0.9:
            continue
        row = Row(thread, suiting_order(rng, nodes, sheet, thread, till))
        drawn = Schedule(nodes, fan, threads, (*drawn.rows, row))
    return drawn


def wanted_calls(rng: random.Random, calls: int) -> Schedule:
    """Wanted calls, each lock followed by its unlock."""
    nodes, threads = rng.randint(1, 32), rng.randint(1, 64)
    rows: list[Row] = []
    for _ in range(calls):
        thread = rng.randrange(threads)
        lock = orders.WRITE_LOCK if rng.random() < 0.2 else orders.READ_LOCK + rng.randrange(nodes)
        rows += [Row(thread, lock), Row(thread, orders.UNLOCK)]
    return Schedule(nodes, rng.randint(1, 16), threads, tuple(rows))


def wait_until(is_so: Callable[[], bool]) -> None:
    """Waits until something is so."""
    deadline = time.monotonic() + PATIENCE
    while not is_so():
        if time.monotonic() > deadline:
            raise TimeoutError
        time.sleep(0.02)


class Said(NamedTuple):
    """What a command said: its exit status, and its output and messages."""

    status: int
    out: str
    err: str


def environment(**changed: str) -> dict[str, str]:
    """The tests' own environment without what changes colours or how Python works, in a locale with all signs, with these changes."""
    kept = {name: value for name, value in os.environ.items() if name != "NO_COLOR" and not name.startswith("PYTHON")}
    return {**kept, "TERM": "xterm", "LC_ALL": "C.UTF-8", **changed}


def bench(*arguments: object, given: bytes = b"", **changed: str) -> Said:
    """Runs the command with its output in a pipe."""
    done = subprocess.run([BENCH, *map(str, arguments)], input=given, capture_output=True, env=environment(**changed), cwd=ROOT, timeout=PATIENCE, check=False)
    return Said(done.returncode, done.stdout.decode(), done.stderr.decode())


def bench_here(*arguments: object) -> Said:
    """Runs the command within this process, which is faster, for where there are many."""
    written, err = io.BytesIO(), io.StringIO()
    out = io.TextIOWrapper(written, "utf-8")
    with contextlib.redirect_stdout(out), contextlib.redirect_stderr(err), patch.dict(os.environ, LC_ALL="C.UTF-8"):
        status = cli.main(list(map(str, arguments)))
    out.flush()
    return Said(status, written.getvalue().decode(errors="replace"), err.getvalue())


def bench_or_here(number: int) -> Callable[..., Said]:
    """The command in a process of its own for the first of many, within this process for the others."""
    if number == 0:
        return bench
    return bench_here


def bench_in_terminal(*arguments: object, **changed: str) -> Said:
    """Runs the command in a pseudo-terminal; what it says there is its output."""
    master, slave = pty.openpty()
    with subprocess.Popen([BENCH, *map(str, arguments)], stdin=slave, stdout=slave, stderr=slave, env=environment(**changed), cwd=ROOT) as process:
        os.close(slave)
        said = b""
        while True:
            try:
                part = os.read(master, 65536)
            except OSError:
                # The other end is closed.
                break
            if not part:
                break
            said += part
        status = process.wait(PATIENCE)
    os.close(master)
    return Said(status, said.decode().replace("\r\n", "\n"), "")
