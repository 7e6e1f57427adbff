"""The command ``draw``: random schedules of a site, for a server's tests.

Each thread's wanted calls are drawn, and so are the turns; whose turn leads to a step, and to which, the proved library says (``draw_sheet``). With both
locks a thread makes its calls at one of them, and the two schedules are put together in any order of their rows: neither lock's rows change the other. The
bench takes every row of what comes out, and refuses the last one where that is asked for.
"""

from __future__ import annotations

import random
from argparse import ArgumentParser, Namespace, _SubParsersAction
from collections.abc import Iterator
from dataclasses import dataclass
from pathlib import Path
from typing import Final

from . import inputs, notation, orders
from .errors import BenchError
from .native import Library, load
from .schedule import Row, Schedule, rows_text
from .sheet import answer_of
from .site import MOST_FAN, MOST_NODES, MOST_ROWS, MOST_THREADS, drawing

# The refusals of a row.
_REFUSALS: Final = (5, 6, 7)
# Turns a wanted call: enough for most calls to end, with those that are passed over.
_TURNS: Final = 60


@dataclass(frozen=True, slots=True)
class Draw:
    """What is drawn: the sizes, the calls that each thread wants, at one lock or both, and whether the last row is to be refused."""

    nodes: int
    fan: int
    threads: int
    calls: int
    locks: int = 1
    refused: bool = False
    seed: int = 0

    def schedule(self, number: int, library: Library) -> Schedule:
        """The schedule of this number; the same for the same numbers in every version of Python."""
        draw = drawing(f"{self.seed} {number} draw")
        drawn = [self._at(lock, draw, library) for lock in range(self.locks)]
        rows = tuple(_mixed(drawn, draw))[: MOST_ROWS - self.refused]
        schedule = Schedule(self.nodes, self.fan, self.threads, rows)
        if self._answer(schedule, library):
            raise BenchError(f"the bench refuses schedule {number}")
        return self._refused(schedule, _REFUSALS[number % 3], draw, library) if self.refused else schedule

    def _at(self, lock: int, draw: random.Random, library: Library) -> list[Row]:
        """The rows of one lock, at which those threads make calls whose numbers leave its number over."""
        by = [thread for thread in range(self.threads) if thread % self.locks == lock]
        wanted = [Row(thread, order) for thread in by for order in _calls(self.calls, self.nodes, draw)]
        # Some threads are faster than others.
        pace = [draw.random() for _ in by]
        turns = bytes(_pick(by, pace, draw) for _ in range(_TURNS * len(wanted)))
        given = library.draw_sheet(Schedule(self.nodes, self.fan, self.threads, tuple(wanted)).to_bytes(), turns)
        return [Row(row.thread, row.order + orders.SECOND * lock if row.order else 0) for row in Schedule.from_bytes(given.schedule).rows]

    def _refused(self, schedule: Schedule, answer: int, draw: random.Random, library: Library) -> Schedule:
        """The schedule with a row more, which the bench refuses with this number."""
        any_orders = [*range(5), orders.READ_LOCK]
        tried = [Row(self.threads, 1)] if answer == 5 else [Row(thread, 5) for thread in range(self.threads)]
        if answer == 7:
            tried = [Row(thread, order) for thread in range(self.threads) for order in any_orders]
        for row in sorted(tried, key=lambda row: draw.random()):
            longer = Schedule(self.nodes, self.fan, self.threads, (*schedule.rows, row))
            if self._answer(longer, library) == answer:
                return longer
        raise BenchError(f"no row is refused with {answer}")

    def _answer(self, schedule: Schedule, library: Library) -> int:
        return answer_of(library.bench_sheet(schedule.to_bytes()).sheet.split(b"\n")[0])[0]


def _calls(count: int, nodes: int, draw: random.Random) -> Iterator[int]:
    """Calls that suit one after the other, whatever the other threads do; the last is an unlock."""
    held = None
    for left in range(count, 0, -1):
        if held is None and left > 1:
            held = orders.WRITE_LOCK if draw.random() < 0.3 else orders.READ_LOCK
            yield held if held == orders.WRITE_LOCK else orders.READ_LOCK + int(draw.random() * nodes)
        elif held == orders.READ_LOCK and left > 1 and draw.random() < 0.2:
            # It may be denied: then the thread reads on.
            held = orders.UPGRADE
            yield held
        elif held == orders.WRITE_LOCK and left > 1 and draw.random() < 0.3:
            held = orders.READ_LOCK
            yield orders.DOWNGRADE
        elif held is not None:
            held = None
            yield orders.UNLOCK


def _pick(threads: list[int], pace: list[float], draw: random.Random) -> int:
    """A thread, those with a higher pace more often."""
    while True:
        place = int(draw.random() * len(threads))
        if draw.random() < 0.1 + pace[place]:
            return threads[place]


def _mixed(parts: list[list[Row]], draw: random.Random) -> Iterator[Row]:
    """The rows of all parts, each part's in its order."""
    left = [iter(part) for part in parts]
    places = [place for place, part in enumerate(parts) for _ in part]
    for place in sorted(places, key=lambda place: draw.random()):
        yield next(left[place])


def register(subparsers: _SubParsersAction[ArgumentParser]) -> None:
    """Adds the command ``draw``."""
    draw = subparsers.add_parser(
        "draw",
        help="print random schedules of a site, for a server's tests",
        description="Draws wanted calls and turns at random and prints the schedules that the proved library gives for them, each a text. With -o\n"
        "each is written to a file of its own in a folder. The same arguments give the same schedules everywhere.",
        epilog="example:\n"
        "  ./bench draw --threads 4\n"
        "  ./bench draw --threads 19 --nodes 13 --fan 3 --calls 20 --number 100 --locks 2 -o drawn\n"
        "  ./bench draw --threads 3 --number 3 --refused",
    )
    draw.add_argument("--threads", metavar="T", type=inputs.whole(1, MOST_THREADS), default=4, help="the threads (4)")
    draw.add_argument("--nodes", metavar="N", type=inputs.whole(1, MOST_NODES), default=7, help="the nodes (7)")
    draw.add_argument("--fan", metavar="F", type=inputs.whole(1, MOST_FAN), default=2, help="the fan-out (2)")
    draw.add_argument("--calls", metavar="C", type=inputs.whole(2, 64), default=6, help="the calls that each thread wants, of all kinds (6)")
    locks = "1, the first lock alone, or 2, both: threads 0, 2, 4 at the first, the others at the second (1)"
    draw.add_argument("--locks", type=int, choices=(1, 2), default=1, help=locks)
    draw.add_argument("--refused", action="store_true", help="end each with a row that the bench refuses: with 5, 6 and 7 in turn")
    draw.add_argument("--number", metavar="K", type=inputs.whole(1, 1_000_000), default=1, help="how many schedules (1)")
    draw.add_argument("--seed", metavar="S", type=int, default=0, help="the seed: another one draws others (0)")
    draw.add_argument("-o", dest="output", metavar="FOLDER", help="where they are written as drawn-0.schedule and so on")
    draw.set_defaults(run=_draw)


def _draw(arguments: Namespace) -> int:
    if arguments.locks > arguments.threads:
        raise inputs.UsageError("two locks need two threads at least")
    draw = Draw(arguments.nodes, arguments.fan, arguments.threads, arguments.calls, arguments.locks, arguments.refused, arguments.seed)
    if arguments.output is not None:
        try:
            Path(arguments.output).mkdir(exist_ok=True)
        except OSError as error:
            raise inputs.OutputError(str(error.strerror), arguments.output) from None
    library = load()
    for number in range(arguments.number):
        schedule = draw.schedule(number, library)
        if arguments.output is not None:
            inputs.write(str(Path(arguments.output) / f"drawn-{number}.schedule"), schedule.to_bytes())
            continue
        text = notation.print_schedule(schedule)
        inputs.write(None, f"# Schedule {number} of seed {draw.seed}: {rows_text(len(schedule.rows))}.\n{text}\n".encode())
    return 0
