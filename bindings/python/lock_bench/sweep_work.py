"""The work of a sweep: runs of shapes, shared by processes.

A run is a site's wanted calls of one round on one shape, at random turns and by the dispatcher. What it costs depends on the site, the shape and the round
alone, so the figures are the same for any number of processes, and for any parts on any machines.
"""

from __future__ import annotations

from collections.abc import Callable, Iterator, Sequence
from dataclasses import dataclass
from functools import partial
from pathlib import Path
from types import TracebackType
from typing import NamedTuple

from . import processes
from .draw import drawn_file
from .errors import BenchError
from .findings import Pair
from .measure import cost_of_file
from .native import Library, load
from .schedule import HEAD, first_rows
from .site import Shape, Site
from .sweep_standings import Standings


class Task(NamedTuple):
    """A run: the number of its round, of its site and of its shape."""

    round: int
    site: int
    shape: int


@dataclass(frozen=True, slots=True)
class Plan:
    """What a sweep measures: every shape at every site, in rounds."""

    sites: tuple[Site, ...]
    shapes: tuple[Shape, ...]

    def tasks(self, begin: int, end: int) -> Iterator[Task]:
        """The runs of these rounds, round by round."""
        for number in range(begin, end):
            for site in range(len(self.sites)):
                for shape in range(len(self.shapes)):
                    yield Task(number, site, shape)

    def part(self, rounds: int, part: int, parts: int) -> list[Task]:
        """The runs of a part of the sweep, from 1 on, which together are all: every one of so many."""
        return list(self.tasks(0, rounds))[part - 1 :: parts]


def pair_of(site: Site, shape: Shape, number: int, library: Library) -> Pair:
    """What a run costs."""
    wanted = site.wanted_file(shape, number)
    drawn = drawn_file(wanted, site.turns(number), library, most=site.steps)
    given = given_file(wanted, library)
    return Pair(cost_of_file(drawn, library), cost_of_file(first_rows(given, min(site.steps, rows_of(given))), library))


def given_file(wanted: bytes, library: Library) -> bytes:
    """The schedule that the dispatcher gives."""
    given = library.dispatch_sheet(wanted)
    shown = Standings.parse(given.sheet)
    if shown.answer:
        raise BenchError(f"the wanted calls are refused with {shown.answer} after {shown.taken} steps")
    return given.schedule


def rows_of(file: bytes) -> int:
    """The number of rows in a schedule's file."""
    return (len(file) - HEAD) // 2


_Work = tuple[Site, Shape, int]


def _cost(library_path: Path, work: _Work) -> Pair:
    """What a run costs; in a process of its own."""
    return pair_of(*work, load(library_path))


class Workers:
    """Processes that share the runs, as long as the ``with`` statement lasts; with one job there is none, and this process does the work."""

    def __init__(self, plan: Plan, library: Library, jobs: int) -> None:
        self._plan = plan
        self._work: Callable[[_Work], Pair] = partial(_cost, library.path)
        self._jobs = jobs
        self._pool = processes.started(jobs) if jobs > 1 else None

    def __enter__(self) -> Workers:
        return self

    def __exit__(self, kind: type[BaseException] | None, error: BaseException | None, trace: TracebackType | None) -> None:
        if self._pool is not None:
            self._pool.close()

    def pairs(self, tasks: Sequence[Task]) -> Iterator[tuple[Task, Pair]]:
        """What the runs cost, in order."""
        plan = self._plan
        works = [(plan.sites[task.site], plan.shapes[task.shape], task.round) for task in tasks]
        if self._pool is None:
            yield from zip(tasks, map(self._work, works))
            return
        # Runs go out in parcels, small enough that all processes end at about the same time.
        yield from zip(tasks, self._pool.map(self._work, works, chunksize=max(1, min(4, len(works) // (8 * self._jobs)))))
