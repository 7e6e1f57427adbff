"""Records of a sweep: a file that has what every run cost as soon as it is known, so that nothing is lost where a sweep is stopped.

The first line says what is swept, each further one has a run: its round, its site, its shape, and what its two schedules cost. A sweep goes on with its
record, and the records of its parts, from any machines, are put together.
"""

from __future__ import annotations

import hashlib
import json
import os
from collections.abc import Iterable, Sequence
from dataclasses import asdict, dataclass, field
from pathlib import Path
from typing import Final, NamedTuple

from .errors import BenchError
from .findings import Pair
from .inputs import OutputError, UsageError
from .measure import Cost, Waits
from .site import Shape, Site, ranges
from .sweep_work import Plan, Task

_FORM: Final = "lock_bench sweep 1"
_COUNTS: Final = len(Cost._fields) - 2 + 2 * len(Waits._fields)


class Part(NamedTuple):
    """A part of a sweep of so many rounds: which of how many."""

    part: int
    parts: int
    rounds: int


@dataclass(slots=True)
class Record:
    """What is swept, the part if it is one, and what the runs made so far cost."""

    plan: Plan
    part: Part | None = None
    pairs: dict[Task, Pair] = field(default_factory=dict)

    def head(self) -> str:
        """The first line."""
        plan = self.plan
        document = {
            "record": _FORM,
            "sites": [asdict(site) for site in plan.sites],
            "shapes": [[shape.nodes, *shape.fans] for shape in plan.shapes],
            "part": None if self.part is None else self.part._asdict(),
        }
        return json.dumps(document) + "\n"

    def name(self) -> str:
        """A file name that is the same for the same sweep, and another for another."""
        return f"sweep-{hashlib.sha256(self.head().encode()).hexdigest()[:8]}.record"

    def whole_rounds(self) -> int:
        """The rounds, from the first on, of which every run was made."""
        each = len(self.plan.sites) * len(self.plan.shapes)
        made: dict[int, int] = {}
        for task in self.pairs:
            made[task.round] = made.get(task.round, 0) + 1
        number = 0
        while made.get(number) == each:
            number += 1
        return number

    def rounds(self, count: int, site: int) -> tuple[tuple[Pair, ...], ...]:
        """The costs of the first rounds at a site, for each shape in order."""
        return tuple(tuple(self.pairs[Task(number, site, shape)] for shape in range(len(self.plan.shapes))) for number in range(count))

    def write(self, path: Path) -> None:
        """Writes the record to a file, or adds to one of the same sweep what it lacks."""
        there, kept = resumed(path, Record(self.plan, self.part))
        with Recorder(path, self, kept) as recorder:
            for task, pair in self.pairs.items():
                if task not in there.pairs:
                    recorder.add(task, pair)


class Recorder:
    """A record's file, to which runs are added as they are made, each at once."""

    def __init__(self, path: Path, record: Record, kept: int = 0) -> None:
        self._path = path
        try:
            self._file = os.open(path, os.O_WRONLY | os.O_CREAT | os.O_APPEND, 0o666)
            # What a killed sweep left behind of a line goes.
            os.ftruncate(self._file, kept)
        except OSError as error:
            raise OutputError(str(error.strerror), str(path)) from None
        if not kept:
            self._write(record.head())

    def __enter__(self) -> Recorder:
        return self

    def __exit__(self, *_: object) -> None:
        os.close(self._file)

    def add(self, task: Task, pair: Pair) -> None:
        """Adds a run."""
        self._write(json.dumps([*task, *_counts(pair.random), *_counts(pair.lockstep)], separators=(",", ":")) + "\n")

    def _write(self, line: str) -> None:
        try:
            os.write(self._file, line.encode("ascii"))
        except OSError as error:
            raise OutputError(str(error.strerror), str(self._path)) from None


def _counts(cost: Cost) -> list[int]:
    return [*cost[:-2], *cost.writer, *cost.reader]


def _cost(counts: Sequence[int]) -> Cost:
    waits = len(Waits._fields)
    first = len(Cost._fields) - 2
    calls, cut, rows, failed, root, held_up = counts[:first]
    return Cost(calls, cut, rows, failed, root, held_up, Waits(*counts[first : first + waits]), Waits(*counts[first + waits :]))


def read(path: Path) -> tuple[Record, int]:
    """The record in a file, and its length without the beginning of a line that a killed sweep may have left."""
    try:
        data = path.read_bytes()
    except OSError as error:
        raise UsageError(str(error.strerror), str(path)) from None
    kept = data.rfind(b"\n") + 1
    lines = data[:kept].split(b"\n")[:-1]
    if not lines:
        raise BenchError("not a record of a sweep", str(path))
    record = _head(lines[0], f"{path}:1")
    for number, line in enumerate(lines[1:], 2):
        task, pair = _run(line, record.plan, f"{path}:{number}")
        record.pairs[task] = pair
    return record, kept


def _head(line: bytes, where: str) -> Record:
    try:
        document = json.loads(line)
        if document["record"] != _FORM:
            raise ValueError
        sites = tuple(Site(**site) for site in document["sites"])
        shapes = tuple(Shape(nodes, tuple(fans)) for nodes, *fans in document["shapes"])
        part = None if document["part"] is None else Part(**document["part"])
        if not sites or not shapes or not all(shape.fans for shape in shapes):
            raise ValueError
    except (ValueError, TypeError, KeyError, IndexError, RecursionError):
        raise BenchError(f"not a record of a sweep: its first line must have the form '{_FORM}'", where) from None
    return Record(Plan(sites, shapes), part)


def _run(line: bytes, plan: Plan, where: str) -> tuple[Task, Pair]:
    try:
        numbers = json.loads(line)
        if len(numbers) != len(Task._fields) + 2 * _COUNTS or not all(isinstance(number, int) and number >= 0 for number in numbers):
            raise ValueError
        task = Task(*numbers[:3])
        if task.site >= len(plan.sites) or task.shape >= len(plan.shapes):
            raise ValueError
    except (ValueError, TypeError, RecursionError):
        raise BenchError("not a run of this sweep", where) from None
    return task, Pair(_cost(numbers[3 : 3 + _COUNTS]), _cost(numbers[3 + _COUNTS :]))


def resumed(path: Path, asked: Record) -> tuple[Record, int]:
    """The record to go on with, which must be of the sweep that is asked for, and how much of its file is kept; a new one where there is none."""
    if not path.exists():
        return asked, 0
    there, kept = read(path)
    _check_same(there, asked, path)
    if there.part != asked.part:
        raise BenchError(f"is a record of {_part_text(there.part)}, not of {_part_text(asked.part)}", str(path))
    return there, kept


def merged(paths: Iterable[Path]) -> Record:
    """The records of a sweep put together; where they are of its parts, every run must be there."""
    records = [(path, read(path)[0]) for path in paths]
    first_path, first = records[0]
    whole = Record(first.plan)
    made_in: dict[Task, Path] = {}
    for path, record in records:
        _check_same(record, first, path, first_path)
        if (record.part and record.part.parts, record.part and record.part.rounds) != (first.part and first.part.parts, first.part and first.part.rounds):
            raise BenchError(f"is a record of {_part_text(record.part)}, and {first_path} of {_part_text(first.part)}", str(path))
        for task, pair in record.pairs.items():
            if whole.pairs.setdefault(task, pair) != pair:
                raise BenchError(f"round {task.round} differs from that in {made_in[task]}: they were not made with the same library", str(path))
            made_in.setdefault(task, path)
    if first.part is not None:
        _check_whole(whole, first.part, records)
    return whole


def _check_same(record: Record, other: Record, path: Path, other_path: Path | None = None) -> None:
    if record.plan != other.plan:
        what = "sites or seed" if record.plan.sites != other.plan.sites else "shapes"
        raise BenchError(f"is a record of another sweep than {'the one asked for' if other_path is None else other_path}: its {what} differ", str(path))


def _check_whole(whole: Record, part: Part, records: Sequence[tuple[Path, Record]]) -> None:
    """Raises where runs are missing, and says of which parts."""
    missing = {number for number in range(1, part.parts + 1) if not all(task in whole.pairs for task in whole.plan.part(part.rounds, number, part.parts))}
    if not missing:
        return
    given = {record.part.part for _, record in records if record.part is not None}
    parts = ", ".join(str(first) if first == last else f"{first} to {last}" for first, last in ranges(sorted(missing)))
    many = len(missing) > 1
    unfinished = " (its record is not finished: --resume continues it)" if missing <= given else ""
    raise BenchError(f"part{'s' * many} {parts} of {part.parts} {'are' if many else 'is'} missing{unfinished}")


def _part_text(part: Part | None) -> str:
    return "a whole sweep" if part is None else f"part {part.part} of {part.parts} with {part.rounds} rounds"
