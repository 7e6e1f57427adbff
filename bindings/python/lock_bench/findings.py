"""What a sweep found for a site: the figures of each shape with their spread, the shape to take, and the shapes that are as good.

A figure is a ratio of two sums over all rounds. One column decides; a shape is worse than the best in it if the interval of its difference is above 0, and
as good if not (``sweep_statistics`` says how the intervals come about). A difference that is certainly within the margin counts as none.
"""

from __future__ import annotations

import math
from collections.abc import Callable, Iterable, Iterator, Sequence
from dataclasses import dataclass
from functools import cached_property
from typing import Final, NamedTuple

from .measure import Cost
from .site import Shape, Site, ranges
from .sweep_statistics import FIGURE_LEVEL, LEAST_ROUNDS, Difference, Sums, differences, middle, quantile, redrawn


class Pair(NamedTuple):
    """What the two schedules of a round cost on a shape: with turns drawn at random, and with those that the dispatcher gives."""

    random: Cost
    lockstep: Cost


@dataclass(frozen=True, slots=True)
class Column:
    """A figure of a shape: its name, its title and unit, what it says, the two counts whose sums it is the ratio of, times a scale, and how it is shown."""

    name: str
    title: str
    unit: str
    meaning: str
    over: Callable[[Pair], int]
    under: Callable[[Pair], int]
    scale: int = 1
    digits: int = 1
    #: Whether more is better.
    rising: bool = False

    def ratio(self, over: int, under: int) -> float:
        """The figure; infinite where there is nothing to divide by."""
        return self.scale * over / under if under else math.inf

    def worth(self, figure: float) -> float:
        """The figure, turned so that less is better; infinite where there is none."""
        return -figure if self.rising and math.isfinite(figure) else figure

    def text(self, figure: float) -> str:
        """The figure for people."""
        return f"{figure:,.{self.digits}f}" if math.isfinite(figure) else "-"


COLUMNS: Final = (
    Column(
        "failed", "failed swaps per 100 calls", "failed swaps per 100 calls", "failed swaps per 100 calls finished",
        lambda pair: pair.random.failed, lambda pair: pair.random.calls, 100,
    ),
    Column(
        "done", "calls finished per 1,000 steps", "calls finished per 1,000 steps", "calls finished per 1,000 steps; here more is better",
        lambda pair: pair.random.calls, lambda pair: pair.random.rows, 1000, rising=True,
    ),
    Column(
        "root", "root accesses per call", "root accesses per call", "steps that read or change the root word, per call finished",
        lambda pair: pair.random.root, lambda pair: pair.random.calls, digits=2,
    ),
    Column(
        "held_up", "held-up steps per call", "held-up steps per call", "steps held up at the queue's mutex, per call finished",
        lambda pair: pair.random.held_up, lambda pair: pair.random.calls, digits=2,
    ),
    Column(
        "lockstep", "failed swaps per 100 calls in lockstep", "failed swaps per 100 calls in lockstep",
        "failed swaps per 100 calls finished in the runs of the dispatcher, where many collide",
        lambda pair: pair.lockstep.failed, lambda pair: pair.lockstep.calls, 100,
    ),
    Column(
        "writer_wait", "steps waited per write-lock got", "steps waited per write-lock got",
        "steps waited for write-locks, also for those not got by the end, per write-lock got",
        lambda pair: pair.random.writer.rows, lambda pair: pair.random.writer.got, digits=0,
    ),
    Column(
        "reader_wait", "steps waited per read-lock got", "steps waited per read-lock got",
        "the same for read-locks",
        lambda pair: pair.random.reader.rows, lambda pair: pair.random.reader.got, digits=0,
    ),
)  # fmt: skip
NAMES: Final = tuple(column.name for column in COLUMNS)


@dataclass(frozen=True, slots=True)
class Figure:
    """A figure over all rounds, the interval of it, and the quartiles of the single rounds; infinite where there is none."""

    value: float
    low: float
    high: float
    lower_quartile: float
    upper_quartile: float

    @property
    def give(self) -> float:
        """Half the width of the interval."""
        return (self.high - self.low) / 2 if math.isfinite(self.high) else math.inf


@dataclass(frozen=True)
class Findings:
    """What was found for a site: the costs of each round, for each shape in order.

    ``by`` is the column that decides, ``margin`` the difference in percent of the best figure that is none.
    """

    site: Site
    shapes: tuple[Shape, ...]
    rounds: tuple[tuple[Pair, ...], ...]
    by: Column = COLUMNS[0]
    margin: float = 10.0

    @cached_property
    def _sums(self) -> Sums:
        counts = [part for column in COLUMNS for part in (column.over, column.under)]
        return Sums([[part(pair) for part in counts for pair in pairs] for pairs in self.rounds])

    def _figures(self, column: Column, rounds: Iterable[int]) -> list[float]:
        """The figures of all shapes over these rounds."""
        return self._ratios(column, self._sums.over(rounds))

    def _ratios(self, column: Column, sums: Sequence[int]) -> list[float]:
        count = len(self.shapes)
        at = 2 * count * COLUMNS.index(column)
        return list(map(column.ratio, sums[at : at + count], sums[at + count : at + 2 * count]))

    @cached_property
    def _drawn(self) -> list[Sequence[int]]:
        """The sums of all draws."""
        return [self._sums.over(again) for again in redrawn(len(self.rounds), self.site.seed)]

    def values(self, column: Column) -> list[float]:
        """The figures of all shapes over all rounds."""
        return self._figures(column, range(len(self.rounds)))

    @cached_property
    def _worths(self) -> list[float]:
        return list(map(self.by.worth, self.values(self.by)))

    def worth(self, number: int) -> float:
        """The figure of a shape that decides, turned so that less is better."""
        return self._worths[number]

    @cached_property
    def order(self) -> list[int]:
        """The numbers of the shapes, best first; of those with the same figure the smaller tree."""
        return sorted(range(len(self.shapes)), key=lambda number: (self._worths[number], self.shapes[number].nodes, self.shapes[number].fan))

    @property
    def best(self) -> int:
        """The number of the best shape."""
        return self.order[0]

    @cached_property
    def root_alone(self) -> int | None:
        """The number of the shape without a tree, if it was measured."""
        return next((number for number, shape in enumerate(self.shapes) if shape.is_root_alone), None)

    @cached_property
    def differences(self) -> list[Difference]:
        """How much worse than the best each shape is."""
        drawn = [list(map(self.by.worth, self._ratios(self.by, sums))) for sums in self._drawn]
        return differences(self._worths, drawn, self.best, len(self.rounds))

    @property
    def has_figures(self) -> bool:
        """Whether any shape has a figure in the column that decides."""
        return math.isfinite(self._worths[self.best])

    @property
    def is_enough(self) -> bool:
        """Whether there are rounds enough to tell shapes apart."""
        return len(self.rounds) >= LEAST_ROUNDS

    @cached_property
    def _within(self) -> float:
        """The difference that counts as none."""
        return self.margin / 100 * abs(self._worths[self.best])

    def is_worse(self, number: int) -> bool:
        """Whether a shape is shown to be worse than the best, and may be so by more than the margin."""
        difference = self.differences[number]
        return number != self.best and self.is_enough and difference.low > 0 and difference.high > self._within

    def is_open(self, number: int) -> bool:
        """Whether it is not settled how a shape compares with the best: it may be as good, or worse by more than the margin."""
        difference = self.differences[number]
        return number != self.best and (not self.is_enough or difference.low <= 0 and difference.high > self._within)

    @cached_property
    def is_settled(self) -> bool:
        """Whether more rounds are not needed: each shape is worse than the best, or within the margin."""
        return self.has_figures and self.is_enough and not any(map(self.is_open, range(len(self.shapes))))

    @cached_property
    def as_good(self) -> list[int]:
        """The shapes that are not shown to be worse than the best, without it, best first."""
        return [number for number in self.order[1:] if not self.is_worse(number)]

    def verdict(self, number: int) -> str:
        """What is found of a shape: ``best``, ``as good``, ``open`` (as good as far as is known) or ``worse``."""
        if not self.has_figures:
            return "open"
        if number == self.best:
            return "best"
        return "worse" if self.is_worse(number) else "open" if self.is_open(number) else "as good"

    @cached_property
    def figures(self) -> dict[str, list[Figure]]:
        """The figures of all shapes with their spread, by column."""
        return {column.name: self._spread(column) for column in COLUMNS}

    def _spread(self, column: Column) -> list[Figure]:
        drawn = zip(*(self._ratios(column, sums) for sums in self._drawn))
        single = zip(*(map(column.ratio, map(column.over, pairs), map(column.under, pairs)) for pairs in self.rounds))
        found: list[Figure] = []
        for value, again, alone in zip(self.values(column), drawn, single):
            rising = sorted(alone)
            found.append(Figure(value, *middle(again, FIGURE_LEVEL), quantile(rising, 0.25), quantile(rising, 0.75)))
        return found

    @cached_property
    def waiting(self) -> list[tuple[int, int]]:
        """For each shape: the locks still waited for at the ends of its random runs, and the locks begun."""
        counts: list[tuple[int, int]] = []
        for pairs in zip(*self.rounds):
            waits = [wait for pair in pairs for wait in (pair.random.writer, pair.random.reader)]
            waiting = sum(wait.waiting for wait in waits)
            counts.append((waiting, waiting + sum(wait.got for wait in waits)))
        return counts

    def longest(self, number: int) -> dict[str, int]:
        """The longest waits of a shape in any of its random runs, in steps: of locks got, and of those that were still waited for at the end."""
        found: dict[str, int] = {}
        for name in ("writer", "reader"):
            waits = [getattr(pairs[number].random, name) for pairs in self.rounds]
            found[f"{name}_longest"] = max(wait.longest for wait in waits)
            found[f"{name}_longest_waiting"] = max(wait.longest_waiting for wait in waits)
        return found


def named(trees: Sequence[Shape], best: Shape, swept: Sequence[Shape], most: int = 3) -> str:
    """Trees in words, ``N 13 to 31 with F 3 or 4``: the blocks of neighbours that have most of them, beside the best one, and the number of the others."""
    nodes = sorted({shape.nodes for shape in swept if not shape.is_root_alone})
    fans = sorted({fan for shape in swept for fan in shape.fans})
    by_size = {(shape.nodes, fan): shape for shape in swept for fan in shape.fans}
    good = {*trees, best}
    left = set(trees) - {best}
    parts: list[str] = []
    while left and len(parts) < most:
        block_nodes, block_fans = _trimmed(max(_blocks(nodes, fans, by_size, good), key=lambda block: _weight(block, by_size, left)), by_size, left)
        left -= {by_size[node, fan] for node in block_nodes for fan in block_fans}
        parts.append(f"N {_runs(block_nodes, 'and')} with F {_runs(block_fans, 'or')}")
    return listed([*parts, f"{counted(len(left), 'other')}"] if left else parts)


_Block = tuple[list[int], list[int]]


def _blocks(nodes: list[int], fans: list[int], by_size: dict[tuple[int, int], Shape], good: set[Shape]) -> Iterator[_Block]:
    """The blocks of neighbouring sizes all of whose shapes are good, each as long in N as it can be."""
    for first in range(len(fans)):
        for last in range(first + 1, len(fans) + 1):
            run: list[int] = []
            for node in nodes:
                if all(by_size.get((node, fan)) in good for fan in fans[first:last]):
                    run.append(node)
                elif run:
                    yield run, fans[first:last]
                    run = []
            if run:
                yield run, fans[first:last]


def _weight(block: _Block, by_size: dict[tuple[int, int], Shape], left: set[Shape]) -> tuple[int, int, int]:
    """How much a block tells: the shapes that are left to tell, with few sizes, and small trees first."""
    nodes, fans = block
    return len({by_size[node, fan] for node in nodes for fan in fans} & left), -len(nodes) * len(fans), -nodes[0]


def _trimmed(block: _Block, by_size: dict[tuple[int, int], Shape], left: set[Shape]) -> _Block:
    """The block without sizes at its ends that have nothing that is left to tell."""
    nodes, fans = block
    telling_nodes = [place for place, node in enumerate(nodes) if any(by_size[node, fan] in left for fan in fans)]
    nodes = nodes[telling_nodes[0] : telling_nodes[-1] + 1]
    telling_fans = [place for place, fan in enumerate(fans) if any(by_size[node, fan] in left for node in nodes)]
    return nodes, fans[telling_fans[0] : telling_fans[-1] + 1]


def _runs(numbers: Sequence[int], word: str) -> str:
    parts: list[str] = []
    for first, last in ranges(numbers):
        # Two neighbours are no run.
        parts += [f"{first} to {last}"] if last > first + 1 else [str(number) for number in range(first, last + 1)]
    return listed(parts, word)


def counted(number: int, what: str) -> str:
    """A number of things."""
    return f"{number:,} {what}" if number == 1 else f"{number:,} {what}s"


def listed(names: Sequence[str], word: str = "and") -> str:
    """Names in a row, as in a sentence."""
    return names[0] if len(names) == 1 else f"{', '.join(names[:-1])} {word} {names[-1]}"
