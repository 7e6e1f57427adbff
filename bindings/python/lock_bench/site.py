"""What a site's threads want, and the shapes of trees that may serve it.

A site has T threads. Each goes through critical sections one after the other: it reads (a read-lock and its unlock), writes (a write-lock and its unlock), or
reads and then wants to write (a read-lock, an upgrade, granted or denied, and the unlock). Shares of them are exact; which are which is drawn by seed,
and is the same for every shape, so that shapes are compared on the same wants.
"""

from __future__ import annotations

import random
from collections.abc import Iterable, Iterator, Sequence
from dataclasses import dataclass
from functools import lru_cache
from typing import Final

from .errors import BenchError
from .orders import READ_LOCK, UNLOCK, UPGRADE, WRITE_LOCK
from .schedule import Schedule

#: The largest sizes that the bench takes.
MOST_NODES: Final = 32
MOST_FAN: Final = 16
MOST_THREADS: Final = 64
MOST_ROWS: Final = 4096

#: Which nodes readers lock by.
ROUTES: Final = ("leaves", "nodes")

# The shares are exact over every so many critical sections, so that the part of them that fits into a run has its share of writers too.
_BLOCK: Final = 20


@dataclass(frozen=True, slots=True)
class Shape:
    """A tree of N nodes: node n above 0 has the parent (n - 1) / F, rounded down. More than one fan-out F may give it."""

    nodes: int
    fans: tuple[int, ...]

    @property
    def fan(self) -> int:
        """The least fan-out that gives this tree."""
        return self.fans[0]

    @property
    def is_root_alone(self) -> bool:
        """Whether there is no tree at all."""
        return self.nodes == 1

    def leaves(self) -> list[int]:
        """The nodes that are nobody's parent."""
        return [node for node in range(self.nodes) if node * self.fan + 1 >= self.nodes]

    def fans_text(self) -> str:
        """The fan-outs that give this tree, as ranges: ``8-16``, ``1,3-5``."""
        return ",".join(str(first) if first == last else f"{first}-{last}" for first, last in ranges(self.fans))

    def __str__(self) -> str:
        return f"N {self.nodes} F {self.fans_text()}"


def ranges(numbers: Iterable[int]) -> list[tuple[int, int]]:
    """The runs of neighbours among rising numbers: the first and the last of each."""
    found: list[tuple[int, int]] = []
    for number in numbers:
        if found and number == found[-1][1] + 1:
            found[-1] = found[-1][0], number
        else:
            found.append((number, number))
    return found


def shapes(nodes: Sequence[int], fans: Sequence[int]) -> list[Shape]:
    """The different trees of these sizes, by N and then by F: from N - 1 on, a fan-out makes all nodes children of the root."""
    found: list[Shape] = []
    for size in sorted(set(nodes)):
        by_tree: dict[int, list[int]] = {}
        for fan in sorted(set(fans)):
            by_tree.setdefault(min(fan, max(1, size - 1)), []).append(fan)
        found += (Shape(size, tuple(same)) for same in by_tree.values())
    return found


@dataclass(frozen=True, slots=True)
class Site:
    """The threads of a site, and what they want: the shares, in percent, of critical sections that write and that upgrade.

    The calls are as many as one file of wanted calls holds, so that nobody runs out of them, unless a number is given. A run of the site has ``steps`` rows,
    or fewer where all calls are made before.
    """

    threads: int
    writers: float
    upgrades: float
    calls: int | None = None
    routes: str = "leaves"
    seed: int = 0
    steps: int = MOST_ROWS

    def __post_init__(self) -> None:
        if self.writers + self.upgrades > 100:
            raise BenchError(f"{self.writers:g} % that write and {self.upgrades:g} % that upgrade are more than 100 %")
        if self.sections < self.threads:
            least = calls_of(self.threads, self.writers, self.upgrades)
            raise BenchError(f"{self.calls} calls are too few for {self.threads} threads: a critical section for each has {least}")
        if self.wanted_calls > MOST_ROWS:
            raise BenchError(f"{self.wanted_calls} calls do not fit a file of wanted calls ({MOST_ROWS} at most)")

    @property
    def sections(self) -> int:
        """The critical sections: the fewest whose calls are as many as were asked for, or the most whose calls fit."""
        return _sections(self.writers, self.upgrades, self.calls)

    @property
    def wanted_calls(self) -> int:
        """The calls of all critical sections: locks, upgrades and unlocks."""
        return calls_of(self.sections, self.writers, self.upgrades)

    def name(self) -> str:
        """The site in a few words: ``19 threads, 5 % write, 2 % upgrade``."""
        upgrades = f", {self.upgrades:g} % upgrade" if self.upgrades else ""
        return f"{self.threads} thread{'s' * (self.threads > 1)}, {self.writers:g} % write{upgrades}"

    def wanted(self, shape: Shape, number: int) -> Schedule:
        """The wanted calls of this number on a tree: critical sections are dealt round the threads, and each thread reads by a node of its own."""
        return Schedule.from_bytes(self.wanted_file(shape, number))

    def wanted_file(self, shape: Shape, number: int) -> bytes:
        """The file of the wanted calls."""
        by = shape.leaves() if self.routes == "leaves" else range(shape.nodes)
        reads = [READ_LOCK + by[thread % len(by)] for thread in range(self.threads)]
        threads, calls = _calls(self.threads, self.sections, self.writers, self.upgrades, f"{self.seed} {number} sections")
        orders = bytes(reads[thread] if order == READ_LOCK else order for thread, order in zip(threads, calls))
        return bytes((shape.nodes, shape.fan, self.threads)) + len(orders).to_bytes(2, "little") + threads + orders

    def turns(self, number: int) -> Iterator[int]:
        """Threads drawn without end, each with the same chance, for the wanted calls of this number."""
        draw = drawing(f"{self.seed} {number} turns")
        while True:
            yield int(draw.random() * self.threads)


def drawing(what: str) -> random.Random:
    """A generator that gives the same numbers for the same words in every version of Python, of which ``random()`` alone is used for that."""
    return random.Random(what)


def calls_of(sections: int, writers: float, upgrades: float) -> int:
    """The calls of so many critical sections with these shares: a lock and an unlock each, and the upgrades."""
    return 2 * sections + _split(sections, writers, upgrades)[UPGRADE]


@lru_cache(256)
def _sections(writers: float, upgrades: float, calls: int | None) -> int:
    if calls is None:
        sections = MOST_ROWS // 2
        while calls_of(sections, writers, upgrades) > MOST_ROWS:
            sections -= 1
        return sections
    sections = calls // 3
    while calls_of(sections, writers, upgrades) < calls:
        sections += 1
    return sections


def _split(sections: int, writers: float, upgrades: float) -> dict[int, int]:
    """How many of so many critical sections write, upgrade and only read."""
    write, both = (int(percent * sections / 100 + 0.5) for percent in (writers, writers + upgrades))
    return {WRITE_LOCK: write, UPGRADE: both - write, READ_LOCK: sections - both}


# The shapes of one round come one after the other, so few are kept.
@lru_cache(16)
def _calls(threads: int, sections: int, writers: float, upgrades: float, what: str) -> tuple[bytes, bytes]:
    """The threads and the orders of the calls of so many critical sections, all read-locks by the root."""
    by, calls = bytearray(), bytearray()
    for section, kind in enumerate(_kinds(sections, writers, upgrades, what)):
        orders = (WRITE_LOCK, UNLOCK) if kind == WRITE_LOCK else (READ_LOCK, UPGRADE, UNLOCK) if kind == UPGRADE else (READ_LOCK, UNLOCK)
        calls += bytes(orders)
        by += bytes((section % threads,)) * len(orders)
    return bytes(by), bytes(calls)


def _kinds(sections: int, writers: float, upgrades: float, what: str) -> list[int]:
    """The kinds of the critical sections, each by the order that it is named after."""
    draw = drawing(what)
    most = _split(sections, writers, upgrades)[UPGRADE]
    kinds: list[int] = []
    upgraded = 0
    for begin in range(0, sections, _BLOCK):
        end = min(begin + _BLOCK, sections)
        before, after = (_split(count, writers, upgrades) for count in (begin, end))
        write = after[WRITE_LOCK] - before[WRITE_LOCK]
        # Rounded, the upgrades of more critical sections may be one fewer than those of fewer.
        upgrade = max(0, min(after[UPGRADE], most) - upgraded)
        upgraded += upgrade
        block = [WRITE_LOCK] * write + [UPGRADE] * upgrade + [READ_LOCK] * (end - begin - write - upgrade)
        _shuffle(block, draw)
        kinds += block
    return kinds


def _shuffle(items: list[int], draw: random.Random) -> None:
    for last in range(len(items) - 1, 0, -1):
        other = int(draw.random() * (last + 1))
        items[last], items[other] = items[other], items[last]
