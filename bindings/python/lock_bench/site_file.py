"""A site's file for a run in the proved library: its calls, and the turns at which its threads run.

A site has T threads. Each goes through critical sections one after the other, again and again: it reads (a read-lock and its unlock), writes (a write-lock and
its unlock), or reads and then wants to write (a read-lock, an upgrade, granted or denied, and the unlock). It holds what it got for some of its turns, and
thinks for some between two sections. Each thread has its share of each kind. In which order is drawn by seed, and with which it begins by round; both are the
same for every shape.
"""

from __future__ import annotations

import hashlib
import math
from dataclasses import dataclass
from functools import lru_cache
from typing import Final

from .errors import BenchError
from .orders import READ_LOCK, UNLOCK, UPGRADE, WRITE_LOCK
from .site import MOST_ROWS, ROUTES, Shape, drawing

#: The most turns that a site's thread holds or thinks for.
MOST_PAUSE: Final = 255

#: The turns for which a thread holds a lock, about as many as its two calls take; and for which it thinks, so that it is at the lock for a fifth of its time.
HOLD: Final = 8
THINK: Final = 64

#: The turns of a run that are measured, where a site needs no more.
LEAST_TURNS: Final = 100_000
# The shares are exact over every so many critical sections of a thread, so that the part of them that fits into a run has its share of writers too.
_BLOCK: Final = 20
# The calls of a critical section of each kind.
_READS: Final = bytes((READ_LOCK, UNLOCK))
_WRITES: Final = bytes((WRITE_LOCK, UNLOCK))
_UPGRADES: Final = bytes((READ_LOCK, UPGRADE, UNLOCK))

# The share of a run's measured turns that is run before them and not measured.
_WARM_UP: Final = 0.25


@dataclass(frozen=True, slots=True)
class Site:
    """The threads of a site, and what they do: the shares, in percent, of critical sections that write and that upgrade, and the turns for which a thread
    holds and thinks. ``turns`` are those of a run that are measured."""

    threads: int
    writers: float
    upgrades: float
    hold: int = HOLD
    think: int = THINK
    routes: str = ROUTES[0]
    seed: int = 0
    turns: int = LEAST_TURNS

    def __post_init__(self) -> None:
        if self.writers + self.upgrades > 100:
            raise BenchError(f"{self.writers:g} % that write and {self.upgrades:g} % that upgrade are more than 100 %")

    @property
    def warm_up(self) -> int:
        """The turns that are run before those that are measured."""
        return int(_WARM_UP * self.turns)

    @property
    def sections(self) -> int:
        """The critical sections of each thread, which it goes through again and again: as many as surely fit a site file."""
        return int((MOST_ROWS / self.threads - 2) / (2 + self.upgrades / 100))

    def name(self) -> str:
        """The site in a few words: ``19 threads, 5 % write, 2 % upgrade``."""
        upgrades = f", {self.upgrades:g} % upgrade" if self.upgrades else ""
        return f"{self.threads} thread{'s' * (self.threads > 1)}, {self.writers:g} % write{upgrades}"

    def file(self, shape: Shape, number: int) -> bytes:
        """The site file of a tree for a round: each thread reads by a node of its own, as far as there are enough."""
        by = shape.leaves() if self.routes == "leaves" else range(shape.nodes)
        threads, calls = _calls(self.threads, self.sections, self.writers, self.upgrades, self.seed, number)
        root = bytes((READ_LOCK,))
        orders = b"".join(part.replace(root, bytes((READ_LOCK + by[thread % len(by)],))) for thread, part in enumerate(calls))
        sizes = bytes((shape.nodes, shape.fan, self.threads, self.hold, self.think))
        return sizes + len(orders).to_bytes(2, "little") + self.warm_up.to_bytes(4, "little") + threads + orders

    def turns_of(self, number: int) -> bytes:
        """The turns of a round, the warm-up's first: each names a thread, all with the same chance.

        They are cut from one stretch of SHAKE-128, which is the same everywhere. Bytes from the last multiple of T on are dropped, so that the others fall on
        each thread equally often.
        """
        count = self.warm_up + self.turns
        even = 256 // self.threads * self.threads
        # Eight standard deviations more than are dropped on the average.
        drawn = count * 256 // even + 8 * math.isqrt(count) + 64
        stretch = hashlib.shake_128(f"{self.seed} {number} turns".encode()).digest(drawn)
        return stretch.translate(bytes(value % self.threads for value in range(256)), bytes(range(even, 256)))[:count]


@lru_cache(128)
def _sections(threads: int, count: int, writers: float, upgrades: float, seed: int) -> tuple[list[bytes], ...]:
    """The critical sections of each thread, each by its calls, all read-locks by the root. Every stretch of a thread's has its share, up to one."""
    draw = drawing(f"{seed} sections")
    found: list[list[bytes]] = []
    for thread in range(threads):
        kinds: list[bytes] = []
        for begin in range(thread * count, (thread + 1) * count, _BLOCK):
            end = min(begin + _BLOCK, (thread + 1) * count)
            write, both = (_share(percent, end) - _share(percent, begin) for percent in (writers, writers + upgrades))
            block = [_WRITES] * write + [_UPGRADES] * max(0, both - write)
            block += [_READS] * (end - begin - len(block))
            kinds += sorted(block, key=lambda _: draw.random())
        found.append(kinds)
    return tuple(found)


# The shapes of a round come one after the other, so few are kept.
@lru_cache(4)
def _calls(threads: int, count: int, writers: float, upgrades: float, seed: int, number: int) -> tuple[bytes, tuple[bytes, ...]]:
    """The threads of all calls, and the calls of each, which begin with another section in each round: else all rounds would measure the same ones."""
    draw = drawing(f"{seed} {number} begins")
    calls: list[bytes] = []
    for sections in _sections(threads, count, writers, upgrades, seed):
        first = int(draw.random() * count)
        calls.append(b"".join(sections[first:] + sections[:first]))
    return b"".join(bytes((thread,)) * len(part) for thread, part in enumerate(calls)), tuple(calls)


def _share(percent: float, sections: int) -> int:
    """So many percent of the sections, rounded."""
    return int(percent * sections / 100 + 0.5)
