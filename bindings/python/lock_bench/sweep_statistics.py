"""How sure a sweep's figures are: the paired bootstrap, over rounds.

A figure is a ratio of two sums over all rounds, such as failed swaps and calls finished. In a round every shape has the same wanted calls and the same turns,
so shapes are compared round by round: rounds are drawn again with repetition, the same ones for all shapes, and each time all figures are made anew.

- The interval of a figure has the middle 95 % of what it was in these draws.
- A shape's difference to the best shape has an interval that holds for all shapes at once, in 99 of 100 sweeps: its half width is its standard error times
  a factor that the largest difference of any shape, in standard errors, stays below in 99 % of the draws. The factor is widened for few rounds as Student's t is.

Counts are added exactly, and what is drawn depends on the seed and the number of rounds alone, so the same rounds give the same intervals everywhere.
"""

from __future__ import annotations

import math
import sys
from array import array
from collections.abc import Iterable, Sequence
from dataclasses import dataclass
from typing import Final

from .site import drawing

#: How often rounds are drawn again.
DRAWS: Final = 1000
#: The share of the draws that a figure's interval has.
FIGURE_LEVEL: Final = 0.95
#: The share of sweeps in which the intervals of all differences to the best hold.
LEVEL: Final = 0.99
#: With fewer rounds than this no shape is told from another.
LEAST_ROUNDS: Final = 8


class Sums:
    """Whole numbers for each round, as many in each, which are added over rounds, with repetition or without."""

    def __init__(self, rounds: Sequence[Sequence[int]]) -> None:
        # The numbers of a round are the digits of one large number, so that two rounds are added at once.
        self._packed = [int.from_bytes(array("Q", numbers).tobytes(), sys.byteorder) for numbers in rounds]
        self._length = 8 * len(rounds[0])

    def over(self, rounds: Iterable[int]) -> Sequence[int]:
        """The sums over these rounds."""
        total = array("Q")
        total.frombytes(sum(map(self._packed.__getitem__, rounds)).to_bytes(self._length, sys.byteorder))
        return total


def redrawn(rounds: int, seed: int, draws: int = DRAWS) -> list[list[int]]:
    """The rounds of each draw: as many as there are, with repetition."""
    draw = drawing(f"{seed} {rounds} rounds drawn again")
    return [[int(draw.random() * rounds) for _ in range(rounds)] for _ in range(draws)]


def middle(values: Iterable[float], share: float) -> tuple[float, float]:
    """The ends of the middle share of some values."""
    rising = sorted(values)
    outside = (1 - share) / 2
    return quantile(rising, outside), quantile(rising, 1 - outside)


def quantile(rising: Sequence[float], share: float) -> float:
    """The value below which a share of rising values is, straight between the two nearest."""
    place = share * (len(rising) - 1)
    low = int(place)
    high = min(low + 1, len(rising) - 1)
    if rising[low] == rising[high]:
        return rising[low]
    return rising[low] + (rising[high] - rising[low]) * (place - low)


@dataclass(frozen=True, slots=True)
class Difference:
    """How much worse a shape is than the best one, and the interval of that; infinite where it has no figure."""

    value: float
    low: float
    high: float


def differences(figures: Sequence[float], drawn: Sequence[Sequence[float]], best: int, rounds: int) -> list[Difference]:
    """The differences of the figures, which are better the lower they are, to the best; ``drawn`` has the figures of each draw."""
    values = [figure - figures[best] if math.isfinite(figure) else math.inf for figure in figures]
    apart = [[figure - again[best] - value for figure, value in zip(again, values)] for again in drawn]
    errors = [_error(column, rounds) for column in zip(*apart)]
    able = [number for number, error in enumerate(errors) if 0 < error < math.inf]
    largest = [max((abs(of[number]) / errors[number] for number in able), default=0.0) for of in apart]
    factor = widened(quantile(sorted(largest), LEVEL), rounds)
    gives = [factor * error if 0 < error < math.inf else error for error in errors]
    return [Difference(value, value - give, value + give) for value, give in zip(values, gives)]


def _error(apart: Sequence[float], rounds: int) -> float:
    """The standard error, from how far the draws are apart; infinite where a draw had no figure, and 0 where the shape itself has none."""
    if any(map(math.isnan, apart)):
        return 0.0
    if not all(map(math.isfinite, apart)) or rounds < 2:
        return math.inf
    # Draws of few rounds are too near each other by the second factor.
    return math.sqrt(math.fsum(one * one for one in apart) / len(apart) * rounds / (rounds - 1))


def widened(factor: float, rounds: int) -> float:
    """A factor for standard errors, made as much wider as Student's t is than the normal distribution (its expansion in the degrees of freedom)."""
    if rounds < 2:
        return math.inf
    free = rounds - 1
    return factor + (factor**3 + factor) / (4 * free) + (5 * factor**5 + 16 * factor**3 + 3 * factor) / (96 * free**2)
