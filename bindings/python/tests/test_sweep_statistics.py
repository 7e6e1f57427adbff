"""How sure a sweep's figures are: the bootstrap, held against cases whose answer is known."""

from __future__ import annotations

import math
import random
import statistics
import unittest

from lock_bench.sweep_statistics import Sums, differences, middle, quantile, redrawn, widened


class Adding(unittest.TestCase):
    def test_sums(self) -> None:
        rng = random.Random(70)
        rounds = [[rng.randrange(1 << 30) for _ in range(50)] for _ in range(20)]
        sums = Sums(rounds)
        for chosen in ([0], [3, 3, 3], list(range(20)), [19, 0, 19, 7]):
            self.assertEqual(list(sums.over(chosen)), [sum(rounds[number][place] for number in chosen) for place in range(50)])
        self.assertEqual(list(sums.over([])), [0] * 50)

    def test_drawn_again(self) -> None:
        drawn = redrawn(30, 5, 400)
        self.assertEqual(drawn, redrawn(30, 5, 400))
        self.assertNotEqual(drawn, redrawn(30, 6, 400))
        self.assertEqual({len(again) for again in drawn}, {30})
        seen = [number for again in drawn for number in again]
        self.assertEqual(set(seen), set(range(30)))
        # Each comes 400 times on average, with a standard deviation of 20.
        self.assertTrue(all(300 < seen.count(number) < 500 for number in range(30)))

    def test_quantiles(self) -> None:
        self.assertEqual([quantile([1, 2, 4, 8], share) for share in (0, 1 / 3, 0.5, 1)], [1, 2, 3, 8])
        self.assertEqual(quantile([5], 0.9), 5)
        self.assertEqual(quantile([1, math.inf, math.inf], 0.75), math.inf)
        self.assertEqual([round(end, 9) for end in middle(range(101), 0.9)], [5, 95])

    def test_widened(self) -> None:
        """Student's t at 97.5 % is 2.262 with 9 degrees of freedom and 2.045 with 29, where the normal distribution has 1.96."""
        self.assertAlmostEqual(widened(1.96, 10), 2.262, places=2)
        self.assertAlmostEqual(widened(1.96, 30), 2.045, places=2)
        self.assertLess(widened(1.96, 10_000) - 1.96, 0.001)
        self.assertEqual(widened(1.96, 1), math.inf)


def means(rounds: list[list[float]], seed: int = 0) -> tuple[list[float], list[list[float]]]:
    """The mean of each column, and the means of draws."""
    count = len(rounds)

    def over(chosen: list[int]) -> list[float]:
        return [statistics.fmean(rounds[number][place] for number in chosen) for place in range(len(rounds[0]))]

    return over(list(range(count))), [over(again) for again in redrawn(count, seed, 300)]


class Differences(unittest.TestCase):
    def test_pairs_tell_what_single_figures_do_not(self) -> None:
        """Two columns that rise and fall together differ for certain, though each varies far more than they differ."""
        rng = random.Random(71)
        rounds = [[level, level + 1 + rng.random() / 10, level + rng.random() / 10 - 0.05] for level in (rng.random() * 50 for _ in range(16))]
        figures, drawn = means(rounds)
        best, worse, same = differences(figures, drawn, 0, 16)
        self.assertEqual((best.value, best.low, best.high), (0, 0, 0))
        self.assertTrue(0.9 < worse.low < worse.value < worse.high < 1.2)
        self.assertTrue(same.low < 0 < same.high)

    def test_how_often_it_errs(self) -> None:
        """Of columns that are the same but for chance, one is called worse than the first in about one of 100 sweeps, however many columns there are."""
        rng = random.Random(72)
        erred = 0
        for number in range(150):
            rounds = [[rng.gauss(0, 1 + place % 3) for place in range(12)] for _ in range(16)]
            figures, drawn = means(rounds, number)
            erred += any(difference.low > 0 or difference.high < 0 for difference in differences(figures, drawn, 0, 16))
        # 1.5 are to be expected; 8 would come once in 10,000 times.
        self.assertLess(erred, 8)

    def test_more_rounds_are_surer(self) -> None:
        rng = random.Random(73)
        widths: list[float] = []
        for count in (16, 144):
            figures, drawn = means([[0.0, rng.gauss(1, 1)] for _ in range(count)])
            difference = differences(figures, drawn, 0, count)[1]
            widths.append(difference.high - difference.low)
        self.assertLess(widths[1], 0.7 * widths[0])

    def test_columns_without_figures(self) -> None:
        """One without a figure is worse than any; one that lacks it in a draw cannot be told."""
        best, none, some = differences([1.0, math.inf, 2.0], [[1.0, math.inf, math.inf], [1.1, math.inf, 2.0]], 0, 8)
        self.assertEqual((best.low, best.high), (0, 0))
        self.assertEqual((none.value, none.low), (math.inf, math.inf))
        self.assertEqual((some.value, some.low, some.high), (1.0, -math.inf, math.inf))

    def test_one_round(self) -> None:
        """It says nothing of differences."""
        self.assertEqual([difference.low for difference in differences([1.0, 5.0], [[1.0, 5.0]] * 10, 0, 1)], [-math.inf, -math.inf])
