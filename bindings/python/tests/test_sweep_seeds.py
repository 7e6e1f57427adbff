"""Another seed gives the same recommendation, up to shapes that are said to be as good."""

from __future__ import annotations

import unittest
from concurrent.futures import ProcessPoolExecutor

from lock_bench import load
from lock_bench.findings import Findings, Pair
from lock_bench.site import Site, shapes
from lock_bench.sweep_work import pair_of

TREES = tuple(shapes([1, 4, 13, 20, 32], [2, 3]))
SEEDS = range(10)
ROUNDS = 12


Rounds = tuple[tuple[Pair, ...], ...]


def rounds_of(site: Site) -> Rounds:
    """The costs of all rounds of a site."""
    return tuple(tuple(pair_of(site, tree, number, load()) for tree in TREES) for number in range(ROUNDS))


class Seeds(unittest.TestCase):
    def of_all_seeds(self, threads: int, steps: int) -> list[Findings]:
        """What sweeps of a site with 5 % writers find."""
        sites = [Site(threads, 5, 0, seed=seed, steps=steps) for seed in SEEDS]
        with ProcessPoolExecutor(2) as pool:
            return [Findings(site, TREES, rounds) for site, rounds in zip(sites, pool.map(rounds_of, sites))]

    def check(self, of: list[Findings]) -> None:
        """Whatever one seed names, every other names too, or says that it is as good."""
        for one in of:
            for other in of:
                named = other.shapes[other.best]
                self.assertIn(other.best, (one.best, *one.as_good), f"seed {other.site.seed} takes {named}, which is worse with seed {one.site.seed}")

    def test_4_threads(self) -> None:
        of = self.of_all_seeds(4, 2048)
        self.check(of)
        self.assertTrue(all(one.is_worse(0) for one in of), "the root alone is worse with every seed")

    def test_19_threads(self) -> None:
        of = self.of_all_seeds(19, 4096)
        self.check(of)
        self.assertTrue(all(one.is_worse(0) for one in of), "the root alone is worse with every seed")

    def test_64_threads(self) -> None:
        """Every run is cut, and figures vary by a factor of two; the root alone is never taken."""
        of = self.of_all_seeds(64, 4096)
        self.check(of)
        self.assertTrue(all(one.best != 0 for one in of))
        self.assertGreater(sum(one.is_worse(0) for one in of), 5)

    def test_same_seed(self) -> None:
        five, six = (Site(3, 5, 0, seed=seed, steps=300) for seed in (5, 6))
        self.assertEqual(rounds_of(five), rounds_of(five))
        self.assertNotEqual(rounds_of(five), rounds_of(six))
