"""The model for Spin of tools/compare: as many states as the model written apart, as deep, and none in which no row can be made."""

from __future__ import annotations

import re
import shutil
import subprocess
import unittest

from .lock_model import Model, levels
from .support import ROOT
from .test_command import InFolder

MODEL = ROOT / "tools" / "compare" / "spin" / "lock.pml"


@unittest.skipIf(shutil.which("spin") is None, "spin is not installed")
class Spin(InFolder):
    def test_states_and_depth(self) -> None:
        for sizes in ((1, 1, 2), (2, 1, 2), (3, 2, 2), (1, 1, 3)):
            with self.subTest(sizes):
                states = [len(level) for level in levels(Model(*sizes))]
                told = self.searched(*sizes)
                found = [int(number) for number in re.findall(r"depth reached (\d+), errors: (\d+)\n +(\d+) states, stored", told)[0]]
                self.assertEqual(found, [len(states) - 1, 0, sum(states)])

    def searched(self, nodes: int, fan: int, threads: int) -> str:
        """What Spin says of its breadth-first search."""
        named = [f"-DN={nodes}", f"-DF={fan}", f"-DT={threads}"]
        subprocess.run(["spin", *named, "-o3", "-a", str(MODEL)], cwd=self.folder, check=True, capture_output=True)
        subprocess.run(["cc", "-w", "-DSAFETY", "-DNOREDUCE", "-DBFS", "-o", "pan", "pan.c"], cwd=self.folder, check=True)
        return subprocess.run(["./pan"], cwd=self.folder, check=True, capture_output=True, text=True).stdout
