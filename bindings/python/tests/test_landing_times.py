"""tools/landing-times, with a stand-in for rt, on a small repository."""

from __future__ import annotations

import os
import shutil
import subprocess
import tempfile
import unittest
from pathlib import Path

from .support import PATIENCE, ROOT

RT = """#!/bin/sh
[ "$*" = "all verdict --jobs 1" ] || exit 2
echo "proving $(cat state)"
# Time of a child counts too.
sh -c 'i=0; while [ $i -lt 20000 ]; do i=$((i + 1)); done'
[ "$(cat state)" != broken ]
"""


@unittest.skipUnless(shutil.which("git"), "git is not installed")
class LandingTimes(unittest.TestCase):
    def setUp(self) -> None:
        folder = tempfile.TemporaryDirectory()
        self.addCleanup(folder.cleanup)
        self.root, self.out = Path(folder.name) / "repository", Path(folder.name) / "out"
        (self.root / "tools").mkdir(parents=True)
        (self.root / "docs/landings").mkdir(parents=True)
        shutil.copy(ROOT / "tools/landing-times", self.root / "tools")
        programs = Path(folder.name) / "bin"
        programs.mkdir()
        (programs / "rt").write_text(RT)
        (programs / "rt").chmod(0o755)
        self.environment = {**os.environ, "PATH": f"{programs}:{os.environ['PATH']}"}
        self.git("init", "-q")
        self.commits = [self.commit("one"), self.commit("two", "5-first"), self.commit("broken", "6-second")]

    def git(self, *words: str) -> str:
        identity = ("-c", "user.name=tests", "-c", "user.email=tests@localhost")
        done = subprocess.run(["git", *identity, *words], cwd=self.root, check=True, capture_output=True, text=True)
        return done.stdout.strip()

    def commit(self, state: str, note: str | None = None) -> str:
        (self.root / "state").write_text(state)
        if note is not None:
            (self.root / f"docs/landings/{note}.md").write_text(f"# {note}\n")
        self.git("add", "-A")
        self.git("commit", "-q", "-m", state)
        return self.git("rev-parse", "--short", "HEAD")

    def times(self, *notes: str) -> subprocess.CompletedProcess[str]:
        words: list[str | Path] = [self.root / "tools/landing-times", self.out, *notes]
        return subprocess.run(words, env=self.environment, capture_output=True, text=True, timeout=PATIENCE, check=False)

    def test_notes(self) -> None:
        done = self.times("5", "6")
        self.assertEqual((done.returncode, done.stderr), (0, ""))
        first, second, broken = self.commits
        rows = done.stdout.splitlines()[4:]
        self.assertRegex(rows[0], rf"^\| 5 \| {first}: 0 min \d+ s \(.*\) \| {second}: 0 min \d+ s \(.*\) \|$")
        self.assertRegex(rows[1], rf"^\| 6 \| {second}: .* \| {broken}: rt all verdict ended with 1 \|$")
        lines = [line.split("\t") for line in (self.out / "commits.tsv").read_text().splitlines()]
        self.assertEqual([line[:2] for line in lines], [[first, "0"], [second, "0"], [broken, "1"]])
        self.assertEqual((self.out / f"{second}.log").read_text(), "proving two\n")
        self.assertEqual((self.out / "table.md").read_text(), done.stdout)

    def test_taken_up(self) -> None:
        """What is measured is not measured again."""
        first, second, _ = self.commits
        self.out.mkdir()
        (self.out / "commits.tsv").write_text(f"{first}\t0\t61.0\t100.4\n")
        done = self.times(f"5={first}..{second}")
        self.assertIn(f"| 5 | {first}: 1 min 1 s (1 min 40 s) | {second}: 0 min ", done.stdout)
        self.assertFalse((self.out / f"{first}.log").exists())

    def test_mistakes(self) -> None:
        self.assertEqual(self.times("9").stderr, "landing-times: 0 commits add a note 9\n")
        done = self.times()
        self.assertEqual(done.returncode, 2)
        self.assertIn("usage: tools/landing-times OUT NOTE ...", done.stderr)
