"""Suites that cover a small lock: what can happen is what happens, and every piece of it is in a schedule; their texts, files and records."""

from __future__ import annotations

import shutil
import subprocess
import unittest
from pathlib import Path

from lock_bench import Row, Schedule, cover, explore, journal, load, notation, record, run
from lock_bench.explore import PROGRAM_COUNTERS
from lock_bench.history import History

from .lock_model import Model, levels
from .support import ROOT, bench, bench_here, needs
from .test_command import InFolder

SERVER = ROOT / "examples" / "server_lock"


@needs("explore_lock")
class Suites(unittest.TestCase):
    def test_rows_of_states_are_those_of_the_model(self) -> None:
        """As many rows of each order and each kind of entry at all states."""
        found = explore.explore(2, 1, 2)
        ours = sorted((asked.row.order, asked.entry.kind) for state in range(found.states) for asked in found.asked(state))
        theirs = sorted((step.order, step.kind) for level in levels(Model(2, 1, 2)) for lock in level for step in Model(2, 1, 2).steps(lock))
        self.assertEqual(ours, theirs)

    def test_everything_that_can_happen_is_taken(self) -> None:
        """Each outcome, told once more from the histories of the schedules, whose program counters are those of the states on their way."""
        found = explore.explore(1, 1, 2)
        wanted = cover.happenings(found)
        states = {found.schedule(state).rows: state for state in range(found.states)}
        taken: set[str] = set()
        for one in cover.suite(found, wanted, 256):
            for piece in one.pieces:
                for number, row in enumerate(piece.rows):
                    state = states.get(piece.rows[:number])
                    if state is None:
                        # Behind a row that leads elsewhere than a state's own schedule.
                        break
                    taken |= {cover.outcome(asked.counter, asked.row, asked.entry, asked.before, asked.after).text for asked in found.asked(state) if asked.row == row}
        self.assertEqual(taken & {happening.text for happening in wanted}, {happening.text for happening in wanted})
        counters = {counter for state in range(found.states) for counter in found.program_counters(state)}
        self.assertEqual({happening.counter for happening in wanted}, counters)

    def test_outcomes_have_each_way(self) -> None:
        """A swap that is done and one that fails, a look that grants and one that denies, a hand-over to nobody, to readers and to a writer."""
        told = {happening.text for happening in cover.happenings(explore.explore(1, 1, 2))}
        for text in (
            "enter: swap done on the root (1, 0, open), then reading",
            "enter: swap failed on the root (1, 0, open), then calling",
            "look: word read on the root (0, 0, closed), then calling",
            "upgrade look: upgrade denied on the root (2 or more, 0, open), then reading",
            "upgrade look: word read on the root (1, 0, open), then calling",
            "unlock next: queue changed or found empty, queue (no readers, 0 writers) to (no readers, 0 writers), then calling",
            "unlock next: queue changed or found empty, queue (readers, 0 writers) to (no readers, 0 writers), then calling",
            "unlock next: queue changed or found empty, queue (no readers, 1 writers) to (no readers, 0 writers), then calling",
            "wake writer: sleepers woken, queue (no readers, 0 writers) to (no readers, 0 writers), then idle",
        ):
            self.assertIn(text, told)

    def test_pieces_end_as_they_began(self) -> None:
        """Behind each piece all threads are idle and the lock is free; all rows of a schedule are taken."""
        found = explore.explore(2, 1, 2)
        chosen = cover.suite(found, cover.happenings(found), 256)
        fresh = run(Schedule(2, 1, 2, ())).sheet.locks[0]
        for one in chosen:
            ran = run(one.schedule)
            self.assertEqual((ran.sheet.answer, one.schedule.rows), (0, tuple(row for piece in one.pieces for row in piece.rows)))
        for piece in chosen[0].pieces:
            lock = run(Schedule(2, 1, 2, piece.rows)).sheet.locks[0]
            self.assertEqual((lock.root, lock.nodes, lock.queue, [line.standing for line in lock.threads]), (fresh.root, fresh.nodes, fresh.queue, ["idle", "idle"]))
        self.assertLessEqual(max(len(one.schedule.rows) for one in chosen), 2 * 256)

    def test_swaps_of_words_that_changed_back(self) -> None:
        found = explore.explore(2, 1, 2)
        back = [piece for one in cover.suite(found, cover.happenings(found), 256) for piece in one.pieces if piece.new and piece.new[0].endswith("changed and changed back")]
        self.assertGreater(len(back), 5)
        for piece in back:
            history = History.of(Schedule(2, 1, 2, piece.rows), None, load())
            self.assertTrue(any(_changed_back(history, row) for row in range(len(piece.rows))), piece.new)

    def test_beyond_the_sizes(self) -> None:
        """65 writers wait, each alone, and are woken; hand-overs are made by the highest threads of 64, and each has its outcome there too."""
        found = explore.explore(1, 1, 3)
        wanted = cover.happenings(found)
        chosen = cover.beyond(found, wanted, 256)
        self.assertEqual({one.schedule.threads for one in chosen}, {3, 64})
        kinds = [entry.kind for entry in run(chosen[-1].schedule).journal]
        self.assertEqual(kinds.count(journal.WOKE), 65)
        high = [one for one in chosen if one.schedule.threads == 64]
        handed = {happening.text for happening in wanted if happening.kind in (journal.STORED, journal.WOKE)}
        self.assertEqual({text for one in high for piece in one.pieces for text in piece.new}, handed)
        stored: set[tuple[int, int]] = set()
        for one in high:
            ran = run(one.schedule)
            self.assertEqual((ran.sheet.answer, {row.thread for row in one.schedule.rows} - {61, 62, 63}), (0, set()))
            stored |= {(entry.kind, row.order) for entry, row in zip(ran.journal, one.schedule.rows, strict=True)}
        self.assertLessEqual({(journal.STORED, 0), (journal.WOKE, 0)}, stored)

    def test_transitions(self) -> None:
        """Every row at every state is in a schedule."""
        found = explore.explore(1, 1, 2)
        states = {found.schedule(state).rows: state for state in range(found.states)}
        due = {(state, asked.row) for state in range(found.states) for asked in found.asked(state)}
        taken: set[tuple[int, Row]] = set()
        for one in cover.transitions(found, 1000):
            for piece in one.pieces:
                known, state = True, 0
                rows: tuple[Row, ...] = ()
                for row in piece.rows:
                    if known:
                        taken.add((state, row))
                    held_up = next((asked.entry.kind == journal.HELD_UP for asked in found.asked(state) if asked.row == row), False) if known else False
                    rows = rows if held_up else (*rows, row)
                    known = known and rows in states
                    state = states.get(rows, 0)
        self.assertEqual(due - taken, set())


def _changed_back(history: History, row: int) -> bool:
    """Whether a row swaps a word that another thread changed, and changed back, since the row's thread read it."""
    entry = history.entry(row)
    if entry.kind != journal.SWAPPED:
        return False
    own = [number for number in range(row) if history.rows[number].thread == history.rows[row].thread]
    between = range(own[-1] + 1, row) if own else range(0)
    return any(history.entry(number) == entry for number in between)


@needs("explore_lock")
class Command(InFolder):
    def test_suite(self) -> None:
        folder = self.folder / "suite"
        said = bench_here("cover", "--nodes", 1, "--threads", 2, "-o", folder)
        self.assertEqual((said.status, said.err), (0, ""))
        schedules = sorted(folder.glob("*.schedule"))
        self.assertRegex(said.out, rf"^N 1, F 1, T 2: {len(schedules)} schedules, [\d,]+ rows in all, the longest has \d+\nprogram counters taken: all 38 that any of 613 states has, of 50 that there are\n")
        self.assertIn(f"not possible at these sizes: {', '.join(PROGRAM_COUNTERS[5:12])}", said.out)
        for path in schedules:
            text = path.with_name(f"{path.name}.txt").read_text()
            read = notation.parse_script(text).read()
            self.assertEqual((read.schedule.to_bytes(), read.unmet), (path.read_bytes(), ()))
            self.assertEqual(path.with_suffix(".record").read_bytes(), record.written(run(read.schedule), "bytes"))
            self.assertEqual(bench_here("hold", path, path.with_suffix(".record")).status, 0)

    def test_beyond(self) -> None:
        """What goes beyond the sizes is behind the suite, which stays as it is."""
        given = bench_here("cover", "--nodes", 1, "--threads", 2, "-o", self.folder / "suite").out.splitlines()
        folder = self.folder / "beyond"
        said = bench_here("cover", "--nodes", 1, "--threads", 2, "--beyond", "-o", folder)
        self.assertEqual((said.status, said.err, said.out.splitlines()[:-1]), (0, "", given))
        more = len(list(folder.glob("*.schedule"))) - len(list((self.folder / "suite").glob("*.schedule")))
        told = rf"beyond these sizes: {more} schedules more, [\d,]+ rows in all: {more - 1} by the highest threads of 64, and one in which 65 writers wait, one behind the other"
        self.assertRegex(said.out.splitlines()[-1], f"^{told}$")

    def test_usage(self) -> None:
        (self.folder / "full").mkdir()
        (self.folder / "full" / "file").touch()
        said = bench_here("cover", "--threads", 1, "-o", self.folder / "full")
        self.assertEqual((said.status, said.err), (2, f"{self.folder}/full: the folder is not empty\n"))
        said = bench_here("cover", "--threads", 1, "-o", self.folder / "no" / "such")
        self.assertEqual((said.status, said.err), (1, f"{self.folder}/no/such: No such file or directory\n"))
        said = bench_here("cover", "--threads", 3, "--memory", 1)
        self.assertEqual(said.status, 4)
        self.assertRegex(said.err, r"^bench: N 2, F 1, T 3 has more than 1\d,\d\d\d states, and the memory is 1 MB \(--memory\)\n$")
        self.assertEqual(bench("cover", "--nodes", 9).status, 2)

    @unittest.skipIf(shutil.which("patch") is None, "patch is not installed")
    def test_flaws_of_a_real_lock_are_found(self) -> None:
        """Of two threads: those that show in a step of one call, in the next, and in a word that changed back."""
        folder = self.folder / "suite"
        self.assertEqual(bench_here("cover", "--nodes", 2, "--threads", 2, "-o", folder).status, 0)
        for flaw, is_found in (("", False), ("01-node-raised-first", True), ("03-stamped-words", True), ("32-failed-swap-reads-again", True), ("46-downgrade-stale-ticket", True)):
            with self.subTest(flaw or "no flaw"):
                stepped = self.stepped(flaw)
                differ = 0
                for path in sorted(folder.glob("*.schedule")):
                    given = self.folder / "given.record"
                    subprocess.run([stepped, path, given], capture_output=True, check=False)
                    differ += given.read_bytes() != path.with_suffix(".record").read_bytes()
                self.assertEqual(differ > 0, is_found)

    @unittest.skipIf(shutil.which("patch") is None, "patch is not installed")
    def test_flaws_beyond_the_sizes_are_found(self) -> None:
        """Those that show where many have waited, and at high numbers."""
        folder = self.folder / "suite"
        self.assertEqual(bench_here("cover", "--nodes", 2, "--threads", 2, "--beyond", "-o", folder).status, 0)
        for flaw, is_found in (("", False), ("39-ring-wraps-early", True), ("42-group-size-of-32", True)):
            with self.subTest(flaw or "no flaw"):
                stepped = self.stepped(flaw)
                differ = 0
                for path in sorted(folder.glob("*.schedule")):
                    given = self.folder / "given.record"
                    subprocess.run([stepped, path, given], capture_output=True, check=False)
                    differ += given.read_bytes() != path.with_suffix(".record").read_bytes()
                self.assertEqual(differ > 0, is_found)

    def stepped(self, flaw: str) -> Path:
        """The lock of examples/server_lock by turns, with a flaw."""
        sources, program = self.folder / f"sources {flaw}", self.folder / f"stepped {flaw}"
        shutil.copytree(SERVER, sources)
        if flaw:
            subprocess.run(["patch", "--quiet", "--strip=1", f"--directory={sources}", f"--input={SERVER / 'flaws' / flaw}.patch"], check=True)
        flags = ["-std=c11", "-D_POSIX_C_SOURCE=200809L", "-pthread", "-O1", "-DSTEPPED", "-DPATIENCE_SECONDS=5", f"-I{ROOT / 'include'}"]
        subprocess.run(["cc", *flags, *(str(sources / name) for name in ("goll.c", "turns.c", "stepped.c")), "-o", str(program)], check=True)
        return program
