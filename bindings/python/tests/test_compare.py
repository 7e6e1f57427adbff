"""The row at which two schedules, or one on two shapes, part."""

from __future__ import annotations

import random
import subprocess
from dataclasses import replace

from lock_bench import Row, Schedule, compare, notation, run
from lock_bench.history import History

from .support import BENCH, EXAMPLES, bench, bench_here, drawn_schedule, environment, example_files, needs
from .test_command import InFolder

LATE = EXAMPLES / "late-reader.schedule"


class Compare(InFolder):
    def test_same(self) -> None:
        for path in example_files("schedule"):
            said = bench_here("compare", path, f"{path}.txt")
            taken = run(Schedule.from_bytes(path.read_bytes())).sheet.taken
            self.assertEqual((said.status, said.out), (0, f"the same: {taken} rows\n"), path.name)

    def test_first_row_that_parts(self) -> None:
        """Whichever row is another thread's or another order, that row is named, unless both are refused there alike."""
        rng = random.Random(95)
        for _ in range(5):
            schedule = drawn_schedule(rng, 40)
            whole = History.of(schedule)
            self.assertIsNone(compare.parting(whole, History.of(schedule)))
            for row in range(0, 40, 3):
                self.assertEqual(compare.parting(whole, whole.first(row)), row)
                changed = replace(schedule, rows=(*schedule.rows[:row], Row(schedule.rows[row].thread, 255), *schedule.rows[row + 1 :]))
                self.assertEqual(compare.parting(whole, History.of(changed)), row)

    def test_state_that_parts(self) -> None:
        """Rows and entries can be the same where the states are not: the routes of two readers differ before the journal does."""
        one, two = (notation.parse(f"nodes 3 fan 2 0: read {node}, go*2") for node in (1, 2))
        self.assertEqual(compare.parting(History.of(one), History.of(two)), 0)
        said = bench_here("compare", self.file("a.txt", "0: read 0, go*2"), self.file("b.txt", "0: write, go*2"))
        self.assertEqual((said.status, said.out.splitlines()[-1]), (4, "they differ at row 0"))

    def test_shapes(self) -> None:
        said = bench("compare", "--dispatch", EXAMPLES / "shape-too-flat.wants", "--fan", 3)
        self.assertEqual((said.status, said.err), (4, ""))
        self.assertEqual(said.out.splitlines()[:5], [
            "A: nodes 9, fan 8, threads 8, 428 rows",
            "B: nodes 9, fan 3, threads 8, 345 rows",
            "row 27 differs",
            "  A  3: go: read root (0, 0, open) (word read, on root)",
            "  B  3: go: read node 1 (0) (word read, on node 1)",
        ])  # fmt: skip
        self.assertEqual(said.out.splitlines()[-1], "they differ at row 27; 27 rows before it the same")
        other = bench_here("compare", "--dispatch", EXAMPLES / "shape-too-flat.wants", EXAMPLES / "shape-between.wants")
        self.assertEqual(other.out, said.out)
        # A fan-out that gives the same tree, and one more thread that does nothing.
        self.assertEqual(bench_here("compare", "--dispatch", EXAMPLES / "shape-too-flat.wants", "--fan", 9).status, 0)
        self.assertEqual(bench_here("compare", LATE, "--threads", 9).out, "the same: 16 rows\n")
        self.assertEqual(bench("compare", "-", "--fan", 9, given=LATE.read_bytes()), (0, "the same: 16 rows\n", ""))
        said = bench("compare", "--dispatch", "-", "--fan", 9, given=(EXAMPLES / "shape-too-flat.wants").read_bytes())
        self.assertEqual((said.status, said.err), (2, "bench: wanted calls are read once for each shape: give a file, not standard input\n"))

    def test_refused_on_another_shape(self) -> None:
        said = bench_here("compare", LATE, "--nodes", 1)
        self.assertEqual(said.status, 4)
        self.assertIn("  B  1: read 1: refused with 6: there is no such order (N is 1)\n", said.out)

    def test_one_is_the_beginning_of_the_other(self) -> None:
        schedule = Schedule.from_bytes(LATE.read_bytes())
        said = bench_here("compare", LATE, self.file("a", schedule.first(9).to_bytes()))
        self.assertEqual(said.status, 4)
        self.assertIn("  B  no more rows\n", said.out)
        self.assertIn("after it, A -> B: root: (1, 0, closed) -> (1, 0, open)\n", said.out)
        self.assertEqual(said.out.splitlines()[-1], "they differ at row 9; 9 rows before it the same")

    @needs("credit_sheet")
    def test_till(self) -> None:
        song = EXAMPLES / "one-song-charged-once"
        self.assertEqual(bench_here("compare", "--till", f"{song}.till", f"{song}.bookings", f"{song}.bookings.txt").status, 0)
        self.assertEqual(bench_here("compare", "--till", f"{song}.till", f"{song}.bookings", "--nodes", 2).status, 0)

    def test_usage(self) -> None:
        for arguments, status, why in (
            ((LATE,), 2, "bench: give either B or the sizes of another shape (see --help)\n"),
            ((LATE, LATE, "--fan", 2), 2, "bench: give either B or the sizes of another shape (see --help)\n"),
            (("-", "-"), 2, "bench: only one of the schedules can be standard input\n"),
            ((LATE, "no-such-file"), 2, "no-such-file: No such file or directory\n"),
            ((LATE, self.file("a.txt", "0: wirte")), 3, f"{self.folder}/a.txt:1:4: unknown order 'wirte'; did you mean 'write'?\n"),
        ):
            said = bench_here("compare", *arguments)
            self.assertEqual((said.status, said.out, said.err), (status, "", why), arguments)
        said = bench_here("compare", LATE, self.file("b", b"\0\1\1\0\0"))
        self.assertEqual((said.status, said.out), (3, ""))
        self.assertIn("nothing to compare: the file is refused with 2", said.err)

    def test_what_the_texts_expect(self) -> None:
        """What either text expects is asked."""
        met, unmet = self.file("a.txt", "0: read 0 expect thread 0 calling"), self.file("b.txt", "0: read 0 expect thread 0 idle")
        for files in ((met, unmet), (unmet, met)):
            said = bench_here("compare", *files)
            self.assertEqual((said.status, said.out), (4, "the same: 1 row\n"))
            self.assertEqual(said.err, f"{unmet}:1:11: expect failed: 'thread 0 idle', but after 1 row thread 0 is calling\n")

    def test_in_a_pipe(self) -> None:
        command = f"{BENCH} show {LATE} | {BENCH} compare --text - {LATE}.txt | tail -1"
        done = subprocess.run(["bash", "-o", "pipefail", "-c", command], capture_output=True, text=True, env=environment(), check=False)
        self.assertEqual((done.returncode, done.stdout, done.stderr), (0, "the same: 16 rows\n", ""))
