"""Records of a sweep: nothing is lost, and parts put together are the whole."""

from __future__ import annotations

import itertools
import random
from pathlib import Path

from lock_bench import BenchError
from lock_bench.findings import Pair
from lock_bench.inputs import OutputError, UsageError
from lock_bench.measure import Cost, Waits
from lock_bench.site import Site, shapes
from lock_bench.sweep_record import Part, Record, Recorder, merged, read, resumed
from lock_bench.sweep_work import Plan, Task

from .test_command import InFolder

PLAN = Plan((Site(4, 10, 0), Site(8, 2.5, 10, 40, "nodes", -3, 500)), tuple(shapes([1, 3], [1, 2])))


def any_pair(rng: random.Random) -> Pair:
    """Costs of any counts."""

    def cost() -> Cost:
        waits = [Waits(*(rng.randrange(5000) for _ in Waits._fields)) for _ in range(2)]
        calls, cut, rows, failed, root, held_up = (rng.randrange(5000) for _ in range(6))
        return Cost(calls, cut, rows, failed, root, held_up, *waits)

    return Pair(cost(), cost())


def record_of(tasks: list[Task], part: Part | None = None, plan: Plan = PLAN) -> Record:
    """A record of these runs; what a run costs depends on it alone."""
    return Record(plan, part, {task: any_pair(random.Random(str(task))) for task in tasks})


class Records(InFolder):
    def setUp(self) -> None:
        super().setUp()
        self.record_file = self.folder / "a.record"

    def written(self, record: Record, name: str = "a.record") -> Path:
        path = self.folder / name
        record.write(path)
        return path

    def test_written_and_read(self) -> None:
        for part in (None, Part(2, 3, 5)):
            self.record_file.unlink(missing_ok=True)
            record = record_of(list(PLAN.tasks(0, 5)), part)
            there, kept = read(self.written(record))
            self.assertEqual((there.plan, there.part, there.pairs), (record.plan, record.part, record.pairs))
            self.assertEqual(kept, self.record_file.stat().st_size)

    def test_whole_rounds(self) -> None:
        tasks = list(PLAN.tasks(0, 4))
        self.assertEqual(record_of(tasks).whole_rounds(), 4)
        self.assertEqual(record_of(tasks[:-1]).whole_rounds(), 3)
        self.assertEqual(record_of(tasks[1:]).whole_rounds(), 0)
        self.assertEqual(record_of([]).whole_rounds(), 0)

    def test_costs_of_a_site(self) -> None:
        record = record_of(list(PLAN.tasks(0, 2)))
        found = record.rounds(2, 1)
        self.assertEqual(found[1][2], record.pairs[Task(1, 1, 2)])
        self.assertEqual((len(found), len(found[0])), (2, len(PLAN.shapes)))

    def test_line_that_was_cut(self) -> None:
        """What a killed sweep left of a line is dropped, and the record goes on behind the line before it, wherever it was cut."""
        tasks = list(PLAN.tasks(0, 2))
        whole = self.written(record_of(tasks)).read_bytes()
        second_last = whole[:-1].rfind(b"\n") + 1
        for end in (second_last, second_last + 1, len(whole) - 1):
            self.record_file.write_bytes(whole[:end])
            there, kept = resumed(self.record_file, Record(PLAN))
            self.assertEqual(set(there.pairs), set(tasks[:-1]))
            with Recorder(self.record_file, there, kept) as recorder:
                recorder.add(tasks[-1], any_pair(random.Random(str(tasks[-1]))))
            self.assertEqual(self.record_file.read_bytes(), whole)

    def test_written_again(self) -> None:
        """A record that is there keeps its runs, and gets those that it lacks."""
        tasks = list(PLAN.tasks(0, 3))
        self.written(record_of(tasks[:9]))
        self.written(record_of(tasks[4:]))
        self.assertEqual(read(self.record_file)[0].pairs, record_of(tasks).pairs)

    def test_new_where_there_is_none(self) -> None:
        asked = Record(PLAN)
        self.assertEqual(resumed(self.record_file, asked), (asked, 0))

    def test_what_is_no_record(self) -> None:
        line = self.written(record_of(list(PLAN.tasks(0, 1)))).read_bytes().split(b"\n")
        head = line[0] + b"\n"
        form = "not a record of a sweep: its first line must have the form 'lock_bench sweep 1'"
        for data, why in (
            (b"", "{}: not a record of a sweep"),
            (b"nodes 3", "{}: not a record of a sweep"),
            (b"nodes 3\n", "{}:1: " + form),
            (b"\xff\xfe\n", "{}:1: " + form),
            (b"[]\n", "{}:1: " + form),
            (head.replace(b"sweep 1", b"sweep 9"), "{}:1: " + form),
            (head.replace(b'"threads"', b'"treads"'), "{}:1: " + form),
            (head.replace(b'"threads": 4', b'"threads": "x"'), "{}:1: " + form),
            (head.replace(b"[1, 1, 2]", b"[1]"), "{}:1: " + form),
            (head + b"x\n", "{}:2: not a run of this sweep"),
            (head + b"[1,2]\n", "{}:2: not a run of this sweep"),
            (head + line[1] + b"\n" + line[2].replace(b"[0,0,1", b"[0,9,1") + b"\n", "{}:3: not a run of this sweep"),
            (head + line[1].replace(b"[0,0,0", b"[0,0,-1") + b"\n", "{}:2: not a run of this sweep"),
            (head + line[1].replace(b"[0,0,0", b'[0,0,"0"') + b"\n", "{}:2: not a run of this sweep"),
        ):
            self.record_file.write_bytes(data)
            with self.assertRaises(BenchError) as raised:
                read(self.record_file)
            self.assertEqual(str(raised.exception), why.format(self.record_file), data[:80])

    def test_files_that_cannot_be(self) -> None:
        with self.assertRaisesRegex(UsageError, "^.*/no.record: No such file or directory$"):
            read(self.folder / "no.record")
        with self.assertRaisesRegex(OutputError, "^.*/no/a.record: No such file or directory$"):
            Recorder(self.folder / "no" / "a.record", Record(PLAN))
        with self.assertRaisesRegex(OutputError, "^.*: Is a directory$"):
            Recorder(self.folder, Record(PLAN))

    def test_another_sweep(self) -> None:
        self.written(record_of([]))
        seed = Plan((Site(4, 10, 0, seed=1), PLAN.sites[1]), PLAN.shapes)
        fewer = Plan(PLAN.sites, PLAN.shapes[:2])
        for plan, what in ((seed, "sites or seed"), (fewer, "shapes")):
            with self.assertRaisesRegex(BenchError, f"a.record: is a record of another sweep than the one asked for: its {what} differ$"):
                resumed(self.record_file, Record(plan))
        with self.assertRaisesRegex(BenchError, "a.record: is a record of a whole sweep, not of part 1 of 2 with 5 rounds$"):
            resumed(self.record_file, Record(PLAN, Part(1, 2, 5)))

    def test_name(self) -> None:
        self.assertRegex(Record(PLAN).name(), r"^sweep-[0-9a-f]{8}\.record$")
        self.assertEqual(Record(PLAN).name(), record_of(list(PLAN.tasks(0, 1))).name())
        self.assertNotEqual(Record(PLAN).name(), Record(Plan(PLAN.sites[:1], PLAN.shapes)).name())


class Parts(InFolder):
    def test_parts_are_all(self) -> None:
        for rounds, parts in ((1, 1), (5, 4), (2, 16), (3, 100)):
            tasks = [PLAN.part(rounds, part, parts) for part in range(1, parts + 1)]
            together = list(itertools.chain(*tasks))
            self.assertEqual(len(together), len(set(together)))
            self.assertEqual(sorted(together), list(PLAN.tasks(0, rounds)))
            self.assertLessEqual(max(map(len, tasks)) - min(map(len, tasks)), 1)

    def records(self, parts: int = 3, rounds: int = 4) -> list[Path]:
        paths: list[Path] = []
        for part in range(1, parts + 1):
            paths.append(self.folder / f"{part}.record")
            record_of(PLAN.part(rounds, part, parts), Part(part, parts, rounds)).write(paths[-1])
        return paths

    def test_put_together(self) -> None:
        whole = merged(reversed(self.records()))
        self.assertEqual(whole.pairs, record_of(list(PLAN.tasks(0, 4))).pairs)
        self.assertEqual((whole.whole_rounds(), whole.part), (4, None))

    def test_one_twice(self) -> None:
        paths = self.records()
        self.assertEqual(merged([*paths, paths[0]]).whole_rounds(), 4)

    def test_missing(self) -> None:
        paths = self.records(5)
        with self.assertRaisesRegex(BenchError, "^part 2 of 5 is missing$"):
            merged([paths[0], *paths[2:]])
        with self.assertRaisesRegex(BenchError, "^parts 1 to 3, 5 of 5 are missing$"):
            merged([paths[3]])
        paths[1].write_bytes(paths[1].read_bytes()[:-3])
        with self.assertRaisesRegex(BenchError, r"^part 2 of 5 is missing \(its record is not finished: --resume continues it\)$"):
            merged(paths)

    def test_not_of_one_sweep(self) -> None:
        paths = self.records()
        other = self.folder / "other.record"
        for record, why in (
            (record_of([], plan=Plan(PLAN.sites[:1], PLAN.shapes)), "is a record of another sweep than .*1.record: its sites or seed differ"),
            (record_of([], Part(1, 4, 4)), "is a record of part 1 of 4 with 4 rounds, and .*1.record of part 1 of 3 with 4 rounds"),
            (record_of([], Part(1, 3, 5)), "is a record of part 1 of 3 with 5 rounds, and .*1.record of part 1 of 3 with 4 rounds"),
            (record_of([]), "is a record of a whole sweep, and .*1.record of part 1 of 3 with 4 rounds"),
        ):
            other.unlink(missing_ok=True)
            record.write(other)
            with self.assertRaisesRegex(BenchError, f"^.*other.record: {why}$"):
                merged([*paths, other])

    def test_costs_that_contradict(self) -> None:
        """The same run cannot cost one thing here and another there."""
        paths = self.records()
        other = self.folder / "other.record"
        Record(PLAN, Part(1, 3, 4), {Task(0, 0, 0): any_pair(random.Random(1))}).write(other)
        with self.assertRaisesRegex(BenchError, "^.*other.record: round 0 differs from that in .*1.record: they were not made with the same library$"):
            merged([*paths, other])
