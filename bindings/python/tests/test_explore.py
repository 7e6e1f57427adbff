"""Explorations: every state of small locks, against a model written apart; what is shown of them; `find` decided by them."""

from __future__ import annotations

import csv
import os
import re
import signal
import subprocess
import time
import unittest
import xml.etree.ElementTree
from collections import Counter
from collections.abc import Callable
from unittest import mock

from lock_bench import BenchError, Sheet, explore, explored, notation, run
from lock_bench.explore import PROGRAM_COUNTERS, sheet_of
from lock_bench.native import Explored as Told
from lock_bench.stuck import is_stuck

from . import lock_model
from .lock_model import Lock, Model, Step, fewest_rows, levels, pair_levels
from .support import BENCH, CRATES, PATIENCE, bench, bench_here, bench_in_terminal, environment, needs, wait_until
from .test_command import InFolder
from .test_find import holds

# Sizes that the model explores in a second.
SIZES = ((1, 1, 1), (1, 1, 2), (2, 1, 2), (3, 1, 2), (3, 2, 2), (1, 1, 3))


def shown(lock: Lock) -> tuple[object, ...]:
    """What a sheet shows of a state of the model."""
    tickets = [thread[1] if thread[0] == "reading" else None for thread in lock.threads]
    return lock.root, lock.nodes, lock.mutex, lock.groups, len(lock.writers), *zip(lock.standings(), tickets)


def shown_by(sheet: Sheet) -> tuple[object, ...]:
    """The same of a sheet, failed swaps aside."""
    lock = sheet.locks[0]
    root = lock.root.direct, lock.root.tree, lock.root.closed
    return root, lock.nodes, lock.queue.mutex, lock.queue.groups, lock.queue.writers, *((line.standing, line.ticket) for line in lock.threads)


@needs("explore_lock")
class Explored(unittest.TestCase):
    def test_as_many_states_and_as_deep_as_in_the_model(self) -> None:
        for sizes in SIZES:
            with self.subTest(sizes):
                found = explore.explore(*sizes)
                model = list(levels(Model(*sizes)))
                self.assertEqual((found.complete, found.states, found.depth), (True, sum(map(len, model)), len(model) - 1))
                figures = explored.Figures.of(found)
                self.assertEqual(figures.depths, Counter({depth: len(level) for depth, level in enumerate(model)}))
                # What the states show, and how many show it.
                ours: Counter[tuple[object, ...]] = Counter()
                for lines, seen in figures.shown.items():
                    ours[shown_by(sheet_of(lines))] += seen.states
                self.assertEqual(ours, Counter(shown(lock) for level in model for lock in level))

    def test_schedules_lead_to_the_states(self) -> None:
        """All rows of each are taken, as many as the state is deep; the numbers rise with the depth."""
        found, depth = explore.explore(2, 1, 2), 0
        for state in range(0, found.states, 7):
            schedule = found.schedule(state)
            ran = run(schedule)
            self.assertEqual((ran.sheet.answer, ran.sheet.taken), (0, len(schedule.rows)))
            self.assertGreaterEqual(len(schedule.rows), depth)
            depth = len(schedule.rows)
            standings = [PROGRAM_COUNTERS[counter] for counter in found.program_counters(state)]
            for line, counter in zip(ran.sheet.locks[0].threads, standings):
                self.assertEqual(line.standing, counter if counter in ("idle", "writing", "reading", "asleep") else "calling")
        with self.assertRaisesRegex(BenchError, "there is no state 3573: there are 3573"):
            found.schedule(3573)

    def test_program_counters_are_those_of_the_sources(self) -> None:
        source = (CRATES / "cells" / "src" / "lib.rt").read_text().partition("impl Pc {")[2].partition("\n}")[0]
        named = {int(number): name.lower().replace("_", " ") for name, number in re.findall(r"pub const (\w+): u64 = (\d+);", source)}
        self.assertEqual(dict(enumerate(PROGRAM_COUNTERS)), named)

    def test_standings(self) -> None:
        sizes = (2, 1, 2)
        counted = explored.Figures.of(explore.explore(*sizes)).standings()
        standings = [set(lock.standings()) for level in levels(Model(*sizes)) for lock in level]
        self.assertEqual(counted["at rest"], sum("calling" not in one for one in standings))
        self.assertEqual(counted["all idle"], 1)
        for name, standing in (("read", "reading"), ("written", "writing"), ("asleep", "asleep")):
            self.assertEqual(counted[name], sum(standing in one for one in standings))

    def test_several_processes_see_the_same(self) -> None:
        found = explore.explore(1, 1, 2)
        with mock.patch.object(explore, "_ALONE", 0), mock.patch.object(explore, "_FIRST_PART", 50):
            shared = list(found.parts(2))
        self.assertGreater(len(shared), 3)
        self.assertEqual([part.end for part in shared[:-1]], [part.first for part in shared[1:]])
        whole = explored.Figures.of(found)
        self.assertEqual(sum((part.depths for part in shared), Counter()), whole.depths)
        self.assertEqual(sum((part.counters for part in shared), Counter()), whole.counters)

    def test_too_little(self) -> None:
        """Where the memory or the time is too little the states are some, each with its schedule; no room at all is refused."""
        some = explore.explore(2, 1, 3, memory=80 * 1000)
        self.assertFalse(some.complete)
        self.assertTrue(0 < some.states <= 1000)
        self.assertEqual(run(some.schedule(some.states - 1)).sheet.answer, 0)
        self.assertTrue(some.in_time)
        late = explore.explore(2, 1, 3, seconds=0.0)
        self.assertEqual((late.complete, late.in_time), (False, False))
        with self.assertRaisesRegex(BenchError, "79 bytes have no room for a state"):
            explore.explore(1, 1, 1, memory=79)

    def test_sizes(self) -> None:
        for sizes, said in (((0, 1, 1), "nodes must be 1 to 8 to be explored, not 0"), ((1, 17, 1), "fan must be 1 to 16"), ((1, 1, 9), "threads must be 1 to 8")):
            with self.assertRaisesRegex(BenchError, said):
                explore.explore(*sizes)

    def test_watched(self) -> None:
        """The store grows, and what the one before found is told."""
        told: list[tuple[int, int]] = []
        with mock.patch.object(explore, "_ROOM", 16), mock.patch.object(explore, "_LOOK", 0.001):
            found = explore.explore(1, 1, 3, watch=lambda was, seconds: told.append((was.states, was.depth)))
        self.assertEqual((found.states, told[0]), (16521, (0, 0)))
        self.assertGreater(len(set(told)), 2)
        self.assertEqual(told, sorted(told))
        self.assertEqual(explored.rate_text(Told(1, 5000, 12), 2.0), "exploring: 5,000 states, depth 12, 2,500 a second; 2 s")


@needs("explore_lock")
class Command(InFolder):
    def test_figures(self) -> None:
        said = bench("explore", "--nodes", 1, "--threads", 2)
        model = list(levels(Model(1, 1, 2)))
        states = sum(map(len, model))
        self.assertEqual((said.status, said.err), (0, ""))
        self.assertEqual(said.out.splitlines()[0], f"N 1, F 1, T 2: {states:,} states, all that there are; the deepest needs {len(model) - 1} rows")
        self.assertIn("\nno thread is ever at: climb, climb swap, ", said.out)
        self.assertRegex(said.out, r"\nstuck: no row would change anything +0\n")

    def test_csv(self) -> None:
        path = self.folder / "states.csv"
        said = bench_here("explore", "--nodes", 2, "--threads", 2, "--csv", path)
        self.assertEqual((said.status, said.err), (0, ""))
        table = list(csv.reader(path.read_text().splitlines()))
        self.assertEqual(table[0], ["of", "which", "states"])
        model = list(levels(Model(2, 1, 2)))
        self.assertEqual([int(states) for of, _, states in table[1:] if of == "rows"], [len(level) for level in model])
        self.assertEqual(bench_here("explore", "--nodes", 2, "--threads", 2, "--csv", "-").out, path.read_text())

    def test_picture(self) -> None:
        states = sum(map(len, levels(Model(1, 1, 2))))
        svg, dot = self.folder / "graph.svg", self.folder / "graph.dot"
        self.assertEqual(bench_here("explore", "--threads", 2, "--picture", svg).status, 0)
        drawn = xml.etree.ElementTree.fromstring(svg.read_text())
        space = "{http://www.w3.org/2000/svg}"
        self.assertEqual((len(drawn.findall(f"{space}circle")), len(drawn.findall(f"{space}line"))), (states, states - 1))
        self.assertEqual(bench_here("explore", "--threads", 2, "--picture", dot).status, 0)
        self.assertEqual((dot.read_text().count(" -> "), dot.read_text().count("fillcolor")), (states - 1, states))
        said = bench_here("explore", "--threads", 2, "--nodes", 2, "--picture", svg)
        self.assertEqual((said.status, said.err), (2, "bench: 3,573 states are too many for a picture, which has at most 1,000\n"))

    def test_state(self) -> None:
        said = bench_here("explore", "--threads", 1, "--state", 18)
        self.assertEqual((said.status, len(notation.parse(said.out).rows)), (0, 7))
        self.assertEqual(bench_here("explore", "--threads", 1, "--state", 19).err, "bench: there is no state 19: there are 19\n")

    def test_too_little_memory(self) -> None:
        said = bench_here("explore", "--threads", 3, "--memory", 1)
        self.assertEqual(said.status, 4)
        self.assertIn("not all that there are", said.out)
        self.assertRegex(said.err, r"^bench: not complete: more than 13,\d\d\d states, and the memory is 1 MB \(--memory\)\n$")
        self.assertEqual(bench("explore", "--threads", 9).status, 2)

    def test_in_a_terminal(self) -> None:
        said = bench_in_terminal("explore", "--nodes", "2", "--threads", "3", "--memory", "20")
        self.assertIn("\r\x1b[Kexploring", said.out)
        self.assertIn("\r\x1b[Klooking at states [", said.out)

    def test_interrupted(self) -> None:
        """Control-C in the midst of the search ends it at once, and no file is written."""
        path = self.folder / "states.csv"
        command = [str(BENCH), "explore", "--nodes", "4", "--fan", "2", "--threads", "3", "--csv", str(path)]
        with subprocess.Popen(command, stdout=subprocess.PIPE, stderr=subprocess.PIPE, env=environment(), start_new_session=True) as process:
            wait_until(lambda: any("memfd:lock_bench" in os.readlink(link) for link in _descriptors(process.pid)))
            time.sleep(0.2)
            os.killpg(process.pid, signal.SIGINT)
            out, err = process.communicate(timeout=PATIENCE)
        self.assertEqual((process.returncode, out, err), (130, b"", b""))
        self.assertFalse(path.exists())


def _descriptors(process: int) -> list[str]:
    folder = f"/proc/{process}/fd"
    try:
        return [f"{folder}/{name}" for name in os.listdir(folder) if os.path.islink(f"{folder}/{name}")]
    except FileNotFoundError:
        return []


class Asked:
    """What the model is asked: what a state is to be, and which events are to have been."""

    def __init__(self, state: Callable[[Lock], bool], *events: Callable[[Step], bool]) -> None:
        self.state, self.events = state, events

    def fewest(self, *sizes: int) -> int | None:
        """The fewest rows, of a lock of these sizes."""
        return fewest_rows(Model(*sizes), self.state, *self.events)


# Conditions, and what they are to the model.
DECIDED = {
    "thread 1 asleep and root open": Asked(lambda lock: lock.standing(1) == "asleep" and not lock.root[2]),
    "late arrival": Asked(lambda lock: True, lock_model.is_late),
    "late arrival by 0": Asked(lambda lock: True, lambda step: step.thread == 0 and lock_model.is_late(step)),
    "upgrade denied": Asked(lambda lock: True, lock_model.is_denied),
    "upgrade granted by 1": Asked(lambda lock: True, lambda step: step.thread == 1 and lock_model.is_granted(step)),
    "swap failed on root": Asked(lambda lock: True, lambda step: step.kind == lock_model.FAILED and step.word == 0),
    "swap failed on node 1 by 1": Asked(lambda lock: True, lambda step: step.kind == lock_model.FAILED and step.word == 1 and step.thread == 1),
    "woken": Asked(lambda lock: True, lambda step: step.kind == lock_model.WOKE),
    "held up by 1": Asked(lambda lock: True, lambda step: step.kind == lock_model.HELD_UP and step.thread == 1),
    "mutex by 1 and thread 0 writing": Asked(lambda lock: lock.mutex == 1 and lock.standing(0) == "writing"),
    "node 1 = 2 and root closed": Asked(lambda lock: lock.nodes[0] == 2 and lock.root[2]),
    "root tree = 2 or root direct = 2 and thread 0 calling": Asked(lambda lock: lock.root[1] == 2 or lock.root[0] == 2 and lock.standing(0) == "calling"),
    "threads reading = 2 and mutex taken": Asked(lambda lock: lock.standings().count("reading") == 2 and lock.mutex is not None),
    "queue groups = 1 and queue writers = 0 and root closed": Asked(lambda lock: lock.groups == 1 and not lock.writers and lock.root[2]),
    # What none of all states shows.
    "thread 0 writing and mutex by 0": Asked(lambda lock: lock.standing(0) == "writing" and lock.mutex == 0),
    "thread 0 reading and mutex by 0": Asked(lambda lock: lock.standing(0) == "reading" and lock.mutex == 0),
    "root direct = 2 and queue groups = 1": Asked(lambda lock: lock.root[0] == 2 and lock.groups == 1),
    "queue writers = 2": Asked(lambda lock: len(lock.writers) == 2),
    "queue groups = 2": Asked(lambda lock: lock.groups == 2),
    "root direct = 3": Asked(lambda lock: lock.root[0] == 3),
    "root tree = 3": Asked(lambda lock: lock.root[1] == 3),
    "node 1 = 3": Asked(lambda lock: lock.nodes[0] == 3),
    "thread 0 asleep and thread 1 idle": Asked(lambda lock: lock.standings() == ["asleep", "idle"]),
    "thread 0 asleep and mutex by 0": Asked(lambda lock: lock.standing(0) == "asleep" and lock.mutex == 0),
    "thread 0 idle and mutex by 0": Asked(lambda lock: lock.standing(0) == "idle" and lock.mutex == 0),
    "queue writers = 1 and root open": Asked(lambda lock: len(lock.writers) == 1 and not lock.root[2]),
    "any thread asleep and queue groups = 0 and all threads asleep": Asked(lambda lock: lock.standings() == ["asleep", "asleep"]),
    "root direct = 2 and root tree = 1": Asked(lambda lock: lock.root[:2] == (2, 1)),
    "thread 0 reading by 1 and node 1 = 0": Asked(lambda lock: lock.threads[0] == ("reading", 1) and lock.nodes[0] == 0),
    "root closed and root = 0 and all threads idle": Asked(lambda lock: lock.root == (0, 0, True) and lock.standings() == ["idle", "idle"]),
    "queue groups = 1 and no thread asleep and no thread calling": Asked(lambda lock: lock.groups == 1 and set(lock.standings()) <= {"idle", "reading", "writing"}),
    "root tree = 1 and node 1 = 0 and no thread calling": Asked(lambda lock: lock.root[1] == 1 and lock.nodes[0] == 0 and "calling" not in lock.standings()),
}  # fmt: skip
# Others, of three threads.
OF_THREE = {
    "queue writers >= 2": Asked(lambda lock: len(lock.writers) == 2),
    "queue groups = 2 and root open": Asked(lambda lock: lock.groups == 2 and not lock.root[2]),
    "thread 2 asleep and root open": Asked(lambda lock: lock.standing(2) == "asleep" and not lock.root[2]),
    "threads asleep = 2 and mutex by 0": Asked(lambda lock: lock.standings().count("asleep") == 2 and lock.mutex == 0),
    "queue writers = 3": Asked(lambda lock: len(lock.writers) == 3),
    "threads asleep = 2 and thread 0 idle": Asked(lambda lock: lock.standings().count("asleep") == 2 and lock.standing(0) == "idle"),
    "queue writers = 2 and root direct = 2": Asked(lambda lock: len(lock.writers) == 2 and lock.root[0] == 2),
    "root direct = 3 and mutex taken and any thread reading": Asked(lambda lock: lock.root[0] == 3 and lock.mutex is not None and "reading" in lock.standings()),
    "queue groups = 2 and queue writers = 0": Asked(lambda lock: lock.groups == 2 and not lock.writers),
    "thread 0 writing and thread 1 asleep and thread 2 idle": Asked(lambda lock: lock.standings() == ["writing", "asleep", "idle"]),
}  # fmt: skip


@needs("explore_lock")
class Decided(InFolder):
    def test_shortest_or_impossible(self) -> None:
        """What is decided is what the model says: as few rows, or none of any number."""
        impossible = 0
        for text, asked in DECIDED.items():
            with self.subTest(text):
                fewest = asked.fewest(2, 1, 2)
                said = bench_here("find", text, "--threads", 2, "--nodes", 2)
                if fewest is None:
                    impossible += said.err.startswith("bench: impossible on N 2, F 1, T 2: no")
                    self.assertEqual((said.status, said.out), (4, ""))
                    # Some are excluded by a theorem, whose place is named.
                    self.assertRegex(said.err, r"^bench: impossible on N 2, F 1, T 2: (none|no row) of all 3,573 states|, specs/")
                else:
                    self.assertEqual((said.status, said.err), (0, ""))
                    found = notation.parse(said.out)
                    self.assertEqual((len(found.rows), holds(text, found)), (fewest, True))
                    self.assertEqual(said.out.splitlines()[1], f"# {fewest} row{'s' if fewest > 1 else ''}, the shortest of all on N 2, F 1, T 2, which has 3,573 states")
        self.assertGreaterEqual(impossible, 15)

    def test_three_threads(self) -> None:
        for text, asked in OF_THREE.items():
            with self.subTest(text):
                fewest = asked.fewest(1, 1, 3)
                said = bench_here("find", text, "--threads", 3, "--nodes", 1)
                if fewest is None:
                    self.assertEqual((said.status, said.out, said.err), (4, "", f"bench: impossible on N 1, F 1, T 3: none of all 16,521 states ('{text}')\n"))
                else:
                    self.assertEqual((said.status, len(notation.parse(said.out).rows)), (0, fewest))

    def test_events_joined_with_states(self) -> None:
        """An exploration does not tell what was before a state; the search at random finds as few rows as the model."""
        for text, asked in (
            ("upgrade denied and queue writers >= 2", Asked(lambda lock: len(lock.writers) >= 2, lock_model.is_denied)),
            ("woken and queue writers = 2", Asked(lambda lock: len(lock.writers) == 2, lambda step: step.kind == lock_model.WOKE)),
        ):
            said = bench_here("find", text, "--threads", 3, "--nodes", 1, "--tries", 1024)
            self.assertEqual((said.status, said.err, len(notation.parse(said.out).rows)), (0, "", asked.fewest(1, 1, 3)))
            self.assertIn(", the shortest found in 1,024 tries; there may be a shorter one\n", said.out)

    def test_parts_are_decided(self) -> None:
        """Each by itself, which says how many rows there are at least; the search at random finds as few as the model, or more."""
        writers = Asked(lambda lock: len(lock.writers) == 2)
        for text, asked, event in (
            ("upgrade denied and queue writers >= 2", Asked(lambda lock: len(lock.writers) >= 2, lock_model.is_denied), lock_model.is_denied),
            ("woken and queue writers = 2", Asked(lambda lock: len(lock.writers) == 2, lambda step: step.kind == lock_model.WOKE), lambda step: step.kind == lock_model.WOKE),
        ):
            said = bench_here("find", text, "--threads", 3, "--nodes", 1, "--tries", 1024)
            self.assertEqual((said.status, said.err, len(notation.parse(said.out).rows)), (0, "", asked.fewest(1, 1, 3)))
            alone = [one.fewest(1, 1, 3) or 0 for one in (writers, Asked(lambda lock: True, event))]
            self.assertIn(f", the shortest found in 1,024 tries; there may be a shorter one\n# none has fewer than {max(alone)}\n", said.out)
            said = bench_here("find", text, "--threads", 3, "--nodes", 1, "--rows", max(alone) - 1)
            self.assertEqual((said.status, said.out), (4, ""))
            self.assertEqual(said.err, f"bench: impossible within {max(alone) - 1} rows: no schedule has fewer than {max(alone)} rows ('{text}')\n")
        # As few as the part alone that needs most: the event is on the way to the state.
        said = bench_here("find", "swap done and thread 0 writing", "--threads", 2, "--nodes", 1, "--tries", 128)
        self.assertIn("# 3 rows, the shortest found in 128 tries; none has fewer\n", said.out)

    def test_a_part_is_impossible(self) -> None:
        """Then the whole is, whatever is joined to it."""
        for text, part in (
            ("woken and queue writers = 3", "'queue writers = 3' in none"),
            ("failures >= 2 and queue writers = 3", "'queue writers = 3' in none"),
            ("late arrival and queue writers = 2", "'late arrival' in no row"),
            ("woken and (queue writers = 3 or queue groups = 2 and root open)", None),
        ):
            said = bench_here("find", text, "--threads", 3, "--nodes", 1, "--tries", 128)
            told = "'queue writers = 3' in none of all 16,521 states; and 'queue groups = 2 and root open' in none" if part is None else part
            self.assertEqual((said.status, said.out, said.err), (4, "", f"bench: impossible on N 1, F 1, T 3: {told} of all 16,521 states ('{text}')\n"))

    def test_with_fewer_rows_than_it_needs(self) -> None:
        said = bench_here("find", "late arrival", "--threads", 2, "--rows", 10)
        self.assertEqual((said.status, said.out), (4, ""))
        self.assertEqual(said.err, "bench: impossible within 10 rows: the shortest schedule has 11 ('late arrival')\n")

    def test_what_is_not_decided(self) -> None:
        """Sums over journals, the second lock, wanted calls and tills are searched for at random, and so is a lock that is too large."""
        for arguments in (("failures >= 2",), ("thread 0 writing second",), ("swap done >= 2",), ("thread 0 writing", "--random")):
            said = bench_here("find", *arguments, "--threads", 2, "--tries", 128, "--jobs", 1)
            self.assertEqual((said.status, said.err), (0, ""))
            self.assertIn(", the shortest found in ", said.out)
        large = bench_here("find", "thread 2 writing", "--nodes", 3, "--threads", 4, "--memory", 1, "--tries", 128, "--jobs", 1)
        self.assertEqual(large.status, 0)
        self.assertRegex(
            large.err, r"^bench: not decided: N 3, F 1, T 4 has more than 1\d,\d\d\d states, and they do not fit the memory \(--memory\); searching at random\n$"
        )
        self.assertIn(", the shortest found in ", large.out)

    def test_not_in_time(self) -> None:
        """Where the time is over it is said how far it came, and it goes on at random."""
        with mock.patch.object(explore, "_FIRST_PART", 50), mock.patch("lock_bench.decide.time") as clock:
            clock.monotonic.side_effect = (0.0, 100.0)
            said = bench_here("find", "queue writers = 2", "--threads", 2, "--time", 1, "--jobs", 1)
        self.assertEqual((said.status, said.out), (4, ""))
        self.assertRegex(said.err, r"^bench: not decided: 1 s \(--time\) were enough for 50 of 3,573 states, those of up to \d rows; searching at random\n")


@needs("explore_locks")
class TwoLocks(unittest.TestCase):
    def test_as_many_states_as_in_the_model_and_as_many_are_stuck(self) -> None:
        for sizes in ((1, 1, 1), (2, 1, 1), (1, 1, 2)):
            for ordered in (False, True):
                with self.subTest(sizes, ordered=ordered):
                    found = explore.explore_locks(*sizes, ordered).found
                    model = Model(*sizes)
                    all_levels = list(pair_levels(model, ordered))
                    stuck = [sum(pair.is_stuck(model) for pair in level) for level in all_levels]
                    self.assertEqual((found.answer, found.states, found.depth, found.stuck), (0, sum(map(len, all_levels)), len(all_levels) - 1, sum(stuck)))

    def test_the_shortest_schedule_to_a_stuck_state(self) -> None:
        """Its rows are taken, as many as the model needs, and no row changes what they lead to; in lock order there is none."""
        model = Model(1, 1, 2)
        fewest = next(rows for rows, level in enumerate(pair_levels(model, False)) if any(pair.is_stuck(model) for pair in level))
        for sizes in ((1, 1, 2), (2, 1, 2)):
            crossed = explore.explore_locks(*sizes).crossed
            assert crossed is not None
            ran = run(crossed)
            self.assertEqual((ran.sheet.answer, ran.sheet.taken, len(crossed.rows)), (0, fewest, fewest))
            self.assertTrue(is_stuck(crossed))
            self.assertIsNone(explore.explore_locks(*sizes, True).crossed)

    def test_command(self) -> None:
        free = bench("explore", "--nodes", "1", "--threads", "2", "--locks", "2").out
        self.assertIn("two locks, N 1, F 1, T 2, with all rows: 14,840 states, all that there are; the deepest needs 25 rows", free)
        self.assertIn("18 rows, no schedule that leads to a stuck state has fewer", free)
        ordered = bench("explore", "--nodes", "1", "--threads", "2", "--locks", "2", "--lock-order").out
        self.assertIn("with rows in lock order: 10,020 states, all that there are", ordered)
        self.assertIn("no schedule leads to a stuck state", ordered)

    def test_too_little_memory(self) -> None:
        found = explore.explore_locks(1, 1, 2, memory=100 * explore.LOCKS_BYTES).found
        self.assertEqual((found.answer, found.states), (1, 100))
