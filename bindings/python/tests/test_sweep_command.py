"""The command ``./bench sweep`` as people use it."""

from __future__ import annotations

import contextlib
import csv
import io
import json
import os
import pty
import re
import shutil
import signal
import subprocess
import unittest
from itertools import islice
from pathlib import Path
from xml.etree import ElementTree

from lock_bench import LibraryError, Schedule, cli, load
from lock_bench.draw import drawn_schedule
from lock_bench.findings import NAMES, Pair
from lock_bench.measure import cost_of
from lock_bench.site import Site, shapes
from lock_bench.sweep import DONE, Measuring, looks
from lock_bench.sweep_record import Record
from lock_bench.sweep_work import Plan, given_file, pair_of

from .support import BENCH, PATIENCE, ROOT, Said, bench, bench_here, bench_in_terminal, environment
from .test_command import InFolder

#: A sweep of seven shapes, which takes a fraction of a second.
SMALL = ("sweep", "--threads", 4, "--upgrades", 10, "--nodes", "1-4", "--fan", "1-3", "--steps", 150, "--rounds", 9)
#: One that is not settled for a long time.
LONG = ("sweep", "--threads", "8", "--nodes", "1,7-9", "--fan", "2", "--steps", "200", "--margin", "0", "--time", "1h")


class Figures(InFolder):
    def outputs(self, *arguments: object) -> tuple[Said, dict[str, bytes]]:
        """What a sweep says and writes."""
        files = {name: self.folder / name for name in ("csv", "json", "svg", "page")}
        said = bench_here(*arguments, *(word for name, file in files.items() for word in (f"--{name}", file)))
        return said, {name: file.read_bytes() for name, file in files.items()}

    def test_same_for_any_number_of_jobs(self) -> None:
        one = self.outputs(*SMALL, "--jobs", 1)
        self.assertEqual(one[0].status, 0)
        for jobs in (2, 3):
            self.assertEqual(self.outputs(*SMALL, "--jobs", jobs), one)
        self.assertEqual(self.outputs(*SMALL), one)

    def test_seed(self) -> None:
        zero, one = self.outputs(*SMALL), self.outputs(*SMALL, "--seed", 1)
        self.assertEqual(self.outputs(*SMALL, "--seed", 0), zero)
        self.assertEqual(self.outputs(*SMALL, "--seed", 1), one)
        self.assertNotEqual(zero[1]["csv"], one[1]["csv"])

    def test_outputs_agree(self) -> None:
        said, files = self.outputs(*SMALL)
        self.assertEqual((said.status, said.err), (0, ""))
        found = json.loads(files["json"])
        lines = list(csv.DictReader(io.StringIO(files["csv"].decode())))
        self.assertEqual([(int(line["nodes"]), int(line["fan"])) for line in lines], [(nodes, fan) for nodes in range(1, 5) for fan in range(1, 4)])
        (site,) = found["sites"]
        by_size = {(shape["nodes"], fan): shape for shape in site["shapes"] for fan in shape["fans"]}
        for line in lines:
            shape = by_size[int(line["nodes"]), int(line["fan"])]
            self.assertEqual([float(line[name]) for name in NAMES], [shape["figures"][name]["value"] for name in NAMES])
            self.assertEqual(line["verdict"], shape["verdict"])
        self.assertEqual(said.out.splitlines()[0], found["sentences"][0])
        table = [line for line in said.out.splitlines() if line.endswith(" %") and line[1:6].strip().isdigit()]
        self.assertEqual(len(table), len(site["shapes"]))
        for shown, shape in zip(table, site["shapes"]):
            self.assertEqual(float(shown[16:].split()[0]), round(shape["figures"]["failed"]["value"], 1))
        self.assertEqual(len(ElementTree.fromstring(files["svg"]).findall("{http://www.w3.org/2000/svg}g")), len(NAMES))
        self.assertIn(files["svg"], files["page"])

    def test_figures_come_from_the_schedules(self) -> None:
        """What a run costs is what its two schedules cost, made and measured one by one, and the figures are their sums."""
        site, trees, library = Site(4, 10, 10, steps=150), shapes(range(1, 5), range(1, 4)), load()
        found = json.loads(bench_here(*SMALL, "--json", "-").out)["sites"][0]["shapes"]
        for tree, shape in zip(trees, found):
            pairs: list[Pair] = []
            for number in range(9):
                wanted = site.wanted(tree, number)
                drawn = drawn_schedule(wanted, site.turns(number), library).first(150)
                given = Schedule.from_bytes(given_file(wanted.to_bytes(), library)).first(150)
                pairs.append(Pair(cost_of(drawn, library), cost_of(given, library)))
                self.assertEqual(pair_of(site, tree, number, library), pairs[-1])
            calls = sum(pair.random.calls for pair in pairs)
            self.assertEqual(shape["calls"], calls)
            self.assertEqual(shape["figures"]["failed"]["value"], round(100 * sum(pair.random.failed for pair in pairs) / calls, 4))
            self.assertEqual(shape["figures"]["done"]["value"], round(1000 * calls / (9 * 150), 4))
            lockstep = 100 * sum(pair.lockstep.failed for pair in pairs) / sum(pair.lockstep.calls for pair in pairs)
            self.assertEqual(shape["figures"]["lockstep"]["value"], round(lockstep, 4))

    def test_root_alone_is_always_measured(self) -> None:
        said = bench_here("sweep", "--threads", 3, "--nodes", 3, "--fan", 2, "--steps", 100, "--rounds", 8, "--csv", "-")
        self.assertEqual([line.split(",")[3] for line in said.out.splitlines()[1:]], ["1", "3"])

    def test_runs_that_are_cut_say_so(self) -> None:
        """At 64 threads every run is cut at 4,096 steps: it is measured all the same, and what was under way is told."""
        said = bench_here("sweep", "--threads", 64, "--writers", 20, "--nodes", 7, "--fan", 2, "--rounds", 8, "--brief")
        self.assertEqual((said.status, said.err), (0, ""))
        self.assertRegex(said.out, r"(?m)^A run is a window, cut at its last step, .*: 1,02[0-9] calls were under way at the ends, among them [0-9,]+ of [0-9,]+ locks")
        self.assertRegex(said.out, "one run of 4,096 steps")

    def test_calls_that_end(self) -> None:
        """With a number of calls a run may be over before it is cut, and nothing is under way."""
        said = bench_here("sweep", "--threads", 4, "--calls", 30, "--nodes", 3, "--fan", 2, "--rounds", 8, "--brief")
        self.assertIn("threads want 30 calls", said.out)
        self.assertNotIn("under way", said.out)

    def test_shapes_too_flat_and_too_deep(self) -> None:
        """What the examples of shapes show holds in the sweep too: a chain takes more steps than a tree between, a flat tree has more failed swaps."""
        site = Site(8, 0, 0, 48, "nodes")
        deep, between, flat = (pair_of(site, shape, 0, load()).lockstep for shape in shapes([9], [1, 3, 8]))
        self.assertLess(between.rows, deep.rows)
        self.assertLess(between.failed, flat.failed)

    def test_by_and_sort(self) -> None:
        by_root = json.loads(bench_here(*SMALL, "--by", "root", "--json", "-").out)
        self.assertEqual(by_root["by"], "root")
        least = min(by_root["sites"][0]["shapes"], key=lambda shape: float(shape["figures"]["root"]["value"]))
        self.assertEqual(least["verdict"], "best")
        table = bench_here(*SMALL, "--sort", "done").out.splitlines()
        figures = [float(line[16:].replace("±", " ").split()[2]) for line in table if line.endswith(" %") and line[1:6].strip().isdigit()]
        self.assertEqual(figures, sorted(figures, reverse=True))
        self.assertGreater(len(set(figures)), 3)

    def test_several_sites(self) -> None:
        """Lists make every combination, and --site adds one."""
        said = bench_here("sweep", "--threads", "2..6/2", "--writers", "5,20", "--site", "3,0,50", "--nodes", 3, "--fan", 2, "--steps", 100, "--rounds", 8, "--csv", "-")
        sites = list(dict.fromkeys(tuple(line.split(",")[:3]) for line in said.out.splitlines()[1:]))
        self.assertEqual(sites, [("2", "5", "0"), ("4", "5", "0"), ("6", "5", "0"), ("2", "20", "0"), ("4", "20", "0"), ("6", "20", "0"), ("3", "0", "50")])
        shown = bench_here("sweep", "--site", "2,10", "--site", "4,10", "--nodes", 3, "--fan", 2, "--steps", 100, "--rounds", 8).out.splitlines()
        self.assertRegex(shown[0], "^(One tree for both sites: |The data decide nothing at either site)")
        self.assertRegex(shown[1], "^2 threads, 10 % write: ")
        self.assertEqual(len([line for line in shown if line[:6].strip().isdigit()]), 2)

    def test_a_site_beside_others_has_the_figures_that_it_has_alone(self) -> None:
        both = bench_here("sweep", "--threads", "3,5", "--nodes", 3, "--fan", 2, "--steps", 100, "--rounds", 8, "--csv", "-").out.splitlines()
        alone = bench_here("sweep", "--threads", 5, "--nodes", 3, "--fan", 2, "--steps", 100, "--rounds", 8, "--csv", "-").out.splitlines()
        self.assertEqual(both[3:], alone[1:])


class Rounds(InFolder):
    def test_looks(self) -> None:
        self.assertEqual(list(islice(looks(), 8)), [12, 16, 24, 32, 48, 64, 96, 128])

    def test_until_settled(self) -> None:
        """It ends when it is settled, and says how many rounds that took; so many rounds give the same figures."""
        site = ("sweep", "--threads", 8, "--nodes", "1,9", "--fan", 8, "--steps", 400, "--margin", 60)
        said = bench_here(*site, "--csv", self.folder / "a.csv")
        rounds = re.search(r"(?m)^([0-9]+) rounds, after which it was settled \(--rounds \1 repeats them\); ", said.out)
        assert rounds is not None, said.out
        self.assertEqual(bench_here(*site, "--rounds", rounds[1], "--csv", "-").out, (self.folder / "a.csv").read_text())

    def test_until_the_time_is_used_up(self) -> None:
        said = bench_here(*LONG[:-1], "1.5s", "--csv", self.folder / "a.csv")
        self.assertEqual((said.status, said.err), (0, ""))
        rounds = re.search(r"(?m)^([0-9]+) rounds?, after which the time was used up \(--rounds \1 repeats them\); ", said.out)
        assert rounds is not None, said.out
        self.assertEqual(bench_here(*LONG, "--rounds", rounds[1], "--csv", "-").out, (self.folder / "a.csv").read_text())

    def test_too_little_time(self) -> None:
        said = bench_here("sweep", "--threads", 64, "--time", "0.01s")
        self.assertEqual(said, (2, "", "bench: the time was used up before the first round was whole: try more --time, fewer shapes or fewer sites\n"))

    def test_recorded_and_resumed(self) -> None:
        """A sweep that was cut short goes on with its record, and ends as one that was not; rounds may be more."""
        file, whole = self.folder / "a.record", bench_here(*SMALL, "--csv", "-").out
        few = (*SMALL[:-1], 4)
        self.assertEqual(bench_here(*few, "--record", file).status, 0)
        data = file.read_bytes()
        # Cut within a line, as a killed sweep leaves it.
        file.write_bytes(data[:-10])
        self.assertEqual(bench_here(*SMALL, "--record", file, "--resume", "--csv", "-").out, whole)
        self.assertEqual(file.read_bytes().count(b"\n"), 1 + 9 * 7)
        # All is there: nothing is made anew.
        before = file.read_bytes()
        self.assertEqual(bench_here(*SMALL, "--record", file, "--resume", "--csv", "-").out, whole)
        self.assertEqual(file.read_bytes(), before)
        self.assertEqual(bench_here("sweep", "--merge", file, "--csv", "-").out, whole)

    def test_record_is_not_overwritten(self) -> None:
        file = self.folder / "a.record"
        file.write_text("mine")
        self.assertEqual(bench_here(*SMALL, "--record", file), (2, "", f"{file}: this record exists already: use --resume to continue it\n"))
        self.assertEqual(bench_here(*SMALL, "--record", file, "--resume").status, 3)
        self.assertEqual(file.read_text(), "mine")

    def test_record_of_another_sweep(self) -> None:
        file = self.folder / "a.record"
        bench_here(*SMALL, "--record", file)
        said = bench_here(*SMALL, "--seed", 3, "--record", file, "--resume")
        self.assertEqual(said, (3, "", f"{file}: is a record of another sweep than the one asked for: its sites or seed differ\n"))


class Parts(InFolder):
    @unittest.skipUnless(shutil.which("parallel"), "parallel is not installed (bindings/python/check installs it)")
    def test_under_parallel(self) -> None:
        """Four parts under GNU parallel, put together, are byte for byte what one run gives."""
        whole = bench(*SMALL, "--jobs", 1, "--csv", self.folder / "one.csv", "--json", self.folder / "one.json", "--page", self.folder / "one.html")
        command = ["parallel", "-j", "2", str(BENCH), *map(str, SMALL), "--jobs", "1", "--part", "{}/4", "--record", f"{self.folder}/{{}}.record", ":::", *"1234"]
        done = subprocess.run(command, capture_output=True, text=True, env={**environment(), "HOME": str(self.folder)}, timeout=PATIENCE, check=False)
        self.assertEqual(done.returncode, 0, done.stderr)
        self.assertEqual(done.stdout.count(" recorded in "), 4)
        records = [self.folder / f"{part}.record" for part in (1, 2, 3, 4)]
        merged = bench("sweep", "--merge", *records, "--csv", self.folder / "four.csv", "--json", self.folder / "four.json", "--page", self.folder / "four.html")
        self.assertEqual(merged, whole)
        for ending in ("csv", "json", "html"):
            self.assertEqual((self.folder / f"four.{ending}").read_bytes(), (self.folder / f"one.{ending}").read_bytes())

    def test_part(self) -> None:
        file = self.folder / "2.record"
        said = bench_here(*SMALL, "--part", "2/3", "--record", file)
        self.assertEqual(said, (0, f"Part 2 of 3: 21 of 21 runs recorded in {file}; --merge combines the records of all 3.\n", ""))
        self.assertEqual(bench_here("sweep", "--merge", file), (3, "", "bench: parts 1, 3 of 3 are missing\n"))
        # A part goes on, too.
        data = file.read_bytes()
        file.write_bytes(data[: len(data) // 2])
        self.assertEqual(bench_here(*SMALL, "--part", "2/3", "--record", file, "--resume").status, 0)
        self.assertEqual(file.read_bytes(), data)
        short = bench_here(*SMALL, "--part", "1/3", "--record", self.folder / "1.record", "--time", "0.001s")
        self.assertRegex(short.out, r"^Part 1 of 3: [0-9]+ of 21 runs recorded in .*; --resume continues it\.\n$")

    def test_what_does_not_go_together(self) -> None:
        for arguments, why in (
            ((*SMALL, "--resume"), "--resume needs --record FILE, the record to continue"),
            ((*SMALL, "--record", "-"), "--record needs a file, not standard output"),
            ((*SMALL, "--part", "1/2"), "--part needs --rounds K, the same for all parts, and --record FILE"),
            (("sweep", "--threads", 4, "--part", "1/2", "--record", "a"), "--part needs --rounds K, the same for all parts, and --record FILE"),
            ((*SMALL, "--part", "1/2", "--record", "a", "--csv", "-"), "a part has no figures: use --csv with --merge"),
            (("sweep", "--merge", "a", "--threads", 4), "--merge and --threads exclude each other: the records say that already"),
            (("sweep", "--rounds", 4, "--merge", "a"), "--merge and --rounds exclude each other: the records say that already"),
            (("sweep", "--merge", "a", "--resume"), "--merge and --resume exclude each other: a merge makes no runs"),
        ):
            self.assertEqual(bench_here(*arguments), (2, "", f"bench: {why}\n"))
        self.assertEqual(bench_here("sweep", "--merge", "no.record"), (2, "", "no.record: No such file or directory\n"))

    def test_no_whole_round(self) -> None:
        file = self.folder / "a.record"
        Record(Plan((Site(4, 10, 0),), tuple(shapes([1], [1])))).write(file)
        self.assertEqual(bench_here("sweep", "--merge", file), (3, "", "bench: no whole round in these records\n"))


class Terminal(InFolder):
    def test_progress_bar_on_a_terminal_alone(self) -> None:
        plain = bench(*SMALL)
        self.assertEqual((plain.status, plain.err), (0, ""))
        self.assertNotIn("\r", plain.out)
        shown = bench_in_terminal(*SMALL)
        self.assertEqual(shown.status, 0)
        self.assertRegex(shown.out, r"^\r\x1b\[K\[\.+\]   0 %")
        self.assertTrue(shown.out.endswith("\r\x1b[K" + plain.out))
        self.assertEqual(bench_in_terminal(*SMALL, TERM="dumb").out, plain.out)

    def test_time_left(self) -> None:
        shown = bench_in_terminal("sweep", "--threads", 8, "--nodes", "7-8", "--fan", "2-3", "--steps", 1000, "--rounds", 60, "--jobs", 1, "--brief")
        bars = re.findall(r"\[(#*)\.*\] +([0-9]+) %, ([0-9]+):([0-9]{2}) left", shown.out)
        self.assertGreater(len(bars), 1)
        self.assertEqual([int(percent) for _, percent, _, _ in bars], sorted(int(percent) for _, percent, _, _ in bars))
        self.assertLess(len(bars[0][0]), len(bars[-1][0]))

    def stopped(self, *arguments: str) -> tuple[int, str, str]:
        """The status, output and messages of a sweep that gets Control-C in the midst of its work, some rounds being whole."""
        master, slave = pty.openpty()
        command = [str(BENCH), *LONG, *arguments]
        with subprocess.Popen(command, stdout=subprocess.PIPE, stderr=slave, env=environment(), cwd=self.folder, start_new_session=True) as process:
            os.close(slave)
            said = b""
            # The second look, after 16 rounds, is passed.
            while not any(int(rounds) > 16 for rounds in re.findall(rb"rounds to ([0-9]+)", said)):
                said += os.read(master, 65536)
            # A terminal sends it to all processes of the command.
            os.killpg(process.pid, signal.SIGINT)
            out, _ = process.communicate(timeout=PATIENCE)
        try:
            while part := os.read(master, 65536):
                said += part
        except OSError:
            # The other end is closed.
            pass
        os.close(master)
        return process.returncode, out.decode(), said.decode().split("\r\x1b[K")[-1].replace("\r\n", "\n")

    def test_stopped(self) -> None:
        """Control-C ends it with a status of its own; the rounds made are shown, and every run is kept, to go on with."""
        status, out, err = self.stopped()
        self.assertEqual(status, 130)
        rounds = re.search(r"(?m)^([0-9]+) rounds, after which it was stopped \(--rounds \1 repeats them\); ", out)
        assert rounds is not None, out
        kept = re.fullmatch(r"bench: stopped; its ([0-9,]+) runs are saved: --record (sweep-[0-9a-f]{8}\.record) --resume continues them\n", err)
        assert kept is not None, err
        self.assertGreaterEqual(int(kept[1].replace(",", "")), 2 * int(rounds[1]))
        record = self.folder / kept[2]
        again = bench_here(*LONG, "--record", record, "--resume", "--rounds", rounds[1], "--csv", "-")
        self.assertEqual(again.out, bench_here(*LONG, "--rounds", rounds[1], "--csv", "-").out)

    def test_stopped_with_a_record(self) -> None:
        """Every run is in the record, and no other file is made."""
        status, out, err = self.stopped("--record", "a.record")
        self.assertEqual((status, err), (130, ""))
        self.assertRegex(out, "after which it was stopped")
        self.assertEqual([file.name for file in self.folder.iterdir()], ["a.record"])
        self.assertGreaterEqual((self.folder / "a.record").read_bytes().count(b"\n"), 1 + 2 * 16)


class Statuses(InFolder):
    def test_wrong_arguments(self) -> None:
        for arguments, why in (
            (("--threads", "0"), "argument --threads: must be a whole number from 1 to 64, not '0'"),
            (("--threads", "65"), "argument --threads: must be a whole number from 1 to 64, not '65'"),
            (("--threads", "x"), "argument --threads: must be a whole number from 1 to 64, not 'x'"),
            (("--threads", "8..65"), "argument --threads: the last number in '8..65' must be a whole number from 1 to 64, not '65'"),
            (("--threads", "8..64/0"), "argument --threads: the step in '8..64/0' must be a whole number from 1 to 64, not '0'"),
            (("--threads", "4", "--nodes", "0-3"), "argument --nodes: the first number in '0-3' must be a whole number from 1 to 32, not '0'"),
            (("--threads", "4", "--nodes", "3-33"), "argument --nodes: the last number in '3-33' must be a whole number from 1 to 32, not '33'"),
            (("--threads", "4", "--nodes", "5-3"), "argument --nodes: the first number in '5-3' must not be above the last"),
            (("--threads", "4", "--nodes", "1,,3"), "argument --nodes: must be a whole number from 1 to 32, not ''"),
            (("--threads", "4", "--nodes", "1-2-3"), "argument --nodes: the last number in '1-2-3' must be a whole number from 1 to 32, not '2-3'"),
            (("--threads", "4", "--fan", "17"), "argument --fan: must be a whole number from 1 to 16, not '17'"),
            (("--threads", "4", "--writers", "5,101"), "argument --writers: must be 0 to 100 percent, not '101'"),
            (("--threads", "4", "--upgrades", "nan"), "argument --upgrades: must be 0 to 100 percent, not 'nan'"),
            (("--site", "4"), "argument --site: must be threads, writers and upgrades, such as 19,5 or 19,5,2, not '4'"),
            (("--site", "400,5"), "argument --site: must be a whole number from 1 to 64, not '400'"),
            (("--threads", "4", "--margin=-1"), "argument --margin: must be 0 to 100 percent, not '-1'"),
            (("--threads", "4", "--calls", "1"), "argument --calls: must be a whole number from 2 to 4096, not '1'"),
            (("--threads", "4", "--steps", "4097"), "argument --steps: must be a whole number from 1 to 4096, not '4097'"),
            (("--threads", "4", "--routes", "root"), "argument --routes: invalid choice: 'root' (choose from 'leaves', 'nodes')"),
            (("--threads", "4", "--rounds", "0"), "argument --rounds: must be a whole number from 1 to 10000, not '0'"),
            (("--threads", "4", "--time", "soon"), "argument --time: must be a time, such as 90s, 10m or 2h, not 'soon'"),
            (("--threads", "4", "--time", "0"), "argument --time: must be a time, such as 90s, 10m or 2h, not '0'"),
            (("--threads", "4", "--part", "5/4"), "argument --part: must be a part K/M, such as 3/16, with K from 1 to M, not '5/4'"),
            (("--threads", "4", "--part", "4"), "argument --part: must be a part K/M, such as 3/16, with K from 1 to M, not '4'"),
            (("--threads", "4", "--jobs", "0"), "argument --jobs: must be a whole number from 1 to 1024, not '0'"),
            (("--threads", "4", "--seed", "x"), "argument --seed: invalid int value: 'x'"),
            (("--threads", "4", "a.schedule"), "unrecognized arguments: a.schedule"),
        ):
            err = io.StringIO()
            with self.assertRaises(SystemExit) as raised, contextlib.redirect_stderr(err):
                cli.main(["sweep", *arguments])
            self.assertEqual(raised.exception.code, 2)
            self.assertRegex(err.getvalue(), "^usage: bench ")
            self.assertTrue(err.getvalue().endswith(f"error: {why}\n"), err.getvalue())
        said = bench("sweep", "--threads", "x")
        self.assertEqual((said.status, said.out), (2, ""))
        self.assertNotIn("Traceback", said.err)

    def test_arguments_that_do_not_go_together(self) -> None:
        for arguments, why in (
            ((), "no site given: use --threads T or --site T,W"),
            (("--threads", 4, "--writers", 60, "--upgrades", 50), "60 % that write and 50 % that upgrade are more than 100 %"),
            (("--threads", 4, "--calls", 6), "6 calls are too few for 4 threads: a critical section for each has 8"),
            (("--threads", 4, "--calls", 4096, "--upgrades", 90), "4098 calls do not fit a file of wanted calls (4096 at most)"),
        ):
            self.assertEqual(bench_here("sweep", *arguments), (2, "", f"bench: {why}\n"))

    def test_output_that_cannot_be_written(self) -> None:
        """It is told before the work where that can be known."""
        long = ("sweep", "--threads", 19, "--rounds", 10_000)
        missing = self.folder / "no" / "a.csv"
        self.assertEqual(bench_here(*long, "--csv", missing), (1, "", f"{missing}: No such file or directory\n"))
        self.assertEqual(bench_here(*long, "--svg", self.folder), (1, "", f"{self.folder}: Is a directory\n"))
        self.assertEqual(bench_here(*long, "--page", ""), (1, "", "'': Is a directory\n"))
        missing = self.folder / "no" / "a.record"
        self.assertEqual(bench_here(*long, "--record", missing), (1, "", f"{missing}: No such file or directory\n"))
        self.assertEqual(bench_here(*SMALL, "--json", "/dev/full"), (1, "", "/dev/full: No space left on device\n"))

    def test_two_outputs_at_one_place(self) -> None:
        self.assertEqual(bench_here(*SMALL, "--csv", "-", "--json", "-"), (2, "", "standard output: two outputs cannot both go there\n"))
        file = self.folder / "a"
        self.assertEqual(bench_here(*SMALL, "--csv", file, "--json", file), (2, "", f"{file}: two outputs cannot go to the same file\n"))
        self.assertFalse(file.exists())

    def test_standard_output_in_place_of_the_table(self) -> None:
        file = self.folder / "a.csv"
        self.assertEqual(bench_here(*SMALL, "--csv", file).status, 0)
        self.assertEqual(bench_here(*SMALL, "--csv", "-"), (0, file.read_text(), ""))

    def test_no_library(self) -> None:
        said = bench(*SMALL, LOCK_BENCH_LIBRARY="/no/such.so")
        self.assertEqual((said.status, said.out), (1, ""))
        self.assertRegex(said.err, "^/no/such.so: cannot load the library: .*\n$")

    def test_process_that_dies(self) -> None:
        """A process that is killed at its work ends the sweep with a message."""
        script = (
            "import os, sys; from lock_bench import cli, sweep_work\n"
            "sweep_work.pair_of = lambda *_: os._exit(9)\n"
            f"sys.exit(cli.main({[*map(str, SMALL), '--jobs', '2']!r}))"
        )
        path = {"PYTHONPATH": str(ROOT / "bindings" / "python")}
        done = subprocess.run(["python3", "-c", script], capture_output=True, text=True, env={**environment(), **path}, timeout=PATIENCE, check=False)
        self.assertEqual((done.returncode, done.stdout, done.stderr), (1, "", "bench: one of the processes that share the work ended early\n"))

    def test_error_in_a_process_comes_through(self) -> None:
        """Raised in another process, and told as if it were here."""

        class Gone:
            """Stands in for a library whose file is gone."""

            path = Path("no", "such.so")

        plan = Plan((Site(4, 10, 0),), tuple(shapes([1, 2], [1])))
        for jobs in (1, 2):
            with self.assertRaisesRegex(LibraryError, "no/such.so: cannot load the library: "):
                Measuring(Record(plan), Gone(), jobs).rounds(1)  # type: ignore[arg-type]
        self.assertEqual(Measuring(Record(plan), load(), 1).rounds(1), DONE)
