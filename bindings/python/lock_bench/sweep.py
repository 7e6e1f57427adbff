"""The command ``sweep``: which tree for this site?

Every shape gets the same wanted calls, by the dispatcher and at random turns, in as many rounds as it takes to tell the shapes apart, and is measured on the
schedules that come of them (``site``, ``draw``, ``measure``, ``sweep_work``); ``findings`` and ``sweep_report`` say what comes of it.
"""

from __future__ import annotations

import re
import sys
import time
from argparse import ArgumentParser, ArgumentTypeError, Namespace, _SubParsersAction
from collections.abc import Callable, Iterator, Sequence
from contextlib import ExitStack
from dataclasses import dataclass
from pathlib import Path
from typing import Final

from . import heatmap, inputs, sweep_record
from .errors import BenchError
from .findings import COLUMNS, NAMES, Findings, counted
from .inputs import OutputError, UsageError, whole
from .native import Library, load
from .progress import Progress
from .site import MOST_FAN, MOST_NODES, MOST_ROWS, MOST_THREADS, ROUTES, Site, shapes
from .sweep_record import Part, Record, Recorder
from .sweep_report import Report
from .sweep_statistics import DRAWS, FIGURE_LEVEL, LEAST_ROUNDS, LEVEL
from .sweep_work import Plan, Task, Workers

_MOST_ROUNDS: Final = 10_000
_WRITERS: Final = 10.0
_MARGIN: Final = 10.0
# Seconds after which a sweep without a number of rounds ends.
_TIME: Final = 120.0
# The rounds after which it is first seen whether it is settled.
_FIRST_LOOK: Final = 12
#: The exit status of a sweep that was stopped.
_STOPPED: Final = 130

DESCRIPTION: Final = """\
Which tree for this site? Measures trees of many shapes, N nodes with fan-out F, on the same wanted calls, and says which
to take, how sure that is, and which are as good.

The site has T threads. Each goes through critical sections, one after the other: it reads (a read-lock, an unlock), writes
(a write-lock, an unlock), or reads and then wants to write (a read-lock, an upgrade, granted or denied, an unlock). Locks,
upgrades and unlocks are the calls. Each thread reads by a leaf of its own; if there are fewer leaves than threads, some share.
With N = 1 there is the root alone, by which all read; it is always measured beside the trees.

In each round the wanted calls are drawn anew, the same for every shape, and each shape has two runs: one with random turns, in
which each thread that is awake has the same chance of the next step, and one by the dispatcher, which goes round the threads in
lockstep, so that many swaps collide. The proved library makes both, and every figure is read from its journals and sheets.
"""

EPILOG: Final = f"""\
columns (--by names the one that decides):
{chr(10).join(f"  {column.name:<12} {column.meaning}" for column in COLUMNS)}

A run is a window of --steps steps, {MOST_ROWS:,} at most. A call that is under way at its end does not count as finished, but its
steps count. A lock that is still waited for then does not count as got, but the steps waited count: the wait for a lock is all
steps waited, divided by all locks got. The table's last column says how many of the locks begun were still waited for.

how sure it is: a figure is a ratio of sums over all rounds. Rounds are drawn again with repetition, {DRAWS:,} times, the same for
all shapes (a paired bootstrap). A figure's interval, half of which is shown after it, has the middle {100 * FIGURE_LEVEL:.0f} % of the draws. A shape is
worse than the best if the interval of its difference to the best is above 0; these intervals hold for all shapes at once in {100 * LEVEL:.0f}
of 100 sweeps. Shapes that are not worse, or worse by certainly less than the margin, are as good, and the output says so. A sweep
is settled when each shape is worse or within the margin. With fewer than {LEAST_ROUNDS} rounds no shapes are told apart. Another seed may name
another shape as the one to take, but almost always one of those that are as good.

rounds: --rounds K makes K of them. Without it, rounds are made until the sweep is settled or --time is used up, and the output
says how many there were: --rounds with that number gives the same figures again, on any machine, with any number of processes.
A run takes 8 (64 threads) to 28 (4 threads) milliseconds of processor time, so a round of all 377 shapes takes 3 to 11 seconds,
which the processes share. Whether a sweep is settled is first looked at after twelve rounds.

several sites: --threads, --writers and --upgrades take lists, and every combination is a site; --site adds one. Their figures
are shown side by side, with the one tree that is nowhere far from the best.

parts: --part K/M with --rounds makes every M-th run, from the K-th on, and records it; --merge combines the records. With
--record FILE every run is saved as soon as it is made, and --resume continues such a file. If a sweep without a record is
stopped with Control-C, its runs are saved in a file that it names, and the rounds made are shown.

example:
  ./bench sweep --threads 8 --nodes 1-9 --fan 1-4 --time 10s
  ./bench sweep --threads 19 --writers 5 --upgrades 5 --nodes 1,3,7,15,31 --fan 2,4,8 --time 10s \\
    --page site.html --csv site.csv
  ./bench sweep --threads 8..64/8 --writers 1,20 --nodes 7,15,31 --fan 4 --steps 1000 --rounds 8
  ./bench sweep --site 19,5 --site 64,20,5 --nodes 5-12 --fan 2-4 --by root --time 10s
  parallel ./bench sweep --threads 19 --rounds 32 --jobs 1 --part {{}}/4 --record part-{{}}.record \\
    ::: 1 2 3 4 && ./bench sweep --merge part-*.record --page site.html
"""


def register(subparsers: _SubParsersAction[ArgumentParser]) -> None:
    """Adds the command ``sweep``."""
    sweep = subparsers.add_parser(
        "sweep",
        help="measure trees of many shapes for a site, and say which to take",
        description=DESCRIPTION,
        epilog=EPILOG,
    )
    site = sweep.add_argument_group("the sites")
    site.add_argument("--threads", metavar="T", type=_numbers(1, MOST_THREADS), help="the threads, 1 to 64: a number, or several, such as 8..64, 8..64/8 or 4,19")
    site.add_argument("--writers", metavar="PERCENT", type=_percents, help=f"the share of critical sections that write; several make several sites ({_WRITERS:g})")
    site.add_argument("--upgrades", metavar="PERCENT", type=_percents, help="the share of critical sections that read and then want to write; likewise (0)")
    site.add_argument("--site", metavar="T,W[,U]", type=_site, action="append", help="another site: its threads, and its writers and upgrades in percent")
    wanted = "the calls that all threads want together (no limit)"
    site.add_argument("--calls", metavar="C", type=whole(2, MOST_ROWS), help=wanted)
    steps = f"the most steps of a run ({MOST_ROWS})"
    site.add_argument("--steps", metavar="S", type=whole(1, MOST_ROWS), help=steps)
    site.add_argument("--routes", choices=ROUTES, help="the nodes that readers lock by: a leaf for each thread (leaves), or any node")
    swept = sweep.add_argument_group("the shapes")
    swept.add_argument("--nodes", metavar="N", type=_numbers(1, MOST_NODES), help=f"numbers of nodes, such as 7, 1-15 or 1,3,7-9 (1-{MOST_NODES})")
    swept.add_argument("--fan", metavar="F", type=_numbers(1, MOST_FAN), help=f"fan-outs, likewise (1-{MOST_FAN})")
    made = sweep.add_argument_group("the rounds")
    made.add_argument("--rounds", metavar="K", type=whole(1, _MOST_ROUNDS), help="make K rounds (until the sweep is settled)")
    made.add_argument("--time", metavar="TIME", type=_seconds, help="start no new runs after this time, such as 90s, 10m or 2h (2m without --rounds)")
    made.add_argument("--seed", metavar="S", type=int, help="the seed: the same one gives the same figures (0)")
    inputs.add_jobs(made)
    made.add_argument("--record", metavar="FILE", help="save what every run costs in this file, as soon as it is known")
    made.add_argument("--resume", action="store_true", help="continue the record, if there is one")
    made.add_argument("--part", metavar="K/M", type=_part, help="make the K-th of M parts of the runs; needs --rounds and --record")
    made.add_argument("--merge", metavar="FILE", nargs="+", help="make no runs, but use those of these records")
    shown = sweep.add_argument_group("what is shown", "Sentences and a table, and the files asked for; a FILE of - is standard output, in place of the sentences and the table.")
    shown.add_argument("--by", choices=NAMES, metavar="NAME", default=NAMES[0], help=f"the column that decides: {', '.join(NAMES)} ({NAMES[0]})")
    shown.add_argument("--margin", metavar="PERCENT", type=_percent, default=_MARGIN, help=f"a difference to the best within this does not count ({_MARGIN:g})")
    shown.add_argument("--sort", choices=NAMES, metavar="NAME", help="sort the table by this column, best first, and not by N and F")
    shown.add_argument("--brief", action="store_true", help="show the sentences and the best shapes without the whole table")
    shown.add_argument("--csv", metavar="FILE", help="write the figures with their spread, a line for each site, N and F")
    shown.add_argument("--json", metavar="FILE", help="write the same as JSON, with all sentences")
    shown.add_argument("--svg", metavar="FILE", help="write a picture: a heat map for each column, or for each site")
    shown.add_argument("--page", metavar="FILE", help="write a self-contained page with the heat maps and a table to sort")
    sweep.set_defaults(run=_sweep)


def _sweep(arguments: Namespace) -> int:
    outputs = {name: getattr(arguments, name) for name in ("csv", "json", "svg", "page") if getattr(arguments, name) is not None}
    _check_outputs(list(outputs.values()))
    if arguments.merge is not None:
        return _merge(arguments, outputs)
    _check_part(arguments, outputs)
    record = Record(_plan(arguments), None if arguments.part is None else Part(arguments.part[0], arguments.part[1], arguments.rounds))
    library = load()
    with ExitStack() as stack:
        recorder: Recorder | None = None
        if arguments.record is not None:
            record, recorder = _opened(Path(arguments.record), record, arguments.resume)
            stack.enter_context(recorder)
        measuring = Measuring(record, library, inputs.jobs(arguments), recorder, arguments.time)
        if record.part is not None:
            return _make_part(arguments, measuring, record.part)
        end = measuring.rounds(arguments.rounds) if arguments.rounds is not None else measuring.until_settled(lambda count: _report(arguments, record, count))
    if end == STOPPED and recorder is None and record.pairs:
        _rescue(record)
    count = record.whole_rounds() if arguments.rounds is None else min(record.whole_rounds(), arguments.rounds)
    if count:
        _show(arguments, outputs, _report(arguments, record, count, _END[end].format(count=count)))
    elif end == TIME:
        raise UsageError("the time was used up before the first round was whole: try more --time, fewer shapes or fewer sites")
    return _STOPPED if end == STOPPED else 0


def _merge(arguments: Namespace, outputs: dict[str, str]) -> int:
    """Shows what records, put together, have."""
    _check_merge(arguments)
    record = sweep_record.merged(map(Path, arguments.merge))
    count = record.whole_rounds()
    if count == 0:
        raise BenchError("no whole round in these records")
    _show(arguments, outputs, _report(arguments, record, count))
    return 0


def _opened(path: Path, asked: Record, resume: bool) -> tuple[Record, Recorder]:
    """The record in a file, and what adds to it."""
    if path.exists() and not resume:
        raise UsageError("this record exists already: use --resume to continue it", str(path))
    record, kept = sweep_record.resumed(path, asked)
    return record, Recorder(path, record, kept)


#: How the rounds ended, and what is said of it.
DONE, SETTLED, TIME, STOPPED = "done", "settled", "time", "stopped"
_END: Final = {
    DONE: "",
    SETTLED: "after which it was settled (--rounds {count} repeats them)",
    TIME: "after which the time was used up (--rounds {count} repeats them)",
    STOPPED: "after which it was stopped (--rounds {count} repeats them)",
}


def looks() -> Iterator[int]:
    """The numbers of rounds after which it is seen whether it is settled: 12, 16, 24, 32, 48 and so on."""
    low, high = _FIRST_LOOK, _FIRST_LOOK // 3 * 4
    while True:
        yield low
        yield high
        low, high = 2 * low, 2 * high


@dataclass(slots=True)
class Measuring:
    """Makes runs and adds them to a record, and to its file if it has one, until all are made, the time is used up, or Control-C."""

    record: Record
    library: Library
    jobs: int
    recorder: Recorder | None = None
    time: float | None = None

    def rounds(self, count: int) -> str:
        """Makes so many rounds, and says how that ended."""
        return self.tasks(list(self.record.plan.tasks(0, count)))

    def tasks(self, tasks: Sequence[Task]) -> str:
        """Makes these runs, and says how that ended."""
        begun = time.monotonic()
        with Progress(1, sys.stderr) as progress:
            try:
                with Workers(self.record.plan, self.library, self.jobs) as workers:
                    return self._made(workers, tasks, progress, "", begun, self.time)
            except KeyboardInterrupt:
                return STOPPED

    def until_settled(self, report: Callable[[int], Report]) -> str:
        """Makes rounds until the report of them is settled, and says how that ended."""
        begun = time.monotonic()
        limit = _TIME if self.time is None else self.time
        whole = self.record.whole_rounds()
        with Progress(1, sys.stderr) as progress:
            try:
                with Workers(self.record.plan, self.library, self.jobs) as workers:
                    before = 0
                    for count in (count for count in looks() if count >= whole):
                        tasks = list(self.record.plan.tasks(before, count))
                        if self._made(workers, tasks, progress, f"rounds to {count}", begun, limit) == TIME:
                            return TIME
                        if report(count).is_settled:
                            return SETTLED
                        before = count
            except KeyboardInterrupt:
                return STOPPED
        raise AssertionError("there is always another look")

    def _made(self, workers: Workers, tasks: Sequence[Task], progress: Progress, label: str, begun: float, limit: float | None) -> str:
        """Makes those of the runs that the record has not."""
        missing = [task for task in tasks if task not in self.record.pairs]
        progress.begin(max(1, len(missing)), label)
        for number, (task, pair) in enumerate(workers.pairs(missing), 1):
            self.record.pairs[task] = pair
            if self.recorder is not None:
                self.recorder.add(task, pair)
            progress.show(number)
            if limit is not None and number < len(missing) and time.monotonic() - begun >= limit:
                return TIME
        return DONE


def _make_part(arguments: Namespace, measuring: Measuring, part: Part) -> int:
    """Makes a part of a sweep, and says so."""
    record = measuring.record
    tasks = record.plan.part(part.rounds, part.part, part.parts)
    end = measuring.tasks(tasks)
    made = sum(task in record.pairs for task in tasks)
    rest = f"--merge combines the records of all {part.parts}" if made == len(tasks) else "--resume continues it"
    inputs.write_lines([f"Part {part.part} of {part.parts}: {made:,} of {counted(len(tasks), 'run')} recorded in {arguments.record}; {rest}."])
    return _STOPPED if end == STOPPED else 0


def _rescue(record: Record) -> None:
    """Keeps the runs of a sweep that was stopped and has no record."""
    path = Path(record.name())
    try:
        record.write(path)
    except BenchError as error:
        print(f"bench: stopped; cannot save its runs: {error}", file=sys.stderr)
        return
    print(f"bench: stopped; its {counted(len(record.pairs), 'run')} are saved: --record {path} --resume continues them", file=sys.stderr)


def _report(arguments: Namespace, record: Record, count: int, end: str = "") -> Report:
    """The report of the first rounds of a record."""
    by = COLUMNS[NAMES.index(arguments.by)]
    plan = record.plan
    return Report(tuple(Findings(site, plan.shapes, record.rounds(count, number), by, arguments.margin) for number, site in enumerate(plan.sites)), end)


_TEXTS: Final[dict[str, Callable[[Report], str]]] = {
    "csv": Report.to_csv,
    "json": Report.to_json,
    "svg": heatmap.to_svg,
    "page": heatmap.to_page,
}


def _show(arguments: Namespace, outputs: dict[str, str], report: Report) -> None:
    for name, file in outputs.items():
        inputs.write(file, _TEXTS[name](report).encode("utf-8"))
    if inputs.STANDARD not in outputs.values():
        inputs.write_lines(report.lines(arguments.sort, arguments.brief))


def _plan(arguments: Namespace) -> Plan:
    """What is to be measured; the root alone is always part of it."""
    if arguments.threads is None and arguments.site is None:
        raise UsageError("no site given: use --threads T or --site T,W")
    mixes = [(writers, upgrades) for writers in arguments.writers or [_WRITERS] for upgrades in arguments.upgrades or [0.0]]
    wanted: list[tuple[int, float, float]] = [(threads, *mix) for mix in mixes for threads in arguments.threads or []] + (arguments.site or [])
    of_all = arguments.calls, arguments.routes or ROUTES[0], arguments.seed or 0, arguments.steps or MOST_ROWS
    try:
        sites = [Site(threads, writers, upgrades, *of_all) for threads, writers, upgrades in dict.fromkeys(wanted)]
    except BenchError as error:
        raise UsageError(error.what) from None
    nodes, fans = arguments.nodes or range(1, MOST_NODES + 1), arguments.fan or range(1, MOST_FAN + 1)
    return Plan(tuple(sites), tuple(shapes([1, *nodes], fans)))


def _check_merge(arguments: Namespace) -> None:
    """Raises where something is asked for that the records already say."""
    for name in ("threads", "writers", "upgrades", "site", "calls", "steps", "routes", "nodes", "fan", "rounds", "time", "seed", "jobs", "record", "part"):
        if getattr(arguments, name) is not None:
            raise UsageError(f"--merge and --{name} exclude each other: the records say that already")
    if arguments.resume:
        raise UsageError("--merge and --resume exclude each other: a merge makes no runs")


def _check_part(arguments: Namespace, outputs: dict[str, str]) -> None:
    if arguments.resume and arguments.record is None:
        raise UsageError("--resume needs --record FILE, the record to continue")
    if arguments.record == inputs.STANDARD:
        raise UsageError("--record needs a file, not standard output")
    if arguments.part is None:
        return
    if arguments.rounds is None or arguments.record is None:
        raise UsageError("--part needs --rounds K, the same for all parts, and --record FILE")
    if outputs:
        raise UsageError(f"a part has no figures: use --{next(iter(outputs))} with --merge")


def _check_outputs(files: list[str]) -> None:
    """Raises before the work, not behind it, where a file cannot be written."""
    for file in files:
        if file != inputs.STANDARD and not Path(file).parent.is_dir():
            raise OutputError("No such file or directory", file)
        if file != inputs.STANDARD and Path(file).is_dir():
            raise OutputError("Is a directory", file or "''")


def _numbers(least: int, most: int) -> Callable[[str], list[int]]:
    """The type of an argument that is a list of numbers and ranges within bounds: ``3``, ``1-15``, ``8..64``, ``8..64/8``."""

    def number(text: str, what: str, part: str, low: int) -> int:
        try:
            return whole(low, most)(text)
        except ArgumentTypeError as error:
            raise ArgumentTypeError(f"{what} in '{part}' {error}" if text != part else str(error)) from None

    def numbers(text: str) -> list[int]:
        found: list[int] = []
        for part in text.split(","):
            span, slash, step = part.partition("/")
            first, dash, last = span.replace("..", "-").partition("-")
            begin = number(first, "the first number", part, least)
            end = number(last, "the last number", part, least) if dash else begin
            if begin > end:
                raise ArgumentTypeError(f"the first number in '{part}' must not be above the last")
            found += range(begin, end + 1, number(step, "the step", part, 1) if slash else 1)
        return found

    return numbers


def _percent(text: str) -> float:
    """The type of an argument that is a share in percent."""
    bare = text.removesuffix("%").rstrip()
    if not re.fullmatch(r"[0-9]{1,3}(\.[0-9]{1,6})?", bare, re.ASCII) or float(bare) > 100:
        raise ArgumentTypeError(f"must be 0 to 100 percent, not '{text}'")
    return float(bare)


def _percents(text: str) -> list[float]:
    return list(map(_percent, text.split(",")))


def _site(text: str) -> tuple[int, float, float]:
    """The type of an argument that is a site."""
    parts = text.split(",")
    if len(parts) not in (2, 3):
        raise ArgumentTypeError(f"must be threads, writers and upgrades, such as 19,5 or 19,5,2, not '{text}'")
    return whole(1, MOST_THREADS)(parts[0]), _percent(parts[1]), _percent(parts[2]) if len(parts) == 3 else 0.0


def _seconds(text: str) -> float:
    """The type of an argument that is a time."""
    found = re.fullmatch(r"([0-9]{1,7}(?:\.[0-9]{1,3})?)([smh]?)", text, re.ASCII)
    if found is None or float(found[1]) == 0:
        raise ArgumentTypeError(f"must be a time, such as 90s, 10m or 2h, not '{text}'")
    return float(found[1]) * {"": 1, "s": 1, "m": 60, "h": 3600}[found[2]]


def _part(text: str) -> tuple[int, int]:
    """The type of an argument that is a part of so many."""
    found = re.fullmatch("([0-9]{1,6})/([0-9]{1,6})", text, re.ASCII)
    if found is None or not 1 <= int(found[1]) <= int(found[2]):
        raise ArgumentTypeError(f"must be a part K/M, such as 3/16, with K from 1 to M, not '{text}'")
    return int(found[1]), int(found[2])
