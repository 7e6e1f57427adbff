"""The command ``find``: a schedule after which a condition holds, or the worst for a site."""

from __future__ import annotations

import sys
import time
from argparse import ArgumentParser, Namespace, RawDescriptionHelpFormatter, _ArgumentGroup, _SubParsersAction
from collections import Counter
from dataclasses import replace
from typing import Final

from . import condition, inputs, journal, notation
from .condition import Comparison, Condition, Quantity, Sizes
from .decide import Verdict, can_decide, decide
from .errors import BenchError
from .excluded import cases, excluding
from .explored import add_memory, memory
from .history import MOST_ROWS, History
from .journal import word_text
from .native import load
from .orders import SECOND
from .progress import Progress
from .schedule import Row, Schedule, rows_text
from .search import Goal, Search, Space
from .shrink import add_output, write_schedule
from .site import MOST_FAN, MOST_NODES, MOST_THREADS

# Without another limit a search takes so many seconds; it ends before where a schedule is found and so many tries more find none that is shorter.
_SECONDS: Final = 20.0
_MORE_TRIES: Final = 1024
# Without another limit an exploration takes so many seconds: far more than the sizes need that are chosen where none are named.
_EXPLORING: Final = 120.0
# The rows of a schedule, where nobody says otherwise: more than any condition of the guide needs.
_ROWS: Final = 64
# How many cases of a condition are looked at for the sizes that it needs.
_MOST_CASES: Final = 64

DESCRIPTION: Final = """\
Finds a schedule after which a condition holds, and prints its text. Where a theorem excludes the
condition, that is said, and nothing is searched.

A condition over states, or that a row does something, is decided where the lock is small enough: it
is explored completely in the proved library (`./bench explore`), and then the schedule is the
shortest of all for these sizes, or there is none. Where such parts are joined with others, or with
each other, each is decided by itself: if one is impossible so is the whole, and else it is known how
many rows a schedule has at least. Any other condition, and one of a lock that is too large, is
searched for: random walks, and walks on from those prefixes that have come nearest, on all cores,
each row by asking the proved library. The same --seed with the same --tries finds the same. Where
such a search finds nothing, that proves nothing.

With --most NUMBER it finds the worst for a site: the most failed swaps (failures), the longest wait
for a lock (wait), the most rows (rows), held-up ones aside, or the most of any other number of a
condition. Beside failed swaps it says what bounds them: a thread's failed swaps on a word are never
more than the changes that others made to it.
"""

EPILOG: Final = f"""\
conditions:
{"".join(f"  {line}{chr(10)}" if line else chr(10) for line in condition.GUIDE.splitlines())}
exit status:
  0  found
  4  not found, impossible for these sizes, or excluded by a theorem

example:
  ./bench find 'thread 2 asleep and root open'
  ./bench find 'queue writers = 2' --nodes 1
  ./bench find 'failures of 1 >= 2' --threads 3 --nodes 1 --time 5 -o failures.schedule.txt
  ./bench find stuck --tries 256 --seed 2
  ./bench find --most failures --wants examples/writer-and-reader.wants --tries 512
"""


def register(subparsers: _SubParsersAction[ArgumentParser]) -> None:
    """Adds the command ``find``."""
    find = subparsers.add_parser(
        "find",
        help="find a schedule after which a condition holds",
        description=DESCRIPTION,
        epilog=EPILOG,
        formatter_class=RawDescriptionHelpFormatter,
    )
    find.add_argument("condition", metavar="CONDITION", nargs="?", help="what must hold after the last row")
    find.add_argument("--most", metavar="NUMBER", help="find the most of a number, such as failures, wait or rows")
    space = find.add_argument_group("where is searched", "Sizes, or wanted calls; those that are not named are as small as may serve.")
    add_sizes(space)
    space.add_argument("--wants", metavar="FILE", help=f"the calls that each thread wants, in order, and no others: a text if the name ends in {inputs.TEXT}")
    space.add_argument("--second", action="store_true", help="make calls of the second lock too, as is done anyway where the condition names it or is `stuck`")
    inputs.add_till(find)
    limits = find.add_argument_group("how long")
    limits.add_argument("--rows", metavar="S", type=inputs.whole(1, MOST_ROWS), help=f"the most rows of a schedule ({_ROWS}; {MOST_ROWS:,} with --wants)")
    seconds = f"the most seconds ({_EXPLORING:g} to explore; {_SECONDS:g} at random, where --tries is not given)"
    limits.add_argument("--time", metavar="SECONDS", type=float, help=seconds)
    limits.add_argument("--tries", metavar="K", type=inputs.whole(1, 1_000_000_000), help="the most walks, rounded up to whole rounds")
    limits.add_argument("--seed", metavar="S", type=int, default=0, help="the seed of what is drawn at random (0)")
    limits.add_argument("--random", action="store_true", help="search at random, and do not explore the lock first")
    add_memory(limits)
    inputs.add_jobs(limits)
    add_output(find)
    find.set_defaults(run=_find)


def add_sizes(group: _ArgumentGroup) -> None:
    """Adds the arguments that name sizes."""
    group.add_argument("--threads", metavar="T", type=inputs.whole(1, MOST_THREADS), help=f"the threads, 1 to {MOST_THREADS}")
    group.add_argument("--nodes", metavar="N", type=inputs.whole(1, MOST_NODES), help=f"the nodes, 1 to {MOST_NODES}")
    group.add_argument("--fan", metavar="F", type=inputs.whole(1, MOST_FAN), help=f"the fan-out, 1 to {MOST_FAN}")


def _find(arguments: Namespace) -> int:
    if (arguments.condition is None) == (arguments.most is None):
        raise inputs.UsageError("give either a CONDITION or --most NUMBER (see --help)")
    if arguments.time is not None and not 0 < arguments.time < 1e9:
        raise inputs.UsageError("--time must be a number of seconds above 0")
    goal = Goal(arguments.condition if arguments.most is None else arguments.most, arguments.most is not None)
    unsized = None if goal.most else condition.parse(goal.text, name="condition")
    named = [condition.parse_quantity(goal.text, name="--most")] if unsized is None else list(condition.quantities(unsized))
    goal = replace(goal, text=condition.on_a_line(goal.text))
    space = _space(arguments, named, unsized)
    fresh = History(space.sizes, (), space.till, load())
    sizes = Sizes(space.threads, space.nodes, len(fresh.end.rooms))
    fewest = 0
    if goal.most:
        condition.parse_quantity(goal.text, sizes, "--most")
    else:
        wanted = condition.parse(goal.text, sizes, "condition")
        theorems = excluding(wanted, space.threads, space.locks == 2)
        if theorems:
            raise inputs.NotSo(f"impossible: '{goal.text}': {'; and '.join(theorems)}")
        if wanted.holds(fresh):
            write_schedule(_schedule(space, ()), goal.text, [goal.text, "0 rows, so none is shorter: it holds of the fresh lock"], arguments.output)
            return 0
        if not arguments.random and can_decide(wanted, space):
            verdict = _decided(arguments, wanted, space, goal)
            if verdict.decided:
                return 0
            fewest = verdict.fewest
    search, seconds = _searched(arguments, space, goal)
    return _most(arguments, space, goal, search, seconds) if goal.most else _found(arguments, space, goal, search, seconds, fewest)


def _decided(arguments: Namespace, wanted: Condition, space: Space, goal: Goal) -> Verdict:
    """What an exploration decides of the condition. Where it decides it, a schedule is written; where there is none, or none so short, that is raised."""
    verdict = decide(wanted, space, memory(arguments), arguments.time or _EXPLORING, inputs.jobs(arguments))
    if not verdict.decided:
        if arguments.rows is not None and verdict.fewest > arguments.rows:
            raise inputs.NotSo(f"impossible within {rows_text(arguments.rows)}: no schedule has fewer than {rows_text(verdict.fewest)} ('{goal.text}')")
        if not verdict.fewest:
            print(f"bench: not decided: {verdict.said}; searching at random", file=sys.stderr)
        return verdict
    if verdict.rows is None:
        raise inputs.NotSo(f"{verdict.said} ('{goal.text}')")
    if arguments.rows is not None and len(verdict.rows) > arguments.rows:
        raise inputs.NotSo(f"impossible within {rows_text(arguments.rows)}: the shortest schedule has {len(verdict.rows)} ('{goal.text}')")
    write_schedule(_schedule(space, verdict.rows), goal.text, [goal.text, f"{rows_text(len(verdict.rows))}, {verdict.said}"], arguments.output)
    return verdict


def _space(arguments: Namespace, named: list[Quantity], wanted: Condition | None) -> Space:
    """Where is searched: the sizes given, else those of the wanted calls, else as small as may serve."""
    till = inputs.till_bytes(arguments)
    locks = 2 if arguments.second or any(quantity.lock or quantity.what == "stuck" for quantity in named) else 1
    if arguments.wants is not None:
        given = [size for size in (arguments.threads, arguments.nodes, arguments.fan) if size is not None]
        if given or till is not None:
            raise inputs.UsageError("--wants excludes --threads, --nodes, --fan and --till: wanted calls have sizes of their own, and no till")
        wants = _wants(arguments.wants)
        calls = tuple(tuple(row.order for row in wants.rows if row.thread == thread) for thread in range(wants.threads))
        second = any(row.order >= SECOND for row in wants.rows)
        return Space(wants.nodes, wants.fan, wants.threads, 2 if second else 1, None, calls, arguments.rows or MOST_ROWS)
    # Where all threads are asked, the fewer the sooner.
    few = any(quantity.what in ("stuck", "all") for quantity in named)
    threads = max([2 if few else 3, threads_for(wanted), *(quantity.thread + 1 for quantity in named if quantity.thread is not None)])
    # Many threads are explored where there is the root alone, which serves unless a condition speaks of nodes.
    speaks = any(quantity.what in ("node", "root tree", "late arrival") for quantity in named)
    numbers = [quantity.number for quantity in named if quantity.number is not None and quantity.what in ("node", "standing", "event")]
    nodes = max([2 if speaks or threads <= 3 else 1, *(number + 1 for number in numbers)])
    return Space(arguments.nodes or nodes, arguments.fan or 1, arguments.threads or threads, locks, till, None, arguments.rows or rows_for(wanted))


def threads_for(wanted: Condition | None) -> int:
    """How many threads a condition needs at least, as far as that is seen: those that sleep or are queued, those that hold or have arrived, and the others."""
    if wanted is None:
        return 0
    return min(MOST_THREADS, max(map(_threads_for_case, cases(wanted, _MOST_CASES))))


def _threads_for_case(case: tuple[Comparison, ...]) -> int:
    counted: Counter[str] = Counter()
    for comparison in case:
        what, least = comparison.left.what, _least(comparison)
        if what in ("threads", "any"):
            what = "holding" if len(comparison.left.standings) > 1 else "".join(comparison.left.standings)
        counted[what] = max(counted[what], least)
    queued = max(counted["asleep"], counted["queue groups"], counted["queue writers"])
    holding = max(counted["reading"] + counted["writing"], *(counted[name] for name in ("holding", "root", "root direct", "root tree", "node")))
    awake = holding + counted["calling"] + counted["idle"]
    # Where somebody waits there is one who does not.
    return queued + (max(1, awake) if queued else awake)


def _least(comparison: Comparison) -> int:
    """The least that the left side of a comparison can be, where it is compared with a number."""
    number = comparison.right.number if comparison.right.what == "number" else None
    return max(0, (number or 0) + (comparison.sign == ">")) if number is not None and comparison.sign in ("=", ">=", ">") else 0


def rows_for(wanted: Condition | None) -> int:
    """How many rows a schedule may have: more where a condition counts rows, or what rows did."""
    compared = [] if wanted is None else [comparison for comparison in wanted.comparisons() if comparison.left.what in ("rows", "wait", "event", "failures")]
    return min(MOST_ROWS, _ROWS + max(map(_least, compared), default=0))


def _wants(name: str) -> Schedule:
    if not name.endswith(inputs.TEXT):
        wants = Schedule.from_bytes(inputs.read(name, 1 << 18), name)
    else:
        script = notation.parse_script(inputs.read_text(name, name), name)
        script.check_calls()
        wants = script.read().schedule
    for number, row in enumerate(wants.rows):
        if row.thread >= wants.threads:
            raise BenchError(f"there is no thread {row.thread}", f"{name}, row {number}")
    return wants


def _searched(arguments: Namespace, space: Space, goal: Goal) -> tuple[Search, float]:
    """The search, made until a limit is reached, and the seconds that it took."""
    search = Search(space, goal, arguments.seed, load().path, inputs.jobs(arguments))
    limit = arguments.time if arguments.time is not None else _SECONDS if arguments.tries is None else None
    if goal.most and space.wanted is not None:
        # The dispatcher's turns make many swaps collide.
        calls = tuple(Row(thread, order) for thread, orders_of in enumerate(space.wanted) for order in orders_of)
        given = load().dispatch_sheet(_schedule(space, calls).to_bytes())
        search.offer(Schedule.from_bytes(given.schedule).rows if given.schedule else ())
    begun = time.monotonic()
    try:
        with Progress(arguments.tries if limit is None else max(1, int(1000 * limit)), sys.stderr) as progress:
            while not _is_over(search, goal, arguments.tries, limit, time.monotonic() - begun):
                search.round()
                passed = time.monotonic() - begun
                progress.show(min(search.tries, arguments.tries) if limit is None else min(int(1000 * passed), int(1000 * limit)))
    finally:
        search.close()
    return search, time.monotonic() - begun


def _is_over(search: Search, goal: Goal, tries: int | None, limit: float | None, passed: float) -> bool:
    if tries is not None and search.tries >= tries or limit is not None and passed >= limit:
        return True
    if goal.most:
        return False
    return search.found is not None and (len(search.found) == 0 or search.tries >= search.latest + _MORE_TRIES)


def _found(arguments: Namespace, space: Space, goal: Goal, search: Search, seconds: float, fewest: int) -> int:
    """Writes what a search found, beside the rows that each schedule has at least, where that is known."""
    if search.found is None:
        where = f"{search.tries:,} tries and {seconds:.0f} s on {space.named}, in schedules of up to {rows_text(space.most_rows)}"
        raise inputs.NotSo(f"not found in {where}, which proves nothing: more --time, another --seed or other sizes may find it")
    found = goal.shortened(search.found, space)
    shorter = "none has fewer" if len(found) == fewest else "there may be a shorter one"
    said = [goal.text, f"{rows_text(len(found))}, the shortest found in {search.tries:,} tries; {shorter}"]
    if 0 < fewest < len(found):
        said.append(f"none has fewer than {fewest}")
    write_schedule(_schedule(space, found), goal.text, said, arguments.output)
    return 0


def _schedule(space: Space, rows: tuple[Row, ...]) -> Schedule:
    return Schedule(space.nodes, space.fan, space.threads, rows)


def _most(arguments: Namespace, space: Space, goal: Goal, search: Search, seconds: float) -> int:
    worst = search.nearest
    value = -int(worst.distance)
    history = History(space.sizes, worst.rows, space.till, load())
    said = [f"{goal.text}: {value}, the most found in {search.tries:,} tries; there may be more"]
    quantity = condition.parse_quantity(goal.text)
    if quantity.what == "failures":
        said += bounds(history, quantity.thread, quantity.lock)
    write_schedule(_schedule(space, worst.rows), f"{goal.text} = {value}", said, arguments.output)
    return 0


def bounds(history: History, thread: int | None, lock: int) -> list[str]:
    """What bounds the failed swaps of a thread, or of all: the changes that others made to the words that they failed on (demand 3)."""
    failed: Counter[tuple[int, int]] = Counter()
    changed: Counter[tuple[int, int]] = Counter()
    for number, row in enumerate(history.rows):
        entry = history.entry(number)
        if entry.lock == lock:
            if entry.kind == journal.FAILED:
                failed[row.thread, entry.word] += 1
            elif entry.kind in (journal.SWAPPED, journal.STORED):
                changed[row.thread, entry.word] += 1
    lines = []
    for (by, word), times in sorted(failed.items(), key=lambda item: (-item[1], item[0])):
        if thread in (None, by):
            others = sum(count for (other, of), count in changed.items() if of == word and other != by)
            lines.append(f"thread {by} on {word_text(word)}: {times} failed, of at most {others}, the changes by others (demand 3)")
    return lines
