"""The command ``explore``: every state of a small lock, counted, and a picture of the smallest."""

from __future__ import annotations

import csv
import io
import sys
from argparse import ArgumentParser, Namespace, RawDescriptionHelpFormatter, _ArgumentGroup, _SubParsersAction
from collections import Counter
from collections.abc import Iterator
from dataclasses import dataclass, field
from html import escape
from textwrap import wrap
from typing import Final

from . import inputs, notation, orders
from .explore import LOCKS_BYTES, MEMORY, MOST_FAN, MOST_NODES, MOST_THREADS, PROGRAM_COUNTERS, STATE_BYTES
from .explore import Exploration, Seen, explore, explore_locks, put_together, sheet_of
from .native import Explored
from .progress import Progress, Status
from .schedule import Schedule

# The most states that a picture has.
_DRAWN: Final = 1000
_MEGABYTE: Final = 1 << 20
# The columns of the lines that are printed.
_WIDE: Final = 100

DESCRIPTION: Final = f"""\
Explores a small lock completely: from the fresh lock every row of every thread and order, until no
row leads to a state that was not seen. The search is proved: where it is complete, every state that
rows of any number lead to is one of those counted, and its schedule has as few rows as any. States
that differ in their failed swaps alone are one. A state takes {STATE_BYTES} bytes; where the memory is too
small, that is said, and what is printed is of the states found until then.

It prints how many states there are, how many rows the deepest of them needs, how many are at rest
(nobody is in a call), have a sleeper, are held or are stuck, and for each program counter (a phase
of crates/lock/specs/Call.antt) in how many states some thread is there.

With --locks 2 the threads have two locks, and what is printed is how many states are stuck, where no
row of any thread changes anything, and a schedule to one that no shorter one leads to. With
--lock-order no row asks for the first lock while its thread holds the second, or is in a call of it.
A state of two locks takes {LOCKS_BYTES} bytes.
"""

EPILOG: Final = """\
exit status:
  0  done
  4  not complete: the memory was too small

example:
  ./bench explore --nodes 1 --threads 2
  ./bench explore --nodes 3 --fan 2 --threads 2 --csv states.csv
  ./bench explore --nodes 1 --threads 1 --picture graph.svg
  ./bench explore --nodes 1 --threads 2 --state 612
  ./bench explore --nodes 2 --threads 2 --locks 2
"""


def register(subparsers: _SubParsersAction[ArgumentParser]) -> None:
    """Adds the command ``explore``."""
    parser = subparsers.add_parser(
        "explore",
        help="count every state of a small lock",
        description=DESCRIPTION,
        epilog=EPILOG,
        formatter_class=RawDescriptionHelpFormatter,
    )
    add_explored_sizes(parser, 1, 2)
    add_memory(parser)
    listed = "write the same figures as CSV, and how many states there are at each depth; - is standard output, and nothing else is printed"
    parser.add_argument("--csv", metavar="FILE", help=listed)
    drawn = f"draw the states, {_DRAWN:,} at most, each joined to the one from which its last row leads to it: SVG, or DOT if the name ends in .dot"
    parser.add_argument("--picture", metavar="FILE", help=drawn)
    parser.add_argument("--state", metavar="I", type=inputs.whole(0, 1 << 32), help="print the schedule of state I, as a text, instead of the figures")
    both = parser.add_argument_group("two locks")
    both.add_argument("--locks", metavar="L", type=inputs.whole(1, 2), default=1, help="the locks that the threads have, 1 or 2 (1)")
    both.add_argument("--lock-order", action="store_true", help="of two locks, make the rows alone that are in lock order")
    inputs.add_jobs(parser.add_argument_group("how"))
    parser.set_defaults(run=_explore)


def add_explored_sizes(parser: ArgumentParser, nodes: int, threads: int) -> None:
    """Adds the arguments that name the sizes of a lock that is explored, and what they are where nobody names them."""
    parser.add_argument("--nodes", metavar="N", type=inputs.whole(1, MOST_NODES), default=nodes, help=f"the nodes, 1 to {MOST_NODES} ({nodes})")
    parser.add_argument("--fan", metavar="F", type=inputs.whole(1, MOST_FAN), default=1, help=f"the fan-out, 1 to {MOST_FAN} (1)")
    parser.add_argument("--threads", metavar="T", type=inputs.whole(1, MOST_THREADS), default=threads, help=f"the threads, 1 to {MOST_THREADS} ({threads})")


def add_memory(parser: ArgumentParser | _ArgumentGroup) -> None:
    """Adds the argument that says how much memory an exploration may use."""
    usual = MEMORY // _MEGABYTE
    said = f"how much memory an exploration may use, in megabytes ({usual:,})"
    parser.add_argument("--memory", metavar="MB", type=inputs.whole(1, 1 << 20), default=usual, help=said)


def memory(arguments: Namespace) -> int:
    """The bytes that an exploration may use."""
    return int(arguments.memory) * _MEGABYTE


def rate_text(found: Explored, seconds: float) -> str:
    """How far an exploration is, for a line that changes."""
    if not found.states:
        return f"exploring, {seconds:.0f} s"
    return f"exploring: {found.states:,} states, depth {found.depth}, {found.states / max(seconds, 0.001):,.0f} a second; {seconds:.0f} s"


@dataclass(slots=True)
class Figures:
    """What the states of an exploration are, counted."""

    shown: dict[bytes, Seen] = field(default_factory=dict)
    depths: Counter[int] = field(default_factory=Counter)
    counters: Counter[int] = field(default_factory=Counter)
    stuck: int = 0

    @classmethod
    def of(cls, explored: Exploration, jobs: int = 1, progress: Progress | None = None) -> Figures:
        """Those of an exploration."""
        figures = cls()
        for part in explored.parts(jobs):
            for lines, seen in part.shown.items():
                put_together(figures.shown, lines, seen)
            figures.depths.update(part.depths)
            figures.counters.update(part.counters)
            figures.stuck += part.stuck
            if progress is not None:
                progress.show(part.end)
        return figures

    def standings(self) -> Counter[str]:
        """How many states are at rest, have a sleeper, are read or written in, by the library's sheets."""
        counted: Counter[str] = Counter()
        for lines, seen in self.shown.items():
            standings = {line.standing for line in sheet_of(lines).locks[0].threads}
            for name, is_so in (
                ("all idle", standings == {"idle"}),
                ("at rest", "calling" not in standings),
                ("read", "reading" in standings),
                ("written", "writing" in standings),
                ("asleep", "asleep" in standings),
            ):
                counted[name] += seen.states if is_so else 0
        return counted

    def lines(self) -> Iterator[tuple[str, str, int]]:
        """Each figure: what it is of, its name, and the number of states."""
        standings = self.standings()
        yield "states", "all", sum(self.depths.values())
        for name in ("at rest", "all idle", "read", "written", "asleep"):
            yield "standing", name, standings[name]
        yield "standing", "stuck", self.stuck
        yield "sheets", "told apart", len(self.shown)
        for number, name in enumerate(PROGRAM_COUNTERS):
            yield "program counter", name, self.counters[number]
        for depth, states in sorted(self.depths.items()):
            yield "rows", str(depth), states

    def to_csv(self) -> str:
        """The figures as a table."""
        out = io.StringIO()
        table = csv.writer(out, lineterminator="\n")
        table.writerow(("of", "which", "states"))
        table.writerows(self.lines())
        return out.getvalue()


_SAID: Final = {
    "all": "all states",
    "at rest": "at rest: nobody is in a call",
    "all idle": "  all idle",
    "read": "some thread reads",
    "written": "a thread writes",
    "asleep": "some thread sleeps",
    "stuck": "stuck: no row would change anything",
}


def _explore(arguments: Namespace) -> int:
    if arguments.locks == 2:
        return _explore_locks(arguments)
    if arguments.lock_order:
        raise inputs.UsageError("--lock-order is of two locks: --locks 2")
    with Status(sys.stderr) as status:
        explored = explore(
            arguments.nodes, arguments.fan, arguments.threads, memory(arguments), watch=lambda found, seconds: status.show(rate_text(found, seconds))
        )
    if arguments.picture is not None and explored.states > _DRAWN:
        raise inputs.UsageError(f"{explored.states:,} states are too many for a picture, which has at most {_DRAWN:,}")
    if arguments.state is not None:
        _print_state(explored, arguments.state)
        return 0
    with Progress(explored.states, sys.stderr, "looking at states") as progress:
        figures = Figures.of(explored, inputs.jobs(arguments), progress)
    if arguments.csv is not None:
        inputs.write(arguments.csv, figures.to_csv().encode("ascii"))
    if arguments.csv != inputs.STANDARD:
        inputs.write_lines(_told(explored, figures))
    if arguments.picture is not None:
        drawn = to_dot(explored) if arguments.picture.endswith(".dot") else to_svg(explored)
        inputs.write(arguments.picture, drawn.encode("ascii"))
    if not explored.complete:
        raise inputs.NotSo(f"not complete: more than {explored.states:,} states, and the memory is {arguments.memory:,} MB (--memory)")
    return 0


def _explore_locks(arguments: Namespace) -> int:
    for name in ("csv", "picture", "state"):
        if getattr(arguments, name) is not None:
            raise inputs.UsageError(f"--{name} is of one lock")
    sizes = arguments.nodes, arguments.fan, arguments.threads
    with Status(sys.stderr) as status:
        locks = explore_locks(*sizes, arguments.lock_order, memory(arguments), lambda seconds: status.show(f"exploring two locks, {seconds:.0f} s"))
    found, complete = locks.found, locks.found.answer == 0
    rows = "with rows in lock order" if arguments.lock_order else "with all rows"
    how = "all that there are" if complete else "not all that there are"
    lines = [f"two locks, N {sizes[0]}, F {sizes[1]}, T {sizes[2]}, {rows}: {found.states:,} states, {how}; the deepest needs {found.depth} rows"]
    lines.append(f"{_SAID['stuck']:<40}{found.stuck:>14,}")
    if locks.crossed is None:
        lines.append("no schedule leads to a stuck state" if complete else "none of these is stuck")
    else:
        fewest = "no schedule that leads to a stuck state has fewer" if complete else "there may be a shorter schedule"
        lines += ["", f"# state {found.first}: {len(locks.crossed.rows)} rows, {fewest}", *notation.print_schedule(locks.crossed).splitlines()]
    inputs.write_lines(lines)
    if not complete:
        raise inputs.NotSo(f"not complete: more than {found.states:,} states, and the memory is {arguments.memory:,} MB (--memory)")
    return 0


def _print_state(explored: Exploration, state: int) -> None:
    schedule = explored.schedule(state)
    fewest = "no schedule that leads there has fewer" if explored.complete else "there may be a shorter schedule"
    said = f"# state {state} of {explored.states:,} on {explored.sizes}: {len(schedule.rows)} rows, {fewest}\n"
    inputs.write(None, (said + notation.print_schedule(schedule)).encode("ascii"))


def _told(explored: Exploration, figures: Figures) -> Iterator[str]:
    how = "all that there are" if explored.complete else "not all that there are"
    yield f"{explored.sizes}: {explored.states:,} states, {how}; the deepest needs {explored.depth} rows"
    yield ""
    never: list[str] = []
    for of, name, states in figures.lines():
        if of in ("states", "standing"):
            yield f"{_SAID[name]:<40}{states:>14,}"
        elif of == "sheets":
            yield f"{'different sheets, failed swaps aside':<40}{states:>14,}"
            yield ""
            yield f"{'some thread at this program counter':<40}{'states':>14}"
        elif of == "program counter" and states:
            yield f"  {name:<38}{states:>14,}"
        elif of == "program counter":
            never.append(name)
    if never:
        yield ""
        yield from wrap(f"no thread is ever at: {', '.join(never)}{'' if explored.complete else ' (in the states found)'}", _WIDE)


# ---- The picture.


def _tree(explored: Exploration) -> Iterator[tuple[int, int | None, Schedule]]:
    """Each state, the one that its last row comes from, and its schedule."""
    numbers: dict[tuple[object, ...], int] = {}
    for state in range(explored.states):
        schedule = explored.schedule(state)
        numbers[schedule.rows] = state
        yield state, numbers[schedule.rows[:-1]] if schedule.rows else None, schedule


def _shown(explored: Exploration, state: int) -> tuple[str, str]:
    """What a state shows, for its tip, and what colours it."""
    lock = explored.history(state).end.locks[0]
    standings = [line.standing for line in lock.threads]
    kind = "asleep" if "asleep" in standings else "calling" if "calling" in standings else "rest"
    return "\n".join((f"state {state}", *lock.lines())), kind


_FILLS: Final = {"rest": "#7fb77e", "calling": "#cfd8dc", "asleep": "#e0a458"}


def to_dot(explored: Exploration) -> str:
    """The graph for Graphviz: each state, and the row by which its schedule comes to it."""
    lines = ["digraph states {", "  node [shape=circle style=filled];"]
    for state, parent, schedule in _tree(explored):
        tip, kind = _shown(explored, state)
        told = tip.replace("\n", "\\n")
        lines.append(f'  {state} [fillcolor="{_FILLS[kind]}" tooltip="{told}"];')
        if parent is not None:
            row = schedule.rows[-1]
            lines.append(f'  {parent} -> {state} [label="{row.thread}: {orders.words(row.order)}"];')
    return "\n".join([*lines, "}"]) + "\n"


# Between two states, and between two depths; the circle of a state; around them all.
_ACROSS: Final = 24
_DOWN: Final = 56
_CIRCLE: Final = 7
_EDGE: Final = 32


def to_svg(explored: Exploration) -> str:
    """The graph as a picture: a line of states for each depth, each state joined to the one that its last row comes from."""
    tree = list(_tree(explored))
    rows: dict[int, list[int]] = {}
    for state, _, schedule in tree:
        rows.setdefault(len(schedule.rows), []).append(state)
    wide = 2 * _EDGE + _ACROSS * max(map(len, rows.values()))
    high = 2 * _EDGE + _DOWN * (len(rows) - 1)
    places: dict[int, tuple[float, int]] = {}
    for depth, states in rows.items():
        left = (wide - _ACROSS * (len(states) - 1)) / 2
        places |= {state: (left + _ACROSS * number, _EDGE + _DOWN * depth) for number, state in enumerate(states)}
    title = f"{explored.sizes}: {explored.states:,} states, by the fewest rows that lead to each"
    lines = [
        f'<svg xmlns="http://www.w3.org/2000/svg" width="{wide}" height="{high}" viewBox="0 0 {wide} {high}"',
        ' role="img" font-family="sans-serif" font-size="9">',
        f"<title>{escape(title)}</title>",
        '<rect width="100%" height="100%" fill="#ffffff"/>',
    ]
    circles: list[str] = []
    for state, parent, schedule in tree:
        x, y = places[state]
        if parent is not None:
            from_x, from_y = places[parent]
            row = schedule.rows[-1]
            said = escape(f"thread {row.thread}: {orders.words(row.order)}")
            lines.append(f'<line x1="{from_x:g}" y1="{from_y:g}" x2="{x:g}" y2="{y:g}" stroke="#78909c" stroke-width="1"><title>{said}</title></line>')
        tip, kind = _shown(explored, state)
        circles.append(f'<circle cx="{x:g}" cy="{y:g}" r="{_CIRCLE}" fill="{_FILLS[kind]}" stroke="#37474f"><title>{escape(tip)}</title></circle>')
        circles.append(f'<text x="{x:g}" y="{y + 3:g}" text-anchor="middle" pointer-events="none">{state}</text>')
    return "\n".join([*lines, *circles, "</svg>"]) + "\n"
