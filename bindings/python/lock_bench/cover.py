"""The command ``cover``: a suite of schedules for a server's tests, which take every program counter and every outcome of every row of a small lock.

What can happen is read off a complete exploration: each row that the library takes at each state. An outcome is the row's program counter, its entry, what the
word has then, where the thread stands, and how the queue was and is; thread numbers are no part of it. For each outcome there is a first row that has it, at a
state with few rows; the deepest of them are taken first, and each piece is counted with all that happens on its way. Then its threads go on and unlock until
the lock is as it was made, and the next piece comes behind it.
"""

from __future__ import annotations

import sys
from argparse import ArgumentParser, Namespace, RawDescriptionHelpFormatter, _SubParsersAction
from collections.abc import Iterator
from dataclasses import replace
from functools import lru_cache
from itertools import product
from pathlib import Path
from textwrap import wrap
from typing import Final, NamedTuple

from . import inputs, journal, notation, orders, record
from .explore import PROGRAM_COUNTERS, Asked, Exploration, Opened, explore, sheet_of
from .explored import add_explored_sizes, add_memory, memory, rate_text
from .history import MOST_ROWS, History
from .progress import Progress, Status
from .run import run
from .schedule import Row, Schedule, rows_text
from .search import Rows
from .sheet import LockState
from .site import MOST_THREADS

# Counts above this are not told apart in an outcome.
_MANY: Final = 2
# The rows of a schedule, and the lines of its text that have the sizes.
_LONGEST: Final = 256
# So many writers wait one behind the other: one more than a queue has places, if it has one for each thread.
_WAITING: Final = MOST_THREADS + 1
_SIZE_LINES: Final = 3
# The columns of the lines that are printed.
_WIDE: Final = 100

DESCRIPTION: Final = """\
Writes a suite of schedules for the tests of a server's lock, from a complete exploration of a small
lock: together they take every program counter that there is at these sizes, and every outcome of
every row: each way that a swap, a look, a hand-over or an upgrade can go, by the word and the queue
that it finds; for each swap one whose word was changed and changed back; and each way to hold the
lock behind each other by one thread. With --transitions they take every row at every state.

With --beyond two kinds of schedules more go beyond these sizes, since small locks do not show what
they test: more writers wait one behind the other than there can be threads, and the hand-overs, once
more, are made by the threads with the highest numbers of 64.

A schedule has several pieces. Each comes to its outcome in as few rows as there are; then all
threads go on and unlock, until the lock is as it was made. Each schedule is written as a text that
says what each piece takes, as a file, and with the record of the bench, which a server's lock is to
give too (`./bench hold SCHEDULE RECORD`). What is taken, and what is not possible at these sizes,
is printed.
"""

EPILOG: Final = """\
exit status:
  0  done
  4  the lock has more states than fit the memory

example:
  ./bench cover --nodes 1 --threads 2
  ./bench cover --nodes 2 --threads 2 -o suite
  ./bench cover --nodes 1 --threads 2 --transitions -o suite
  ./bench cover --nodes 2 --threads 3 --beyond -o suite
"""


def register(subparsers: _SubParsersAction[ArgumentParser]) -> None:
    """Adds the command ``cover``."""
    parser = subparsers.add_parser(
        "cover",
        help="write schedules that together take every outcome of every row",
        description=DESCRIPTION,
        epilog=EPILOG,
        formatter_class=RawDescriptionHelpFormatter,
    )
    add_explored_sizes(parser, 2, 2)
    add_memory(parser)
    parser.add_argument("--longest", metavar="ROWS", type=inputs.whole(1, MOST_ROWS), default=_LONGEST, help=f"about how many rows a schedule has ({_LONGEST})")
    parser.add_argument("--transitions", action="store_true", help="take every row at every state too")
    parser.add_argument("--beyond", action="store_true", help="write the schedules that go beyond these sizes too")
    where = "where the schedules and their records are written: a folder that is made, or is empty"
    parser.add_argument("-o", dest="output", metavar="FOLDER", help=where)
    inputs.add_jobs(parser.add_argument_group("how"))
    parser.set_defaults(run=_cover)


class Happening(NamedTuple):
    """An outcome of a row: its program counter, the kind of its entry, and all of it in words."""

    counter: int
    kind: int
    text: str


class First(NamedTuple):
    """Where something happens first: a state, and the row behind its schedule."""

    state: int
    row: Row


class Piece(NamedTuple):
    """Rows from the fresh lock to the fresh lock, and what they take that those before them do not."""

    rows: tuple[Row, ...]
    new: tuple[str, ...]


class Covering(NamedTuple):
    """A schedule of a suite: some pieces, one behind the other."""

    schedule: Schedule
    pieces: tuple[Piece, ...]


@lru_cache(1 << 18)
def outcome(counter: int, row: Row, entry: journal.Entry, before: bytes, after: bytes) -> Happening:
    """What a row does, told without the numbers of threads."""
    was, now = _lock(before), _lock(after)
    said = [PROGRAM_COUNTERS[counter], ": "]
    if row.order != orders.GO_ON:
        said += ["read by a node" if row.order > orders.READ_LOCK else orders.words(row.order), ", "]
    said.append(journal.KINDS[entry.kind])
    if entry.place < journal.QUEUE:
        said.append(f" on {'the root' if entry.place == journal.ROOT else 'a node'} {_value(now, entry.place)}")
    if entry.kind in _QUEUED:
        said.append(f", queue {_queue(was)} to {_queue(now)}")
    return Happening(counter, entry.kind, "".join([*said, ", then ", now.threads[row.thread].standing]))


# The kinds of entries for which it matters who is queued.
_QUEUED: Final = (journal.CHANGED_QUEUE, journal.STORED, journal.WOKE, journal.HELD_UP)


@lru_cache(1 << 14)
def _lock(lines: bytes) -> LockState:
    return sheet_of(lines).locks[0]


def _value(lock: LockState, word: int) -> str:
    """What a word has, many counts being one."""
    if word != journal.ROOT:
        return _count(lock.nodes[word - 1])
    return f"({_count(lock.root.direct)}, {_count(lock.root.tree or 0)}, {'closed' if lock.root.closed else 'open'})"


def _queue(lock: LockState) -> str:
    """Who is queued: whether readers are, and how many writers."""
    readers = "readers" if lock.queue.groups > lock.queue.writers else "no readers"
    return f"({readers}, {_count(lock.queue.writers)} writers)"


def _count(number: int) -> str:
    return str(number) if number < _MANY else f"{_MANY} or more"


def _happenings(opened: Opened, first: int, end: int) -> dict[Happening, First]:
    """What happens at the states from one to another, and where first."""
    found: dict[Happening, First] = {}
    for state in range(first, end):
        for asked in opened.asked(state):
            found.setdefault(_told(asked), First(state, asked.row))
    return found


def _told(asked: Asked) -> Happening:
    return outcome(asked.counter, asked.row, asked.entry, asked.before, asked.after)


def happenings(explored: Exploration, jobs: int = 1, progress: Progress | None = None) -> dict[Happening, First]:
    """All that can happen, and where first."""
    found: dict[Happening, First] = {}
    for end, part in explored.over(_happenings, jobs):
        for happening, first in part.items():
            found.setdefault(happening, first)
        if progress is not None:
            progress.show(end)
    return found


def suite(explored: Exploration, wanted: dict[Happening, First], longest: int) -> list[Covering]:
    """Schedules that together take all that is wanted."""
    pieces = [*_needed(_chosen(explored, wanted)), *_changed_back(explored, wanted), *_behind_each_other(explored)]
    return _joined(explored, [Piece(finished(explored, piece.rows), piece.new) for piece in pieces], explored.threads, longest)


def beyond(explored: Exploration, wanted: dict[Happening, First], longest: int) -> list[Covering]:
    """Schedules that go beyond the sizes: what small locks do not show."""
    handed = {happening: first for happening, first in wanted.items() if happening.kind in (journal.STORED, journal.WOKE)}
    highest = [_by_highest(Piece(finished(explored, piece.rows), piece.new)) for piece in _needed(_chosen(explored, handed))]
    return [*_joined(explored, highest, MOST_THREADS, longest), *_one_behind_the_other(explored)]


def _chosen(explored: Exploration, wanted: dict[Happening, First]) -> list[tuple[Rows, frozenset[Happening]]]:
    """Rows that together take all that is wanted: the deepest are looked for first, and what others take beside it is left out."""
    left, chosen = set(wanted), list[tuple[Rows, frozenset[Happening]]]()
    for happening, first in sorted(wanted.items(), key=lambda item: (-item[1].state, item[0])):
        if happening in left:
            taken = frozenset(_on_the_way(explored, first)).intersection(wanted)
            chosen.append((_rows(explored, first), taken))
            left -= taken
    return chosen


def _by_highest(piece: Piece) -> Piece:
    """The same rows by the threads with the highest numbers that there can be. Who is queued or woken is a set of threads, of which small locks use few."""
    return Piece(tuple(Row(MOST_THREADS - 1 - row.thread, row.order) for row in piece.rows), piece.new)


def _one_behind_the_other(explored: Exploration) -> Iterator[Covering]:
    """Two threads hand the lock to each other as writers, more often than there can be threads: no state shows how many have waited before."""
    if explored.threads > 1:
        history = _called(explored.fresh().then(Row(1, orders.WRITE_LOCK)), 1)
        for number in range(_WAITING):
            waits = number % 2
            history = _called(history.then(Row(waits, orders.WRITE_LOCK)), waits)
            history = _called(history.then(Row(1 - waits, orders.UNLOCK)), 1 - waits)
        piece = Piece(finished(explored, history.rows), (f"{_WAITING} writers wait, one behind the other",))
        yield from _joined(explored, [piece], explored.threads, len(piece.rows))


def _needed(chosen: list[tuple[Rows, frozenset[Happening]]]) -> Iterator[Piece]:
    """The pieces without those of which all is taken by others, the shortest first, each with what it takes first."""
    kept = list(chosen)
    for one in sorted(chosen, key=lambda item: len(item[1])):
        others = frozenset().union(*(taken for other, taken in kept if other is not one[0]))
        if one[1] <= others:
            kept.remove(one)
    seen: set[Happening] = set()
    for rows, taken in sorted(kept, key=lambda item: len(item[0])):
        yield Piece(rows, tuple(happening.text for happening in sorted(taken - seen)))
        seen |= taken


def _rows(explored: Exploration, first: First) -> Rows:
    return (*explored.schedule(first.state).rows, first.row)


def _on_the_way(explored: Exploration, first: First) -> Iterator[Happening]:
    """All that happens in a schedule: its rows are those between the states on the way, and the last one."""
    for state, row in zip(explored.path(first.state), _rows(explored, first), strict=True):
        yield next(_told(asked) for asked in explored.asked(state) if asked.row == row)


def _changed_back(explored: Exploration, wanted: dict[Happening, First]) -> Iterator[Piece]:
    """For each program counter, a swap that is done though its word was changed meanwhile, and changed back: no state shows that."""
    seen: set[int] = set()
    for happening, first in sorted(wanted.items(), key=lambda item: item[1].state):
        if happening.counter not in seen and happening.kind == journal.SWAPPED:
            history = explored.history(first.state)
            for thread, line in enumerate(history.end.locks[0].threads):
                if line.standing == "idle" and thread != first.row.thread:
                    around = _ended(history.then(Row(thread, orders.READ_LOCK)), {thread})
                    swapped = around.then(first.row)
                    entry = swapped.entry(len(swapped.rows) - 1)
                    meanwhile = range(len(history.rows), len(around.rows))
                    if entry.kind == journal.SWAPPED and any(around.entry(row) == entry for row in meanwhile):
                        seen.add(happening.counter)
                        yield Piece(swapped.rows, (f"{happening.text}, the word having been changed and changed back",))
                        break


def _behind_each_other(explored: Exploration) -> Iterator[Piece]:
    """Each way to hold a lock behind each other by one thread, which is alone: no state shows what the thread did before."""
    reads = [(orders.READ_LOCK + node,) for node in range(explored.nodes)]
    ways = [*reads, *((*read, orders.UPGRADE) for read in reads), (orders.WRITE_LOCK,), (orders.WRITE_LOCK, orders.DOWNGRADE)]
    for first, second in product(ways, repeat=2):
        history = explored.fresh()
        for call in (*first, orders.UNLOCK, *second, orders.UNLOCK):
            history = _called(history.then(Row(0, call)), 0)
        yield Piece(history.rows, (f"{_ways_text(second)} behind {_ways_text(first)} by one thread",))


def _ways_text(calls: tuple[int, ...]) -> str:
    return " and ".join(map(orders.words, calls))


def _called(history: History, thread: int) -> History:
    """A call that a thread began, while no other is in one, made to its end, or until it sleeps."""
    while history.end.locks[0].threads[thread].standing == "calling":
        history = history.then(Row(thread, orders.GO_ON))
    return history


def finished(explored: Exploration, rows: Rows) -> Rows:
    """The rows, and more until all threads are idle, so that what went wrong before is seen: those in a call go on, those that hold unlock."""
    return _ended(explored.fresh().then(*rows), set(range(explored.threads))).rows


def _ended(history: History, threads: set[int]) -> History:
    """More rows of some threads, in turns, until these are idle, sleep or are held up."""
    moved = True
    while moved:
        moved = False
        for thread in sorted(threads):
            standing = history.end.locks[0].threads[thread].standing
            if standing in ("calling", "reading", "writing"):
                longer = history.then(Row(thread, orders.GO_ON if standing == "calling" else orders.UNLOCK))
                if longer.kinds[-1] != journal.HELD_UP:
                    history, moved = longer, True
    return history


def _joined(explored: Exploration, pieces: list[Piece], threads: int, longest: int) -> list[Covering]:
    """The pieces dealt out to schedules of so many threads and about so many rows. Behind each the lock is as it was made, so that the next one leads to the same states; and what
    a server's lock keeps from before shows."""
    count = max(1, -(-sum(len(piece.rows) for piece in pieces) // longest))
    dealt = [tuple(pieces[number::count]) for number in range(count)]
    return [Covering(Schedule(explored.nodes, explored.fan, threads, tuple(row for piece in some for row in piece.rows)), some) for some in dealt if some]


def transitions(explored: Exploration, longest: int) -> list[Covering]:
    """Schedules that together take every row at every state: each row by which no state's own schedule goes on ends a piece, after those that are held up."""
    led = {(explored.path(state)[-2], explored.schedule(state).rows[-1]) for state in range(1, explored.states)}
    inner = {parent for parent, _ in led}
    pieces: list[Piece] = []
    for state in range(explored.states):
        others = [asked for asked in explored.asked(state) if (state, asked.row) not in led]
        # A row that is held up changes nothing, so that the others may come behind it.
        staying = tuple(asked.row for asked in others if asked.entry.kind == journal.HELD_UP)
        leading = [(asked.row,) for asked in others if asked.entry.kind != journal.HELD_UP]
        ends = [(*staying, *leading[0]), *leading[1:]] if leading else [staying] if staying or state not in inner else []
        pieces += (Piece(finished(explored, (*explored.schedule(state).rows, *rows)), ()) for rows in ends)
    return _joined(explored, pieces, explored.threads, longest)


# ---- The command.


def _cover(arguments: Namespace) -> int:
    folder = None if arguments.output is None else _folder(arguments.output)
    with Status(sys.stderr) as status:
        explored = explore(
            arguments.nodes, arguments.fan, arguments.threads, memory(arguments), watch=lambda found, seconds: status.show(rate_text(found, seconds))
        )
    if not explored.complete:
        raise inputs.NotSo(f"{explored.sizes} has more than {explored.states:,} states, and the memory is {arguments.memory:,} MB (--memory)")
    with Progress(explored.states, sys.stderr, "looking at rows") as progress:
        wanted = happenings(explored, inputs.jobs(arguments), progress)
    chosen = suite(explored, wanted, arguments.longest)
    if arguments.transitions:
        chosen += transitions(explored, arguments.longest)
    further = beyond(explored, wanted, arguments.longest) if arguments.beyond else []
    if folder is not None:
        _write(folder, chosen + further)
    inputs.write_lines([*_summary(explored, wanted, chosen, arguments.transitions), *_further(explored, further)])
    return 0


def _folder(name: str) -> Path:
    """The folder for the suite, which is made where it is not there."""
    folder = Path(name)
    try:
        folder.mkdir(exist_ok=True)
        if any(folder.iterdir()):
            raise inputs.UsageError("the folder is not empty", name)
    except OSError as error:
        raise inputs.OutputError(str(error.strerror), name) from None
    return folder


def _write(folder: Path, chosen: list[Covering]) -> None:
    """Writes each schedule as a text and as a file, and its record."""
    digits = len(str(len(chosen) - 1))
    for number, one in enumerate(chosen):
        name = folder / f"{number:0{digits}}"
        inputs.write(f"{name}.schedule.txt", _text(one, f"schedule {number} of {len(chosen)}").encode("ascii"))
        inputs.write(f"{name}.schedule", one.schedule.to_bytes())
        inputs.write(f"{name}.record", record.written(run(one.schedule), "bytes"))


def _text(one: Covering, name: str) -> str:
    """A schedule as a text, with what each piece of it takes first."""
    whole = one.schedule
    lines = [f"# N {whole.nodes}, F {whole.fan}, T {whole.threads}: {name}, {rows_text(len(whole.rows))}"]
    for number, piece in enumerate(one.pieces):
        # The sizes stand in the first piece alone.
        text = notation.print_schedule(replace(whole, rows=piece.rows)).splitlines()
        lines += ["", *(f"# {said}" for said in piece.new), *(text if number == 0 else text[_SIZE_LINES:])]
    return "\n".join([*lines, "expect all threads idle"]) + "\n"


def _summary(explored: Exploration, wanted: dict[Happening, First], chosen: list[Covering], every_row: bool) -> Iterator[str]:
    rows = [len(one.schedule.rows) for one in chosen]
    counters = {happening.counter for happening in wanted}
    yield f"{explored.sizes}: {len(chosen):,} schedules, {sum(rows):,} rows in all, the longest has {max(rows)}"
    yield f"program counters taken: all {len(counters)} that any of {explored.states:,} states has, of {len(PROGRAM_COUNTERS)} that there are"
    yield f"outcomes of rows taken: all {len(wanted):,} that there are at these sizes"
    if every_row:
        yield "every row at every state is taken"
    never = [name for number, name in enumerate(PROGRAM_COUNTERS) if number not in counters]
    if never:
        yield from wrap(f"not possible at these sizes: {', '.join(never)}", _WIDE)


def _further(explored: Exploration, further: list[Covering]) -> Iterator[str]:
    if further:
        rows = sum(len(one.schedule.rows) for one in further)
        high = sum(one.schedule.threads > explored.threads for one in further)
        waiting = f", and one in which {_WAITING} writers wait, one behind the other" if explored.threads > 1 else ""
        yield f"beyond these sizes: {len(further):,} schedules more, {rows:,} rows in all: {high} by the highest threads of {MOST_THREADS}{waiting}"
