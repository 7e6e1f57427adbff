"""What the page of ``play`` asks, answered: the run that it shows, what could come next, the rows that a click adds, conditions, texts.

A question has the whole run in it, so nothing depends on who asked before; runs are kept only to answer sooner. Every question is bounded, in length by the
server and in time here. Every state, entry and order that suits comes from the library.
"""

from __future__ import annotations

import base64
import binascii
import shlex
import threading
import time
from collections.abc import Callable, Sequence
from dataclasses import dataclass, field
from typing import Any, Final, NamedTuple

from . import condition, coming, inputs, notation, orders, page, refusal, stepping
from .condition import Condition, Sizes
from .errors import BenchError
from .history import MOST_ROWS, History
from .journal import Journal
from .native import Library
from .run import Run
from .schedule import HEAD, Row, Schedule
from .sheet import REFUSALS
from .stepping import Limits, Stepped, Wanted
from .stuck import STUCK, is_stuck_after
from .till import Till
from .trace import Memory, describe

#: The longest condition, and the longest text of a schedule or a till, that a question may have.
MOST_CONDITION: Final = 2_000
MOST_TEXT: Final = 400_000
#: The most rounds, and the most turns drawn, of one question.
MOST_TIMES: Final = 1_000
#: Seconds after which an answer stops where it is, and says so.
SECONDS: Final = 1.5
# Runs that are kept.
_KEPT: Final = 4
_MOST_FILE: Final = HEAD + 2 * MOST_ROWS
# Two bytes, and three for each of 255 entries: whatever a till file can hold.
_MOST_TILL: Final = 2 + 3 * 0xFF

Question = dict[str, Any]
Answer = dict[str, Any]


class Refused(BenchError):
    """A question that is none, or asks for what there is not."""


@dataclass(frozen=True, slots=True)
class Start:
    """What the page shows first: the run's file, its till, its title, the row at which it opens, a condition to watch, and what is said of it."""

    file: bytes
    till: bytes | None = None
    title: str = "play"
    row: int | None = None
    watch: str = ""
    note: str = ""
    #: Whether the second lock is shown also where no row is of it.
    second: bool = False
    #: The name of the till's file, for command lines.
    till_name: str | None = None


@dataclass
class _Kept:
    """A run, its file and its till, and what its rows did in words."""

    history: History
    file: _File
    till: bytes | None
    said: list[str] = field(default_factory=list)
    memory: Memory = field(default_factory=Memory)
    _leaving: list[list[list[int]]] | None = None

    def leaving(self) -> list[list[list[int]]]:
        """For each lock the order in which its queue will leave, asked once."""
        if self._leaving is None:
            self._leaving = [coming.leaving(self.history, lock) for lock in range(len(self.history.end.locks))]
        return self._leaving

    def tell(self) -> None:
        """Says what the rows did that nothing was said of yet."""
        history, till = self.history, _till(self.till)
        for i in range(len(self.said), len(history.rows)):
            row, entry, after = history.rows[i], history.entry(i), history.state(i + 1)
            told = describe(history.schedule, i, history.state(i), after, entry, self.memory.expected(row.thread, entry))
            self.said.append(page.said_of(told, row, entry, till))
            self.memory.note(row.thread, entry, after)

    def first(self, rows: int) -> _Kept:
        """The first rows; what each thread saw of each word is taken from them again."""
        if rows == len(self.history.rows):
            return _Kept(self.history, self.file, self.till, list(self.said), Memory(self.memory))
        shorter = _Kept(self.history.first(rows), self.file.first(rows), self.till, self.said[:rows])
        for i in range(rows):
            shorter.memory.note(self.history.rows[i].thread, self.history.entry(i), self.history.state(i + 1))
        return shorter

    def then(self, history: History) -> _Kept:
        """A history that goes on from these rows, with what all of its rows did."""
        longer = _Kept(history, self.file.then(history.rows[len(self.history.rows) :]), self.till, list(self.said), Memory(self.memory))
        longer.tell()
        return longer


class _File(NamedTuple):
    """The parts of a schedule's file, which are compared faster than its rows."""

    sizes: bytes
    threads: bytes
    orders: bytes

    @classmethod
    def read(cls, file: bytes) -> _File:
        """The parts of a file's bytes."""
        count = int.from_bytes(file[3:HEAD], "little")
        if len(file) != HEAD + 2 * count:
            # Says what is wrong.
            Schedule.from_bytes(file)
        return cls(file[:3], file[HEAD : HEAD + count], file[HEAD + count :])

    def first(self, rows: int) -> _File:
        """The first rows."""
        return _File(self.sizes, self.threads[:rows], self.orders[:rows])

    def then(self, rows: Sequence[Row]) -> _File:
        """These rows and more."""
        return _File(self.sizes, self.threads + bytes(row.thread for row in rows), self.orders + bytes(row.order for row in rows))

    def shared(self, other: _File) -> int:
        """How many first rows are the same."""
        rows = min(len(self.threads), len(other.threads))
        if self.first(rows) == other.first(rows):
            return rows
        pairs = zip(zip(self.threads, self.orders), zip(other.threads, other.orders))
        return next((i for i, (row, its) in enumerate(pairs) if row != its), rows)

    def rows(self, first: int) -> tuple[Row, ...]:
        """The rows from one on."""
        return tuple(map(Row, self.threads[first:], self.orders[first:]))


class Played:
    """Answers the page's questions."""

    def __init__(self, start: Start, library: Library, wanted: Wanted | None = None, output: str | None = None) -> None:
        self.start = start
        self._library = library
        self._wanted = wanted
        self._output = output
        self._kept: list[_Kept] = []
        # One question at a time: the page asks one after the other.
        self._lock = threading.Lock()
        self._answers: dict[str, Callable[[Question], Answer]] = {
            "open": self._open,
            "next": self._next,
            "rows": self._rows,
            "watch": self._watch,
            "start": self._start,
            "copy": self._copy,
            "save": self._save,
        }

    def names(self) -> frozenset[str]:
        """The questions that there are."""
        return frozenset(self._answers)

    def answer(self, name: str, question: Question) -> Answer:
        """The answer to a question; raises ``BenchError`` where it is none."""
        with self._lock:
            try:
                return self._answers[name](question)
            except RecursionError:
                raise Refused("too many brackets within each other") from None

    # ---- The questions.

    def _open(self, question: Question) -> Answer:
        """The run as the page's script reads it."""
        kept = self._run(question)
        history = kept.history
        refused = f"row {len(history.rows)} is refused with {history.answer}: {REFUSALS[history.answer]}" if history.answer else ""
        return self._data(kept) | {"given": [row.order for row in history.rows], "note": refused}

    def _next(self, question: Question) -> Answer:
        """What could come next, and the order in which the queues will leave."""
        kept = self._run(question)
        history, till = kept.history, _till(kept.till)
        nodes = _nodes(question, history)
        entry = _number(question, "entry", len(till.entries) - 1) if till is not None and till.entries else None
        full = len(history.rows) == MOST_ROWS
        return {
            "choices": [[] for _ in range(history.threads)] if full else coming.choices(history, nodes, entry, till),
            "leaving": kept.leaving(),
            "stuck": STUCK if is_stuck_after(history) else "",
            "note": f"The bench takes {MOST_ROWS:,} rows, and no more: step back to go on from there." if full else "",
        }

    def _rows(self, question: Question) -> Answer:
        """The rows that a click adds behind the run, and why there are no more."""
        kept = self._run(question)
        before = len(kept.history.rows)
        if before == MOST_ROWS:
            raise Refused(f"the bench takes {MOST_ROWS:,} rows, and no more")
        stepped = self._stepped(question, kept)
        longer = kept.then(stepped.history)
        self._keep(longer)
        history = longer.history
        states = [history.state(i) for i in range(before, len(history.rows) + 1)]
        changes = page.changed_fields(states)
        rows = [
            {"thread": row.thread, "given": row.order, "order": orders.words(row.order), "kind": entry.kind, "word": entry.word, "said": said, "change": change}
            for row, entry, said, change in zip(history.rows[before:], map(history.entry, range(before, len(history.rows))), longer.said[before:], changes)
        ]
        return {"rows": rows, "note": stepped.note, "leaving": longer.leaving()}

    def _stepped(self, question: Question, kept: _Kept) -> Stepped:
        history = kept.history
        limits = Limits(time.monotonic() + SECONDS, self._stops(question, history))
        # Wanted calls are those of their own sizes.
        wanted = self._wanted if self._wanted is not None and len(self._wanted) == history.threads else None
        match question.get("do"):
            case "row":
                thread, order = _number(question, "thread", 0xFF), _number(question, "order", 0xFF)
                longer = history.then(Row(thread, order))
                refused = f"'{orders.words(order)}' of thread {thread} is refused with {longer.answer}: {REFUSALS[longer.answer]}" if longer.answer else ""
                return Stepped(longer if not longer.answer else history, refused)
            case "end":
                return stepping.to_end(history, _number(question, "thread", history.threads - 1), limits)
            case "asleep":
                return stepping.until_asleep(history, limits)
            case "rounds":
                return stepping.rounds(history, _number(question, "times", MOST_TIMES, 1), wanted, limits)
            case "drawn":
                times, seed = _number(question, "times", MOST_TIMES, 1), _number(question, "seed", 1 << 30)
                locks = 2 if question.get("second") is True else 1
                return stepping.drawn(history, times, wanted, locks, kept.till, seed, limits)
            case _:
                raise Refused("'do' is none of row, end, asleep, rounds and drawn")

    def _stops(self, question: Question, history: History) -> Callable[[History], bool]:
        """Whether the watched condition, if there is one, comes true with the last row."""
        watched = _condition(question, history)

        def comes_true(longer: History) -> bool:
            return watched is not None and watched.holds(longer) and not watched.holds(longer.first(len(longer.rows) - 1))

        return comes_true

    def _watch(self, question: Question) -> Answer:
        """After how many rows, from ``from`` on, the condition comes true; ``to`` is how far that was asked within the time."""
        kept = self._run(question)
        history = kept.history
        watched = _condition(question, history)
        if watched is None:
            return {"true": [], "to": len(history.rows), "now": False}
        first = _number(question, "from", len(history.rows))
        until, came, at = time.monotonic() + SECONDS, [], first
        held = first > 0 and watched.holds(history.first(first - 1))
        for at in range(first, len(history.rows) + 1):
            holds = watched.holds(history.first(at))
            if holds and not held:
                came.append(at)
            held = holds
            if time.monotonic() >= until:
                break
        return {"true": came, "to": at, "now": held}

    def _start(self, question: Question) -> Answer:
        """Another start: the text or the bytes of a schedule, or sizes; and the text of a till."""
        text = _text(question, "tillText", MOST_TEXT)
        till = notation.parse_till(text, "till").to_bytes() if text.strip() else None
        if "text" in question:
            read = notation.parse_script(_text(question, "text", MOST_TEXT), "text").read(till, self._library)
            if read.unmet:
                raise read.unmet[0]
            file = read.schedule.to_bytes()
        elif "file" in question:
            file = _bytes(question, "file", _MOST_FILE)
        else:
            nodes, fan, threads = (_number(question, name, *reversed(refusal.RANGES[name])) for name in ("nodes", "fan", "threads"))
            file = Schedule(nodes, fan, threads, ()).to_bytes()
        self._fresh(_File.read(file), till)
        return {"file": encoded(file), "till": None if till is None else encoded(till)}

    def _copy(self, question: Question) -> Answer:
        """The run in another form."""
        kept = self._run(question)
        match question.get("as"):
            case "text":
                return {"text": notation.print_schedule(kept.history.schedule)}
            case "till":
                till = _till(kept.till)
                return {"text": "" if till is None else notation.print_till(till)}
            case "command":
                return {"text": self._command(kept)}
            case "page":
                return {"text": self._page(kept)}
            case _:
                raise Refused("'as' is none of text, till, command and page")

    def _save(self, question: Question) -> Answer:
        """Writes the run to the file that the command line named, and to no other."""
        if self._output is None:
            raise Refused("the command line names no file: ./bench play -o FILE")
        kept = self._run(question)
        if self._output.endswith((".html", ".htm")):
            data = self._page(kept).encode("utf-8")
        elif self._output.endswith(inputs.TEXT):
            data = notation.print_schedule(kept.history.schedule).encode("ascii")
        else:
            data = kept.history.schedule.to_bytes()
        inputs.write(self._output, data)
        return {"saved": self._output}

    def _page(self, kept: _Kept) -> str:
        return page.whole(self._data(kept), self.start.title)

    def _data(self, kept: _Kept) -> Answer:
        """What the page holds of a run."""
        history = kept.history
        states = [history.state(i) for i in range(len(history.rows) + 1)]
        journal = Journal.from_bytes(history.kinds + history.words, len(history.rows), len(history.rows))
        return page.page_data(Run(history.schedule, _till(kept.till), history.end, journal), states, self.start.title)

    def _command(self, kept: _Kept) -> str:
        """A command line that plays this run again."""
        text = " ".join(notation.print_schedule(kept.history.schedule).split())
        till = _till(kept.till)
        if till is None:
            return f"./bench play -e {shlex.quote(text)}"
        name = self.start.till_name if kept.till == self.start.till else None
        make = "" if name else f"./bench make -e {shlex.quote(' '.join(notation.print_till(till).split()))} -o play.till && "
        return f"{make}./bench play --till {shlex.quote(name or 'play.till')} -e {shlex.quote(text)}"

    # ---- The run of a question.

    def _run(self, question: Question) -> _Kept:
        """The run that a question has in it: of one that is kept, as far as they are the same."""
        file = _File.read(_bytes(question, "file", _MOST_FILE))
        till = None if question.get("till") is None else _bytes(question, "till", _MOST_TILL)
        known = [kept for kept in self._kept if kept.till == till and kept.file.sizes == file.sizes]
        # Of those that share as many rows the shortest, of which the least is to be left out.
        best = max(known, key=lambda kept: (kept.file.shared(file), -len(kept.file.threads)), default=None)
        if best is None:
            best = self._fresh(file, till)
        same = best.file.shared(file)
        found = best.first(same) if same < len(best.file.threads) else best
        if same < len(file.threads):
            found = found.then(found.history.then(*file.rows(same)))
        self._keep(found)
        return found

    def _fresh(self, file: _File, till: bytes | None) -> _Kept:
        """The fresh lock of a file's sizes."""
        nodes, fan, threads = file.sizes
        fresh = Schedule(nodes, fan, threads, ())
        for kind, data in (("schedule", fresh.to_bytes()), ("till", till)):
            wrong = None if data is None else refusal.why(kind, data)
            if wrong is not None:
                raise Refused(wrong, kind)
        return _Kept(History.of(fresh, _till(till), self._library), file.first(0), till)

    def _keep(self, kept: _Kept) -> None:
        """Keeps a run, the latest first."""
        self._kept = [kept, *(other for other in self._kept if (other.file, other.till) != (kept.file, kept.till))][:_KEPT]


def encoded(data: bytes) -> str:
    """Bytes as an address can have them."""
    return base64.urlsafe_b64encode(data).decode("ascii").rstrip("=")


def decoded(text: str, most: int) -> bytes:
    """The bytes that such a text stands for."""
    if len(text) > 4 * (most + 3) // 3:
        raise Refused(f"longer than {most:,} bytes")
    try:
        return base64.b64decode(text + "=" * (-len(text) % 4), altchars=b"-_", validate=True)
    except (binascii.Error, ValueError):
        raise Refused("not bytes in base64, as the address of a run has them") from None


def linked(link: str) -> tuple[bytes, bytes | None]:
    """The schedule's file and the till that a link of ``play`` has behind its #."""
    named = dict(part.partition("=")[::2] for part in link.partition("#")[2].split("&"))
    if "run" not in named:
        raise Refused("the link has no run after its #")
    till = named.get("till")
    return decoded(named["run"], _MOST_FILE), None if till is None else decoded(till, _MOST_TILL)


def _till(data: bytes | None) -> Till | None:
    return None if data is None else Till.from_bytes(data, "till")


def _number(question: Question, name: str, most: int, least: int = 0) -> int:
    value = question.get(name)
    if type(value) is not int or not least <= value <= most:
        raise Refused(f"'{name}' must be a whole number from {least} to {most}")
    return value


def _nodes(question: Question, history: History) -> list[list[int]]:
    """For each lock that orders are asked of, the node that each thread would read by."""
    locks = question.get("nodes")
    if isinstance(locks, list) and 1 <= len(locks) <= 2:
        if all(isinstance(nodes, list) and len(nodes) == history.threads for nodes in locks):
            if all(type(node) is int and 0 <= node < history.nodes for nodes in locks for node in nodes):
                return locks
    raise Refused(f"'nodes' must have a number below {history.nodes} for each of {history.threads} threads")


def _text(question: Question, name: str, most: int) -> str:
    value = question.get(name, "")
    if not isinstance(value, str) or len(value) > most:
        raise Refused(f"'{name}' must be a text of at most {most:,} characters")
    return value


def _bytes(question: Question, name: str, most: int) -> bytes:
    return decoded(_text(question, name, 2 * most), most)


def _condition(question: Question, history: History) -> Condition | None:
    """The condition that is watched, where there is one."""
    text = _text(question, "condition", MOST_CONDITION)
    if not text.strip():
        return None
    return condition.parse(text, Sizes(history.threads, history.nodes, len(history.end.rooms)), "condition")
