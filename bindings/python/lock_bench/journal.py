"""The journal: what each row did, and on which word."""

from __future__ import annotations

from typing import Final, NamedTuple

from .errors import BenchError

BEGUN: Final = 0
READ: Final = 1
SWAPPED: Final = 2
FAILED: Final = 3
HELD_UP: Final = 4
STORED: Final = 5
TOOK_MUTEX: Final = 6
RELEASED_MUTEX: Final = 7
CHANGED_QUEUE: Final = 8
WOKE: Final = 9
DENIED_UPGRADE: Final = 10
BOOKED: Final = 11
REPEATED: Final = 12
DENIED_BOOKING: Final = 13

#: The names of the kinds, by number.
KINDS: Final[dict[int, str]] = {
    BEGUN: "call begun",
    READ: "word read",
    SWAPPED: "swap done",
    FAILED: "swap failed",
    HELD_UP: "held up",
    STORED: "plain store",
    TOOK_MUTEX: "queue mutex taken",
    RELEASED_MUTEX: "mutex released",
    CHANGED_QUEUE: "queue changed or found empty",
    WOKE: "sleepers woken",
    DENIED_UPGRADE: "upgrade denied",
    BOOKED: "booked",
    REPEATED: "repeated",
    DENIED_BOOKING: "booking denied",
}

#: The word of the root.
ROOT: Final = 0
#: The word of the mutex and the queue.
QUEUE: Final = 32
#: The word of a row that touches none.
NO_WORD: Final = 33
#: Added to a word, it makes it one of the second lock.
SECOND_WORD: Final = 64


#: What stands in a journal's bytes for a row without an entry: what this package lends has it everywhere before a run.
NO_ENTRY: Final = 0xEE


def kind_text(kind: int) -> str:
    """The name of a kind, also of one that is none."""
    return KINDS.get(kind, f"unknown kind {kind}")


def word_text(word: int) -> str:
    """The name of a word: ``root``, ``node 3``, ``queue``, ``none``, and ``root second`` of the second lock."""
    place, second = word % SECOND_WORD, " second" if word // SECOND_WORD == 1 else ""
    match place:
        case 0:
            name = "root"
        case 32:
            name = "queue"
        case 33:
            name = "none"
        case _:
            name = f"node {place}"
    return f"{name}{second}" if place <= NO_WORD and word < 2 * SECOND_WORD else f"unknown word {word}"


class Entry(NamedTuple):
    """An entry: the kind of what the row did (``KINDS``), and the word: 0 the root, n node n, 32 mutex and queue, 33 none; 64 more for the second lock."""

    kind: int
    word: int

    @property
    def lock(self) -> int:
        """The lock that the row belongs to: 0 the first, 1 the second."""
        return self.word // SECOND_WORD

    @property
    def place(self) -> int:
        """The word within its lock."""
        return self.word % SECOND_WORD


class Journal(tuple[Entry, ...]):
    """The entries of the rows taken, in order."""

    @classmethod
    def from_bytes(cls, journal: bytes, rows_taken: int, rows: int) -> Journal:
        """The entries in a journal's bytes: kinds from byte 0 on, words from byte ``rows`` on, of which the first ``rows_taken`` were made."""
        if not 0 <= rows_taken <= rows:
            raise BenchError(f"rows taken must be 0 to {rows}, not {rows_taken}", "journal")
        if rows_taken and len(journal) < 2 * rows:
            raise BenchError(f"{len(journal)} bytes; with {rows} rows it must have {2 * rows}", "journal")
        return cls(map(Entry, journal[:rows_taken], journal[rows : rows + rows_taken]))

    def to_bytes(self, rows: int | None = None) -> bytes:
        """The bytes of a journal of so many rows, of which these are the first: all kinds, then all words; ``ee`` where there is no entry."""
        rows = len(self) if rows is None else rows
        if rows < len(self):
            raise BenchError(f"{len(self)} entries do not fit {rows} rows", "journal")
        behind = bytes((NO_ENTRY,)) * (rows - len(self))
        return bytes(entry.kind for entry in self) + behind + bytes(entry.word for entry in self) + behind
