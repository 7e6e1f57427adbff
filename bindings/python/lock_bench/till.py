"""Till files as values.

A till file has the number of rooms R and of entries E, a byte each, then E room numbers, a byte each, then E amounts, two bytes each, signed, low byte first.
"""

from __future__ import annotations

from dataclasses import dataclass
from typing import Final

from .errors import BenchError
from .schedule import check_number

#: The bytes before the room numbers.
HEAD: Final = 2


@dataclass(frozen=True, slots=True)
class TillEntry:
    """An entry: the room whose balance it changes, and by how much: above 0 for a top-up, below 0 for songs."""

    room: int
    amount: int


@dataclass(frozen=True, slots=True)
class Till:
    """The number of rooms and the entries of a till file."""

    rooms: int
    entries: tuple[TillEntry, ...]

    def __post_init__(self) -> None:
        check_number(self.rooms, "rooms", 0xFF)
        if len(self.entries) > 0xFF:
            raise BenchError(f"{len(self.entries)} entries do not fit the file (255 at most)")
        for number, entry in enumerate(self.entries):
            check_number(entry.room, "room", 0xFF, f"entry {number}")
            check_number(entry.amount, "amount", 0x7FFF, f"entry {number}", -0x8000)

    @classmethod
    def from_bytes(cls, file: bytes, name: str | None = None) -> Till:
        """The till in a file's bytes; ``name`` is the file's, for errors."""
        if len(file) < HEAD:
            raise BenchError(f"not a till: {len(file)} bytes, and its sizes alone take {HEAD}", name)
        count = file[1]
        length = HEAD + 3 * count
        if len(file) != length:
            raise BenchError(f"not a till: {len(file)} bytes, and with {count} entries it must have {length}", name)
        amounts = HEAD + count
        return cls(
            file[0],
            tuple(
                TillEntry(file[HEAD + e], int.from_bytes(file[amounts + 2 * e : amounts + 2 * e + 2], "little", signed=True))
                for e in range(count)
            ),
        )

    def to_bytes(self) -> bytes:
        """The file's bytes."""
        return (
            bytes((self.rooms, len(self.entries)))
            + bytes(entry.room for entry in self.entries)
            + b"".join(entry.amount.to_bytes(2, "little", signed=True) for entry in self.entries)
        )
