"""A sheet read no further than a sweep needs it: the answer, the rows taken, and how the first lock's threads stand.

A sweep asks for hundreds of thousands of sheets; ``Sheet.parse``, which reads them whole, would take most of its time.
"""

from __future__ import annotations

import re
from dataclasses import dataclass
from typing import Final

from .sheet import answer_of

_THREAD: Final = re.compile(rb"\nthread [0-9]+ ([a-z]+)")
_ROOT: Final = b"\nroot "


@dataclass(frozen=True, slots=True)
class Standings:
    """The refusal number or 0, the rows taken, and the standing of each thread at the first lock; there is none after refusals 1 to 4."""

    answer: int
    taken: int
    threads: list[bytes]

    @classmethod
    def parse(cls, sheet: bytes) -> Standings:
        """What these bytes, which the library gave, show."""
        answer, taken = answer_of(sheet[: sheet.index(b"\n")])
        second = sheet.find(_ROOT, sheet.find(_ROOT) + 1)
        return cls(answer, taken, _THREAD.findall(sheet, 0, len(sheet) if second < 0 else second))

    @property
    def asleep(self) -> list[bool]:
        """Which threads sleep."""
        return [standing == b"asleep" for standing in self.threads]
