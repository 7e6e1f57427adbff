"""How far a build is: read from its log, and told on standard error, on a terminal in one line that changes, else line by line."""

from __future__ import annotations

import os
import re
import shutil
import sys
from collections.abc import Sequence
from pathlib import Path
from typing import Final, TextIO

# The first line of a log; what ``rt`` says of a crate as it begins it, where it does not have it already; and what the log has of a program, or of a
# static library, that is made.
_PLANNED: Final = re.compile(r"build: (.*)\n")
_REACHED: Final = re.compile(r"^(?:rt: chose --jobs \d+ for (\w+)|build: made (\w+))$", re.MULTILINE)


def planned(crates: Sequence[str]) -> str:
    """The first line of a log: the crates in the order in which they are proved."""
    return f"build: {' '.join(crates)}\n"


def made(crate: str) -> str:
    """The line of a log that says that a program, or a static library, is made."""
    return f"build: made {crate}\n"


class Watch:
    """Tells how far the build is whose log this is."""

    def __init__(self, log: Path, stream: TextIO | None = None) -> None:
        self._log, self._stream = log, stream or sys.stderr
        self._changing = self._stream.isatty() and os.environ.get("TERM") != "dumb"
        self._shown = ""

    def look(self) -> None:
        """Reads the log, and tells what is new."""
        line = self.line()
        if line and line != self._shown:
            if self._changing:
                self._stream.write("\r\x1b[K" + line[: shutil.get_terminal_size().columns - 1])
                self._stream.flush()
            else:
                print(line, file=self._stream, flush=True)
            self._shown = line

    def say(self, text: str) -> None:
        """Says something that stays."""
        self.clear()
        print(text, file=self._stream, flush=True)

    def clear(self) -> None:
        """Takes the line that changes away."""
        if self._changing:
            self._stream.write("\r\x1b[K")
            self._stream.flush()

    def line(self) -> str:
        """How far it is: ``build: 12 of 28 proved, now cells``. It is empty before the build has begun."""
        try:
            text = self._log.read_text("utf-8", "replace")
        except OSError:
            return ""
        plan = _PLANNED.match(text)
        if plan is None:
            return ""
        crates = plan[1].split()
        place = {crate: number for number, crate in enumerate(crates)}
        done = max((place.get(begun, 0) if begun else place.get(ended, -1) + 1 for begun, ended in _REACHED.findall(text)), default=0)
        now = f"now {crates[done]}" if done < len(crates) else "linking"
        return f"build: {done} of {len(crates)} proved, {now}"


def clock(seconds: float) -> str:
    """Minutes and seconds."""
    whole = int(seconds + 0.5)
    return f"{whole // 60}:{whole % 60:02}"
