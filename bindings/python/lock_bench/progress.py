"""A progress bar with the time left, on a terminal alone."""

from __future__ import annotations

import os
import shutil
import time
from types import TracebackType
from typing import Final, TextIO

# Seconds between two bars.
_PAUSE: Final = 0.1
_BACK: Final = "\r\x1b[K"


class Progress:
    """The bar of a piece of work, as long as the ``with`` statement lasts; it leaves no trace. Where the stream is no terminal there is none."""

    def __init__(self, total: int, stream: TextIO | None, label: str = "") -> None:
        self._stream = _terminal(stream)
        self._next = time.monotonic()
        self.begin(total, label)

    def begin(self, total: int, label: str = "") -> None:
        """Begins anew with another total, for work that turns out to be more; the label stands before the bar."""
        self._total = total
        self._label = label
        self._begun = time.monotonic()

    def __enter__(self) -> Progress:
        self.show(0)
        return self

    def __exit__(self, kind: type[BaseException] | None, error: BaseException | None, trace: TracebackType | None) -> None:
        if self._stream is not None:
            self._stream.write(_BACK)
            self._stream.flush()

    def show(self, done: int) -> None:
        """Shows that so much of the total is done."""
        now = time.monotonic()
        if self._stream is None or now < self._next:
            return
        self._next = now + _PAUSE
        self._stream.write(_BACK + bar(done, self._total, now - self._begun, shutil.get_terminal_size().columns, self._label))
        self._stream.flush()


class Status:
    """A line that says how far a piece of work is of which the end is not known, as long as the ``with`` statement lasts; on a terminal alone."""

    def __init__(self, stream: TextIO | None) -> None:
        self._stream = _terminal(stream)
        self._next = time.monotonic()

    def __enter__(self) -> Status:
        return self

    def __exit__(self, kind: type[BaseException] | None, error: BaseException | None, trace: TracebackType | None) -> None:
        if self._stream is not None:
            self._stream.write(_BACK)
            self._stream.flush()

    def show(self, text: str) -> None:
        """Shows the line, unless the one before was shown just now."""
        now = time.monotonic()
        if self._stream is None or now < self._next:
            return
        self._next = now + _PAUSE
        self._stream.write(_BACK + text[: shutil.get_terminal_size().columns - 1])
        self._stream.flush()


def _terminal(stream: TextIO | None) -> TextIO | None:
    """The stream where it is a terminal on which a line can change."""
    return stream if stream is not None and stream.isatty() and os.environ.get("TERM") != "dumb" else None


def bar(done: int, total: int, seconds: float, columns: int, label: str = "") -> str:
    """The bar after so many seconds, for a terminal of so many columns: ``[#####.....]  50 %, 0:07 left``, with the label before it."""
    share = done / total
    before = f"{label} " if label and len(label) + 30 < columns else ""
    said = f"{int(100 * share):>3} %"
    # The first results say too little.
    if share >= 0.01 and seconds >= 0.5:
        said += f", {_clock(seconds / share - seconds)} left"
    # A line that is full would break, and the next bar could not take its place.
    width = max(0, min(50, columns - len(before) - len(said) - len("[]  ") - 1))
    filled = int(width * share)
    return f"{before}[{'#' * filled}{'.' * (width - filled)}] {said}" if width else said[: columns - 1]


def _clock(seconds: float) -> str:
    whole = int(seconds + 0.999)
    minutes, rest = divmod(whole, 60)
    hours, minutes = divmod(minutes, 60)
    return f"{hours}:{minutes:02}:{rest:02}" if hours else f"{minutes}:{rest:02}"
