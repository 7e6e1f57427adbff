"""The errors that this package raises."""

from __future__ import annotations


class BenchError(ValueError):
    """Something that is wrong, and the place where.

    ``what`` says what is wrong; ``where`` names a file, a row, a line, or nothing. The text of the error is ``WHERE: WHAT``.
    """

    def __init__(self, what: str, where: str | None = None) -> None:
        super().__init__(what, where)
        self.what = what
        self.where = where

    def __str__(self) -> str:
        return self.what if self.where is None else f"{self.where}: {self.what}"


class NotationError(BenchError):
    """A text that is not in the notation: its file, and the line and column, both from 1, where reading stopped."""

    def __init__(self, what: str, file: str, line: int, column: int) -> None:
        super().__init__(what, f"{file}:{line}:{column}")
        # With these it is made again in another process.
        self.args = (what, file, line, column)
        self.file = file
        self.line = line
        self.column = column


class LibraryError(BenchError):
    """The library cannot be built or loaded, or lacks a function."""
