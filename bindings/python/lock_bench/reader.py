"""Texts, read token by token: what the notation of schedules and the language of conditions share."""

from __future__ import annotations

import re
from collections.abc import Iterable
from difflib import get_close_matches
from typing import Final, NamedTuple, NoReturn

from .errors import NotationError

_TOKEN: Final = re.compile(r"(?P<space>(?:[ \t\r\n\ufeff]|#[^\n]*)+)|(?P<word>[A-Za-z]+)|(?P<number>[0-9]+)|(?P<mark>[<>!=]=|[:,*=()+<>-])")
# More digits than any number of a file has.
_DIGITS: Final = 9
# So much of a word or a number is shown in a message.
_SHOWN: Final = 40
# What stands in an argument for a byte that is not UTF-8.
_BYTES: Final = range(0xDC80, 0xDD00)


class Token(NamedTuple):
    """A word, a number or a mark, and where it begins."""

    kind: str
    text: str
    start: int


class Reader:
    """Reads a text token by token. It is split as far as it is read, so that a long text is refused as soon as a short one."""

    def __init__(self, text: str, name: str) -> None:
        self.text = text
        self.name = name
        #: The tokens up to the furthest that was looked at.
        self.tokens: list[Token] = []
        self.at = 0
        self._split_to = 0

    def token(self, number: int) -> Token:
        """A token by its number; behind the last one there is the end."""
        while len(self.tokens) <= number:
            if self.tokens and self.tokens[-1].kind == "end":
                return self.tokens[-1]
            self.tokens.append(self._split())
        return self.tokens[number]

    def _split(self) -> Token:
        while self._split_to < len(self.text):
            place = self._split_to
            found = _TOKEN.match(self.text, place)
            if found is None:
                self.fail(f"unexpected {quoted(self.text[place])}", place)
            self._split_to = end = found.end()
            if found.lastgroup == "word" and end < len(self.text) and _TOKEN.match(self.text, end) is None:
                # Not the part of the word before it.
                self.fail(f"unexpected {quoted(self.text[end])}", end)
            if found.lastgroup != "space":
                return Token(str(found.lastgroup), found[0], place)
        return Token("end", "", len(self.text))

    def fail(self, what: str, place: int | None = None) -> NoReturn:
        """Raises at a place of the text, or at the token that is next."""
        if place is None:
            place = self.next.start
        raise NotationError(what, self.name, *line_and_column(self.text, place))

    @property
    def next(self) -> Token:
        """The token that comes next."""
        return self.token(self.at)

    @property
    def found(self) -> str:
        """The next token, for a message."""
        return "the end of the text" if self.next.kind == "end" else quoted(self.next.text)

    def take(self) -> Token:
        """Takes the next token."""
        token = self.next
        self.at += 1
        return token

    def takes(self, *texts: str) -> bool:
        """Takes the next tokens if they are these."""
        if any(self.token(self.at + i).text != text for i, text in enumerate(texts)):
            return False
        self.at += len(texts)
        return True

    def is_label(self) -> bool:
        """Whether a number and a colon come next, with which a thread's rows or a till's entry begin."""
        return self.next.kind == "number" and self.token(self.at + 1).text == ":"

    def is_number(self) -> bool:
        """Whether a number comes next that is no label."""
        return self.next.kind == "number" and not self.is_label()

    def number(self, name: str, most: int, least: int = 0, taken: tuple[int, int] | None = None) -> int:
        """Takes a number; its name is for messages, and ``taken`` is the range that they name, where that is not all that a file can hold."""
        token = self.next
        if token.kind != "number":
            self.fail(f"expected a number ({name}), found {self.found}")
        digits = token.text.lstrip("0") or "0"
        if len(digits) > _DIGITS or not least <= int(digits) <= most:
            shown = digits if len(digits) <= _DIGITS else f"{digits[:_DIGITS]}.."
            self.fail(range_text(name, shown, *(taken or (least, most))))
        self.at += 1
        return int(digits)


def line_and_column(text: str, place: int) -> tuple[int, int]:
    """The line and the column of a place, both from 1."""
    return text.count("\n", 0, place) + 1, place - text.rfind("\n", 0, place)


def quoted(text: str) -> str:
    """A token or a character, for a message."""
    if len(text) == 1 and ord(text) in _BYTES:
        return f"byte {ord(text) - 0xDC00:02x}, which is not UTF-8"
    shown = text if len(text) <= _SHOWN else f"{text[:_SHOWN]}.."
    return f"'{shown}'" if shown.isprintable() else f"character {ord(text):#x}" if len(text) == 1 else repr(shown)


def count_text(count: int, what: str) -> str:
    """So many of something, for a message: ``1 row``, ``2 entries``."""
    return f"{count} {what if count == 1 else f'{what[:-1]}ies' if what.endswith('y') else f'{what}s'}"


def range_text(name: str, value: object, least: int, most: int) -> str:
    """That a number is out of its range: ``nodes must be 1 to 32, not 0``."""
    return f"{name} must be {least} to {most}, not {value}"


def unknown(word: str, known: Iterable[str], what: str) -> str:
    """That a word is none of those known, and which may be meant."""
    return f"unknown {what} {quoted(word)}{meant(word, known)}"


def meant(word: str, known: Iterable[str]) -> str:
    """Which of those known may be meant, as the end of a message: ``; did you mean 'write'?``."""
    near = get_close_matches(word.lower(), list(known), 1) if len(word) <= _SHOWN else []
    return f"; did you mean {quoted(near[0])}?" if near else ""
