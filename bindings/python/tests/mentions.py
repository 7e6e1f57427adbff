"""What comments, messages and help name: crates, functions, definitions, files and commands, looked up as those of the documents are."""

from __future__ import annotations

import contextlib
import re
from collections.abc import Iterator
from pathlib import Path

from .citations import Context, Document, Fault, Reader, Token, command_problem, has_file
from .named import WORD, Sources

#: How a comment begins, by the ending of a crate's file.
_MARKS = {".rt": "//", ".antt": "--", ".edit": "#"}
#: Words in code type that are no names: the form of a message, and a scale of colours.
_NO_NAMES = ("WHERE: WHAT", "cividis")
_COMMAND = re.compile(r"\./(?:bench|sheet)(?: (?:[\w<>=.-]+|'[^']*'))+")
_PLACE = re.compile(r"\((\w+), (specs|proofs)/(\w+)(?:, (\w+))?\)")
_PATH = re.compile(r"\b(?:docs/\w+\.md|crates/\w+/[\w/]+\.\w+|examples/[\w.-]*\w)")


def comments(text: str, mark: str) -> str:
    """The comments of a source, each in its line; the other lines are empty."""
    found = (re.search(rf"(?:^|(?<=[\s;])){re.escape(mark)} (.*)$", line) for line in text.splitlines())
    return "\n".join(comment[1] if comment else "" for comment in found)


class CommentReader(Reader):
    """Goes through the citations of a crate's comments: these may name what the file itself has, and files of its crate."""

    def __init__(self, file: str, sources: Sources) -> None:
        super().__init__(Document(file, comments(sources.read(file), _MARKS[Path(file).suffix])), sources)
        self.own = frozenset(WORD.findall(sources.code[file]))

    def is_known(self, span: str) -> bool:
        return super().is_known(span) or span in self.own

    def path(self, token: Token, context: Context) -> tuple[str | None, Context]:
        problem, found = super().path(token, context)
        own, there = super().path(token, Context(crate=self.page.path.split("/")[1])) if problem else (problem, found)
        return (problem, found) if own else (None, there)


def comment_readers(sources: Sources) -> list[CommentReader]:
    """One for each source of a crate."""
    return [CommentReader(file, sources) for file in sorted(sources.files) if re.fullmatch(r"crates/.*\.(?:rt|antt|edit)", file) and file in sources.code]


def named_faults(sources: Sources) -> Iterator[Fault]:
    """What commands, bindings, tools and examples name in comments, messages and help, and no source has."""
    for file in sorted(sources.files):
        if re.match(r"(?:bindings|include|tools|examples|\.ci)/|[^/]+$", file) and not re.match(r"bindings/python/tests/|.*\.(?:md|txt|csv|patch)$", file):
            with contextlib.suppress(UnicodeDecodeError):
                yield from _named(Document(file, sources.read(file)), sources)


def _named(page: Document, sources: Sources) -> Iterator[Fault]:
    reader = Reader(Document(page.path, ""), sources)
    known = sources.words | frozenset(WORD.findall(sources.code.get(page.path, page.text)))
    for span in re.finditer(r"(?<!`)(`{1,2})([^`\n{}$\\]+)\1(?!`)", page.text):
        if not reader.is_known(span[2]) and span[2] not in _NO_NAMES and not known.issuperset(WORD.findall(span[2])):
            yield page.fault(span.start(), f"`{span[2]}`", "no source has it")
    for command in _COMMAND.finditer(page.text):
        if problem := command_problem(command[0].split(), page.path, sources):
            yield page.fault(command.start(), command[0], problem)
    for place in _PLACE.finditer(page.text):
        declared = sources.antt.get(f"crates/{place[1]}/{place[2]}/{place[3]}.antt")
        if declared is None or place[4] and place[4] not in declared:
            yield page.fault(place.start(), place[0], "there is no such file, or it does not declare that")
    for path in _PATH.finditer(page.text):
        if not has_file(path[0], page.path, sources):
            yield page.fault(path.start(), path[0], "there is no such file")
