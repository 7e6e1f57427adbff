"""The blocks of documents: code and edits that they quote, commands, and the picture of the crates."""

from __future__ import annotations

import re
import shlex
from collections.abc import Iterable, Iterator
from dataclasses import dataclass

from .citations import Document, Fault, command_problem
from .named import Sources

_NAME = re.compile(r"(?<![\w-])([a-z_]\w*)(?: \(([\w, ]+)\))?")


@dataclass(frozen=True)
class Block:
    """A block of code of a page: the language that it names, its text, and its place."""

    language: str
    text: str
    place: int


def blocks(page: Document) -> list[Block]:
    found = re.finditer(r"^```(\w*)\n(.*?)^```", page.text, re.DOTALL | re.MULTILINE)
    return [Block(block[1], block[2], block.start()) for block in found]


def code_faults(page: Document, sources: Sources) -> Iterator[Fault]:
    """Code of the crates that no crate has, and edits that are none."""
    for block in blocks(page):
        if block.language == "rust" and page.path.startswith("docs/"):
            code = (sources.read(file) for file in sources.files if re.match(r"crates/\w+/src/", file))
            if not any(block.text in text for text in code):
                yield page.fault(block.place, block.text.splitlines()[0].strip(), "no crate has these lines of code")
        elif re.search(r"^old: ", block.text, re.MULTILINE):
            edits = (sources.read(file) for file in sources.files if file.endswith(".edit"))
            if not any(block.text == text for text in edits):
                yield page.fault(block.place, block.text.splitlines()[0], "there is no such edit")


def command_faults(page: Document, sources: Sources) -> Iterator[Fault]:
    """Commands of the repository, with words that they do not know."""
    for block in blocks(page):
        if block.language != "sh" and not block.text.startswith("$ "):
            continue
        for line in block.text.splitlines():
            for command in re.findall(r"(?:^|\(|&& |\$ )(\./(?:bench|sheet)\b[^#&|)]*)", line):
                if problem := command_problem(shlex.split(command), page.path, sources):
                    yield page.fault(block.place, command.strip(), problem)


# ---- the picture of the crates


def builds_on(picture: str) -> dict[str, set[str]]:
    """What each crate of a picture builds on: those that lines lead from, on its left, and those in brackets."""
    grid = picture.splitlines()
    names: dict[tuple[int, int], str] = {}
    found: dict[str, set[str]] = {}
    starts: dict[str, tuple[int, int]] = {}
    for row, line in enumerate(grid):
        for match in _NAME.finditer(re.sub(r"\([^)]*\)", lambda brackets: brackets[0], line)):
            if line[: match.start()].count("(") > line[: match.start()].count(")"):
                continue
            names[row, match.end()] = match[1]
            starts[match[1]] = row, match.start()
            found[match[1]] = set(match[2].split(", ")) if match[2] else set()
    for name, (row, column) in starts.items():
        found[name] |= _origins(grid, names, row, column - 1)
    return found


def _at(grid: list[str], row: int, column: int) -> str:
    return grid[row][column] if 0 <= row < len(grid) and 0 <= column < len(grid[row]) else " "


def _origins(grid: list[str], names: dict[tuple[int, int], str], row: int, column: int) -> set[str]:
    """The crates from which lines come to a place from the left, from above and from below."""
    if _at(grid, row, column) == " ":
        column -= 1
    while _at(grid, row, column) == "─":
        column -= 1
    match _at(grid, row, column):
        case "┬":
            below = row + 1
            merged: set[str] = set()
            while _at(grid, below, column) in "│├┤└┘":
                if _at(grid, below, column) in "┤┘":
                    merged |= _origins(grid, names, below, column - 1)
                below += 1
            return merged | _origins(grid, names, row, column - 1)
        case "├" | "└":
            above = row - 1
            while _at(grid, above, column) in "│├":
                above -= 1
            return _origins(grid, names, above, column - 1) if _at(grid, above, column) == "┬" else set()
        case _:
            name = names.get((row, column)) or names.get((row, column + 1))
            return {name} if name else set()


def all_below(depends: dict[str, set[str]], name: str) -> set[str]:
    """What a crate builds on, and what that builds on."""
    below: set[str] = set()
    waiting = set(depends.get(name, ()))
    while waiting:
        one = waiting.pop()
        if one not in below:
            below.add(one)
            waiting |= depends.get(one, set())
    return below


def is_picture(block: Block) -> bool:
    return "─┬─" in block.text


def picture_faults(page: Document, sources: Sources) -> Iterator[Fault]:
    """A picture of the crates that is not what crates.txt says, names and what each builds on."""
    listed = {crate: set(depends) - sources.kit for crate, depends in sources.crates.items()}
    for block in blocks(page):
        if not is_picture(block):
            continue
        drawn = builds_on(block.text)
        for name in sorted(drawn):
            if name not in listed:
                yield page.fault(block.place, f"the crate {name}", "crates.txt has no such crate")
            elif all_below(drawn, name) != all_below(listed, name):
                shown, real = (_and(all_below(depends, name)) for depends in (drawn, listed))
                yield page.fault(block.place, f"{name} builds on {shown}", f"crates.txt says on {real}")


def _and(names: Iterable[str]) -> str:
    return ", ".join(sorted(names)) or "nothing"


def builds_on_faults(page: Document, sources: Sources) -> Iterator[Fault]:
    """`crate` builds on `a`, `b` and `c`: with what these build on, that is all that crates.txt has."""
    listed = {crate: set(depends) - sources.kit for crate, depends in sources.crates.items()}
    for said in re.finditer(r"`(\w+)`\s+builds\s+on\s+(`\w+`(?:(?:,|\s+and)\s+`\w+`(?!\s+on))*)", page.prose):
        named = set(re.findall(r"`(\w+)`", said[2]))
        below = named.union(*(all_below(listed, name) for name in named))
        if said[1] in listed and below != all_below(listed, said[1]):
            yield page.fault(said.start(), said[0], f"crates.txt says on {_and(all_below(listed, said[1]))}")


def crate_list_faults(page: Document, sources: Sources) -> Iterator[Fault]:
    """Crates that a section "The crates" leaves out."""
    for section in re.finditer(r"^## The crates$(.*?)(?=^## |\Z)", page.text, re.DOTALL | re.MULTILINE):
        for crate in sources.crates:
            if not re.search(rf"(?<![\w/]){crate}(?!\w)", section[1]):
                yield page.fault(section.start(), "The crates", f"crates.txt has also {crate}")
