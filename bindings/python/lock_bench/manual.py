"""The command ``manual``: the manual pages of ``bench`` and ``sheet``, made from what ``--help`` says."""

from __future__ import annotations

import re
from argparse import ArgumentParser, Namespace, _SubParsersAction
from collections.abc import Iterable, Iterator
from typing import Final

from . import identity, inputs, processes, sources
from .errors import LibraryError

#: What each page's first line says of its command.
PAGES: Final = {"bench": "schedules of a reader-writer lock, as text, sheet, trace and page", "sheet": "the sheet of a schedule of a reader-writer lock"}
# The headings of a help text.
_HEADING: Final = re.compile(r"([A-Za-z][a-z ]*):")


def register(subparsers: _SubParsersAction[ArgumentParser]) -> None:
    """Adds the command ``manual``."""
    manual = subparsers.add_parser(
        "manual",
        help="write the manual page of bench or of sheet",
        description="Writes the manual page of `bench`, or of `sheet`, made from what their --help says.",
        epilog="example:\n  ./bench manual -o bench.1\n  ./bench manual sheet -o sheet.1",
    )
    manual.add_argument("command", metavar="COMMAND", nargs="?", choices=tuple(PAGES), default="bench", help="bench, or sheet; bench if not given")
    manual.add_argument("-o", dest="output", metavar="FILE", help="the file to write; standard output if not given (`man -l FILE` shows it)")
    manual.set_defaults(run=_manual, parser=subparsers)


def _manual(arguments: Namespace) -> int:
    inputs.write(arguments.output, page(arguments.command, arguments.parser.choices).encode("ascii"))
    return 0


def page(command: str, commands: dict[str, ArgumentParser]) -> str:
    """A manual page; ``commands`` are the parsers of the commands of ``bench``."""
    return "\n".join(_sheet_page() if command == "sheet" else _bench_page(commands)) + "\n"


def _title(command: str) -> list[str]:
    name = command.upper()
    return [f'.TH {name} 1 "" "lock bench {identity.version()}" "The lock bench"', ".SH NAME", rf"{command} \- {PAGES[command]}"]


def _bench_page(commands: dict[str, ArgumentParser]) -> Iterator[str]:
    from . import cli

    yield from _title("bench")
    yield from [".SH SYNOPSIS", *_literal(["bench COMMAND [ARGUMENTS]", "bench --help | --version"])]
    yield from [".SH DESCRIPTION", *_paragraphs(cli.DESCRIPTION)]
    yield ".SH COMMANDS"
    for name, parser in commands.items():
        yield f".SS {name}"
        yield from _literal(parser.format_usage().removeprefix("usage: ").splitlines())
        yield from _paragraphs(parser.description or "")
        yield from _options(parser)
        yield from _paragraphs(parser.epilog or "")
    yield from _sections(cli.EPILOG)


def _sheet_page() -> Iterator[str]:
    usage, _, text = _sheet_help().partition("\n\n")
    yield from _title("sheet")
    yield from [".SH SYNOPSIS", *_literal(line.removeprefix("usage: ").strip() for line in usage.splitlines())]
    body, _, status = text.partition("Exit status: ")
    yield from [".SH DESCRIPTION", *_paragraphs(body)]
    yield from [".SH EXIT STATUS", *_paragraphs(status.partition("\n\n")[0])]


def _sheet_help() -> str:
    """What ``./sheet --help`` says; an installed package has the page, and no such script."""
    script = sources.ROOT / "sheet"
    if not script.exists():
        raise LibraryError("there is no ./sheet here: its page is made in the repository")
    done = processes.run([script, "--help"])
    if done.returncode != 0:
        raise LibraryError(f"`./sheet --help` failed: {done.stderr.strip()}")
    return done.stdout


def _options(parser: ArgumentParser) -> Iterator[str]:
    """A parser's arguments, each with what its help says."""
    formatter = parser.formatter_class(prog=parser.prog)
    for action in parser._actions:
        if action.dest != "help":
            names = ", ".join(action.option_strings) or str(action.metavar or action.dest)
            value = f" {formatter._format_args(action, action.dest.upper())}" if action.option_strings and action.nargs != 0 else ""
            yield from [".TP", rf"\fB{_safe(names)}\fR{_safe(value)}", _safe(formatter._expand_help(action)) if action.help else "\\&"]


def _sections(text: str) -> Iterator[str]:
    """A text whose parts begin with a heading and a colon, as sections."""
    for part in text.strip("\n").split("\n\n"):
        first, _, rest = part.partition("\n")
        heading = _HEADING.fullmatch(first)
        yield f".SH {heading[1].upper()}" if heading else ".SH NOTES"
        yield from _paragraphs(rest if heading else part)


def _paragraphs(text: str) -> Iterator[str]:
    """Paragraphs; lines that are indented stay as they are."""
    for part in text.strip("\n").split("\n\n"):
        yield ".PP"
        flowing: list[str] = []
        for line in part.splitlines():
            if line.startswith("  "):
                yield from map(_safe, flowing)
                flowing = []
                yield from _literal([line])
            else:
                flowing.append(line)
        yield from map(_safe, flowing)


def _literal(lines: Iterable[str]) -> Iterator[str]:
    yield ".nf"
    yield from map(_safe, lines)
    yield ".fi"


def _safe(line: str) -> str:
    """A line that says the same to a formatter: no sign of it is taken for one of the formatter's own."""
    escaped = line.replace("\\", "\\e").replace("-", "\\-").replace("'", "\\(aq").replace("`", "\\(ga")
    return f"\\&{escaped}" if escaped[:1] in (".", "'") else escaped
