"""The parsers of the commands: their help fits 100 columns, and it is an error where it cannot be written."""

from __future__ import annotations

import os
import shutil
import sys
import textwrap
from argparse import Action, ArgumentError, ArgumentParser, HelpFormatter, _SubParsersAction
from collections.abc import Iterator
from typing import IO, Any, Final

from .reader import meant

# The most columns of a help text; a terminal may have fewer.
_COLUMNS: Final = 100


class Help(HelpFormatter):
    """Fills paragraphs, and leaves lines that are indented, such as examples and tables, as they are."""

    def __init__(self, prog: str) -> None:
        super().__init__(prog, width=min(_COLUMNS, shutil.get_terminal_size().columns - 2))

    def _fill_text(self, text: str, width: int, indent: str) -> str:
        return "\n\n".join("\n".join(_filled(part.splitlines(), width, indent)) for part in text.strip("\n").split("\n\n")) + "\n"


def _filled(lines: list[str], width: int, indent: str) -> Iterator[str]:
    flowing: list[str] = []
    for line in [*lines, ""]:
        if line and not line.startswith("  "):
            flowing.append(line)
            continue
        yield from textwrap.wrap(" ".join(flowing), width, initial_indent=indent, subsequent_indent=indent, break_on_hyphens=False)
        flowing = []
        if line:
            yield indent + line


class Parser(ArgumentParser):
    """A parser with such a help."""

    def __init__(self, **named: Any) -> None:
        named["formatter_class"] = Help
        super().__init__(**named)

    def _check_value(self, action: Action, value: Any) -> None:
        try:
            super()._check_value(action, value)
        except ArgumentError as error:
            # Of commands there are so many that the one that may be meant is named too.
            if isinstance(action, _SubParsersAction):
                error.message += meant(value, action.choices)
            raise

    def _print_message(self, message: str, file: IO[str] | None = None) -> None:
        (file or sys.stderr).write(message)


def give_up_output() -> None:
    """Lets what is not written yet go nowhere: Python would try once more, and complain, when it ends."""
    with open(os.devnull, "w") as nowhere:
        os.dup2(nowhere.fileno(), sys.stdout.fileno())
