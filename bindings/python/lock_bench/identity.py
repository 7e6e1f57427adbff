"""What a library or a program was made from, and how that is told."""

from __future__ import annotations

import shutil
from dataclasses import dataclass
from importlib import resources
from pathlib import Path

from . import processes
from .errors import LibraryError


def version() -> str:
    """The version of this package, of the commands and of the library."""
    return resources.files(__package__).joinpath("VERSION").read_text("ascii").strip()


def toolchain() -> str | None:
    """The identity of the toolchain on PATH, if there is one."""
    program = shutil.which("rt")
    if program is None:
        return None
    done = processes.run([program, "version"])
    return done.stdout.strip() if done.returncode == 0 else None


@dataclass(frozen=True, slots=True)
class Identity:
    """The version, the sum of the sources that were proved, and the toolchain that proved them."""

    version: str
    sources: str
    toolchain: str

    @classmethod
    def parse(cls, text: str, name: str) -> Identity:
        """The identity in a text; ``name`` is the file's that has it."""
        found = dict(line.partition(" ")[::2] for line in text.splitlines())
        try:
            return cls(found["version"], found["sources"], found["toolchain"])
        except KeyError as missing:
            raise LibraryError(f"its identity has no {missing.args[0]}", name) from None

    def to_text(self) -> str:
        """The identity as a text."""
        return f"version {self.version}\nsources {self.sources}\ntoolchain {self.toolchain}\n"


def head(what: str, said: str) -> list[str]:
    """Lines for ``--version``: the version, the toolchain, and what is said of what is loaded (``what``: library or program)."""
    return [f"version    {version()}", f"toolchain  {toolchain() or 'rt is not on PATH'}", f"{what:<9}  {said}"]


def told(what: str, path: Path, made_from: Identity | None, sources: str | None) -> list[str]:
    """Lines for ``--version`` that tell whether what is loaded was proved from these sources; there are none where it is installed."""
    by = [] if made_from is None else [f"with {made_from.toolchain}"]
    return [*head(what, str(path)), *(f"           {line}" for line in (_proved(made_from, sources), *by))]


def _proved(made_from: Identity | None, sources: str | None) -> str:
    if made_from is None:
        return "does not say what it was proved from"
    if sources is None:
        return f"proved from the sources {short(made_from.sources)}"
    if made_from.sources == sources:
        return f"proved from these sources, {short(sources)}"
    return f"NOT proved from these sources, {short(sources)}, but from {short(made_from.sources)}"


def short(sources: str) -> str:
    """The beginning of a sum, which is enough to tell sources apart."""
    return sources[:16]
