"""The sources of what is built: the crates in the order in which ``rt`` proves them, and a sum that tells these sources from others."""

from __future__ import annotations

import hashlib
from collections.abc import Iterable, Iterator
from pathlib import Path
from typing import Final

from .errors import LibraryError

#: The repository's root; an installed package has none.
ROOT: Final = Path(__file__).resolve().parents[3]
#: The programs that ``./sheet`` runs.
PROGRAMS: Final = ("sheet", "plain", "ticket", "dispatch", "record")
#: The crates whose static libraries are linked into the shared object.
ARCHIVES: Final = ("capi", "capi_dispatch", "capi_draw", "capi_record", "capi_explore", "capi_explore_locks", "capi_site")

#: The parts of a crate that are proved.
_PARTS: Final = ("src", "specs", "proofs")


def has_sources(root: Path = ROOT) -> bool:
    """Whether the sources are at hand."""
    return (root / "crates.txt").is_file()


def crates_of(root: Path) -> dict[str, tuple[str, ...]]:
    """The crates that crates.txt lists, each with what it depends on, the kit's own libraries among them."""
    crates: dict[str, tuple[str, ...]] = {}
    for line in (root / "crates.txt").read_text("utf-8").splitlines():
        name, colon, depends = line.partition("#")[0].partition(":")
        if colon:
            # Behind the name a line may say that the crate is a static library.
            crates[name.split()[0]] = tuple(depends.split())
    return crates


def in_order(crates: dict[str, tuple[str, ...]], wanted: Iterable[str]) -> list[str]:
    """What ``rt`` proves for these crates, in its order: each crate behind those that it builds on."""
    order: list[str] = []

    def visit(name: str, above: tuple[str, ...]) -> None:
        if name in above:
            raise LibraryError(f"the crates depend on each other in a cycle through {name}", "crates.txt")
        if name not in order:
            for other in crates[name]:
                if other in crates:
                    visit(other, (*above, name))
            order.append(name)

    for name in wanted:
        if name not in crates:
            raise LibraryError(f"the crate {name} is not listed", "crates.txt")
        visit(name, ())
    return order


def sum_of(wanted: Iterable[str] = ARCHIVES, root: Path = ROOT) -> str:
    """The sum of all that is proved for these crates, which for the library are ``ARCHIVES``: the crates that they reach, and what each depends on."""
    crates = crates_of(root)
    summed = hashlib.sha256()
    for name in sorted(in_order(crates, wanted)):
        summed.update(f"{name}: {' '.join(crates[name])}\n".encode())
        for path, data in _files(root / "crates" / name):
            summed.update(f"{path} {len(data)}\n".encode() + data)
    return summed.hexdigest()


def _files(crate: Path) -> Iterator[tuple[str, bytes]]:
    """The files of a crate that are proved, by name."""
    for part in _PARTS:
        for path in sorted((crate / part).rglob("*")):
            if path.is_file():
                yield path.relative_to(crate).as_posix(), path.read_bytes()
