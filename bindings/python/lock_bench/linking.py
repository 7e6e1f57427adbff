"""What C, Rust and Python link or load: one archive with all functions, and the shared object. Both say what they were made from."""

from __future__ import annotations

import os
from collections.abc import Sequence
from pathlib import Path
from typing import Final

from . import processes
from .errors import LibraryError
from .identity import Identity

#: The archive and the shared object.
ARCHIVE: Final = "liblock_bench.a"
SHARED: Final = "liblock_bench.so"
#: The symbol of both that has the identity.
IDENTITY: Final = "lock_bench_identity"


def soname(version: str) -> str:
    """The name by which a program asks for the shared object: it changes with the first number of the version."""
    return f"{SHARED}.{version.partition('.')[0]}"


def link(archives: Sequence[Path], made_from: Identity, folder: Path) -> None:
    """Makes the archive and the shared object in a folder, from the archives of crates."""
    text = "".join(f'"{line}\\n"' for line in made_from.to_text().splitlines() if line.isprintable())
    # Names are relative: those in a script of ar have no spaces.
    parts = [os.path.relpath(archive, folder) for archive in archives]
    _run(folder, ["cc", "-c", "-fPIC", "-o", "identity.o", "-x", "c", "-"], f"const char {IDENTITY}[] = {text};\n", ARCHIVE)
    # ar puts archives into another by a script alone.
    script = (f"CREATE {ARCHIVE}", *(f"ADDLIB {part}" for part in parts), "ADDMOD identity.o", "SAVE", "END")
    _run(folder, ["ar", "-M"], "".join(f"{line}\n" for line in script), ARCHIVE)
    name = soname(made_from.version)
    whole = ["-Wl,--whole-archive", *parts, "-Wl,--no-whole-archive"]
    _run(folder, ["cc", "-shared", "-o", SHARED, f"-Wl,-soname,{name}", "identity.o", *whole], "", SHARED)
    # A program that is linked with the shared object in this folder finds it here too.
    (folder / name).symlink_to(SHARED)
    (folder / "identity.o").unlink()


def _run(folder: Path, command: list[str], given: str, made: str) -> None:
    done = processes.run(command, given, folder)
    if done.returncode != 0:
        raise LibraryError(f"cannot link the library: {done.stderr.strip()}", str(folder / made))
