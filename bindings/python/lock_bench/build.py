"""What ``./sheet`` and ``./bench`` need, built when it is first needed: each program of ``./sheet`` by itself, and the library that ``native`` loads.

What is built stands in a folder ``target/built-SUM`` that is named after its sources and made whole or not at all: it is filled under another name, and
renamed at the end. So a build that is stopped leaves nothing that could be taken for one, and once the folder is there, calls write nothing. Crates
that were proved before, by a build that was stopped or by one of something else, are not proved again. ``./bench build`` builds the library, ``main`` is
what ``./sheet`` calls.
"""

from __future__ import annotations

import fcntl
import os
import shutil
import sys
import time
from argparse import ArgumentParser, Namespace, _SubParsersAction
from collections.abc import Sequence
from dataclasses import dataclass
from pathlib import Path
from typing import Final, TextIO

from . import identity, linking, processes, sources
from .building import Watch, clock, made, planned
from .errors import LibraryError
from .identity import Identity
from .linking import ARCHIVE, SHARED
from .parsers import give_up_output
from .sources import ARCHIVES, PROGRAMS, ROOT

# Seconds between two looks at what ``rt`` does.
_LOOK: Final = 0.2


@dataclass(frozen=True, slots=True)
class Built:
    """What was built: its folder, and what it was made from."""

    folder: Path
    identity: Identity

    @property
    def library(self) -> Path:
        """The shared object."""
        return self.folder / SHARED


def current(program: str | None = None, root: Path = ROOT) -> Built | None:
    """What was built from the sources as they are, if it was: a program of ``PROGRAMS``, or the library."""
    try:
        folder = _folder(root, sources.sum_of(_wanted(program), root))
        kept = folder / "identity"
        # A folder that an earlier version made has no archive.
        whole = kept.exists() and (folder / (program or ARCHIVE)).exists()
        return Built(folder, Identity.parse(kept.read_text("ascii"), str(kept))) if whole else None
    except OSError as error:
        raise LibraryError(str(error.strerror), error.filename) from None


def built(program: str | None = None, root: Path = ROOT) -> Built:
    """A program, or the library, built from the sources as they are; it is built first where it is not there, and whoever comes meanwhile waits."""
    if not sources.has_sources(root):
        raise LibraryError(f"no library in this package, and no crates.txt in {root} to build one from")
    there = current(program, root)
    if there is not None:
        return there
    try:
        target = root / "target"
        target.mkdir(exist_ok=True)
        with open(target / "build.lock", "a") as lock:
            _wait_for(lock, Watch(_log(root)))
            # Whoever had the lock may have built it.
            return current(program, root) or _build(program, root, lock)
    except OSError as error:
        raise LibraryError(f"cannot build the {_kind(program)}: {error.strerror}", error.filename) from None


def _wanted(program: str | None) -> tuple[str, ...]:
    return ARCHIVES if program is None else (program,)


def _kind(program: str | None) -> str:
    return "library" if program is None else "program"


def _folder(root: Path, summed: str) -> Path:
    return root / "target" / f"built-{identity.short(summed)}"


def _log(root: Path) -> Path:
    return root / "target" / "build.log"


def _crates(program: str | None, root: Path) -> int:
    """How many crates are proved for it."""
    return len(sources.in_order(sources.crates_of(root), _wanted(program)))


def _wait_for(lock: TextIO, watch: Watch) -> None:
    """Takes the lock; while another build has it, tells how far that one is."""
    said = False
    while True:
        try:
            fcntl.flock(lock, fcntl.LOCK_EX | fcntl.LOCK_NB)
            break
        except BlockingIOError:
            if not said:
                watch.say("build: another call is building; waiting for it")
                said = True
            watch.look()
            time.sleep(_LOOK)
    watch.clear()


def _build(program: str | None, root: Path, lock: TextIO) -> Built:
    """Proves and builds a program, or the library; the caller has the lock."""
    kind, wanted = _kind(program), _wanted(program)
    for tool, package in (("rt", "Rattle's kit"), ("cc", "a C compiler")):
        if shutil.which(tool) is None:
            raise LibraryError(f"cannot build the {kind}: {tool}, {package}, is not on PATH")
    made_with = identity.toolchain()
    if made_with is None:
        raise LibraryError(f"cannot build the {kind}: `rt version` failed")
    summed, begun = sources.sum_of(wanted, root), time.monotonic()
    crates = sources.in_order(sources.crates_of(root), wanted)
    _log(root).write_text(planned(crates), "ascii")
    watch = Watch(_log(root))
    what = "the library" if program is None else f"the program {program}"
    watch.say(f"build: proving {len(crates)} crates and building {what}, once")
    with processes.signals_raised():
        try:
            for crate in wanted:
                _run_rt(root, "lib" if program is None else "run", crate, lock, watch)
            if sources.sum_of(wanted, root) != summed:
                raise LibraryError("the sources changed while they were proved; try again")
            assembled = _assembled(program, root, Identity(identity.version(), summed, made_with))
        except (KeyboardInterrupt, SystemExit):
            watch.say("build: stopped; what is proved is kept, and the next call goes on from there")
            raise
        finally:
            watch.clear()
    watch.say(f"build: done in {clock(time.monotonic() - begun)}")
    return assembled


def _run_rt(root: Path, verb: str, crate: str, lock: TextIO, watch: Watch) -> None:
    """Runs ``rt lib`` or ``rt run`` in a crate's folder: it proves what the crate builds on and the crate, makes a static library or a program, and runs
    the program, here on no input, whose output goes nowhere. It has the lock too: where this process is killed, whoever comes next waits until what it
    started has ended."""
    with open(_log(root), "ab") as log, open(os.devnull, "ab") as nowhere, processes.Group() as group:
        out = log if verb == "lib" else nowhere
        process = group.start(["rt", verb, crate], cwd=root / "crates" / crate, stdout=out, stderr=log, pass_fds=(lock.fileno(),))
        while processes.is_running(process, _LOOK):
            watch.look()
        if process.returncode == 0:
            log.write(made(crate).encode())
            log.flush()
        watch.look()
    if process.returncode != 0:
        watch.clear()
        sys.stderr.write("".join(_log(root).read_text("utf-8", "replace").splitlines(keepends=True)[-20:]))
        raise LibraryError(f"`rt {verb} {crate}` failed; the end of its output is above, all of it in that file", str(_log(root)))


def _assembled(program: str | None, root: Path, made_from: Identity) -> Built:
    """Puts what was built into its folder, which is there whole or not at all."""
    target, folder = root / "target", _folder(root, made_from.sources)
    new = target / f"{folder.name}.new"
    shutil.rmtree(new, ignore_errors=True)
    new.mkdir()
    if program is None:
        linking.link([_archive(root, crate) for crate in ARCHIVES], made_from, new)
    else:
        shutil.copy2(root / "crates" / program / "out" / program, new / program)
    (new / "identity").write_text(made_from.to_text(), "ascii")
    shutil.rmtree(folder, ignore_errors=True)
    new.rename(folder)
    return Built(folder, made_from)


def _archive(root: Path, crate: str) -> Path:
    """Copies a crate's static library to ``target/staticlib``, where programs that link one alone find it."""
    folder, name = root / "target" / "staticlib", f"lib{crate}.a"
    folder.mkdir(exist_ok=True)
    shutil.copy2(root / "crates" / crate / "out" / name, folder / f"{name}.new")
    (folder / f"{name}.new").replace(folder / name)
    return folder / name


def told(program: str, root: Path = ROOT) -> list[str]:
    """What ``./sheet --version`` says of a program."""
    there = current(program, root)
    if there is not None:
        return identity.told("program", there.folder / program, there.identity, there.identity.sources)
    return not_built(program, root)


def not_built(program: str | None = None, root: Path = ROOT) -> list[str]:
    """What ``--version`` says where a program, or the library, is not built from the sources as they are."""
    due = "none, and no crates.txt to build it from"
    if sources.has_sources(root):
        summed = identity.short(sources.sum_of(_wanted(program), root))
        due = f"not built yet from these sources, {summed}: the first call that needs it proves {_crates(program, root)} crates and builds it"
    return identity.head(_kind(program), due)


def register(subparsers: _SubParsersAction[ArgumentParser]) -> None:
    """Adds the command ``build``."""
    build = subparsers.add_parser(
        "build",
        help="prove and build the library",
        description="Proves and builds the library, where that is not done yet, and prints the folder that has it. Every other command does so\n"
        "by itself where it needs it; `./bench --version` says what is built.",
        epilog="example:\n  ./bench build\n  ./bench build --check",
    )
    build.add_argument("--check", action="store_true", help="build nothing: print the folder, or fail where nothing is built from the sources as they are")
    build.set_defaults(run=_command)


def _command(arguments: Namespace) -> int:
    # It needs the library, which needs this module.
    from . import inputs

    inputs.write_lines([str((checked() if arguments.check else built()).folder)])
    return 0


def checked(root: Path = ROOT) -> Built:
    """The library that is built from the sources as they are; an error where none is."""
    there = current(root=root) if sources.has_sources(root) else None
    if there is None:
        raise LibraryError("nothing is built from these sources; ./bench build does it")
    return there


def main(argv: Sequence[str] | None = None) -> int:
    """``./sheet`` calls this: it runs a program, which it builds first where that is due; where ``./sheet`` ends, so does this."""
    parser = ArgumentParser(prog="build", description="Runs a program of ./sheet, or says what it was made from.")
    parser.add_argument("--told", metavar="PROGRAM", choices=PROGRAMS, help="say what this program was made from, and build nothing")
    parser.add_argument("--run", metavar="WORD", nargs="+", help="run this program; its messages go to the file that is named next")
    arguments = parser.parse_args(argv)
    processes.end_with_parent()
    try:
        if arguments.told is None:
            name, messages, *words = arguments.run
            processes.replaced_by(built(name).folder / name, words, messages)
        print("\n".join(told(arguments.told)), flush=True)
        return 0
    except LibraryError as error:
        print(f"sheet: {error}", file=sys.stderr)
    except OSError as error:
        print(f"sheet: standard output: {error.strerror}", file=sys.stderr)
        give_up_output()
    except KeyboardInterrupt:
        return 130
    return 1
