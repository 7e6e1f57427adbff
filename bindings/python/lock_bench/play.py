"""The command ``play``: the page of a run, live. A click or a key makes the next row; the proved library says what it does."""

from __future__ import annotations

import contextlib
import os
import sys
import tempfile
import threading
import webbrowser
from argparse import ArgumentParser, Namespace, _SubParsersAction
from pathlib import Path
from typing import Final

from . import find, hold, inputs, page, played
from .errors import BenchError
from .journal import Entry, kind_text, word_text
from .native import load
from .play_server import Server
from .played import Played, Start
from .run import Run
from .schedule import Schedule
from .script import Read
from .sheet import REFUSALS
from .stepping import Wanted

# The sizes of a run that begins with the fresh lock, where nobody says otherwise: a late reader needs no more.
_NODES: Final = 2
_FAN: Final = 1
_THREADS: Final = 3
# Seconds that `--find` searches at most.
_SECONDS: Final = 20

DESCRIPTION: Final = """\
Serves a page to stage a run by hand, in a browser of this machine: for each thread the orders that
suit it now, as buttons, and beside `go` what its next step would do. A click or a key makes the row.
Undo and redo; step back to any row and go on from there; run a call to its end, until somebody
sleeps, rounds of the dispatcher or drawn turns; watch a condition; save or copy the run as a text, a
schedule, a page or a command line. The address holds the run: `./bench play LINK` plays it again.

All that is shown comes from the proved library. The server listens on 127.0.0.1 alone, and answers
only the page of the link that it prints. It writes only the file that -o names, when you press Save.
Control-C ends it.
"""

EPILOG: Final = """\
example:
  ./bench play
  ./bench play --nodes 7 --fan 2 --threads 8 --watch 'any thread asleep'
  ./bench play examples/late-reader.schedule -o late.schedule.txt
  ./bench play --till examples/one-song-charged-once.till examples/one-song-charged-once.bookings
  ./bench play --wants examples/writer-and-reader.wants
  ./bench play --find 'thread 1 asleep' --threads 2
  ./bench play examples/worked-example.schedule --hold examples/read-again.csv
"""


def register(subparsers: _SubParsersAction[ArgumentParser]) -> None:
    """Adds the command ``play``."""
    play = subparsers.add_parser(
        "play", help="stage a run by hand in the browser", description=DESCRIPTION, epilog=EPILOG
    )
    inputs.add_run(play)
    begin = play.add_argument_group("where it begins", "A run, or the fresh lock of these sizes.")
    find.add_sizes(begin)
    begin.add_argument("--second", action="store_true", help="show the second lock, and its orders, also where no row is of it")
    begin.add_argument("--find", metavar="CONDITION", help="a schedule after which this holds, as `./bench find` finds it")
    begin.add_argument("--hold", metavar="JOURNAL", help="the first row at which this record differs from the run of FILE, as `./bench hold` tells it")
    begin.add_argument("--wants", metavar="FILE", help=f"wanted calls, for rounds and drawn turns: a text if the name ends in {inputs.TEXT}")
    begin.add_argument("--watch", metavar="CONDITION", default="", help="a condition to watch: the rows where it comes true are marked")
    serve = play.add_argument_group("the server")
    serve.add_argument("--port", metavar="PORT", type=inputs.whole(0, 65535), default=0, help="the port (0, the default, is any that is free)")
    serve.add_argument("--no-open", action="store_true", help="print the link, and open no browser")
    saved = f"where Save writes: a text if the name ends in {inputs.TEXT}, a page if in .html, else the schedule"
    serve.add_argument("-o", dest="output", metavar="FILE", help=saved)
    play.set_defaults(run=_play)


def _play(arguments: Namespace) -> int:
    wanted, start = _start(arguments)
    served = Played(start, load(), wanted, arguments.output)
    # The first answer is made before the link is there: what is wrong with the start is said here.
    served.answer("open", {"file": played.encoded(start.file), "till": _till(start)})
    if start.watch:
        served.answer("watch", {"file": played.encoded(start.file), "till": _till(start), "condition": start.watch, "from": 0})
    try:
        server = Server(arguments.port, served, page.live_page(held(start, arguments.output), start.title))
    except OSError as error:
        raise inputs.UsageError(f"port {arguments.port}: {error.strerror}") from None
    with server, contextlib.suppress(KeyboardInterrupt):
        # Control-C is how it is ended.
        inputs.write_lines([server.link])
        print("play: Control-C ends it", file=sys.stderr)
        if not arguments.no_open and (os.environ.get("DISPLAY") or os.environ.get("WAYLAND_DISPLAY")):
            threading.Thread(target=webbrowser.open, args=(server.link,), daemon=True).start()
        server.serve_forever()
    return 0


def _till(start: Start) -> str | None:
    return None if start.till is None else played.encoded(start.till)


def held(start: Start, output: str | None) -> dict[str, object]:
    """What the page's script begins with."""
    return {
        "file": played.encoded(start.file),
        "till": _till(start),
        "title": start.title,
        "row": start.row,
        "watch": start.watch,
        "note": start.note,
        "second": start.second,
        "output": output,
    }


def _start(arguments: Namespace) -> tuple[Wanted | None, Start]:
    """The wanted calls, if there are any, and what the page begins with."""
    sizes = [arguments.nodes, arguments.fan, arguments.threads]
    has_file = arguments.file is not None or arguments.given is not None
    if sum((has_file, arguments.find is not None, arguments.wants is not None)) > 1:
        raise inputs.UsageError("give only one of FILE, -e TEXT, --find and --wants: it says where the run begins")
    if arguments.hold is not None and not has_file:
        raise inputs.UsageError("--hold needs FILE, the schedule that the record is compared with")
    if any(size is not None for size in sizes) and (has_file or arguments.wants is not None):
        raise inputs.UsageError("--threads, --nodes and --fan are for the fresh lock and for --find: this run has sizes of its own")
    till, note, title, row = inputs.till_bytes(arguments), "", "play", None
    wanted: Wanted | None = None
    if has_file and arguments.given is None and "#" in arguments.file and arguments.file.startswith("http"):
        file, linked = played.linked(arguments.file)
        till = linked if till is None else till
    elif has_file:
        taken = inputs.taken_run(arguments, "no run to begin with")
        file, title = taken.schedule.to_bytes(), inputs.title_of(inputs.input_name(arguments))
        text: Read | None = getattr(arguments, "text_read", None)
        if text is not None and text.unmet:
            note = str(text.unmet[0])
        if arguments.hold is not None:
            row, note = _differing(arguments, taken)
    elif arguments.find is not None:
        file, note = _found(arguments), f"Found: {arguments.find}"
    elif arguments.wants is not None:
        wants = _wanted(arguments.wants)
        wanted = tuple(tuple(each.order for each in wants.rows if each.thread == thread) for thread in range(wants.threads))
        file = Schedule(wants.nodes, wants.fan, wants.threads, ()).to_bytes()
        title = inputs.title_of(arguments.wants)
    else:
        file = Schedule(arguments.nodes or _NODES, arguments.fan or _FAN, arguments.threads or _THREADS, ()).to_bytes()
    return wanted, Start(file, till, title, row, arguments.watch, note, arguments.second, arguments.till)


def _differing(arguments: Namespace, held: Run) -> tuple[int, str]:
    """The first row at which a record differs, and what is said of it."""
    _, found = hold.journal_of(arguments.hold, None, held)
    if found is None:
        raise inputs.NotSo("the record does not differ", arguments.hold)
    bench = "the row is refused" if found.entry is None else _entry_text(found.entry)
    return found.row, f"Row {found.row} differs: the record says {_entry_text(Entry(found.recorded.kind, found.recorded.word))}; the bench says {bench}"


def _entry_text(entry: Entry) -> str:
    return f"{kind_text(entry.kind)}, on {word_text(entry.word)}"


def _wanted(name: str) -> Schedule:
    """The wanted calls of a file, which the dispatcher takes."""
    given = Namespace(file=name, given=None, text=False, dispatch=True, till=None)
    wants, (end, _) = Schedule.from_bytes(inputs.input_bytes(given), name), inputs.run_of(given)
    if end.answer not in (0, 7):
        raise BenchError(f"refused with {end.answer}: {REFUSALS[end.answer]}", name)
    return wants


def _found(arguments: Namespace) -> bytes:
    """The schedule that ``find`` finds, by its own arguments."""
    parser = ArgumentParser(prog="bench")
    find.register(parser.add_subparsers())
    with tempfile.TemporaryDirectory() as folder:
        file = Path(folder) / "found.schedule"
        words = ["find", "--time", str(_SECONDS), "-o", str(file)]
        for name in ("threads", "nodes", "fan", "till"):
            if getattr(arguments, name) is not None:
                words += [f"--{name}", str(getattr(arguments, name))]
        given = parser.parse_args([*words, "--", arguments.find])
        given.run(given)
        return file.read_bytes()
