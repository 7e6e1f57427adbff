"""What commands write: never over what they read, by whatever name it goes."""

from __future__ import annotations

import os
import subprocess
from argparse import ArgumentParser
from collections.abc import Iterator
from pathlib import Path

from lock_bench import cli, inputs

from .support import BENCH, EXAMPLES, ROOT, Said, bench_here, environment
from .test_command import InFolder

# The arguments that a command takes beside FILE, which it reads, and OUT, where it writes. Those that name FILE otherwise have a second line for that.
COMMANDS: dict[tuple[str, str], tuple[tuple[str, ...], ...]] = {
    ("make", "output"): (("FILE", "-o", "OUT"), ("-e", "0: go", "--till", "FILE", "-o", "OUT")),
    ("show", "output"): (("FILE", "-o", "OUT"),),
    ("dispatch", "output"): (("FILE", "-o", "OUT"),),
    ("page", "output"): (("FILE", "-o", "OUT"), ("--till", "FILE", "-e", "0: go", "-o", "OUT")),
    ("play", "output"): (("FILE", "-o", "OUT", "--no-open"), ("--wants", "FILE", "-o", "OUT"), ("-e", "0: go", "--hold", "FILE", "-o", "OUT")),
    ("journal", "output"): (("FILE", "-o", "OUT"),),
    ("record", "output"): (("FILE", "-o", "OUT"),),
    ("hold", "page"): (("FILE", "--page", "OUT"), ("SCHEDULE", "FILE", "--page", "OUT"), ("SCHEDULE", "SCHEDULE", "--sheet", "FILE", "--page", "OUT")),
    ("find", "output"): (("root open", "--wants", "FILE", "-o", "OUT"), ("root open", "--till", "FILE", "-o", "OUT")),
    ("shrink", "output"): (("FILE", "--keep", "root open", "-o", "OUT"),),
    ("sweep", "csv"): (("--merge", "SCHEDULE", "FILE", "--csv", "OUT"),),
    ("sweep", "json"): (("--merge", "FILE", "--json", "OUT"),),
    ("sweep", "svg"): (("--merge", "FILE", "--svg", "OUT"),),
    ("sweep", "page"): (("--merge", "FILE", "--page", "OUT"),),
    ("sweep", "record"): (("--merge", "FILE", "--record", "OUT"),),
}
# These read nothing.
READ_NOTHING = {("completion", "output"), ("explore", "csv"), ("explore", "picture"), ("manual", "output")}
SCHEDULE = EXAMPLES / "late-reader.schedule"


def files_of(parser: ArgumentParser) -> Iterator[str]:
    """The arguments of a command that name files."""
    for action in parser._actions:
        if action.metavar in ("FILE", "PAGE", "SCHEDULE", "RECORD", "JOURNAL", "A", "B") or action.metavar == "TEXT" and action.option_strings != ["-e"]:
            yield action.dest


class Overwriting(InFolder):
    def setUp(self) -> None:
        super().setUp()
        self.input = self.file("a.schedule", SCHEDULE.read_bytes())

    def refused(self, words: tuple[str, ...], read: object, out: object) -> None:
        """The command is refused before it does anything, and the file is as it was."""
        given = [{"FILE": read, "OUT": out, "SCHEDULE": SCHEDULE}.get(word, word) for word in words]
        said = bench_here(*given)
        named = "" if read == out else f", {'standard input' if read == '-' else read}"
        self.assertEqual(said, (2, "", f"{out}: would overwrite its own input{named}\n"), given)
        self.assertEqual(self.input.read_bytes(), SCHEDULE.read_bytes())

    def test_every_output_is_known(self) -> None:
        """Each argument that names a file is one that is read or one that is written, and each that is written is tried here."""
        written = set()
        for command, parser in cli.commands().items():
            for name in files_of(parser):
                self.assertIn(name, (*inputs.READ, *inputs.WRITTEN), command)
                if name in inputs.WRITTEN:
                    written.add((command, name))
        self.assertEqual(written - READ_NOTHING, set(COMMANDS))

    def test_by_the_same_name(self) -> None:
        for (command, _), tried in COMMANDS.items():
            for words in tried:
                self.refused((command, *words), self.input, self.input)

    def test_by_another_name(self) -> None:
        """A symbolic link, a link to a link, a hard link, and a way round by a folder; either may be the one that is read."""
        link, again, hard = (self.folder / name for name in ("link", "again", "hard"))
        link.symlink_to(self.input.name)
        again.symlink_to(link)
        os.link(self.input, hard)
        (self.folder / "folder").mkdir()
        (self.folder / "other").symlink_to("folder")
        for other in (link, again, hard, f"{self.folder}/other/../a.schedule"):
            for (command, _), tried in COMMANDS.items():
                self.refused((command, *tried[0]), self.input, other)
            self.refused(("make", "FILE", "-o", "OUT"), other, self.input)

    def test_standard_input(self) -> None:
        """Where it is a file."""
        for words in (("make", "-o", "OUT"), ("show", "-", "-o", "OUT"), ("page", "-", "-o", "OUT"), ("journal", "-o", "OUT")):
            command = [str(BENCH), *(str(self.input) if word == "OUT" else word for word in words)]
            with self.input.open("rb") as given:
                done = subprocess.run(command, stdin=given, capture_output=True, text=True, env=environment(), check=False)
            said = Said(done.returncode, done.stdout, done.stderr)
            self.assertEqual(said, (2, "", f"{self.input}: would overwrite its own input, standard input\n"))
            self.assertEqual(self.input.read_bytes(), SCHEDULE.read_bytes())

    def test_other_files_are_written(self) -> None:
        """Also beside the input, over what is there, and to a device that is read too."""
        out = self.file("out", "there before")
        self.assertEqual(bench_here("show", self.input, "-o", out).status, 0)
        self.assertEqual(bench_here("make", out, "-o", self.input).status, 0)
        self.assertEqual(self.input.read_bytes(), SCHEDULE.read_bytes())
        self.assertEqual(bench_here("show", self.input, "-o", os.devnull), (0, "", ""))
        self.assertEqual(bench_here("make", os.devnull, "-o", os.devnull), (0, "", ""))

    def test_two_outputs(self) -> None:
        link = self.folder / "link"
        link.symlink_to("out")
        for first, second, shown in (("out", "out", "out"), ("out", "link", "link"), ("out", "./out", "./out"), ("-", "-", None)):
            names = [name if name == "-" else f"{self.folder}/{name}" for name in (first, second)]
            said = bench_here("sweep", "--threads", 2, "--rounds", 1, "--csv", names[0], "--page", names[1])
            told = "standard output: two outputs cannot both go there" if shown is None else f"{self.folder}/{shown}: two outputs cannot go to the same file"
            self.assertEqual(said, (2, "", f"{told}\n"))
        self.assertEqual(sorted(path.name for path in self.folder.iterdir()), ["a.schedule", "link"])

    def test_sheet(self) -> None:
        """The script ./sheet, whose second file is written."""
        wants = self.file("a.wants", (EXAMPLES / "writer-and-reader.wants").read_bytes())
        hard, link = self.folder / "hard", self.folder / "link"
        os.link(wants, hard)
        link.symlink_to(wants)
        for other in (wants, hard, link, Path(f"{self.folder}/./a.wants")):
            done = subprocess.run([ROOT / "sheet", "--dispatch", wants, other], capture_output=True, text=True, env=environment(), check=False)
            self.assertEqual((done.returncode, done.stdout, done.stderr), (2, "", f"sheet: {other}: would overwrite its own input\n"))
            self.assertEqual(wants.read_bytes(), (EXAMPLES / "writer-and-reader.wants").read_bytes())
