"""What shells complete behind ``bench``: each is asked in the shell itself."""

from __future__ import annotations

import os
import pty
import re
import select
import shutil
import subprocess
import tempfile
import time
import unittest
from pathlib import Path

from lock_bench import cli, completion

from .support import PATIENCE, bench_here, environment

# What is typed, up to the cursor, and what can stand there then. The folder has the files `late one.txt` and `late.txt`.
ASKED: tuple[tuple[str, set[str]], ...] = (
    ("bench tra", {"trace"}),
    ("bench pl", {"plain", "play"}),
    ("bench --v", {"--version"}),
    ("bench trace --th", {"--thread"}),
    ("bench show --as ti", {"tickets", "till"}),
    ("bench completion ", {"bash", "zsh", "fish"}),
    ("bench manual s", {"sheet"}),
    ("bench sheet lat", {"late one.txt", "late.txt"}),
    ("bench sweep --merge a lat", {"late one.txt", "late.txt"}),
    ("bench sheet --till lat", {"late one.txt", "late.txt"}),
    # A number, a text and a condition are one's own.
    ("bench trace --thread ", set()),
    ("bench sheet -e lat", set()),
    ("bench find lat", set()),
)


def options(command: str) -> set[str]:
    """What the parser of a command takes."""
    return set(cli.commands()[command]._option_string_actions)


class Shell(unittest.TestCase):
    def setUp(self) -> None:
        folder = tempfile.TemporaryDirectory()
        self.addCleanup(folder.cleanup)
        self.folder = Path(folder.name)
        (self.folder / "late.txt").touch()
        (self.folder / "late one.txt").touch()
        self.environ = environment(HOME=str(self.folder))

    def script(self, shell: str) -> Path:
        self.assertIsNotNone(shutil.which(shell), f"{shell} is not installed (bindings/python/check installs it)")
        path = self.folder / f".{shell}"
        path.write_text(completion.script(shell, cli.parser()))
        return path

    def lines(self, *command: object) -> list[str]:
        done = subprocess.run(list(map(str, command)), cwd=self.folder, env=self.environ, capture_output=True, text=True, timeout=PATIENCE, check=False)
        self.assertEqual((done.returncode, done.stderr), (0, ""))
        return done.stdout.splitlines()


class Command(Shell):
    def test_written(self) -> None:
        """To standard output, or to a file if one is named."""
        for shell in completion.PLACES:
            path = self.folder / "script"
            said, written = bench_here("completion", shell), bench_here("completion", shell, "-o", path)
            self.assertEqual((said.status, written.status, written.out), (0, 0, ""))
            self.assertEqual((said.out, path.read_text()), (completion.script(shell, cli.parser()),) * 2)


class Bash(Shell):
    def asked(self, typed: list[str]) -> list[set[str]]:
        """What bash completes behind each of these."""
        ask = f"source {self.script('bash')}\n"
        for line in typed:
            words = line.replace("=", " = ").split(" ")
            quoted = " ".join(f"'{word}'" for word in words)
            ask += f"COMP_WORDS=({quoted}) COMP_CWORD={len(words) - 1}; _bench; printf '%s\\n' \"${{COMPREPLY[@]}}\" .\n"
        found: list[set[str]] = [set()]
        for answer in self.lines("bash", "--norc", "-c", ask):
            if answer == ".":
                found.append(set())
            elif answer:
                found[-1].add(answer)
        return found[:-1]

    def test_asked(self) -> None:
        for (typed, due), found in zip(ASKED, self.asked([typed for typed, _ in ASKED]), strict=True):
            self.assertEqual(found, due, typed)

    def test_every_option(self) -> None:
        commands = list(cli.commands())
        for command, found in zip(commands, self.asked([f"bench {command} -" for command in commands]), strict=True):
            self.assertEqual(found, options(command), command)

    def test_value_behind_a_sign(self) -> None:
        self.assertEqual(self.asked(["bench show --as=ti", "bench show --as="]), [{"tickets", "till"}, {"schedule", "tickets", "till"}])


class Fish(Shell):
    def asked(self, typed: str) -> set[str]:
        """What fish completes behind this; it gives files as they are to be typed."""
        found = self.lines("fish", "--no-config", "-c", f"source {self.script('fish')}; complete -C '{typed}'")
        return {line.partition("\t")[0].replace("\\ ", " ") for line in found}

    def test_asked(self) -> None:
        for typed, due in ASKED:
            self.assertEqual(self.asked(typed), due, typed)

    def test_every_option(self) -> None:
        for command in cli.commands():
            self.assertEqual(self.asked(f"bench {command} -"), options(command), command)


class Zsh(Shell):
    """In a terminal: it completes only there. The line as it stands when a tab has been typed is printed."""

    def setUp(self) -> None:
        super().setUp()
        script = self.script("zsh")
        functions = self.folder / "functions"
        functions.mkdir()
        script.rename(functions / "_bench")
        master, slave = pty.openpty()
        self.addCleanup(os.close, master)
        self.terminal = master
        # `--no-rcs`: with no settings but these.
        process = subprocess.Popen(["zsh", "--no-rcs", "-i"], stdin=slave, stdout=slave, stderr=slave, cwd=self.folder, env=self.environ, start_new_session=True)
        os.close(slave)
        self.addCleanup(process.wait)
        self.addCleanup(process.kill)
        # Control-X prints the line and leaves an empty one.
        self.typed("fpath=($PWD/functions $fpath); autoload -Uz compinit; compinit -u -D; unsetopt beep auto_menu list_ambiguous; PS1=\n")
        self.typed("shown() { print -r -- \"<$BUFFER>\"; BUFFER= }; zle -N shown; bindkey '^X' shown; echo rea''dy\n")
        self.until(r"ready")

    def typed(self, text: str) -> None:
        os.write(self.terminal, text.encode())

    def until(self, pattern: str) -> str:
        """What the terminal shows up to a text of this pattern, which is given."""
        shown, deadline = "", time.monotonic() + PATIENCE
        while time.monotonic() < deadline:
            if select.select([self.terminal], [], [], 0.1)[0]:
                shown += os.read(self.terminal, 65536).decode(errors="replace")
            if found := re.search(pattern, shown):
                return found[0]
        raise TimeoutError(shown)

    def asked(self, typed: str) -> str:
        """The line that this and a tab make."""
        self.typed(f"{typed}\t\x18")
        return self.until(r"<bench .*?>")[1:-1]

    def test_asked(self) -> None:
        """A single word is put in whole, several as far as they agree, none leaves the line."""
        for typed, due in ASKED:
            before, _, word = typed.rpartition(" ")
            common = os.path.commonprefix(sorted(due)) if due else word
            made = f"{before} {common if len(common) > len(word) else word}"
            self.assertEqual(self.asked(typed).rstrip(), made.rstrip(), typed)

    def test_every_option(self) -> None:
        """Each long option is put in whole from as many letters as tell it from the others."""
        for command in ("trace", "find"):
            for option in sorted(options(command)):
                others = [other for other in options(command) if other != option]
                if option.startswith("--") and not any(other.startswith(option) for other in others):
                    least = next(n for n in range(3, len(option) + 1) if not any(other.startswith(option[:n]) for other in others))
                    self.assertEqual(self.asked(f"bench {command} {option[:least]}").rstrip(), f"bench {command} {option}")

