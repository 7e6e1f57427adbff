"""What the documents cite, count and show is so; what they cite is looked up in the sources, so names may change."""

from __future__ import annotations

import contextlib
import doctest
import io
import re
import shlex
import subprocess
import tempfile
import unittest
from collections.abc import Iterable
from functools import lru_cache
from pathlib import Path

import lock_bench

from . import blocks, citations, counts, mentions
from .blocks import Block
from .citations import Document, Fault
from .named import Sources
from .support import EXAMPLES, PATIENCE, ROOT, Said, bench_here, needs

SOURCES = Sources(ROOT)


@lru_cache
def pages() -> list[Document]:
    return citations.documents(SOURCES)


def pages_of_today() -> list[Document]:
    return [page for page in pages() if not page.is_history]


class Cited(unittest.TestCase):
    """Names, files, decisions, links and numbers of all documents are those of the sources."""

    def none(self, faults: Iterable[Fault]) -> None:
        found = sorted(set(faults))
        if found:
            self.fail("\n" + "\n".join(map(str, found)))

    def test_links(self) -> None:
        self.none(fault for page in pages() for fault in citations.link_faults(page, SOURCES))

    def test_headings(self) -> None:
        self.none(fault for page in pages() for fault in citations.heading_faults(page, SOURCES))

    def test_files(self) -> None:
        self.none(fault for page in pages() for fault in citations.file_faults(page, SOURCES))

    def test_lines(self) -> None:
        """At most as long as .editorconfig has it, but for tables and for what commands print."""
        longest = counts.line_length(SOURCES)
        for page in pages():
            lines = enumerate(re.sub(r"<!--.*?-->", "", page.marked).splitlines(), 1)
            self.assertEqual([number for number, line in lines if len(line.rstrip()) > longest and line[:1] != "|"], [], page.path)

    def test_names(self) -> None:
        readers = [citations.Reader(page, SOURCES) for page in pages_of_today()]
        self.none(fault for reader in readers for fault in reader.faults())
        # Most of what is in code type is a name, and many names are said to be in a file.
        self.assertGreater(sum(reader.seen for reader in readers), 3000)
        self.assertGreater(sum(reader.placed for reader in readers), 500)

    def test_decisions(self) -> None:
        self.none(fault for page in pages_of_today() for fault in citations.decision_faults(page, SOURCES))
        self.none(citations.comment_faults(SOURCES))

    def test_comments(self) -> None:
        """Comments of the crates; comments, messages and help of everything else."""
        readers = mentions.comment_readers(SOURCES)
        self.none(fault for reader in readers for fault in reader.faults())
        self.assertGreater(sum(reader.seen for reader in readers), 400)
        self.none(mentions.named_faults(SOURCES))

    def test_counts(self) -> None:
        for check in (counts.mark_faults, counts.count_faults):
            self.none(fault for page in pages_of_today() for fault in check(page, SOURCES))
        self.assertEqual(counts.unused_rules(pages_of_today()), [], "rules of tests/counts.py that no page names")

    def test_numbers(self) -> None:
        self.none(fault for page in pages_of_today() for fault in counts.number_faults(page, SOURCES))

    def test_quoted_code(self) -> None:
        self.none(fault for page in pages_of_today() for fault in blocks.code_faults(page, SOURCES))

    def test_commands(self) -> None:
        self.none(fault for page in pages_of_today() for fault in blocks.command_faults(page, SOURCES))

    def test_crates(self) -> None:
        for check in (blocks.picture_faults, blocks.crate_list_faults, blocks.builds_on_faults):
            self.none(fault for page in pages_of_today() for fault in check(page, SOURCES))
        drawn = [block for page in pages_of_today() for block in blocks.blocks(page) if blocks.is_picture(block)]
        self.assertEqual(len(drawn), 1)

    def test_one_source_of_two_crates(self) -> None:
        """The crate `sheet_till` is `sheet` once more (docs/DECISIONS.md, 178)."""
        one, other = ({file.partition("/src/")[2]: SOURCES.read(file) for file in SOURCES.of_crate(crate, "src")} for crate in ("sheet", "sheet_till"))
        self.assertEqual(one, other)

    def test_crates_with_edits(self) -> None:
        """docs/TOUR.md: every crate but the programs has must-fail edits."""
        tour = " ".join(SOURCES.read("docs/TOUR.md").split())
        self.assertIn("every crate but the programs has must-fail edits", tour)
        programs = {crate for crate in SOURCES.crates if f"crates/{crate}/src/main.rt" in SOURCES.files}
        self.assertEqual({crate for crate in SOURCES.crates if not SOURCES.edits[crate]}, programs)


class Sessions(unittest.TestCase):
    """Blocks that begin with a command show what it prints; what ./sheet prints, ./bench prints too."""

    def setUp(self) -> None:
        folder = tempfile.TemporaryDirectory()
        self.addCleanup(folder.cleanup)
        self.folder = Path(folder.name)

    def test_commands_shown(self) -> None:
        shown = [(page, block) for page in pages() for block in blocks.blocks(page) if block.text.startswith("$ ")]
        self.assertGreater(len(shown), 9)
        for page, block in shown:
            _, *parts = re.split(r"^\$ (.*)\n", block.text, flags=re.MULTILINE)
            for command, output in zip(parts[::2], parts[1::2], strict=True):
                with self.subTest(f"{page.path}:{page.line(block.place)}", command=command):
                    self.shows(shlex.split(command), output, self.patch_before(page, block))

    def patch_before(self, page: Document, block: Block) -> str | None:
        """The patch that the paragraph before a block names."""
        paragraph = page.text[: block.place].rstrip().rpartition("\n\n")[2]
        named = re.search(r"`(flaws/\S+\.patch)`", paragraph)
        return named[1] if named else None

    def shows(self, words: list[str], output: str, patch: str | None) -> None:
        if "--till" in words and not lock_bench.load().has("credit_sheet"):
            return
        said = self.said(words, patch)
        # A record that differs, and schedules that part, have a status of their own.
        status = 4 if output.splitlines()[-1].startswith(("different ", "they differ ")) else 0
        self.assertEqual((said.status, said.err), (status, ""))
        if "\n..\n" in output:
            # Two dots stand for lines that are left out.
            start, end = output.split("\n..\n")
            self.assertTrue(said.out.startswith(f"{start}\n") and said.out.endswith(f"\n{end}"), said.out)
        else:
            self.assertEqual(said.out, output)

    def said(self, words: list[str], patch: str | None) -> Said:
        script, *words = words
        given = [self.place(word) for word in words]
        match script:
            case "./bench":
                for word in words:
                    if word.endswith(".record"):
                        self.stepped([self.place(words[1]), self.place(word)], patch)
                return bench_here(*given)
            case "./sheet":
                # ./sheet --ticket FILE is ./bench ticket FILE.
                machine = given.pop(0).removeprefix("--") if words[0].startswith("--") else "sheet"
                return bench_here(machine, *given)
            case "stepped":
                return self.stepped(given, patch)
        raise AssertionError(f"no test runs {script}")

    def place(self, word: str) -> str:
        if word.startswith("examples/"):
            return str(ROOT / word)
        return str(self.folder / word) if word.endswith(".record") else word

    def stepped(self, words: list[str], patch: str | None) -> Said:
        """Runs the real lock by turns, built with a patch if one is named."""
        program = self.folder / f"stepped-{Path(patch or 'whole').stem}"
        if not program.exists():
            lock = EXAMPLES / "server_lock"
            built = self.folder / f"{program.name}-sources"
            built.mkdir()
            for source in (*lock.glob("*.c"), *lock.glob("*.h")):
                (built / source.name).write_bytes(source.read_bytes())
            if patch is not None:
                subprocess.run(["patch", "-s", "-p1", "-i", lock / patch], cwd=built, check=True)
            flags = ["-std=c11", "-D_POSIX_C_SOURCE=200809L", "-pthread", f"-I{ROOT / 'include'}", "-DSTEPPED"]
            subprocess.run(["cc", *flags, "goll.c", "turns.c", "stepped.c", "-o", program], cwd=built, check=True)
        done = subprocess.run([program, *words], capture_output=True, text=True, timeout=PATIENCE, check=False)
        return Said(done.returncode, done.stdout, done.stderr)


class Specification(unittest.TestCase):
    """The inputs that docs/SPECIFICATION.md shows give what it says."""

    def setUp(self) -> None:
        self.text = (ROOT / "docs/SPECIFICATION.md").read_text()

    def test_small_inputs(self) -> None:
        row = r"^\| (\d+) \| .* \| `([0-9a-f ]+)`(?:, journal of (\d+) byte)? \|$"
        inputs = re.findall(row, self.text, re.MULTILINE)
        self.assertEqual([int(number) for number, _, _ in inputs], [1, 2, 3, 4, 5, 6, 7, 10])
        for number, shown, journal in inputs:
            file = bytes.fromhex(shown)
            if number == "10":
                sheet = lock_bench.load().credit_sheet(b"\1\1\1\0\0", file).sheet
            else:
                sheet = lock_bench.load().bench_sheet(file, int(journal) if journal else None).sheet
            self.assertTrue(sheet.startswith(f"answer {number} at 0\n".encode()), (number, shown, sheet))

    def test_examples(self) -> None:
        """Each paragraph with rows has the halves of their journals, and lines of their sheets, below it."""
        found = re.findall(r"^(\*\*(?:.+\n)+)\n((?: {4}.*\n)+)", self.text, re.MULTILINE)
        self.assertGreater(len(found), 8)
        for paragraph, shown in found:
            paragraph = " ".join(paragraph.split())
            sizes = re.search(r"N = (\d+)(?:,| and) T = (\d+)", paragraph)
            till = re.search(r"Till `([0-9a-f ]+)`", paragraph)
            assert sizes is not None, paragraph
            lines: set[str] = set()
            for rows in re.findall(r"`(\d+:[\d:,* ]+)`", paragraph):
                file = lock_bench.notation.parse(f"nodes {sizes[1]} threads {sizes[2]} {rows}").to_bytes()
                if paragraph.startswith("**Plain engine.**"):
                    lines.update(lock_bench.load().plain_sheet(file).decode().splitlines())
                    continue
                ran = lock_bench.load().sheet(file, bytes.fromhex(till[1]) if till else None)
                half = len(ran.journal) // 2
                lines |= {f"kinds {ran.journal[:half].hex(' ')}", f"words {ran.journal[half:].hex(' ')}"}
                lines.update(ran.sheet.decode().splitlines())
            for said in re.split(r"\s{2,}|\n", shown.strip()):
                self.assertIn(said, lines, paragraph)

    def test_site(self) -> None:
        example = re.search(r"^site +([0-9a-f ]+)\nturns +([0-9a-f ]+)\n\n((?:.+\n)+)```$", self.text, re.MULTILINE)
        assert example is not None
        site, turns = bytes.fromhex(example[1]), bytes.fromhex(example[2])
        self.assertEqual(lock_bench.load().site_sheet(site, turns).decode(), example[3])

    def test_dispatcher_and_ticket_lock(self) -> None:
        text = " ".join(self.text.split())
        wanted = re.search(r"Wanted calls, N = (\d+), T = (\d+); `([^`]*)`\. (\d+) steps.*?`(answer [^`]*)`", text)
        assert wanted is not None
        given = lock_bench.load().dispatch_sheet(
            lock_bench.notation.parse(f"nodes {wanted[1]} threads {wanted[2]} {wanted[3]}").to_bytes()
        )
        self.assertEqual(given.sheet.decode().splitlines()[0], wanted[5])
        self.assertEqual(wanted[5], f"answer 0 at {wanted[4]}")
        refused = re.findall(r"`(\d+:[\d:,* ]+)` with \d[^`]*\(`(answer [^`]*)`\)", text)
        self.assertEqual(len(refused), 2)
        for rows, answer in refused:
            file = lock_bench.notation.parse(f"nodes {wanted[1]} threads {wanted[2]} {rows}").to_bytes()
            self.assertEqual(lock_bench.load().dispatch_sheet(file).sheet.decode().splitlines()[0], answer)
        tickets = re.search(r"T = (\d+), start ([\d,]+);\s+`([^`]*)`\s+gives\s+((?:`[^`]*`(?:,\s+|\.))+)", text)
        assert tickets is not None
        taken = f"tickets threads {tickets[1]} start {tickets[2].replace(',', '')} {tickets[3]}"
        sheet = lock_bench.load().ticket_sheet(lock_bench.notation.parse_any(taken, "page").to_bytes()).decode()
        self.assertEqual(re.findall(r"`([^`]*)`", tickets[4]), sheet.splitlines())


class Documents(unittest.TestCase):
    def test_docstring(self) -> None:
        self.assertEqual(doctest.testmod(lock_bench), (0, 3))

    def test_front_page(self) -> None:
        """The program that README.md shows runs, and prints what its comment says."""
        self.assertEqual(self.printed("README.md", 0, {}), "1\n")

    def test_front_page_is_short(self) -> None:
        """One screen and a half: at most 120 lines."""
        self.assertLessEqual(len((ROOT / "README.md").read_text().splitlines()), 120)

    def test_front_page_for_people(self) -> None:
        """README.md has a record held to the bench, a schedule found and one shrunk: commands that run as they stand."""
        commands = re.findall(r"^\./bench ((?:hold|find|shrink) .*?) +# (.*)$", (ROOT / "README.md").read_text(), re.MULTILINE)
        statuses = {}
        for command, comment in commands:
            words = [str(ROOT / word) if word.startswith("examples/") else word for word in shlex.split(command)]
            done = bench_here(*words, *(["--tries", 256] if words[0] == "find" else []))
            statuses[words[0]] = done.status
            if row := re.search(r"differs at (row \d+)$", comment):
                self.assertTrue(done.out.startswith(f"{row[1]} differs: "), done.out)
        self.assertEqual(statuses, {"hold": 4, "find": 0, "shrink": 0})

    def test_package_page(self) -> None:
        """The programs that bindings/python/README.md shows run, and print what their comments say."""
        names: dict[str, object] = {}
        out = self.printed("bindings/python/README.md", 0, names)
        self.assertTrue(out.startswith("answer 0 at 7\n"))
        self.assertIn("\n\n1\n", out)
        self.assertIn("swap of root failed: (0, 0, open), found (1, 0, open)\n", out)

    @needs("credit_sheet")
    def test_package_page_with_a_till(self) -> None:
        page, names = "bindings/python/README.md", dict[str, object]()
        self.printed(page, 0, names)
        self.assertEqual(self.printed(page, 1, names), "(0, 17)\n['booked', 'booked', 'repeated']\n")

    def printed(self, page: str, number: int, names: dict[str, object]) -> str:
        """What a program of a page prints, which goes on with the names of those before it."""
        blocks = re.findall(r"```python\n(.*?)```", (ROOT / page).read_text(), re.DOTALL)
        out = io.StringIO()
        with contextlib.redirect_stdout(out):
            exec(blocks[number], names)
        # A comment behind a print says what it prints.
        for comment in re.findall(r"^print\(.*\) +# (.*)$", blocks[number], re.MULTILINE):
            if comment != "the sheet, as ./sheet prints it":
                self.assertIn(comment, out.getvalue().splitlines())
        return out.getvalue()

    def test_text_shown(self) -> None:
        """docs/USING.md shows the text of an example, without the comment at its head."""
        page = (ROOT / "docs/USING.md").read_text()
        shown = re.search(r"`(examples/\S+\.txt)`\s+is\s+a\s+text:\n\n```\n(.*?)```", page, re.DOTALL)
        assert shown is not None
        text = (ROOT / shown[1]).read_text()
        self.assertEqual(shown[2], re.sub(r"\A(#.*\n)*", "", text))

    def test_bytes_of_the_tour(self) -> None:
        """docs/TOUR.md shows the bytes of its example and of the journal, and the line of its thread."""
        tour = (ROOT / "docs/TOUR.md").read_text()
        file = (EXAMPLES / "colliding-readers.schedule").read_bytes()
        ran = lock_bench.load().bench_sheet(file)
        lines = [line.replace(" ", "") for line in tour.splitlines()]
        self.assertIn(file.hex(), lines)
        self.assertIn(ran.journal.hex(), lines)
        self.assertIn("```\nthread 1 reading 0 1\n```", tour)
        self.assertEqual(ran.sheet.decode().splitlines()[4], "thread 1 reading 0 1")
