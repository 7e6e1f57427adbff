"""The test of the documents finds faults: each kind, in a small repository with a page that is made up."""

from __future__ import annotations

import re
import tempfile
import unittest
from collections.abc import Callable, Iterable
from pathlib import Path

from . import blocks, citations, counts, mentions
from .citations import Document, Fault
from .named import Sources, antt_names, python_names, rattle_names

FILES = {
    "crates.txt": "# all\nbase:\nside: base\nupper: base side\nprogram: upper io\n",
    "crates/base/src/lib.rt": """\
pub struct Pot {
    pub coins: usize, // how many
}

impl Pot {
    pub const MOST: u64 = 512;
}

pub enum Move { Put, Take }

pub fn add_one(x: usize) -> usize {
    x + 1
}
""",
    "crates/base/specs/Rule.antt": """\
-- The rule.
use Prim.{ℕ}

pub data Op : Type 0 where
  put : ℕ → Op
  take-all : Op

abbrev pub nextPot : ℕ → ℕ
nextPot n = n + 1

pub record Kept (n : ℕ) : Type 0 where
  -- never above the bound
  pub bounded : n ≤ 6476
""",
    "crates/base/specs/Other.antt": "pub elsewhere : ℕ\nelsewhere = 1\n",
    "crates/base/proofs/Law.antt": """\
module Inner (n : ℕ) where
  pub pot-fits : nextPot n ≤ 6476
  pot-fits = by
  pot-below : nextPot n < 6476
  pot-below = by
    where
      by : local
""",
    "crates/base/proofs/add_one/Proof.antt": "returns : tie.Need\nreturns c = c\n",
    "crates/base/must-fail/adds_two.edit": "# Two.\nfile: src/lib.rt\nold:     x + 1\nnew:     x + 2\n",
    "crates/side/src/lib.rt": "pub fn look() {}\n",
    "crates/side/must-fail/looks_away.edit": "# Away.\n",
    "crates/upper/src/lib.rt": "// see docs/DECISIONS.md, 2\npub fn run_file() {}\n",
    "crates/program/src/main.rt": 'fn main() { io::write_all(1, "idle"); }\n',
    "crates/program/stdout": "run p1 journal 2\nanswer 0 at 1\nrun p1 journal 1\nrun p2 journal 2\n",
    "bench": "#!/bin/sh\n",
    "sheet": '#!/bin/sh\ncase $1 in "--plain") ;; esac\n',
    "bindings/rust/src/numbers.rs": "pub mod depth {\n    pub const MOST: u8 = 3;\n}\n",
    "tools/count/src/main.rs": "const DEFAULT: u64 = 20_000;\nfn tally() {}\n",
    "docs/DECISIONS.md": "# Decisions\n\n- **1. What?** This.\n- **2. Why?** So.\n",
    "docs/OTHER.md": "# Other\n\n## How it is built\n\nMeasured on two cores: 1,234,567 files.\n",
    "docs/landings/3-done.md": "# Done\n\n`goneLong` and `ago` in docs/OTHER.md: 4,321,000 runs.\n",
}

Check = Callable[[Document, Sources], Iterable[Fault]]


class MadeUp(unittest.TestCase):
    def setUp(self) -> None:
        folder = tempfile.TemporaryDirectory()
        self.addCleanup(folder.cleanup)
        self.root = Path(folder.name)
        for name, text in FILES.items():
            path = self.root / name
            path.parent.mkdir(parents=True, exist_ok=True)
            path.write_text(text)

    @property
    def sources(self) -> Sources:
        return Sources(self.root)

    def said(self, check: Check, text: str, page: str = "docs/PAGE.md") -> list[str]:
        return [str(fault) for fault in check(Document(page, text), self.sources)]

    def well(self, check: Check, *texts: str) -> None:
        for text in texts:
            self.assertEqual(self.said(check, text), [], text)

    def wrong(self, check: Check, text: str, *parts: str) -> None:
        """One fault, whose message has the document, the line and these parts."""
        faults = self.said(check, text)
        self.assertEqual(len(faults), 1, (text, faults))
        self.assertRegex(faults[0], r"^docs/PAGE\.md:\d+: says ")
        for part in parts:
            self.assertIn(part, faults[0])


class Names(MadeUp):
    def names(self, page: Document, sources: Sources) -> Iterable[Fault]:
        return citations.name_faults(page, sources)

    def test_well(self) -> None:
        self.well(
            self.names,
            "`base` specs/Rule `nextPot`, `put` and `take-all`; `base` proofs/Law `pot-fits`.",
            "`base` specs/Rule `Kept` has `bounded`. specs/Rule and Other are both there, and so is proofs/add_one.",
            "The crate `base` has `base::add_one` and `Pot::MOST`, `base::Pot::coins` and `Move`; `.bounded`.",
            "`upper::run_file` writes by `io::write_all`, `idle` is printed.",
            "`crates/base/specs/` and `crates/NAME/src`, `docs/OTHER.md`, `libupper.a`, `target/log/NAME.out`.",
            "`01 ff 02`, `0:64,0*2 1:2`, `rt check NAME`, `./bench sweep --threads T`, `./sheet --plain FILE`.",
            "`base` adds_two, and (`side`: looks_away); `base` must-fail/adds_two.",
            "`tools/count` src/main.rs `tally`, `tools/count/src/main.rs` `tally`.",
            "`nextPot (put 1)`, `add_one(x)`.",
            "`depth::MOST` of the binding, and `MOST`; `liblock_bench.so.1`.",
        )

    def test_no_such_name(self) -> None:
        self.wrong(self.names, "Well.\n\nAnd `nextPots`.", ":3: says `nextPots`; no source has it")
        self.wrong(self.names, "`base::add_two`", "no source has it")
        self.wrong(self.names, "`side::add_one`", "no source has it")
        self.wrong(self.names, "`Pot::LEAST`", "no source has it")
        self.wrong(self.names, "`depth::LEAST`", "no source has it")
        self.wrong(self.names, "`gone` specs", "`gone`")
        self.wrong(self.names, "`nextPot (putt 1)`", "no source has it")

    def test_name_of_another_place(self) -> None:
        self.wrong(
            self.names,
            "`base` specs/Rule `nextPot`, `elsewhere`",
            "`elsewhere`; crates/base/specs/Rule.antt has no such name: it is in crates/base/specs/Other.antt",
        )
        self.wrong(self.names, "`base` proofs/Law `nextPot`", "it is in crates/base/specs/Rule.antt")
        self.wrong(self.names, "`tools/count` src/main.rs `nextPot`", "tools/count/src/main.rs has no such name")
        self.wrong(self.names, "`docs/OTHER.md` `nextPot`", "docs/OTHER.md has no such name")
        # What is local to a proof is nobody else's.
        self.wrong(self.names, "`base` proofs/Law `by`", "no source of a crate has it")

    def test_name_known_elsewhere(self) -> None:
        """Names of a tool count on the tool's own pages."""
        self.assertEqual(self.said(self.names, "`tally`", "tools/count/README.md"), [])
        self.wrong(self.names, "`tally`", "no source has it")

    def test_no_such_file(self) -> None:
        self.wrong(self.names, "`base` specs/Rules `nextPot`", "base has no specs/Rules")
        self.wrong(self.names, "`base` specs/Rule, Ruler and Other", "base has no specs/Ruler")
        self.wrong(self.names, "`crates/base/spec/`", "no source has it")
        self.wrong(self.names, "`docs/OTHERS.md`", "no source has it")
        self.wrong(self.names, "`tools/count` src/lib.rs", "there is no tools/count/src/lib.rs")

    def test_edits(self) -> None:
        self.wrong(self.names, "(adds_three)", "there is no such edit, name or file")
        self.wrong(self.names, "`side` adds_two", "side has no such edit: it is one of base")
        self.wrong(self.names, "`base` must-fail/adds_three", "base has no must-fail/adds_three")

    def test_commands(self) -> None:
        self.wrong(self.names, "`./bench swept`", "no source has it")
        self.wrong(self.names, "`./bench sweep --thread 3`", "no source has it")
        self.wrong(self.names, "`./benches sweep`", "no source has it")
        self.wrong(self.names, "`./sheet --plane FILE`", "no source has it")
        self.well(self.names, "`bash crates/base/src`, `make -C tools/count && cargo test`, `cp docs/OTHER.md x`")
        self.wrong(self.names, "`make -C tools/counts`", "no source has it")
        self.wrong(self.names, "`python3 -m tests.gone`", "no source has it")

    def test_sections(self) -> None:
        """A page may say where the files of a section are, and then name them before a colon."""
        head = "# Map\n\n## Rules\nFiles are under `crates/base/specs/`.\n\n| Sentence | Definition |\n|---|---|\n"
        self.well(self.names, f'{head}| "go" | Rule: `nextPot`; Other: `elsewhere` (adds_two; `side`: looks_away) |\n')
        self.wrong(self.names, f'{head}| "next" | Other: `nextPot` |\n', ":8:", "it is in crates/base/specs/Rule.antt")
        self.wrong(self.names, f'{head}| "next" | Rule: `nextPot` (looks_away) |\n', "base has no such edit")
        self.wrong(self.names, f'{head}| "next" | `side` Rule: `nextPot` |\n', "side has no specs/Rule")

    def test_blocks_are_no_prose(self) -> None:
        self.well(self.names, "```\n`nextPots` adds_three\n```\n")


class Places(MadeUp):
    def test_links(self) -> None:
        self.well(citations.link_faults, "[a](OTHER.md), [b](OTHER.md#how-it-is-built), [c](../crates), [d](https://x)")
        self.wrong(citations.link_faults, "\n[a](GONE.md)", ":2: says a link to GONE.md; there is no docs/GONE.md")
        self.wrong(citations.link_faults, "[b](OTHER.md#how-it-was-built)", "docs/OTHER.md has no such heading")
        self.wrong(citations.link_faults, "# Here\n\n[here](#there)", "docs/PAGE.md has no such heading")

    def test_headings(self) -> None:
        self.well(citations.heading_faults, 'docs/OTHER.md, "How it is built"')
        self.wrong(citations.heading_faults, 'docs/OTHER.md, "Other" and "Gone"', '"Gone"', "has no such heading")

    def test_files(self) -> None:
        self.well(citations.file_faults, "docs/OTHER.md, crates/base/src/lib.rt, OTHER.md, tools/count; target/x.html.")
        self.wrong(citations.file_faults, "See docs/OTHERS.md.", "docs/OTHERS.md; there is no such file")
        self.wrong(citations.file_faults, "See crates/bass/src.", "crates/bass/src")

    def test_decisions(self) -> None:
        self.well(citations.decision_faults, "docs/DECISIONS.md, 1 and 2; (DECISIONS 2); (7)")
        self.wrong(citations.decision_faults, "docs/DECISIONS.md, 1 to 3", "decision 3; docs/DECISIONS.md has no such")
        self.wrong(citations.decision_faults, "(DECISIONS\n9)", "decision 9")
        self.wrong(citations.decision_faults, "A number in brackets is an entry (2, 7).", "decision 7")

    def test_decisions_of_comments(self) -> None:
        self.assertEqual(list(citations.comment_faults(self.sources)), [])
        path = self.root / "crates/upper/src/lib.rt"
        path.write_text(path.read_text().replace("DECISIONS.md, 2", "DECISIONS.md,\n// 4"))
        faults = [str(fault) for fault in citations.comment_faults(self.sources)]
        self.assertEqual(faults, ["crates/upper/src/lib.rt:1: says decision 4; docs/DECISIONS.md has no such number"])

    def test_history(self) -> None:
        """Notes of landings tell of names that may be gone; their files and links are looked up."""
        note = Document("docs/landings/3-done.md", FILES["docs/landings/3-done.md"])
        self.assertEqual(citations.faults_of(note, self.sources), [])
        gone = Document("docs/landings/4-more.md", "`goneLong`, docs/GONE.md")
        self.assertEqual([fault.says for fault in citations.faults_of(gone, self.sources)], ["docs/GONE.md"])


class Mentions(MadeUp):
    """Comments and messages that name what is gone."""

    def crate_faults(self, file: str, text: str) -> list[str]:
        (self.root / file).write_text(text)
        return [str(fault) for reader in mentions.comment_readers(Sources(self.root)) for fault in reader.faults()]

    def test_comments_of_crates(self) -> None:
        code = "pub fn run_file(rows: usize) {}\n"
        for said in ("`base::add_one`", "`base` specs/Rule `nextPot`", "of `rows` rows", "the crate `side`"):
            self.assertEqual(self.crate_faults("crates/upper/src/lib.rt", f"// {said}\n{code}"), [], said)
        for said, why in (
            ("`base::add_two`", "no source has it"),
            ("`bookings`", "no source has it"),
            ("`base` specs/Rule `elsewhere`", "crates/base/specs/Rule.antt has no such name"),
            ("`side` specs/Rule", "side has no specs/Rule"),
        ):
            faults = self.crate_faults("crates/upper/src/lib.rt", f"{code}\n// {said}\n")
            self.assertEqual(len(faults), 1, said)
            self.assertIn(f"crates/upper/src/lib.rt:3: says {said.split()[-1]}; {why}", faults[0])

    def test_an_edit_and_a_definition(self) -> None:
        self.assertEqual(len(self.crate_faults("crates/base/must-fail/adds_two.edit", "# Two (`goneLong`).\nfile: src/lib.rt\n")), 1)
        self.assertEqual(len(self.crate_faults("crates/base/specs/Other.antt", "-- as `upper::gone`\npub elsewhere : ℕ\nelsewhere = 1\n")), 2)

    def test_messages(self) -> None:
        def faults(text: str) -> list[str]:
            (self.root / "bench").write_text(text)
            return [str(fault) for fault in mentions.named_faults(Sources(self.root))]

        self.assertEqual(faults("# `add_one`, ``Pot``: ./bench page FILE, docs/OTHER.md (base, specs/Rule, Kept)\n"), [])
        places = ("(base, specs/Rule, elsewhere)", "(side, specs/Rule)")
        for said in (*places, "`base::gone`", "``goneLong``", "./bench pages FILE", "docs/GONE.md", "crates/base/src/main.rt"):
            self.assertEqual(len(faults(f"# {said}\n")), 1, said)


class Numbers(MadeUp):
    """Figures: each with the rule that counts it."""

    def test_figures(self) -> None:
        self.well(
            counts.mark_faults,
            "stored: `program` 2<!-- count: stored program -->; two<!-- count: constructors Op --> operations",
            "at most 6,476<!-- count: most pot-fits --> bytes, 6,475<!-- count: most pot-below base -->",
            "512<!-- count: constant Pot::MOST --> coins, some 500<!-- count: constant Pot::MOST -->",
        )
        for said, why in (
            ("3<!-- count: stored program -->", "3, stored program; the sources give 2"),
            ("\n\nthree<!-- count: constructors Op -->\noperations", ":3: says three, constructors Op; the sources give 2"),
            ("at most 6,477<!-- count: most pot-fits -->", "the sources give 6,476"),
            ("at most 16,476<!-- count: most pot-fits -->", "the sources give 6,476"),
            ("500<!-- count: constant Pot::MOST -->", "the sources give 512"),
            ("some 480<!-- count: constant Pot::MOST -->", "the sources give 512"),
            ("12<!-- count: most gone-fits -->", "no source has a theorem gone-fits"),
            ("12<!-- count: constant Pot::LEAST -->", "no crate has a constant Pot::LEAST"),
            ("12<!-- count: constant -->", "the rule cannot be applied"),
            ("12<!-- count: stored gone -->", "the rule cannot be applied"),
            ("12<!-- count: gnomes -->", "tests/counts.py has no such rule"),
            ("many<!-- count: flaws -->", "no number stands before it"),
        ):
            self.wrong(counts.mark_faults, said, why)

    def test_figures_without_a_rule(self) -> None:
        self.wrong(counts.count_faults, "There are 289 must-fail edits.", "289 must-fail edits; no rule counts that")
        self.wrong(counts.count_faults, "There are\nseven crates.", "seven crates; no rule counts that")
        self.well(counts.count_faults, "two crates, 47<!-- count: flaws --> planted flaws, `289 edits`")

    def test_numbers(self) -> None:
        """Constants, what is next to a power of two, decisions, and what was measured, in the section that says where."""
        self.well(
            counts.number_faults,
            "512 coins, 20,000 random ones, 65,535 and 129, 99 of them, document 004, docs/DECISIONS.md, 101",
            "6,476<!-- count: most pot-fits --> bytes",
            "## Speed\n\nMeasured on two cores: 1,234,567 files\n\n## More\n",
        )
        self.wrong(counts.number_faults, "## Speed\n\nMeasured on two cores.\n\n## More\n\n1,234,567 files\n", ":7: says 1,234,567; no constant")
        for said in ("1,234,567 files", "a bound of 6,476", "a file of 510", "an entry (101)"):
            self.wrong(counts.number_faults, said, "no constant is that, and no rule counts it")
        self.well(counts.number_faults, "A number in brackets is an entry (101).")

    def test_rules_that_no_page_names(self) -> None:
        page = Document("docs/PAGE.md", "2<!-- count: stored a --> 1<!-- count: one lock -->")
        unused = counts.unused_rules([page])
        self.assertEqual(set(counts.RULES) - set(unused), {"stored", "one lock"})

    def test_words(self) -> None:
        self.assertEqual([counts.number(text) for text in ("two", "fourteen", "7", "1,044")], [2, 14, 7, 1044])


class Blocks(MadeUp):
    PICTURE = "```\nbase ─┬─ side ── upper\n```\n"

    def test_code(self) -> None:
        edit = FILES["crates/base/must-fail/adds_two.edit"]
        self.well(blocks.code_faults, "```rust\n    x + 1\n```\n", f"```\n{edit}```\n")
        self.wrong(blocks.code_faults, "\n```rust\n    x + 3\n```\n", ":2: says x + 3; no crate has these lines")
        self.wrong(blocks.code_faults, f"```\n{edit.replace('2', '3')}```\n", "there is no such edit")

    def test_commands(self) -> None:
        self.well(blocks.command_faults, "```sh\n./bench page FILE -o x.html   # a page\n./bench build && pip x\n```\n")
        self.wrong(blocks.command_faults, "```sh\n./bench pages FILE\n```\n", "./bench has no command pages")
        self.wrong(blocks.command_faults, "```sh\n./bench page FILE -q\n```\n", "./bench page has no -q")

    def test_picture(self) -> None:
        self.assertEqual(
            blocks.builds_on("a ─┬─ b ─┬─ d (x, y)\n   ├─ c ─┘\n   └─ e ── f\n"),
            {"a": set(), "b": {"a"}, "c": {"a"}, "d": {"b", "c", "x", "y"}, "e": {"a"}, "f": {"e"}},
        )
        self.well(blocks.picture_faults, self.PICTURE)
        self.wrong(
            blocks.picture_faults,
            "```\nbase ─┬─ side\n      └─ upper\n```\n",
            "upper builds on base; crates.txt says on base, side",
        )
        faults = self.said(blocks.picture_faults, self.PICTURE.replace("side", "gone"))
        self.assertTrue(any("the crate gone; crates.txt has no such crate" in fault for fault in faults), faults)

    def test_builds_on(self) -> None:
        self.well(blocks.builds_on_faults, "`upper` builds on `side`, `program` on `upper`.")
        self.wrong(blocks.builds_on_faults, "`upper` builds on `base`.", "crates.txt says on base, side")

    def test_list_of_crates(self) -> None:
        self.well(blocks.crate_list_faults, f"## The crates\n\n{self.PICTURE}\n`program`\n\n## More\n")
        listed = f"## The crates\n\n{self.PICTURE}\n## More `program`\n"
        self.wrong(blocks.crate_list_faults, listed, "crates.txt has also program")


class Declared(unittest.TestCase):
    def test_definitions(self) -> None:
        self.assertEqual(
            antt_names(FILES["crates/base/specs/Rule.antt"]), {"Op", "put", "take-all", "nextPot", "Kept", "bounded"}
        )
        self.assertEqual(antt_names(FILES["crates/base/proofs/Law.antt"]), {"Inner", "pot-fits", "pot-below"})
        self.assertEqual(antt_names("pub f :\n    ℕ → ℕ\nf n =\n    let x = n in\n    x\n"), {"f"})
        self.assertEqual(antt_names("pub g\n    : ℕ → ℕ\ng n = n\n"), {"g"})
        record = "record R\n    (n : ℕ) : Type 0 where\n  pub a b : ℕ\n\nc : R\n"
        self.assertEqual(antt_names(record), {"R", "a", "b", "c"})

    def test_code(self) -> None:
        names = rattle_names(FILES["crates/base/src/lib.rt"])
        self.assertEqual(names.items, {"Pot", "Move", "add_one"})
        self.assertLessEqual({"Pot::coins", "Pot::MOST"}, names.members)

    def test_python(self) -> None:
        self.assertEqual(python_names("A = 1\ndef f(x): pass\nclass C:\n    y: int = 2\n"), {"A", "f", "x", "C", "y"})

    def test_every_form_is_used(self) -> None:
        """Each form of what no source has is still that of something on a page."""
        spans = [
            " ".join(token.text.split())
            for page in citations.documents(Sources(Path(__file__).resolve().parents[3]))
            for token in citations.tokens(page.prose)
            if token.kind == "code"
        ]
        for form in citations.FOREIGN:
            self.assertTrue(any(re.fullmatch(form, span) for span in spans), form)
        for program in citations.PROGRAMS:
            self.assertTrue(any(span.split()[0] == program for span in spans), program)
