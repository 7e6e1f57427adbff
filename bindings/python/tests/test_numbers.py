"""The numbers that have names in the header, in the Rust crate and in the package are those of the definitions and of docs/SPECIFICATION.md."""

from __future__ import annotations

import re
import unittest

from lock_bench import identity, journal, orders, ticket
from lock_bench.sources import ROOT

from .named import Sources

SOURCES = Sources(ROOT)

Numbers = dict[str, int]


def constants(kind: str) -> Numbers:
    """The constants of a type of the crate `lock`."""
    (block,) = re.findall(rf"^impl {kind} {{\n(.*?)^}}", SOURCES.code["crates/lock/src/lib.rt"], re.DOTALL | re.MULTILINE)
    return {name: int(value) for name, value in re.findall(r"pub const (\w+): u8 = (\d+);", block)}


# What the header and the crate call each case of the enum `Refusal` of the crate `lock`.
REFUSALS = {
    "TooShort": "SHORT",
    "SizeOutOfRange": "SIZE",
    "WrongLength": "LENGTH",
    "JournalTooSmall": "JOURNAL",
    "NoSuchThread": "THREAD",
    "NoSuchOrder": "ORDER",
    "Unsuitable": "UNSUITABLE",
    "SheetTooSmall": "BUFFER",
    "NotATill": "TILL",
    "EntryDiffers": "ENTRY",
    "ValueDiffers": "VALUE",
}


def refusals() -> Numbers:
    """The numbers of the cases of `Refusal`, under the names of the header: a case that has none there is an error."""
    cases = re.findall(r"Refusal::(\w+) => (\d+),", SOURCES.code["crates/lock/src/lib.rt"])
    return {REFUSALS[case]: int(number) for case, number in cases}


def entries() -> tuple[Numbers, Numbers]:
    """The kinds and the words of the journal: in the sources the words begin with the root."""
    named = list(constants("Entry").items())
    first = [name for name, _ in named].index("ROOT")
    return dict(named[:first]), dict(named[first:])


def decoded() -> Numbers:
    """The orders, as the definitions read them: `decode` of a lock, and what `lowered` takes from those of the second lock."""
    decode = SOURCES.code["crates/lock/specs/Call.antt"].partition("\ndecode z o =")[2].partition("\n\n")[0]
    found = {name: int(number) for number, name in re.findall(r"eqb o (\d+) then some (\w+)", decode)}
    found |= {name: int(number) for name, number in re.findall(r"some \((\w+) \(o - (\d+)\)\)", decode)}
    (second,) = re.findall(r"^lowered o = .* then o - (\d+) else o$", SOURCES.code["crates/pair/specs/Pair.antt"], re.MULTILINE)
    return {re.sub(r"(?=[A-Z])", "_", name).upper(): number for name, number in found.items()} | {"SECOND": int(second)}


def table(heading: str, columns: tuple[int, ...], nth: int = 0) -> set[int]:
    """The numbers that stand alone in columns of a table of docs/SPECIFICATION.md, or before a plus."""
    section = SOURCES.read("docs/SPECIFICATION.md").partition(f"\n## {heading}\n")[2].partition("\n## ")[0]
    rows = [line.split("|")[1:-1] for line in re.findall(r"(?:^\|.*\n)+", section, re.MULTILINE)[nth].splitlines()[2:]]
    cells = [row[column].strip() for row in rows for column in columns]
    return {int(number) for cell in cells for number in re.findall(r"\d+", re.match(r"[\d, ]*", cell)[0])}  # type: ignore[index]


def of_header(group: str) -> Numbers:
    text = SOURCES.code["include/lock_bench.h"]
    return {name: int(value) for name, value in re.findall(rf"\bLOCK_BENCH_{group}_(\w+) = (\d+)\b", text)}


def of_rust(module: str) -> Numbers:
    text = SOURCES.code["bindings/rust/src/numbers.rs"]
    (block,) = re.findall(rf"^pub mod {module} {{\n(.*?)^}}", text, re.DOTALL | re.MULTILINE)
    return {name: int(value) for name, value in re.findall(r"pub const (\w+): u8 = (\d+);", block)}


class Named(unittest.TestCase):
    def same(self, group: str, module: str, numbers: Numbers) -> None:
        self.assertEqual(of_header(group), numbers)
        self.assertEqual(of_rust(module), numbers)

    def test_refusals(self) -> None:
        numbers = refusals()
        self.assertEqual(set(numbers), set(REFUSALS.values()))
        self.same("REFUSAL", "refusal", {"NONE": 0} | numbers)
        self.assertEqual(table("3. Refusals", (0,)) - {8}, set(numbers.values()))

    def test_orders(self) -> None:
        numbers = decoded()
        self.assertEqual(len(numbers), 8)
        self.same("ORDER", "order", numbers)
        self.assertEqual(table("7. Orders", (0,)), set(numbers.values()))
        self.assertEqual({name: getattr(orders, name) for name in numbers}, numbers)

    def test_kinds(self) -> None:
        numbers, _ = entries()
        self.same("KIND", "kind", numbers)
        self.assertEqual(table("4. The journal", (0, 3)), set(numbers.values()))
        self.assertEqual(set(journal.KINDS), set(numbers.values()))

    def test_words(self) -> None:
        _, numbers = entries()
        self.same("WORD", "word", numbers)
        self.assertEqual(numbers, {"ROOT": journal.ROOT, "MUTEX": journal.QUEUE, "NONE": journal.NO_WORD, "SECOND": journal.SECOND_WORD})
        said = " ".join(SOURCES.read("docs/SPECIFICATION.md").split())
        words = "Words: {ROOT} the root, n node n, {MUTEX} the mutex and the queue, {NONE} none. An entry of the second lock has {SECOND} added"
        self.assertIn(words.format(**numbers), said)

    def test_orders_of_tickets(self) -> None:
        numbers = {name.upper(): number for name, number in ticket.ORDERS.items()}
        self.same("TICKET", "ticket_order", numbers)
        self.assertEqual(table("16. The ticket lock", (0,)), set(numbers.values()))

    def test_versions(self) -> None:
        """One version of header, library, package and crate."""
        self.assertIn(f'\nversion = "{identity.version()}"\n', SOURCES.read("bindings/rust/Cargo.toml"))

    def test_functions(self) -> None:
        """The crate has the functions that the header declares; those of slices alone with the same ones in the same order."""
        rust = SOURCES.code["bindings/rust/src/lib.rs"]
        wrapped = {name: (read.split(", "), written.split(", ")) for name, read, written in re.findall(r"^    fn (\w+)\(([\w, ]+); ([\w, ]+)\);", rust, re.MULTILINE)}
        declared = re.findall(r"^size_t (\w+)\(([^;{]*)\);", SOURCES.code["include/lock_bench.h"], re.MULTILINE)
        self.assertGreaterEqual(len(declared), 6)
        for name, parameters in declared:
            slices = re.findall(r"(const )?uint8_t \*(\w+), size_t \2_length(?:,\s*|$)", parameters)
            if 2 * len(slices) == len(parameters.split(",")):
                self.assertEqual(wrapped[name], ([its for const, its in slices if const], [its for const, its in slices if not const]))
            else:
                self.assertRegex(rust, rf"\bfn {name}\(")
