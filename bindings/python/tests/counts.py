"""The figures that documents give of the repository, counted in the sources.

A figure has a comment behind it, which a reader of the page does not see, with the rule that counts it and what the rule
is of: `47<!-- count: flaws -->`, `512<!-- count: length Lock -->`. A figure behind the word *some* is right to within a
twentieth. Other numbers that look like a figure are faults: a number of crates, edits, tests and the like; and one from
100 on that is neither the value of a constant nor next to a power of two, unless its section says where it was measured.
"""

from __future__ import annotations

import re
from bisect import bisect_right
from collections.abc import Callable, Iterator
from functools import cache
from itertools import pairwise
from pathlib import Path

from lock_bench import Schedule, load, run, site

from .citations import BRACKETS, CITED, Document, Fault
from .named import Sources

_WORDS = (
    "zero one two three four five six seven eight nine ten eleven twelve thirteen fourteen fifteen sixteen seventeen"
    " eighteen nineteen twenty"
).split()
_NUMBER = rf"\d[\d,]*\d|\d|{'|'.join(_WORDS[2:])}"


def number(text: str) -> int:
    """A number in digits or in a word."""
    return _WORDS.index(text) if text in _WORDS else int(text.replace(",", ""))


# ---- the rules


def declaration(sources: Sources, name: str) -> str:
    """The text of a definition up to the next empty line: of definitions first, and at the margin first."""
    for margin in (r"^", r"^ +"):
        head = rf"{margin}(?:(?:pub|abbrev|unfoldable|data|record) )*{re.escape(name)} :.*?(?=\n\n|\Z)"
        for file in sorted(sources.antt, key=lambda file: ("/specs/" not in file, file)):
            if name in sources.antt[file] and (found := re.search(head, sources.code[file], re.DOTALL | re.MULTILINE)):
                return found[0].rstrip()
    raise LookupError(f"no source declares {name}")


def constructors(sources: Sources, name: str) -> int:
    """The constructors of a type."""
    return len(re.findall(r"^ +[\w-]+ : ", declaration(sources, name), re.MULTILINE))


def clauses(sources: Sources, name: str) -> int:
    """The clauses of a definition; of several of this name the most."""
    return max(len(re.findall(rf"^{name} (?!:)", sources.code[file], re.MULTILINE)) for file in sources.antt)


def elements(sources: Sources, name: str, constructor: str) -> int:
    """The elements of a list that a definition writes out."""
    return declaration(sources, name).count(f"{constructor} (")


def most(sources: Sources, name: str, crate: str = "") -> int:
    """What a theorem says that something is at most; of several of this name, of one crate or any, the largest."""
    statement = re.compile(rf"^( *)(?:pub )?{name} :\s[^=]*?([≤<])\s+(\d+)\n(?=\1\S)", re.MULTILINE)
    of = (file for file in sources.antt if file.startswith(f"crates/{crate}/" if crate else "crates/"))
    found: list[int] = [int(bound) - (sign == "<") for file in of for _, sign, bound in statement.findall(sources.code[file])]
    if not found:
        raise LookupError(f"no source has a theorem {name} with a bound")
    return max(found)


def prefix(sources: Sources, name: str) -> int:
    """The length from on which a theorem says that the rest of a file does not matter."""
    found = re.search(r"(\d+)\s+≤\s+length b", declaration(sources, name))
    if found is None:
        raise LookupError(f"{name} states no length")
    return int(found[1])


def constant(sources: Sources, path: str) -> int:
    """Type::CONSTANT of some crate."""
    kind, _, name = path.partition("::")
    for crate, names in sources.rattle.items():
        if path in names.members:
            for file in sources.of_crate(crate, "src"):
                value = rf"^impl {kind} {{.*?\bconst {name}: \w+ = (\d+);"
                if found := re.search(value, sources.code[file], re.DOTALL | re.MULTILINE):
                    return int(found[1])
    raise LookupError(f"no crate has a constant {path}")


def length(sources: Sources, name: str) -> int:
    """The length of an array type."""
    for text in sources.code.values():
        if found := re.search(rf"^pub type {name} = \[\w+; (\d+)\];", text, re.MULTILINE):
            return int(found[1])
    raise LookupError(f"no crate has an array type {name}")


def columns(sources: Sources, array: str, places: str) -> int:
    """The columns of an array, as many cells as there are threads each, at its end; before them stands the ring of the
    queued writers, which is as long."""
    members = (path for names in sources.rattle.values() for path in names.members)
    starts = {constant(sources, path) for path in members if path.startswith(f"{places}::")}
    found = 0
    while length(sources, array) - (found + 1) * site.MOST_THREADS in starts - {0}:
        found += 1
    return found - 1


def largest(sources: Sources, size: str) -> int:
    """The largest size of a schedule: nodes, fan, threads or rows."""
    ranges = " ".join(" ".join(declaration(sources, name) for name in ("sizes_fit", "sizes_in_range")).split())
    found = re.search(r"\(row_count b\) (\d+)" if size == "rows" else rf"(\d+) z\.{size}\b", ranges)
    if found is None:
        raise LookupError(f"sizes_fit has no range of {size}")
    return int(found[1])


def stored(sources: Sources, crate: str) -> int:
    """The files of the stored runs of a program."""
    return len(_stored(sources, crate))


def tills(sources: Sources, crate: str) -> int:
    """Those of them with a till, which stands beside the schedule; where there is none, -."""
    return sum(not name.endswith(" -") for name in _stored(sources, crate))


def _stored(sources: Sources, crate: str) -> set[str]:
    titles = re.findall(r"^run (.*)$", sources.read(f"crates/{crate}/stdout"), re.MULTILINE)
    return {title.split(" journal ")[0] for title in titles}


def files(sources: Sources, pattern: str) -> list[str]:
    return [file for file in sources.files if re.fullmatch(pattern, file)]


def flaws(sources: Sources) -> int:
    """The patches that plant a flaw in the real lock."""
    return len(files(sources, r"examples/server_lock/flaws/[^/]+\.patch"))


def code_lines(sources: Sources, file: str) -> int:
    """The lines of a file that are neither empty nor a comment alone."""
    return sum(bool(line.strip()) for line in sources.code[file].splitlines())


def tests(sources: Sources) -> int:
    """The tests of the Python package."""
    package = files(sources, r"bindings/python/tests/test_\w+\.py")
    return sum(len(re.findall(r"^    def test_", sources.read(file), re.MULTILINE)) for file in package)


def rows(sources: Sources, example: str) -> int:
    """The rows of an example's schedule."""
    return len(Schedule.from_bytes((sources.root / "examples" / f"{example}.schedule").read_bytes()).rows)


@cache
def _dispatched(file: Path) -> tuple[int, int]:
    ran = run(Schedule.from_bytes(load().dispatch_sheet(file.read_bytes()).schedule))
    return len(ran.schedule.rows), sum(thread.failures for thread in ran.sheet.locks[0].threads)


def steps(sources: Sources, example: str) -> int:
    """The steps that the dispatcher gives for an example."""
    return _dispatched(sources.root / "examples" / f"{example}.wants")[0]


def failed(sources: Sources, example: str) -> int:
    """The failed swaps among them."""
    return _dispatched(sources.root / "examples" / f"{example}.wants")[1]


def one_lock(sources: Sources) -> int:
    """The example schedules that name no order of the second lock."""
    schedules = [Path(sources.root, file).read_bytes() for file in files(sources, r"examples/[\w-]+\.schedule")]
    return sum(all(row.order < 128 for row in Schedule.from_bytes(schedule).rows) for schedule in schedules)


def _polynomial(sources: Sources, name: str) -> tuple[int, int]:
    """a and b of a definition that is N² + aN + b, or builds on one."""
    text = " ".join(declaration(sources, name).split())
    factor, added = map(int, re.findall(r"(\d+) \* z\.nodes \+ (\d+)", text)[0])
    if below := re.search(r"\((\w+) z \+", text):
        more = _polynomial(sources, below[1])
        return factor + more[0], added + more[1]
    return factor, added


def factor(sources: Sources, name: str) -> int:
    """a of N² + aN + b."""
    return _polynomial(sources, name)[0]


def added(sources: Sources, name: str) -> int:
    """b of N² + aN + b."""
    return _polynomial(sources, name)[1]


def second(sources: Sources, order: str) -> int:
    """An order of the first lock, as it is given to the second."""
    found = re.search(r"^lowered o = .* then o - (\d+) else o$", sources.code[sources.places("lowered")[0]], re.MULTILINE)
    assert found is not None
    return int(order) + int(found[1])


def shapes(sources: Sources) -> int:
    """The shapes that a sweep measures where nothing is said of them: those that are the same tree once."""
    return len(site.shapes(range(1, site.MOST_NODES + 1), range(1, site.MOST_FAN + 1)))


def macros(sources: Sources) -> int:
    """The macros that mark an operation of the real lock: without those that end in S, which tell that a thread sleeps or
    rises, and that which asks what a word is."""
    found = set(re.findall(r"#define (STEP_[A-Z]*[A-RT-Z])\(", sources.read("examples/server_lock/steps.h")))
    return len(found - {"STEP_ASK"})


def line_length(sources: Sources) -> int:
    """The characters that a line of a document may have."""
    found = re.search(r"\[\*\.md\]\nmax_line_length = (\d+)", sources.read(".editorconfig"))
    assert found is not None
    return int(found[1])


#: The rules by name.
RULES: dict[str, Callable[..., int]] = {
    "added": added, "clauses": clauses, "code lines": code_lines, "columns": columns, "constant": constant,
    "constructors": constructors, "elements": elements, "factor": factor, "failed": failed, "flaws": flaws,
    "largest": largest, "length": length, "line length": line_length, "macros": macros, "most": most,
    "one lock": one_lock, "prefix": prefix, "rows": rows, "second": second, "shapes": shapes, "steps": steps, "stored": stored,
    "tests": tests, "tills": tills,
}  # fmt: skip


# ---- the pages


#: What a number that stands before it counts in the repository.
_COUNTED = (
    r"(?:[a-z-]+ )?(?:crates|edits|decisions|tests|theorems|definitions|claims|flaws|programs|examples|libraries"
    r"|columns|clauses|operations|phases|constructors|pairs of schedule|stored (?:runs|schedules|files|pairs)"
    r"|hand-overs)\b"
)
_MARK = re.compile(rf"(?:(?<![\w.,])(?P<some>some )?(?P<figure>{_NUMBER}))?<!-- count: (?P<rule>.*?) -->")
_LARGE = re.compile(r"(?<![\w.,:/-])(?<!document )(?<!\* \()(\d{1,3}(?:,\d{3})+|[1-9]\d{2,})(?![\w-]|[.,:]?\d)")


def counted(rule: str, sources: Sources) -> int:
    """What a rule gives: its name, and behind it what it is of."""
    name = next((name for name in sorted(RULES, key=len, reverse=True) if re.match(rf"{name}(?: |$)", rule)), None)
    if name is None:
        raise LookupError("tests/counts.py has no such rule")
    try:
        return RULES[name](sources, *rule.removeprefix(name).split())
    except (TypeError, KeyError, OSError) as error:
        raise LookupError(f"the rule cannot be applied: {error}") from None


def mark_faults(page: Document, sources: Sources) -> Iterator[Fault]:
    """Figures with a rule that gives another number."""
    for mark in _MARK.finditer(page.marked):
        if mark["figure"] is None:
            yield page.fault(mark.start(), mark[0], "no number stands before it")
            continue
        try:
            right = counted(mark["rule"], sources)
        except LookupError as missing:
            yield page.fault(mark.start(), mark[0], str(missing.args[0]))
            continue
        off = abs(number(mark["figure"]) - right)
        if off * 20 > right if mark["some"] else off:
            yield page.fault(mark.start(), f"{mark['figure']}, {mark['rule']}", f"the sources give {right:,}")


def _unmarked(page: Document) -> str:
    """A page without what is in code type, without figures that have a rule, and without numbers of decisions."""
    text = _MARK.sub(lambda mark: " " * len(mark[0]), page.marked)
    brackets = (BRACKETS,) if page.has_bare_decisions else ()
    for form in (re.compile(r"`[^`]*`"), re.compile(r"^- \*\*\d+\.", re.MULTILINE), CITED, *brackets):
        text = form.sub(lambda found: re.sub(r"[^\n]", " ", found[0]), text)
    return text


def count_faults(page: Document, sources: Sources) -> Iterator[Fault]:
    """Figures of the repository without a rule."""
    for match in re.finditer(rf"(?<![\w.,/-])({_NUMBER}) {_COUNTED}".replace(" ", r"\s+"), _unmarked(page)):
        if number(match[1]) > 2:
            yield page.fault(match.start(), match[0], "no rule counts that (tests/counts.py)")


def constants(sources: Sources) -> frozenset[int]:
    """The values of constants that crates, definitions, the header and the Python package have by a name."""
    forms = {
        r"crates/\w+/src/.*\.rt": r"\bconst \w+: \w+ = ([\d_]+);",
        r"crates/\w+/specs/.*\.antt": r"^\w+ = (\d+)$",
        r"include/.*\.h": r"^#define \w+ (\d+)|^ +[A-Z_]+ = (\d+)",
        r"bindings/python/lock_bench/\w+\.py": r"^_?[A-Z_]+(?:: Final)? = ([\d_]+)$",
        r"tools/\w+/src/\w+\.rs": r"\bconst [A-Z_]+: \w+ = ([\d_]+);",
    }
    found = (
        value
        for pattern, form in forms.items()
        for file in files(sources, pattern)
        for values in re.finditer(form, sources.code[file], re.MULTILINE)
        for value in values.groups()
    )
    return frozenset(int(value.replace("_", "")) for value in found if value)


def number_faults(page: Document, sources: Sources) -> Iterator[Fault]:
    """Numbers from 100 on without a rule that are no constant and not next to a power of two, but for those that were measured."""
    known = constants(sources)
    sections = [*(heading.start() for heading in re.finditer(r"^## ", page.prose, re.MULTILINE)), len(page.prose)]
    measured = [re.search(r"\bMeasured on\b", page.prose[start:end]) is not None for start, end in pairwise(sections)]
    for match in _LARGE.finditer(_unmarked(page)):
        value, section = number(match[1]), bisect_right(sections, match.start()) - 1
        near = any(abs(value - 2**power) <= 1 for power in range(7, 33))
        if value not in known and not near and not (section >= 0 and measured[section]):
            yield page.fault(match.start(), match[1], "no constant is that, and no rule counts it (tests/counts.py)")


def unused_rules(pages: list[Document]) -> list[str]:
    """Rules that no page names any more."""
    named = " ".join(f"{mark['rule']} " for page in pages for mark in _MARK.finditer(page.marked))
    return [name for name in RULES if not re.search(rf"(?:^| ){name} ", named)]
