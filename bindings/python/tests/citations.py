"""What documents cite, looked up in the sources: names, files, edits, decisions, links, headings.

A citation is in code type. `crate` specs/X `a`, `b` says that the file specs/X.antt of that crate declares a and b; a
name without a place has to be declared somewhere. Words with underscores that stand in plain text are must-fail edits.
What is found nowhere is a fault, unless it is of a form that the sources do not have: see `FOREIGN`.
"""

from __future__ import annotations

import contextlib
import re
from bisect import bisect_right
from collections.abc import Callable, Iterable, Iterator
from dataclasses import dataclass, replace
from functools import cached_property
from itertools import pairwise, zip_longest
from pathlib import PurePosixPath

from lock_bench import cli

from .named import Sources


@dataclass(frozen=True, order=True)
class Fault:
    """Where a document says something, and what the sources say instead."""

    document: str
    line: int
    says: str
    source: str

    def __str__(self) -> str:
        return f"{self.document}:{self.line}: says {self.says}; {self.source}"


def without_blocks(text: str) -> str:
    """A page without its blocks of code: their lines are empty, so that places stay."""
    return re.sub(
        r"^( *)```.*?^\1```[^\n]*", lambda block: re.sub(r"[^\n]", " ", block[0]), text, flags=re.DOTALL | re.MULTILINE
    )


@dataclass(frozen=True)
class Document:
    """A page: its path from the root, and its text."""

    path: str
    text: str

    @cached_property
    def marked(self) -> str:
        """The page without its blocks of code; the comments that say how a figure is counted stand."""
        return without_blocks(self.text)

    @cached_property
    def prose(self) -> str:
        """What a reader sees, but for its blocks of code."""
        return re.sub(r"<!--.*?-->", lambda comment: re.sub(r"[^\n]", " ", comment[0]), self.marked, flags=re.DOTALL)

    @cached_property
    def has_bare_decisions(self) -> bool:
        """Whether numbers in brackets are those of decisions, as the page then says."""
        return re.search(r"[Nn]umbers? in brackets (?:is|are)", self.prose) is not None

    @cached_property
    def _starts(self) -> list[int]:
        return [0, *(newline.end() for newline in re.finditer("\n", self.text))]

    def line(self, place: int) -> int:
        return bisect_right(self._starts, place)

    def fault(self, place: int, says: str, source: str) -> Fault:
        return Fault(self.path, self.line(place), " ".join(says.split()), source)

    @cached_property
    def headings(self) -> list[str]:
        return [heading.strip() for heading in re.findall(r"^#+ (.*)$", self.prose, re.MULTILINE)]

    @cached_property
    def is_history(self) -> bool:
        """Whether it tells of earlier states: then only its links, headings and files are looked up."""
        return self.path in ("CHANGELOG.md", "docs/PORT.md", "docs/DESIGN-PASS.md", "docs/LOOK-BACK.md") or self.path.startswith("docs/landings/")


def documents(sources: Sources) -> list[Document]:
    return [Document(file, sources.read(file)) for file in sorted(sources.files) if file.endswith(".md")]


# ---- links and headings


def anchor(heading: str) -> str:
    """The name by which a link reaches a heading."""
    return re.sub(r"[^\w\- ]", "", re.sub(r"[`*]", "", heading).lower()).replace(" ", "-")


def link_faults(page: Document, sources: Sources) -> Iterator[Fault]:
    """Links to files, folders and headings that are not there."""
    for link in re.finditer(r"\]\(([^()\s]+)\)", page.prose):
        target, _, name = link[1].partition("#")
        if re.match(r"[a-z]+:", target):
            continue
        file = _joined(page.path, target)
        if target and file not in sources.files and file not in sources.folders:
            yield page.fault(link.start(), f"a link to {link[1]}", f"there is no {file}")
        elif name:
            there = Document(file, sources.read(file)) if target else page
            if name not in map(anchor, there.headings):
                yield page.fault(link.start(), f"a link to {link[1]}", f"{there.path} has no such heading")


def _joined(page: str, target: str) -> str:
    parts: list[str] = []
    for part in [*PurePosixPath(page).parent.parts, *PurePosixPath(target).parts]:
        if part == ".." and parts:
            parts.pop()
        elif part not in (".", ".."):
            parts.append(part)
    return "/".join(parts) or "."


def heading_faults(page: Document, sources: Sources) -> Iterator[Fault]:
    """Headings of other pages, named in quotes behind the page: docs/X.md, "A heading" and "Another"."""
    for named in re.finditer(r"([\w/-]+\.md)`?,((?:\s+(?:and\s+)?\"[^\"]+\",?)+)", page.prose):
        if named[1] not in sources.files:
            continue
        there = Document(named[1], sources.read(named[1])).headings
        for heading in re.findall(r"\"([^\"]+)\"", named[2]):
            if " ".join(heading.split()) not in there:
                yield page.fault(named.start(), f'{named[1]}, "{heading}"', f"{named[1]} has no such heading")


# ---- files


_ENDINGS = r"md|py|rs|rt|antt|js|css|html|toml|csv|c|h|edit|patch|schedule|bookings|calls|wants|tickets|till|txt|png"
_FILE = re.compile(
    r"(?<![\w/.:$~=<-])(?:\.?[\w*-][\w.*-]*/)+(?:[\w*-][\w.*-]*[\w*]|\w)?"
    rf"|(?<![\w/.*-])[\w-]+\.(?:{_ENDINGS})\b"
)
#: Words of a path that stand for any name.
_ANY = re.compile(r"\b(?:NAME|FILE|X|SUM|XXXXXXXX|DIR|PAGE|crate|what_is_wrong)\b")


def has_file(path: str, page: str, sources: Sources) -> bool:
    """Whether a path is a file's or a folder's: from the root, from the page's folder, or the end of one such path."""
    pattern = re.escape(_ANY.sub("*", path).removeprefix("./")).replace(r"\*", r"[^\n]*?")
    ending = pattern if path.endswith("/") else rf"{pattern}/?"
    if path.startswith(("./", ".ci")):
        return re.search(rf"\n{ending}\n", sources.paths) is not None
    return re.search(rf"\n(?:[^\n]*/)?{ending}\n", sources.paths) is not None or _joined(page, path) in sources.files


#: Files that are built, lent or made by whoever follows a page, and a script of the kit.
_MADE = re.compile(
    r"(?:\$\w+|target|DIR)/.*|liblock_bench\.(?:a|so(?:\.\d+)?)|(?:run|late-reader|sweep|NAME)\.html|sweep-XXXXXXXX\.record|program\.c|run\.txt|port\.py"
)


def file_faults(page: Document, sources: Sources) -> Iterator[Fault]:
    """Paths in plain text that no file has."""
    text = re.sub(r"`[^`]*`|\]\([^()\s]*\)", lambda found: " " * len(found[0]), page.prose)
    for path in _FILE.finditer(text):
        word = path[0].rstrip(".")
        if re.match(r"(?:specs|proofs|must-fail)/", word) or _MADE.fullmatch(word) or re.fullmatch(r"[\d/.]+", word):
            continue
        if not has_file(word, page.path, sources):
            yield page.fault(path.start(), word, "there is no such file")


# ---- decisions


_DECISIONS = r"\d{1,3}\b(?:(?:,| to| and|, and) \d{1,3}\b)*"
CITED = re.compile(rf"DECISIONS(?:\.md)?`?,? \(?({_DECISIONS})".replace(" ", r"\s+"))
BRACKETS = re.compile(rf"\(({_DECISIONS})[);]|\bsee ({_DECISIONS})".replace(" ", r"\s+"))


def decision_faults(page: Document, sources: Sources) -> Iterator[Fault]:
    """Numbers of decisions that docs/DECISIONS.md does not have; on some pages numbers in brackets are such numbers."""
    for form in (CITED, BRACKETS) if page.has_bare_decisions else (CITED,):
        for cited in form.finditer(page.prose):
            for number in re.findall(r"\d+", cited[0]):
                if int(number) not in sources.decisions:
                    yield page.fault(cited.start(), f"decision {number}", "docs/DECISIONS.md has no such number")


def comment_faults(sources: Sources) -> Iterator[Fault]:
    """Decisions that comments of the sources cite, and that are not there; and decisions with one number."""
    for file in sorted(sources.files):
        if not file.endswith(".md") and "/data/" not in file and not file.startswith("bindings/python/tests/"):
            with contextlib.suppress(UnicodeDecodeError):
                text = re.sub(r"\n *(?:--|//|#) ", " ", sources.read(file))
                yield from decision_faults(Document(file, text), sources)
    for number in sorted({number for number in sources.decisions if sources.decisions.count(number) > 1}):
        yield Fault("docs/DECISIONS.md", 0, f"decision {number}", "two entries have this number")


# ---- names


#: Forms of what stands in code type and in no source: bytes, rows and orders in the notation of the pages; words and
#: options of other programs and of the toolchain; pseudocode of the paper.
FOREIGN: tuple[str, ...] = (
    r"[0-9a-f]{2}(?: [0-9a-f]{2})*",
    r"(?:[A-Z] = \d+: )?(?:\d+:\d+(?:\*\d+)?(?:,\d+(?:\*\d+)?)*(?: |$))+",
    r"[a-z]:[a-z](?:,[a-z])*|o\*k|[A-Z]|-|\?|N passed, 0 failed|THREAD: ORDER",
    r"rattle-kit-\S+ logic [0-9a-f]+|requires|ensures|unsafe|repeat|PKG_CONFIG_PATH",
    r"-[A-Za-z]|-[WDfO]\S+(?: -W\S+)*|-[eo] .*",
    r"(?:x|old|root) := .*|(?:csnzi|waiters)->.* := .*|(?:CAS|Lock|Unlock|Signal|Wait|TreeArrive|TreeDepart)\(.*\)",
    r"GetLeafForThread\(\)|ShouldArriveAtTree\(\)|csnzi|metalock|Arrive|Query|Enqueue|Dequeue",
    r"TreeArrive|TreeDepart|Open(?:WithArrivals)?|Close(?:IfEmpty)?|(?:Reader|Writer)(?:Lock|Unlock)",
)
#: Programs that are none of the repository's; the files that they are given are looked up.
PROGRAMS: tuple[str, ...] = tuple("rt cargo man pip cp cc make cd bash mypy python3 pkg-config".split())
_FOREIGN = re.compile("|".join(f"(?:{form})" for form in FOREIGN))

_NAME = re.compile(r"[A-Za-z_][\w'′₀-₉]*(?:-[\w'′₀-₉]+)*")
_TOKEN = re.compile(
    r"`(?P<code>[^`]+)`"
    r"|(?P<path>\b(?:specs|proofs|src|must-fail)/[A-Za-z][\w./-]*\w(?:(?:,|,?\s+and)\s+[A-Z][A-Za-z]+\b(?![:(]))*)"
    r"|(?P<part>\b[A-Z][A-Za-z]+):(?=\s`)"
    r"|(?P<edit>(?<![\w`/.<$:-])[a-z][a-z0-9]*(?:_[A-Za-z0-9]+)+\b(?![(/.]))"
    r"|(?P<end>\n\n|\n *-\ |\||\n#+ )"
)
#: What may stand between the names of one list.
_LISTED = re.compile(r"\s*(?:[,;:]|and|or|to|, and|, or|; ranges:|; checks:|of)?\s*")


def command_problem(words: list[str], page: str, sources: Sources) -> str | None:
    """What is wrong with a command of the repository: its script, its command or an option is not there."""
    script, *given = words
    if not has_file(script, page, sources):
        return f"there is no {script}"
    options = [word.partition("=")[0] for word in given if re.match(r"--?[a-z]", word)]
    if script == "./bench" and given and re.fullmatch(r"[a-z]+", given[0]):
        parser = cli.commands().get(given[0])
        if parser is None:
            return f"./bench has no command {given[0]}"
        known = parser._option_string_actions
        return next((f"./bench {given[0]} has no {option}" for option in options if option not in known), None)
    plain = [word for word in given if re.fullmatch(r"[a-z]+", word)] if script != "./sheet" else []
    named = [*(option.lstrip("-") for option in options), *plain]
    return next((f"no source has {word}" for word in named if word not in sources.words), None)


def shell_files(words: list[str]) -> Iterator[str]:
    """The files that a command of the shell names, Python's modules among them."""
    for before, word in pairwise(words):
        if before == "-m" and "." in word:
            yield word.replace(".", "/") + ".py"
        elif re.fullmatch(r"(?:\.\.?/)*[\w.-]+(?:/[\w.-]+)+", word):
            yield re.sub(r"^(?:\.\./)+", "", word)


@dataclass(frozen=True)
class Token:
    """A citation, a boundary, or what names a place; `gap` is the text between it and the token before."""

    kind: str
    text: str
    place: int
    gap: str


def tokens(prose: str) -> list[Token]:
    found: list[Token] = []
    end = 0
    for match in _TOKEN.finditer(prose):
        kind = match.lastgroup or ""
        found.append(Token(kind, match[kind], match.start(), prose[end : match.start()]))
        end = match.end()
    return found


@dataclass(frozen=True)
class Context:
    """Where names that follow are said to be: a crate or another folder, files of it, a crate of edits."""

    crate: str | None = None
    folder: str | None = None
    #: More than one where a page leaves open whose file it is: one of them has the name.
    files: tuple[str, ...] = ()
    edits: str | None = None
    #: Whether names may stand anywhere in the file's crate: `op` at `Look`.
    anywhere: bool = False


class Reader:
    """Goes through a page's citations in order."""

    def __init__(self, page: Document, sources: Sources) -> None:
        self.page = page
        self.sources = sources
        #: How many citations were read, and how many of them say in which file a name is.
        self.seen = self.placed = 0
        self.declared, self.printed = sources.declared(page.path), sources.printed(page.path)
        #: The crates whose files and edits a section's tables name without their crate.
        self.section: dict[int, frozenset[str]] = self._sections()

    def _sections(self) -> dict[int, frozenset[str]]:
        """The crates whose folders the text before each section's first table names, else those of the page's head."""
        found: dict[int, frozenset[str]] = {}
        head: frozenset[str] = frozenset()
        for section in re.split(r"^(?=## )", self.page.prose, flags=re.MULTILINE):
            place = self.page.prose.index(section) if section else 0
            start = re.split(r"^\|", section, maxsplit=1, flags=re.MULTILINE)[0]
            crates = frozenset(re.findall(r"`crates/(\w+)/(?:specs|must-fail)/`", start))
            if not found:
                head = crates
            found[place] = crates or head
        return found

    def crates_at(self, place: int) -> frozenset[str]:
        return self.section[max(start for start in self.section if start <= place)]

    def faults(self) -> Iterator[Fault]:
        context = Context()
        listed = tokens(self.page.prose)
        for token, following in zip_longest(listed, listed[1:]):
            if token.kind == "end":
                context = Context()
                continue
            self.seen += 1
            problem, context = self.cited(token, following, self.passed(token.gap, context))
            if problem:
                says = f"`{token.text}`" if token.kind == "code" else token.text
                yield self.page.fault(token.place, says, problem)

    def passed(self, gap: str, context: Context) -> Context:
        """What the text between two citations leaves of the place."""
        if _LISTED.fullmatch(gap):
            return replace(context, anywhere=False) if ";" in gap else context
        if context.files and re.fullmatch(r"\s+at\s+", gap):
            return replace(context, anywhere=True)
        return replace(context, folder=None, files=(), edits=None)

    def cited(self, token: Token, following: Token | None, context: Context) -> tuple[str | None, Context]:
        match token.kind:
            case "code":
                return self.code(token, following, context)
            case "path":
                return self.path(token, context)
            case "part":
                return self.part(token, context)
            case _:
                return self.edit(token, context), context

    def code(self, token: Token, following: Token | None, context: Context) -> tuple[str | None, Context]:
        name = " ".join(token.text.split())
        if following is not None and self.leads(name, following):
            return None, self.within(name)
        if context.files and _NAME.fullmatch(name):
            self.placed += 1
            if self.is_in(name, context):
                return None, context
            if name not in self.sources.crates and not self.is_file_name(name):
                places = self.sources.places(name)
                where = f"it is in {', '.join(places[:3])}" if places else "no source of a crate has it"
                return f"{' and '.join(context.files)} has no such name: {where}", context
        return None if self.is_known(name) else "no source has it", replace(context, files=())

    def leads(self, name: str, following: Token) -> bool:
        """Whether a crate, a folder or a file is named for the sake of what follows it."""
        if following.gap.strip() == ":" and following.kind == "edit":
            return name in self.sources.crates
        if following.gap.strip():
            return False
        if following.kind == "path":
            return name in self.sources.crates or name in self.sources.folders
        if following.kind == "code":
            return "/" in name and name in self.sources.files
        return following.kind in ("part", "edit") and name in self.sources.crates

    def within(self, name: str) -> Context:
        if name in self.sources.crates:
            return Context(crate=name, edits=name)
        return Context(files=(name,)) if name in self.sources.files else Context(folder=name)

    def is_in(self, name: str, context: Context) -> bool:
        """Whether one of the files declares a name; the types of a crate's code are at home in its definitions."""
        for file in context.files:
            if name in self.sources.declared_in(file):
                return True
            if not file.startswith("crates/"):
                continue
            crate, folder = file.split("/")[1:3]
            if folder == "specs" and name[0].isupper() and name in self.sources.rattle[crate].all:
                return True
            if context.anywhere and name in self.sources.declared_by(crate):
                return True
        return False

    def path(self, token: Token, context: Context) -> tuple[str | None, Context]:
        folder, _, rest = token.text.partition("/")
        first, *more = re.split(r",?\s+and\s+|,\s+", rest)
        if context.folder is not None:
            path = f"{context.folder}/{token.text}"
            if path not in self.sources.files:
                return f"there is no {path}", context
            return None, Context(files=(path,))
        crates = [context.crate] if context.crate else sorted(self.crates_at(token.place) or self.sources.crates)
        files: list[str] = []
        for name in [first, *more]:
            files = [found for crate in crates if (found := self.file_of(crate, folder, name))]
            if not files:
                return f"{' and '.join(crates) if len(crates) < 4 else 'no crate'} has no {folder}/{name}", context
        certain = context.crate is not None and not more
        edits = context.crate if folder == "must-fail" else None
        return None, Context(crate=context.crate, files=tuple(files) if certain and not edits else (), edits=edits)

    def file_of(self, crate: str, folder: str, name: str) -> str | None:
        start = f"crates/{crate}/{folder}/{name}"
        if folder == "must-fail":
            return start if name in self.sources.edits[crate] else None
        return next(
            (path for path in (start, f"{start}.antt") if path in self.sources.files or path in self.sources.folders),
            None,
        )

    def part(self, token: Token, context: Context) -> tuple[str | None, Context]:
        """File: `a`, `b` in a section that says where its files are, or behind a crate."""
        section = sorted(self.crates_at(token.place))
        named = context.crate if context.edits is not None and not token.gap.strip() else None
        crates = [named] if named else sorted({*section, *filter(None, [context.crate])})
        files = tuple(file for crate in crates if (file := self.file_of(crate, "specs", token.text)))
        if files:
            return None, Context(crate=named or context.crate, files=files)
        if named or section and self.is_part(token.text):
            return f"{' and '.join(crates)} has no specs/{token.text}", Context(crate=context.crate)
        return None, Context(crate=context.crate)

    def is_part(self, name: str) -> bool:
        """Whether some crate has a file of definitions of this name."""
        return any(self.file_of(crate, "specs", name) for crate in self.sources.crates)

    def edit(self, token: Token, context: Context) -> str | None:
        edits = self.sources.edits
        crates = self.crates_at(token.place)
        if context.edits is not None:
            crates = frozenset({context.edits})
        elif context.crate is not None and crates:
            crates |= {context.crate}
        anywhere = re.search(r"in\s+the\s+code\s+$", token.gap) is not None
        if any(token.text in edits[crate] for crate in (crates if crates and not anywhere else edits)):
            return None
        elsewhere = sorted(crate for crate, names in edits.items() if token.text in names)
        if elsewhere:
            return f"{' and '.join(sorted(crates))} has no such edit: it is one of {' and '.join(elsewhere)}"
        return self.no_edit(token.text)

    def no_edit(self, name: str) -> str | None:
        known = name in self.declared or name in self.sources.crates or self.is_file_name(name)
        return None if known else "there is no such edit, name or file"

    def is_file_name(self, name: str) -> bool:
        """Whether a file or a folder has this name, with or without its ending; those of definitions and proofs do not
        count, which have the names of what they hold."""
        named = re.findall(rf"\n(.*/)?{re.escape(name)}(?:\.\w+)?/?(?=\n)", self.sources.paths)
        return any(not re.match(r"crates/\w+/(?:specs|proofs)/", folder) for folder in named)

    def is_known(self, span: str) -> bool:
        """Whether the sources have what stands in code type, whole or by its parts."""
        sources = self.sources
        if span in sources.crates or span in sources.kit or span in self.declared or _FOREIGN.fullmatch(span):
            return True
        if span.split()[0] in PROGRAMS:
            named = (file for file in shell_files(span.split()) if not _MADE.fullmatch(file))
            return all(has_file(file, self.page.path, sources) for file in named)
        if self.is_file_name(span) or re.sub(r"^lib(\w+)\.a$", r"\1", span) in sources.crates:
            return True
        if span.startswith(("./", ".ci/")) or " " in span and has_file(span.split()[0], self.page.path, sources):
            return command_problem(span.split(), self.page.path, sources) is None
        if _MADE.fullmatch(span) or re.fullmatch(r"[\w.*/-]+", span) and has_file(span, self.page.path, sources):
            return True
        if re.fullmatch(r"\.\w+", span):
            # The ending of a file, or a field.
            return span[1:] in self.declared or f"{span}\n" in sources.paths or span[1:] in self.printed
        if re.fullmatch(r"\w+(?:\.\w+)+", span):
            # A module's member, or fields of a record.
            first, second, *more = span.split(".")
            return not more and second in sources.modules.get(first, ()) or self.declared.issuperset([first, second, *more])
        if _NAME.fullmatch(span):
            return span in self.printed
        return self.is_expression(span)

    def is_expression(self, span: str) -> bool:
        """More than one word: paths such as `crate::function` exist, and the sources have every other word."""
        for path in re.findall(r"\w+(?:::\w+)+", span):
            if not self.is_item(path):
                return False
        rest = re.sub(r"\w+(?:::\w+)+", " ", span)
        words = [word for word in _NAME.findall(rest) if len(word) > 1]
        return bool(words or "::" in span or re.search(r"\w", span)) and all(
            word in self.sources.words or word in self.declared for word in words
        )

    def is_item(self, path: str) -> bool:
        """crate::item, Type::member, crate::Type::member; module::CONSTANT of the Rust binding."""
        if path in self.sources.rust or path in self.sources.calls:
            return True
        first, _, rest = path.partition("::")
        if first in self.sources.kit:
            return True
        if first in self.sources.rattle:
            names = self.sources.rattle[first]
            return rest in names.items or rest in names.members
        return any(path in names.members for names in self.sources.rattle.values())


def name_faults(page: Document, sources: Sources) -> Iterator[Fault]:
    """Names in code type, and edits, that the sources do not have, or not where the page says."""
    return Reader(page, sources).faults()


_Check = Callable[[Document, Sources], Iterable[Fault]]
#: What is looked up in every document, and in those alone that say what is so now.
ALWAYS: tuple[_Check, ...] = (link_faults, heading_faults, file_faults)
NOW: tuple[_Check, ...] = (decision_faults, name_faults)


def faults_of(page: Document, sources: Sources) -> list[Fault]:
    checks = ALWAYS if page.is_history else ALWAYS + NOW
    return sorted(fault for check in checks for fault in check(page, sources))
