"""The names that the sources have: crates, files, definitions, theorems, functions, constants, edits, decisions."""

from __future__ import annotations

import ast
import contextlib
import re
from collections.abc import Iterable, Iterator
from dataclasses import dataclass
from functools import cached_property
from pathlib import Path

from lock_bench.sources import crates_of

#: Folders that hold nothing that a document cites by its name.
_BUILT = frozenset({".git", "target", "out", "__pycache__", ".mypy_cache", "node_modules"})

#: The endings of sources; scripts have none.
_SLASH_COMMENTS = frozenset({".rs", ".c", ".h", ".js", ".css", ".rt"})
_SOURCES = _SLASH_COMMENTS | {"", ".antt", ".py", ".sh", ".toml", ".edit", ".html", ".in"}

WORD = re.compile(r"[A-Za-z_][A-Za-z0-9_'′₀-₉]*(?:-[A-Za-z0-9_'′₀-₉]+)*")
_QUOTED = re.compile(r'"([^"\n]*)"|\'([^\'\n]*)\'|`([^`]*)`')
#: What a line declares: a type, a record or a module; or names before a colon, which may stand on the next line.
_HEAD = re.compile(r"((?:(?:pub|unfoldable|abbrev|opaque|private|irreducible) )*)(?:(data|record|module) )?(.*)")


def files_under(root: Path) -> Iterator[Path]:
    """The files of a repository, those that are built left out."""
    for path in sorted(root.iterdir()):
        if path.is_dir() and path.name not in _BUILT:
            yield from files_under(path)
        elif path.is_file():
            yield path


def antt_names(text: str) -> set[str]:
    """What a file of definitions or proofs declares: definitions, theorems, constructors and fields."""
    names: set[str] = set()
    # Declarations stand at the margin, or two places to the right of the record, type or module that has them.
    margins = [0]
    for line in text.splitlines():
        indent = len(line) - len(line.lstrip(" "))
        if not line.strip() or line.lstrip().startswith(("--", "use ", "pub use ")) or indent > margins[-1]:
            continue
        while indent < margins[-1]:
            margins.pop()
        head = _HEAD.match(line.strip())
        assert head is not None
        modifiers, kind, rest = head.groups()
        if kind:
            names.add(rest.split()[0])
            margins.append(indent + 2)
        elif before := re.match(r"([^:=(){}]*?) :(?: |$)", rest):
            names.update(before[1].split())
        elif modifiers and re.fullmatch(r"[^\s:=]+", rest):
            names.add(rest)
    return names


@dataclass(frozen=True)
class RattleNames:
    """What a file of code declares: its items, and the members of its types as `Type::member`."""

    items: frozenset[str]
    members: frozenset[str]

    @property
    def all(self) -> frozenset[str]:
        return self.items | self.members | {member.partition("::")[2] for member in self.members}


def rattle_names(text: str) -> RattleNames:
    items: set[str] = set()
    members: set[str] = set()
    within = ""
    for line in text.splitlines():
        code = line.partition("//")[0]
        if item := re.match(r"(?:pub )?(?:extern \"C\" )?(fn|struct|enum|trait|type|const|static|union) (\w+)", code):
            items.add(item[2])
            within = item[2] if item[1] in ("struct", "enum", "trait") else ""
        elif block := re.match(r"impl(?:<.*?>)? (\w+)", code):
            within = block[1]
        elif code.startswith("}"):
            within = ""
        elif within and (member := re.match(r"    (?:pub )?(?:(?:fn|const) )?(\w+)", code)):
            members.add(f"{within}::{member[1]}")
    return RattleNames(frozenset(items), frozenset(members))


def python_names(text: str) -> set[str]:
    """The functions, classes, parameters and variables of a Python file."""
    names: set[str] = set()
    for node in ast.walk(ast.parse(text)):
        if isinstance(node, ast.FunctionDef | ast.ClassDef):
            names.add(node.name)
        elif isinstance(node, ast.arg):
            names.add(node.arg)
        elif isinstance(node, ast.Name) and isinstance(node.ctx, ast.Store):
            names.add(node.id)
        elif isinstance(node, ast.Attribute):
            names.add(node.attr)
        elif isinstance(node, ast.alias):
            names.add(node.asname or node.name)
    return names


def other_names(suffix: str, text: str) -> Iterable[str]:
    """What a source without its comments declares."""
    match suffix:
        case ".py":
            return python_names(text)
        case ".c" | ".h":
            return WORD.findall(text)
        case ".rs":
            return re.findall(r"\b(?:fn|struct|enum|const|static|trait|mod|type|union) (\w+)", text)
        case ".js":
            return re.findall(r"\b(?:function|const|let|class) (\w+)", text)
        case "":
            return re.findall(r"(?:\b(?=[A-Z_]+=)|\$\{)([A-Z][A-Z_]+)", text)
    return ()


def code_of(path: Path, text: str) -> str:
    """A source without its comments and, in Python, without its docstrings."""
    if path.suffix == ".py":
        text = re.sub(r'^\s*r?""".*?"""', "", text, flags=re.DOTALL | re.MULTILINE)
    if path.suffix == ".antt":
        return re.sub(r"^\s*--.*$", "", text, flags=re.MULTILINE)
    if path.suffix in _SLASH_COMMENTS:
        return re.sub(r"/\*.*?\*/|//.*?$", "", text, flags=re.DOTALL | re.MULTILINE)
    return re.sub(r"(?:^|\s)#(?![!{]).*$", "", text, flags=re.MULTILINE)


def _is_near(file: str, page: str) -> bool:
    """Whether a page may cite what a file has without its place: a crate's, a command's, a binding's, one of the page's folder."""
    folder = Path(page).parent.as_posix()
    return file.startswith(f"{folder}/") or bool(re.match(r"crates/|bindings/python/lock_bench/|bindings/rust/(?:src/|build)|include/|[^/]+$", file))


@dataclass(frozen=True)
class Sources:
    """A repository's sources, read when they are asked for."""

    root: Path

    @cached_property
    def crates(self) -> dict[str, tuple[str, ...]]:
        return crates_of(self.root)

    @cached_property
    def kit(self) -> frozenset[str]:
        """The kit's own libraries, on which crates build: `std` is one of every crate."""
        return frozenset({"std"}.union(*self.crates.values())) - self.crates.keys()

    @cached_property
    def files(self) -> frozenset[str]:
        """All files, as paths from the root."""
        return frozenset(path.relative_to(self.root).as_posix() for path in files_under(self.root))

    @cached_property
    def folders(self) -> frozenset[str]:
        return frozenset(parent.as_posix() for file in self.files for parent in Path(file).parents)

    @cached_property
    def paths(self) -> str:
        """All files and folders, each between newlines, for a search by a pattern."""
        return "\n" + "\n".join(sorted(self.files | {f"{folder}/" for folder in self.folders})) + "\n"

    def read(self, file: str) -> str:
        return (self.root / file).read_text("utf-8")

    def of_crate(self, crate: str, part: str) -> list[str]:
        return sorted(file for file in self.files if file.startswith(f"crates/{crate}/{part}/"))

    @cached_property
    def antt(self) -> dict[str, frozenset[str]]:
        """What each file of definitions or proofs declares."""
        return {file: frozenset(antt_names(self.read(file))) for file in self.files if file.endswith(".antt")}

    @cached_property
    def rattle(self) -> dict[str, RattleNames]:
        """What the code of each crate declares."""
        return {
            crate: rattle_names("\n".join(self.read(file) for file in self.of_crate(crate, "src")))
            for crate in self.crates
        }

    @cached_property
    def edits(self) -> dict[str, frozenset[str]]:
        """The must-fail edits of each crate."""
        return {
            crate: frozenset(Path(file).stem for file in self.of_crate(crate, "must-fail") if file.endswith(".edit"))
            for crate in self.crates
        }

    @cached_property
    def modules(self) -> dict[str, frozenset[str]]:
        """What the modules of the Python package declare."""
        package = [file for file in self.files if re.fullmatch(r"bindings/python/lock_bench/\w+\.py", file)]
        return {Path(file).stem: frozenset(python_names(self.read(file))) for file in package}

    @cached_property
    def rust(self) -> frozenset[str]:
        """The constants that the Rust binding has in modules, as `module::NAME`."""
        texts = (self.code[file] for file in self.files if re.fullmatch(r"bindings/rust/src/\w+\.rs", file))
        modules = (found for text in texts for found in re.findall(r"^pub mod (\w+) {\n(.*?)^}", text, re.DOTALL | re.MULTILINE))
        return frozenset(f"{module}::{name}" for module, block in modules for name in re.findall(r"\bpub const (\w+)", block))

    @cached_property
    def decisions(self) -> list[int]:
        """The numbers of the entries of docs/DECISIONS.md, in the order in which they stand."""
        return [int(number) for number in re.findall(r"^- \*\*(\d+)\.", self.read("docs/DECISIONS.md"), re.MULTILINE)]

    @cached_property
    def code(self) -> dict[str, str]:
        """The sources that are text, without their comments."""
        found: dict[str, str] = {}
        for file in self.files:
            path = Path(file)
            if path.suffix in _SOURCES and "/data/" not in file or path.name in ("Makefile", "stdout"):
                with contextlib.suppress(UnicodeDecodeError):
                    found[file] = code_of(path, self.read(file))
        return found

    @cached_property
    def words(self) -> frozenset[str]:
        """Every word of the sources, comments left out."""
        return frozenset(word for text in self.code.values() for word in WORD.findall(text))

    @cached_property
    def quoted(self) -> dict[str, frozenset[str]]:
        """The words that each source has in quotes, and those of the stored runs."""
        found: dict[str, frozenset[str]] = {}
        for file, text in self.code.items():
            parts = [text] if file.endswith("/stdout") else map(" ".join, _QUOTED.findall(text))
            found[file] = frozenset(word for part in parts for word in WORD.findall(part))
        return found

    def printed(self, page: str) -> frozenset[str]:
        """The words in quotes of crates and commands, and of what stands in the page's own folder or below it."""
        return frozenset().union(*(words for file, words in self.quoted.items() if _is_near(file, page)))

    @cached_property
    def others(self) -> dict[str, frozenset[str]]:
        """What sources in other languages declare, by file; of C every word, of scripts their variables."""
        return {
            file: frozenset(other_names(Path(file).suffix, self.read(file) if file.endswith(".py") else text))
            for file, text in self.code.items()
            if not file.startswith("crates/")
        }

    @cached_property
    def calls(self) -> frozenset[str]:
        """What crates call as a function of a type, `Type::function`."""
        code = (text for file, text in self.code.items() if file.endswith(".rt"))
        return frozenset(call for text in code for call in re.findall(r"\b[A-Z]\w*::\w+(?=\()", text))

    @cached_property
    def called(self) -> frozenset[str]:
        """What crates call of the kit."""
        kit = "|".join(sorted(self.kit)) or "-"
        code = (text for file, text in self.code.items() if file.endswith(".rt"))
        return frozenset(name for text in code for name in re.findall(rf"\b(?:{kit})::(\w+)", text))

    @cached_property
    def of_crates(self) -> frozenset[str]:
        """Every name that some crate declares."""
        code = (names.all for names in self.rattle.values())
        return frozenset().union(*self.antt.values(), *code, self.called)

    def declared(self, page: str) -> frozenset[str]:
        """The names that a page may cite without their place: those of crates and commands, and of what stands near."""
        return self.of_crates.union(*(names for file, names in self.others.items() if _is_near(file, page)))

    def declared_in(self, file: str) -> frozenset[str]:
        """The names that a file of a crate declares; those of a folder of proofs are its files' together."""
        if file in self.antt:
            return self.antt[file]
        if file.endswith(".rt"):
            return rattle_names(self.read(file)).all
        if file in self.others:
            return self.others[file]
        return frozenset().union(*(names for path, names in self.antt.items() if path.startswith(f"{file}/")))

    def declared_by(self, crate: str) -> frozenset[str]:
        """The names that a crate declares."""
        here = f"crates/{crate}/"
        parts = [names for path, names in self.antt.items() if path.startswith(here)]
        return frozenset().union(*parts, self.rattle[crate].all)

    def places(self, name: str) -> list[str]:
        """The files of crates that declare a name."""
        code = [f"crates/{crate}/src" for crate, names in self.rattle.items() if name in names.all]
        return sorted(path for path, names in self.antt.items() if name in names) + code
