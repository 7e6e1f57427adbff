"""Installed as users do: `pip install bindings/python` and `make -C bindings/c`, each on a clean copy of the repository."""

from __future__ import annotations

import re
import shlex
import shutil
import subprocess
import sys
import tempfile
import unittest
import venv
from pathlib import Path

from lock_bench import Journal, Schedule, completion, identity, load
from lock_bench.sheet import answer_of, sheet_lines
from lock_bench.sources import ARCHIVES, ROOT

from .standin import RT
from .support import EXAMPLES, environment, example_files

# In the place of what `rt` makes: functions that call those of the library that the tests have. So what is installed prints true sheets.
FORWARD = """\
#include <dlfcn.h>
#include "lock_bench.h"
static void *found(const char *name) { return dlsym(dlopen("@library@", RTLD_NOW), name); }
"""


def forward(header: str, library: Path) -> str:
    """The source of such functions: one for each that the header declares."""
    code = re.sub(r"/\*.*?\*/", "", header, flags=re.DOTALL)
    declared = re.findall(r"^(\w[\w ]*?) (\w+)\(([^;{]*)\);", code, re.MULTILINE)
    assert len(declared) >= 6, declared
    source = FORWARD.replace("@library@", str(library))
    for result, name, parameters in declared:
        names = ", ".join(re.findall(r"(\w+)(?:,|$)", parameters))
        source += f"{result} {name}({parameters}) {{ return ((__typeof__(&{name})) found(\"{name}\"))({names}); }}\n"
    return source


class CleanCopy(unittest.TestCase):
    def setUp(self) -> None:
        folder = tempfile.TemporaryDirectory()
        self.addCleanup(folder.cleanup)
        self.folder = Path(folder.name)
        self.root = self.folder / "a copy"
        shutil.copytree(ROOT, self.root, ignore=shutil.ignore_patterns("target", "out", ".git", "__pycache__", ".mypy_cache", "must-fail"), symlinks=True)
        self.before = self.files()

    def files(self) -> set[str]:
        """The files of the copy, but for what is built and what Python keeps for itself."""
        names = {path.relative_to(self.root) for path in self.root.rglob("*")}
        return {name.as_posix() for name in names if name.parts[0] != "target" and not {"out", "__pycache__"} & {*name.parts}}

    def done(self, *command: object, **changed: str) -> str:
        """Runs a command, which is to succeed, elsewhere than in the repository; gives its output."""
        environ = environment(**changed)
        if "LOCK_BENCH_LIBRARY" not in changed:
            environ.pop("LOCK_BENCH_LIBRARY", None)
        ran = subprocess.run(list(map(str, command)), cwd=self.folder, capture_output=True, text=True, env=environ, check=False)
        self.assertEqual(ran.returncode, 0, ran.stdout + ran.stderr)
        return ran.stdout


class Pip(CleanCopy):
    def test_pip(self) -> None:
        """In an environment of its own, with nothing downloaded; `bench` is a command then that needs no repository and no rt."""
        venv.create(self.folder / "own", with_pip=True)
        commands = self.folder / "own" / "bin"
        self.done(commands / "pip", "install", "--no-index", self.root / "bindings" / "python", LOCK_BENCH_LIBRARY=str(load().path))
        self.assertEqual(self.files(), self.before)
        shutil.rmtree(self.root)
        for path in example_files("schedule"):
            self.assertEqual(self.done(commands / "bench", "sheet", path, PATH="/usr/bin:/bin").encode(), load().bench_sheet(path.read_bytes()).sheet)
        page = self.folder / "late.html"
        self.done(commands / "bench", "page", EXAMPLES / "late-reader.schedule", "-o", page)
        self.assertIn("</html>", page.read_text())
        told = self.done(commands / "bench", "--version", PATH="/usr/bin:/bin").splitlines()
        self.assertEqual(told[0], f"version    {identity.version()}")
        self.assertIn("/site-packages/lock_bench/liblock_bench.so", told[2])
        manual = self.folder / "own" / "share" / "man" / "man1" / "bench.1"
        self.assertTrue(manual.read_text().startswith(".TH BENCH 1 "))
        scripts = {shell: self.folder / "own" / "share" / place for shell, place in completion.PLACES.items()}
        for shell, script in scripts.items():
            self.assertEqual(script.read_text(), self.done(commands / "bench", "completion", shell))
        self.assertIn("lock-bench", self.done(commands / "pip", "show", "--files", "lock-bench"))
        self.done(commands / "pip", "uninstall", "--yes", "lock-bench")
        self.assertFalse((commands / "bench").exists() or manual.exists() or any(script.exists() for script in scripts.values()))

    def test_editable(self) -> None:
        venv.create(self.folder / "own", with_pip=True)
        commands = self.folder / "own" / "bin"
        self.done(commands / "pip", "install", "--no-index", "-e", self.root / "bindings" / "python")
        self.assertIn("not built yet from these sources", self.done(commands / "bench", "--version"))


class WithStandIn(CleanCopy):
    """A copy that is built by a stand-in for `rt`, whose functions call those of the library that the tests have."""

    def setUp(self) -> None:
        super().setUp()
        for tool in ("make", "pkg-config", "cc"):
            self.assertIsNotNone(shutil.which(tool), f"{tool} is not installed (bindings/python/check installs it)")
        self.tools = self.folder / "tools"
        self.tools.mkdir()
        (self.tools / "forward.c").write_text(forward((self.root / "include" / "lock_bench.h").read_text(), load().path))
        # One archive has all functions, the others have none.
        source = f"{self.tools}/$(test $2 = {ARCHIVES[0]} && echo forward || echo none).c"
        (self.tools / "none.c").touch()
        compiled = f'cc -fPIC -I"$PWD/include" -c -o "target/$2.o" "{source}"'
        archive = 'rm -f "$out/lib$2.a" && ar rc "$out/lib$2.a" "target/$2.o" || exit 1'
        head, tail = RT.split("    echo \"int number_of_", 1)
        rt = f"{head}    {compiled} && {archive}" + tail.split("|| exit 1", 1)[1]
        (self.tools / "rt").write_text(rt.replace("echo \"$*\" >> calls\necho $$ > running\n", ""))
        (self.tools / "rt").chmod(0o755)
        self.path = f"{self.tools}:{Path(sys.executable).parent}:/usr/bin:/bin"

    def make(self, *words: str) -> None:
        self.done("make", "-C", self.root / "bindings" / "c", *words, PATH=self.path)

    def change(self) -> None:
        """Changes the sources, and what the library of the changed ones prints: `answer 8 at 0`, which none does."""
        with open(self.root / "crates" / "lock" / "src" / "lib.rt", "a") as source:
            source.write("// Changed.\n")
        for stamp in (self.root / "target" / "stamp").glob("*"):
            stamp.unlink()
        forwarding = (self.tools / "forward.c").read_text()
        changed = re.sub(r"(size_t bench_sheet\([^{]*\{).*", r'\1 return __builtin_strlen(__builtin_strcpy((char *) sheet, "answer 8 at 0\\n")); }', forwarding)
        (self.tools / "forward.c").write_text(changed)


WORKED = EXAMPLES / "worked-example.schedule"


def rows_and_entries(file: bytes) -> list[str]:
    """What the program `rows` prints of a schedule file: rows and entries as the package reads them, and the answer."""
    ran = load().bench_sheet(file)
    answer, taken = answer_of(sheet_lines(ran.sheet)[0])
    rows = Schedule.from_bytes(file).rows
    entries = Journal.from_bytes(ran.journal, taken, len(rows))
    lines = [f"{number} {row.thread} {row.order} {entry.kind} {entry.word}" for number, (row, entry) in enumerate(zip(rows, entries))]
    return [*lines, f"answer {answer} at {taken}"]


class Make(WithStandIn):
    def test_make(self) -> None:
        """Made, installed where one likes, and found by pkg-config; the programs that link it print the library's sheets. Both folders' names have spaces."""
        self.make()
        self.assertEqual(self.files(), self.before)
        prefix = self.folder / "a prefix"
        self.make("install", f"PREFIX={prefix}")
        found = {"PKG_CONFIG_PATH": str(prefix / "lib" / "pkgconfig"), "PATH": self.path}
        self.assertEqual(self.done("pkg-config", "--modversion", "lock_bench", **found), f"{identity.version()}\n")
        flags = shlex.split(self.done("pkg-config", "--cflags", "--libs", "lock_bench", **found))
        shared, static = self.folder / "shared", self.folder / "static"
        self.done("cc", "-o", shared, ROOT / "bindings" / "c" / "print.c", *flags)
        self.done("cc", "-o", static, ROOT / "bindings" / "c" / "print.c", flags[0], prefix / "lib" / "liblock_bench.a")
        for program in (self.root / "target" / "c" / "print", shared, static):
            for path in example_files("schedule"):
                printed = self.done(program, path, LD_LIBRARY_PATH=str(prefix / "lib")).encode()
                self.assertEqual(printed, load().bench_sheet(path.read_bytes()).sheet)
            for option, kind, function in (("--plain", "calls", load().plain_sheet), ("--ticket", "tickets", load().ticket_sheet)):
                for path in example_files(kind):
                    self.assertEqual(self.done(program, option, path, LD_LIBRARY_PATH=str(prefix / "lib")).encode(), function(path.read_bytes()))
            for path in example_files("wants"):
                printed = self.done(program, "--dispatch", path, LD_LIBRARY_PATH=str(prefix / "lib")).encode()
                self.assertEqual(printed, load().dispatch_sheet(path.read_bytes()).sheet)
        for path in (*example_files("schedule"), *example_files("bookings")):
            self.assertEqual(self.done(self.root / "target" / "c" / "rows", path).splitlines(), rows_and_entries(path.read_bytes()))
        self.make("uninstall", f"PREFIX={prefix}")
        self.assertEqual([path for path in prefix.rglob("*") if not path.is_dir()], [])

    def test_recipe_of_the_documents(self) -> None:
        """What docs/USING.md shows gives a program that starts, with nothing set for it, and asks for the library by the version's first number."""
        using = (ROOT / "docs" / "USING.md").read_text()
        (recipe,) = re.findall(r"^```sh\n(make -C bindings/c install.*?)^```", using, re.MULTILINE | re.DOTALL)
        self.assertIn("-rpath", recipe)
        shutil.copy(ROOT / "bindings" / "c" / "print.c", self.root / "program.c")
        prefix = self.folder / "prefix"
        script = f"cd {shlex.quote(str(self.root))} && set -e\n" + recipe.replace("DIR", str(prefix)) + f"./program {shlex.quote(str(WORKED))}\n"
        out = self.done("bash", "-c", script, PATH=self.path)
        self.assertTrue(out.endswith(load().bench_sheet(WORKED.read_bytes()).sheet.decode()), out)
        versioned = prefix / "lib" / f"liblock_bench.so.{identity.version()}"
        self.assertTrue(versioned.is_file() and not versioned.is_symlink())
        major = identity.version().partition(".")[0]
        for name in ("liblock_bench.so", f"liblock_bench.so.{major}"):
            self.assertEqual((prefix / "lib" / name).readlink(), Path(versioned.name))
        needed = self.done("readelf", "-d", self.root / "program")
        self.assertIn(f"[liblock_bench.so.{major}]", needed)

    def test_changed_sources_are_linked_anew(self) -> None:
        self.make()
        program = self.root / "target" / "c" / "print"
        before = program.stat().st_mtime_ns
        self.make()
        self.assertEqual(program.stat().st_mtime_ns, before)
        self.change()
        self.make()
        self.assertEqual(self.done(program, WORKED), "answer 8 at 0\n")

    def test_no_toolchain(self) -> None:
        """What is missing is said, and nothing is made."""
        ran = subprocess.run(
            ["make", "-C", self.root / "bindings" / "c"], capture_output=True, text=True, check=False, env=environment(PATH=f"{Path(sys.executable).parent}:/usr/bin:/bin")
        )
        self.assertEqual(ran.returncode, 2)
        self.assertIn("bench: cannot build the library: rt, Rattle's kit, is not on PATH\n", ran.stderr)
        self.assertFalse((self.root / "target" / "c").exists())

    def test_called_elsewhere(self) -> None:
        ran = subprocess.run(["make", "-f", self.root / "bindings" / "c" / "Makefile"], cwd=self.folder, capture_output=True, text=True, check=False)
        self.assertEqual(ran.returncode, 2)
        self.assertIn("call it as make -C bindings/c", ran.stderr)


class Header(unittest.TestCase):
    def setUp(self) -> None:
        folder = tempfile.TemporaryDirectory()
        self.addCleanup(folder.cleanup)
        self.source, self.program = Path(folder.name) / "source.c", Path(folder.name) / "program"

    def compiled(self, source: str, *flags: str) -> None:
        """Compiles a program without a warning."""
        self.source.write_text(source)
        strict = ("-pedantic", "-Wall", "-Wextra", "-Wconversion", "-Werror", f"-I{ROOT / 'include'}")
        done = subprocess.run(["cc", *strict, *flags, self.source], capture_output=True, text=True, check=False)
        self.assertEqual((done.returncode, done.stderr), (0, ""))

    def test_languages(self) -> None:
        """The header is C99, and C++ too."""
        source = '#include "lock_bench.h"\nint main(void) { return lock_bench_identity[0] == 0; }\n'
        self.compiled(source, "-std=c99", "-fsyntax-only")
        self.compiled(source, "-std=c++11", "-fsyntax-only", "-x", "c++")

    def test_what_is_none(self) -> None:
        """Files, journals and sheets that are none have no rows, no entries and no answer."""
        self.compiled(NONE, "-fsanitize=address,undefined", "-fno-sanitize-recover", "-o", str(self.program))
        ran = subprocess.run([self.program], capture_output=True, text=True, check=False)
        self.assertEqual((ran.returncode, ran.stdout), (0, "all are none\n"), ran.stderr)


# A program that asks the functions of the header for what is not there.
NONE = r"""#include <stdio.h>
#include <stdlib.h>
#include <string.h>
#include "lock_bench.h"

/* A copy that ends where the memory does, so that a byte too far is seen. */
static uint8_t *copy(const void *bytes, size_t length) {
    uint8_t *own = malloc(length + (length == 0));
    return memcpy(own, bytes, length);
}

/* Whether a text begins with this answer. */
static int answered(const char *text, uint32_t refusal, uint32_t taken) {
    struct lock_bench_answer answer = {99, 99};
    uint8_t *sheet = copy(text, strlen(text));
    int is_one = lock_bench_read_answer(sheet, strlen(text), &answer);
    free(sheet);
    return is_one && answer.refusal == refusal && answer.taken == taken;
}

#define CHECK(fact) do { if (!(fact)) { printf("not so: %s\n", #fact); return 1; } } while (0)

int main(void) {
    const uint8_t file[] = {1, 1, 2, 2, 0, 0, 1, 64, 1};
    struct lock_bench_row row = {9, 9};
    for (size_t length = 0; length <= sizeof file; length++) {
        uint8_t *own = copy(file, length);
        struct lock_bench_rows rows = lock_bench_rows_of(own, length);
        CHECK(rows.left == (length == sizeof file ? 2 : 0));
        CHECK(lock_bench_next_row(&rows, &row) == (length == sizeof file));
        free(own);
    }
    CHECK(row.thread == 0 && row.order == LOCK_BENCH_ORDER_READ_LOCK);
    const uint8_t bytes[] = {0, 1, 0xee, 33, 0, 0xee};
    uint8_t *journal = copy(bytes, sizeof bytes);
    CHECK(lock_bench_entries_of(journal, sizeof bytes, 3, 2).left == 2);
    CHECK(lock_bench_entries_of(journal, sizeof bytes, 3, 4).left == 0);
    CHECK(lock_bench_entries_of(journal, sizeof bytes, 4, 2).left == 0);
    CHECK(lock_bench_entries_of(journal, sizeof bytes, SIZE_MAX, 1).left == 0);
    free(journal);
    CHECK(answered("answer 0 at 6\nroot", 0, 6));
    CHECK(answered("answer 12 at 4294967294\n", 12, 4294967294u));
    const char *none[] = {"", "answer", "answer ", "answer 0", "answer 0 at ", "answer 0 at 6", "answer 0 at 6 ",
                          "answer x at 6\n", "answer 0 at 4294967296\n", "Answer 0 at 6\n", "answer 0 to 6\n"};
    for (size_t i = 0; i < sizeof none / sizeof *none; i++) {
        CHECK(!answered(none[i], 0, 6));
        struct lock_bench_answer answer;
        CHECK(!lock_bench_read_answer((const uint8_t *) none[i], strlen(none[i]), &answer));
    }
    printf("all are none\n");
    return 0;
}
"""


@unittest.skipIf(shutil.which("cargo") is None, "cargo is not installed")
class Cargo(WithStandIn):
    def cargo(self, *words: str, **changed: str) -> subprocess.CompletedProcess[str]:
        environ = environment(CARGO_TARGET_DIR=str(self.folder / "cargo"), **changed)
        command = ["cargo", words[0], "--offline", "--quiet", *words[1:]]
        return subprocess.run(command, cwd=self.root / "bindings" / "rust", capture_output=True, text=True, check=False, env=environ)

    def test_what_is_missing_is_said(self) -> None:
        """In a plain error, and without a panic."""
        tried: tuple[tuple[dict[str, str], str], ...] = (
            ({"BENCH_LIB_DIR": "/no/such"}, "error: /no/such/liblock_bench.a: No such file or directory"),
            ({}, "error: bench: nothing is built from these sources; ./bench build does it"),
        )
        for changed, said in tried:
            ran = self.cargo("build", **changed)
            self.assertNotEqual(ran.returncode, 0)
            self.assertIn(said, ran.stderr)
            self.assertNotIn("panicked", ran.stderr)

    def test_built_and_changed(self) -> None:
        """`./bench build` makes what `cargo test` needs; once a source has changed, what was built from the earlier ones is not linked."""
        self.done(self.root / "bench", "build", PATH=self.path)
        ran = self.cargo("test")
        self.assertEqual(ran.returncode, 0, ran.stdout + ran.stderr)
        self.change()
        ran = self.cargo("run", "--example", "print", str(WORKED))
        self.assertNotEqual(ran.returncode, 0)
        self.assertIn("error: bench: nothing is built from these sources; ./bench build does it", ran.stderr)
        self.done(self.root / "bench", "build", PATH=self.path)
        ran = self.cargo("run", "--example", "print", str(WORKED))
        self.assertEqual((ran.returncode, ran.stdout), (0, "answer 8 at 0\n"), ran.stderr)

    def test_installed_prefix(self) -> None:
        """The folder of an installed library serves; one of another version does not."""
        prefix = self.folder / "a prefix"
        self.make("all", "install", f"PREFIX={prefix}")
        for example in ("print", "rows"):
            ran = self.cargo("run", "--example", example, str(WORKED), BENCH_LIB_DIR=str(prefix / "lib"))
            self.assertEqual((ran.returncode, ran.stdout), (0, self.done(self.root / "target" / "c" / example, WORKED)), ran.stderr)
        archive = prefix / "lib" / "liblock_bench.a"
        archive.write_bytes(archive.read_bytes().replace(b"version 1", b"version 0"))
        ran = self.cargo("build", BENCH_LIB_DIR=str(prefix / "lib"))
        self.assertNotEqual(ran.returncode, 0)
        self.assertIn(f"liblock_bench.a: is not of version {identity.version()}", ran.stderr)
