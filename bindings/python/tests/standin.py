"""A repository of small crates, and a stand-in for Rattle's kit that writes for it what ``rt`` writes: for the tests of what is built."""

from __future__ import annotations

import os
import subprocess
import sys
from pathlib import Path

from lock_bench.sources import ARCHIVES, PROGRAMS

from .support import environment

#: The crates of the small repository.
CRATES = ("lock", "bench", *PROGRAMS, *ARCHIVES)

# It notes its calls in the file calls and itself in the file running, fails where there is a file fail, and waits at its second crate while there is a file
# slow. A static library's one function gives the number of calls so far.
RT = """\
#!/bin/sh
test "$1" = version && { echo 'stand-in 1'; exit; }
cd ../..
echo "$*" >> calls
echo $$ > running
out=crates/$2/out
mkdir -p "$out" target/stamp
prove() {
    test -e "target/stamp/$1" && return
    while test -e slow && test "$1" != lock; do sleep 0.05; done
    echo "rt: chose --jobs 1 for $1" >&2
    test -e fail && { echo "fn $1::a: not proved" >&2; exit 1; }
    echo "logic=proved functions=1" >&2
    touch "target/stamp/$1"
}
prove lock
prove bench
prove "$2"
case $1 in
run)
    printf '#!/bin/sh\\necho %s\\n' "$2" > "$out/$2"
    chmod +x "$out/$2"
    "$out/$2" ;;
lib)
    echo "int number_of_$2(void) { return $(wc -l < calls); }" > "$2.c"
    cc -fPIC -c -o "$2.o" "$2.c" && rm -f "$out/lib$2.a" && ar rc "$out/lib$2.a" "$2.o" || exit 1 ;;
*) exit 9 ;;
esac
"""

#: What ``rt`` is called for, for one build of the library.
ONE_BUILD = [f"lib {crate}" for crate in ARCHIVES]


class Repository:
    """The small repository in a folder: its programs and archives build on ``bench``, which builds on ``lock``."""

    def __init__(self, root: Path) -> None:
        self.root = root
        for crate in CRATES:
            (root / "crates" / crate / "src").mkdir(parents=True)
            (root / "crates" / crate / "src" / "lib.rt").write_text(f"the source of {crate}")
        (root / "crates.txt").write_text("# The crates.\nlock:\nbench: lock\n" + "".join(f"{crate}{' staticlib' * (crate in ARCHIVES)}: bench\n" for crate in CRATES[2:]))
        tools = root / "tools"
        tools.mkdir()
        (tools / "rt").write_text(RT)
        (tools / "rt").chmod(0o755)
        self.path = f"{tools}:{os.environ['PATH']}"

    @property
    def source(self) -> Path:
        """A source that all crates need."""
        return self.root / "crates" / "lock" / "src" / "lib.rt"

    def calls(self) -> list[str]:
        """What the stand-in was called for, call by call."""
        calls = self.root / "calls"
        return calls.read_text().splitlines() if calls.exists() else []

    def change(self) -> None:
        """Changes a source, which the stand-in has to prove again."""
        self.source.write_text(self.source.read_text() + " and more")
        for stamp in (self.root / "target" / "stamp").glob("*"):
            stamp.unlink()

    def sets(self) -> list[str]:
        """The folders of what was built, or was to be."""
        return sorted(path.name for path in (self.root / "target").glob("built-*"))

    def start(self, stderr: int = subprocess.PIPE) -> subprocess.Popen[str]:
        """Starts a build in a process of its own, which prints the folder of what it built."""
        script = "import sys; from pathlib import Path; from lock_bench import build; print(build.built(root=Path(sys.argv[1])).folder)"
        package = str(Path(__file__).resolve().parents[1])
        command = [sys.executable, "-c", script, str(self.root)]
        return subprocess.Popen(command, stdout=subprocess.PIPE, stderr=stderr, text=True, env=environment(PATH=self.path, PYTHONPATH=package))
