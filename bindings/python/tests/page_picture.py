"""Makes docs/page.png and docs/play.png, the pictures that docs/USING.md and README.md show: ``python3 -m tests.page_picture`` in bindings/python."""

from __future__ import annotations

import tempfile
import time
from pathlib import Path

from lock_bench import Schedule, notation, run
from lock_bench.played import Start
from lock_bench.sources import ROOT

from .browser import Browser
from .support import EXAMPLES
from .test_page import page_of
from .test_play import serving

# Thread 1 has read the root, which others have changed since; thread 3 has the mutex, at which thread 4 is held up.
STAGED = "nodes 2  threads 5  0: read 0, go*2  1: read 0, go  2: read 1, go until done  3: write, go*2  4: write, go"


def main() -> None:
    """Takes the picture of the late reader at row 14, where it arrives at the closed root, and of a run that is staged by hand."""
    with tempfile.TemporaryDirectory() as folder, Browser() as browser:
        page = Path(folder) / "run.html"
        page.write_text(page_of(run(Schedule.from_bytes((EXAMPLES / "late-reader.schedule").read_bytes())), "late-reader"))
        browser.open(page, "#row=14")
        # What moves is at rest.
        time.sleep(0.5)
        browser.picture(ROOT / "docs" / "page.png")
        start = Start(notation.parse_script(STAGED).read().schedule.to_bytes(), watch="mutex taken")
        with serving(start) as server:
            browser.call("Page.navigate", url=server.link)
            browser.wait(lambda: bool(browser.value("performance.getEntriesByName('panel').length > 0")), "the panel is drawn")
            time.sleep(0.5)
            browser.picture(ROOT / "docs" / "play.png")


if __name__ == "__main__":
    main()
