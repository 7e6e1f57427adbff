"""Figures for docs/BENCHMARK.md: how long a page takes to make, to open and to step through, and a row of ``play`` to be drawn.

``python3 -m tests.measure_page`` in bindings/python.
"""

from __future__ import annotations

import tempfile
import time
from pathlib import Path

from lock_bench import Run, Schedule, run, states
from lock_bench.history import MOST_ROWS
from lock_bench.page import write_page

from .browser import Browser
from .support import EXAMPLES
from .test_page import given_schedule, largest_run
from .test_play import playing

ROUNDS = 3
STEPS = 1000
CLICKS = 21


def frames_of_steps(browser: Browser, steps: int) -> list[float]:
    """Goes so many rows on from the first; milliseconds from each step's frame to the next one's, in order of size."""
    found: list[float] = browser.value(
        """(async (steps) => {
          const frame = () => new Promise(requestAnimationFrame), on = document.getElementById("on"), found = [];
          document.getElementById("first").click();
          let before = await frame();
          for (let i = 0; i < steps; i++) {
            on.click();
            const now = await frame();
            found.push(now - before);
            before = now;
          }
          return found;
        })(%d)"""
        % steps
    )
    return sorted(found)


def metrics(browser: Browser) -> float:
    """Milliseconds that the page's own thread has worked on script, style and layout."""
    found = {each["name"]: each["value"] for each in browser.call("Performance.getMetrics")["metrics"]}
    return 1000 * float(found["ScriptDuration"] + found["RecalcStyleDuration"] + found["LayoutDuration"])


def measure(browser: Browser, file: Path, name: str, ran: Run) -> str:
    """A line of the table: the best of some rounds, since other work on the machine only adds to it."""
    rows, making, opening, stepping, slowest = ran.sheet.taken, [], [], [], []
    steps = min(STEPS, rows)
    for _ in range(ROUNDS):
        begun = time.perf_counter()
        page = write_page(ran, list(states(ran.schedule, ran.till)), name).encode()
        making.append(time.perf_counter() - begun)
        file.write_bytes(page)
        browser.open(file)
        opening.append(float(browser.value("performance.getEntriesByName('drawn')[0].startTime")))
        before = metrics(browser)
        frames = frames_of_steps(browser, steps)
        stepping.append((metrics(browser) - before) / steps)
        slowest.append(frames[steps * 99 // 100])
    cells = (
        name, ran.schedule.threads, ran.schedule.nodes, rows, f"{len(page) / 1000:.0f} kB", f"{rows / min(making):,.0f}", f"{min(opening):.0f} ms",
        f"{min(stepping):.1f} ms", f"{min(slowest):.0f} ms",
    )  # fmt: skip
    return f"| {' | '.join(map(str, cells))} |"


def clicks(browser: Browser, link: str) -> list[tuple[float, float]]:
    """Milliseconds, by the clock, from a click that makes a row of ``play`` to the frame behind it, and how many of them its question took; in order."""
    browser.call("Page.navigate", url=link)
    ready = "performance.getEntriesByName('panel').length > 0 && !document.querySelector('#panel[aria-busy]')"
    found: list[tuple[float, float]] = []
    for _ in range(CLICKS):
        browser.wait(lambda: browser.value(ready) is True, "the panel is drawn")
        drawn, asked = browser.value(
            """(async () => {
              const rows = () => document.querySelectorAll("#list a").length, before = rows();
              const [go] = [...document.querySelectorAll("#moves button.go")].filter((each) => each.checkVisibility());
              performance.clearResourceTimings();
              const begun = performance.now();
              go.click();
              while (rows() === before) await new Promise((done) => setTimeout(done));
              await new Promise(requestAnimationFrame);
              const drawn = performance.now() - begun;
              return [drawn, performance.getEntriesByType("resource").find((each) => each.name.endsWith("/rows")).duration];
            })()"""
        )
        found.append((drawn, asked))
    return sorted(found)


def main() -> None:
    """Prints the table, and what a click takes."""
    site = run(given_schedule(Schedule.from_bytes((EXAMPLES / "site-of-19-threads.wants").read_bytes())))
    late = run(Schedule.from_bytes((EXAMPLES / "late-reader.schedule").read_bytes()))
    print("| Run | Threads | Nodes | Rows | Page | Rows a second made | Opens in | A step | 99 of 100 frames within |")
    print("|---|---|---|---|---|---|---|---|---|")
    with tempfile.TemporaryDirectory() as folder, Browser() as browser:
        browser.call("Performance.enable")
        for name, ran in (("late-reader", late), ("site-of-19-threads", site), ("the largest", largest_run())):
            print(measure(browser, Path(folder) / "run.html", name, ran), flush=True)
        largest = largest_run()
        assert largest.till is not None
        schedule, till = Path(folder) / "largest.schedule", Path(folder) / "largest.till"
        schedule.write_bytes(largest.schedule.first(MOST_ROWS - 2 * CLICKS).to_bytes())
        till.write_bytes(largest.till.to_bytes())
        with playing(schedule, "--till", till) as (_, link):
            found = clicks(browser, link)
        (drawn, asked), (least, _), (most, _) = found[CLICKS // 2], found[0], found[-1]
        print(f"a click of play, the largest: {drawn:.0f} ms, {asked:.0f} of them the question's (the median of {CLICKS}; {least:.0f} to {most:.0f})")


if __name__ == "__main__":
    main()
