"""The page: what it holds, and what it shows in a real browser (``bindings/python/check`` installs it)."""

from __future__ import annotations

import base64
import json
import math
import random
import re
import shutil
import struct
import subprocess
import tempfile
import unittest
from collections.abc import Iterable, Sequence
from functools import cache, lru_cache
from html.parser import HTMLParser
from itertools import combinations
from pathlib import Path
from typing import Any

from lock_bench import BenchError, Journal, Library, Row, Run, Schedule, Sheet, Till, TillEntry, journal, load, notation, orders, run, states
from lock_bench.page import page_data, write_page
from lock_bench.stuck import STUCK

from .browser import SHIFT, Browser, read_png
from .support import EXAMPLES, bench, drawn_schedule, example_files, good_till, has_two_locks, needs, wanted_calls

#: The most bytes that a page may have.
MOST_BYTES = 5_000_000
#: Red, green and blue, 0 to 255.
Colour = tuple[float, float, float]


def page_of(ran: Run, title: str = "a run") -> str:
    """The page of a run."""
    return write_page(ran, list(states(ran.schedule, ran.till)), title)


def sheet_of_first(ran: Run, rows: int) -> bytes:
    """The library's sheet of the first rows of a run's schedule."""
    return load().sheet(ran.schedule.first(rows).to_bytes(), None if ran.till is None else ran.till.to_bytes()).sheet


def last_shown(ran: Run) -> int:
    """How many rows the page goes to: those taken, and the refused one."""
    return ran.sheet.taken + (ran.sheet.answer > 0)


def given_schedule(wants: Schedule, library: Library | None = None) -> Schedule:
    """The schedule that the dispatcher gives for wanted calls."""
    return Schedule.from_bytes((library or load()).dispatch_sheet(wants.to_bytes()).schedule)


def examples() -> list[tuple[str, Run]]:
    """Every example that has states to show: schedules, wanted calls as the dispatcher gives them, and bookings with their till."""
    found = [(path.stem, run(Schedule.from_bytes(path.read_bytes()))) for path in example_files("schedule")]
    found += [(path.stem, run(given_schedule(Schedule.from_bytes(path.read_bytes())))) for path in example_files("wants")]
    if load().has("credit_sheet"):
        for path in example_files("bookings"):
            found.append((path.stem, run(Schedule.from_bytes(path.read_bytes()), Till.from_bytes(path.with_suffix(".till").read_bytes()))))
    return found


@cache
def largest_run() -> Run:
    """A run of 64 threads, 32 nodes and 4,096 rows, in both locks and with 32 rooms where the library has them."""
    rng = random.Random(64)

    def wants(threads: range, rows: int) -> Schedule:
        turns = [(thread, orders.WRITE_LOCK if rng.random() < 0.1 else orders.READ_LOCK + rng.randrange(32)) for thread in [*threads] * rows]
        return Schedule(32, 2, 64, tuple(Row(thread, order) for thread, lock in turns for order in (lock, orders.UNLOCK)))

    if not has_two_locks():
        return run(given_schedule(wants(range(64), 20)))
    first, second = given_schedule(wants(range(32), 40)), given_schedule(wants(range(32, 64), 40))
    # Threads of their own, so that the rows of the two locks can be mixed as one likes.
    mixed: list[Row] = []
    for row, other in zip(first.rows, second.rows):
        mixed += (row, Row(other.thread, other.order + orders.SECOND if other.order else orders.GO_ON))
    if not load().has("credit_sheet"):
        return run(Schedule(32, 2, 64, tuple(mixed[:4096])))
    till = Till(32, tuple(TillEntry(e, rng.randint(1, 30_000)) for e in range(32)))
    booked: list[Row] = []
    for row, before in zip(mixed, states(Schedule(32, 2, 64, tuple(mixed[:4096])))):
        if row.order == orders.UNLOCK and before.locks[0].threads[row.thread].standing == "writing":
            booked.append(Row(row.thread, orders.BOOK + rng.randrange(32)))
        booked.append(row)
    return run(Schedule(32, 2, 64, tuple(booked[:4096])), till)


def text_of(fields: Sequence[int], data: dict[str, Any]) -> bytes:
    """The sheet that a page's fields stand for, by the order that sheets have."""
    values = iter(fields)

    def or_word(value: int, word: str) -> str:
        return word if value == data["none"] else str(value)

    lines = [f"answer {next(values)} at {next(values)}"]
    for _ in range(data["locks"]):
        lines.append(f"root {next(values)} {next(values)} {('open', 'closed')[next(values)]}")
        lines += (f"node {n} {next(values)}" for n in range(1, data["nodes"]))
        lines.append(f"queue {or_word(next(values), 'free')} {next(values)} {next(values)}")
        lines += (f"thread {t} {data['standings'][next(values)]} {or_word(next(values), '-')} {next(values)}" for t in range(data["threads"]))
    lines += (f"room {room} {next(values)}" for room in range(data["rooms"]))
    assert next(values, None) is None
    return "".join(f"{line}\n" for line in lines).encode()


class Links(HTMLParser):
    """The addresses that a page's elements name."""

    def __init__(self, page: str) -> None:
        super().__init__()
        self.found: set[str] = set()
        self.tags: list[str] = []
        self.feed(page)

    def handle_starttag(self, tag: str, attrs: list[tuple[str, str | None]]) -> None:
        self.tags.append(tag)
        self.found |= {value or "" for name, value in attrs if name in ("src", "href", "action", "data", "poster", "srcset", "xlink:href")}


class Holding(unittest.TestCase):
    """What the file holds, without a browser."""

    def states_come_back(self, ran: Run) -> None:
        data: dict[str, Any] = json.loads(json.dumps(page_data(ran, list(states(ran.schedule, ran.till)), "")))
        fields = list(data["start"])
        self.assertEqual(text_of(fields, data), sheet_of_first(ran, 0))
        for rows, change in enumerate(data["changes"], 1):
            for at in range(0, len(change), 2):
                self.assertNotEqual(fields[change[at]], change[at + 1], "a field that did not change")
                fields[change[at]] = change[at + 1]
            self.assertEqual(text_of(fields, data), sheet_of_first(ran, rows))
        self.assertEqual(len(data["changes"]), last_shown(ran))

    def test_changes_give_every_state(self) -> None:
        rng = random.Random(3)
        for _, ran in examples():
            if len(ran.schedule.rows) < 300:
                self.states_come_back(ran)
        for _ in range(20):
            self.states_come_back(run(drawn_schedule(rng, 60)))

    @needs("credit_sheet")
    def test_changes_with_a_till(self) -> None:
        rng = random.Random(4)
        for _ in range(20):
            till = good_till(rng)
            self.states_come_back(run(drawn_schedule(rng, 60, till), till))

    def test_refused_rows(self) -> None:
        for text, number in (("0: unlock", 7), ("0: read 0, go*2, 99", 6), ("0: read 0 5: go 0: go", 5)):
            ran = run(notation.parse(text))
            self.assertEqual(ran.sheet.answer, number)
            self.states_come_back(ran)

    def test_it_names_nothing_outside(self) -> None:
        page = page_of(run(notation.parse("0: read 0, go*2")))
        links = Links(page)
        self.assertEqual({link for link in links.found if not link.startswith("#")}, {"data:,"})
        self.assertEqual(links.tags.count("script"), 2)
        self.assertIsNone(re.search(r"@import|url\((?!#)", page))

    def test_a_title_is_text(self) -> None:
        title = "</title></script><script>throw 1</script><!-- $data & \u2028 'q\" é"
        page = page_of(run(notation.parse("0: read 0")), title)
        self.assertEqual(Links(page).tags.count("script"), 2)
        found = re.search(r'<script type="application/json" id="run">(.*?)</script>', page, re.DOTALL)
        assert found is not None
        self.assertEqual(json.loads(found[1])["title"], title)

    def test_what_is_no_run(self) -> None:
        ran = run(notation.parse("0: read 0, go"))
        with self.assertRaisesRegex(BenchError, "2 states, and a run of 2 rows taken has 3"):
            write_page(ran, list(states(ran.schedule))[:2], "a")
        with self.assertRaisesRegex(BenchError, "no states to show: the file is refused with 2"):
            write_page(run(notation.parse("nodes 0")), [], "a")
        plain = Sheet.parse(load().plain_sheet(b"\1\1\1\0\0"))
        with self.assertRaisesRegex(BenchError, "the plain engine has no tree"):
            write_page(Run(Schedule(1, 1, 1, ()), None, plain, Journal()), [plain], "a")

    def test_size_of_the_largest(self) -> None:
        ran = largest_run()
        self.assertEqual((ran.schedule.nodes, ran.schedule.threads, ran.sheet.taken, ran.sheet.answer), (32, 64, 4096, 0))
        self.assertLess(len(page_of(ran).encode()), MOST_BYTES)


class Command(unittest.TestCase):
    def setUp(self) -> None:
        folder = tempfile.TemporaryDirectory()
        self.addCleanup(folder.cleanup)
        self.page = Path(folder.name) / "run.html"

    def test_file_text_and_wants(self) -> None:
        schedule = EXAMPLES / "late-reader.schedule"
        expected = page_of(run(Schedule.from_bytes(schedule.read_bytes())), "late-reader")
        for arguments in ((schedule,), (EXAMPLES / "late-reader.schedule.txt",)):
            said = bench("page", *arguments, "-o", self.page)
            self.assertEqual((said, self.page.read_text()), ((0, "", ""), expected))
        self.assertEqual(bench("page", schedule, "-o", "-").out, expected)
        self.assertIn("<h1>another &amp; title</h1>", bench("page", schedule, "-o", "-", "--title", "another & title").out)
        self.assertEqual(bench("page", "--dispatch", EXAMPLES / "writer-and-reader.wants", "-o", self.page).status, 0)
        self.assertIn("<h1>writer-and-reader</h1>", self.page.read_text())

    def test_what_it_refuses(self) -> None:
        said = bench("page", "-e", "nodes 0", "-o", self.page)
        self.assertEqual((said.status, said.out, self.page.exists()), (3, "", False))
        self.assertIn("refused with 2", said.err)
        self.assertEqual(bench("page", "-e", "0: go").status, 2)
        self.assertEqual(bench("page", "-e", "0: go", "-o", self.page.parent / "none" / "run.html").status, 1)


class Shown(unittest.TestCase):
    """What a real browser shows."""

    browser: Browser
    folder: Path

    @classmethod
    def setUpClass(cls) -> None:
        folder = tempfile.TemporaryDirectory()
        cls.addClassCleanup(folder.cleanup)
        cls.folder = Path(folder.name)
        cls.browser = Browser()
        cls.addClassCleanup(cls.browser.close)

    def setUp(self) -> None:
        self.browser.resize(1366, 768)
        self.browser.media()
        self.browser.forget()

    def tearDown(self) -> None:
        self.assertEqual(self.browser.complaints(), [])
        self.assertEqual(self.browser.requests(), [])

    def open(self, ran: Run, fragment: str = "", title: str = "a run") -> None:
        page = self.folder / "run.html"
        page.write_text(page_of(ran, title))
        self.browser.open(page, fragment)

    def open_example(self, name: str, fragment: str = "") -> Run:
        ran = run(Schedule.from_bytes((EXAMPLES / f"{name}.schedule").read_bytes()))
        self.open(ran, fragment, name)
        return ran

    def sheets_at(self, places: Iterable[int]) -> list[str]:
        """What the page's panel shows of the sheet after so many rows, each gone to by its link."""
        links = json.dumps(["#fresh" if rows == 0 else f"#row={rows - 1}" for rows in places])
        shown: list[str] = self.browser.value(
            """(async (links) => {
              const frame = () => new Promise(requestAnimationFrame), texts = [];
              document.getElementById("sheet").open = true;
              for (const link of links) {
                const changed = location.hash === link || new Promise((done) => addEventListener("hashchange", done, { once: true }));
                location.hash = link;
                await changed;
                await frame();
                await frame();
                texts.push(document.getElementById("text").textContent);
              }
              return texts;
            })(%s)"""
            % links
        )
        return shown

    def at(self) -> int:
        """After how many rows the page is, by all that says so."""
        found = self.browser.value(
            """[document.getElementById("slider").valueAsNumber, Number(document.getElementById("number").value || -1) + 1,
                [...document.querySelectorAll("#list a")].findIndex((link) => link.hasAttribute("aria-current")),
                Number((/[0-9]+/.exec(document.querySelector("#said .row").textContent) ?? [-1])[0]) + 1]"""
        )
        self.assertEqual(len(set(found)), 1, found)
        return int(found[0])

    def colour(self, name: str) -> Colour:
        """A colour of the page's style."""
        value = self.browser.value(f"getComputedStyle(document.documentElement).getPropertyValue('--{name}').trim()")
        return (int(value[1:3], 16), int(value[3:5], 16), int(value[5:7], 16))

    def shows_the_librarys_sheets(self, name: str, ran: Run, rng: random.Random, count: int) -> None:
        last = last_shown(ran)
        places = [0, last, *(rng.randint(0, last) for _ in range(count))]
        for rows, shown in zip(places, self.sheets_at(places)):
            self.assertEqual(shown.encode(), sheet_of_first(ran, rows), f"{name}, after {rows} rows")


class Sheets(Shown):
    def test_examples(self) -> None:
        """At rows picked at random, what the command prints of the rows so far."""
        rng = random.Random(1)
        file, till = self.folder / "first.schedule", self.folder / "till"
        found = examples()
        self.assertGreaterEqual(len(found), 16)
        for name, ran in found:
            self.open(ran, title=name)
            self.shows_the_librarys_sheets(name, ran, rng, 8)
            rows = rng.randint(0, last_shown(ran))
            file.write_bytes(ran.schedule.first(rows).to_bytes())
            beside: tuple[object, ...] = ()
            if ran.till is not None:
                till.write_bytes(ran.till.to_bytes())
                beside = ("--till", till)
            self.assertEqual(self.sheets_at([rows]), [bench("sheet", *beside, file).out], f"{name}, after {rows} rows")

    def test_random_schedules(self) -> None:
        """200 of them: rows drawn one by one, what the dispatcher gives, refused ones, and some with a till where the library has one."""
        rng = random.Random(2)
        with_till = load().has("credit_sheet")
        for number in range(200):
            till = good_till(rng) if with_till and number % 4 == 0 else None
            if number % 5 == 1:
                schedule = given_schedule(wanted_calls(rng, rng.randint(1, 40)))
            else:
                schedule = drawn_schedule(rng, rng.randint(0, 60), till)
            if number % 10 == 3:
                # A row that is refused, by its thread or its order, and rows behind it that are not reached.
                schedule = Schedule(schedule.nodes, schedule.fan, schedule.threads, (*schedule.rows, Row(rng.choice((0, 200)), 99), Row(0, 0)))
            ran = run(schedule, till)
            self.open(ran)
            self.shows_the_librarys_sheets(f"schedule {number}", ran, rng, 3)

    def test_the_panel_is_read_from_what_is_drawn(self) -> None:
        """Whatever is changed in the drawing shows in the panel."""
        self.open_example("late-reader")
        (sheet,) = self.sheets_at([14])
        for selector, before, after in (
            (".root .value", "root 1 0", "root 77 0"),
            (".node .value", "node 1 0", "node 1 77"),
            (".node .label tspan:last-child", "node 1 0", "node 77 0"),
            (".queue .value", "queue free", "queue 77"),
            ("#threads tbody tr:nth-child(2) .standing", "thread 1 calling", "thread 1 77"),
            ("#threads tbody tr:nth-child(3) .failed", "thread 2 asleep - 0", "thread 2 asleep - 77"),
            ("#taken", "at 14", "at 77"),
        ):
            self.browser.open(self.folder / "run.html", "#row=13")
            self.browser.value(f"document.querySelector({json.dumps(selector)}).firstChild.data = '77'")
            self.browser.value("document.getElementById('sheet').open = false")
            self.browser.settle()
            self.browser.value("document.getElementById('sheet').open = true")
            self.browser.settle()
            self.assertIn(before, sheet)
            self.assertEqual(self.browser.text("#text"), sheet.replace(before, after, 1), selector)

    def test_largest(self) -> None:
        ran = largest_run()
        self.open(ran)
        self.shows_the_librarys_sheets("the largest", ran, random.Random(5), 12)


class Drawn(Shown):
    def test_threads_stand_where_the_sheet_says(self) -> None:
        """Each thread's chip has its standing, at its ticket, in the queue, or nowhere while idle."""
        rng = random.Random(6)
        for _ in range(6):
            ran = run(drawn_schedule(rng, 80))
            self.open(ran)
            for rows in (rng.randint(1, 80) for _ in range(5)):
                self.sheets_at([rows])
                state = Sheet.parse(sheet_of_first(ran, rows))
                looks = self.browser.value(
                    "[...document.querySelectorAll('.lock')].map((lock) => [...lock.querySelectorAll('.chip')].map((chip) => chip.getAttribute('class')))"
                )
                self.assertEqual(len(looks), len(state.locks))
                for lock, chips in zip(state.locks, looks):
                    for thread, look in zip(lock.threads, chips):
                        self.assertEqual(look.split()[:2], ["chip", thread.standing])
                        self.assertEqual("away" in look.split(), thread.standing == "idle")

    def test_every_sleeper_is_shown(self) -> None:
        """Row by row, since what a step leaves alone is not drawn again."""
        # A writer holds, and all others go to sleep, one after the other.
        found = self.threads_shown("threads 64  0: write, go*2  " + "  ".join(f"{thread}: read 0, go*5" for thread in range(1, 64)), 381)
        for shown, more, busy in found:
            self.assertEqual((shown, more), (busy, 0))
        self.assertEqual(found[-1][2], 64)

    def test_every_thread_at_a_node_is_shown_or_counted(self) -> None:
        """Where a node has more threads than there is room for, it says how many more, and which."""
        readers = "  ".join(f"{thread}: read 1, go*3" for thread in range(1, 64))
        found = self.threads_shown(f"nodes 17 fan 16 threads 64  0: read 1, go*5  {readers}", 258)
        for shown, more, busy in found:
            self.assertEqual(shown + more, busy)
        self.assertEqual(found[-1][2], 64)
        self.assertGreater(found[-1][1], 0)
        hidden = self.browser.value("[...document.querySelectorAll('.lock title')].map((each) => each.textContent).join('')")
        self.assertEqual(len(hidden.removeprefix("threads ").split(", ")), found[-1][1])

    def threads_shown(self, text: str, steps: int) -> list[tuple[int, int, int]]:
        """After each of so many rows: the threads that are drawn at the first lock, those that are counted, and those that are not idle."""
        self.open(run(notation.parse(text)))
        found = self.browser.value(
            """(async (steps) => {
              const frame = () => new Promise(requestAnimationFrame), found = [];
              const lock = document.querySelector(".lock"), count = (selector) => document.querySelectorAll(selector).length;
              for (let i = 0; i < steps; i++) {
                document.getElementById("on").click();
                await frame();
                const more = [...lock.querySelectorAll(".more")].reduce((sum, each) => sum + Number(each.textContent), 0);
                const idle = [...document.querySelectorAll("#threads td:nth-of-type(1)")].filter((cell) => cell.textContent === "idle").length;
                found.push([lock.querySelectorAll(".chip:not(.away):not(.hidden)").length, more, count("#threads tbody tr") - idle]);
              }
              return found;
            })(%d)"""
            % steps
        )
        return [(shown, more, busy) for shown, more, busy in found]

    def test_failed_swaps_and_hold_ups_are_marked(self) -> None:
        """Every one of them has its mark, in its thread's lane at its row."""
        for name, ran in examples():
            failed = [i for i, entry in enumerate(ran.journal) if entry.kind == journal.FAILED]
            held = [i for i, entry in enumerate(ran.journal) if entry.kind == journal.HELD_UP]
            if not failed and not held or len(ran.schedule.rows) > 1200:
                continue
            self.open(ran, title=name)
            self.browser.value("document.getElementById('all').click()")
            self.browser.settle()
            self.assertEqual(re.findall(r"\d+", self.browser.text("#fails")), [str(len(failed))])
            self.assertEqual(re.findall(r"\d+", self.browser.text("#holds")), [str(len(held))])
            wide, high, top = self.browser.value(
                """((drawing, body) => [drawing.width, body.firstChild.offsetHeight, body.getBoundingClientRect().top - drawing.top])(
                    document.querySelector("#drawing > svg").getBoundingClientRect(), document.querySelector("#threads tbody"))"""
            )
            pixels = min(wide / (last_shown(ran) + 1), 56)
            for mark, found in (("fails", failed), ("holds", held)):
                path = self.browser.value(f"document.querySelector('#drawing path.{mark}').getAttribute('d')")
                spots = [tuple(map(float, spot)) for spot in re.findall(r"M(-?[\d.]+) (-?[\d.]+)", path)]
                self.assertEqual(len(spots), len(found), (name, mark))
                for (x, y), i in zip(spots, found):
                    # A mark begins within five points of its middle, which may be raised above words.
                    self.assertAlmostEqual(x, (i + 1.5) * pixels, delta=5.5)
                    self.assertAlmostEqual(y, top + (ran.schedule.rows[i].thread + 0.5) * high, delta=18)

    def test_no_mark_is_over_a_word(self) -> None:
        """Where rows have words, the marks of failed swaps, hold-ups and bookings stand clear of them."""
        waits = "threads 3  0: read 0, go*2  1: write, go*2  2: write, go*3"
        collide = Schedule.from_bytes((EXAMPLES / "colliding-readers.schedule").read_bytes())
        song = EXAMPLES / "one-song-charged-once.bookings"
        booked = run(Schedule.from_bytes(song.read_bytes()), Till.from_bytes(song.with_suffix(".till").read_bytes()))
        for wide in (1280, 1920):
            self.browser.resize(wide, 900)
            for ran, marks in ((run(collide), {"fails"}), (run(notation.parse(waits)), {"holds"}), (booked, {"booked", "repeated", "denied"} if wide == 1920 else set())):
                self.open(ran)
                found = self.browser.value(
                    """["fails", "holds", "booked", "repeated", "denied"].flatMap((name) => {
                      const path = document.querySelector(`#drawing > svg > path.${name}`), from = path.ownerSVGElement.getBoundingClientRect();
                      const starts = [...path.getAttribute("d").matchAll(/M([\\d.]+) ([\\d.]+)[al]([\\d.]+) [\\d.]/g)].map(([, ...all]) => all.map(Number));
                      const thick = parseFloat(getComputedStyle(path).strokeWidth) / 2;
                      // The box of a mark, by what its path begins with: a cross with its diagonal, the others with half their width.
                      const boxes = starts.map(([x, y, n]) => (name === "fails" ? [x, y, n] : name === "holds" ? [x - n, y, 2 * n] : [x, y - n, 2 * n]));
                      const words = [...document.querySelectorAll(".words text")].map((each) => each.getBBox());
                      return boxes.map(([x, y, long]) => [name, words.filter((word) => x - thick < word.x + word.width && x + long + thick > word.x
                        && y - thick < word.y + word.height && y + long + thick > word.y).length, words.length]);
                    })"""
                )
                if marks:
                    self.assertEqual({name for name, _, _ in found}, marks)
                for name, over, words in found:
                    self.assertTrue(words == 0 or over == 0, (wide, name, over))
                    self.assertTrue(words > 0 or not marks, "no words, so nothing is seen")

    def test_the_roots_count_over_time(self) -> None:
        """The chart's line is as high at each row as the root's count then."""
        rng = random.Random(7)
        for _ in range(4):
            ran = run(drawn_schedule(rng, 60))
            self.open(ran)
            self.browser.value("document.getElementById('all').click()")
            path = self.browser.value("document.querySelector('#drawing .chart .line').getAttribute('d')")
            pixels = min(self.browser.value("document.querySelector('#drawing svg').clientWidth") / 61, 56)
            counts = [state.locks[0].root.count for state in states(ran.schedule)]
            steps = [(0.0, float(re.match(r"M[\d.]+ ([\d.]+)", path)[1]))]  # type: ignore[index]
            steps += [(float(x), float(y)) for x, y in re.findall(r"H([\d.]+)V([\d.]+)", path)]
            heights = {count: y for count, y in ((counts[round(x / pixels)], y) for x, y in steps)}
            most = max(1, *counts)
            for at, count in enumerate(counts):
                y = [y for x, y in steps if round(x / pixels) <= at][-1]
                self.assertEqual(y, heights[count])
                self.assertAlmostEqual(y, 53 - 41 * count / most, delta=0.11)

    def test_what_changed_is_marked(self) -> None:
        """At row 9 of the late reader the writer closes the root: the flag and nothing else."""
        self.open_example("late-reader", "#row=9")
        self.assertEqual(self.browser.value("[...document.querySelectorAll('.changed')].map((each) => each.parentNode.textContent)"), ["flagclosed"])
        moved = self.browser.value("[...document.querySelectorAll('.moved')].map((each) => each.firstChild.textContent)")
        self.assertEqual(moved, ["2"] * (1 + has_two_locks()))
        self.assertEqual(self.browser.text(".lock .tag:not(.away)"), "thread 2 swaps")

    def test_a_second_lock_without_rows_is_folded(self) -> None:
        if not has_two_locks():
            self.skipTest("the library has one lock")
        self.open_example("late-reader")
        self.assertEqual(self.browser.value("document.querySelectorAll('details.lock:not([open])').length"), 1)
        self.open(run(notation.parse("threads 2  0: read 0 second, go*2")))
        self.assertEqual(self.browser.value("document.querySelectorAll('details.lock').length"), 0)
        self.assertEqual(self.browser.value("document.querySelectorAll('.chart').length"), 2)

    @needs("credit_sheet")
    def test_balances(self) -> None:
        till = Till(2, (TillEntry(1, 500), TillEntry(1, -200)))
        self.open(run(notation.parse("0: write, go*2, book 0, book 1"), till), "#row=3")
        self.assertEqual(self.browser.value("[...document.querySelectorAll('#rooms ul:not(#entries) li')].map((room) => room.textContent)"), ["room 00", "room 1500"])
        self.browser.press("ArrowRight")
        self.assertEqual(self.browser.text("#rooms ul:not(#entries) li:nth-child(2)"), "room 1300")
        self.assertEqual(self.browser.value("document.querySelectorAll('#rooms .changed').length"), 1)


class Bookings(Shown):
    """Bookings have their amounts and rooms, and their three kinds are told apart."""

    def setUp(self) -> None:
        super().setUp()
        song = EXAMPLES / "one-song-charged-once.bookings"
        self.ran = run(Schedule.from_bytes(song.read_bytes()), Till.from_bytes(song.with_suffix(".till").read_bytes()))

    def test_in_words(self) -> None:
        self.open(self.ran)
        listed = self.browser.value("[...document.querySelectorAll('#list a')].map((each) => [each.className, each.querySelector('.what').textContent])")
        self.assertEqual(listed[4], ["booked", "book 0: booked entry 0 (+5, room 0)"])
        self.assertEqual(listed[17], ["repeated", "book 1: repeated entry 1, booked before (-2, room 0)"])
        self.assertEqual(listed[18], ["denied", "book 2: denied entry 2: its room's balance would fall below 0 (-2, room 1)"])
        marks = self.browser.value("[4, 17, 18].map((i) => getComputedStyle(document.querySelectorAll('#list a')[i].querySelector('.what'), '::before').content)")
        self.assertEqual(len(set(marks)), 3, marks)

    def test_in_the_lanes(self) -> None:
        """Each kind has marks of its own, at its rows; and words, with the amount and the room, where there is room for words."""
        due = {
            mark: [i for i, entry in enumerate(self.ran.journal) if entry.kind == kind]
            for mark, kind in (("booked", journal.BOOKED), ("repeated", journal.REPEATED), ("denied", journal.DENIED_BOOKING))
        }
        self.browser.resize(1366, 768)
        self.open(self.ran)
        wide = self.browser.value("document.querySelector('#drawing > svg').getBoundingClientRect().width")
        pixels = min(wide / (last_shown(self.ran) + 1), 56)
        looks = set()
        for mark, rows in due.items():
            path = self.browser.value(f"document.querySelector('#drawing > svg > path.{mark}').getAttribute('d')")
            # A circle begins at its left; the bar through a denied one is inside it.
            starts = [float(x) for x, _ in re.findall(r"M([\d.]+) ([\d.]+)a", path)]
            self.assertEqual(len(starts), len(rows), mark)
            for x, i in zip(starts, rows):
                self.assertAlmostEqual(x, (i + 1.5) * pixels, delta=5.5)
            looks.add(self.browser.value(f"(({{fill, stroke}}) => fill + stroke)(getComputedStyle(document.querySelector('#drawing > svg > path.{mark}')))"))
        self.assertEqual(len(looks), 3)
        self.browser.resize(1920, 1080)
        self.browser.settle()
        self.browser.settle()
        cells = self.browser.value("[...document.querySelectorAll('.words g')].map((each) => [...each.querySelectorAll('text')].map((text) => text.textContent))")
        self.assertEqual(cells[3], ["books", "+5 r0"])
        self.assertEqual(cells[16], ["again", "-2 r0"])
        self.assertEqual(cells[17], ["denied", "-2 r1"])

    def test_the_entries(self) -> None:
        """Each entry with its amount and room, and the row that booked it once it did."""
        for at, due in ((3, "not booked"), (4, "booked in row 3")):
            self.open(self.ran, f"#row={at - 1}")
            entries = self.browser.value("[...document.querySelectorAll('#entries li')].map((each) => each.textContent)")
            self.assertEqual(entries[0], f"entry 0+5 room 0 {due}")
            self.assertEqual(entries[3], "entry 3+2 room 1 not booked")


class Stepping(Shown):
    def test_keys(self) -> None:
        self.open_example("late-reader")
        self.assertEqual(self.at(), 0)
        for key, then in (
            ("ArrowRight", 1), ("ArrowRight", 2), ("ArrowDown", 3), ("ArrowLeft", 2), ("ArrowUp", 1), ("PageDown", 3), ("PageDown", 5), ("PageUp", 3),
            ("End", 16), ("ArrowRight", 16), ("Home", 0), ("ArrowLeft", 0),
        ):  # fmt: skip
            self.browser.press(key)
            self.assertEqual(self.at(), then, key)
        self.assertEqual(self.browser.text("#said").split(), ["The", "fresh", "lock,", "before", "the", "first", "row"])
        self.browser.press("ArrowRight", times=10)
        self.assertEqual(self.browser.text("#said").split(), ["Row", "9", "thread", "2", "go", "swapped", "root", "to", "(1,", "0,", "closed)"])

    def test_to_failed_swaps_and_hold_ups(self) -> None:
        ran = run(given_schedule(Schedule.from_bytes((EXAMPLES / "site-of-19-threads.wants").read_bytes())))
        self.open(ran)
        failed = [i + 1 for i, entry in enumerate(ran.journal) if entry.kind == journal.FAILED]
        held = [i + 1 for i, entry in enumerate(ran.journal) if entry.kind == journal.HELD_UP]
        for key, selector, rows in (("ArrowRight", "#fail-on", failed), ("ArrowDown", "#hold-on", held)):
            self.browser.press("Home")
            for then in rows[:3]:
                self.browser.press(key, SHIFT)
                self.assertEqual(self.at(), then)
            self.browser.click_on(selector)
            self.assertEqual(self.at(), rows[3])
        self.browser.press("ArrowUp", SHIFT)
        self.assertEqual(self.at(), held[2])
        self.browser.press("ArrowLeft", SHIFT)
        self.assertEqual(self.at(), max(row for row in failed if row < held[2]))
        self.browser.press("End")
        self.assertTrue(self.browser.value("document.getElementById('fail-on').disabled"))

    def test_slider(self) -> None:
        self.open_example("late-reader")
        x, y, wide, high = self.browser.box("#slider")
        self.browser.click(x + wide / 2, y + high / 2)
        self.assertEqual(self.at(), 8)
        self.browser.click(x + wide / 2, y + high / 2, (x + wide - 1, y + high / 2))
        self.assertEqual(self.at(), 16)
        # The slider has the focus now, and its own keys.
        self.browser.press("ArrowLeft")
        self.assertEqual(self.at(), 15)
        self.browser.press("Home")
        self.assertEqual(self.at(), 0)

    def test_buttons_and_number(self) -> None:
        self.open_example("late-reader")
        for selector, then in (("#on", 1), ("#on", 2), ("#back", 1), ("#last", 16), ("#first", 0)):
            self.browser.click_on(selector)
            self.assertEqual(self.at(), then, selector)
        self.browser.click_on("#number")
        self.browser.value("document.getElementById('number').select()")
        self.browser.call("Input.insertText", text="11")
        self.browser.press("Enter")
        self.assertEqual(self.at(), 12)

    def test_one_number_for_one_place(self) -> None:
        """The field, the row that is said, the list, the slider's words, the title and the address have the trace's number."""
        self.open_example("late-reader")
        self.assertEqual(self.browser.text("#rows"), "0\u201315")
        for row in (0, 7, 15):
            self.browser.click_on(f'#list a[href="#row={row}"]')
            self.assertEqual(self.browser.value("document.getElementById('number').value"), str(row))
            self.assertEqual(self.browser.text("#said .row"), f"Row {row}")
            self.assertEqual(self.browser.text("#list a[aria-current] .row"), str(row))
            self.assertEqual(self.browser.value("document.getElementById('slider').getAttribute('aria-valuetext')"), f"row {row}")
            self.browser.wait(lambda: bool(self.browser.value(f"document.title === 'late-reader, row {row}' && location.hash === '#row={row}'")), "the title")
        self.browser.press("Home")
        self.assertEqual(self.browser.value("document.getElementById('number').value"), "")

    def test_stuck(self) -> None:
        """Where no row of any thread would change anything, the page says so at the last state, and nowhere else."""
        crossed = "threads 2  0: write, go*2  1: write second, go*2  0: write second, go*5  1: write, go*5"
        ran = run(notation.parse(crossed))
        self.assertEqual([lock.threads[1 - number].standing for number, lock in enumerate(ran.sheet.locks)], ["asleep", "asleep"])
        self.open(ran, f"#row={len(ran.schedule.rows) - 1}")
        self.assertEqual(self.browser.text("#said .stuck"), STUCK)
        self.browser.press("ArrowLeft")
        self.assertEqual(self.browser.text("#said .stuck"), "")
        self.open_example("late-reader", "#row=15")
        self.assertEqual(self.browser.text("#said .stuck"), "")

    def test_click_on_a_row(self) -> None:
        self.open_example("late-reader")
        self.browser.click_on('#list a[href="#row=7"]')
        self.assertEqual(self.at(), 8)
        # The row has the focus, and keeps it when stepping goes on.
        self.browser.press("ArrowDown")
        self.assertEqual(self.at(), 9)
        self.assertEqual(self.browser.value("document.activeElement.getAttribute('href')"), "#row=8")

    def test_click_and_drag_on_a_lane(self) -> None:
        self.open_example("late-reader")
        x, y, wide, high = self.browser.box("#drawing svg")
        middle = y + high * 0.7
        self.browser.click(x + wide * 5.5 / 17, middle)
        self.assertEqual(self.at(), 5)
        self.browser.click(x + wide * 5.5 / 17, middle, (x + wide * 12.5 / 17, middle))
        self.assertEqual(self.at(), 12)
        # On the chart likewise.
        self.browser.click(x + wide * 9.5 / 17, y + 20)
        self.assertEqual(self.at(), 9)

    def test_a_part_of_a_long_run(self) -> None:
        """The lanes show a window, which follows; the strip above it shows the run, and a click there goes to its row."""
        ran = run(given_schedule(Schedule.from_bytes((EXAMPLES / "site-of-19-threads.wants").read_bytes())))
        self.open(ran)
        last = last_shown(ran)
        x, y, wide, high = self.browser.box("#overview svg")
        self.browser.click(x + wide * 0.75, y + high / 2)
        self.assertEqual(self.at(), int(0.75 * (last + 1)))

        def window() -> list[int]:
            return [int(text) for text in self.browser.value("[...document.querySelectorAll('.axis text')].map((each) => each.textContent)")]

        self.assertLess(window()[0], self.at())
        self.assertGreater(window()[-1], self.at())
        self.assertLess(window()[-1] - window()[0], 100)
        self.browser.press("ArrowRight", times=60)
        self.assertLess(window()[0], self.at())
        self.assertGreater(window()[-1], self.at())
        before = window()
        self.browser.click_on("#wider")
        self.assertGreater(window()[-1] - window()[0], before[-1] - before[0])
        self.browser.click_on("#all")
        self.assertEqual(window()[0], 0)
        self.assertTrue(self.browser.value("document.getElementById('overview').hidden"))

    def test_link_to_a_row(self) -> None:
        ran = self.open_example("late-reader", "#row=11")
        self.assertEqual(self.at(), 12)
        self.assertEqual(self.browser.text("#text").encode(), sheet_of_first(ran, 12))
        self.browser.wait(lambda: bool(self.browser.value("document.title === 'late-reader, row 11'")), "the title names the row")
        self.browser.press("ArrowRight")
        self.browser.wait(lambda: bool(self.browser.value("location.hash === '#row=12'")), "the address names the row")
        self.assertEqual(self.browser.value("document.getElementById('link').getAttribute('href')"), "#row=12")
        for link, then in (("#row=0", 1), ("#row=15", 16), ("#row=9999", 16), ("#fresh", 0), ("#row=-1", 0), ("#row=x", 0), ("", 0)):
            self.browser.open(self.folder / "run.html", link)
            self.assertEqual(self.at(), then, link)

    def test_link_followed_while_stepping_rests(self) -> None:
        """The address is about to name the row stepped to when a link to another is followed: the link counts."""
        self.open_example("late-reader")
        self.browser.value("void (window.setTimeout = (kept) => (window.kept = kept, 0))")
        self.browser.press("ArrowRight")
        self.assertEqual(self.at(), 1)
        self.browser.value(
            """new Promise((done) => {
              addEventListener("hashchange", () => done(true), { once: true });
              location.hash = "#row=9";
              window.kept();
            })"""
        )
        self.browser.settle()
        self.assertEqual(self.at(), 10)
        self.browser.press("ArrowRight")
        self.assertEqual(self.browser.value("(window.kept(), location.hash)"), "#row=10")

    def test_refused_row(self) -> None:
        self.open_example("refused-row")
        self.browser.press("End")
        self.assertEqual(self.at(), 7)
        self.assertIn("refused with 7", self.browser.text("#said"))
        self.assertEqual(self.browser.text("#text").splitlines()[0], "answer 7 at 6")


class ForEveryone(Shown):
    def test_names_and_roles(self) -> None:
        """What a screen reader is told: every control and picture has a name, and the row is said in a live region."""
        self.open_example("late-reader", "#row=9")
        self.browser.call("Accessibility.enable")
        tree = [node for node in self.browser.call("Accessibility.getFullAXTree")["nodes"] if not node["ignored"]]
        self.browser.call("Accessibility.disable")

        def of(role: str) -> list[dict[str, Any]]:
            return [node for node in tree if node["role"]["value"] == role]

        for role, least in (("button", 11), ("slider", 1), ("spinbutton", 1), ("image", 2), ("link", 1), ("region", 3), ("rowheader", 3), ("columnheader", 4)):
            nodes = of(role)
            self.assertGreaterEqual(len(nodes), least, role)
            for node in nodes:
                self.assertTrue(node["name"]["value"].strip(), node)
        self.assertLessEqual({"Step through the run", "Failed swaps", "Hold-ups", "Rows shown"}, {node["name"]["value"] for node in of("group")})
        (status,) = of("status")
        properties = {each["name"]: each["value"]["value"] for each in status["properties"]}
        self.assertEqual((properties["live"], properties["atomic"]), ("polite", True))
        self.assertEqual(self.browser.value("document.getElementById('slider').getAttribute('aria-valuetext')"), "row 9")
        lock = next(node["name"]["value"] for node in of("image") if "Root" in node["name"]["value"])
        for said in ("Root: direct 1, tree 0, closed.", "No node is above 0.", "Mutex of thread 2, groups 0, writers 0.", "reading: 0.", "calling: 1, 2."):
            self.assertIn(said, lock)
        self.assertEqual(self.browser.value("document.documentElement.lang"), "en")
        self.assertEqual(self.browser.value("[...document.querySelectorAll('[id]')].map((each) => each.id).filter((id, i, all) => all.indexOf(id) !== i)"), [])

    def test_focus_is_seen_and_goes_round(self) -> None:
        """Tab reaches every control once, the list by one stop, and each shows that it has the focus."""
        self.open_example("late-reader", "#row=5")
        seen: list[str] = []
        for _ in range(40):
            self.browser.press("Tab")
            name, style, wide = self.browser.value(
                """((e, style) => [e.id || e.getAttribute("href") || e.localName, style.outlineStyle, parseFloat(style.outlineWidth)])(
                    document.activeElement, getComputedStyle(document.activeElement))"""
            )
            if name in seen or name == "body":
                break
            seen.append(name)
            self.assertEqual((style, wide >= 2), ("solid", True), name)
        for control in ("first", "back", "on", "last", "number", "slider", "link", "#row=5", "closer", "summary"):
            self.assertIn(control, seen)
        self.assertEqual(len([name for name in seen if name.startswith("#row")]), 1)

    def test_contrast(self) -> None:
        """Text has 4.5 to 1 against what is behind it, marks have 3 to 1, light and dark."""
        self.open_example("late-reader")
        text = (
            "ink paper", "ink card", "ink faint", "ink mark", "ink arrived", "ink calling-ground", "ink asleep-ground", "muted paper", "muted card",
            "muted faint", "muted arrived", "on-reading reading", "on-writing writing", "fail card", "fail faint", "card accent", "accent card",
            "card ink", "card fail",
        )  # fmt: skip
        for scheme in ("light", "dark"):
            self.browser.media(prefers_color_scheme=scheme)
            for pairs, least in ((text, 4.5), (("reading card", "writing card", "calling card", "asleep card", "accent card", "fail card"), 3.0)):
                for pair in pairs:
                    front, back = (self.colour(name) for name in pair.split())
                    self.assertGreaterEqual(contrast(front, back), least, f"{pair}, {scheme}")

    def test_colours_that_a_colour_blind_reader_can_tell(self) -> None:
        """The standings' swatches, as painted, differ in colour for each kind of colour blindness, and in shape or pattern without any colour."""
        self.open_example("late-reader")
        self.addCleanup(self.browser.call, "Emulation.setEmulatedVisionDeficiency", type="none")
        names = ("idle", "calling", "reading", "writing", "asleep")
        for scheme in ("light", "dark"):
            self.browser.media(prefers_color_scheme=scheme)
            for kind in ("none", "deuteranopia", "protanopia", "tritanopia", "achromatopsia"):
                self.browser.call("Emulation.setEmulatedVisionDeficiency", type=kind)
                self.browser.settle()
                swatches = {name: self.browser.colours(f".legend > span:nth-child({number})  svg") for number, name in enumerate(names, 1)}
                for one, other in combinations(names, 2):
                    # How far apart the swatches are, point by point: in colour, in shape, or in pattern.
                    apart = [distance(a, b) for a, b in zip(swatches[one], swatches[other])]
                    self.assertGreater(sum(each > 12 for each in apart) / len(apart), 0.06, (one, other, kind, scheme))
                    if kind not in ("achromatopsia",):
                        self.assertGreater(distance(mean(swatches[one]), mean(swatches[other])), 8, (one, other, kind, scheme))

    def test_no_motion_where_none_is_wanted(self) -> None:
        self.open_example("late-reader")
        # The page's clock is set by hand, so that how fast the machine is says nothing.
        self.browser.value("void (performance.now = () => window.clock)")

        def step(clock: int) -> str:
            self.browser.value(f"window.clock = {clock}")
            self.browser.press("ArrowRight")
            return str(self.browser.value("getComputedStyle(document.querySelector('.chip')).transitionDuration"))

        self.assertEqual(step(1_000_000), "0.16s")
        # Steps that follow fast do not wait for one another.
        self.assertEqual([step(1_000_100), step(1_000_200), step(1_000_600)], ["0s", "0s", "0.16s"])
        self.browser.media(prefers_reduced_motion="reduce")
        self.assertEqual(step(1_001_000), "0s")

    def test_lanes_are_level_with_their_threads(self) -> None:
        for ran in (examples()[0][1], largest_run()):
            self.open(ran)
            table, drawing, lane = self.browser.value(
                "['#threads', '#drawing', '#threads tbody tr'].map((each) => document.querySelector(each).getBoundingClientRect().height)"
            )
            self.assertEqual(table, drawing)
            self.assertEqual(lane, int(lane))

    def test_it_can_ask_for_nothing(self) -> None:
        """The page's policy stops what would go out, even if a script tried."""
        self.open_example("late-reader")
        said = self.browser.value("fetch('https://example.invalid/').then(() => 'sent', () => 'stopped')")
        self.assertEqual(said, "stopped")
        picture = """new Promise((done) => {
            const image = Object.assign(new Image(), { onload: () => done("sent"), onerror: () => done("stopped") });
            image.src = "https://example.invalid/a.png";
        })"""
        self.assertEqual(self.browser.value(picture), "stopped")
        script = "document.body.append(Object.assign(document.createElement('script'), { textContent: 'window.got = 1' })), window.got ?? 'stopped'"
        self.assertEqual(self.browser.value(script), "stopped")
        complaints = self.browser.complaints()
        self.assertEqual(len([each for each in complaints if "Content Security Policy" in each]), len(complaints))
        self.browser.forget()


# What is covered by something else, or runs together with it, within the window.
OVERLAPS = """(() => {
  const found = [], bar = document.getElementById("bar").getBoundingClientRect().bottom;
  const said = (element) => `${element.tagName} ${element.getAttribute("class") ?? ""} ${element.textContent.slice(0, 30)}`;
  const shownBox = (element) => {
    const box = element.getBoundingClientRect(), inner = element.closest("#states, #lanes, #list")?.getBoundingClientRect();
    const top = Math.max(box.top, bar, inner?.top ?? 0), bottom = Math.min(box.bottom, innerHeight, inner?.bottom ?? innerHeight);
    return element.checkVisibility() && box.width && bottom - top >= box.height * 0.9 && !element.closest(".away, .hidden") ? box : null;
  };
  // Each card is at its own place, and what stands in it is not covered by another.
  for (const element of document.querySelectorAll(".card h2, #list a span, #threads th, #threads td, .lock text, .zoom button, #text, dt, dd, .keys td")) {
    const box = shownBox(element);
    if (!box) continue;
    const hit = document.elementFromPoint(box.x + box.width / 2, box.y + box.height / 2);
    if (hit?.closest(".card") !== element.closest(".card")) found.push(`${said(element)} is under ${hit && said(hit)}`);
    if (box.right > innerWidth + 0.5 || box.left < -0.5) found.push(`${said(element)} is not in the window`);
  }
  for (const button of document.querySelectorAll("#bar button, #bar input")) {
    const box = button.getBoundingClientRect();
    if (box.right > innerWidth || box.left < 0) found.push(`${button.id} is not in the window`);
  }
  // Words and threads do not run together: in a lock, in the names of the threads' table, in the cells of the lanes.
  const apart = (elements) => {
    const boxes = elements.map((element) => [element, shownBox(element)]).filter(([, box]) => box);
    boxes.forEach(([one, a], i) => {
      for (const [other, b] of boxes.slice(i + 1)) {
        const wide = Math.min(a.right, b.right) - Math.max(a.left, b.left), high = Math.min(a.bottom, b.bottom) - Math.max(a.top, b.top);
        if (wide > 1 && high > 5) found.push(`${said(one)} and ${said(other)} run together`);
      }
    });
  };
  for (const lock of document.querySelectorAll(".lock svg")) apart([...lock.querySelectorAll(".label, .value, .title, .tag, .chip")].filter((text) => text.textContent));
  apart([...document.querySelectorAll("#threads .names th")].map((head) => [...head.childNodes].find((node) => node.nodeType === 3) ? head : head.querySelector("span")));
  apart([...document.querySelectorAll(".words text")]);
  apart([...document.querySelectorAll("#bar button, #bar input, .jump > span, #said span")]);
  return found;
})()"""


class OnEveryScreen(Shown):
    """A phone, a tablet, a laptop and a large screen, each scrolled through."""

    SCREENS = ((390, 844), (768, 1024), (900, 800), (1280, 800), (1920, 1080))

    def screens(self, ran: Run, rows: int) -> None:
        """Nothing covers anything else, whichever part of the page is in the window, and the picture is as wide as the window."""
        self.open(ran, f"#row={rows - 1}")
        for wide, high in self.SCREENS:
            self.browser.resize(wide, high)
            self.browser.settle()
            self.browser.settle()
            self.assertLessEqual(self.browser.value("document.documentElement.scrollWidth"), wide)
            scrolled = 0
            while True:
                self.browser.value(f"scrollTo(0, {scrolled})")
                self.browser.settle()
                where = f"{wide} x {high}, scrolled by {scrolled}"
                self.assertEqual(self.browser.value(OVERLAPS), [], where)
                self.painted(wide, high, where)
                if scrolled + high >= self.browser.value("document.documentElement.scrollHeight"):
                    break
                scrolled += high // 2

    def painted(self, wide: int, high: int, where: str) -> None:
        """What is seen: a picture of the window's size, with no lane's colour down the middle of the rows' list, where that is in the window."""
        picture = self.folder / "window.png"
        self.browser.picture(picture)
        self.assertEqual(struct.unpack(">II", picture.read_bytes()[16:24]), (wide, high), where)
        box = self.browser.value(
            """(({left, top, right, bottom}) => [left, Math.max(top, document.getElementById("bar").getBoundingClientRect().bottom), right, Math.min(bottom, innerHeight)])
               (document.getElementById("list").getBoundingClientRect())"""
        )
        left, top, right, bottom = box
        if bottom - top < 30:
            return
        # A clip is of the page, and not of the window.
        clip = {"x": (left + right) / 2, "y": top + 2 + self.browser.value("scrollY"), "width": 40, "height": bottom - top - 4, "scale": 1}
        points = read_png(base64.b64decode(self.browser.call("Page.captureScreenshot", format="png", clip=clip)["data"]))
        lanes = {self.colour(name) for name in ("calling-ground", "asleep-ground", "reading")}
        self.assertEqual(set(points) & lanes, set(), where)

    def test_examples(self) -> None:
        for name in ("late-reader", "two-locks", "colliding-readers"):
            ran = run(Schedule.from_bytes((EXAMPLES / f"{name}.schedule").read_bytes()))
            self.screens(ran, ran.sheet.taken)

    def test_site(self) -> None:
        self.screens(run(given_schedule(Schedule.from_bytes((EXAMPLES / "site-of-19-threads.wants").read_bytes()))), 401)

    def test_largest(self) -> None:
        self.screens(largest_run(), 2001)

    def test_two_large_locks_are_in_view_whole(self) -> None:
        """On a laptop nothing is scrolled within the locks: both are in the window, from the root to the last node."""
        self.open(largest_run(), "#row=2000")
        self.browser.resize(1280, 800)
        self.browser.settle()
        self.browser.settle()
        found = self.browser.value(
            """[...document.querySelectorAll(".lock svg")].map((svg) => {
              const box = svg.getBoundingClientRect(), boxed = [];
              for (let each = svg.parentElement; each !== document.body; each = each.parentElement) if (getComputedStyle(each).overflowY !== "visible") boxed.push(each.id);
              return [box.top >= document.getElementById("bar").getBoundingClientRect().bottom, box.bottom <= innerHeight, boxed, svg.querySelectorAll(".node").length];
            })"""
        )
        self.assertEqual(found, [[True, True, [], 31]] * 2)

    def test_row_and_lane_are_in_view(self) -> None:
        """On a laptop with two locks and 64 threads, wherever one goes: the row in the list, its thread's lane, and the word that it touched."""
        ran = largest_run()
        self.open(ran)
        self.browser.resize(1280, 800)
        self.browser.settle()
        rng = random.Random(3)
        for rows in (1, *(rng.randint(1, ran.sheet.taken) for _ in range(12)), ran.sheet.taken):
            self.sheets_at([rows])
            self.browser.settle()
            found = self.browser.value(
                """["#list a[aria-current]", "#threads tr.moved", ".ring:not(.away)"].map((each) => {
                     const element = document.querySelector(each);
                     if (!element) return "none";
                     const box = element.getBoundingClientRect(), view = (element.closest("#list, #lanes") ?? document.documentElement).getBoundingClientRect();
                     return box.top >= Math.max(0, view.top) - 0.5 && box.bottom <= Math.min(innerHeight, view.bottom) + 0.5;
                   })"""
            )
            touched = ran.journal[rows - 1].word % 64 != 33
            self.assertEqual(found, [True, True, True if touched else "none"], rows)


class OnPaper(Shown):
    def printed(self) -> tuple[str, list[Colour]]:
        """The text of the page as printed, and the points of its pages."""
        for tool in ("pdftotext", "pdftoppm"):
            self.assertIsNotNone(shutil.which(tool), f"{tool} is not installed (bindings/python/check installs it)")
        pdf = self.folder / "run.pdf"
        pdf.write_bytes(self.browser.printed())
        text = subprocess.run(["pdftotext", "-layout", pdf, "-"], capture_output=True, text=True, check=True).stdout
        pictures = subprocess.run(["pdftoppm", "-r", "60", pdf], capture_output=True, check=True).stdout
        points: list[Colour] = []
        while pictures:
            _, sizes, _, rest = pictures.split(b"\n", 3)
            wide, high = map(int, sizes.split())
            points += zip(rest[: 3 * wide * high : 3], rest[1 : 3 * wide * high : 3], rest[2 : 3 * wide * high : 3])
            pictures = rest[3 * wide * high :]
        return text, points

    def test_small(self) -> None:
        self.open_example("late-reader", "#row=14")
        text, points = self.printed()
        for said in (
            "late-reader", "Row 14", "swapped root to (1, 1, closed)", "direct", "tree", "flag", "closed", "node 1", "mutex", "thread 1 swaps", "asleep",
            "Root's count", "begins a write-lock",
        ):  # fmt: skip
            self.assertIn(said, text)
        for name, least in (("reading", 4000), ("writing", 500), ("accent", 500)):
            self.assertGreater(self.painted(points, name), least, name)
        self.assertLessEqual(text.count("\f"), 2)
        # The screen is as it was.
        self.assertFalse(self.browser.value("document.body.classList.contains('paper')"))
        self.assertEqual(self.at(), 15)

    def test_largest(self) -> None:
        """The lanes of all 64 threads over the whole run, on one sheet of paper, dark screen or not."""
        self.browser.media(prefers_color_scheme="dark")
        self.open(largest_run(), "#row=2000")
        text, points = self.printed()
        self.assertIn("Row 2000", text)
        pages = text.split("\f")
        lanes = [page for page in pages if "Root's count" in page or "root's count" in page]
        self.assertEqual(len(lanes), 1)
        for thread in range(64):
            self.assertRegex(lanes[0], rf"(?m)^ *{thread} +(idle|reading|writing|calling|asleep)\b")
        # The paper is white, and the lanes are on it.
        white = sum(point == (255, 255, 255) for point in points)
        self.assertTrue(0.3 < white / len(points) < 0.9, white / len(points))

    def painted(self, points: list[Colour], name: str) -> int:
        """How many points have this colour of the style."""
        wanted = self.colour(name)
        return sum(distance(point, wanted) < 6 for point in points)


def worked(browser: Browser) -> float:
    """Milliseconds of processor time that the page's own thread has taken since the page was opened."""
    found = {each["name"]: each["value"] for each in browser.call("Performance.getMetrics")["metrics"]}
    return 1000 * float(found["ThreadTime"])


def go_on(browser: Browser, steps: int) -> None:
    """Goes so many rows on from the first, each drawn in a frame of its own."""
    browser.value(
        """(async (steps) => {
          const frame = () => new Promise(requestAnimationFrame), on = document.getElementById("on");
          document.getElementById("first").click();
          await frame();
          for (let i = 0; i < steps; i++) {
            on.click();
            await frame();
          }
        })(%d)"""
        % steps
    )


class Quick(Shown):
    def test_largest(self) -> None:
        """64 threads, 32 nodes, 4,096 rows against the first 256 of them: opened in time that grows no faster than the rows,
        and a step costs no more. It is processor time, and both take turns in one browser, so that other work says nothing."""
        largest = largest_run()
        few = Schedule(largest.schedule.nodes, largest.schedule.fan, largest.schedule.threads, largest.schedule.rows[:256])
        pages = {"few.html": run(few, largest.till), "largest.html": largest}
        for name, ran in pages.items():
            (self.folder / name).write_text(page_of(ran, name))
        self.browser.call("Performance.enable", timeDomain="threadTicks")
        opened: dict[str, list[float]] = {name: [] for name in pages}
        steps: dict[str, list[float]] = {name: [] for name in pages}
        for _ in range(3):
            for name in pages:
                self.browser.open(self.folder / name)
                self.browser.settle()
                opened[name].append(worked(self.browser))
                go_on(self.browser, 200)
                self.assertEqual(self.at(), 200)
                steps[name].append(worked(self.browser) - opened[name][-1])
        self.assertLess(min(opened["largest.html"]), 16 * min(opened["few.html"]), opened)
        self.assertLess(min(steps["largest.html"]), 2 * min(steps["few.html"]), steps)

    def test_keys_pressed_fast(self) -> None:
        """As many keys as arrive in a frame are one drawing, and none is lost."""
        self.open(largest_run())
        self.browser.press("ArrowRight", times=300)
        self.assertEqual(self.at(), 300)


def contrast(one: Colour, other: Colour) -> float:
    """The contrast ratio of two colours, as the Web Content Accessibility Guidelines define it."""
    light, dark = sorted((luminance(one), luminance(other)), reverse=True)
    return (light + 0.05) / (dark + 0.05)


def linear(part: float) -> float:
    """A part of a colour, 0 to 255, as light."""
    share = part / 255
    return share / 12.92 if share <= 0.04045 else math.pow((share + 0.055) / 1.055, 2.4)


def luminance(colour: Colour) -> float:
    """The light of a colour."""
    red, green, blue = map(linear, colour)
    return 0.2126 * red + 0.7152 * green + 0.0722 * blue


def mean(points: Sequence[Colour]) -> Colour:
    """The mean colour of points."""
    red, green, blue = (sum(part) / len(points) for part in zip(*points))
    return (red, green, blue)


def distance(one: Colour, other: Colour) -> float:
    """How far apart two colours are to the eye (CIE 1976)."""
    return math.dist(lab(one), lab(other))


@lru_cache(1 << 16)
def lab(colour: Colour) -> tuple[float, float, float]:
    """A colour's lightness and its place between green and red, blue and yellow."""
    red, green, blue = map(linear, colour)
    x = (0.4124 * red + 0.3576 * green + 0.1805 * blue) / 0.9505
    y = 0.2126 * red + 0.7152 * green + 0.0722 * blue
    z = (0.0193 * red + 0.1192 * green + 0.9505 * blue) / 1.089
    fx, fy, fz = (part ** (1 / 3) if part > 0.008856 else 7.787 * part + 16 / 116 for part in (x, y, z))
    return (116 * fy - 16, 500 * (fx - fy), 200 * (fy - fz))


if __name__ == "__main__":
    unittest.main()
