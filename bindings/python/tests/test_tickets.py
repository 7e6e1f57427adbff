"""The ticket lock's trace and page: what each row did, from the library's sheets alone."""

from __future__ import annotations

import json
import random
import tempfile
import unittest
from itertools import pairwise
from pathlib import Path
from typing import Any

from lock_bench import Row, TicketSchedule, TicketSheet, load, notation, ticket, ticket_run
from lock_bench.page import ticket_data, write_ticket_page
from lock_bench.ticket_run import TicketRun

from .browser import Browser
from .support import EXAMPLES, bench, bench_here, example_files, needs
from .test_page import OVERLAPS


def drawn_tickets(rng: random.Random, rows: int) -> TicketSchedule:
    """Rows that are all taken, each drawn by what the library's sheet of the rows before it shows."""
    drawn = TicketSchedule(rng.randint(1, 6), rng.choice((0, 7, 0xFFFE, 0xFFFF)), ())
    orders = {"idle": ticket.TAKE, "near": ticket.COMPARE, "far": ticket.COMPARE, "holding": ticket.ADVANCE}
    while len(drawn.rows) < rows:
        thread = rng.randrange(drawn.threads)
        standing = TicketSheet.parse(load().ticket_sheet(drawn.to_bytes())).threads[thread]
        drawn = TicketSchedule(drawn.threads, drawn.start, (*drawn.rows, Row(thread, orders[standing])))
    return drawn


@needs("ticket_sheet")
class Trace(unittest.TestCase):
    def test_across_the_wrap(self) -> None:
        said = bench("trace", EXAMPLES / "across-the-wrap.tickets")
        self.assertEqual((said.status, said.err), (0, ""))
        self.assertEqual(
            said.out.splitlines()[1:],
            [
                "  0       0  take     takes ticket 65535                                        ticket: 65535 -> 0; thread 0: idle -> near",
                "  1       1  take     takes ticket 0                                            ticket: 0 -> 1; thread 1: idle -> near",
                "  2       2  take     takes ticket 1                                            ticket: 1 -> 2; thread 2: idle -> far",
                "  3       0  compare  compares ticket 65535 with the grant 65535: holds         thread 0: near -> holding",
                "answer 0 at 4",
            ],
        )
        self.assertEqual(bench_here("trace", EXAMPLES / "across-the-wrap.tickets.txt"), said)
        # By the argument, and by the word that a text begins with.
        self.assertEqual(bench("trace", "--ticket", "-", given=(EXAMPLES / "across-the-wrap.tickets").read_bytes()), said)
        self.assertEqual(bench_here("trace", "-e", (EXAMPLES / "across-the-wrap.tickets.txt").read_text()), said)

    def test_choosing_rows(self) -> None:
        path = EXAMPLES / "across-the-wrap.tickets"
        self.assertEqual([line.split()[0] for line in bench_here("trace", "--thread", 0, path).out.splitlines()], ["row", "0", "3", "answer"])
        self.assertEqual(bench_here("trace", "--from", 9, path).err, "bench: no rows selected (of 4)\n")

    def test_refused(self) -> None:
        said = bench_here("trace", EXAMPLES / "second-ticket.tickets").out.splitlines()
        self.assertEqual(said[-2].split(None, 3)[3], "refused with 7: the order does not suit the thread (thread 1 is near)")
        said = bench_here("trace", "-e", "tickets threads 2 5: take").out.splitlines()
        self.assertEqual(said[-2].split(None, 3)[3], "refused with 5: there is no such thread (T is 2)")
        self.assertEqual(bench_here("trace", "-e", "tickets threads 65 0: take"), (0, "answer 2 at 0: a size is out of range\n", "<text>: threads must be 1 to 64, not 65\n"))
        for arguments in (("--till", "a"), ("--dispatch",)):
            said_of = bench_here("trace", *arguments, EXAMPLES / "hand-over.tickets")
            self.assertEqual((said_of.status, said_of.err), (2, "bench: the ticket lock has no dispatcher and no till: --dispatch and --till are not for it\n"))

    def test_any_run(self) -> None:
        """What is said agrees with the sheets: the ticket that is compared is the one that was taken, and who holds has the grant's."""
        rng, holds = random.Random(21), 0
        for _ in range(20):
            ran = ticket_run.run(drawn_tickets(rng, 40))
            taken: dict[int, int | None] = {}
            for row, (said, changed), (before, after) in zip(ran.rows, ticket_run.rows_told(ran), pairwise(ran.states)):
                if row.order == ticket.TAKE:
                    taken[row.thread] = before.ticket
                    self.assertEqual(said, f"takes ticket {before.ticket}")
                elif row.order == ticket.ADVANCE:
                    self.assertEqual(said, f"advances the grant to {after.grant}")
                else:
                    is_held = after.threads[row.thread] == "holding"
                    self.assertEqual(taken[row.thread] == before.grant, is_held)
                    self.assertEqual(said, f"compares ticket {taken[row.thread]} with the grant {before.grant}: {'holds' if is_held else 'waits on'}")
                    holds += is_held
                self.assertEqual(changed == [], before.to_bytes().split(b"\n")[1:] == after.to_bytes().split(b"\n")[1:])
        self.assertGreater(holds, 50)


def text_of(fields: list[int], data: dict[str, Any]) -> bytes:
    """The sheet that a page's fields stand for."""
    answer, taken, number, grant, *threads = fields
    lines = [f"answer {answer} at {taken}", f"ticket {number}", f"grant {grant}"]
    lines += (f"thread {t} {data['standings'][standing]}" for t, standing in enumerate(threads[::2]))
    return "".join(f"{line}\n" for line in lines).encode()


def sheet_of_first(ran: TicketRun, rows: int) -> bytes:
    """The library's sheet of the first rows."""
    return load().ticket_sheet(ran.schedule.first(rows).to_bytes())


@needs("ticket_sheet")
class Page(unittest.TestCase):
    def test_changes_give_every_state(self) -> None:
        rng = random.Random(22)
        for schedule in (*(notation.parse_tickets(Path(f"{path}.txt").read_text()) for path in example_files("tickets")), *(drawn_tickets(rng, 30) for _ in range(10))):
            ran = ticket_run.run(schedule)
            data: dict[str, Any] = json.loads(json.dumps(ticket_data(ran, "a")))
            fields = data["start"]
            self.assertEqual(text_of(fields, data), sheet_of_first(ran, 0))
            for rows, change in enumerate(data["changes"], 1):
                for at in range(0, len(change), 2):
                    fields[change[at]] = change[at + 1]
                self.assertEqual(text_of(fields, data), sheet_of_first(ran, rows))
            self.assertEqual(len(data["changes"]), ran.sheet.taken + (ran.sheet.answer > 0))

    def test_in_a_browser(self) -> None:
        """Each state of each example, as the panel reads it back from what is drawn; and who holds or waits, in the order of the tickets."""
        with tempfile.TemporaryDirectory() as folder, Browser((1280, 800)) as browser:
            page = Path(folder) / "a.html"
            for path in example_files("tickets"):
                ran = ticket_run.run(TicketSchedule.from_bytes(path.read_bytes()))
                page.write_text(write_ticket_page(ran, path.stem))
                browser.open(page)
                last = ran.sheet.taken + (ran.sheet.answer > 0)
                for rows in range(last + 1):
                    self.assertEqual(browser.text("#text").encode(), sheet_of_first(ran, rows), f"{path.stem}, {rows}")
                    browser.press("ArrowRight")
                chips = browser.value(
                    """[...document.querySelectorAll(".chip:not(.away)")]
                         .map((chip) => [chip.getBoundingClientRect().x, Number(chip.querySelector("text").textContent), Number(chip.querySelector(".of").textContent)])
                         .sort(([one], [other]) => one - other).map(([, thread, number]) => [thread, number])"""
                )
                has = list(ticket_run.tickets(ran))[-1]
                grant = ran.sheet.grant or 0
                waiting = sorted(((number - grant) % 0x10000, thread, number) for thread, number in enumerate(has) if number is not None)
                self.assertEqual(chips, [[thread, number] for _, thread, number in waiting])
                for wide, high in ((390, 844), (768, 1024), (1280, 800), (1920, 1080)):
                    browser.resize(wide, high)
                    browser.settle()
                    browser.settle()
                    self.assertLessEqual(browser.value("document.documentElement.scrollWidth"), wide)
                    self.assertEqual(browser.value(OVERLAPS), [], f"{path.stem}, {wide} x {high}")
            self.assertEqual((browser.complaints(), browser.requests()), ([], []))

    def test_command(self) -> None:
        with tempfile.TemporaryDirectory() as folder:
            page = Path(folder) / "a.html"
            self.assertEqual(bench_here("page", EXAMPLES / "hand-over.tickets", "-o", page), (0, "", ""))
            self.assertIn('"machine":"tickets"', page.read_text())
            said = bench_here("page", "--ticket", EXAMPLES / "late-reader.schedule", "-o", page)
            self.assertEqual(said.status, 3)
            self.assertIn("nothing to step through: the file is refused with 3", said.err)
