"""The examples: their texts, and what their comments and the page about them say."""

from __future__ import annotations

import re
import unittest

from lock_bench import Row, Run, Schedule, TicketSchedule, TicketSheet, Till, load, notation, orders, run, states, trace

from .support import EXAMPLES, bench_here, example_files, needs

# The kinds of examples, by their names' ending, with the headings of their sections in examples/README.md.
KINDS = {"schedule": "## ", "calls": "### ", "wants": "#### ", "tickets": "##### ", "bookings": "###### "}


def dispatched(name: str) -> Run:
    """The run of the steps that the dispatcher gives for an example."""
    given = load().dispatch_sheet((EXAMPLES / f"{name}.wants").read_bytes())
    return run(Schedule.from_bytes(given.schedule))


def did(ran: Run) -> list[str]:
    """What the rows of a run did, in words."""
    return list(trace.descriptions(ran, states(ran.schedule, ran.till)))


def failures(ran: Run) -> int:
    return sum(thread.failures for thread in ran.sheet.locks[0].threads)


class Texts(unittest.TestCase):
    def test_each_file_has_its_text(self) -> None:
        files = [path for kind in (*KINDS, "till") for path in example_files(kind)]
        self.assertEqual(sorted(f"{path.name}.txt" for path in files), sorted(path.name for path in EXAMPLES.glob("*.txt")))
        self.assertGreater(len(files), 20)
        for path in files:
            text = (EXAMPLES / f"{path.name}.txt").read_text()
            self.assertEqual(notation.parse_any(text, f"{path.name}.txt").to_bytes(), path.read_bytes())

    def test_each_text_says_what_to_look_for(self) -> None:
        for path in EXAMPLES.glob("*.txt"):
            if not path.name.endswith(".till.txt"):
                self.assertIn("\n# Look for: ", path.read_text(), path.name)


class Page(unittest.TestCase):
    """examples/README.md shows the sheets that the library prints."""

    def shown(self, kind: str) -> dict[str, str]:
        """The examples of a kind that the page shows, with their sheets."""
        sections = (EXAMPLES / "README.md").read_text().split(f"\n{KINDS[kind]}")[1:]
        shown = {}
        for section in sections:
            name, rest = section.split("\n", 1)
            block = re.search(r"```\n(.*?)```", rest, re.DOTALL)
            assert block is not None, name
            shown[name] = block[1]
        self.assertGreater(len(shown), 0, kind)
        self.assertEqual(sorted(shown), sorted(path.stem for path in example_files(kind)), kind)
        return shown

    def check(self, kind: str, command: str) -> None:
        for name, sheet in self.shown(kind).items():
            till = ["--till", EXAMPLES / f"{name}.till"] if kind == "bookings" else []
            said = bench_here(command, *till, EXAMPLES / f"{name}.{kind}")
            # Of wanted calls the refused one is named beside the sheet.
            named = 1 if kind == "wants" and not sheet.startswith("answer 0 ") else 0
            self.assertEqual((said.status, said.out, said.err.count("\n")), (0, sheet, named))

    def test_rows_shown(self) -> None:
        """The rows that the page shows, in document 01's notation, are the file's."""
        for kind in ("schedule", "calls", "wants", "bookings"):
            sections = (EXAMPLES / "README.md").read_text().split(f"\n{KINDS[kind]}")[1:]
            for section in sections:
                name = section.split("\n", 1)[0]
                shown = re.search(r"(N = \d+, F = \d+, T = \d+); (?:rows|calls):\n\n((?:    .*\n)+)", section)
                assert shown is not None, name
                self.assertEqual(notation.parse(f"{shown[1]}: {shown[2]}").to_bytes(), (EXAMPLES / f"{name}.{kind}").read_bytes(), name)
        for section in (EXAMPLES / "README.md").read_text().split(f"\n{KINDS['tickets']}")[1:]:
            name = section.split("\n", 1)[0]
            shown = re.search(r"T = (\d+), start ([\d,]+); rows:\n\n((?:    .*\n)+)", section)
            assert shown is not None, name
            text = f"tickets threads {shown[1]} start {shown[2].replace(',', '')} {shown[3]}"
            self.assertEqual(notation.parse_any(text, name).to_bytes(), (EXAMPLES / f"{name}.tickets").read_bytes(), name)

    def test_schedules(self) -> None:
        self.check("schedule", "sheet")

    def test_calls(self) -> None:
        self.check("calls", "plain")

    def test_wants(self) -> None:
        self.check("wants", "dispatch")

    @needs("credit_sheet")
    def test_bookings(self) -> None:
        self.check("bookings", "sheet")

    @needs("ticket_sheet")
    def test_tickets(self) -> None:
        self.check("tickets", "ticket")


class WhatToLookFor(unittest.TestCase):
    """What the comments of the texts say is so."""

    def test_convoy_of_writers(self) -> None:
        ran = dispatched("convoy-of-writers")
        rows = did(ran)
        self.assertEqual(rows[9:12], ["swap of root failed: (0, 0, open), found (0, 0, closed)"] * 3)
        held_up = {ran.schedule.rows[i].thread for i in range(13, 43) if rows[i].startswith("held up at the mutex")}
        self.assertEqual(held_up, {0, 2, 3})
        self.assertEqual({i: row for i, row in enumerate(rows) if row.startswith("wakes")}, {46: "wakes 1", 51: "wakes 2", 56: "wakes 3"})
        closed = [i for i, sheet in enumerate(states(ran.schedule)) if sheet.locks[0].root.closed]
        # State i is the one after the first i rows: closed from row 8 on, until row 60 opens it.
        self.assertEqual(closed, list(range(9, 61)))

    def test_shapes(self) -> None:
        flat, deep, between = (dispatched(f"shape-{shape}") for shape in ("too-flat", "too-deep", "between"))
        self.assertEqual((len(flat.journal), failures(flat)), (428, 164))
        self.assertEqual((len(deep.journal), failures(deep)), (464, 80))
        self.assertEqual((len(between.journal), failures(between)), (345, 61))
        wants = [Schedule.from_bytes((EXAMPLES / f"shape-{shape}.wants").read_bytes()) for shape in ("too-flat", "too-deep", "between")]
        self.assertEqual(len({want.rows for want in wants}), 1)
        self.assertEqual([(want.nodes, want.fan) for want in wants], [(9, 8), (9, 1), (9, 3)])

    def test_writer_and_reader(self) -> None:
        ran = dispatched("writer-and-reader")
        rows = did(ran)
        self.assertEqual(rows[5], "swap of root failed: (0, 0, open), found (0, 0, closed)")
        self.assertEqual([i for i, row in enumerate(rows) if row.startswith("held up")], [8, 10, 12])
        self.assertEqual({ran.schedule.rows[i].thread for i in range(14, 19)}, {0})
        self.assertEqual(rows[18], "wakes 1")

    def test_rows_named_in_schedules(self) -> None:
        for name, row, said in (
            ("worked-example", 2, "read node 1 (0)"),
            ("worked-example", 3, "read root (0, 0, open)"),
            ("worked-example", 4, "swapped root to (0, 1, open)"),
            ("worked-example", 5, "swapped node 1 to 1"),
            ("late-reader", 4, "read root (1, 0, open)"),
            ("late-reader", 9, "swapped root to (1, 0, closed)"),
            ("late-reader", 14, "swapped root to (1, 1, closed)"),
            ("hand-over-with-writer-queued", 17, "took the readers from the queue"),
            ("hand-over-with-writer-queued", 18, "stored root (1, 0, closed)"),
            ("colliding-readers", 5, "swap of root failed: (0, 0, open), found (1, 0, open)"),
            ("colliding-readers", 6, "swapped root to (2, 0, open)"),
            ("upgrade-granted", 4, "read root (1, 0, open)"),
            ("upgrade-granted", 5, "swapped root to (0, 0, closed)"),
            ("upgrade-denied-by-a-read", 7, "read root (2, 0, open): upgrade denied"),
            ("upgrade-denied-by-a-swap", 8, "swap of root failed: (1, 0, open), found (2, 0, open): upgrade denied"),
            ("upgrade-with-a-node", 8, "swapped root to (1, 1, open)"),
            ("upgrade-with-a-node", 9, "read node 1 (1)"),
            ("upgrade-with-a-node", 12, "swapped root to (1, 0, open)"),
            ("upgrade-with-a-node", 13, "read root (1, 0, open)"),
            ("downgrade-alone", 5, "found the queue empty"),
            ("downgrade-alone", 6, "stored root (1, 0, open)"),
            ("downgrade-with-sleepers", 12, "stored root (2, 0, open)"),
            ("downgrade-with-sleepers", 14, "wakes 1"),
            ("downgrade-with-a-writer-queued", 12, "stored root (1, 0, closed)"),
            ("upgrade-and-back", 2, "swapped root to (1, 0, open)"),
            ("upgrade-and-back", 9, "stored root (1, 0, open)"),
            ("crossed-locks", 2, "swapped root to (0, 0, closed)"),
            ("crossed-locks", 5, "second lock: swapped root to (0, 0, closed)"),
            ("crossed-locks", 11, "second lock: released the mutex, and sleeps"),
            ("crossed-locks", 17, "released the mutex, and sleeps"),
            ("two-locks", 12, "second lock: released the mutex, and sleeps"),
            ("two-locks", 19, "second lock: wakes 1"),
        ):
            schedule = Schedule.from_bytes((EXAMPLES / f"{name}.schedule").read_bytes())
            self.assertEqual(did(run(schedule))[row], said, f"{name}, row {row}")

    def test_two_locks(self) -> None:
        after = list(states(Schedule.from_bytes((EXAMPLES / "two-locks.schedule").read_bytes())))
        self.assertEqual([lock.threads[0].standing for lock in after[6].locks], ["writing", "reading"])
        self.assertEqual({sheet.locks[0] for sheet in after[3:]}, {after[3].locks[0]})

    @needs("ticket_sheet")
    def test_tickets(self) -> None:
        """The threads' standings after each row, as far as the texts tell of them."""
        for name, row, standings in (
            ("hand-over", 3, ("holding", "near")),
            ("hand-over", 4, ("idle", "near")),
            ("hand-over", 5, ("idle", "holding")),
            ("across-the-wrap", 3, ("holding", "near", "far")),
            ("second-ticket", 1, ("near", "near")),
        ):
            tickets = TicketSchedule.from_bytes((EXAMPLES / f"{name}.tickets").read_bytes())
            first = TicketSchedule(tickets.threads, tickets.start, tickets.rows[: row + 1])
            sheet = TicketSheet.parse(load().ticket_sheet(first.to_bytes()))
            self.assertEqual((sheet.answer, sheet.threads), (0, standings), f"{name}, row {row}")

    @needs("credit_sheet")
    def test_one_song_charged_once(self) -> None:
        schedule = Schedule.from_bytes((EXAMPLES / "one-song-charged-once.bookings").read_bytes())
        till = Till.from_bytes((EXAMPLES / "one-song-charged-once.till").read_bytes())
        ran = run(schedule, till)
        rows, balances = did(ran), [sheet.rooms for sheet in states(schedule, till)]
        # The balances before each row and after the last.
        for row, said, before, after in (
            (3, "booked entry 0", (0, 0), (5, 0)),
            (4, "booked entry 1", (5, 0), (3, 0)),
            (10, "released the mutex, and sleeps", (3, 0), (3, 0)),
            (15, "wakes 1", (3, 0), (3, 0)),
            (16, "repeated entry 1, booked before", (3, 0), (3, 0)),
            (17, "denied entry 2: its room's balance would fall below 0", (3, 0), (3, 0)),
            (18, "booked entry 3", (3, 0), (3, 2)),
            (19, "booked entry 2", (3, 2), (3, 0)),
        ):
            self.assertEqual((rows[row], balances[row], balances[row + 1]), (said, before, after), f"row {row}")
        self.assertEqual([(entry.kind, entry.word) for entry in ran.journal[16:]], [(12, 33), (13, 33), (11, 33), (11, 33)])
        # Both threads booked the song, and wrote when they did.
        self.assertEqual([(i, row.thread) for i, row in enumerate(schedule.rows) if row.order == orders.BOOK + 1], [(4, 0), (16, 1)])
        self.assertEqual(ran.sheet.rooms, (3, 0))

    @needs("credit_sheet")
    def test_one_song_as_two_entries(self) -> None:
        """It is the entry that is charged once: where the song is in the till twice, each thread's entry is booked."""
        schedule = Schedule.from_bytes((EXAMPLES / "one-song-charged-once.bookings").read_bytes())
        till = Till.from_bytes((EXAMPLES / "one-song-charged-once.till").read_bytes())
        twice = Till(till.rooms, (*till.entries, till.entries[1]))
        rows = tuple(Row(row.thread, orders.BOOK + 4) if i == 16 else row for i, row in enumerate(schedule.rows))
        self.assertEqual(run(Schedule(schedule.nodes, schedule.fan, schedule.threads, rows), twice).sheet.rooms, (1, 0))
