"""Texts: read, printed, and damaged."""

from __future__ import annotations

import random
import unittest

from lock_bench import NotationError, Row, Schedule, TicketSchedule, Till, TillEntry, load, notation, run

from .support import EXAMPLES, any_schedule, any_till, drawn_schedule, wanted_calls


def rows(*turns: tuple[int, list[int]]) -> tuple[Row, ...]:
    return tuple(Row(thread, order) for thread, orders in turns for order in orders)


class Reading(unittest.TestCase):
    def test_document_01(self) -> None:
        """Document 01's own notation, with its sizes."""
        self.assertEqual(notation.parse("0:64,0,0 1:65"), Schedule(1, 1, 1, rows((0, [64, 0, 0]), (1, [65]))))
        late = rows((0, [64, 0, 0]), (1, [65, 0]), (2, [1, 0, 0, 0, 0, 0, 0]), (1, [0, 0, 0, 0]))
        self.assertEqual(notation.parse("N = 2, F = 1, T = 3: 0:64,0,0 1:65,0 2:1,0,0,0,0,0,0 1:0,0,0,0"), Schedule(2, 1, 3, late))
        self.assertEqual(notation.parse("T = 2: 0:64 1:64 0:0 1:0 0:0 1:0").threads, 2)

    def test_words(self) -> None:
        text = """
            nodes 7 fan 2       # two sizes on a line
            threads 19
            1: read 3, go*4
            2: write            # a comment
            2: unlock , upgrade,downgrade, book 5
            3: write second, read 3 second, unlock second, upgrade second, downgrade second
            4: order 200, 5 * 2, (read 1, go*2) * 2,
               unlock           # a turn goes on behind its comma
        """
        expected = rows(
            (1, [67, 0, 0, 0, 0]), (2, [1]), (2, [2, 3, 4, 101]), (3, [129, 195, 130, 131, 132]), (4, [200, 5, 5, 65, 0, 0, 65, 0, 0, 2]),
        )  # fmt: skip
        self.assertEqual(notation.parse(text), Schedule(7, 2, 19, expected))

    def test_sizes_not_named(self) -> None:
        self.assertEqual(notation.parse(""), Schedule(1, 1, 1, ()))
        self.assertEqual(notation.parse("# nothing"), Schedule(1, 1, 1, ()))
        self.assertEqual(notation.parse("schedule fan 3"), Schedule(1, 3, 1, ()))
        self.assertEqual(notation.parse_tickets("tickets"), TicketSchedule(1, 0, ()))
        self.assertEqual(notation.parse_till("till"), Till(1, ()))

    def test_line_ends_and_marks_of_other_systems(self) -> None:
        self.assertEqual(notation.parse("\ufeffthreads 2\r\n0: go\r\n"), Schedule(1, 1, 2, rows((0, [0]))))

    def test_what_the_bench_refuses_can_be_written(self) -> None:
        self.assertEqual(notation.parse("nodes 0 fan 255 threads 65 255: 255"), Schedule(0, 255, 65, rows((255, [255]))))

    def test_tickets(self) -> None:
        text = "tickets threads 2 start 65535 0: take, compare*2, advance 1: 1, order 9"
        self.assertEqual(notation.parse_tickets(text), TicketSchedule(2, 65535, rows((0, [1, 0, 0, 2]), (1, [1, 9]))))

    def test_till(self) -> None:
        text = "till rooms 2 0: room 1, +20 1: room 0 -3 2: room 1, 7 3: room 9 -32768"
        self.assertEqual(notation.parse_till(text), Till(2, (TillEntry(1, 20), TillEntry(0, -3), TillEntry(1, 7), TillEntry(9, -32768))))

    def test_kind_by_its_word(self) -> None:
        self.assertIsInstance(notation.parse_any("# a comment first\ntill rooms 3"), Till)
        self.assertIsInstance(notation.parse_any("tickets"), TicketSchedule)
        self.assertIsInstance(notation.parse_any("schedule"), Schedule)
        self.assertIsInstance(notation.parse_any("0: go"), Schedule)

    def test_guide(self) -> None:
        """The guide's own examples are texts, and the schedule runs to its end."""
        blocks = notation.GUIDE.split("\n\n")
        schedule = notation.parse(next(block for block in blocks if "nodes 2" in block))
        self.assertEqual((run(schedule).sheet.answer, run(schedule).sheet.taken), (0, len(schedule.rows)))
        tickets, till = zip(*((line[:40], line[40:]) for line in next(block for block in blocks if "start 65535" in block).splitlines()))
        self.assertEqual(len(notation.parse_tickets("\n".join(tickets)).rows), 5)
        self.assertEqual(notation.parse_till("\n".join(till)), Till(2, (TillEntry(1, 20), TillEntry(1, -3))))


class Printing(unittest.TestCase):
    def test_schedule(self) -> None:
        schedule = Schedule(2, 1, 3, rows((0, [64, 0, 0]), (1, [195, 5]), (0, [1])))
        self.assertEqual(notation.print_schedule(schedule), "nodes 2\nfan 1\nthreads 3\n0: read 0, go*2\n1: read 3 second, order 5\n0: write\n")
        self.assertEqual(notation.print_schedule(schedule, numbers=True), "N = 2, F = 1, T = 3:\n0:64,0,0 1:195,5 0:1\n")

    def test_tickets_and_till(self) -> None:
        tickets = TicketSchedule(2, 9, rows((0, [1, 0, 0, 2, 3])))
        self.assertEqual(notation.print_any(tickets), "tickets\nthreads 2\nstart 9\n0: take, compare*2, advance, order 3\n")
        till = Till(2, (TillEntry(1, 20), TillEntry(0, -3), TillEntry(0, 0)))
        self.assertEqual(notation.print_any(till), "till\nrooms 2\n0: room 1, +20\n1: room 0, -3\n2: room 0, +0\n")

    def test_lines_are_not_long(self) -> None:
        schedule = Schedule(32, 1, 1, tuple(Row(0, 64 + n % 32) for n in range(1000)))
        for numbers in (False, True):
            text = notation.print_schedule(schedule, numbers)
            self.assertEqual(notation.parse(text), schedule)
            self.assertLessEqual(max(map(len, text.splitlines())), 110)

    def test_every_schedule_comes_back(self) -> None:
        rng = random.Random(20)
        drawn = [drawn_schedule(rng, 60) for _ in range(20)]
        given = [Schedule.from_bytes(load().dispatch_sheet(wanted_calls(rng, 100).to_bytes()).schedule) for _ in range(10)]
        for schedule in (*(any_schedule(rng, 200) for _ in range(500)), *drawn, *given):
            for numbers in (False, True):
                self.assertEqual(notation.parse(notation.print_schedule(schedule, numbers)).to_bytes(), schedule.to_bytes())

    def test_every_order_and_size_comes_back(self) -> None:
        schedule = Schedule(0, 255, 128, tuple(Row(order, order) for order in range(256)))
        self.assertEqual(notation.parse(notation.print_schedule(schedule)), schedule)
        self.assertEqual(notation.parse(notation.print_schedule(schedule, numbers=True)), schedule)

    def test_longest_schedule_comes_back(self) -> None:
        for schedule in (Schedule(1, 1, 1, (Row(0, 0),) * 65535), Schedule(1, 1, 1, (Row(0, 0), Row(1, 1)) * 32767)):
            self.assertEqual(notation.parse(notation.print_schedule(schedule)), schedule)

    def test_every_file_of_tickets_and_till_comes_back(self) -> None:
        rng = random.Random(21)
        for _ in range(500):
            tickets = TicketSchedule(rng.randrange(256), rng.randrange(65536), any_schedule(rng).rows)
            self.assertEqual(notation.parse_any(notation.print_any(tickets)).to_bytes(), tickets.to_bytes())
            till = any_till(rng)
            self.assertEqual(notation.parse_any(notation.print_any(till)).to_bytes(), till.to_bytes())


class Wrong(unittest.TestCase):
    def test_messages_and_places(self) -> None:
        for text, place, message in (
            ("0: raed 3", "1:4", "unknown order 'raed'; did you mean 'read'?"),
            ("0: xyzzy", "1:4", "unknown order 'xyzzy'"),
            ("nodez 3", "1:1", "unknown size 'nodez'; did you mean 'nodes'?"),
            ("nodes 300", "1:7", "nodes must be 1 to 32, not 300"),
            ("threads 300", "1:9", "threads must be 1 to 64, not 300"),
            ("nodes", "1:6", "expected a number (nodes), found the end of the text"),
            ("nodes 2\nfan 1\nnodes 3", "3:1", "'nodes' is given twice"),
            ("N = 2\nnodes 3", "2:1", "'nodes' is given twice"),
            ("0: go\n  nodes 3", "2:3", "the size 'nodes' must come before the rows"),
            ("0: read 32", "1:9", "node must be 0 to 31, not 32"),
            ("0: book 32", "1:9", "entry must be 0 to 31, not 32"),
            ("0: read", "1:4", "'read' needs the number of its node, such as 'read 0'"),
            ("0: read 1: go", "1:4", "'read' needs the number of its node, such as 'read 0'"),
            ("0: go second", "1:7", "the second lock has no order 'go'"),
            ("0: book 3 second", "1:11", "the second lock has no order 'book'"),
            ("0: 1 second", "1:6", "expected a thread with its colon, such as '0:', found 'second'"),
            ("0: order 256", "1:10", "order must be 0 to 255, not 256"),
            ("0: 256", "1:4", "order must be 0 to 255, not 256"),
            ("300: go", "1:1", "thread must be 0 to 255, not 300"),
            ("0: go*0", "1:7", "repetition must be 1 to 65535, not 0"),
            ("0: go*", "1:7", "expected a number (repetition), found the end of the text"),
            ("0: go*" + "9" * 5000, "1:7", "repetition must be 1 to 65535, not 999999999.."),
            ("0: go*65535,\n go", "2:4", "too many rows: a file holds 65535 at most"),
            ("0: (go*65535)*65535", "1:14", "too many rows: a file holds 65535 at most"),
            ("0: go go", "1:7", "expected a comma, or a thread with its colon, before 'go'"),
            ("0: 64 0", "1:7", "expected a comma, or a thread with its colon, before '0'"),
            ("0: (go", "1:7", "expected a comma or ')', found the end of the text"),
            ("0: " + "(" * 5000, "1:5", "expected an order, found '('"),
            ("0: ,", "1:4", "expected an order, found ','"),
            ("0:", "1:3", "expected an order, found the end of the text"),
            ("0: # go\n#\n", "3:1", "expected an order, found the end of the text"),
            ("0", "1:1", "expected a thread with its colon, such as '0:', found '0'"),
            ("0: go §", "1:7", "unexpected '§'"),
            ("0: go\n\x00", "2:1", "unexpected character 0x0"),
            ("0: gö", "1:5", "unexpected 'ö'"),
            ("tickets\nstart 65536", "2:7", "start must be 0 to 65535, not 65536"),
            ("tickets nodes 3", "1:9", "unknown size 'nodes'"),
            ("tickets 0: read 3", "1:12", "unknown order 'read'"),
            ("tickets 0: advnace", "1:12", "unknown order 'advnace'; did you mean 'advance'?"),
            ("tickets 0: take second", "1:17", "the second lock has no order 'take'"),
            ("till\nrooms 2\n1: room 0, 3", "3:1", "expected entry 0: entries are numbered from 0, in order"),
            ("till 0: 3", "1:9", "expected 'room', found '3'"),
            ("till 0: room 0", "1:15", "expected a number (amount), found the end of the text"),
            ("till 0: room 0, -32769", "1:18", "amount must be 0 to 32768, not 32769"),
            ("till 0: room 0, 32768", "1:17", "amount must be 0 to 32767, not 32768"),
            ("till go", "1:6", "unknown size 'go'"),
            ("till room 3", "1:6", "expected the number of an entry with a colon, such as '0:', found 'room'"),
            ("nodes 2\nread 1", "2:1", "expected a thread with its colon, such as '0:', found 'read'"),
            ("till 0: room 0, 3 go", "1:19", "expected the number of an entry with a colon, such as '1:', found 'go'"),
        ):
            with self.assertRaises(NotationError, msg=text[:40]) as raised:
                notation.parse_any(text, "a.txt")
            self.assertEqual(str(raised.exception), f"a.txt:{place}: {message}")

    def test_text_of_another_kind(self) -> None:
        for parse, text, message in (
            (notation.parse, "till", "this is the text of a till; expected that of a schedule"),
            (notation.parse_till, "0: go", "expected 'till', with which the text of a till begins, found '0'"),
            (notation.parse_tickets, "schedule", "this is the text of a schedule; expected that of a file of the ticket lock"),
            (notation.parse_tickets, "", "expected 'tickets', with which the text of a file of the ticket lock begins, found the end of the text"),
        ):
            with self.assertRaises(NotationError) as raised:
                parse(text)
            self.assertEqual(str(raised.exception), f"<text>:1:1: {message}")

    def test_bytes_that_are_no_text(self) -> None:
        self.assertEqual(notation.decoded("0: gö".encode(), "a.txt"), "0: gö")
        with self.assertRaises(NotationError) as raised:
            notation.decoded("0: go\nö".encode() + b"\xff", "a.txt")
        self.assertEqual(str(raised.exception), "a.txt:2:2: byte ff is not UTF-8")


PIECES = [*"0123456789:,*=()+-#\n\t .§\x00\ufeff", "go", "read", "second", "order", "nodes", "room", "tickets", "till", "N", "999999999999", "go*65535", "\r\n"]


def damaged(rng: random.Random, text: str) -> str:
    """A text that is changed in a few places: pieces lost, doubled, put in, swapped; or cut off."""
    for _ in range(rng.randint(1, 4)):
        a, b = sorted(rng.randrange(len(text) + 1) for _ in range(2))
        b = min(b, a + rng.choice((1, 1, 2, 5, 40)))
        match rng.randrange(5):
            case 0:
                text = text[:a] + text[b:]
            case 1:
                text = text[:b] + text[a:]
            case 2:
                text = text[:a] + rng.choice(PIECES) + text[a:]
            case 3:
                text = text[:a] + rng.choice(PIECES) + text[b:]
            case _:
                text = text[:a] if rng.random() < 0.2 else text[:a] + text[a:b][::-1] + text[b:]
    return text


class Damaged(unittest.TestCase):
    def test_any_damage_is_named_or_is_another_text(self) -> None:
        rng = random.Random(22)
        texts = [path.read_text() for path in sorted(EXAMPLES.glob("*.txt"))]
        texts += [notation.print_schedule(drawn_schedule(rng, 40)), notation.print_schedule(any_schedule(rng)), notation.print_till(any_till(rng))]
        self.assertGreater(len(texts), 20)
        refused = 0
        for _ in range(8_000):
            text = damaged(rng, rng.choice(texts))
            try:
                document = notation.parse_any(text, "d.txt")
            except NotationError as error:
                refused += 1
                self.assertRegex(str(error), r"^d\.txt:[0-9]+:[0-9]+: .")
                lines = text.split("\n")
                self.assertLessEqual(error.line, len(lines))
                self.assertLessEqual(error.column, len(lines[error.line - 1]) + 1)
            else:
                self.assertEqual(notation.parse_any(notation.print_any(document)).to_bytes(), document.to_bytes())
        self.assertGreater(refused, 2_000)
        self.assertLess(refused, 7_500)
