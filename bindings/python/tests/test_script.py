"""Texts that say what is meant: ``go until``, ``expect``; refused rows by their place; ``--strict``."""

from __future__ import annotations

import random
import re
import subprocess
import time
import unittest

from lock_bench import NotationError, Schedule, load, notation, orders, run, states

from .support import BENCH, EXAMPLES, bench, bench_here, bench_in_terminal, environment, needs
from .test_command import InFolder
from .test_notation import damaged

HAND_OVER = """\
nodes 2
threads 3
0: write, go until done
1: read 1, go until asleep
2: write, go until asleep
expect thread 0 writing and queue groups = 2 and root closed
0: unlock, go until (root = 1)
expect thread 1 asleep
0: go until idle
expect thread 1 reading by 0 and root closed
1: unlock, go until done
expect thread 2 writing
"""


class Places(unittest.TestCase):
    def test_places_of_many_rows(self) -> None:
        """Lines and columns are those of each place by itself, in whatever order they are asked; a long text has all of them in one go."""
        text = "threads 2\n" + "\n\n".join(" ".join(["0: go, go*2 1: write"] * count) for count in range(30))
        script = notation.parse_script(text, "long")
        places = [item.place for item in script.items]
        self.assertEqual(len(places), 4 * sum(range(30)))
        for asked in (places, places[::-1], places[700:701]):
            due = {place: f"long:{text.count(chr(10), 0, place) + 1}:{place - text.rfind(chr(10), 0, place)}" for place in asked}
            self.assertEqual(script.wheres(asked), due)
        begun = time.process_time()
        self.assertEqual(len(notation.parse_script(f"threads 2 {'0: go 1: write ' * 32000}").read().places), 64000)
        self.assertLess(time.process_time() - begun, 6)


class GoUntil(unittest.TestCase):
    def test_rows_are_counted(self) -> None:
        for text, same in (
            ("0: write, go until done", "0: write, go*2"),
            ("0: write, go until writing, unlock, go until idle", "0: write, go*2, unlock, go*4"),
            ("nodes 3 fan 2 0: read 2, go until reading", "nodes 3 fan 2 0: read 2, go*5"),
            ("0: (read 0, go until done, unlock, go until done)*3", "0: (read 0, go*2, unlock, go*2)*3"),
            ("threads 2 0: write, go*2 1: read 0, go until asleep", "threads 2 0: write, go*2 1: read 0, go*5"),
            ("threads 2 0: write second, go until done, read 0, go until reading", "threads 2 0: write second, go*2, read 0, go*2"),
            ("threads 2 0: write, go*2 1: write second, go until writing", "threads 2 0: write, go*2 1: write second, go*2"),
            ("threads 2 0: write, go*2, unlock, go 1: write, go until (held up by 1)", "threads 2 0: write, go*2, unlock, go 1: write, go*2"),
            ("0: go until done", ""),
            ("threads 2 0: write, go until (root closed), unlock, go until (root open)", "threads 2 0: write, go*2, unlock, go*3"),
        ):
            self.assertEqual(notation.parse(text).rows, notation.parse(same).rows, text)

    def test_the_standing_is_there_at_the_last_row_and_not_before(self) -> None:
        read = notation.parse_script(HAND_OVER).read()
        self.assertEqual(read.unmet, ())
        after = list(states(read.schedule))
        self.assertEqual([sheet.locks[0].threads[0].standing for sheet in after[:4]], ["idle", "calling", "calling", "writing"])
        self.assertEqual(run(read.schedule).sheet.answer, 0)

    def test_what_does_not_come(self) -> None:
        for text, place, why in (
            ("0: write, go until asleep", "1:11", "never reached 'asleep': the call of thread 0 is over, after 2 rows of 'go'"),
            ("threads 2 0: write, go*2\n1: read 0, go until done", "2:12", "never reached 'done': thread 1 is asleep, after 5 rows of 'go'"),
            ("threads 2 0: write, go*2, unlock, go 1: write, go until asleep", "1:48", "never reached 'asleep': thread 1 is held up at the mutex that thread 0 has, after 1 row of 'go'"),
            ("0: go, go until done", "1:8", "row 0 (t:1:4) is refused with 7, so the rows of 'go until' cannot be counted"),
            ("3: go until done", "1:4", "there is no thread 3"),
            ("nodes 40 0: go until done", "1:13", "refused with 2: a size is out of range"),
            ("0: read 0, go until don", "1:21", "unknown word 'don'; did you mean 'done'? ('go until' takes done, asleep, reading, writing, idle or a condition in brackets)"),
            ("0: read 0, go until (root open", "1:31", "expected ')', found the end of the text"),
            ("0: read 0, go until", "1:20", "expected done, asleep, reading, writing, idle or a condition in brackets, found the end of the text"),
            ("0: read 0, go until (thread 1 idle)", "1:29", "thread must be 0 to 0, not 1"),
            ("0: read 0, go until (room 1 = 0)", "1:12", "there is no room 1 ('room 1'): there are 0 rooms"),
            ("tickets 0: take, go until done", "1:18", "'go until' is for schedules only"),
        ):
            with self.assertRaises(NotationError) as caught:
                notation.parse_any(text, "t")
            self.assertEqual(str(caught.exception), f"t:{place}: {why}", text)

    def test_longest(self) -> None:
        """It ends where the bench takes no more rows."""
        rows = "(read 0, go*2, unlock, go*2)*682, read 0, go*2, unlock"
        self.assertEqual(len(notation.parse(f"0: {rows}").rows), 4096)
        with self.assertRaisesRegex(NotationError, "never reached 'done': the bench takes no more than 4096 rows, after 0 rows of 'go'"):
            notation.parse(f"0: {rows}, go until done")

    @needs("credit_sheet")
    def test_with_a_till(self) -> None:
        said = bench_here("sheet", "--till", EXAMPLES / "one-song-charged-once.till", "-e", "0: write, go until done, book 0 expect room 0 = 5 0: unlock, go until done")
        self.assertEqual((said.status, said.err), (0, ""))
        self.assertIn("room 0 5\n", said.out)
        said = bench_here("sheet", "-e", "0: write, go until done, book 0, unlock, go until done")
        self.assertEqual((said.status, said.err), (3, "<text>:1:42: row 3 (<text>:1:26) is refused with 6, so the rows of 'go until' cannot be counted\n"))

    def test_show_prints_rows(self) -> None:
        self.assertEqual(bench_here("show", "-e", "0: write, go until done").out, "nodes 1\nfan 1\nthreads 1\n0: write, go*2\n")


class Expect(InFolder):
    def test_met(self) -> None:
        path = self.file("a.txt", HAND_OVER)
        for command in ("sheet", "trace", "journal", "make"):
            said = bench_here(command, path, *(["-o", self.folder / "a"] if command == "make" else []))
            self.assertEqual((said.status, said.err), (0, ""), command)
        self.assertEqual((self.folder / "a").read_bytes(), notation.parse(HAND_OVER).to_bytes())

    def test_not_met(self) -> None:
        """All that is not so is said, with its place, and the output is there all the same."""
        text = HAND_OVER.replace("thread 1 asleep", "thread 1 reading").replace("expect thread 2 writing", "  expect thread 2 writing and root = 4")
        path = self.file("a.txt", text)
        unmet = (
            f"{path}:8:1: expect failed: 'thread 1 reading', but after 19 rows thread 1 is asleep\n"
            f"{path}:12:3: expect failed: 'thread 2 writing and root = 4', but after 28 rows root is 0\n"
        )
        for command in ("sheet", "trace", "journal"):
            said = bench_here(command, path)
            self.assertEqual((said.status, said.err), (4, unmet), command)
            self.assertIn("answer 0 at 28\n", said.out)
        made = self.folder / "a"
        self.assertEqual(bench_here("make", path, "-o", made), (4, "", unmet))
        self.assertFalse(made.exists())
        self.assertEqual(bench("page", path, "-o", made)[::2], (4, unmet))
        self.assertTrue(made.exists())

    def test_in_a_terminal_and_in_a_pipe(self) -> None:
        said = bench_in_terminal("sheet", "-e", "0: read 0 expect thread 0 reading")
        self.assertEqual(said.status, 4)
        self.assertIn("<text>:1:11: expect failed: 'thread 0 reading', but after 1 row thread 0 is calling\n", said.out)
        command = f"{BENCH} find 'queue writers >= 1' --tries 128 --jobs 1 | {BENCH} trace --text - | tail -1"
        done = subprocess.run(["bash", "-o", "pipefail", "-c", command], capture_output=True, text=True, env=environment(), check=False)
        self.assertEqual((done.returncode, done.stderr), (0, ""))
        self.assertRegex(done.stdout, r"^answer 0 at \d+\n$")

    def test_refusals(self) -> None:
        for text, place, why in (
            ("0: go expect refused 7", None, ""),
            ("0: go expect refused", None, ""),
            ("0: read 0 expect thread 0 calling 0: unlock expect refused 7", None, ""),
            ("0: read 0 expect refused", "1:11", "expect failed: a refusal, but all 1 row are taken"),
            ("0: go expect refused 5", "1:7", "expect failed: a refusal with 5 of row 0, but row 0 (<text>:1:4) is refused with 7"),
            ("0: go, go expect refused 7", "1:11", "expect failed: a refusal with 7 of row 1, but row 0 (<text>:1:4) is refused with 7"),
            ("0: go expect thread 0 idle", "1:7", "expect failed: 'thread 0 idle', but row 0 (<text>:1:4) is refused with 7"),
        ):
            unmet = notation.parse_script(text).read().unmet
            self.assertEqual([str(error) for error in unmet], [] if place is None else [f"<text>:{place}: {why}"], text)

    def test_where_it_has_no_place(self) -> None:
        for command in ("plain", "dispatch"):
            said = bench_here(command, "-e", "threads 2 0: write expect thread 0 writing")
            self.assertEqual((said.status, said.err), (3, "<text>:1:20: 'go until' and 'expect' are for schedules only\n"))
        said = bench_here("trace", "--dispatch", "-e", "0: write, go until done")
        self.assertEqual((said.status, said.err), (3, "<text>:1:11: 'go until' and 'expect' are for schedules only\n"))
        self.assertEqual(bench_here("ticket", "-e", "tickets 0: take expect root open").err, "<text>:1:17: 'expect' is for schedules only\n")

    def test_errors(self) -> None:
        for text, place, why in (
            ("0: read 0 expect", "1:17", "expected a condition, found the end of the text"),
            ("0: read 0 expect thread 5 idle", "1:25", "thread must be 0 to 0, not 5"),
            ("0: read 0 expect room 0 = 1", "1:11", "there is no room 0 ('room 0'): there are 0 rooms"),
            ("0: read 0 expect refused 3", "1:26", "refusal must be 5 to 10, not 3"),
            ("expect root opn 0: go", "1:13", "expected a thread with its colon, such as '0:', found 'opn'"),
            ("expect root open\nthreads 2", "2:1", "the size 'threads' must come before the rows"),
        ):
            with self.assertRaises(NotationError) as caught:
                notation.parse_any(text, "t")
            self.assertEqual(str(caught.exception), f"t:{place}: {why}", text)

    def test_damaged_texts_never_give_a_traceback(self) -> None:
        rng = random.Random(80)
        statuses = {0: 0, 3: 0, 4: 0}
        words = re.findall(r"[a-z]+|[0-9]+", HAND_OVER)
        for number in range(600):
            # One word in another's place, or worse.
            places = [found.span() for found in re.finditer(r"[a-z]+|[0-9]+", HAND_OVER)]
            begin, end = rng.choice(places)
            text = HAND_OVER[:begin] + rng.choice(words) + HAND_OVER[end:]
            path = self.file("d.txt", text if number % 4 else damaged(rng, text))
            said = bench_here("sheet", path)
            self.assertIn(said.status, statuses, said.err)
            statuses[said.status] += 1
            if said.status:
                self.assertRegex(said.err, rf"^({re.escape(str(path))}:[0-9]+:[0-9]+: .*\n)+$")
        self.assertGreater(min(statuses.values()), 3, statuses)


class Refused(InFolder):
    TEXT = "threads 2\n0: read 0, go*2\n# a comment\n1: write,\n   go*2, unlock\n0: go\n"

    def test_place(self) -> None:
        """A refused row is named by its place in the text, also within a repetition."""
        path = self.file("a.txt", self.TEXT)
        for command in ("sheet", "trace", "journal"):
            said = bench_here(command, path)
            self.assertEqual((said.status, said.err), (0, f"{path}:5:10: row 6 is refused with 7: the order does not suit the thread\n"), command)
        said = bench_here("sheet", "-e", "0: (read 0, go*2)*2")
        self.assertEqual((said.status, said.err), (0, "<text>:1:5: row 3 is refused with 7: the order does not suit the thread\n"))
        said = bench_here("plain", "-e", "threads 2\n0: read 0\n0: write")
        self.assertEqual((said.status, said.err), (0, "<text>:3:4: row 1 is refused with 7: the order does not suit the thread\n"))

    def test_strict(self) -> None:
        refused = EXAMPLES / "refused-row.schedule"
        for command in ("sheet", "trace", "journal"):
            free, strict = bench_here(command, refused), bench_here(command, "--strict", refused)
            self.assertEqual((free.status, strict.status, free.out), (0, 4, strict.out))
            self.assertEqual(strict.err, f"{refused}: refused with 7: the order does not suit the thread\n")
            self.assertEqual(bench_here(command, "--strict", EXAMPLES / "late-reader.schedule").status, 0)
        self.assertEqual(bench("sheet", "--strict", refused).status, 4)
        self.assertEqual(bench_here("sheet", "--strict", self.file("a", b"\0\1\1\0\0")).status, 4)
        self.assertEqual(bench_here("dispatch", "--strict", EXAMPLES / "refused-at-its-turn.wants").status, 4)
        self.assertEqual(bench_here("plain", "--strict", "-e", "0: unlock").status, 4)
        self.assertEqual(bench_here("ticket", "--strict", EXAMPLES / "second-ticket.tickets").status, 4)
        self.assertEqual(bench_here("ticket", "--strict", EXAMPLES / "hand-over.tickets").status, 0)
        page = self.folder / "p.html"
        self.assertEqual(bench_here("page", "--strict", refused, "-o", page).status, 4)

    def test_places_are_those_of_the_rows(self) -> None:
        """Of every example's text, the text at a row's place is that row's order."""
        tried = 0
        for path in sorted(EXAMPLES.glob("*.schedule.txt")):
            text = path.read_text()
            read = notation.parse_script(text, path.name).read()
            lines = text.splitlines()
            for row, place in zip(read.schedule.rows, read.places):
                _, line, column = place.rsplit(":", 2)
                found = lines[int(line) - 1][int(column) - 1 :]
                self.assertTrue(found.startswith((orders.words(row.order), str(row.order))), f"{place}: {found}")
                tried += 1
        self.assertGreater(tried, 100)

    def test_without_a_library(self) -> None:
        """A text is read before the library is asked for; one without `go until` and `expect` needs none."""
        self.assertEqual(bench("make", "-e", "0: read 0, go*2", "-o", self.folder / "a", LOCK_BENCH_LIBRARY="/no/such.so").status, 0)
        self.assertEqual(bench("sheet", "-e", "0: wirte", LOCK_BENCH_LIBRARY="/no/such.so").status, 3)
        self.assertEqual(bench("make", "-e", "0: read 0, go until done", "-o", self.folder / "a", LOCK_BENCH_LIBRARY="/no/such.so").status, 1)
        self.assertEqual(Schedule.from_bytes((self.folder / "a").read_bytes()).rows, notation.parse("0: read 0, go*2").rows)
        self.assertTrue(load().path.exists())
