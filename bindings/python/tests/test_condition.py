"""Conditions: how they are read, what they say of a history, which the theorems exclude; and states that are stuck."""

from __future__ import annotations

import random
import re
import time
import unittest

from lock_bench import NotationError, Row, Schedule, Till, TillEntry, condition, excluded, find, journal, load, notation, orders, run
from lock_bench.condition import Sizes
from lock_bench.errors import BenchError
from lock_bench.history import History
from lock_bench.stuck import is_stuck, is_stuck_after

from .support import EXAMPLES, drawn_schedule, example_files, good_till, needs, stored_bookings


def history(text: str, till: Till | None = None) -> History:
    return History.of(notation.parse(text), till)


def example(name: str) -> History:
    return History.of(Schedule.from_bytes((EXAMPLES / f"{name}.schedule").read_bytes()))


class Reading(unittest.TestCase):
    def test_guide(self) -> None:
        """Every condition that the guide shows is one."""
        shown = [line.strip() for line in condition.GUIDE.split("\n\n")[1].splitlines()]
        for line in condition.GUIDE.split("\n\n")[2].splitlines():
            # The names are in the column from 9 on, up to two spaces.
            shown += [part for part in re.split(r"  +", line[9:].strip(), maxsplit=1)[:1] if line[:9].strip() in ("", "State", "Rows", "Second")]
        tried = 0
        for text in shown:
            for part in text.split(", "):
                if part and not part.startswith(("a thread", "it is", "upgrade granted, late", "booked, rep", "a read")):
                    with self.subTest(part):
                        try:
                            condition.parse(part)
                        except NotationError:
                            # Words that explain stand beside the conditions.
                            continue
                        tried += 1
        self.assertGreaterEqual(tried, 30)

    def test_binding(self) -> None:
        """`not` binds first, then `and`, then `or`."""
        late = example("late-reader")
        for text, holds in (
            ("root closed or root open and root open", True),
            ("(root closed or root open) and root open", False),
            ("not root open and root closed", True),
            ("not (root open and root closed)", True),
            ("not root open or root open", True),
            ("not not root closed", True),
            ("root = 2 and not root < 2", True),
            ("root == 2", True),
            ("root direct = root tree", True),
            ("2 = root", True),
            ("-1 < root", True),
        ):
            self.assertEqual(condition.parse(text).holds(late), holds, text)

    def test_errors(self) -> None:
        for text, place, why in (
            ("", "1:1", "expected a condition, found the end of the text"),
            ("thread 2 asleap", "1:10", "unknown standing 'asleap'; did you mean 'asleep'?"),
            ("thread 9 asleep", "1:8", "thread must be 0 to 2, not 9"),
            ("rot open", "1:1", "unknown word 'rot'; did you mean 'root'?"),
            ("root open and", "1:14", "expected a condition, found the end of the text"),
            ("root open root", "1:11", "expected 'and', 'or' or a comparison, found 'root'"),
            ("(root open", "1:11", "expected ')', found the end of the text"),
            ("node 7 = 1", "1:6", "node must be 0 to 1, not 7"),
            ("node 0 = 1", "1:6", "node 0 is the root: write 'root'"),
            ("queue", "1:6", "expected 'groups', 'writers' or 'changed', found the end of the text"),
            ("mutex", "1:6", "expected 'free', 'taken' or 'by', found the end of the text"),
            ("swap failed on queue", "1:16", "expected 'root' or 'node', found 'queue'"),
            ("room 0 < 5", "1:6", "there is no till, so there are no rooms"),
            ("rows second = 2", "1:6", "'second' goes only with what belongs to a lock"),
            ("root >= ", "1:9", "expected a condition, found the end of the text"),
            ("any root", "1:5", "expected 'thread', found 'root'"),
            ("failures of 1 >= 99999999999", "1:18", "number must be 0 to 9999999, not 999999999.."),
            ("root ; open", "1:6", "unexpected ';'"),
        ):
            with self.assertRaises(NotationError) as caught:
                condition.parse(text, Sizes(3, 2, 0), "c")
            self.assertEqual(str(caught.exception), f"c:{place}: {why}")

    def test_damaged_texts(self) -> None:
        """Damaged conditions are read or refused with their place, and never otherwise."""
        rng = random.Random(70)
        words = [*re.findall(r"[a-z]+|[<>=!]+|\d+|[()]", condition.GUIDE), ";", "\0", ""]
        read = 0
        for _ in range(3000):
            text = " ".join(rng.choice(words) for _ in range(rng.randrange(1, 7)))
            try:
                condition.parse(text, Sizes(3, 3, 2))
                read += 1
            except NotationError:
                pass
        self.assertGreater(read, 30)


class Values(unittest.TestCase):
    def check(self, found: History, true: tuple[str, ...], false: tuple[str, ...] = ()) -> None:
        for text in true:
            self.assertTrue(condition.parse(text).holds(found), text)
            self.assertEqual(condition.parse(text).distance(found), 0, text)
            self.assertFalse(condition.parse(f"not ({text})").holds(found), text)
        for text in false:
            self.assertFalse(condition.parse(text).holds(found), text)
            self.assertGreater(condition.parse(text).distance(found), 0, text)
            self.assertTrue(condition.parse(f"not ({text})").holds(found), text)

    def test_late_reader(self) -> None:
        self.check(
            example("late-reader"),
            (
                "thread 2 asleep", "thread 0 reading", "thread 1 reading by 1", "thread 1 holding", "any thread asleep", "threads reading = 2",
                "root closed", "root = 2", "root direct = 1", "root tree = 1", "node 1 = 1", "queue groups = 1", "queue writers = 1", "mutex free",
                "failures = 0", "late arrival", "late arrival by 1", "rows = 16", "swap done on node 1 by 1", "swap done by 1 on node 1",
                "all threads idle second", "no thread calling", "wait >= 12",
            ),
            (
                "thread 1 reading by 0", "all threads asleep", "root open", "root open second and root closed second", "stuck", "upgrade denied",
                "late arrival by 0", "late arrival second", "mutex taken", "mutex by 1", "swap failed", "held up", "failures of 1",
                "no thread asleep", "threads holding >= 3",
            ),
        )  # fmt: skip

    def test_upgrades(self) -> None:
        self.check(example("upgrade-denied-by-a-read"), ("upgrade denied", "upgrade denied by 0"), ("upgrade denied by 1", "upgrade granted"))
        self.check(example("upgrade-denied-by-a-swap"), ("upgrade denied = 1", "swap failed on root"), ("upgrade granted",))
        self.check(example("upgrade-granted"), ("upgrade granted by 0",), ("upgrade denied",))
        self.check(example("upgrade-with-a-node"), ("upgrade granted = 1",), ("upgrade denied",))
        second = history("threads 2 0: read 0 second, go*2 1: read 0 second, go*2 0: upgrade second, go")
        self.check(second, ("upgrade denied second",), ("upgrade denied",))

    def test_counts_are_those_of_journal_and_sheet(self) -> None:
        """Of drawn rows, what conditions count is what the journal and the sheet have."""
        rng = random.Random(71)
        for _ in range(8):
            ran = run(drawn_schedule(rng, 80))
            found = History.of(ran.schedule)
            for lock, second in ((0, ""), (1, " second")):
                state = ran.sheet.locks[lock]
                for name, kind in (("swap failed", journal.FAILED), ("held up", journal.HELD_UP), ("woken", journal.WOKE), ("swap done", journal.SWAPPED)):
                    for thread in range(ran.schedule.threads):
                        rows = [row for row, entry in zip(ran.schedule.rows, ran.journal) if entry.kind == kind and entry.lock == lock and row.thread == thread]
                        self.assertTrue(condition.parse(f"{name} by {thread}{second} = {len(rows)}").holds(found))
                for thread, line in enumerate(state.threads):
                    self.assertTrue(condition.parse(f"failures of {thread}{second} = {line.failures} and thread {thread} {line.standing}{second}").holds(found))
                self.assertTrue(condition.parse(f"root{second} = {state.root.count} and queue groups{second} = {state.queue.groups}").holds(found))

    def test_history_is_the_librarys(self) -> None:
        """States are the library's sheets, whatever way a history came about."""
        rng = random.Random(72)
        schedule = drawn_schedule(rng, 60)
        grown = History.of(Schedule(schedule.nodes, schedule.fan, schedule.threads, ()))
        for number, row in enumerate(schedule.rows):
            grown = grown.then(row)
            self.assertEqual(grown.end.to_bytes(), load().bench_sheet(schedule.first(number + 1).to_bytes()).sheet)
        for rows in (0, 7, 31, 60):
            shorter = grown.first(rows)
            self.assertEqual((shorter.schedule, shorter.end), (schedule.first(rows), grown.state(rows)))
            other = shorter.then(Row(0, orders.WRITE_LOCK))
            self.assertEqual(other.end.to_bytes(), load().bench_sheet(other.schedule.to_bytes()).sheet)

    @needs("credit_sheet")
    def test_rooms_and_bookings(self) -> None:
        till = Till(2, (TillEntry(1, 20), TillEntry(1, -3), TillEntry(0, -1)))
        found = history("0: write, go*2, book 0, book 1, book 1, book 2", till)
        self.check(found, ("room 1 = 17", "room 0 = 0", "booked = 2", "repeated", "booking denied = 1", "room 1 > room 0"), ("room 1 < 5",))

    def test_what_is_so_in_place_of_it(self) -> None:
        late = example("late-reader")
        for text, told in (
            ("thread 1 asleep", "thread 1 is reading by 1"),
            ("root open", "the root is closed"),
            ("not root closed", "the root is closed"),
            ("root closed second", "the second lock's root is open"),
            ("mutex by 1", "the mutex is free"),
            ("root = 3 and queue writers >= 2", "root is 2, queue writers is 1"),
            ("root < node 1", "root is 2 and node 1 is 1"),
            ("thread 1 asleep second", "thread 1 is idle in the second lock"),
        ):
            self.assertEqual(condition.told(condition.parse(text), late), told)
        self.assertEqual(condition.told(condition.parse("mutex free"), history("0: write, go*2, unlock, go")), "thread 0 has the mutex")

    def test_wait(self) -> None:
        """The longest wait: of a finished call its rows until it holds, of one that waits still its rows so far."""
        self.assertTrue(condition.parse("wait = 2").holds(history("0: read 0, go*2")))
        self.assertTrue(condition.parse("wait = 8").holds(history("threads 2 0: write, go*2 1: read 0, go*5, go*3")))
        woken = history("threads 2 0: write, go*2 1: read 0, go*5 0: unlock, go*5, read 0, go")
        self.assertTrue(condition.parse("wait = 11").holds(woken))

    def test_names_that_there_are_not(self) -> None:
        found = history("threads 2 0: write")
        for text in ("thread 2 asleep", "node 1 = 0", "room 0 = 1", "failures of 3 = 0"):
            with self.assertRaisesRegex(BenchError, "there is no "):
                condition.check(condition.parse(text), found)
        condition.check(condition.parse("thread 1 idle and failures of 0 = 0 and late arrival"), found)


class Excluded(unittest.TestCase):
    def test_what_is_excluded(self) -> None:
        for text, theorem in (
            ("threads writing >= 2", excluded.ALONE),
            ("thread 0 writing and thread 1 writing", excluded.ALONE),
            ("thread 0 writing and any thread reading", excluded.ALONE),
            ("threads holding > 1 and thread 2 writing", excluded.ALONE),
            ("all threads writing", excluded.ALONE),
            ("thread 1 writing second and thread 0 reading second", excluded.ALONE),
            ("thread 1 writing and root open", excluded.WRITTEN),
            ("thread 1 writing and not root closed", excluded.WRITTEN),
            ("thread 1 writing and root >= 1", excluded.WRITTEN),
            ("any thread reading and root = 0", excluded.READ),
            ("thread 0 reading by 1 and root direct = 0 and root tree = 0", excluded.READ),
            ("all threads idle and queue writers >= 1", excluded.FREE),
            ("all threads idle and mutex taken", excluded.FREE),
            ("no thread calling and root > 0 and no thread reading", excluded.COUNTED),
            ("no thread calling and root closed and root = 0 and no thread writing", excluded.SHUT),
            ("all threads asleep", excluded.HELD),
            ("room 1 < 0", excluded.BALANCED),
        ):
            self.assertEqual(excluded.excluding(condition.parse(text), 3), [theorem], text)
        self.assertEqual(excluded.excluding(condition.parse("failures of 0 >= 1"), 1), [excluded.FAILED])
        self.assertEqual(excluded.excluding(condition.parse("stuck"), 2, two_locks=False), [excluded.PROGRESS])
        both = excluded.excluding(condition.parse("threads writing >= 2 or thread 1 writing and root open"), 3)
        self.assertEqual(both, [excluded.ALONE, excluded.WRITTEN])

    def test_what_is_not(self) -> None:
        for text in (
            "thread 1 writing and thread 0 reading second", "threads writing >= 2 or root open", "thread 1 writing and root closed", "stuck",
            "thread 2 asleep and root open", "failures of 1 >= 3", "any thread calling and root > 0 and no thread reading", "room 1 < 5",
            "held up = 0 and swap failed >= 1", "all threads asleep or all threads idle", "not thread 1 writing and root open",
        ):  # fmt: skip
            self.assertEqual(excluded.excluding(condition.parse(text), 3), [], text)

    def test_many_cases(self) -> None:
        """So many cases are gone through; a condition that has more, here more than could ever be, is not called excluded, and that is said at once."""
        either, begun = "(rows > 1 or rows < 9)", time.process_time()
        for times, due in ((11, [excluded.ALONE]), (12, []), (200, [])):
            many = " and ".join([either] * times)
            wanted = condition.parse(f"threads writing >= 2 and {many}")
            self.assertEqual(excluded.excluding(wanted, 64), due, times)
            self.assertEqual(find.threads_for(wanted), 2)
            nested = condition.parse(f"({many} or rows = 5) and threads writing >= 2 and (rows = 6 or {many})")
            self.assertEqual((excluded.excluding(nested, 64), find.threads_for(nested)), ([], 2))
        self.assertLess(time.process_time() - begun, 5)

    def test_nothing_that_is_so_is_excluded(self) -> None:
        """Of states that the library gives, no condition that holds is said to be excluded: conditions are drawn from what the sheets show."""
        rng = random.Random(73)
        tried = 0
        for _ in range(25):
            whole = History.of(drawn_schedule(rng, 50))
            for rows in range(0, 51, 2):
                found = whole.first(rows)
                for _ in range(4):
                    text = " and ".join(self.fact(rng, found) for _ in range(rng.randint(1, 5)))
                    asked = condition.parse(text)
                    if asked.holds(found):
                        tried += 1
                        self.assertEqual(excluded.excluding(asked, found.threads), [], text)
        self.assertGreater(tried, 1000)

    def fact(self, rng: random.Random, found: History) -> str:
        """Something that is mostly so."""
        lock = rng.randrange(2)
        second, state, thread = " second" if lock else "", found.end.locks[lock], rng.randrange(found.threads)
        standing = rng.choice(("idle", "calling", "reading", "writing", "asleep", "holding"))
        count = sum(line.standing == standing for line in state.threads)
        sign = rng.choice(("=", ">=", "<=", "!="))
        return rng.choice((
            f"thread {thread} {state.threads[thread].standing}{second}",
            f"not thread {thread} {standing}{second}",
            f"threads {standing}{second} {sign} {count}",
            f"no thread {standing}{second}",
            f"any thread {standing}{second}",
            f"root {'closed' if state.root.closed else 'open'}{second}",
            f"root{second} {sign} {state.root.count}",
            f"root direct{second} = {state.root.direct}",
            f"queue writers{second} >= {state.queue.writers}",
            f"mutex {'free' if state.queue.mutex is None else 'taken'}{second}",
            f"failures{second} {sign} {sum(line.failures for line in state.threads)}",
        ))  # fmt: skip


class Stuck(unittest.TestCase):
    def test_crossed_locks(self) -> None:
        """The example is stuck after its last row and not before: asked of the library with every order from 0 to 255."""
        crossed = example("crossed-locks")
        self.assertEqual([rows for rows in range(19) if is_stuck_after(crossed.first(rows))], [18])
        for thread in range(2):
            for order in range(256):
                longer = crossed.then(Row(thread, order))
                self.assertTrue(longer.answer or longer.kinds[-1] == journal.HELD_UP and longer.end.locks == crossed.end.locks, (thread, order))

    def test_one_order_is_not_stuck(self) -> None:
        self.assertFalse(is_stuck(notation.parse("threads 2 0: write, go*2, write second, go*2 1: write, go*5")))

    def test_idle_threads_are_not_stuck(self) -> None:
        self.assertFalse(is_stuck(notation.parse("threads 2")))
        # A third thread that is idle can begin a call.
        crossed = Schedule.from_bytes((EXAMPLES / "crossed-locks.schedule").read_bytes())
        self.assertFalse(is_stuck(Schedule(1, 1, 3, crossed.rows)))

    def test_readers_and_writers(self) -> None:
        """A reader who waits behind a writer who waits for it: stuck too."""
        self.assertTrue(is_stuck(notation.parse("threads 2 0: read 0, go*2 1: read 0 second, go*2 0: write second, go*6 1: write, go*6")))

    def test_held_up_at_a_mutex_is_not_stuck(self) -> None:
        self.assertFalse(is_stuck(notation.parse("threads 2 0: write, go*2, unlock, go 1: write, go*4")))

    def test_full_schedule(self) -> None:
        """Of 4,096 rows, those that were held up are left out to have room to ask."""
        crossed = Schedule.from_bytes((EXAMPLES / "crossed-locks.schedule").read_bytes())
        full = Schedule(1, 1, 2, crossed.rows + (Row(0, 0),) * (4096 - len(crossed.rows)))
        self.assertTrue(is_stuck(full))
        self.assertFalse(is_stuck(Schedule(1, 1, 1, (Row(0, 64), Row(0, 0), Row(0, 0), Row(0, 2), Row(0, 0), Row(0, 0)) * 682 + (Row(0, 64), Row(0, 0), Row(0, 0), Row(0, 2)))))

    def test_no_run_of_one_lock_is_stuck(self) -> None:
        for path in example_files("schedule"):
            schedule = Schedule.from_bytes(path.read_bytes())
            if all(row.order < orders.SECOND for row in schedule.rows):
                whole = History.of(schedule)
                self.assertFalse(any(is_stuck_after(whole.first(rows)) for rows in range(len(whole.rows) + 1)), path.name)

    @needs("credit_sheet")
    def test_with_a_till(self) -> None:
        """With bookings among the orders it is the same as asking with every order from 0 to 255."""
        rng = random.Random(74)
        till = good_till(rng)
        for _ in range(5):
            found = History.of(drawn_schedule(rng, 20, till), till)
            longer = [found.then(Row(thread, order)) for thread in range(found.threads) for order in range(256)]
            moves = any(not one.answer and one.kinds[-1] != journal.HELD_UP for one in longer)
            self.assertEqual(is_stuck_after(found), not moves)
        stored = next(stored for stored in stored_bookings() if stored.lines[0].startswith("answer 0"))
        assert stored.till is not None
        self.assertFalse(is_stuck(Schedule.from_bytes(stored.file), Till.from_bytes(stored.till)))

    def test_refused_sizes(self) -> None:
        with self.assertRaisesRegex(BenchError, "refused with 2"):
            is_stuck(Schedule(0, 1, 1, ()))
