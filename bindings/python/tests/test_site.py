"""Sites as values: the shapes, the site file, the turns; and the sheet of a site's run, by the examples of ``site_model`` and by the bench."""

from __future__ import annotations

import hashlib
import random
import re
import unittest
from collections import Counter

from lock_bench import BenchError, LibraryError, Row, Schedule, load, orders
from lock_bench.journal import FAILED, HELD_UP, ROOT
from lock_bench.site import Shape, shapes
from lock_bench.site_file import Site
from lock_bench.site_sheet import Calls, Measured, Rows, SiteSheet, ThreadCost, Turns, Waits, site_run

from .support import CRATES, needs

HEAD = 11
#: The definitions' examples, whose sheets an independent model gave.
EXAMPLES = (CRATES / "site_model" / "specs" / "Examples.antt").read_text("utf-8")

#: The input of each example, in their order: N, F, T, hold and think, the warm-up, the calls of each thread, the turns.
INPUTS: tuple[tuple[tuple[int, ...], int, dict[int, list[int]], list[int]], ...] = (
    ((1, 1, 1, 2, 1), 0, {0: [64, 2]}, [0] * 10 + [1]),
    ((1, 1, 2, 0, 0), 0, {0: [1, 2], 1: [64, 2]}, [0, 1] * 15),
    ((1, 1, 2, 3, 2), 0, {0: [1, 2], 1: [64, 2]}, [0, 1] * 15),
    ((1, 1, 2, 0, 0), 11, {0: [1, 2], 1: [64, 2]}, [0, 1] * 15),
    ((1, 1, 2, 0, 0), 30, {0: [1, 2], 1: [64, 2]}, [0, 1] * 15),
    ((1, 1, 2, 0, 0), 0, {0: [64, 64], 1: [1]}, [0, 1] * 15),
    ((1, 1, 2, 0, 0), 20, {0: [64, 64], 1: [1]}, [0, 1] * 15),
    ((2, 1, 1, 1, 0), 0, {0: [1, 4, 3, 2, 65, 2]}, [0] * 40),
    ((1, 1, 3, 200, 0), 0, {0: [1, 2], 1: [64, 2]}, [0, 1, 2] * 12),
    ((2, 1, 3, 0, 1), 0, {0: [64, 2], 1: [65, 2], 2: [1, 2]}, [0, 1, 2, 0, 1] * 12),
    ((1, 1, 2, 0, 0), 0, {}, [0, 1, 2]),
    ((1, 1, 1, 0, 0), 0, {0: [64, 2]}, []),
    ((1, 1, 1, 0, 0), 0, {0: [65], 1: [64]}, [0]),
    ((1, 1, 1, 0, 0), 0, {1: [0]}, [0]),
)


def site_file(sizes: tuple[int, ...], warm_up: int, calls: dict[int, list[int]]) -> bytes:
    """The site file of these calls."""
    rows = [(thread, order) for thread, wanted in calls.items() for order in wanted]
    head = bytes(sizes) + len(rows).to_bytes(2, "little") + warm_up.to_bytes(4, "little")
    return head + bytes(thread for thread, _ in rows) + bytes(order for _, order in rows)


def parents(nodes: int, fan: int) -> list[int]:
    """Document 01's tree: the parent of each node above 0."""
    return [(node - 1) // fan for node in range(1, nodes)]


def calls_of(site: Site, shape: Shape = Shape(1, (1,)), number: int = 0) -> list[bytes]:
    """The calls of each thread in a site file."""
    file = site.file(shape, number)
    count = int.from_bytes(file[5:7], "little")
    threads, wanted = file[HEAD : HEAD + count], file[HEAD + count :]
    return [bytes(order for thread, order in zip(threads, wanted) if thread == one) for one in range(site.threads)]


def letters(calls: bytes) -> str:
    """Calls as letters: r and w lock, U upgrades, u unlocks."""
    return "".join("w" if order == orders.WRITE_LOCK else "r" if order >= orders.READ_LOCK else "-uU"[order - 1] for order in calls)


class Shapes(unittest.TestCase):
    def test_each_tree_once(self) -> None:
        for nodes in range(1, 33):
            trees = [parents(nodes, fan) for fan in range(1, 17)]
            found = shapes([nodes], range(1, 17))
            self.assertEqual([fan for shape in found for fan in shape.fans], list(range(1, 17)))
            self.assertEqual(len(found), len({tuple(tree) for tree in trees}))
            for shape in found:
                self.assertEqual({tuple(parents(nodes, fan)) for fan in shape.fans}, {tuple(parents(nodes, shape.fan))})

    def test_order_and_repetition(self) -> None:
        found = shapes([3, 1, 3], [4, 2, 1, 4])
        self.assertEqual(list(map(str, found)), ["N 1 F 1-2,4", "N 3 F 1", "N 3 F 2,4"])

    def test_leaves(self) -> None:
        for nodes in range(1, 33):
            for fan in range(1, 17):
                inner = set(parents(nodes, fan))
                self.assertEqual(Shape(nodes, (fan,)).leaves(), [node for node in range(nodes) if node not in inner])


class Files(unittest.TestCase):
    def test_head(self) -> None:
        file = Site(3, 10, 0, hold=7, think=200, turns=400_000).file(Shape(9, (4, 5)), 0)
        count = int.from_bytes(file[5:7], "little")
        self.assertEqual((file[:5], int.from_bytes(file[7:HEAD], "little"), len(file)), (bytes((9, 4, 3, 7, 200)), 100_000, HEAD + 2 * count))

    def test_shares(self) -> None:
        """Over all threads they are exact, and in any stretch of a thread's sections up to one, or two where both shares are rounded."""
        for threads, writers, upgrades in ((1, 5, 0), (4, 10, 25), (7, 33.3, 0.4), (19, 0, 100), (64, 50, 50), (64, 1, 0), (5, 100, 0)):
            site = Site(threads, writers, upgrades)
            calls = [letters(part) for part in calls_of(site)]
            self.assertLessEqual(sum(map(len, calls)), 4096)
            sections = [part.split("u")[:-1] for part in calls]
            self.assertEqual({len(part) for part in sections}, {site.sections})
            count = threads * site.sections
            self.assertLessEqual(abs(sum(part.count("w") for part in sections) - writers * count / 100), 0.5)
            for part in sections:
                self.assertEqual(set(part) - {"w", "r", "rU"}, set())
                for end in range(20, len(part) + 1, 20):
                    self.assertLess(abs(part[:end].count("w") - writers * end / 100), 20 * writers / 100 + 1)

    def test_as_many_as_fit(self) -> None:
        for threads in (1, 3, 19, 64):
            for upgrades in (0, 30, 100):
                count = sum(map(len, calls_of(Site(threads, 0, upgrades))))
                self.assertTrue(4096 - 6 * threads <= count <= 4096, (threads, upgrades, count))

    def test_each_round_begins_elsewhere(self) -> None:
        """With the same sections in the same order, which go round."""
        site = Site(5, 10, 10)
        first = calls_of(site)
        for number in range(1, 4):
            again = calls_of(site, number=number)
            self.assertNotEqual(again, first)
            for one, other in zip(first, again):
                self.assertIn(other, one + one)
                self.assertRegex(letters(other), "^(wu|ru|rUu)*$")

    def test_routes(self) -> None:
        for routes, nodes in (("leaves", [3, 4, 5, 6]), ("nodes", [0, 1, 2, 3, 4, 5, 6])):
            for thread, calls in enumerate(calls_of(Site(9, 20, 0, routes=routes), Shape(7, (2,)))):
                self.assertEqual(set(calls), {orders.WRITE_LOCK, orders.UNLOCK, orders.READ_LOCK + nodes[thread % len(nodes)]})

    def test_same_wants_on_every_shape(self) -> None:
        def wanted(shape: Shape, number: int, seed: int = 0) -> tuple[str, ...]:
            return tuple(map(letters, calls_of(Site(6, 20, 20, seed=seed), shape, number)))

        trees = (Shape(1, (1,)), Shape(7, (2,)), Shape(32, (3,)))
        for number in range(3):
            self.assertEqual(len({wanted(shape, number) for shape in trees}), 1)
        self.assertEqual(len({wanted(trees[0], 0, seed) for seed in range(5)}), 5)

    def test_too_large_shares(self) -> None:
        with self.assertRaisesRegex(BenchError, "^60 % that write and 50 % that upgrade are more than 100 %$"):
            Site(4, 60, 50)


class Drawn(unittest.TestCase):
    def test_each_thread_equally_often(self) -> None:
        """For every T: the counts are as far from each other as chance makes them (chi-squared, five standard deviations)."""
        for threads in range(1, 65):
            turns = Site(threads, 10, 0, turns=40_000).turns_of(0)
            self.assertEqual(len(turns), 50_000)
            counts = Counter(turns)
            self.assertEqual(set(counts), set(range(threads)))
            due = len(turns) / threads
            far = sum((count - due) ** 2 / due for count in counts.values())
            self.assertLess(far, threads - 1 + 5 * (2 * threads) ** 0.5)

    def test_by_seed_and_round(self) -> None:
        site = Site(19, 10, 0)
        self.assertEqual(site.turns_of(3), Site(19, 20, 5, hold=1).turns_of(3))
        self.assertEqual(len({site.turns_of(0), site.turns_of(1), Site(19, 10, 0, seed=1).turns_of(0)}), 3)

    def test_same_everywhere(self) -> None:
        """The first turns of a seed, as SHAKE-128 gives them."""
        self.assertEqual(list(Site(64, 10, 0).turns_of(0)[:4]), [byte % 64 for byte in hashlib.shake_128(b"0 0 turns").digest(4)])


@needs("site_sheet")
class Sheets(unittest.TestCase):
    def test_examples(self) -> None:
        """The library gives the definitions' sheets, and they are read and printed back."""
        sheets = [text.replace("\\n", "\n").encode() for text in re.findall(r'"(answer [^"]*)"', EXAMPLES)]
        self.assertEqual(len(sheets), len(INPUTS))
        for (sizes, warm_up, calls, turns), sheet in zip(INPUTS, sheets):
            given = load().site_sheet(site_file(sizes, warm_up, calls), bytes(turns))
            self.assertEqual(given, sheet)
            self.assertEqual(SiteSheet.parse(given).to_bytes(), given)

    def test_values(self) -> None:
        sheet = SiteSheet.parse(load().site_sheet(site_file(*INPUTS[1][:3]), bytes(INPUTS[1][3])))
        threads = ThreadCost(2, 0), ThreadCost(2, 1)
        self.assertEqual(sheet, SiteSheet(0, 26, Measured(Turns(30, 4, 0, 0), Calls(4, 2), Rows(26, 1, 9, 3), Waits(1, 9, 4, 1), Waits(1, 17, 17, 1), threads)))

    def test_refusals(self) -> None:
        """Those of the definitions' inputs that need no more turns than can be lent here."""
        tried = 0
        for refusal, listed, turns in re.findall(r"input (\d+) \(([^)]*)\) (\d+)", EXAMPLES):
            file = bytes(map(int, re.findall(r"\d+", listed)))
            if turns == "0":
                tried += 1
                self.assertEqual(SiteSheet.parse(load().site_sheet(file, b"")), SiteSheet(int(refusal), 0))
                with self.assertRaisesRegex(BenchError, f"^the site is refused with {refusal}$"):
                    site_run(file, b"", load())
        self.assertEqual(tried, 6)
        with self.assertRaisesRegex(BenchError, "^row 6: the site is refused with 7$"):
            site_run(site_file(*INPUTS[5][:3]), bytes(INPUTS[5][3]), load())

    def test_what_is_no_bytes(self) -> None:
        for site, turns, why in (("x", b"", "the site must be bytes, not str"), (b"", [0], "the turns must be bytes, not list")):
            with self.assertRaisesRegex(BenchError, f"^{why}$"):
                load().site_sheet(site, turns)  # type: ignore[arg-type]

    @needs("draw_sheet")
    def test_as_the_bench_has_it(self) -> None:
        """Without holding and thinking, until a thread comes to its last call, a site makes the rows of the dispatcher at the same turns."""
        rng = random.Random(81)
        library = load()
        for threads, writers, upgrades in ((1, 10, 10), (3, 30, 0), (8, 10, 20), (19, 5, 5), (64, 10, 0)):
            site, shape = Site(threads, writers, upgrades, hold=0, think=0, seed=rng.randrange(99)), Shape(rng.randint(1, 32), (rng.randint(1, 16),))
            turns = site.turns_of(0)[: 40 * threads]
            calls = calls_of(site, shape)
            rows = tuple(Row(thread, order) for thread, part in enumerate(calls) for order in part)
            given = Schedule.from_bytes(library.draw_sheet(Schedule(shape.nodes, shape.fan, threads, rows).to_bytes(), turns).schedule)
            ran = library.bench_sheet(given.to_bytes())
            kinds, words = ran.journal[: len(given.rows)], ran.journal[len(given.rows) :]
            measured = site_run(site_file((shape.nodes, shape.fan, threads, 0, 0), 0, {thread: list(part) for thread, part in enumerate(calls)}), turns, library)
            self.assertEqual(measured.rows, Rows(len(given.rows), kinds.count(FAILED), words.count(ROOT), kinds.count(HELD_UP)))
            self.assertEqual(measured.turns, Turns(len(turns), len(turns) - len(given.rows), 0, 0))
            begun = Counter(row.thread for row in given.rows if row.order != orders.GO_ON)
            self.assertEqual(sum(begun.values()), sum(measured.calls))
            self.assertEqual(sum(thread.failed for thread in measured.threads), measured.rows.failed)

    def test_warm_up_does_not_count(self) -> None:
        """What is measured behind a warm-up and in it add up to what is measured without one."""
        site, shape = Site(7, 20, 10, turns=8000), Shape(5, (2,))
        file, turns = site.file(shape, 0), site.turns_of(0)
        without = file[:7] + bytes(4) + file[HEAD:]
        behind, before, all_of = site_run(file, turns, load()), site_run(without, turns[: site.warm_up], load()), site_run(without, turns, load())
        for name in ("turns", "rows"):
            self.assertEqual([one + other for one, other in zip(getattr(behind, name), getattr(before, name))], list(getattr(all_of, name)))
        self.assertEqual(behind.calls.finished + before.calls.finished, all_of.calls.finished)


class Damaged(unittest.TestCase):
    SHEET = b"answer 0 at 7\nturns 11 1 2 1\ncalls 2 1\nrows 7 0 4 0\nwrite-locks 0 0 0 0\nread-locks 1 2 2 1\nthread 0 2 0\n"

    def test_lines(self) -> None:
        self.assertEqual(SiteSheet.parse(self.SHEET).to_bytes(), self.SHEET)
        for old, new, line in (
            (b"turns 11", b"turn 11", 2),
            (b"turns 11 1 2 1", b"turns 11 1 2", 2),
            (b"calls 2 1", b"calls 2 -1", 3),
            (b"rows 7", b"rows 07", 4),
            (b"read-locks 1 2 2 1\n", b"", 6),
            (b"thread 0", b"thread 1", 7),
            (b"thread 0 2 0", b"thread 0 2 0 0", 7),
        ):
            with self.assertRaisesRegex(BenchError, rf"^sheet, line {line}: expected the .* line$"):
                SiteSheet.parse(self.SHEET.replace(old, new))

    def test_cut(self) -> None:
        """A sheet that is cut anywhere is none, but for one that ends with its answer or with a thread's line."""
        for end in range(len(self.SHEET)):
            cut = self.SHEET[:end]
            if cut.endswith(b"\n") and cut.count(b"\n") in (1, 6):
                self.assertEqual(SiteSheet.parse(cut).to_bytes(), cut)
            else:
                self.assertRaises(BenchError, SiteSheet.parse, cut)

    def test_library_without_it(self) -> None:
        class Lacking:
            """Stands in for a library that was built before there was the function."""

        library = load().__class__.__new__(load().__class__)
        library._library, library.path = Lacking(), load().path  # type: ignore[assignment]
        with self.assertRaisesRegex(LibraryError, "the library has no function site_sheet$"):
            library.site_sheet(b"", b"")
