"""What a sweep makes of its costs: figures with their spread, the shape to take, and how both are shown."""

from __future__ import annotations

import csv
import io
import json
import math
import random
import shutil
import subprocess
import tempfile
import unittest
from dataclasses import replace
from html.parser import HTMLParser
from pathlib import Path
from unittest.mock import patch
from xml.etree import ElementTree

from lock_bench.findings import COLUMNS, NAMES, Findings, Pair, named
from lock_bench.heatmap import MOST_MAPS, Scale, colour, is_dark, luminance, to_page, to_svg
from lock_bench.measure import Cost, Waits
from lock_bench.progress import bar
from lock_bench.site import Shape, Site, shapes
from lock_bench.sweep_report import LEGEND, Report, advice, best_table, chosen, full_table, sentence

from .support import PATIENCE

SVG = "{http://www.w3.org/2000/svg}"
FAILED, DONE = COLUMNS[0], COLUMNS[1]


def pair(failed: int, calls: int = 50, waiting: int = 0) -> Pair:
    """The costs of a run that differ in the failed swaps."""
    writer = Waits(4, 30, waiting, 60 * waiting, 90) if calls else Waits(0, 0, waiting, 60 * waiting, 90)
    cost = Cost(calls, 3, 500, failed, 100, 20, writer, Waits(20, 10, 0, 0, 80))
    return Pair(cost, cost._replace(failed=2 * failed))


def findings(*of: tuple[Shape, list[int]], site: Site = Site(2, 10, 0)) -> Findings:
    """Findings of shapes with these failed swaps in each round, of 50 calls a round."""
    trees, failed = zip(*of)
    return Findings(site, trees, tuple(tuple(map(pair, one)) for one in zip(*failed)))


def around(middle: int, seed: int, rounds: int = 16, wide: int = 3) -> list[int]:
    """Numbers around one."""
    rng = random.Random(seed)
    return [middle + rng.randint(-wide, wide) for _ in range(rounds)]


TREES = (Shape(1, (1, 2, 3)), Shape(3, (1,)), Shape(3, (2, 3)), Shape(4, (1,)))
#: The third is the best, the second as good, the others worse.
FOUR = findings((TREES[0], around(40, 1)), (TREES[1], around(20, 2)), (TREES[2], around(20, 3)), (TREES[3], around(30, 4)))
#: Nothing tells these apart.
SAME = findings(*((tree, around(20, number)) for number, tree in enumerate(TREES)))


class Figures(unittest.TestCase):
    def test_ratios_of_sums(self) -> None:
        """Of 10 and 30 calls with 5 and 6 failed swaps, 27.5 per 100 calls, and not the mean of 50 and 20."""
        found = Findings(Site(2, 10, 0), TREES[:1], ((pair(5, 10),), (pair(6, 30),)))
        self.assertEqual(found.values(FAILED), [27.5])
        self.assertEqual(found.values(DONE), [40.0])
        values = {column.name: found.values(column)[0] for column in COLUMNS}
        self.assertEqual(
            values, {"failed": 27.5, "done": 40.0, "root": 5.0, "held_up": 1.0, "lockstep": 55.0, "writer_wait": 22.5, "reader_wait": 4.0}
        )

    def test_spread(self) -> None:
        figure = FOUR.figures["failed"][0]
        single = sorted(2 * pairs[0].random.failed for pairs in FOUR.rounds)
        self.assertEqual(figure.value, sum(single) / 16)
        self.assertTrue(single[0] < figure.low < figure.value < figure.high < single[-1])
        self.assertEqual((figure.lower_quartile, figure.upper_quartile), (single[3] + 0.75 * (single[4] - single[3]), single[11] + 0.25 * (single[12] - single[11])))
        self.assertEqual(figure.give, (figure.high - figure.low) / 2)

    def test_nothing_to_divide_by(self) -> None:
        """A round without a call finished counts with its failed swaps; a shape without any has no figure, and is worse."""
        some = Findings(Site(2, 10, 0), TREES[:2], tuple((pair(9, 0) if number == 0 else pair(1), pair(20, 0)) for number in range(12)))
        self.assertEqual(some.values(FAILED), [100 * 20 / 550, math.inf])
        self.assertEqual([some.verdict(number) for number in (0, 1)], ["best", "worse"])
        self.assertEqual(some.figures["failed"][1].give, math.inf)
        none = Findings(Site(2, 10, 0), TREES[:2], ((pair(1, 0), pair(2, 0)),) * 12)
        self.assertFalse(none.has_figures or none.is_settled)

    def test_waits(self) -> None:
        """Locks that are still waited for count as such, and their steps as waited; they are no locks got."""
        found = Findings(Site(2, 10, 0), TREES[:1], ((pair(1, waiting=2),), (pair(1),)))
        self.assertEqual(found.waiting, [(2, 50)])
        self.assertEqual(found.longest(0), {"writer_longest": 30, "writer_longest_waiting": 120, "reader_longest": 10, "reader_longest_waiting": 0})


class Verdicts(unittest.TestCase):
    def test_best_as_good_and_worse(self) -> None:
        self.assertEqual(FOUR.shapes[FOUR.best], TREES[2])
        self.assertEqual([FOUR.verdict(number) for number in range(4)], ["worse", "open", "best", "worse"])
        self.assertEqual(FOUR.as_good, [1])

    def test_settled_by_rounds(self) -> None:
        """With more rounds the same is settled: the second is within the margin."""
        found = findings((TREES[0], around(40, 1, 200)), (TREES[1], around(20, 2, 200)), (TREES[2], around(20, 3, 200)))
        self.assertTrue(found.is_settled)
        self.assertEqual([found.verdict(number) for number in range(3)], ["worse", "best", "as good"])
        self.assertEqual(advice(found), [])
        self.assertFalse(FOUR.is_settled)

    def test_margin(self) -> None:
        """What is worse for certain, but by less than the margin, is as good."""
        trees = (TREES[1], around(100, 2, 60)), (TREES[2], around(104, 2, 60))
        self.assertEqual(findings(*trees).verdict(1), "as good")
        self.assertEqual(replace(findings(*trees), margin=2.0).verdict(1), "worse")

    def test_few_rounds_tell_nothing(self) -> None:
        few = replace(FOUR, rounds=FOUR.rounds[:7])
        self.assertEqual([few.verdict(number) for number in range(4)].count("worse"), 0)
        self.assertFalse(few.is_settled)

    def test_more_is_better(self) -> None:
        """Where more calls finished are better, the shape with most is the best."""
        rounds = tuple((pair(5, 40 + number % 3), pair(5, 60 + number % 4)) for number in range(16))
        found = Findings(Site(2, 10, 0), TREES[:2], rounds, DONE)
        self.assertEqual((found.best, found.verdict(0)), (1, "worse"))
        self.assertGreater(found.differences[0].low, 0)

    def test_same_figures(self) -> None:
        """Of shapes with the same figures the smallest is named, and all are as good."""
        found = findings(*((tree, [7] * 12) for tree in reversed(TREES)))
        self.assertEqual(found.shapes[found.best], TREES[0])
        self.assertTrue(found.is_settled)
        self.assertEqual(len(found.as_good), 3)
        nothing = findings(*((tree, [0] * 12) for tree in TREES))
        self.assertTrue(nothing.is_settled)


class Said(unittest.TestCase):
    def test_take(self) -> None:
        figure = FOUR.figures["failed"][2]
        self.assertEqual(
            sentence(FOUR),
            f"Take N 3, F 2-3: {figure.value:.1f} ± {figure.give:.1f} failed swaps per 100 calls against {FOUR.values(FAILED)[0]:.1f} for the root alone; "
            "N 3 with F 1 is as good.",
        )
        self.assertRegex(advice(FOUR)[0], r"^Not settled: of these, 1 may be worse by more than 10 %; --rounds (32|64|128|256) may settle it\.$")
        with patch("lock_bench.sweep_report._MOST_ADVISED", 1):
            self.assertTrue(advice(FOUR)[0].endswith("; a larger --margin than 10 % or fewer shapes may settle it."))

    def test_none_is_as_good(self) -> None:
        found = findings((TREES[0], around(40, 1)), (TREES[3], around(20, 2)))
        self.assertTrue(sentence(found).endswith(" for the root alone; no other is as good."))

    def test_root_alone(self) -> None:
        found = findings((TREES[0], around(20, 1)), (TREES[1], around(40, 2)), (TREES[3], around(40, 2)))
        self.assertRegex(sentence(found), r"^Take the root alone \(N 1\): [0-9.]+ ± [0-9.]+ failed swaps per 100 calls; no other is as good\.$")
        both = findings((TREES[0], around(21, 1)), (TREES[1], around(40, 2)), (TREES[3], around(20, 3)))
        self.assertRegex(sentence(both), r"^Take N 4, F 1: [^;]+ failed swaps per 100 calls; the root alone \([0-9.]+\) is as good\.$")

    def test_data_decide_nothing(self) -> None:
        self.assertRegex(sentence(SAME), r"^The data decide nothing: all 4 shapes are as good \(.* has [0-9.]+ ± [0-9.]+ failed swaps per 100 calls")
        self.assertRegex(advice(SAME)[0], r"^Not settled: of these, 3 may be worse .* so may another column \(--by\)\.$")
        same = findings(*((tree, [7] * 12) for tree in TREES))
        self.assertEqual(advice(same), ["Other columns may tell them apart (--by); if none does, the root alone is the simplest."])

    def test_few_rounds(self) -> None:
        few = replace(FOUR, rounds=FOUR.rounds[:7])
        self.assertRegex(sentence(few), r"^7 rounds are too few to tell shapes apart \(8 at least\); the best so far is N 3, F ")
        self.assertEqual(advice(few), ["Try --rounds 16."])
        self.assertRegex(sentence(replace(FOUR, rounds=FOUR.rounds[:1])), "^1 round is too few ")

    def test_no_figures(self) -> None:
        none = Findings(Site(2, 10, 0), TREES[:2], ((pair(1, 0), pair(2, 0)),) * 12)
        self.assertEqual(
            sentence(none),
            "Nothing can be said: in 12 rounds no shape has a figure for failed swaps per 100 calls. Try fewer --threads, more --steps or another column with --by.",
        )
        said = "\n".join(Report((none,)).lines())
        self.assertIn(sentence(none), said)
        self.assertNotIn("The best in", said)
        self.assertEqual({none.verdict(number) for number in range(2)}, {"open"})

    def test_root_alone_and_nothing_else(self) -> None:
        self.assertRegex(sentence(findings((TREES[0], around(20, 1)))), r"^Only the root alone \(N 1\) was measured: [0-9.]+ ± [0-9.]+ failed swaps per 100 calls\.$")

    def test_shapes_in_words(self) -> None:
        swept = shapes(range(1, 33), range(1, 17))
        good = [shape for shape in swept if 13 <= shape.nodes <= 31 and shape.fans[0] in (3, 4)]
        self.assertEqual(named(good[1:], good[0], swept), "N 13 to 31 with F 3 or 4")
        more = [*good, Shape(5, (1,)), Shape(7, (2,)), Shape(9, (2,)), Shape(32, (9,))]
        self.assertEqual(named(more[1:], good[0], swept), "N 13 to 31 with F 3 or 4, N 5 with F 1, N 7 with F 2 and 2 others")
        few = shapes([1, 3, 7, 15], [1, 2])
        self.assertEqual(named(few[1:], few[1], few), "N 3, 7 and 15 with F 1 or 2")
        # The best itself is named only within a block, not at its end.
        self.assertEqual(named([Shape(7, (1,))], Shape(3, (1,)), few), "N 7 with F 1")
        self.assertEqual(named([Shape(3, (1,)), Shape(15, (1,))], Shape(7, (1,)), few), "N 3, 7 and 15 with F 1")
        self.assertEqual(named([Shape(3, (1,)), Shape(3, (2,)), Shape(7, (2,))], Shape(15, (1,)), few), "N 3 with F 1 or 2 and N 7 with F 2")

    def test_heading(self) -> None:
        heading = Report((FOUR,)).heading()
        self.assertEqual(heading[0], "2 threads, 10 % write: threads want calls without limit, readers lock by leaves; seed 0.")
        self.assertEqual(
            heading[1], "16 rounds, which --rounds 16 repeats; in a round each shape has one run of 4,096 steps at random turns and one of the dispatcher."
        )
        self.assertIn(": 192 calls were under way at the ends, among them 0 of 1,536 locks still waited for", heading[2])


class Tables(unittest.TestCase):
    def test_best_table(self) -> None:
        lines = best_table(FOUR)
        self.assertEqual([line[:16].split() for line in lines[2:]], [[">", "3", "2-3"], ["?", "3", "1"], ["4", "1"], ["1", "1-3"]])
        difference = FOUR.differences[0]
        self.assertTrue(lines[-1].endswith(f" {difference.value:.1f}, from {difference.low:.1f} to {difference.high:.1f}"))
        self.assertNotIn("from", lines[2])

    def test_five_best_and_the_root_alone(self) -> None:
        trees = [Shape(1, (1,)), *(Shape(nodes, (1,)) for nodes in range(2, 12))]
        found = findings(*((tree, around(90 - 5 * number, number)) for number, tree in enumerate(trees)))
        self.assertEqual([int(line[1:6]) for line in best_table(found)[2:]], [11, 10, 9, 8, 7, 1])

    def test_table(self) -> None:
        lines = list(full_table(FOUR))
        self.assertEqual([line[:16].split() for line in lines[2:]], [["1", "1-3"], ["?", "3", "1"], [">", "3", "2-3"], ["4", "1"]])
        for number, line in enumerate(lines[2:]):
            shown = line[16:].replace("±", " ").split()
            for place, column in enumerate(COLUMNS):
                figure = FOUR.figures[column.name][number]
                self.assertEqual(shown[2 * place : 2 * place + 2], [column.text(figure.value), column.text(figure.give)])
            self.assertTrue(line.endswith(" 0 %"))
        by_failed = [line[:16].split() for line in full_table(FOUR, "failed")][2:]
        self.assertEqual(by_failed, [[">", "3", "2-3"], ["?", "3", "1"], ["4", "1"], ["1", "1-3"]])
        self.assertEqual(len({len(line) for line in lines}), 1)

    def test_lines(self) -> None:
        """The sentence comes first, then the best shapes, then the table; with --brief there is no table."""
        lines = list(Report((FOUR,)).lines())
        self.assertEqual(lines[0], sentence(FOUR))
        self.assertLess(lines.index("The best in failed swaps per 100 calls:"), lines.index(next(full_table(FOUR))))
        brief = list(Report((FOUR,)).lines(brief=True))
        self.assertEqual((lines[: len(brief) - 1], lines[-1], brief[-1]), (brief[:-1], LEGEND, LEGEND))
        self.assertNotIn(next(full_table(FOUR)), brief)

    def test_csv(self) -> None:
        lines = list(csv.DictReader(io.StringIO(Report((FOUR,)).to_csv())))
        self.assertEqual([(line["nodes"], line["fan"], line["verdict"]) for line in lines], [
            ("1", "1", "worse"), ("1", "2", "worse"), ("1", "3", "worse"), ("3", "1", "open"), ("3", "2", "best"), ("3", "3", "best"), ("4", "1", "worse"),
        ])  # fmt: skip
        figure = FOUR.figures["root"][1]
        self.assertEqual([float(lines[3][f"root{part}"]) for part in ("", "_low", "_high", "_q1", "_q3")], [2, 2, 2, 2, 2])
        self.assertEqual(figure.value, 2)
        self.assertEqual((lines[0]["calls"], lines[0]["calls_cut"], lines[0]["locks"], lines[0]["locks_waiting"]), ("800", "48", "384", "0"))
        none = Findings(Site(2, 10, 0), TREES[:2], ((pair(1, 0), pair(2, 0)),) * 12)
        self.assertEqual(next(csv.DictReader(io.StringIO(Report((none,)).to_csv())))["failed"], "")

    def test_json(self) -> None:
        found = json.loads(Report((FOUR,)).to_json())
        self.assertEqual((found["rounds"], found["settled"], found["by"], found["margin"]), (16, False, "failed", 10.0))
        self.assertEqual(found["sentences"][0], sentence(FOUR))
        (site,) = found["sites"]
        self.assertEqual((site["threads"], site["writers"], site["calls"]), (2, 10, None))
        self.assertEqual((site["best"], site["as_good"]), ({"nodes": 3, "fans": [2, 3]}, [{"nodes": 3, "fans": [1]}]))
        self.assertEqual([shape["verdict"] for shape in site["shapes"]], ["worse", "open", "best", "worse"])
        self.assertEqual(site["shapes"][0]["figures"]["failed"]["value"], round(FOUR.values(FAILED)[0], 4))
        self.assertEqual(site["shapes"][0]["worse_by"]["low"], round(FOUR.differences[0].low, 4))
        none = Findings(Site(2, 10, 0), TREES[:2], ((pair(1, 0), pair(2, 0)),) * 12)
        self.assertIsNone(json.loads(Report((none,)).to_json())["sites"][0]["shapes"][0]["figures"]["failed"]["value"])


#: Three sites whose best shapes are the second, the third and the fourth; the second is never far from the best.
THREE_SITES = Report(
    tuple(
        findings(*((tree, around(middle, 10 * threads + number)) for number, (tree, middle) in enumerate(zip(TREES, middles))), site=Site(threads, 10, 0))
        for threads, middles in ((2, (80, 40, 60, 90)), (8, (80, 44, 40, 90)), (16, (80, 44, 90, 40)))
    )
)


class SeveralSites(unittest.TestCase):
    def test_one_tree_for_all(self) -> None:
        self.assertRegex(
            THREE_SITES.one_tree(),
            r"^One tree for all 3 sites: N 3, F 1, as good as the best at (each|[12]); its figure is at most 1?[0-9] % worse \((8|16) threads, 10 % write\)\.$",
        )
        excess = [pair[0] for pair in THREE_SITES.excess]
        self.assertEqual(min(excess), excess[1])
        self.assertGreater(excess[0], 70)
        twice = Report((FOUR, FOUR))
        self.assertEqual(twice.one_tree(), "One tree for both sites: N 3, F 2-3, as good as the best at each, and itself the best.")

    def test_no_tree_for_all(self) -> None:
        few = Report(tuple(replace(found, rounds=found.rounds[:7]) for found in THREE_SITES.sites))
        self.assertEqual(few.one_tree(), "7 rounds are too few to name one tree for all 3 sites.")
        self.assertEqual(Report((SAME, SAME)).one_tree(), "The data decide nothing at either site, so no tree is named for all.")
        none = Findings(Site(2, 10, 0), TREES[:2], ((pair(1, 0), pair(2, 0)),) * 12)
        self.assertEqual(Report((none, none)).one_tree(), "No shape has figures at both sites, so none can be taken for all.")

    def test_sentences(self) -> None:
        sentences = THREE_SITES.sentences()
        self.assertEqual(len(sentences), 4)
        for said, found in zip(sentences[1:], THREE_SITES.sites):
            self.assertTrue(said.startswith(f"{found.site.name()}: {sentence(found)}"))

    def test_beside_each_other(self) -> None:
        lines = list(THREE_SITES.lines())
        table = [line for line in lines if line[:6].strip().isdigit()]
        self.assertEqual(len(table), 4)
        for number, line in enumerate(table):
            for found in THREE_SITES.sites:
                self.assertIn(FAILED.text(found.values(FAILED)[number]), line)
        self.assertIn("  (2) 8 threads, 10 % write", lines)
        many = Report(THREE_SITES.sites * 4)
        self.assertIn("(8 of 12 sites; --csv and --json have all)", list(many.lines()))
        by_root = [line[:16].split() for line in THREE_SITES.beside("failed")][-4:]
        self.assertEqual(by_root, [["3", "1"], ["3", "2-3"], ["1", "1-3"], ["4", "1"]])

    def test_chosen_evenly(self) -> None:
        sites = [findings((TREES[0], [1] * 8), site=Site(threads, 10, 0)) for threads in range(8, 65)]
        self.assertEqual([found.site.threads for found in chosen(sites, 8)], [8, 16, 24, 32, 40, 48, 56, 64])
        self.assertEqual(chosen(sites[:5], 8), sites[:5])

    def test_csv_has_every_site(self) -> None:
        lines = list(csv.DictReader(io.StringIO(THREE_SITES.to_csv())))
        self.assertEqual([line["threads"] for line in lines], ["2"] * 7 + ["8"] * 7 + ["16"] * 7)

    def test_a_map_for_each_site(self) -> None:
        picture = ElementTree.fromstring(to_svg(THREE_SITES))
        self.assertEqual([group[0].text for group in picture.findall(f"{SVG}g")], ["2 threads, 10 % write", "8 threads, 10 % write", "16 threads, 10 % write"])
        many = ElementTree.fromstring(to_svg(Report(THREE_SITES.sites * 10)))
        self.assertEqual(len(many.findall(f"{SVG}g")), MOST_MAPS)
        self.assertIn("30 sites: failed swaps per 100 calls at 12 of them", "".join(many.itertext()))
        self.assertEqual(_Parsed(to_page(THREE_SITES)).open, [])


class Pictures(unittest.TestCase):
    def panels(self, found: Findings) -> list[ElementTree.Element]:
        return ElementTree.fromstring(to_svg(Report((found,)))).findall(f"{SVG}g")

    def test_a_cell_for_each_shape_and_column(self) -> None:
        panels = self.panels(FOUR)
        self.assertEqual(len(panels), len(NAMES))
        titles = [str(title.text) for title in panels[0].iter(f"{SVG}title")]
        give = FOUR.figures["failed"][0].give
        self.assertEqual(titles[0], f"N 1 F 1-3, failed swaps per 100 calls: {FOUR.values(FAILED)[0]:.1f} ± {give:.1f}, worse")
        self.assertEqual([title.split(", ")[-1] for title in titles], ["worse", "as good", "the best", "worse"])
        self.assertEqual([circle.attrib["class"] for circle in panels[0].iter(f"{SVG}circle")], ["good", "best"])

    def test_cells_fill_the_map(self) -> None:
        """The cells of a map lie side by side: N to the right, F upwards, equal trees as one cell."""
        cells = self.panels(FOUR)[0].findall(f"{SVG}g")
        boxes = [tuple(int(cell[1].attrib[side]) for side in ("x", "y", "width", "height")) for cell in cells]
        self.assertEqual(boxes, [(0, 0, 58, 42), (58, 28, 58, 14), (58, 0, 58, 28), (116, 28, 58, 14)])

    def test_colours_go_by_value(self) -> None:
        """Three shapes of which the middle one is near the best have it near the best's colour."""
        scale = Scale(FAILED, [10.0, 20.0, 110.0])
        self.assertEqual(scale.place(10.0), 0)
        self.assertLess(scale.place(20.0), 0.15)
        self.assertEqual(scale.place(110.0), 1)
        rising = Scale(DONE, [10.0, 20.0, 110.0])
        self.assertEqual((rising.place(110.0), rising.place(10.0)), (0, 1))
        self.assertEqual((rising.figure(0), round(rising.figure(1), 9)), (110, 12))
        alike = Scale(FAILED, [3.0, 3.0])
        self.assertEqual((alike.place(3.0), alike.has_more), (0, False))

    def test_one_bad_shape_does_not_hide_the_others(self) -> None:
        scale = Scale(FAILED, [*map(float, range(100)), 1e6])
        self.assertTrue(scale.has_more)
        self.assertGreater(scale.place(50.0), 0.4)
        self.assertEqual(scale.place(1e6), 1)

    def test_scale_labels_do_not_run_together(self) -> None:
        """Letters of 11 points are 7 wide at most."""
        for found in (FOUR, findings(*((tree, around(90_000, number)) for number, tree in enumerate(shapes(range(1, 33), [1, 2]))))):
            for panel in self.panels(found):
                start, middle, end = [text for text in panel.findall(f"{SVG}text") if "text-anchor" in text.attrib.get("style", "")]
                half = 7 * len(str(middle.text)) / 2
                self.assertLess(7 * len(str(start.text)), float(middle.attrib["x"]) - half)
                self.assertLess(float(middle.attrib["x"]) + half, float(end.attrib["x"]) - 7 * len(str(end.text)))

    def test_colours_get_darker(self) -> None:
        """A reader who sees no colours can tell them, and read the figures on them: the contrast is 4 to 1 at least."""
        steps = [luminance(colour(place / 50)) for place in range(51)]
        self.assertEqual(steps, sorted(steps, reverse=True))
        self.assertGreater(steps[0] - steps[-1], 0.7)
        ink = luminance("#1c2126")
        for place in range(51):
            fill = colour(place / 50)
            light, dark = sorted((luminance(fill), 1.0 if is_dark(fill) else ink), reverse=True)
            self.assertGreaterEqual((light + 0.05) / (dark + 0.05), 4, fill)

    def test_missing_figures(self) -> None:
        none = Findings(Site(2, 10, 0), TREES[:2], ((pair(1, 0), pair(2, 0)),) * 12)
        self.assertIn("no figures", to_svg(Report((none,))))
        self.assertEqual(_Parsed(to_page(Report((none,)))).open, [])

    def test_all_shapes(self) -> None:
        """The picture of all 377 shapes is at most two screens of 800 points high, and no two labels of an axis run together."""
        trees = shapes(range(1, 33), range(1, 17))
        rng = random.Random(62)
        found = findings(*((tree, [rng.randrange(50) for _ in range(8)]) for tree in trees))
        picture = ElementTree.fromstring(to_svg(Report((found,))))
        self.assertLessEqual(int(picture.attrib["height"]) * min(1.0, 1226 / int(picture.attrib["width"])), 1600)
        for panel in picture.findall(f"{SVG}g"):
            self.assertEqual(len(panel.findall(f"{SVG}g")), len(trees))
            along = [(float(text.attrib["x"]), str(text.text)) for text in panel.findall(f"{SVG}text") if text.attrib.get("class") == "axis"]
            across = sorted(place for place, _ in along if place > 0)
            self.assertGreater(len(across), 10)
            self.assertTrue(all(other - one >= 18 for one, other in zip(across, across[1:])))
        self.assertLess(len(to_page(Report((found,)))), 1_500_000)
        twelve = Report((found,) * MOST_MAPS)
        self.assertLessEqual(int(ElementTree.fromstring(to_svg(twelve)).attrib["height"]), 1600)


class _Parsed(HTMLParser):
    """The elements of a page, with a check that each is closed."""

    EMPTY = ("meta", "link", "br")

    def __init__(self, page: str) -> None:
        super().__init__()
        self.open: list[str] = []
        self.elements: list[tuple[str, dict[str, str | None]]] = []
        self.feed(page)
        self.close()

    def handle_starttag(self, tag: str, attrs: list[tuple[str, str | None]]) -> None:
        self.elements.append((tag, dict(attrs)))
        if tag not in self.EMPTY:
            self.open.append(tag)

    def handle_startendtag(self, tag: str, attrs: list[tuple[str, str | None]]) -> None:
        self.elements.append((tag, dict(attrs)))

    def handle_endtag(self, tag: str) -> None:
        assert self.open.pop() == tag, tag


class Pages(unittest.TestCase):
    def test_page(self) -> None:
        report = Report((FOUR,))
        page = to_page(report)
        parsed = _Parsed(page)
        self.assertEqual(parsed.open, [])
        self.assertEqual([tag for tag, _ in parsed.elements].count("tr"), 1 + 4)
        for said in (*report.sentences(), *report.heading(), best_table(FOUR)[-1]):
            self.assertIn(said, page)
        self.assertIn(to_svg(report), page)
        self.assertNotIn("$", page.split("<script>")[0])

    def test_page_asks_for_nothing(self) -> None:
        """No element names a place to load from, and the policy would not let it."""
        parsed = _Parsed(to_page(Report((FOUR,))))
        for tag, attributes in parsed.elements:
            for name in ("src", "href", "action", "data"):
                self.assertIn(attributes.get(name), (None, "data:,"), tag)
        policies = [attributes["content"] for tag, attributes in parsed.elements if attributes.get("http-equiv") == "Content-Security-Policy"]
        self.assertTrue(str(policies[0]).startswith("default-src 'none';"))
        self.assertNotIn("url(h", to_page(Report((FOUR,))))

    @unittest.skipUnless(shutil.which("chromium"), "chromium is not installed (bindings/python/check installs it)")
    def test_sorted_in_a_browser(self) -> None:
        """The table as the browser has it, as written and with a link that sorts it."""
        missing = Findings(Site(2, 10, 0), (*TREES, Shape(9, (1,))), tuple((*pairs, pair(3, 0)) for pairs in FOUR.rounds))
        shown = {
            "": ["1", "3", "3", "4", "9"],
            "#sort=failed": ["3", "3", "4", "1", "9"],
            "#sort=-failed": ["9", "1", "4", "3", "3"],
            "#sort=verdict": ["3", "3", "1", "4", "9"],
            "#sort=no_such": ["1", "3", "3", "4", "9"],
        }
        with tempfile.TemporaryDirectory(ignore_cleanup_errors=True) as folder:
            page = Path(folder) / "sweep.html"
            page.write_text(to_page(Report((missing,))))
            for fragment, nodes in shown.items():
                command = ["chromium", "--headless=new", "--no-sandbox", "--disable-gpu", f"--user-data-dir={folder}/profile", "--dump-dom"]
                done = subprocess.run([*command, page.as_uri() + fragment], capture_output=True, text=True, timeout=PATIENCE, check=True)
                body = done.stdout.split("<tbody>")[1].split("</tbody>")[0]
                rows = [row.split("<td")[2].split(">")[1].split("<")[0] for row in body.split("</tr>") if "<td" in row]
                self.assertEqual(rows, nodes, fragment)


class Progress(unittest.TestCase):
    def test_bar(self) -> None:
        self.assertEqual(bar(0, 50, 0.0, 40), f"[{'.' * 30}]   0 %")
        self.assertEqual(bar(25, 50, 7.0, 40), f"[{'#' * 9}{'.' * 10}]  50 %, 0:07 left")
        self.assertEqual(bar(50, 50, 7.0, 40), f"[{'#' * 19}] 100 %, 0:00 left")

    def test_label(self) -> None:
        self.assertEqual(bar(25, 50, 7.0, 60, "rounds to 12"), f"rounds to 12 [{'#' * 13}{'.' * 13}]  50 %, 0:07 left")
        # Where there is no room for both, the bar is more.
        self.assertEqual(bar(25, 50, 7.0, 40, "rounds to 12"), bar(25, 50, 7.0, 40))

    def test_time_left(self) -> None:
        self.assertTrue(bar(1, 100, 60.0, 80).endswith("  1 %, 1:39:00 left"))
        self.assertTrue(bar(50, 100, 90.0, 80).endswith(" 50 %, 1:30 left"))
        # The first results say too little.
        self.assertTrue(bar(1, 1000, 60.0, 80).endswith("  0 %"))
        self.assertTrue(bar(1, 2, 0.1, 80).endswith(" 50 %"))

    def test_never_wider_than_the_terminal(self) -> None:
        for columns in range(20, 200, 7):
            for done in range(101):
                self.assertLess(len(bar(done, 100, 1000.0, columns)), columns)
