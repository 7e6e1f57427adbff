"""What a sweep found, in words and tables, as CSV and as JSON: for one site, or for several beside each other."""

from __future__ import annotations

import csv
import io
import json
import math
from collections.abc import Iterator, Sequence
from dataclasses import asdict, dataclass
from functools import cached_property
from typing import Final

from .findings import COLUMNS, NAMES, Column, Figure, Findings, counted, listed, named
from .site import Shape, Site
from .sweep_statistics import DRAWS, FIGURE_LEVEL, LEAST_ROUNDS, LEVEL

# The best shapes that have a table of their own.
_BEST: Final = 5
# The sites whose figures stand beside each other in the table for people; CSV and JSON have all.
_BESIDE: Final = 8
# More rounds than this are not advised.
_MOST_ADVISED: Final = 4096

#: What each verdict is marked with in tables.
MARKS: Final = {"best": ">", "as good": "=", "open": "?", "worse": " "}
#: What the marks say.
LEGEND: Final = "> to take   = as good   ? as good as far as these rounds tell   (no mark) worse"


@dataclass(frozen=True)
class Report:
    """What was found for one site or several, on the same shapes and in as many rounds; ``end`` says why no more rounds were made."""

    sites: tuple[Findings, ...]
    end: str = ""

    @property
    def first(self) -> Findings:
        """What was found for the first site; shapes, rounds and the column that decides are the same for all."""
        return self.sites[0]

    @property
    def by(self) -> Column:
        """The column that decides."""
        return self.first.by

    @property
    def is_settled(self) -> bool:
        """Whether every site is."""
        return all(found.is_settled for found in self.sites)

    @cached_property
    def excess(self) -> list[tuple[float, Findings]]:
        """For each shape: how much worse than a site's best it is at most, in percent of that figure, and at which site."""
        found: list[tuple[float, Findings]] = []
        for number in range(len(self.first.shapes)):
            found.append(max(((_excess(site, number), site) for site in self.sites), key=lambda pair: pair[0]))
        return found

    def lines(self, sort: str | None = None, brief: bool = False) -> Iterator[str]:
        """All for people: the sentences first, then the best shapes, then the table, unless it is to be brief."""
        yield from self.sentences()
        yield ""
        yield from self.heading()
        if len(self.sites) == 1 and self.first.has_figures:
            yield ""
            yield from best_table(self.first)
        if not brief:
            yield ""
            yield from full_table(self.first, sort) if len(self.sites) == 1 else self.beside(sort)
        if not brief or len(self.sites) == 1:
            yield LEGEND

    def sentences(self) -> list[str]:
        """What to do; of several sites one tree for all first, then each."""
        if len(self.sites) == 1:
            return [sentence(self.first), *advice(self.first)]
        return [self.one_tree(), *(f"{found.site.name()}: {' '.join([sentence(found), *advice(found)])}" for found in self.sites)]

    def one_tree(self) -> str:
        """The tree that is nowhere far from the best, or why none is named."""
        count = len(self.sites)
        every, any_of = ("both sites", "either site") if count == 2 else (f"all {count} sites", f"any of the {count} sites")
        if not self.first.is_enough:
            return f"{counted(len(self.first.rounds), 'round')} are too few to name one tree for {every}."
        finite = [number for number, (excess, _) in enumerate(self.excess) if math.isfinite(excess)]
        if not finite:
            return f"No shape has figures at {every}, so none can be taken for all."
        if not any(map(decides, self.sites)):
            return f"The data decide nothing at {any_of}, so no tree is named for all."
        number = min(finite, key=lambda number: self.excess[number][0])
        excess, site = self.excess[number]
        good = sum(not found.is_worse(number) for found in self.sites)
        named_so = f"One tree for {every}: {shape_text(self.first.shapes[number])}, as good as the best at {'each' if good == count else good}"
        return f"{named_so}; its figure is at most {excess:.0f} % worse ({site.site.name()})." if excess else f"{named_so}, and itself the best."

    def heading(self) -> list[str]:
        """What was measured, and how."""
        found, count = self.first, len(self.first.rounds)
        site = found.site
        where = site.name() if len(self.sites) == 1 else f"{len(self.sites)} sites"
        calls = "want calls without limit" if site.calls is None else f"want {site.wanted_calls} calls"
        runs = f"each shape has one run of {counted(site.steps, 'step')} at random turns and one of the dispatcher"
        lines = [
            f"{where[:1].upper()}{where[1:]}: threads {calls}, readers lock by {site.routes}; seed {site.seed}.",
            f"{counted(count, 'round')}, {self.end or f'which --rounds {count} repeats'}; in a round {runs}.",
        ]
        waiting, begun = map(sum, zip(*(counts for found in self.sites for counts in found.waiting)))
        cut = sum(pair.random.cut for found in self.sites for pairs in found.rounds for pair in pairs)
        if cut:
            lines.append(
                f"A run is a window, cut at its last step, and figures are of what was done in it: {cut:,} calls were under way at the ends, among them "
                f"{waiting:,} of {begun:,} locks still waited for, which count as waited for and not as got."
            )
        return lines

    def beside(self, sort: str | None) -> Iterator[str]:
        """A table of the figures that decide, or of those that it goes by: a line for each shape, a column for each site."""
        shown = chosen(self.sites, _BESIDE)
        column = self.by if sort is None else COLUMNS[NAMES.index(sort)]
        yield f"{column.title}, for each site:"
        if len(shown) < len(self.sites):
            yield f"({len(shown)} of {len(self.sites)} sites; --csv and --json have all)"
        for number, found in enumerate(shown, 1):
            yield f"  ({number}) {found.site.name()}"
        yield f"{'':16}" + "".join(f"{f'({number})':>16}" for number in range(1, len(shown) + 1)) + f"{'worse by at most':>18}"
        order: Sequence[int] = range(len(self.first.shapes))
        if sort is not None:
            order = sorted(order, key=list(map(column.worth, self.first.values(column))).__getitem__)
        for number in order:
            cells = "".join(f"{MARKS[found.verdict(number)]:>3}{_give(column, found.figures[column.name][number]):>13}" for found in shown)
            excess = self.excess[number][0]
            yield f"{_shape(self.first.shapes[number]):16}{cells}{f'{excess:.0f} %' if math.isfinite(excess) else '-':>18}"

    def to_csv(self) -> str:
        """A line for each site, N and F; those that are the same tree have the same figures."""
        out = io.StringIO()
        lines = csv.writer(out, lineterminator="\n")
        figures = [f"{name}{part}" for name in NAMES for part in ("", "_low", "_high", "_q1", "_q3")]
        compared = ("worse_by", "worse_by_low", "worse_by_high", "verdict")
        lines.writerow(("threads", "writers", "upgrades", "nodes", "fan", "rounds", *figures, *compared, "calls", "calls_cut", "locks", "locks_waiting"))
        for found in self.sites:
            site, rounds = found.site, len(found.rounds)
            for number, shape in enumerate(found.shapes):
                cells = [_number(part) for name in NAMES for part in _parts(found.figures[name][number])]
                difference = found.differences[number]
                apart = [_number(part) for part in (difference.value, difference.low, difference.high)]
                done = [sum(getattr(pairs[number].random, part) for pairs in found.rounds) for part in ("calls", "cut")]
                waiting, begun = found.waiting[number]
                for fan in shape.fans:
                    sizes = (site.threads, f"{site.writers:g}", f"{site.upgrades:g}", shape.nodes, fan, rounds)
                    lines.writerow((*sizes, *cells, *apart, found.verdict(number), *done, begun, waiting))
        return out.getvalue()

    def to_json(self) -> str:
        """Everything but the cost of each run, which a record has."""
        document = {
            "sentences": self.sentences(),
            "rounds": len(self.first.rounds),
            "settled": self.is_settled,
            "by": self.by.name,
            "margin": self.first.margin,
            "method": {"draws": DRAWS, "figure_level": FIGURE_LEVEL, "difference_level": LEVEL, "least_rounds": LEAST_ROUNDS},
            "columns": {column.name: {"meaning": column.meaning, "more_is_better": column.rising} for column in COLUMNS},
            "sites": [_site_document(found) for found in self.sites],
        }
        return json.dumps(document, indent=1, allow_nan=False) + "\n"


def chosen(sites: Sequence[Findings], most: int) -> list[Findings]:
    """The sites, or so many of them, evenly from the first to the last, where they are more."""
    if len(sites) <= most:
        return list(sites)
    return [sites[round(place * (len(sites) - 1) / (most - 1))] for place in range(most)]


def sentence(found: Findings) -> str:
    """The end of the matter for a site: the shape to take, or why none is named."""
    by, shapes, count = found.by, found.shapes, len(found.rounds)
    if not found.has_figures:
        return f"Nothing can be said: in {counted(count, 'round')} no shape has a figure for {by.title}. Try fewer --threads, more --steps or another column with --by."
    best = f"{by.text(found.values(by)[found.best])} ± {by.text(found.figures[by.name][found.best].give)} {by.unit}"
    name = shape_text(shapes[found.best])
    if not found.is_enough:
        return f"{counted(count, 'round')} {'is' if count == 1 else 'are'} too few to tell shapes apart ({LEAST_ROUNDS} at least); the best so far is {name} with {best}."
    root = found.root_alone
    root_text = "" if root is None else by.text(found.values(by)[root])
    if len(shapes) == 1:
        return f"Only {name} was measured: {best}."
    if not decides(found):
        beside = "" if root in (None, found.best) else f", the root alone {root_text}"
        return f"The data decide nothing: all {len(shapes)} shapes are as good ({name} has {best}{beside})."
    against = f" against {root_text} for the root alone" if root is not None and found.is_worse(root) else ""
    return f"Take {name}: {best}{against}{_as_good(found, root_text)}."


def decides(found: Findings) -> bool:
    """Whether the rounds tell any shape from the best."""
    return any(map(found.is_worse, range(len(found.shapes))))


def _as_good(found: Findings, root_text: str) -> str:
    """The shapes that are as good as the one to take, behind it in the sentence."""
    trees = [found.shapes[number] for number in found.as_good if number != found.root_alone]
    parts = [f"the root alone ({root_text})"] if found.root_alone in found.as_good else []
    if trees:
        parts.append(named(trees, found.shapes[found.best], found.shapes))
    if not parts:
        return "; no other is as good"
    first = found.shapes[found.as_good[0]]
    is_one = len(found.as_good) == 1 and (first.is_root_alone or len(first.fans) == 1)
    return f"; {listed(parts)} {'is' if is_one else 'are'} as good"


def advice(found: Findings) -> list[str]:
    """What to try where the rounds do not settle it, in a sentence or none."""
    if not found.has_figures:
        return []
    if not found.is_enough:
        return [f"Try --rounds {2 * LEAST_ROUNDS}."]
    still = [number for number in range(len(found.shapes)) if found.is_open(number)]
    decides_nothing = len(found.shapes) > 1 and not decides(found)
    if not still:
        return ["Other columns may tell them apart (--by); if none does, the root alone is the simplest."] if decides_nothing else []
    rounds = _rounds_needed(found, still)
    more = f"--rounds {rounds} may settle it" if rounds is not None else f"a larger --margin than {found.margin:g} % or fewer shapes may settle it"
    others = "" if not decides_nothing else "; so may another column (--by)"
    return [f"Not settled: of these, {len(still)} may be worse by more than {found.margin:g} %; {more}{others}."]


def _rounds_needed(found: Findings, still: Sequence[int]) -> int | None:
    """The rounds after which the widest interval should be as narrow as the margin, which settles every shape: widths fall as the root of the rounds."""
    widest = max(found.differences[number].high - found.differences[number].low for number in still)
    within = found.margin / 100 * abs(found.values(found.by)[found.best])
    if not within or not math.isfinite(widest):
        return None
    needed = len(found.rounds) * (widest / within) ** 2
    rounds = 2 ** math.ceil(math.log2(needed)) if needed <= _MOST_ADVISED else None
    return None if rounds is None else max(rounds, 2 * len(found.rounds))


def best_table(found: Findings) -> list[str]:
    """The best shapes and the root alone: the figure that decides, how sure it is, and how it compares with the best."""
    by = found.by
    shown = found.order[:_BEST]
    if found.root_alone is not None and found.root_alone not in shown:
        shown = [*shown, found.root_alone]
    lines = [
        f"The best in {by.title}:",
        f"{'':16}{'figure':>10}{f'{100 * FIGURE_LEVEL:.0f} % interval':>20}{'quartiles of rounds':>22}{f'worse than the best by ({100 * LEVEL:.0f} %)':>32}",
    ]
    for number in shown:
        figure, difference = found.figures[by.name][number], found.differences[number]
        apart = "" if number == found.best else f"{by.text(difference.value)}, from {by.text(difference.low)} to {by.text(difference.high)}"
        lines.append(
            f"{MARKS[found.verdict(number)]}{_shape(found.shapes[number]):15}{by.text(figure.value):>10}{_span(by, figure.low, figure.high):>20}"
            f"{_span(by, figure.lower_quartile, figure.upper_quartile):>22}{apart:>32}"
        )
    return lines


# The headings of the table's columns, in two lines.
_HEADINGS: Final = {
    "failed": ("failed swaps", "per 100 calls"),
    "done": ("calls per", "1,000 steps"),
    "root": ("root acc.", "per call"),
    "held_up": ("held up", "per call"),
    "lockstep": ("in lockstep", "failed"),
    "writer_wait": ("wait for a", "write-lock"),
    "reader_wait": ("wait for a", "read-lock"),
}


def full_table(found: Findings, sort: str | None = None) -> Iterator[str]:
    """All shapes with all figures, each with half its interval; the last column has the locks that were still waited for."""
    order: Sequence[int] = range(len(found.shapes))
    if sort is not None:
        column = COLUMNS[NAMES.index(sort)]
        worths = list(map(column.worth, found.values(column)))
        order = sorted(order, key=worths.__getitem__)
    for line in (0, 1):
        yield f"{('', '     N         F')[line]:16}" + "".join(f"{_HEADINGS[name][line]:>14}" for name in NAMES) + f"{('locks', 'waiting')[line]:>9}"
    for number in order:
        cells = "".join(f"{_give(column, found.figures[column.name][number]):>14}" for column in COLUMNS)
        waiting, begun = found.waiting[number]
        yield f"{MARKS[found.verdict(number)]}{_shape(found.shapes[number]):15}{cells}{f'{100 * waiting / begun:.0f} %' if begun else '-':>9}"


def shape_text(shape: Shape) -> str:
    """A shape in a sentence: ``N 18, F 3``."""
    return "the root alone (N 1)" if shape.is_root_alone else f"N {shape.nodes}, F {shape.fans_text()}"


def _shape(shape: Shape) -> str:
    return f"{shape.nodes:>5}{shape.fans_text():>10}"


def _give(column: Column, figure: Figure) -> str:
    return f"{column.text(figure.value)} ±{column.text(figure.give):>4}" if math.isfinite(figure.value) else "-"


def _span(column: Column, low: float, high: float) -> str:
    return f"{column.text(low)} to {column.text(high)}"


def _excess(found: Findings, number: int) -> float:
    """How much worse than the best a shape is, in percent of the best figure."""
    best, figure = found.worth(found.best), found.worth(number)
    if not math.isfinite(figure):
        return math.inf
    if figure == best:
        return 0.0
    return 100 * (figure - best) / abs(best) if best else math.inf


def _parts(figure: Figure) -> tuple[float, ...]:
    return figure.value, figure.low, figure.high, figure.lower_quartile, figure.upper_quartile


def _number(value: float) -> float | None:
    """A figure as CSV and JSON have it: rounded, and nothing where there is none."""
    return round(value, 4) if math.isfinite(value) else None


def site_document(site: Site) -> dict[str, object]:
    """A site as JSON has it."""
    return asdict(site)


def _site_document(found: Findings) -> dict[str, object]:
    return {
        **site_document(found.site),
        "sentence": sentence(found),
        "settled": found.is_settled,
        "best": asdict(found.shapes[found.best]) if found.has_figures else None,
        "as_good": [asdict(found.shapes[number]) for number in found.as_good] if found.has_figures else [],
        "shapes": [
            {
                **asdict(shape),
                "verdict": found.verdict(number),
                "figures": {
                    name: dict(zip(("value", "low", "high", "lower_quartile", "upper_quartile"), map(_number, _parts(found.figures[name][number]))))
                    for name in NAMES
                },
                "worse_by": {name: _number(getattr(found.differences[number], name)) for name in ("value", "low", "high")},
                "calls": sum(pairs[number].random.calls for pairs in found.rounds),
                "calls_cut": sum(pairs[number].random.cut for pairs in found.rounds),
                "locks_begun": found.waiting[number][1],
                "locks_waiting": found.waiting[number][0],
                **found.longest(number),
            }
            for number, shape in enumerate(found.shapes)
        ],
    }
