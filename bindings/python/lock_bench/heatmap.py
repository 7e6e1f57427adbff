"""A sweep's figures as heat maps: a picture (SVG), and a page that needs nothing else.

Of one site there is a map for each column, of several a map for each site. Colours go by value, light for the best and dark for the worst; so that one bad
shape does not make all others look alike, all beyond the 90 % quantile have the darkest colour, and the scale says so. The colours are those of the map
`cividis`, which readers with and without colour blindness see alike.
"""

from __future__ import annotations

import html
import math
from collections.abc import Iterator, Sequence
from dataclasses import dataclass
from importlib import resources
from string import Template
from typing import Final

from .findings import COLUMNS, Column, Figure, Findings
from .site import Shape
from .sweep_report import MARKS, Report, best_table, chosen
from .sweep_statistics import quantile

# cividis at equal distances, from its light end on.
_COLOURS: Final = tuple(bytes.fromhex(colour) for colour in ("fee838", "d2bf5c", "a49b70", "7b7a77", "555b6c", "253d6b", "00224e"))
_MISSING: Final = "#d9d9d9"
# On a colour of this luminance white and the ink are equally easy to read.
_HALF_LIGHT: Final = 0.21
# The share of the figures that the colours are spread over.
_SPREAD: Final = 0.9
# The sites that have a map; with more the picture would be higher than two screens.
MOST_MAPS: Final = 12

# Lengths in the picture's points. Cells are as wide as the map allows.
_MAP_WIDTH: Final = 352
_CELL_HIGH: Final = 14
_CELL_LEAST, _CELL_MOST = 11, 58
# From this width on a cell has its figure in it.
_CELL_TELLS: Final = 40
_LEFT, _TOP, _BOTTOM, _GAP = 28, 24, 50, 22
_HEAD: Final = 52
_ACROSS: Final = 3
_SCALE_LEAST: Final = 280
_SCALE_HIGH: Final = 8
# A label of two digits needs this much.
_LABEL_WIDE: Final = 18
_STYLE: Final = """\
text{font:11px system-ui,"Segoe UI",Roboto,"DejaVu Sans",sans-serif;fill:#1c2126}
.name{font-size:13px;font-weight:650}
.head{font-size:15px;font-weight:650}
.axis{fill:#59616b;text-anchor:middle}
.cell{text-anchor:middle}
.on-dark{fill:#fff}
.best{fill:#fff;stroke:#000;stroke-width:1.5}
.good{fill:#000;stroke:#fff;stroke-width:.8}
"""


def colour(place: float) -> str:
    """The colour at a place from 0 to 1."""
    step = place * (len(_COLOURS) - 1)
    low = min(int(step), len(_COLOURS) - 2)
    parts = (round(one + (other - one) * (step - low)) for one, other in zip(_COLOURS[low], _COLOURS[low + 1]))
    return "#" + "".join(f"{part:02x}" for part in parts)


def luminance(fill: str) -> float:
    """How light a colour is, from 0 to 1, as the rules for accessible web content reckon it."""
    parts = (int(fill[at : at + 2], 16) / 255 for at in (1, 3, 5))
    red, green, blue = (part / 12.92 if part <= 0.04045 else math.pow((part + 0.055) / 1.055, 2.4) for part in parts)
    return 0.2126 * red + 0.7152 * green + 0.0722 * blue


def is_dark(fill: str) -> bool:
    """Whether white is easier to read on a colour than the ink."""
    return luminance(fill) < _HALF_LIGHT


@dataclass(frozen=True, slots=True)
class Map:
    """A heat map: its title, and the column and the site that it is of."""

    title: str
    column: Column
    found: Findings


def maps(report: Report) -> list[Map]:
    """The maps of a report."""
    if len(report.sites) == 1:
        return [Map(column.title, column, report.first) for column in COLUMNS]
    return [Map(found.site.name(), report.by, found) for found in chosen(report.sites, MOST_MAPS)]


class Scale:
    """From figures to colours, straight from the best figure to the worst, or to the 90 % quantile, so that few bad ones do not hide the others."""

    def __init__(self, column: Column, figures: Sequence[float]) -> None:
        self.column = column
        worths = sorted(column.worth(figure) for figure in figures if math.isfinite(figure))
        self.has_figures = bool(worths)
        self._best, self._last = (worths[0], quantile(worths, _SPREAD)) if worths else (0.0, 0.0)
        self.has_more = bool(worths) and worths[-1] > self._last

    def place(self, figure: float) -> float:
        """The place of a figure on the scale, from 0 to 1."""
        if self._last == self._best:
            return float(self.column.worth(figure) > self._last)
        return min(1.0, (self.column.worth(figure) - self._best) / (self._last - self._best))

    def figure(self, place: float) -> float:
        """The figure at a place."""
        return abs(self._best + (self._last - self._best) * place)


class _Layout:
    """Where the cells and the maps are: N goes to the right, F upwards."""

    def __init__(self, shapes: Sequence[Shape], count: int) -> None:
        self.nodes = sorted({shape.nodes for shape in shapes})
        self.fans = sorted({fan for shape in shapes for fan in shape.fans})
        self.cell_wide = max(_CELL_LEAST, min(_CELL_MOST, _MAP_WIDTH // len(self.nodes)))
        self.map_wide = self.cell_wide * len(self.nodes)
        self.map_high = _CELL_HIGH * len(self.fans)
        # A scale needs room for its numbers even where there are few cells.
        self.scale_wide = max(self.map_wide, _SCALE_LEAST)
        self.panel_wide = _LEFT + self.scale_wide
        self.panel_high = _TOP + self.map_high + _BOTTOM
        self.across = min(_ACROSS, count)
        self.down = -(-count // self.across)
        self.wide = max(self.across * self.panel_wide + (self.across + 1) * _GAP, 640)
        self.high = _HEAD + self.down * self.panel_high + (self.down - 1) * (_GAP // 2) + _GAP // 2

    def corner(self, number: int) -> tuple[int, int]:
        """The upper left corner of the map of this number, without its title and axes."""
        down, across = divmod(number, self.across)
        return _GAP + across * (self.panel_wide + _GAP) + _LEFT, _HEAD + down * (self.panel_high + _GAP // 2) + _TOP

    def cell(self, shape: Shape) -> tuple[int, int, int]:
        """The left and upper side of a shape's cell within its map, and its height: all fan-outs that give the tree are one cell."""
        top = len(self.fans) - 1 - self.fans.index(shape.fans[-1])
        return self.nodes.index(shape.nodes) * self.cell_wide, top * _CELL_HIGH, len(shape.fans) * _CELL_HIGH


def to_svg(report: Report) -> str:
    """The picture."""
    shown = maps(report)
    layout = _Layout(report.first.shapes, len(shown))
    lines = [
        f'<svg xmlns="http://www.w3.org/2000/svg" width="{layout.wide}" height="{layout.high}" viewBox="0 0 {layout.wide} {layout.high}"',
        ' role="img" aria-labelledby="sweep-title">',
        f"<title id=\"sweep-title\">{_escaped(' '.join(['Which tree?', report.sentences()[0]]))}</title>",
        f"<style>{_STYLE}</style>",
        '<defs><linearGradient id="sweep-scale">',
        *(f'<stop offset="{place / 12:.4f}" stop-color="{colour(place / 12)}"/>' for place in range(13)),
        "</linearGradient></defs>",
        f'<rect width="{layout.wide}" height="{layout.high}" fill="#fff"/>',
        *_heading(report, shown),
    ]
    for number, one in enumerate(shown):
        lines += _panel(layout, number, one)
    return "\n".join([*lines, "</svg>"]) + "\n"


def _heading(report: Report, shown: Sequence[Map]) -> Iterator[str]:
    title = report.first.site.name() if len(report.sites) == 1 else f"{len(report.sites)} sites: {report.by.title}"
    if len(report.sites) > len(shown):
        title += f" at {len(shown)} of them"
    yield f'<text class="head" x="{_GAP}" y="22">{_escaped(title)}</text>'
    yield f'<circle class="best" cx="{_GAP + 5}" cy="38" r="4"/><text x="{_GAP + 15}" y="42">best in {_escaped(report.by.title)}</text>'
    left = _GAP + 40 + 6 * len(f"best in {report.by.title}")
    yield f'<circle class="good" cx="{left}" cy="38" r="2.5"/><text x="{left + 9}" y="42">as good</text>'


def _panel(layout: _Layout, number: int, one: Map) -> Iterator[str]:
    """A heat map: its name, its cells, its axes and its scale."""
    x, y = layout.corner(number)
    figures = one.found.figures[one.column.name]
    scale = Scale(one.column, [figure.value for figure in figures])
    yield f'<g transform="translate({x} {y})">'
    yield f'<text class="name" x="0" y="-8">{_escaped(one.title)}</text>'
    for place, figure in enumerate(figures):
        yield _cell(layout, scale, one, place, figure)
    for place, nodes in _labels(layout.nodes, layout.cell_wide):
        yield f'<text class="axis" x="{_middle(place, layout.cell_wide):g}" y="{layout.map_high + 13}">{nodes}</text>'
    for place, fan in enumerate(reversed(layout.fans)):
        yield f'<text class="axis" x="-10" y="{_middle(place, _CELL_HIGH) + 4:g}">{fan}</text>'
    yield f'<text class="axis" x="-12" y="{layout.map_high + 13}">F, N</text>'
    yield from _scale(scale, layout.scale_wide, layout.map_high + 20)
    yield "</g>"


def _labels(numbers: Sequence[int], wide: int) -> Iterator[tuple[int, int]]:
    """The numbers that are written on an axis, with their places: all, or so few that they do not run together."""
    every = -(-_LABEL_WIDE // wide)
    return ((place, number) for place, number in enumerate(numbers) if place % every == 0)


def _cell(layout: _Layout, scale: Scale, one: Map, number: int, figure: Figure) -> str:
    shape, column, verdict = one.found.shapes[number], one.column, one.found.verdict(number)
    left, top, high = layout.cell(shape)
    wide = layout.cell_wide
    has_figure = math.isfinite(figure.value)
    fill = colour(scale.place(figure.value)) if has_figure else _MISSING
    give = f" ± {column.text(figure.give)}" if has_figure else ""
    said = f"{shape}, {one.title}: {column.text(figure.value)}{give}, {'the best' if verdict == 'best' else 'as good' if verdict == 'open' else verdict}"
    parts = [f'<rect x="{left}" y="{top}" width="{wide}" height="{high}" fill="{fill}" stroke="#fff" stroke-width=".6"/>']
    middle = top + high / 2
    if wide >= _CELL_TELLS:
        # The mark has its place before the figure.
        at = left + wide / 2 + 4 * (verdict != "worse")
        parts.append(f'<text class="cell{" on-dark" * is_dark(fill)}" x="{at:g}" y="{middle + 4:g}">{column.text(figure.value)}</text>')
    if verdict != "worse":
        across = left + (7 if wide >= _CELL_TELLS else wide / 2)
        parts.append(f'<circle class="{"best" if verdict == "best" else "good"}" cx="{across:g}" cy="{middle:g}" r="{4 if verdict == "best" else 2.5}"/>')
    return f"<g><title>{_escaped(said)}</title>{''.join(parts)}</g>"


def _scale(scale: Scale, wide: int, top: int) -> Iterator[str]:
    """The scale under a map, with the figures at its ends and in its middle."""
    if not scale.has_figures:
        yield f'<text class="axis" x="{wide / 2:g}" y="{top + 10}">no figures</text>'
        return
    yield f'<rect x="0" y="{top}" width="{wide}" height="{_SCALE_HIGH}" fill="url(#sweep-scale)"/>'
    for place, anchor in ((0.0, "start"), (0.5, "middle"), (1.0, "end")):
        text = scale.column.text(scale.figure(place)) + (" and worse" if place == 1 and scale.has_more else "")
        yield f'<text style="text-anchor:{anchor}" x="{wide * place:g}" y="{top + _SCALE_HIGH + 12}">{text}</text>'


def _middle(place: int, size: int) -> float:
    return place * size + size / 2


def _escaped(text: str) -> str:
    return html.escape(text, quote=True)


def to_page(report: Report) -> str:
    """The page: what to do, the best shapes, the heat maps, and the table."""
    sentences = report.sentences()
    is_one = len(report.sites) == 1
    columns = [(column.name, column.title, column, report.first) for column in COLUMNS] if is_one else [
        (f"site{number}", found.site.name(), report.by, found) for number, found in enumerate(report.sites, 1)
    ]  # fmt: skip
    best = ""
    if is_one and report.first.has_figures:
        lines = _escaped("\n".join(best_table(report.first)))
        best = f'<section class="card" aria-label="the best shapes"><pre>{lines}</pre></section>'
    return Template(resources.files(__package__).joinpath("sweep.html").read_text("utf-8")).substitute(
        title=_escaped(report.first.site.name() if is_one else f"{len(report.sites)} sites"),
        sentence=_escaped(sentences[0]),
        sentences="".join(f"<p>{_escaped(text)}</p>" for text in sentences[1:]),
        heading="".join(f"<p>{_escaped(line)}</p>" for line in report.heading()),
        best=best,
        maps=to_svg(report),
        verdict="&gt; =" if is_one else "worse by at most",
        what=_escaped("a map for each column" if is_one else f"{report.by.title}, a map for each site"),
        columns="".join(f'<th scope="col" data-name="{name}"><button type="button">{_escaped(title)}</button></th>' for name, title, _, _ in columns),
        rows="\n".join(_row(report, number, columns) for number in range(len(report.first.shapes))),
        meanings="".join(f"<dt>{_escaped(column.name)}</dt><dd>{_escaped(column.meaning)}</dd>" for column in COLUMNS),
    )


def _row(report: Report, number: int, columns: Sequence[tuple[str, str, Column, Findings]]) -> str:
    """A row of the page's table; the script sorts by the numbers in `data-v`, where one that is missing is the highest."""
    shape, verdict = report.first.shapes[number], report.first.verdict(number)
    ranks = tuple(MARKS)
    cells = [_number_cell(ranks.index(verdict), f'<b title="{verdict}">{_escaped(MARKS[verdict])}</b>')] if len(report.sites) == 1 else [
        _number_cell(round(min(report.excess[number][0], 1e9), 2), f"{report.excess[number][0]:.0f} %")
    ]  # fmt: skip
    cells += [_number_cell(shape.nodes, str(shape.nodes)), _number_cell(shape.fan, shape.fans_text())]
    for _, _, column, found in columns:
        figure = found.figures[column.name][number]
        if math.isfinite(figure.value):
            mark = "" if len(report.sites) == 1 else f"{_escaped(MARKS[found.verdict(number)])} "
            cells.append(_number_cell(round(figure.value, 6), f"{mark}{column.text(figure.value)} <small>±{column.text(figure.give)}</small>"))
        else:
            cells.append(_number_cell("Infinity", "-"))
    good = len(report.sites) == 1 and verdict != "worse"
    return f"<tr{' class=good' if good else ''}>{''.join(cells)}</tr>"


def _number_cell(value: float | str, shown: str) -> str:
    return f'<td data-v="{value}">{shown}</td>'
