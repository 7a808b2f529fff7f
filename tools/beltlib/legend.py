"""The legend under the plan."""

from dataclasses import dataclass

from beltlib.hits import decimals
from beltlib.labels import text_width
from beltlib.layout import Layout
from beltlib.page import round_step
from beltlib.signs import (
    HEAD, arrow_head, chevron, circled_dot, crossed_square, hit_mark, later_mark, scale_bar
)
from beltlib.svg import Flat, circle, element, group, line, number, polygons, text

ROW = 22.0
GAP = 8.0
BETWEEN = 22.0
WIDE = 28.0
BAR = 60.0


@dataclass(frozen=True)
class Entry:
    """A sign, drawn around the origin and so wide, and what it means."""

    sign: str
    width: float
    words: str

    def full_width(self) -> float:
        """The room that sign and words take."""
        return self.width + GAP + text_width(self.words)


def draw_legend(
    layout: Layout, listed: bool, corner: Flat, width: float
) -> tuple[list[str], float]:
    """The elements of a legend whose upper left corner is given, and its height."""
    parts = []
    rows = rows_of(entries_of(layout, listed), width)
    for i, row in enumerate(rows):
        x, y = corner[0], corner[1] + ROW * (i + 0.5)
        for entry in row:
            place = f"translate({number(x + entry.width / 2)} {number(y)})"
            parts.append(element("g", entry.sign, transform=place))
            parts.append(text((x + entry.width + GAP, y + 4), entry.words, "key", "start"))
            x += entry.full_width() + BETWEEN
    return parts, ROW * len(rows)


def rows_of(entries: list[Entry], width: float) -> list[list[Entry]]:
    """The entries in rows as wide as the plan or narrower."""
    rows: list[list[Entry]] = []
    left = 0.0
    for entry in entries:
        if entry.full_width() > left:
            rows.append([])
            left = width
        rows[-1].append(entry)
        left -= entry.full_width() + BETWEEN
    return rows


def entries_of(layout: Layout, listed: bool) -> list[Entry]:
    """The signs that the plan has, whose hits it tells or a list does."""
    step = round_step(BAR / layout.page.scale)
    bar = step * layout.page.scale
    entries = [Entry(scale_bar(bar), bar, f"{step:.{decimals(step)}f} m")]
    if layout.belt.pieces:
        entries.append(belt_entry())
    if layout.belt.pieces > 1:
        entries.append(end_entry(layout.end_stride()))
    control = across("control") + circle((0.0, 0.0), 2.0, "knot")
    return [*entries, Entry(control, WIDE, "control points"), *beam_entries(layout, listed)]


def belt_entry() -> Entry:
    """The belt."""
    x, y = WIDE / 2, 6.0
    corners = [(-x, -y), (x, -y), (x, y), (-x, y)]
    band = polygons([corners], "rim") + polygons([corners], "belt")
    way = arrow_head((HEAD / 2, 0.0), (1.0, 0.0), "way")
    return Entry(band + across("middle") + way, WIDE, "belt, middle line, way of the metres")


def end_entry(stride: int) -> Entry:
    """The ends between pieces."""
    words = "end of a piece" if stride == 1 else f"end of a piece, one in {stride}"
    return Entry(line((0.0, -6.0), (0.0, 6.0), "end"), 4.0, words)


def beam_entries(layout: Layout, listed: bool) -> list[Entry]:
    """The beams and the hits."""
    kinds = {trace.kind for trace in layout.traces}
    origin = (0.0, 0.0)
    entries = []
    if any(trace.end is None for trace in layout.traces):
        entries.append(Entry(circled_dot(origin), 14.0, "beam straight through the plan"))
    if any(trace.end is not None for trace in layout.traces):
        head = arrow_head((WIDE / 2, 0.0), (1.0, 0.0), "head")
        entries.append(Entry(across("ray") + head, WIDE, "beam"))
    if any(trace.away is not None for trace in layout.traces):
        words = "origin outside, with its distance"
        entries.append(Entry(chevron((-HEAD / 2, 0.0), (1.0, 0.0)), HEAD, words))
    if layout.marks:
        words = "hit, with its beam" if listed else "hit, with its beam, metre and height z"
        entries.append(Entry(hit_mark(origin), 10.0, words))
    if any(mark.order > 1 for mark in layout.marks):
        entries.append(Entry(later_mark(origin), 10.0, "hit behind another of its beam"))
    if "miss" in kinds:
        entries.append(Entry(group("miss", [across("ray")]), WIDE, "beam that misses"))
    if "refused" in kinds:
        entries.append(Entry(crossed_square(origin), 12.0, "refused beam, with the number"))
    return entries


def across(class_: str) -> str:
    """A line as wide as a wide sign."""
    return line((-WIDE / 2, 0.0), (WIDE / 2, 0.0), class_)
