"""The list under the plan of hits that are too many to be told in it."""

import math

from beltlib.labels import text_width
from beltlib.layout import Layout
from beltlib.marks import told_of
from beltlib.svg import Flat, text

ROW = 15.0
BETWEEN = 20.0
HEADING = "Hits, by beam and in their order along it, with metre and height z:"


def draw_list(layout: Layout, corner: Flat, width: float) -> tuple[list[str], float]:
    """The elements of a list whose upper left corner is given, and its height."""
    lines = lines_of(layout)
    if not lines:
        return [], 0.0
    column = max(map(text_width, lines)) + BETWEEN
    rows = math.ceil(len(lines) / max(1, int((width + BETWEEN) // column)))
    parts = [text((corner[0], corner[1] + ROW), HEADING, "key", "start")]
    for i, words in enumerate(lines):
        x, y = corner[0] + column * (i // rows), corner[1] + ROW * (i % rows + 2)
        parts.append(text((x, y), words, "listed", "start"))
    return parts, ROW * (rows + 1)


def lines_of(layout: Layout) -> list[str]:
    """A line for each hit, those of a beam along it."""
    return [
        f"{beam}{words}"
        for beam, hits in layout.by_beam.items()
        for words in told_of(hits, layout.several(beam), "")
    ]
