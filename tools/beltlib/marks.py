"""Hits on the page: where they lie, in which order along their beam, and what is told of them."""

import math
from dataclasses import dataclass
from itertools import groupby

from beltlib.curve import Belt, values
from beltlib.hits import Place, decimals, place_of
from beltlib.numbering import ordinal
from beltlib.places import fixed
from beltlib.plan import Plane
from beltlib.report import Answer, Report
from beltlib.sheet import Sheet
from beltlib.signs import hit_mark, later_mark
from beltlib.svg import Flat

# So many hits of a beam are told in one place; where there are more, the last of them too.
MOST_TOLD = 3


@dataclass(frozen=True)
class Mark:
    """A hit, in the plane or on the page, with its order along the beam from 1."""

    at: Flat
    beam: int
    piece: int
    told: str
    order: int


def marks_of(sheet: Sheet, belt: Belt, plane: Plane, report: Report) -> list[Mark]:
    """The hits in the plane, along each beam, but those that are not finite."""
    marks = []
    for beam, hits in groupby(found(sheet, belt, report), lambda hit: hit[0].beam):
        # Two pieces meet the beam where one ends and the other begins: that is one place.
        orders: dict[str, int] = {}
        for answer, place in hits:
            told = place_text(place, belt.length)
            order = orders.setdefault(told, len(orders) + 1)
            marks.append(Mark(plane.project(place.point), beam, answer.piece, told, order))
    return marks


def found(sheet: Sheet, belt: Belt, report: Report) -> list[tuple[Answer, Place]]:
    """The hits and their places, beam by beam and along each."""
    hits = [(answer, place_of(answer, sheet, belt)) for answer in report.answers if answer.hit]
    finite = [hit for hit in hits if all(map(math.isfinite, (hit[1].metre, *hit[1].point)))]
    return sorted(finite, key=lambda hit: (hit[0].beam, values((hit[0].hit.t,)), hit[0].piece))


def place_text(place: Place, size: float) -> str:
    """The metre and the height, as exactly as suits a belt of a size."""
    return f"{length_text(place.metre, size)}, {height_text(place.point[2], size)}"


def length_text(metre: float, size: float) -> str:
    """A length along a belt of a size."""
    return f"{fixed(metre, decimals(size / 1000))} m"


def height_text(height: float, size: float) -> str:
    """A height at a belt of a size."""
    return f"z {fixed(height, decimals(size / 1000))}"


def told_of(marks: list[Mark], several: bool, hit: str = " hit") -> list[str]:
    """What stands behind a beam's name for some of its hits, with their order if it has several."""
    places = list({mark.order: mark for mark in marks}.values())
    if not several:
        return [f": {mark.told}" for mark in places]
    lines = [f", {ordinal(mark.order)}{hit}: {mark.told}" for mark in places]
    if len(lines) > MOST_TOLD:
        lines[MOST_TOLD - 1 :] = [lines[-1].replace(",", ", up to", 1)]
    return lines


def draw_marks(marks: list[Mark]) -> list[str]:
    """The hits, the first of each beam over the others, with words for whoever points at them."""
    return [draw_mark(mark) for mark in sorted(marks, key=lambda mark: -mark.order)]


def draw_mark(mark: Mark) -> str:
    """A hit by its sign."""
    words = f"beam {mark.beam}, piece {mark.piece}, {ordinal(mark.order)} along it: {mark.told}"
    return hit_mark(mark.at, words) if mark.order == 1 else later_mark(mark.at, words)
