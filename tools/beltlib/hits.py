"""Where a hit lies: its metre along the belt, its distance from the middle line, its point."""

import math
from dataclasses import dataclass

from beltlib.curve import Belt, Point, values
from beltlib.errors import BadInput
from beltlib.ray import RAY_D, RAY_O
from beltlib.report import Answer, RefusedSheet, Report
from beltlib.sheet import Sheet


@dataclass(frozen=True)
class Place:
    """A hit on the belt: metres from the start, from the middle line by v's sign, and in space."""

    metre: float
    across: float
    point: Point


def place_of(answer: Answer, sheet: Sheet, belt: Belt) -> Place:
    """The place of an answer that is a hit."""
    t, u, v = values((answer.hit.t, answer.hit.u, answer.hit.v))
    number = belt.segment_of(answer.piece)
    width = belt.segments[number].width(u)
    return Place(belt.metre(number, u), (v - 0.5) * width, point_along(sheet, answer.beam, t))


def point_along(sheet: Sheet, beam: int, t: float) -> Point:
    """The point of a beam at a distance."""
    floats = values(sheet.beams[beam])
    return tuple(origin + t * direction for origin, direction in zip(floats[RAY_O], floats[RAY_D]))


def decimals(resolution: float) -> int:
    """How many decimals tell apart what is a resolution apart."""
    if not 0 < resolution < math.inf:
        return 0
    return max(0, math.ceil(-math.log10(resolution)))


def check_match(
    name: str, report: Report | RefusedSheet, sheet_name: str, sheet: Sheet, belt: Belt
) -> None:
    """Refuses a report that is not one of the sheet."""
    if isinstance(report, RefusedSheet):
        raise BadInput(f"the report refuses its sheet, but {sheet_name} is right").at(name)
    if report.pieces != belt.pieces:
        raise BadInput(f"{report.pieces} pieces, but {sheet_name} has {belt.pieces}").at(name)
    if report.pieces and report.beams() != len(sheet.beams):
        raise BadInput(f"{report.beams()} beams, but {sheet_name} has {len(sheet.beams)}").at(name)
