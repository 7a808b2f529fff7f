"""Beams on the page."""

import math
from dataclasses import dataclass

from beltlib.curve import values
from beltlib.hits import decimals
from beltlib.page import Page
from beltlib.plan import Plane, clip
from beltlib.ray import RAY_D, RAY_O, RAY_T_MAX
from beltlib.report import Report
from beltlib.sheet import Sheet
from beltlib.signs import HEAD, arrow_head, chevron, circled_dot, crossed_square
from beltlib.svg import Flat, circle, group, line


@dataclass(frozen=True)
class Trace:
    """A beam on the page: a line, or a point where it has no end.

    Where its origin lies outside, it starts at the edge, so far away from the origin in the plane.
    """

    beam: int
    start: Flat
    end: Flat | None
    kind: str
    refusals: tuple[int, ...]
    away: float | None = None


def away_text(away: float) -> str:
    """A distance to three places and more."""
    return f"{away:.{decimals(away / 1000)}f} m"


def whence(trace: Trace) -> str:
    """How far outside the plan a beam begins, where it does."""
    return "" if trace.away is None else f"from {away_text(trace.away)} outside"


def origins_of(sheet: Sheet, plane: Plane) -> list[Flat]:
    """Where beams begin in the plane, but those that are not finite."""
    points = [plane.project(values(beam[RAY_O])) for beam in sheet.beams]
    return [point for point in points if all(map(math.isfinite, point))]


def trace_of(
    sheet: Sheet, beam: int, plane: Plane, page: Page, report: Report | None
) -> Trace | None:
    """A beam on the page, or None where none of it is there."""
    floats = values(sheet.beams[beam])
    origin, way, reach = floats[RAY_O], floats[RAY_D], floats[RAY_T_MAX]
    if not all(map(math.isfinite, origin + way)):
        return None
    start = plane.project(origin)
    inside = page.box.holds(start)
    kind, refusals = kind_of(beam, report)
    if plane.direction(way) is None:
        return Trace(beam, page.at(start), None, kind, refusals) if inside else None
    part = clip(start, plane.project(way), reach if reach >= 0 else 0.0, page.box)
    if part is None:
        return None
    away = None if inside else math.dist(start, part[0])
    return Trace(beam, page.at(part[0]), page.at(part[1]), kind, refusals, away)


def kind_of(beam: int, report: Report | None) -> tuple[str, tuple[int, ...]]:
    """Whether a beam hits, misses or is refused, and by which numbers."""
    if report is None or report.pieces == 0:
        return "untold", ()
    answers = report.of_beam(beam)
    refusals = sorted({answer.refused for answer in answers if answer.refused is not None})
    if refusals:
        return "refused", tuple(refusals)
    return ("hit" if any(answer.hit for answer in answers) else "miss"), ()


def draw_trace(trace: Trace) -> str:
    """A beam, with the sign of a refused one where it is."""
    parts = [circled_dot(trace.start)] if trace.end is None else line_parts(trace, trace.end)
    if trace.kind == "refused":
        parts.append(crossed_square(trace.start))
    return group(f"beam {trace.kind}", parts)


def line_parts(trace: Trace, end: Flat) -> list[str]:
    """A beam that is a line, from its origin or from the edge."""
    parts = [line(trace.start, end, "ray")]
    dx, dy = end[0] - trace.start[0], end[1] - trace.start[1]
    length = math.hypot(dx, dy)
    way = (dx / length, dy / length) if length else (0.0, 0.0)
    if trace.away is None:
        parts.append(circle(trace.start, 2.5, "dot"))
    else:
        parts.append(chevron(trace.start, way))
    if length > HEAD:
        parts.append(arrow_head(end, way, "head"))
    return parts
