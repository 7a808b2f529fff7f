"""The belt as a curve: its segments, as create_curve_shape lays them, and the metres along it."""

import math
from dataclasses import dataclass
from itertools import accumulate, pairwise

from beltlib.floats import float_of_bits
from beltlib.laying import check, segment_count
from beltlib.sheet import Floats, Sheet

Point = tuple[float, ...]

STEPS = 64

# Places and weights of Gauss's rule with five points on -1 to 1.
GAUSS = (
    (-0.906179845938664, 0.236926885056189),
    (-0.538469310105683, 0.478628670499366),
    (0.0, 0.568888888888889),
    (0.538469310105683, 0.478628670499366),
    (0.906179845938664, 0.236926885056189),
)


def lerp(t: float, a: Point, b: Point) -> Point:
    """From a at 0 to b at 1."""
    return tuple(x * (1 - t) + y * t for x, y in zip(a, b))


def subtract(a: Point, b: Point) -> Point:
    """The vector from b to a."""
    return tuple(x - y for x, y in zip(a, b))


def length(vector: Point) -> float:
    """The length of a vector."""
    return math.hypot(*vector)


@dataclass(frozen=True)
class Segment:
    """A cubic Bezier curve with a width at each end."""

    points: tuple[Point, Point, Point, Point]
    width0: float
    width1: float

    def point(self, u: float) -> Point:
        """Where the middle line is at u."""
        a, b = self.chord(u)
        return lerp(u, a, b)

    def derivative(self, u: float) -> Point:
        """How fast and whereto the middle line goes at u."""
        a, b = self.chord(u)
        return tuple(3 * x for x in subtract(b, a))

    def width(self, u: float) -> float:
        """The width at u."""
        return self.width0 * (1 - u) + self.width1 * u

    def chord(self, u: float) -> tuple[Point, Point]:
        """The last two points of de Casteljau's scheme."""
        once = [lerp(u, a, b) for a, b in pairwise(self.points)]
        first, second = (lerp(u, a, b) for a, b in pairwise(once))
        return first, second

    def length(self, start: float, end: float) -> float:
        """The length of a short part of the middle line."""
        half = (end - start) / 2
        middle = (start + end) / 2
        speeds = (weight * length(self.derivative(middle + half * x)) for x, weight in GAUSS)
        return half * sum(speeds)


class Belt:
    """A belt that is laid: its segments, its pieces and the metres from its start."""

    def __init__(self, sheet: Sheet) -> None:
        self.segments = segments_of(sheet)
        self.pieces_per_segment = 2**sheet.splitdepth
        self.pieces = len(self.segments) * self.pieces_per_segment
        self.runs = [run_of(segment) for segment in self.segments]
        self.starts = list(accumulate((run[-1] for run in self.runs), initial=0.0))
        self.length = self.starts[-1]

    def segment_of(self, piece: int) -> int:
        """The segment that a piece is a part of."""
        return piece // self.pieces_per_segment

    def metre(self, segment: int, u: float) -> float:
        """The length of the middle line from the belt's start to u on a segment."""
        if math.isnan(u):
            return u
        step = min(int(u * STEPS), STEPS - 1)
        run = self.runs[segment][step] + self.segments[segment].length(step / STEPS, u)
        return self.starts[segment] + run


def run_of(segment: Segment) -> list[float]:
    """The lengths from a segment's start to each of its steps."""
    parts = (segment.length(i / STEPS, (i + 1) / STEPS) for i in range(STEPS))
    return list(accumulate(parts, initial=0.0))


def lay(name: str, sheet: Sheet) -> Belt:
    """The belt of a sheet that the library does not refuse."""
    check(name, sheet)
    return Belt(sheet)


def segments_of(sheet: Sheet) -> list[Segment]:
    """The segments, with widths that go evenly from the belt's start to its end."""
    points = [values(point) for point in sheet.points]
    width0, width1 = values((sheet.width0, sheet.width1))
    count = segment_count(sheet, len(sheet.points))
    stride = sheet.degree if sheet.basis == "bezier" else 1
    convert = CONVERSIONS[sheet.basis, sheet.degree]

    def width_before(i: int) -> float:
        return width0 * (1 - i / count) + width1 * (i / count)

    def segment(i: int) -> Segment:
        own = points[i * stride : i * stride + sheet.degree + 1]
        return Segment(convert(*own), width_before(i), width_before(i + 1))

    return [segment(i) for i in range(count)]


def values(floats: Floats) -> Point:
    """The values of floats that are given by their bits."""
    return tuple(float_of_bits(bits) for bits in floats)


def cubic_bezier(a: Point, b: Point, c: Point, d: Point) -> tuple[Point, ...]:
    """The points as they are."""
    return a, b, c, d


def quadratic_bezier(a: Point, b: Point, c: Point) -> tuple[Point, ...]:
    """The same curve as a cubic."""
    return a, lerp(2 / 3, a, b), lerp(1 / 3, b, c), c


def cubic_bspline(p012: Point, p123: Point, p234: Point, p345: Point) -> tuple[Point, ...]:
    """A stretch of a uniform B-spline as a Bezier curve; the names are those of the Rust."""
    p122 = lerp(2 / 3, p012, p123)
    p223 = lerp(1 / 3, p123, p234)
    p233 = lerp(2 / 3, p123, p234)
    p334 = lerp(1 / 3, p234, p345)
    return lerp(0.5, p122, p223), p223, p233, lerp(0.5, p233, p334)


def quadratic_bspline(p01: Point, p12: Point, p23: Point) -> tuple[Point, ...]:
    """A stretch of a uniform quadratic B-spline as a cubic Bezier curve."""
    return quadratic_bezier(lerp(0.5, p01, p12), p12, lerp(0.5, p12, p23))


CONVERSIONS = {
    ("bezier", 2): quadratic_bezier,
    ("bezier", 3): cubic_bezier,
    ("bspline", 2): quadratic_bspline,
    ("bspline", 3): cubic_bspline,
}
