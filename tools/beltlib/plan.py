"""The belt and its beams in a plane, in the sheet's units."""

import math
from dataclasses import dataclass
from itertools import pairwise
from typing import Iterable

from beltlib.curve import Belt, Point, length, subtract
from beltlib.svg import Flat

PLANES = {"xy": (0, 1), "xz": (0, 2), "yz": (1, 2)}

# A direction this much shorter in the plane than in space points out of the plane.
FLATTEST = 1e-6


@dataclass(frozen=True)
class Cut:
    """The belt at one place: its middle, the way it goes there, half its width, the metre."""

    middle: Flat
    along: Flat
    half: float
    metre: float

    def side(self, sign: int) -> Flat:
        """The edge to the left (1) or to the right (-1)."""
        x, y = self.middle
        return x - sign * self.half * self.along[1], y + sign * self.half * self.along[0]


@dataclass(frozen=True)
class Box:
    """An upright rectangle."""

    low: Flat
    high: Flat

    def size(self) -> Flat:
        """Its width and height."""
        return self.high[0] - self.low[0], self.high[1] - self.low[1]

    def grown(self, by: float) -> "Box":
        """The box with a margin all around."""
        (x0, y0), (x1, y1) = self.low, self.high
        return Box((x0 - by, y0 - by), (x1 + by, y1 + by))

    def holds(self, point: Flat) -> bool:
        """Whether a point lies in it."""
        return all(a <= x <= b for a, x, b in zip(self.low, point, self.high))

    def meets(self, other: "Box") -> bool:
        """Whether two boxes overlap."""
        (a, b), (c, d) = self.low, self.high
        (e, f), (g, h) = other.low, other.high
        return a < g and e < c and b < h and f < d


def box_around(points: Iterable[Flat]) -> Box:
    """The smallest box that holds the points, of which there is at least one."""
    xs, ys = zip(*points)
    return Box((min(xs), min(ys)), (max(xs), max(ys)))


class Plane:
    """A plane of two of the three axes."""

    def __init__(self, name: str) -> None:
        self.axes = PLANES[name]
        self.names = (name[0], name[1])

    def is_side(self) -> bool:
        """Whether it is upright, and the belt is seen from a side."""
        return "z" in self.names

    def project(self, point: Point) -> Flat:
        """Where a point or a vector lies in the plane."""
        return point[self.axes[0]], point[self.axes[1]]

    def direction(self, vector: Point) -> Flat | None:
        """A vector's direction in the plane, or None where it points out of it."""
        x, y = self.project(vector)
        flat, full = math.hypot(x, y), length(vector)
        if not 0 < flat < math.inf or flat <= FLATTEST * full:
            return None
        return x / flat, y / flat

    def cut(self, belt: Belt, segment: int, u: float, otherwise: Flat | None) -> Cut | None:
        """The belt at u on a segment, with another direction where it has none in the plane."""
        curve = belt.segments[segment]
        along = self.direction(curve.derivative(u)) or otherwise
        if along is None:
            return None
        return Cut(self.project(curve.point(u)), along, curve.width(u) / 2, belt.metre(segment, u))

    def cuts(self, belt: Belt) -> list[Cut]:
        """The belt from start to end; none where it is a point in the plane."""
        found: list[Cut] = []
        for segment, u in stations(belt):
            before = found[-1].along if found else None
            cut = self.cut(belt, segment, u, before)
            if cut is not None:
                found.append(cut)
        return found


def stations(belt: Belt) -> Iterable[tuple[int, float]]:
    """Places along the belt, close enough for a smooth outline."""
    count = len(belt.segments)
    steps = max(4, min(32, 2000 // max(count, 1)))
    for segment in range(count):
        for step in range(steps):
            yield segment, step / steps
    if count:
        yield count - 1, 1.0


def band(cuts: list[Cut]) -> list[list[Flat]]:
    """Polygons that turn one way and together cover the belt, so that a bend leaves no hole."""
    polygons = []
    strip = cuts[:1]
    for before, cut in pairwise(cuts):
        if advances(before, cut):
            strip.append(cut)
        else:
            polygons += [outline(strip), quadrangle(before, cut)]
            strip = [cut]
    return [*polygons, outline(strip)] if cuts else []


def advances(before: Cut, cut: Cut) -> bool:
    """Whether both edges go forward, as they do not in a bend narrower than the belt."""
    steps = [subtract(cut.side(sign), before.side(sign)) for sign in (1, -1)]
    return all(dot(step, before.along) > 0 for step in steps)


def outline(strip: list[Cut]) -> list[Flat]:
    """Along the left edge and back along the right, which is clockwise."""
    return [cut.side(1) for cut in strip] + [cut.side(-1) for cut in reversed(strip)]


def quadrangle(before: Cut, cut: Cut) -> list[Flat]:
    """The ends of two cuts, clockwise around their middle."""
    corners = outline([before, cut])
    middle = [sum(values) / 4 for values in zip(*corners)]
    return sorted(corners, key=lambda corner: -math.atan2(*reversed(subtract(corner, middle))))


def dot(a: Flat, b: Flat) -> float:
    """The dot product."""
    return a[0] * b[0] + a[1] * b[1]


def clip(origin: Flat, way: Flat, reach: float, box: Box) -> tuple[Flat, Flat] | None:
    """The part of the line origin + t * way, 0 <= t <= reach, that lies in a box."""
    first, last = 0.0, reach
    for start, speed, low, high in zip(origin, way, box.low, box.high):
        if speed == 0:
            if not low <= start <= high:
                return None
            continue
        near, far = sorted(((low - start) / speed, (high - start) / speed))
        first, last = max(first, near), min(last, far)
    if first > last:
        return None
    start, end = ((origin[0] + t * way[0], origin[1] + t * way[1]) for t in (first, last))
    return start, end
