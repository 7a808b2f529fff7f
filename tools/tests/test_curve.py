"""The belt as a curve, and the metres along it."""

import math
import unittest

from support import EXAMPLES, HEAD, STRAIGHT_POINTS, text_of
from beltlib.curve import Belt, Segment, lay
from beltlib.sheet import read_decimal, read_sheet


def belt_of(text: str) -> Belt:
    """The belt of a sheet in decimal."""
    return lay("in", read_decimal("in", text))


def points(*rows: tuple[float, float, float]) -> str:
    """The lines of points."""
    return "".join(f"point={x},{y},{z}\n" for x, y, z in rows)


def polyline_length(segment: Segment, end: float, steps: int = 4000) -> float:
    """The length of many chords."""
    places = [segment.point(end * i / steps) for i in range(steps + 1)]
    return sum(math.dist(a, b) for a, b in zip(places, places[1:]))


class Laying(unittest.TestCase):
    def test_a_quadratic_gets_its_inner_points(self) -> None:
        text = HEAD.replace("degree=3", "degree=2") + points((0, 0, 0), (3, 0, 0), (6, 0, 0))
        xs = [point[0] for point in belt_of(text).segments[0].points]
        for found, wanted in zip(xs, (0, 2, 4, 6)):
            self.assertAlmostEqual(found, wanted)

    def test_a_cubic_b_spline_of_points_on_a_line(self) -> None:
        text = HEAD.replace("bezier", "bspline") + points(*((x, 0, 0) for x in (0, 3, 6, 9)))
        xs = [point[0] for point in belt_of(text).segments[0].points]
        for found, wanted in zip(xs, (3, 4, 5, 6)):
            self.assertAlmostEqual(found, wanted)

    def test_b_splines_go_on_smoothly(self) -> None:
        for degree in (2, 3):
            head = HEAD.replace("bezier", "bspline").replace("degree=3", f"degree={degree}")
            belt = belt_of(head + points((0, 0, 0), (3, 1, 0), (5, 4, 1), (2, 7, 1), (0, 9, 2)))
            self.assertEqual(len(belt.segments), 5 - degree)
            for before, after in zip(belt.segments, belt.segments[1:]):
                self.assertLess(math.dist(before.point(1), after.point(0)), 1e-12)
                self.assertLess(math.dist(before.derivative(1), after.derivative(0)), 1e-12)

    def test_the_width_goes_evenly_along_the_belt(self) -> None:
        text = HEAD.replace("width1=1", "width1=3") + points(*((x, 0, 0) for x in range(7)))
        first, second = belt_of(text).segments
        self.assertEqual((first.width0, first.width1), (1, 2))
        self.assertEqual((second.width0, second.width1), (2, 3))
        self.assertEqual(second.width(0.5), 2.5)

    def test_pieces_belong_to_segments(self) -> None:
        text = HEAD.replace("splitdepth=0", "splitdepth=2") + points(*((x, 0, 0) for x in range(7)))
        belt = belt_of(text)
        self.assertEqual(belt.pieces, 8)
        self.assertEqual([belt.segment_of(piece) for piece in range(8)], [0] * 4 + [1] * 4)


class Metres(unittest.TestCase):
    def test_a_straight_belt(self) -> None:
        belt = belt_of(HEAD + STRAIGHT_POINTS)
        self.assertAlmostEqual(belt.length, 6, places=12)
        for u in (0, 0.1, 0.5, 0.75, 1):
            self.assertAlmostEqual(belt.metre(0, u), 6 * u, places=12)

    def test_a_straight_belt_in_space_with_uneven_speed(self) -> None:
        inner = ((0.125, 0.25, 0.25), (0.875, 1.75, 1.75))
        belt = belt_of(HEAD + points((0, 0, 0), *inner, (1, 2, 2)))
        self.assertAlmostEqual(belt.length, 3, places=12)
        part = 3 * 0.75**2 * 0.25 * 0.125 + 3 * 0.75 * 0.25**2 * 0.875 + 0.25**3
        self.assertAlmostEqual(belt.metre(0, 0.25), 3 * part, places=12)

    def test_a_belt_that_turns_back_counts_both_ways(self) -> None:
        # x = 4 * u * (1 - u): to 1 and back.
        head = HEAD.replace("degree=3", "degree=2")
        belt = belt_of(head + points((0, 0, 0), (2, 0, 0), (0, 0, 0)))
        self.assertAlmostEqual(belt.length, 2, places=9)
        self.assertAlmostEqual(belt.metre(0, 0.75), 1.25, places=9)

    def test_a_quarter_circle_against_chords(self) -> None:
        k = 0.5523
        belt = belt_of(HEAD + points((1, 0, 0), (1, k, 0), (k, 1, 0), (0, 1, 0)))
        self.assertAlmostEqual(belt.length, math.pi / 2, places=3)
        for u in (0.01, 0.3, 0.5, 0.999, 1):
            self.assertAlmostEqual(belt.metre(0, u), polyline_length(belt.segments[0], u), places=7)

    def test_the_spiral_against_a_helix(self) -> None:
        sheet = read_sheet("in", text_of(EXAMPLES / "spiral.sheet"))
        belt = lay("in", sheet)
        self.assertAlmostEqual(belt.length, 2 * math.hypot(8 * math.pi, 3), delta=0.02)
        for segment in range(8):
            self.assertAlmostEqual(belt.metre(segment, 0.5), belt.length * (segment + 0.5) / 8)
            self.assertAlmostEqual(belt.metre(segment, 1.0), belt.length * (segment + 1) / 8)

    def test_a_place_that_is_not_a_number(self) -> None:
        self.assertTrue(math.isnan(belt_of(HEAD + STRAIGHT_POINTS).metre(0, math.nan)))


if __name__ == "__main__":
    unittest.main()
