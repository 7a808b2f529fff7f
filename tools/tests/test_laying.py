"""What laying refuses: the numbers in their order, and the line that shows each."""

import unittest

from support import HEAD, STRAIGHT_POINTS
from beltlib.errors import Refused
from beltlib.laying import check, refusal_of
from beltlib.sheet import read_decimal

BELT = HEAD + STRAIGHT_POINTS
ZERO = "point=0,0,0\n"
FINISHED = HEAD.replace("width0=1", "width0=3f800000").replace("width1=1", "width1=3f800000")


def along(count: int) -> str:
    """So many points along x."""
    return "".join(f"point={place},0,0\n" for place in range(count))


class Laying(unittest.TestCase):
    def accept(self, text: str) -> None:
        self.assertIsNone(refusal_of(read_decimal("in", text)))

    def refuse(self, text: str, message: str) -> None:
        """Both the sentence and the line are the whole message's start."""
        with self.assertRaisesRegex(Refused, "^" + message):
            check("in", read_decimal("in", text))

    def change(self, right: str, wrong: str, message: str) -> None:
        """A straight belt with one thing changed."""
        self.assertIn(right, BELT)
        self.refuse(BELT.replace(right, wrong), message)

    def test_what_the_library_takes(self) -> None:
        self.accept(BELT)
        self.accept(HEAD + ZERO)
        self.accept(BELT.replace("splitdepth=0", "splitdepth=10"))
        self.accept(HEAD + along(256))
        self.accept(HEAD.replace("bezier", "bspline").replace("th=0", "th=2") + along(256))
        self.accept(BELT.replace("-3,0,4", "-1048576,0,1048576"))
        self.accept(BELT.replace("width0=1", "width0=1024").replace("th1=1", "th1=0.0009765625"))

    def test_a_degree(self) -> None:
        reason = "refused 1: the degree is not 2 or 3"
        for degree in (0, 1, 4, 99):
            self.change("degree=3", f"degree={degree}", f"in:1: {reason}$")

    def test_points_that_do_not_make_whole_segments(self) -> None:
        reason = "refused 3: the points do not make whole segments"
        for count in (2, 3, 5, 6):
            found = f"{count} points, expected one more than a multiple of 3$"
            self.refuse(HEAD + count * ZERO, f"in:{7 + count}: {reason}; {found}")
        spline = HEAD.replace("bezier", "bspline")
        self.refuse(spline + 3 * ZERO, f"in:10: {reason}; 3 points, expected at least 4$")
        square = spline.replace("degree=3", "degree=2")
        self.refuse(square + ZERO, f"in:8: {reason}; 1 point, expected at least 3$")

    def test_equal_neighbours(self) -> None:
        told = "refused 22: two neighbouring points are equal; this one and the one before it$"
        points = STRAIGHT_POINTS.splitlines(keepends=True)
        for place in range(1, 4):
            doubled = points[:place] + [points[place - 1]] + points[place + 1 :]
            self.refuse(HEAD + "".join(doubled), f"in:{8 + place}: {told}")
        self.refuse(HEAD.replace("bezier", "bspline") + 4 * ZERO, f"in:9: {told}")
        self.refuse(BELT.replace("-3,0,4", "-1,-0,4"), f"in:9: {told}")
        infinite = BELT.replace("-3,0,4", "inf,0,4")
        self.refuse(infinite.replace("-1,0,4", "inf,0,4"), f"in:9: {told}")

    def test_neighbours_that_differ(self) -> None:
        for point in ("-3,0,4.0001", "-3,1e-45,4", "-3.0001,0,4", "3,0,4"):
            self.accept(BELT.replace("point=-1,0,4", f"point={point}"))
        self.accept(BELT.replace("point=3,0,4", "point=-3,0,4"))
        infinite = BELT.replace("-3,0,4", "inf,0,4")
        self.refuse(infinite.replace("-1,0,4", "-inf,0,4"), "in:8: refused 7:")
        nans = 4 * "point=7fc00000,00000000,00000000\n"
        self.refuse(FINISHED + nans, "in:8: refused 7:")

    def test_a_type(self) -> None:
        for word in ("ribbon", "cylinder"):
            self.change("flat", word, "in:3: refused 4: the type is not flat$")

    def test_a_split_depth(self) -> None:
        for depth in (11, 99):
            self.change("th=0", f"th={depth}", "in:6: refused 5: the split depth is over 10$")

    def test_too_many_points(self) -> None:
        reason = "refused 6: there are over 256 points or over 1,024 pieces"
        self.refuse(HEAD + along(259), f"in:264: {reason}; this is point 257$")

    def test_too_many_pieces(self) -> None:
        reason = "refused 6: there are over 256 points or over 1,024 pieces"
        found = "up to this point there are 2,048 pieces$"
        deep = HEAD.replace("splitdepth=0", "splitdepth=10")
        self.refuse(deep + along(10), f"in:14: {reason}; {found}")
        self.refuse(deep.replace("bezier", "bspline") + along(7), f"in:12: {reason}; {found}")

    def test_coordinates_and_widths(self) -> None:
        reason = "refused 7: a coordinate is not within 1,048,576 of zero, or a width is outside"
        for wrong in ("-1", "0", "1025", "0.0009", "inf"):
            self.change("width0=1", f"width0={wrong}", f"in:4: {reason}")
            self.change("width1=1", f"width1={wrong}", f"in:5: {reason}")
        for wrong in ("inf", "-inf", "1048576.1", "-1e9"):
            self.change("point=1,0,4", f"point=1,0,{wrong}", f"in:10: {reason}")
        nan = FINISHED.replace("width1=3f800000", "width1=7fc00000")
        self.refuse(nan + "point=00000000,00000000,00000000\n", f"in:5: {reason}")

    def test_the_first_of_several_in_their_order(self) -> None:
        rows = [
            ("degree=3", "degree=4", 1),
            ("point=1,0,4\n", "", 3),
            ("point=-1,0,4", "point=-3,0,4", 22),
            ("type=flat", "type=ribbon", 4),
            ("splitdepth=0", "splitdepth=11", 5),
            ("width0=1", "width0=-1", 7),
        ]
        for first in range(len(rows)):
            text = BELT
            for right, wrong, _ in rows[first:]:
                text = text.replace(right, wrong)
            self.refuse(text, f"in:[0-9]+: refused {rows[first][2]}:")
        self.refuse(HEAD.replace("width0=1", "width0=-1") + along(259), "in:264: refused 6:")
        self.refuse(HEAD + 259 * ZERO, "in:9: refused 22:")

    def test_lines_are_those_of_the_file(self) -> None:
        text = "# words\n\n" + BELT.replace("\n", "  # words\n\n")
        self.refuse(text.replace("splitdepth=0", "splitdepth=11"), "in:13: refused 5:")
        self.refuse(text.replace("point=3,0,4", "point=3,0,inf"), "in:23: refused 7:")


if __name__ == "__main__":
    unittest.main()
