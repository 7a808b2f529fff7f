"""Plans as SVG."""

import math
import re
import unittest
from collections import Counter
from functools import cache
from itertools import combinations
from pathlib import Path
from xml.etree import ElementTree

from support import DATA, DOCS, EXAMPLES, HEAD, STRAIGHT_POINTS, UP, text_of
from beltlib import drawing
from beltlib.commands import draw
from beltlib.curve import lay, values
from beltlib.errors import BadInput
from beltlib.floats import bits_of_decimal
from beltlib.labels import SIZE, Label, Labels, text_width, wrapped
from beltlib.numbering import ordinal, ranges
from beltlib.plan import Box, PLANES, Plane, band, clip
from beltlib.ray import RAY_D, RAY_O
from beltlib.report import read_report
from beltlib.sheet import read_decimal, read_sheet

SVG = "{http://www.w3.org/2000/svg}"
NUMBERS = ("x", "y", "x1", "y1", "x2", "y2", "cx", "cy", "r", "width", "height", "d")
NAMES = ("straight", "spiral", "three-crossings", "hall")
# The heights of the belts' starts and ends, by their files.
ENDS = {
    "straight": ("4.000", "4.000"),
    "spiral": ("0.00", "6.00"),
    "three-crossings": ("2.500", "5.500"),
    "hall": ("0.60", "1.50"),
}


class Picture:
    """A plan, read back from its text."""

    def __init__(self, text: str) -> None:
        self.root = ElementTree.fromstring(text)

    def of_class(self, name: str) -> list[ElementTree.Element]:
        """The elements of a class in the plan itself, in order."""
        return [
            one
            for layer in self.root.iter(f"{SVG}g")
            if layer.get("class") in ("plan", "beams", "hits", "labels")
            for one in layer.iter()
            if one.get("class") == name
        ]

    def circles(self, name: str) -> list[tuple[float, float]]:
        """The middles of the circles of a class."""
        return [(float(one.get("cx")), float(one.get("cy"))) for one in self.of_class(name)]

    def words(self, name: str) -> list[str]:
        """The texts of a class, wherever they stand."""
        return [one.text for one in self.root.iter(f"{SVG}text") if one.get("class") == name]

    def notes(self) -> str:
        """What stands under the plan, on one line."""
        return " ".join(self.words("key")).replace("\u00a0", " ")

    def frame(self) -> Box:
        """The frame around the plan."""
        one = next(one for one in self.root.iter(f"{SVG}rect") if one.get("class") == "frame")
        x, y, width, height = (float(one.get(key)) for key in ("x", "y", "width", "height"))
        return Box((x, y), (x + width, y + height))

    def marks(self) -> dict[tuple[int, int], tuple[str, tuple[float, float]]]:
        """Of the hits, by beam and piece, the class and the middle, in the order of drawing."""
        found = {}
        for layer in self.root.iter(f"{SVG}g"):
            for one in layer if layer.get("class") == "hits" else ():
                beam, piece = re.match("beam ([0-9]+), piece ([0-9]+),", one[0].text).groups()
                at = (float(one.get("cx")), float(one.get("cy")))
                found[int(beam), int(piece)] = (one.get("class"), at)
        return found


@cache
def picture(sheet: Path, report: Path | None = None, plane: str = "xy") -> Picture:
    """The plan of a file."""
    return Picture(draw(str(sheet), report and str(report), plane))


def decimal_picture(
    text: str, report: str | None = None, plane: str = "xy", name: str = ""
) -> Picture:
    """The plan of a sheet in decimal."""
    sheet = read_decimal("in", text)
    belt = lay("in", sheet)
    return Picture(drawing.draw(sheet, belt, report and read_report("in", report), plane, name))


def every_example() -> list[tuple[str, str, Picture]]:
    """The plans of all examples in all planes, by their names and planes."""
    return [
        (name, plane, picture(EXAMPLES / f"{name}.sheet", DATA / f"{name}.report", plane))
        for name in NAMES
        for plane in PLANES
    ]


class Marks(unittest.TestCase):
    def check_hits(self, name: str, plane: str) -> None:
        """Each hit's mark lies on the page as the control points say it must."""
        sheet = read_sheet(name, text_of(EXAMPLES / f"{name}.sheet"))
        report = read_report(name, text_of(DATA / f"{name}.report"))
        shown = picture(EXAMPLES / f"{name}.sheet", DATA / f"{name}.report", plane)
        axes = PLANES[plane]
        points = [[values(point)[axis] for axis in axes] for point in sheet.points]
        knots = shown.circles("knot")
        self.assertEqual(len(knots), len(points))
        left = min(range(len(points)), key=lambda i: points[i][0])
        right = max(range(len(points)), key=lambda i: points[i][0])
        scale = (knots[right][0] - knots[left][0]) / (points[right][0] - points[left][0])
        hits = [answer for answer in report.answers if answer.hit]
        marks = shown.marks()
        self.assertEqual(len(marks), len(hits))
        for answer in hits:
            _, mark = marks[answer.beam, answer.piece]
            beam = values(sheet.beams[answer.beam])
            t = values((answer.hit.t,))[0]
            x, y = (beam[RAY_O][axis] + t * beam[RAY_D][axis] for axis in axes)
            self.assertAlmostEqual(mark[0], knots[0][0] + scale * (x - points[0][0]), delta=0.02)
            self.assertAlmostEqual(mark[1], knots[0][1] - scale * (y - points[0][1]), delta=0.02)

    def test_hits_of_every_example(self) -> None:
        for name in NAMES:
            for plane in ("xy", "xz"):
                with self.subTest(name=name, plane=plane):
                    self.check_hits(name, plane)

    def test_labels_tell_beam_order_metre_height_and_width(self) -> None:
        spiral = picture(EXAMPLES / "spiral.sheet", DATA / "spiral.report")
        self.assertEqual(
            spiral.words("label"),
            ["beam 0, 1st hit: 3.16 m, z 0.38", "2nd hit: 28.48 m, z 3.38",
             "beam 1, 1st hit: 15.82 m, z 1.88", "2nd hit: 41.14 m, z 4.88",
             "beam 2, 1st hit: 34.81 m, z 4.13", "2nd hit: 9.49 m, z 1.13",
             "start, z 0.00", "1 m wide", "end, 50.63 m, z 6.00", "1 m wide"],
        )
        hall = picture(EXAMPLES / "hall.sheet", DATA / "hall.report").words("label")
        self.assertIn("beam 3: miss", hall)
        self.assertIn("5: 5.00 m, z 0.78", hall)
        self.assertIn("beam 5", hall)

    def test_every_view_tells_the_heights_of_the_ends_and_of_all_hits(self) -> None:
        for name, plane, shown in every_example():
            with self.subTest(name=name, plane=plane):
                sheet = read_sheet(name, text_of(EXAMPLES / f"{name}.sheet"))
                report = read_report(name, text_of(DATA / f"{name}.report"))
                labels = shown.words("label")
                hits = [words for words in labels if re.match("beam|[0-9]", words) and "z" in words]
                places = len(ENDS[name][0].partition(".")[2])
                heights = [
                    values(sheet.beams[answer.beam])[2]
                    + values((answer.hit.t,))[0] * values(sheet.beams[answer.beam])[5]
                    for answer in report.answers if answer.hit
                ]
                self.assertEqual(
                    sorted(words.partition(" z ")[2] for words in hits),
                    sorted(f"{height:.{places}f}" for height in heights),
                )
                first, last = ENDS[name]
                self.assertIn(f"start, z {first}", labels)
                self.assertTrue(any(re.fullmatch(f"end, [0-9.]+ m, z {last}", words)
                                    for words in labels))

    def test_widths_stand_at_the_ends_and_in_the_heading(self) -> None:
        for plane in PLANES:
            hall = picture(EXAMPLES / "hall.sheet", DATA / "hall.report", plane)
            labels = hall.words("label")
            self.assertEqual(labels[labels.index("start, z 0.60") + 1], "1.2 m wide")
            self.assertEqual(labels[labels.index("end, 35.99 m, z 1.50") + 1], "0.8 m wide")
            self.assertIn("1.2 to 0.8 m wide", hall.words("summary")[0])
        text = HEAD.replace("width1=1", "width1=0.0009765625") + STRAIGHT_POINTS
        self.assertIn("0.0009766 m wide", decimal_picture(text).words("label"))

    def test_the_first_hit_along_a_beam_has_its_own_sign(self) -> None:
        for plane in PLANES:
            shown = picture(EXAMPLES / "spiral.sheet", DATA / "spiral.report", plane)
            report = read_report("spiral", text_of(DATA / "spiral.report"))
            for beam in range(3):
                hits = [answer for answer in report.of_beam(beam) if answer.hit]
                first = min(hits, key=lambda answer: values((answer.hit.t,)))
                kinds = {answer.piece: shown.marks()[beam, answer.piece][0] for answer in hits}
                self.assertEqual(kinds.pop(first.piece), "hit-mark")
                self.assertEqual(set(kinds.values()), {"later-mark"})
            # Where both lie at one point, the first is drawn last and covers the other.
            drawn = [kind for kind, _ in shown.marks().values()]
            self.assertEqual(drawn, sorted(drawn, reverse=True))
            self.assertIn("hit behind another of its beam", shown.words("key"))

    def test_two_pieces_that_meet_a_beam_at_their_common_end_are_one_place(self) -> None:
        line = "beam=0 piece={} looked=1 hit=1 t=40800000 u=3f000000 v=3f000000\n"
        text = HEAD.replace("splitdepth=0", "splitdepth=1") + STRAIGHT_POINTS + UP
        shown = decimal_picture(text, "pieces=2\n" + line.format(0) + line.format(1))
        self.assertEqual(shown.words("label")[0], "beam 0: 3.000 m, z 4.000")
        self.assertEqual(shown.of_class("later-mark"), [])

    def test_beams_are_circled_dots_or_lines(self) -> None:
        hall = picture(EXAMPLES / "hall.sheet", DATA / "hall.report")
        self.assertEqual(len(hall.of_class("ring")), 5)
        self.assertEqual(len(hall.of_class("ray")), 1)
        side = picture(EXAMPLES / "hall.sheet", DATA / "hall.report", "xz")
        self.assertEqual(len(side.of_class("ray")), 6)

    def test_a_refused_beam(self) -> None:
        text = HEAD.replace("=1\n", "=100\n")
        text += "point=-1,0,4\npoint=1,0,5\npoint=-1,0,6\npoint=1,0,7\n" + UP
        shown = decimal_picture(text, text_of(DATA / "width100.report"))
        self.assertEqual(len(shown.of_class("no")), 1)
        self.assertIn("beam 0: refused 15", shown.words("label"))
        self.assertIn("refused beam, with the number", shown.words("key"))

    def test_without_a_report_nothing_is_told_of_hits(self) -> None:
        shown = picture(EXAMPLES / "hall.sheet")
        self.assertEqual(shown.of_class("hit-mark"), [])
        self.assertEqual([f"beam {i}" for i in range(6)], shown.words("label")[:6])
        self.assertIn("6 beams", shown.words("summary")[0])
        self.assertNotIn("hits", shown.words("summary")[0])

    def test_many_hits_of_one_beam_share_a_label(self) -> None:
        line = "beam=0 piece={} looked=1 hit=1 t=40800000 u={} v=3f000000\n"
        us = ("3f000000", "3f010000", "3f020000", "3f030000")
        report = "pieces=4\n" + "".join(line.format(i, u) for i, u in enumerate(us))
        text = HEAD.replace("splitdepth=0", "splitdepth=2") + STRAIGHT_POINTS + UP
        shown = decimal_picture(text, report)
        self.assertEqual(len(shown.marks()), 4)
        self.assertEqual(
            shown.words("label")[:3],
            ["beam 0, 1st hit: 3.000 m, z 4.000", "2nd hit: 3.023 m, z 4.000",
             "up to 4th hit: 3.070 m, z 4.000"],
        )

    def test_hits_side_by_side_share_a_label(self) -> None:
        line = "beam=0 piece={} looked=1 hit=1 t={} u={} v=3f000000\n"
        # At x = 0 and x = 0.0625 there is room for one label, and at x = 2 for another.
        hits = (("40a00000", "3f000000"), ("40a20000", "3f02aaab"), ("40e00000", "3f555555"))
        report = "pieces=4\n" + "".join(line.format(i, *hit) for i, hit in enumerate(hits))
        report += "beam=0 piece=3 looked=0 hit=0\n"
        text = HEAD.replace("splitdepth=0", "splitdepth=2") + STRAIGHT_POINTS
        shown = decimal_picture(text + "beam=-5,0,4,1,0,0,inf,0\n", report)
        self.assertEqual(len(shown.marks()), 3)
        self.assertEqual(
            shown.words("label")[:4],
            ["0, 1st hit: 3.000 m, z 4.000", "2nd hit: 3.063 m, z 4.000",
             "0, 3rd hit: 5.000 m, z 4.000", "beam 0"],
        )


class Page(unittest.TestCase):
    def test_the_picture_of_the_readme_is_that_of_today(self) -> None:
        today = draw(str(EXAMPLES / "hall.sheet"), str(DATA / "hall.report"), "xy")
        self.assertEqual(text_of(DOCS / "hall.svg"), today)

    def test_title_description_and_size(self) -> None:
        root = picture(EXAMPLES / "hall.sheet", DATA / "hall.report").root
        self.assertEqual(root.get("viewBox"), f"0 0 {root.get('width')} {root.get('height')}")
        numbers = "36 pieces, 35.99 m long, 1.2 to 0.8 m wide, 6 beams, 5 hits"
        self.assertTrue(root.find(f"{SVG}title").text.endswith(f"elt seen from above: {numbers}"))
        self.assertIn("Beam 1: 11.69 m, z 0.89.", root.find(f"{SVG}desc").text)
        self.assertIn("Beam 3 misses.", root.find(f"{SVG}desc").text)
        self.assertIn("Start, z 0.60, 1.2 m wide.", root.find(f"{SVG}desc").text)

    def test_axes_and_scale(self) -> None:
        shown = picture(EXAMPLES / "straight.sheet", plane="xz")
        self.assertIn("x (m)", shown.words("axis"))
        self.assertIn("z (m)", shown.words("axis"))
        self.assertIn("1 m", shown.words("key"))

    def test_the_name_of_the_sheet(self) -> None:
        def heading(name: str, plane: str = "xy") -> str:
            return decimal_picture(HEAD + STRAIGHT_POINTS, None, plane, name).words("heading")[0]

        self.assertEqual(heading("a/hall.sheet"), "hall: belt seen from above")
        self.assertEqual(heading("a/hall.belt", "yz"), "hall: belt seen from the side")
        self.assertEqual(heading("level 1.2 <&>.sheet"), "level 1.2 <&>: belt seen from above")
        self.assertEqual(heading(""), "Belt seen from above")
        # What is no letter cannot stand in an SVG, or not be written.
        self.assertEqual(heading("a\x1b\udcff\n.sheet"), "a???: belt seen from above")

    def test_a_long_name_is_cut(self) -> None:
        for letter in "mi語":
            for plane in PLANES:
                name = 200 * letter
                shown = decimal_picture(HEAD + STRAIGHT_POINTS + UP, None, plane, name)
                words = shown.words("heading")[0]
                self.assertIn(f"{letter}...: belt seen", words)
                room = shown.frame().size()[0]
                self.assertTrue(0.8 * room < 1.35 * text_width(words) <= room)

    def test_side_views_say_that_a_flat_belt_turns_its_width_to_every_beam(self) -> None:
        for name, plane, shown in every_example():
            said = "A flat belt turns its width to every beam" in shown.notes()
            self.assertEqual(said, plane != "xy", f"{name} {plane}")

    def check_places(self, shown: Picture) -> None:
        """Labels stay in the frame, off each other and off the hits, and all words on the page."""
        page = Box((0.0, 0.0), (float(shown.root.get("width")), float(shown.root.get("height"))))
        for one in shown.root.iter(f"{SVG}text"):
            if one.get("class") != "axis":
                box = text_box(one)
                self.assertTrue(page.holds(box.low) and page.holds(box.high), one.text)
        boxes = list(map(text_box, shown.of_class("label")))
        for one, other in combinations(boxes, 2):
            self.assertFalse(one.meets(other))
        for box in boxes:
            self.assertTrue(shown.frame().holds(box.low) and shown.frame().holds(box.high))
            for _, (x, y) in shown.marks().values():
                self.assertFalse(box.meets(Box((x - 3, y - 3), (x + 3, y + 3))))
        below = [one for one in shown.root.iter(f"{SVG}text") if one.get("class") in LOWER]
        for one, other in combinations(map(text_box, below), 2):
            self.assertFalse(one.meets(other))

    def test_no_words_cover_others(self) -> None:
        for name, plane, shown in every_example():
            with self.subTest(name=name, plane=plane):
                self.check_places(shown)

    def test_many_beams_are_numbers_in_the_plan_and_a_list_below(self) -> None:
        for count in (21, 40, 64):
            for plane in PLANES:
                with self.subTest(count=count, plane=plane):
                    shown = decimal_picture(*row_of_beams(count), plane)
                    self.check_places(shown)
                    self.assertEqual(len(shown.words("listed")), count)
                    self.assertIn(f"{count - 1}: ", shown.words("listed")[-1])
                    self.assertNotIn("No room", shown.notes())
                    labels = [words for words in shown.words("label") if "z" not in words]
                    numbers = " ".join(words for words in labels if "wide" not in words)
                    self.assertEqual(beams_in(numbers), set(range(count)))

    def test_each_of_many_beams_has_its_number_at_its_start_and_at_its_hit(self) -> None:
        shown = decimal_picture(*row_of_beams(40), "xz")
        labels = [words for words in shown.words("label") if re.fullmatch("[0-9to, ]+", words)]
        named = Counter(beam for words in labels for beam in beams_in(words))
        self.assertEqual(named, Counter({beam: 2 for beam in range(40)}))

    def test_up_to_twenty_beams_are_told_in_the_plan(self) -> None:
        beams = "".join(f"beam={i % 7 - 3},{i // 7},0,0,0,1,inf,0\n" for i in range(21))
        text = HEAD + STRAIGHT_POINTS + beams
        self.assertIn("20", decimal_picture(text).words("label"))
        text = text[: text.rindex("beam=")]
        self.assertIn("beam 19", decimal_picture(text).words("label"))
        shown = decimal_picture(*row_of_beams(6))
        self.check_places(shown)
        self.assertEqual(shown.words("listed"), [])
        self.assertEqual(len(re.findall("beam [0-9]: ", " ".join(shown.words("label")))), 6)

    def test_a_fan_of_beams_from_one_origin(self) -> None:
        beams = "".join(f"beam=0,-4,4,{i - 32},4,0,inf,0\n" for i in range(64))
        shown = decimal_picture(HEAD + STRAIGHT_POINTS + beams)
        self.check_places(shown)
        self.assertIn("0 to 63", shown.words("label"))

    def test_where_labels_find_no_room_a_list_has_the_hits(self) -> None:
        shown = decimal_picture(*row_of_beams(18, apart=0.2))
        self.check_places(shown)
        self.assertEqual(len(shown.words("listed")), 18)
        self.assertIn("hit, with its beam", shown.words("key"))

    def test_a_list_goes_with_what_else_is_told_of_beams(self) -> None:
        refused = "".join(f"beam={i} piece=0 refused=15\n" for i in range(4))
        missed = "".join(f"beam={i} piece=0 looked=0 hit=0\n" for i in range(4, 25))
        beams = 24 * UP + "beam=-1000,0,4,1,0,0,inf,0\n"
        shown = decimal_picture(HEAD + STRAIGHT_POINTS + beams, "pieces=1\n" + refused + missed)
        self.check_places(shown)
        self.assertIn("Refused 15: beams 0 to 3.", shown.notes())
        self.assertIn("Misses: beams 4 to 24.", shown.notes())
        self.assertRegex(shown.notes(), "with their distance from the edge: 24: 996.[0-9] m.")

    def test_a_label_without_room_is_counted(self) -> None:
        labels = Labels(Box((0.0, 0.0), (40.0, 40.0)), [], [], [])
        self.assertEqual(labels.place(Label((20.0, 20.0), ("more words than fit",))), [])
        self.assertEqual(len(labels.place(Label((20.0, 20.0), ("7",)))), 1)
        self.assertEqual(labels.left_out, 1)

    def test_ends_of_pieces_are_thinned_out(self) -> None:
        few = HEAD.replace("splitdepth=0", "splitdepth=3") + STRAIGHT_POINTS
        many = HEAD.replace("splitdepth=0", "splitdepth=10") + STRAIGHT_POINTS
        self.assertEqual(len(decimal_picture(few).of_class("end")), 7)
        self.assertEqual(len(decimal_picture(many).of_class("end")), 63)
        self.assertIn("end of a piece, one in 16", decimal_picture(many).words("key"))

    def test_a_beam_outside_is_told(self) -> None:
        text = HEAD + STRAIGHT_POINTS + UP + UP.replace("=0,0", "=900,900")
        self.assertIn("Outside the plan: beam 1.", decimal_picture(text).words("key"))
        text = HEAD + STRAIGHT_POINTS + UP + 63 * UP.replace("=0,0", "=900,900")
        self.assertIn("Outside the plan: beams 1 to 63.", decimal_picture(text).words("key"))

    def test_an_origin_outside_is_an_arrow_at_the_edge_with_its_distance(self) -> None:
        text = HEAD + STRAIGHT_POINTS
        for origin, way in (((-500, 0), (1, 0)), ((0, 700), (0, -1)), ((300, 400), (-3, -4))):
            beam = f"beam={origin[0]},{origin[1]},4,{way[0]},{way[1]},0,inf,0\n"
            shown = decimal_picture(text + beam)
            self.assertEqual(shown.of_class("dot"), [])
            ray, = shown.of_class("ray")
            start = (float(ray.get("x1")), float(ray.get("y1")))
            frame = shown.frame()
            gaps = [abs(x - edge) for x, edge in zip(start * 2, frame.low + frame.high)]
            self.assertLess(min(gaps), 0.02)
            arrow, = shown.of_class("whence")
            tip = tuple(map(float, arrow.get("d").split("L")[1].split()))
            self.assertTrue(frame.holds(tip))
            knots = shown.circles("knot")
            scale = (knots[-1][0] - knots[0][0]) / 6
            edge = ((start[0] - knots[0][0]) / scale - 3, (knots[0][1] - start[1]) / scale)
            told = re.search(r"beam 0 from ([0-9.]+) m outside", " ".join(shown.words("label")))
            self.assertAlmostEqual(float(told[1]), math.dist(origin, edge), delta=0.06)
            self.assertIn("origin outside, with its distance", shown.words("key"))

    def test_no_dot_lies_outside_the_frame(self) -> None:
        odd = decimal_picture(HEAD + STRAIGHT_POINTS + ODD_BEAMS)
        self.assertEqual(len(odd.of_class("whence")), 1)
        self.assertIn("beam 7 from 999997 m outside", odd.words("label"))
        for shown in [odd] + [shown for _, _, shown in every_example()]:
            inner = shown.frame().grown(-1.0)
            self.assertTrue(all(map(inner.holds, shown.circles("dot"))))
        end_on = picture(EXAMPLES / "straight.sheet", DATA / "straight.report", "yz")
        self.assertIn("beam 0 from 3.398 m outside", end_on.words("label"))


LOWER = ("key", "listed")


def text_box(one: ElementTree.Element) -> Box:
    """About the room that the letters of a text take."""
    x, y, width = float(one.get("x")), float(one.get("y")), text_width(one.text)
    left = {"start": x, "middle": x - width / 2, "end": x - width}[one.get("text-anchor")]
    return Box((left, y - 0.7 * SIZE), (left + width, y))


def row_of_beams(count: int, apart: float = 0.0) -> tuple[str, str]:
    """A sheet with so many beams up through a straight belt, and its report."""
    step = apart / count if apart else 6 / count
    places = [(i - (count - 1) / 2) * step for i in range(count)]
    beams = "".join(f"beam={x},{0.4 * (-1) ** i},0,0,0,1,inf,0\n" for i, x in enumerate(places))
    hits = [f"{bits_of_decimal(str((x + 3) / 6)):08x}" for x in places]
    report = "".join(
        f"beam={i} piece=0 looked=1 hit=1 t=40800000 u={u} v=3f000000\n"
        for i, u in enumerate(hits)
    )
    return HEAD + STRAIGHT_POINTS + beams, "pieces=1\n" + report


def beams_in(words: str) -> set[int]:
    """The numbers that lists of ranges name."""
    found = set()
    for first, last in re.findall("([0-9]+)(?: to ([0-9]+))?", words):
        found |= set(range(int(first), int(last or first) + 1))
    return found


ODD_BEAMS = """\
beam=inf,0,0,0,0,1,inf,0
beam=inf,0,4,-1,0,0,inf,0
beam=0,0,0,-inf,0,0,1,0
beam=0,0,0,0,0,0,inf,0
beam=0,0,0,1e-9,0,1,inf,0
beam=0,0,0,1,0,0,-1,0
beam=0,0,0,1e-45,0,1e-45,inf,0
beam=-1e6,0,4,1,0,0,inf,0
"""


class Degenerate(unittest.TestCase):
    SHEETS = {
        "one point": HEAD + "point=1,2,3\n" + UP,
        "on end": HEAD + "point=1,2,3\npoint=1,2,4\npoint=1,2,6\npoint=1,2,7\n" + UP,
        "no beams": HEAD + STRAIGHT_POINTS,
        "tiny": HEAD + "point=0,0,0\npoint=1e-40,0,0\npoint=1e-40,1e-40,0\npoint=0,0,1e-40\n" + UP,
        "far": HEAD + STRAIGHT_POINTS.replace(",0,4", ",1000000,-1000000") + UP,
        "large": HEAD + 2 * "point=-1048576,0,0\npoint=0,1048576,1048576\n" + UP,
        "cusp": HEAD + "point=0,0,0\npoint=4,4,0\npoint=0,4,0\npoint=4,0,0\n" + UP,
        "to and fro": HEAD + "point=-1,0,0\npoint=3,0,0\npoint=-3,0,0\npoint=1,0,0\n" + UP,
        "odd beams": HEAD + STRAIGHT_POINTS + ODD_BEAMS,
    }

    def test_every_plane_gives_a_sound_picture(self) -> None:
        for name, text in self.SHEETS.items():
            for plane in PLANES:
                with self.subTest(name=name, plane=plane):
                    self.check_sound(decimal_picture(text, plane=plane))

    def test_odd_beams_are_points_lines_or_outside(self) -> None:
        shown = decimal_picture(self.SHEETS["odd beams"])
        self.assertIn("Outside the plan: beams 0 to 2.", shown.words("key"))
        self.assertEqual(len(shown.of_class("ring")), 2)
        self.assertEqual(len(shown.of_class("ray")), 3)
        self.assertEqual(len(shown.of_class("head")), 2)

    def test_hits_that_are_not_finite_are_left_out(self) -> None:
        hit = "beam=0 piece=0 looked=1 hit=1 t={} u={} v=7fc00000\n"
        for t, u in (("7fc00000", "3f000000"), ("7f800000", "3f000000"), ("40800000", "7fc00000")):
            shown = decimal_picture(HEAD + STRAIGHT_POINTS + UP, "pieces=1\n" + hit.format(t, u))
            self.check_sound(shown)
            self.assertEqual(shown.of_class("hit-mark"), [])

    def check_sound(self, shown: Picture) -> None:
        """All numbers are finite, and the page has a sensible size."""
        for one in shown.root.iter():
            for key in NUMBERS:
                for number in re.findall("[a-z0-9.+-]+", one.get(key, "")):
                    self.assertTrue(math.isfinite(float(number)), one.get(key))
        self.assertTrue(500 < float(shown.root.get("width")) < 1000)
        self.assertTrue(300 < float(shown.root.get("height")) < 800)

    def test_a_belt_seen_end_on_is_a_disc(self) -> None:
        shown = decimal_picture(HEAD + STRAIGHT_POINTS, plane="yz")
        self.assertEqual(len(shown.circles("belt")), 1)

    def test_a_sheet_that_cannot_be_laid(self) -> None:
        with self.assertRaisesRegex(BadInput, "refused 4: the type is not flat"):
            decimal_picture(HEAD.replace("flat", "ribbon") + STRAIGHT_POINTS)


class Words(unittest.TestCase):
    def test_ordinals(self) -> None:
        shown = " ".join(ordinal(number) for number in (1, 2, 3, 4, 11, 12, 13, 21, 102, 111, 1023))
        self.assertEqual(shown, "1st 2nd 3rd 4th 11th 12th 13th 21st 102nd 111th 1023rd")

    def test_ranges(self) -> None:
        self.assertEqual(ranges([0, 1, 2, 5, 7, 8]), "0 to 2, 5, 7, 8")
        self.assertEqual(ranges([63]), "63")

    def test_lines_are_no_wider_than_asked(self) -> None:
        words = "So many words that they need more than one line."
        lines = wrapped(words, 100.0)
        self.assertEqual(" ".join(lines), words)
        self.assertTrue(all(text_width(line) <= 100 for line in lines))
        self.assertEqual(wrapped("unbreakable", 10.0), ["unbreakable"])
        self.assertEqual(wrapped("a 12\u00a0m", 30.0), ["a", "12\u00a0m"])


class Geometry(unittest.TestCase):
    def test_the_outline_of_a_straight_belt(self) -> None:
        belt = lay("in", read_decimal("in", HEAD.replace("width1=1", "width1=3") + STRAIGHT_POINTS))
        polygon, = band(Plane("xy").cuts(belt))
        half = len(polygon) // 2
        corners = [polygon[i] for i in (0, half - 1, half, -1)]
        self.assertEqual(corners, [(-3, 0.5), (3, 1.5), (3, -1.5), (-3, -0.5)])

    def test_polygons_of_a_narrow_bend_turn_one_way(self) -> None:
        text = HEAD + "point=0,0,0\npoint=2,0,0\npoint=2,0.2,0\npoint=0,0.2,0\n"
        polygons = band(Plane("xy").cuts(lay("in", read_decimal("in", text))))
        self.assertGreater(len(polygons), 1)
        for polygon in polygons:
            around = zip(polygon, polygon[1:] + polygon[:1])
            self.assertLessEqual(sum(a[0] * b[1] - a[1] * b[0] for a, b in around), 1e-12)

    def test_clipping(self) -> None:
        box = Box((0.0, 0.0), (4.0, 2.0))
        self.assertEqual(clip((-1.0, 1.0), (1.0, 0.0), math.inf, box), ((0.0, 1.0), (4.0, 1.0)))
        self.assertEqual(clip((1.0, 1.0), (0.0, 2.0), 0.25, box), ((1.0, 1.0), (1.0, 1.5)))
        self.assertIsNone(clip((-1.0, 1.0), (-1.0, 0.0), math.inf, box))
        self.assertIsNone(clip((-1.0, 3.0), (1.0, 0.0), math.inf, box))
        self.assertIsNone(clip((-1.0, 1.0), (1.0, 0.0), 0.5, box))


if __name__ == "__main__":
    unittest.main()
