"""Sheets in decimal into belt sheets."""

import unittest

from support import EXAMPLES, HEAD, STRAIGHT_POINTS, UP, text_of
from beltlib.errors import BadInput, Refused
from beltlib.sheet import read_decimal, read_sheet

BELT = HEAD + STRAIGHT_POINTS
STRAIGHT = """\
degree=3
basis=bezier
type=flat
width0=3f800000
width1=3f800000
splitdepth=0
reverse=0
point=c0400000,00000000,40800000
point=bf800000,00000000,40800000
point=3f800000,00000000,40800000
point=40400000,00000000,40800000
beam=00000000,00000000,00000000,00000000,00000000,3f800000,7f800000,00000000
"""


class Make(unittest.TestCase):
    def make(self, text: str) -> str:
        return read_decimal("in", text).text()

    def test_the_whole_case(self) -> None:
        self.assertEqual(self.make(BELT + UP), STRAIGHT)
        self.assertEqual(text_of(EXAMPLES / "straight.sheet"), STRAIGHT)

    def test_every_example_is_what_its_decimal_form_makes(self) -> None:
        sources = sorted(EXAMPLES.glob("*.belt"))
        sheets = sorted(path.stem for path in EXAMPLES.glob("*.sheet"))
        self.assertEqual([path.stem for path in sources], sheets)
        for path in sources:
            self.assertEqual(self.make(text_of(path)), text_of(path.with_suffix(".sheet")), path)

    def test_comments_blanks_empty_lines_and_line_ends(self) -> None:
        text = BELT + UP
        spaced = text.replace("=", " = ").replace(",", " ,\t").replace("\n", "  # words\r\n\r\n")
        self.assertEqual(self.make("\ufeff# a comment = 1\n" + spaced), STRAIGHT)
        self.assertEqual(self.make(text.removesuffix("\n")), STRAIGHT)

    def test_what_is_made_is_read_back(self) -> None:
        sheet = read_decimal("in", BELT + UP)
        self.assertEqual(read_sheet("out", sheet.text()), sheet)

    def test_a_sheet_without_beams_and_one_with_64(self) -> None:
        self.assertNotIn("beam", self.make(BELT))
        self.assertEqual(self.make(BELT + 64 * UP).count("beam="), 64)

    def test_digits_are_written_without_leading_zeros(self) -> None:
        self.assertIn("degree=3\n", self.make(BELT.replace("degree=3", "degree=03")))

    def test_a_sheet_that_is_too_long(self) -> None:
        count = (65536 - len(self.make(HEAD + "point=0,0,0"))) // 33 + 1
        self.assertLessEqual(len(self.make(HEAD + count * "point=0,0,0\n")), 65536)
        for more in (1, 2, 400):
            text = HEAD + (count + more) * " point = 0,0,0\n"
            with self.assertRaisesRegex(Refused, "^in: refused 18: .* has at least 6|7[0-9,]+$"):
                read_decimal("in", text)

    def test_too_long_comes_before_a_wrong_line(self) -> None:
        self.refuse("colour=red\n" + 900 * UP, "in: refused 18: ")

    def test_comments_do_not_count(self) -> None:
        self.assertEqual(self.make(BELT + UP + 5000 * "# point=0,0,0\n"), STRAIGHT)

    def test_a_finished_sheet_stays_as_it_is(self) -> None:
        for path in sorted(EXAMPLES.glob("*.sheet")):
            self.assertEqual(self.make(text_of(path)), text_of(path), path)
        self.assertEqual(self.make("# words\r\n" + STRAIGHT.replace(",", " , ")), STRAIGHT)

    def test_a_finished_sheet_whose_digits_are_all_decimal(self) -> None:
        digits = "40000000"
        head = HEAD.replace("th0=1", f"th0={digits}").replace("th1=1", f"th1={digits}")
        text = head + 4 * f"point={digits},{digits},{digits}\n"
        self.assertEqual(self.make(text), text)
        self.assertIn("width1=4c189680\n", self.make(text.replace(digits, "2.0", 1)))

    def test_decimals_and_hexadecimal_are_not_mixed(self) -> None:
        message = "in:5: width1=: expected a decimal .* found '3f800000'; hexadecimal .* line 4 has"
        self.refuse(STRAIGHT.replace("3f800000", "1", 1), f"{message} '1'$")
        self.refuse(STRAIGHT.replace("3f800000", "3F800000", 1), "in:4: width0=: expected a deci")

    def refuse(self, text: str, message: str) -> None:
        with self.assertRaisesRegex(BadInput, "^" + message):
            read_decimal("in", text)

    def test_missing_lines(self) -> None:
        self.refuse("", "in:1: the sheet ends here, expected degree=")
        self.refuse("degree=3\n\n", "in:2: the sheet ends here, expected basis=")
        self.refuse(HEAD, "in:8: the sheet ends here, expected point=")
        self.refuse(HEAD + UP, "in:8: expected point= before beam=")
        self.refuse(HEAD.replace("type=flat\n", ""), "in:3: expected type= before width0=")

    def test_misplaced_lines(self) -> None:
        self.refuse("degree=3\ndegree=3\n", "in:2: degree= stands a second time, expected basis=")
        self.refuse("basis=bezier\n", "in:1: expected degree= before basis=")
        self.refuse(BELT + "width0=1\n", "in:12: width0= stands a second time")
        self.refuse(BELT + UP + "point=0,0,0", "in:13: point= stands behind a beam, expected all")
        self.refuse(BELT + 65 * UP, "in:76: one beam too many, expected at most 64")

    def test_unknown_lines(self) -> None:
        self.refuse("degree=3\ncolour=red\n", "in:2: unknown key 'colour', expected basis=")
        self.refuse("Degree=3\n", "in:1: unknown key 'Degree', expected degree=")
        self.refuse("degree 3\n", "in:1: expected key=value, found 'degree 3'")
        self.refuse(BELT + "end=1", "in:12: unknown key 'end', expected point= or beam=")

    def test_wrong_values(self) -> None:
        def refuse(right: str, wrong: str, message: str) -> None:
            self.refuse(BELT.replace(right, wrong), message)

        refuse("=3\n", "=-3\n", "in:1: degree=: expected one or two decimal digits, found '-3'")
        refuse("=3\n", "=\n", "in:1: degree=: expected one or two decimal digits, found ''")
        refuse("=3\n", "=003\n", "in:1: degree=: expected one or two decimal digits, found '003'")
        refuse("bezier", "nurbs", "in:2: basis=: expected bezier or bspline, found 'nurbs'")
        refuse("flat", "round", "in:3: type=: expected flat, ribbon or cylinder, found 'round'")
        refuse("width0=1", "width0=nan", "in:4: width0=: expected a decimal number or inf, found")
        refuse("width1=1", "width1=1e40", "in:5: width1=: expected a number that an f32 can hold")
        refuse("reverse=0", "reverse=2", "in:7: reverse=: expected 0 or 1, found '2'")

    def test_wrong_counts_of_numbers(self) -> None:
        self.refuse(HEAD + "point=1,2\n", r"in:8: point=: expected 3 numbers \(x, y, z\), found 2")
        self.refuse(HEAD + "point=1,2,3,\n", r"in:8: point=: expected 3 numbers .* found 4")
        self.refuse(HEAD + "point=1,,3\n", "in:8: point=: expected a decimal number or inf")
        self.refuse(BELT + "beam=0,0,0,0,0,1,inf", r"in:12: beam=: expected 8 numbers \(origin, ")
        self.refuse(HEAD.replace("th1=1", "th1=1,5"), "in:5: width1=: expected 1 number .* found 2")


class Strict(unittest.TestCase):
    def refuse(self, text: str, message: str) -> None:
        with self.assertRaisesRegex(BadInput, "^" + message):
            read_sheet("in", text)

    def test_the_belt_sheet_is_read_to_the_letter(self) -> None:
        self.refuse(STRAIGHT.removesuffix("\n"), "in:12: the last line is not ended by a line feed")
        ends = "the line ends in CR LF, expected a line feed"
        self.refuse(STRAIGHT.replace("\n", "\r\n"), f"in:1: {ends}")
        self.refuse(STRAIGHT.replace("t\n", "t\r\n"), f"in:3: {ends}")
        self.refuse(STRAIGHT.replace("type", "\ntype"), "in:3: expected key=value, found ''")
        self.refuse(STRAIGHT.replace("=c0", "=C0"), "in:8: point=: expected eight lower-case")
        self.refuse(STRAIGHT.replace("=c0", "= c0"), "in:8: point=: expected eight lower-case")
        self.refuse("# words\n" + STRAIGHT, "in:1: expected key=value")
        self.refuse("\ufeff" + STRAIGHT, "in:1: unknown key")
        self.refuse(STRAIGHT.replace("flat", "round").removesuffix("\n"), "in:3: type=: expected")
        self.refuse(STRAIGHT + "x" * 65536, "in: refused 18: the sheet has over 65,536 bytes")


if __name__ == "__main__":
    unittest.main()
