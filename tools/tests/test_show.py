"""Reports as tables."""

import tempfile
import unittest
from pathlib import Path

from support import DATA, EXAMPLES, text_of
from beltlib.commands import show
from beltlib.errors import BadInput
from beltlib.refusals import REASONS
from beltlib.report import read_report
from beltlib.table import refused_sheet_text, report_text

HIT = "beam=0 piece=0 looked=1 hit=1 t=40800000 u=3f000000 v=3f000000\n"


def table(report: str, every: bool = False) -> str:
    """The table of a report that is not refused."""
    return report_text(read_report("in", report), every)


class Show(unittest.TestCase):
    maxDiff = None

    def test_one_hit(self) -> None:
        self.assertEqual(table("pieces=1\n" + HIT), """\
beam  piece  looked  result  t    u    v
   0      0       1  hit     4  0.5  0.5

beam 0: 1 hit, 0 misses
1 beam on 1 piece
""")

    def test_with_the_sheet(self) -> None:
        shown = show(str(DATA / "spiral.report"), str(EXAMPLES / "spiral.sheet"), "table")
        self.assertEqual(shown, (text_of(DATA / "spiral.table"), 0))

    def test_misses_only_when_all_are_asked_for(self) -> None:
        report = text_of(DATA / "spiral.report")
        self.assertNotIn("  miss", table(report))
        self.assertEqual(table(report, every=True).count("  miss\n"), 18)
        self.assertIn("\n   2      7       0  miss\n", table(report, every=True))

    def test_a_refused_beam(self) -> None:
        shown = table(text_of(DATA / "width100.report"))
        reason = "refused 15: the curve has no crosswise direction at the hit"
        self.assertIn(f"\n   0      0          {reason}\n", shown)
        self.assertIn("\nbeam 0: 0 hits, 0 misses, 1 refused\n", shown)

    def test_pieces_that_are_refused_alike_share_a_row(self) -> None:
        numbers = (11, 11, 11, 14)
        report = "pieces=4\n" + "".join(
            f"beam=0 piece={piece} refused={number}\n" for piece, number in enumerate(numbers)
        )
        self.assertEqual(table(report).count("refused 11:"), 1)
        self.assertIn("   0    0-2          refused 11:", table(report))
        self.assertIn("   0      3          refused 14:", table(report))
        self.assertEqual(table(report, every=True).count("refused 11:"), 3)

    def test_no_pieces_and_no_beams(self) -> None:
        self.assertEqual(table("pieces=0\n"), "0 beams on 0 pieces\n")
        self.assertEqual(table("pieces=8\n"), "0 beams on 8 pieces\n")

    def test_nan_and_infinity(self) -> None:
        line = HIT.replace("40800000", "7f800000").replace("3f000000", "7fc00000")
        self.assertIn("hit     inf  nan  nan\n", table("pieces=1\n" + line))

    def test_every_refusal_has_its_reason(self) -> None:
        self.assertEqual(sorted(REASONS), list(range(1, 23)))
        self.assertEqual(len(set(REASONS.values())), 22)


class RefusedSheets(unittest.TestCase):
    def sentence(self, report: str) -> str:
        return refused_sheet_text(read_report("in", report))

    def test_sentences(self) -> None:
        sentence = "The sheet is refused 5: the split depth is over 10.\n"
        self.assertEqual(self.sentence("refused=5 line=0\n"), sentence)
        sentence = "The sheet is refused 22: two neighbouring points are equal.\n"
        self.assertEqual(self.sentence("refused=22 line=0\n"), sentence)
        self.assertEqual(
            self.sentence("refused=17 line=3\n"),
            "The sheet is refused 17: a line of the sheet is wrong."
            " Line 3: expected type= and flat, ribbon or cylinder."
            " Each line, the last too, is ended by a line feed (LF) alone.\n",
        )

    def test_what_each_line_should_hold(self) -> None:
        expected = {
            1: "degree= and one or two decimal digits",
            4: "width0= and 1 number of eight lower-case hexadecimal digits",
            8: "point= and 3 numbers of eight lower-case hexadecimal digits",
            9: "a point, one of at most 64 beams, or the end",
            900: "a point, one of at most 64 beams, or the end",
        }
        for line, words in expected.items():
            sentence = self.sentence(f"refused=17 line={line}\n")
            self.assertIn(f"Line {line}: expected {words}.", sentence)


class BadReports(unittest.TestCase):
    def refuse(self, text: str, message: str) -> None:
        with self.assertRaisesRegex(BadInput, "^" + message):
            read_report("in", text)

    def test_not_a_report(self) -> None:
        self.refuse("", "in:1: expected a report, .* found ''")
        self.refuse("degree=3\n", "in:1: expected a report")
        self.refuse("pieces=1\nhello\n", "in:2: expected beam=, piece= and what they met")
        self.refuse("pieces=01\n", "in:1: expected a report")
        self.refuse("pieces=1025\n", "in:1: expected at most 1,024 pieces, found 1025")
        self.refuse("pieces=1\n" + HIT.replace("t=4", "t=G"), "in:2: expected beam=")
        self.refuse("pieces=1\n" + HIT.replace("u=3f0", "u=400"), "in:2: expected u from 0 to 1")

    def test_refusals_that_beltbeam_does_not_print(self) -> None:
        for number in (15, 19, 20, 21, 23):
            message = f"in:1: expected a refusal of a sheet, found {number}"
            self.refuse(f"refused={number} line=0\n", message)
        self.refuse("refused=5 line=3\n", "in:1: expected a line with refusal 17 alone")
        self.refuse("refused=22 line=9\n", "in:1: expected a line with refusal 17 alone")
        self.refuse("refused=17 line=0\n", "in:1: expected a line with refusal 17 alone")
        for number in (17, 19, 20, 21, 22, 99):
            report = f"pieces=1\nbeam=0 piece=0 refused={number}\n"
            self.refuse(report, "in:2: expected a refusal of a beam")

    def test_not_whole_or_not_in_order(self) -> None:
        self.refuse("pieces=2\n" + HIT, "in:3: the report ends here, expected beam=0 piece=1")
        self.refuse("pieces=1\n" + HIT + HIT, "in:3: expected beam=1 piece=0, found beam=0 piece=0")
        self.refuse("pieces=0\n" + HIT, "in:2: expected the end")
        self.refuse("refused=5 line=0\npieces=1\n", "in:2: expected the end behind refused=")
        beams = "".join(f"beam={beam} piece=0 looked=0 hit=0\n" for beam in range(65))
        self.refuse("pieces=1\n" + beams, "in:66: expected the end, since there are at most 64")

    def test_every_cut_within_a_beam_is_seen(self) -> None:
        report = text_of(DATA / "spiral.report")
        lines = report.splitlines(keepends=True)
        ends = [len("".join(lines[:count])) for count in range(1, len(lines), 8)]
        for end in range(len(report)):
            if end not in ends:
                with self.assertRaises(BadInput):
                    read_report("in", report[:end])

    def test_every_missing_line_is_seen_beside_the_sheet(self) -> None:
        lines = text_of(DATA / "spiral.report").splitlines(keepends=True)
        with tempfile.TemporaryDirectory() as folder:
            cut = Path(folder) / "cut.report"
            for missing in range(len(lines)):
                cut.write_text("".join(lines[:missing]))
                with self.assertRaises(BadInput):
                    show(str(cut), str(EXAMPLES / "spiral.sheet"), "table")

    def test_line_ends(self) -> None:
        report = "pieces=1\n" + HIT
        self.refuse(report.removesuffix("\n"), "in:2: the last line is not ended by a line feed")
        self.refuse(report.replace("\n", "\r\n"), "in:1: the line ends in CR LF, expected a line")
        self.refuse("pieces=1", "in:1: the last line is not ended by a line feed")

    def test_a_report_of_another_sheet(self) -> None:
        with self.assertRaisesRegex(BadInput, "8 pieces, but .*hall.sheet has 36"):
            show(str(DATA / "spiral.report"), str(EXAMPLES / "hall.sheet"), "table")


if __name__ == "__main__":
    unittest.main()
