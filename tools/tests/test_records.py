"""Reports as CSV and as JSON."""

import csv
import io
import json
import unittest

from support import DATA, EXAMPLES, run, text_of
from beltlib.records import FIELDS, FIELDS_HELP, csv_text, json_text
from beltlib.report import read_report

NAMES = (
    "beam,piece,result,refused,reason,line,looked,t,u,v,t_bits,u_bits,v_bits,metre,across,x,y,z"
)
STRAIGHT = "pieces=1\nbeam=0 piece=0 looked=1 hit=1 t=40800000 u=3dcccccd v=3f000000\n"
REFUSED = "pieces=2\nbeam=0 piece=0 refused=15\nbeam=0 piece=1 looked=0 hit=0\n"
REASON = "the curve has no crosswise direction at the hit"
NO_LINE = "a line of the sheet is wrong"


def csv_of(report: str) -> str:
    """The CSV of a report without its sheet."""
    return csv_text(read_report("in", report))


def json_of(report: str) -> dict:
    """The JSON of a report without its sheet, read back."""
    return json.loads(json_text(read_report("in", report)))


class Csv(unittest.TestCase):
    def test_names_and_rows(self) -> None:
        row = "0,0,hit,,,,1,4,0.1,0.5,40800000,3dcccccd,3f000000,,,,,"
        self.assertEqual(csv_of(STRAIGHT), f"{NAMES}\n{row}\n")
        rows = f"0,0,refused,15,{REASON},,,,,,,,,,,,,\n0,1,miss,,,,0,,,,,,,,,,,\n"
        self.assertEqual(csv_of(REFUSED), f"{NAMES}\n{rows}")
        self.assertEqual(csv_of("pieces=0\n"), NAMES + "\n")

    def test_a_refused_sheet(self) -> None:
        row = f",,refused,17,{NO_LINE},3" + 12 * ","
        self.assertEqual(csv_of("refused=17 line=3\n"), f"{NAMES}\n{row}\n")
        self.assertIn("\n,,refused,5,the split depth is over 10,,", csv_of("refused=5 line=0\n"))
        self.assertIn('"the sheet has over 65,536 bytes"', csv_of("refused=18 line=0\n"))

    def test_what_is_not_finite(self) -> None:
        shown = csv_of(STRAIGHT.replace("40800000", "7f800000").replace("3f000000", "7fc00000"))
        self.assertIn(",inf,0.1,nan,7f800000,3dcccccd,7fc00000,", shown)

    def test_the_command_with_the_sheet(self) -> None:
        done = run("show", DATA / "hall.report", "--sheet", EXAMPLES / "hall.sheet", "--csv")
        rows = list(csv.DictReader(io.StringIO(done.stdout)))
        self.assertEqual((done.returncode, len(rows)), (0, 6 * 36))
        hits = [row for row in rows if row["result"] == "hit"]
        self.assertEqual([row["metre"] for row in hits][:2], ["1.832", "11.691"])
        self.assertEqual([row["piece"] for row in hits], ["1", "11", "17", "33", "4"])


class Json(unittest.TestCase):
    def test_a_hit(self) -> None:
        shown = json_of(STRAIGHT)
        top = {"pieces": 1, "beams": 1, "refused": None, "reason": None, "line": None}
        self.assertEqual({name: shown[name] for name in top}, top)
        (answer,) = shown["answers"]
        self.assertEqual(tuple(answer), FIELDS)
        self.assertEqual((answer["t"], answer["u"], answer["v"]), (4, 0.1, 0.5))
        self.assertEqual((answer["u_bits"], answer["metre"]), ("3dcccccd", None))

    def test_a_refused_beam_and_a_miss(self) -> None:
        refused, miss = json_of(REFUSED)["answers"]
        self.assertEqual((refused["refused"], refused["reason"], refused["t"]), (15, REASON, None))
        self.assertEqual((miss["result"], miss["looked"], miss["refused"]), ("miss", 0, None))

    def test_a_refused_sheet(self) -> None:
        self.assertEqual(json_of("refused=17 line=3\n"), {
            "pieces": None, "beams": None, "refused": 17, "reason": NO_LINE, "line": 3,
            "answers": [],
        })

    def test_what_is_not_finite(self) -> None:
        text = STRAIGHT.replace("40800000", "7f800000").replace("3f000000", "7fc00000")
        (answer,) = json_of(text)["answers"]
        self.assertEqual((answer["t"], answer["v"]), (None, None))
        self.assertEqual((answer["t_bits"], answer["v_bits"]), ("7f800000", "7fc00000"))

    def test_both_forms_say_the_same(self) -> None:
        report = text_of(DATA / "hall.report")
        rows = csv.DictReader(io.StringIO(csv_of(report)))
        for row, answer in zip(rows, json_of(report)["answers"], strict=True):
            for name, value in answer.items():
                number = name in ("t", "u", "v") and value is not None
                self.assertEqual(float(row[name]) if number else row[name],
                                 value if number else str("" if value is None else value))

    def test_the_command(self) -> None:
        done = run("show", "--json", stdin=REFUSED)
        self.assertEqual(done.returncode, 1)
        self.assertEqual(json.loads(done.stdout), json_of(REFUSED))


class Names(unittest.TestCase):
    def test_the_help_tells_every_name(self) -> None:
        self.assertEqual(",".join(FIELDS), NAMES)
        told = FIELDS_HELP.replace(",", " ").split()
        self.assertEqual([name for name in FIELDS if name not in told], [])


if __name__ == "__main__":
    unittest.main()
