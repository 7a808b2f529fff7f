"""The command line: exit statuses, messages, files and streams."""

import re
import tempfile
import unittest
from pathlib import Path

from support import DATA, EXAMPLES, TOOLS, run, text_of


class Command(unittest.TestCase):
    def check_bad(self, status: int, words: str, *arguments: object, stdin: str = "") -> None:
        """A run that ends with a status and a message, and prints nothing."""
        done = run(*arguments, stdin=stdin)
        self.assertEqual((done.returncode, done.stdout), (status, ""), done.stderr)
        self.assertIn(words, done.stderr)
        self.assertNotIn("Traceback", done.stderr)

    def test_help(self) -> None:
        expected = {
            "run": "--beltbeam", "make": "the decimal form", "show": "--sheet", "draw": "--plane"
        }
        for command, words in expected.items():
            done = run(command, "--help")
            self.assertEqual((done.returncode, done.stderr), (0, ""))
            self.assertIn(words, done.stdout)
            self.assertIn("exit status: 0 if all is well, 1 if a sheet or a beam", done.stdout)

    def test_the_version_is_that_of_the_wrapper(self) -> None:
        crate = text_of(TOOLS.parent / "bindings" / "rust" / "Cargo.toml")
        version = re.search('^version = "(.*)"$', crate, re.MULTILINE)[1]
        done = run("--version")
        self.assertEqual((done.returncode, done.stdout), (0, f"belt {version}\n"))

    def test_bad_usage(self) -> None:
        self.check_bad(2, "required: run|make|show|draw")
        self.check_bad(2, "invalid choice: 'zz'", "draw", "x", "--plane", "zz")
        self.check_bad(2, "only one input can be standard input", "show", "--sheet", "-")
        self.check_bad(2, "--json: not allowed with argument --csv", "show", "--csv", "--json")

    def test_bad_input(self) -> None:
        self.check_bad(2, "belt: standard input:1: unknown key 'colour'", "make", stdin="colour=1")
        self.check_bad(2, "belt: none.belt: cannot be read: No such file", "make", "none.belt")
        self.check_bad(2, "belt: standard input:1: expected a report", "show", stdin="hello\n")
        self.check_bad(2, "belt: README.md:1: expected key=value", "draw", "README.md")
        self.check_bad(2, "belt: tools: cannot be read: Is a directory", "make", "tools")

    def test_bytes_that_are_no_text(self) -> None:
        with tempfile.TemporaryDirectory() as folder:
            path = Path(folder) / "bytes"
            path.write_bytes(b"degree=3\n\xff\xfe\n")
            self.check_bad(2, "bytes:2: not text in UTF-8", "make", path)

    def test_an_output_that_cannot_be_written(self) -> None:
        source = EXAMPLES / "hall.belt"
        self.check_bad(2, "belt: examples/: cannot be written", "make", source, "-o", "examples/")

    def test_an_input_is_not_written_over(self) -> None:
        with tempfile.TemporaryDirectory() as folder:
            path, link = Path(folder) / "one.belt", Path(folder) / "link"
            path.write_text(text_of(EXAMPLES / "straight.belt"))
            link.symlink_to(path)
            self.check_bad(2, "is an input and would be written over", "make", path, "-o", link)
            self.check_bad(2, "is an input and would be written over", "run", path, "--draw", path)
            self.assertEqual(text_of(path), text_of(EXAMPLES / "straight.belt"))
            out = Path(folder) / "out"
            self.check_bad(2, "need a file each", "run", path, "--draw", out, "-o", out)

    def test_make_from_a_stream_and_into_a_file(self) -> None:
        source, sheet = text_of(EXAMPLES / "straight.belt"), text_of(EXAMPLES / "straight.sheet")
        self.assertEqual(run("make", stdin=source).stdout, sheet)
        with tempfile.TemporaryDirectory() as folder:
            out = Path(folder) / "out.sheet"
            done = run("make", EXAMPLES / "straight.belt", "-o", out)
            self.assertEqual((done.returncode, done.stdout, done.stderr), (0, "", ""))
            self.assertEqual(text_of(out), sheet)

    def test_show_and_draw_read_a_stream(self) -> None:
        report = text_of(DATA / "hall.report")
        shown = run("show", "--sheet", EXAMPLES / "hall.sheet", stdin=report)
        self.assertEqual(shown.returncode, 0)
        self.assertIn("beam 3: 0 hits, 36 misses\n", shown.stdout)
        drawn = run("draw", EXAMPLES / "hall.sheet", "-", "--plane", "xz", stdin=report)
        self.assertEqual(drawn.returncode, 0)
        self.assertIn("5: 5.00 m", drawn.stdout)

    def test_a_refused_sheet_is_shown_in_a_sentence(self) -> None:
        done = run("show", stdin="refused=18 line=0\n")
        self.assertEqual(done.stdout, "The sheet is refused 18: the sheet has over 65,536 bytes.\n")
        self.assertEqual(done.returncode, 1)

    def test_a_refused_beam_is_shown_and_told_by_the_status(self) -> None:
        done = run("show", DATA / "width100.report")
        self.assertIn("refused 15: the curve has no crosswise direction", done.stdout)
        self.assertEqual((done.returncode, done.stderr), (1, ""))
        report = text_of(DATA / "width100.report")
        drawn = run("draw", EXAMPLES / "straight.sheet", "-", stdin=report)
        self.assertEqual((drawn.returncode, drawn.stderr), (0, ""))

    def test_a_report_that_is_not_whole(self) -> None:
        cut = text_of(DATA / "hall.report").removesuffix("\n")
        sheet, words = EXAMPLES / "hall.sheet", "standard input:217: the last line is not ended"
        self.check_bad(2, words, "show", stdin=cut)
        self.check_bad(2, words, "draw", sheet, "-", stdin=cut)
        five = "".join(text_of(DATA / "hall.report").splitlines(keepends=True)[: 1 + 5 * 36])
        self.check_bad(2, "5 beams, but ", "show", "--json", "--sheet", sheet, stdin=five)
        self.check_bad(2, "5 beams, but ", "draw", sheet, "-", stdin=five)

    def test_make_refuses_by_number(self) -> None:
        text = text_of(EXAMPLES / "hall.belt")
        deep = text.replace("splitdepth=2", "splitdepth=11")
        self.check_bad(1, "belt: standard input:9: refused 5: the split", "make", stdin=deep)
        self.check_bad(1, "refused 18: ", "make", stdin=text + 900 * "beam=0,0,0,0,0,1,inf,0\n")

    def test_a_finished_sheet_that_is_refused(self) -> None:
        deep = text_of(EXAMPLES / "hall.sheet").replace("splitdepth=2", "splitdepth=11")
        self.check_bad(1, "standard input:6: refused 5: ", "draw", "-", stdin=deep)
        self.check_bad(1, "refused 18: ", "draw", "-", stdin=deep + 65536 * "#")
        beside = ("show", DATA / "hall.report", "--sheet", "-")
        self.check_bad(1, "standard input:6: refused 5: ", *beside, stdin=deep)
        wrong = deep.replace("=11", "=111")
        self.check_bad(2, "standard input:6: splitdepth=: expected one", *beside, stdin=wrong)

    def test_a_refused_sheet_beside_its_report(self) -> None:
        wrong = text_of(EXAMPLES / "hall.sheet").replace("\n", "\r\n")
        with tempfile.TemporaryDirectory() as folder:
            report = Path(folder) / "report"
            report.write_text("refused=17 line=1\n")
            done = run("show", report, "--sheet", "-", stdin=wrong)
            self.assertEqual(done.returncode, 1)
            self.assertIn("is wrong. Line 1: expected degree= and one or two", done.stdout)
            self.assertIn("standard input:1: the line ends in CR LF, expected a line", done.stdout)
            self.check_bad(2, "the report refuses its sheet, but standard input is right",
                           "show", report, "--sheet", "-", stdin=wrong.replace("\r", ""))
            self.check_bad(2, "none: cannot be read", "show", report, "--sheet", "none")


if __name__ == "__main__":
    unittest.main()
