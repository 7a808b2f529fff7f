"""One command from a sheet in decimal to the table and the plan."""

import os
import shutil
import tempfile
import unittest
from pathlib import Path
from subprocess import CompletedProcess

from support import DATA, EXAMPLES, HEAD, STRAIGHT_POINTS, TOOLS, UP, run, text_of
from beltlib import commands
from beltlib.errors import BadInput

BUILT = TOOLS.parent / "target" / "bin" / "beltbeam"
HALL = EXAMPLES / "hall.belt"


class Run(unittest.TestCase):
    def setUp(self) -> None:
        holder = tempfile.TemporaryDirectory()
        self.addCleanup(holder.cleanup)
        self.folder = Path(holder.name).resolve()

    def stand_in(self, body: str, name: str = "stand-in") -> Path:
        """A program in beltbeam's place."""
        path = self.folder / name
        path.write_text(f"#!/bin/sh\n{body}\n")
        path.chmod(0o755)
        return path

    def printing(self, report: str) -> Path:
        """A program that reads a sheet and prints a report."""
        stored = self.folder / "report"
        stored.write_text(report)
        return self.stand_in(f"cat > '{self.folder}/sheet'; cat '{stored}'")

    def hall(self, report: str, *arguments: object) -> CompletedProcess:
        """The hall, of which a program prints a report."""
        return run("run", HALL, "--beltbeam", self.printing(report), *arguments)

    def check_bad(self, done: CompletedProcess, status: int, words: str) -> None:
        self.assertEqual((done.returncode, done.stdout), (status, ""), done.stderr)
        self.assertIn(words, done.stderr)
        self.assertNotIn("Traceback", done.stderr)

    def test_the_table_and_the_plan(self) -> None:
        plan = self.folder / "plan.svg"
        done = self.hall(text_of(DATA / "hall.report"), "--draw", plan)
        self.assertEqual((done.returncode, done.stderr), (0, ""))
        self.assertEqual(text_of(self.folder / "sheet"), text_of(EXAMPLES / "hall.sheet"))
        sheet = EXAMPLES / "hall.sheet"
        self.assertEqual(done.stdout, run("show", DATA / "hall.report", "--sheet", sheet).stdout)
        self.assertEqual(text_of(plan), run("draw", sheet, DATA / "hall.report").stdout)

    def test_forms_planes_and_streams(self) -> None:
        report, sheet = DATA / "hall.report", EXAMPLES / "hall.sheet"
        program = self.printing(text_of(report))
        done = run("run", "-", "--beltbeam", program, "--csv", stdin=text_of(HALL))
        self.assertEqual(done.stdout, run("show", report, "--sheet", sheet, "--csv").stdout)
        table = self.folder / "table"
        done = self.hall(text_of(report), "--draw", "-", "--plane", "xz", "-o", table)
        self.assertEqual(done.stdout, run("draw", sheet, report, "--plane", "xz").stdout)
        self.assertIn("beam 3: 0 hits, 36 misses\n", text_of(table))
        self.check_bad(self.hall("", "--draw", "-"), 2, "only one output can be standard output")

    def test_a_finished_sheet(self) -> None:
        program = self.printing(text_of(DATA / "hall.report"))
        done = run("run", EXAMPLES / "hall.sheet", "--beltbeam", program)
        self.assertEqual(done.returncode, 0)
        self.assertEqual(text_of(self.folder / "sheet"), text_of(EXAMPLES / "hall.sheet"))

    def test_a_refused_beam(self) -> None:
        path, plan = self.folder / "one.belt", self.folder / "plan.svg"
        path.write_text(HEAD + STRAIGHT_POINTS + UP)
        program = self.printing("pieces=1\nbeam=0 piece=0 refused=15\n")
        done = run("run", path, "--beltbeam", program, "--draw", plan)
        self.assertEqual((done.returncode, done.stderr), (1, ""))
        self.assertIn("beam 0: 0 hits, 0 misses, 1 refused\n", done.stdout)
        self.assertIn("refused 15", text_of(plan))

    def test_a_refused_sheet(self) -> None:
        path = self.folder / "deep.belt"
        path.write_text(HEAD.replace("th=0", "th=11") + STRAIGHT_POINTS)
        done = run("run", path, "--beltbeam", self.printing("refused=5 line=0\n"))
        self.check_bad(done, 1, "deep.belt:6: refused 5: the split depth is over 10")
        self.assertFalse((self.folder / "sheet").exists())
        done = self.hall("refused=8 line=0\n", "--draw", self.folder / "plan.svg")
        self.assertEqual(done.returncode, 1)
        self.assertEqual(
            done.stdout, "The sheet is refused 8: the list is too short for the pieces.\n"
        )
        self.assertFalse((self.folder / "plan.svg").exists())

    def test_a_report_that_is_not_whole(self) -> None:
        report, plan = text_of(DATA / "hall.report"), self.folder / "plan.svg"
        *_, last = report.splitlines(keepends=True)
        for cut, words in (
            ("", ":1: expected a report"),
            (report[:-1], ":217: the last line is not ended by a line feed"),
            (report.removesuffix(last), ":217: the report ends here, expected beam=5 piece=35"),
            ("".join(report.splitlines(keepends=True)[:181]), "5 beams, but "),
            (report + last, ":218: expected beam=6 piece=0, found beam=5 piece=35"),
            (report.replace("pieces=36", "pieces=35"), ":37: expected beam=1 piece=0"),
            (report.replace("looked=1", "looked"), ":3: expected beam=, piece= and what"),
        ):
            with self.assertRaisesRegex(BadInput, words):
                commands.run(str(HALL), str(self.printing(cut)), "table", "xy")
        self.check_bad(self.hall(report[:-1], "--draw", plan), 2, ":217: the last line is not")
        self.assertFalse(plan.exists())

    def test_a_program_that_dies_or_prints_no_text(self) -> None:
        done = run("run", HALL, "--beltbeam", self.stand_in("kill -9 $$"))
        self.check_bad(done, 2, "ended by signal 9, so that its report is not whole")
        done = run("run", HALL, "--beltbeam", self.stand_in(r"printf '\377'"))
        self.check_bad(done, 2, "not text in UTF-8")
        done = run("run", HALL, "--beltbeam", self.stand_in("echo words >&2"))
        self.check_bad(done, 2, "words\n")

    def test_a_plan_that_cannot_be_written(self) -> None:
        done = self.hall(text_of(DATA / "hall.report"), "--draw", self.folder)
        self.check_bad(done, 2, "cannot be written: Is a directory")

    def elsewhere(self, *arguments: object, **environment: str) -> CompletedProcess:
        """A run of belt at another place, where no beltbeam is built."""
        tools = self.folder / "elsewhere" / "tools"
        if not tools.exists():
            shutil.copytree(TOOLS / "beltlib", tools / "beltlib")
            shutil.copy(TOOLS / "belt", tools)
        return run("run", HALL, *arguments, tool=tools / "belt", env=environment)

    def test_where_the_program_is_looked_for(self) -> None:
        missing = "belt: beltbeam is not found: build it by tools/build beltbeam, or name it"
        self.check_bad(self.elsewhere(PATH=str(self.folder)), 2, missing)
        report = text_of(DATA / "hall.report")
        self.printing(report).rename(self.folder / "beltbeam")
        path = f"{self.folder}:/bin:/usr/bin"
        self.assertEqual(self.elsewhere(PATH=path).returncode, 0)
        # Each further place comes before those tried so far.
        for place in ("target/bin/beltbeam", "tools/beltbeam"):
            wrong = self.folder / "elsewhere" / place
            wrong.parent.mkdir(parents=True, exist_ok=True)
            self.stand_in("echo pieces=1").rename(wrong)
            done = self.elsewhere(PATH=path)
            self.check_bad(done, 2, f"{wrong}: 1 pieces, but ")
        named = self.printing(report)
        self.assertEqual(self.elsewhere(PATH=path, BELTBEAM=str(named)).returncode, 0)
        done = self.elsewhere("--beltbeam", "/bin/false", PATH=path, BELTBEAM=str(named))
        self.check_bad(done, 2, "the report of /bin/false:1: expected a report")

    def test_a_link_to_belt_beside_the_program(self) -> None:
        (self.folder / "bin").mkdir()
        (self.folder / "bin" / "belt").symlink_to(TOOLS / "belt")
        self.printing(text_of(DATA / "hall.report")).rename(self.folder / "bin" / "beltbeam")
        done = run("run", HALL, tool=self.folder / "bin" / "belt")
        self.assertEqual((done.returncode, done.stderr), (0, ""))
        self.assertTrue((self.folder / "sheet").exists())

    def test_a_named_program_that_cannot_be_run(self) -> None:
        words = "none: expected the program beltbeam, found none that can be run"
        self.check_bad(run("run", HALL, "--beltbeam", self.folder / "none"), 2, words)
        self.check_bad(self.elsewhere(BELTBEAM="none", PATH=""), 2, words)
        bad = self.folder / "bad"
        bad.write_bytes(b"\x7fELF\0\0\0")
        bad.chmod(0o755)
        self.check_bad(run("run", HALL, "--beltbeam", bad), 2, "cannot be run: Exec format error")

    @unittest.skipUnless(os.access(BUILT, os.X_OK), "beltbeam is not built")
    def test_the_program_that_is_built(self) -> None:
        for path in sorted(EXAMPLES.glob("*.belt")):
            text, _, status = commands.run(str(path), None, "table", None)
            report, sheet = DATA / f"{path.stem}.report", path.with_suffix(".sheet")
            self.assertEqual((text, status), commands.show(str(report), str(sheet), "table"))


if __name__ == "__main__":
    unittest.main()
