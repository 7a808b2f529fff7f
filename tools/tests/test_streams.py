"""Standard streams that are closed, full, endless or slow: a sentence, and no traceback."""

import os
import shlex
import subprocess
import sys
import tempfile
import time
import unittest
from pathlib import Path

from support import DATA, EXAMPLES, HEAD, TOOLS, text_of


def word(path: Path) -> str:
    """A path as a command line has it."""
    return shlex.quote(str(path))


BELT = f"{word(Path(sys.executable))} -B {word(TOOLS / 'belt')}"
HALL = word(EXAMPLES / "hall.belt")
SHEET = word(EXAMPLES / "hall.sheet")
REPORT = word(DATA / "hall.report")
REFUSED = word(DATA / "width100.report")
MADE = text_of(EXAMPLES / "hall.sheet")


class Streams(unittest.TestCase):
    def bash(self, command: str, status: int, words: str = "") -> subprocess.CompletedProcess:
        """A command line as a user types it, in which belt is the tool."""
        script = f"set -o pipefail\nbelt() {{ {BELT} \"$@\"; }}\n{command}"
        done = subprocess.run(["bash", "-c", script], capture_output=True, text=True, timeout=99)
        self.assertEqual(done.returncode, status, command + "\n" + done.stderr)
        self.assertIn(words, done.stderr)
        self.assertNotIn("Traceback", done.stderr)
        self.assertNotIn("Exception", done.stderr)
        if not words:
            self.assertEqual(done.stderr, "", command)
        return done

    def test_a_closed_input(self) -> None:
        words = "belt: standard input: cannot be read: it is closed"
        self.bash("belt make <&-", 2, words)
        self.bash("belt show <&-", 2, words)
        self.bash("belt run - <&-", 2, words)
        self.assertEqual(self.bash(f"belt make {HALL} <&-", 0).stdout, MADE)

    def test_a_closed_output(self) -> None:
        words = "belt: standard output: cannot be written: it is closed"
        self.bash(f"belt show {REPORT} >&-", 2, words)
        self.bash(f"belt draw {SHEET} >&-", 2, words)
        with tempfile.TemporaryDirectory() as folder:
            out = Path(folder) / "out"
            self.bash(f"belt make {HALL} -o {out} >&- <&-", 0)
            self.assertEqual(text_of(out), MADE)

    def test_a_closed_error_output(self) -> None:
        self.assertEqual(self.bash("belt make none 2>&-", 2).stdout, "")
        self.assertEqual(self.bash("belt make none 2>/dev/full", 2).stdout, "")
        self.assertEqual(self.bash("belt 2>&-", 2).stdout, "")
        self.bash(f"belt make {HALL} <&- >&- 2>&-", 2)

    def test_a_program_among_closed_streams(self) -> None:
        with tempfile.TemporaryDirectory() as folder:
            program, out = Path(folder) / "beltbeam", Path(folder) / "out"
            program.write_text(f"#!/bin/sh\ncmp -s - {SHEET} && cat {REPORT}\n")
            program.chmod(0o755)
            one = f"belt run {HALL} --beltbeam {program}"
            table = self.bash(one, 0).stdout
            self.assertEqual(self.bash(f"{one} <&- 2>&-", 0).stdout, table)
            self.bash(f"{one} >&-", 2, "standard output: cannot be written: it is closed")
            self.bash(f"{one} -o {out} <&- >&- 2>&-", 0)
            self.assertEqual(text_of(out), table)

    def test_a_pipe_that_is_closed_early(self) -> None:
        for command in (f"show {REPORT} --all", "--help"):
            self.bash(f"belt {command} | true", 0)
        # Many times what a pipe holds.
        with tempfile.TemporaryDirectory() as folder:
            report = Path(folder) / "report"
            lines = (f"beam={i // 1024} piece={i % 1024} looked=0 hit=0\n" for i in range(8 * 1024))
            report.write_text("pieces=1024\n" + "".join(lines))
            done = self.bash(f"belt show {report} --all | head -1", 0)
            self.assertEqual(done.stdout.count("\n"), 1)

    def test_a_refusal_stops_a_pipeline(self) -> None:
        self.bash(f"set -e; belt show {REFUSED} | cat; exit 7", 1)

    def test_a_full_disk(self) -> None:
        words = "cannot be written: No space left on device"
        self.bash(f"belt show {REPORT} > /dev/full", 2, f"belt: standard output: {words}")
        self.bash(f"belt make {HALL} -o /dev/full", 2, f"belt: /dev/full: {words}")
        self.bash("belt --help > /dev/full", 2, f"belt: standard output: {words}")

    def test_an_input_that_is_only_written_to(self) -> None:
        self.bash("belt show 0>/dev/null", 2, "standard input: cannot be read: Bad file descriptor")

    def test_an_endless_input(self) -> None:
        self.bash("yes | { belt make; exit; }", 1, "belt: standard input: refused 18: ")
        self.bash("yes | { belt show; exit; }", 2, "expected a report, found over 8,388,608 bytes")
        self.bash("belt draw /dev/zero", 1, "belt: /dev/zero: refused 18: ")

    def test_two_million_points_are_refused_at_once(self) -> None:
        with tempfile.TemporaryDirectory() as folder:
            path = Path(folder) / "long.belt"
            for count in (80_000, 2_000_000):
                path.write_text(HEAD + count * "point=0,0,0\n")
                start = time.monotonic()
                self.bash(f"belt make {path}", 1, "long.belt: refused 18: the sheet has over 65")
                self.assertLess(time.monotonic() - start, 5)

    def test_a_slow_writer_on_a_pipe_that_does_not_block(self) -> None:
        reader, writer = os.pipe()
        os.set_blocking(reader, False)
        os.write(writer, b"pieces=1\n")
        done = subprocess.run(
            [sys.executable, "-B", TOOLS / "belt", "show"],
            stdin=reader, capture_output=True, text=True,
        )
        os.close(reader)
        os.close(writer)
        self.assertEqual((done.returncode, done.stdout), (2, ""))
        self.assertIn("cannot be read: Resource temporarily unavailable", done.stderr)
        self.assertNotIn("Traceback", done.stderr)


if __name__ == "__main__":
    unittest.main()
