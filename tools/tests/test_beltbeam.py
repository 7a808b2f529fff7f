"""The program beltbeam where reading or writing fails: what it prints, and what it says on standard error."""

import fcntl
import os
import resource
import shutil
import signal
import subprocess
import tempfile
import threading
import time
import unittest
from pathlib import Path

from support import EXAMPLES, TOOLS

PROGRAM = TOOLS.parent / "target" / "bin" / "beltbeam"
STRAIGHT = (EXAMPLES / "straight.sheet").read_bytes()
STRAIGHT_REPORT = b"pieces=1\nbeam=0 piece=0 looked=1 hit=1 t=40800000 u=3f000000 v=3f000000\n"
BEAM = STRAIGHT.splitlines(keepends=True)[-1]

# 1,024 pieces and 64 beams: some 3 MB of report, of many blocks.
LONG = STRAIGHT.replace(b"splitdepth=0", b"splitdepth=10") + BEAM * 63

# A read and a write that a signal interrupts so often in a row before they move any byte, and then move at most so many: those
# of standard input and output, or those of standard error.
INTERRUPTING = r"""
#define _GNU_SOURCE
#include <dlfcn.h>
#include <errno.h>
#include <stdlib.h>
#include <string.h>
#include <unistd.h>

static ssize_t moved(const char *name, int fd, void *bytes, size_t n) {
    static size_t calls;
    ssize_t (*move)(int, void *, size_t) = (ssize_t (*)(int, void *, size_t))dlsym(RTLD_NEXT, name);
    if (!strstr(getenv("INTERRUPTED"), fd == 2 ? "error" : name)) return move(fd, bytes, n);
    size_t often = strtoul(getenv("OFTEN"), 0, 10), most = strtoul(getenv("MOST"), 0, 10);
    if (calls++ % (often + 1) < often) {
        errno = EINTR;
        return -1;
    }
    return move(fd, bytes, n < most ? n : most);
}

ssize_t write(int fd, const void *bytes, size_t n) { return moved("write", fd, (void *)bytes, n); }
ssize_t read(int fd, void *bytes, size_t n) { return moved("read", fd, bytes, n); }
"""


def beltbeam(sheet: bytes = b"", **how: object) -> subprocess.CompletedProcess:
    """Runs it on a sheet; stdin, stdout and preexec_fn may be given instead."""
    if "stdin" not in how:
        how["input"] = sheet
    how.setdefault("stdout", subprocess.PIPE)
    return subprocess.run([PROGRAM], stderr=subprocess.PIPE, timeout=60, **how)


def without_waiting(end: int) -> int:
    """A pipe's end at which a call does not wait."""
    fcntl.fcntl(end, fcntl.F_SETFL, fcntl.fcntl(end, fcntl.F_GETFL) | os.O_NONBLOCK)
    return end


@unittest.skipUnless(PROGRAM.exists(), "beltbeam is not built: run `tools/build beltbeam` first")
class Beltbeam(unittest.TestCase):
    long_report = b""

    @classmethod
    def setUpClass(cls) -> None:
        cls.long_report = beltbeam(LONG).stdout

    def check_cut_short(self, done: subprocess.CompletedProcess, written: bytes, why: str) -> None:
        """The report is cut short behind what was written, and standard error says so."""
        self.assertTrue(self.long_report.startswith(written))
        self.assertEqual(done.stderr.decode(), f"the report is cut short, {why}\n{len(written)} bytes of it are written\n")

    def check_unread(self, done: subprocess.CompletedProcess, why: str) -> None:
        """Nothing is printed, and standard error says why."""
        self.assertEqual((done.stdout, done.stderr.decode()), (b"", f"the sheet is not read, {why}\n"))


class Whole(Beltbeam):
    def test_report(self) -> None:
        done = beltbeam(STRAIGHT)
        self.assertEqual((done.stdout, done.stderr), (STRAIGHT_REPORT, b""))

    def test_long_report(self) -> None:
        lines = self.long_report.splitlines(keepends=True)
        self.assertEqual((lines[0], len(lines)), (b"pieces=1024\n", 1 + 64 * 1024))
        self.assertTrue(self.long_report.endswith(b"\n"))


class Writing(Beltbeam):
    def test_full_device(self) -> None:
        with open("/dev/full", "wb") as full:
            self.check_cut_short(beltbeam(STRAIGHT, stdout=full), b"", "a write failed: No space left on device")

    def test_closed_output(self) -> None:
        done = beltbeam(STRAIGHT, preexec_fn=lambda: os.close(1))
        self.check_cut_short(done, b"", "a write failed: Bad file descriptor")

    def test_file_size_limit(self) -> None:
        def limit() -> None:
            signal.signal(signal.SIGXFSZ, signal.SIG_IGN)
            resource.setrlimit(resource.RLIMIT_FSIZE, (100000, 100000))

        with tempfile.TemporaryFile() as out:
            done = beltbeam(LONG, stdout=out, preexec_fn=limit, restore_signals=False)
            out.seek(0)
            written = out.read()
        self.assertEqual(len(written), 100000)
        self.check_cut_short(done, written, "a write failed: File too large")

    def test_pipe_that_does_not_wait(self) -> None:
        ours, theirs = os.pipe()
        done = beltbeam(LONG, stdout=without_waiting(theirs))
        os.close(theirs)
        with open(ours, "rb") as end:
            written = end.read()
        self.assertLess(0, len(written))
        self.check_cut_short(done, written, "a write failed: Resource temporarily unavailable")

    def test_slow_reader(self) -> None:
        with subprocess.Popen([PROGRAM], stdin=subprocess.PIPE, stdout=subprocess.PIPE, stderr=subprocess.PIPE) as run:
            run.stdin.write(LONG)
            run.stdin.close()
            time.sleep(0.2)
            written = run.stdout.read(1000)
            time.sleep(0.2)
            written += run.stdout.read()
            self.assertEqual((written, run.stderr.read()), (self.long_report, b""))


class Reading(Beltbeam):
    def test_closed_input(self) -> None:
        self.check_unread(beltbeam(stdin=None, preexec_fn=lambda: os.close(0)), "a read failed: Bad file descriptor")

    def test_folder(self) -> None:
        folder = os.open(EXAMPLES, os.O_RDONLY)
        self.check_unread(beltbeam(stdin=folder), "a read failed: Is a directory")
        os.close(folder)

    def test_pausing_writer_without_waiting(self) -> None:
        theirs, ours = os.pipe()
        os.write(ours, STRAIGHT)
        done = beltbeam(stdin=without_waiting(theirs))
        os.close(ours)
        os.close(theirs)
        self.check_unread(done, "a read failed: Resource temporarily unavailable")

    def test_pausing_writer(self) -> None:
        with subprocess.Popen([PROGRAM], stdin=subprocess.PIPE, stdout=subprocess.PIPE, stderr=subprocess.PIPE) as run:
            for part in (STRAIGHT[:1], STRAIGHT[1:300], STRAIGHT[300:]):
                run.stdin.write(part)
                run.stdin.flush()
                time.sleep(0.05)
            self.assertEqual(run.communicate(), (STRAIGHT_REPORT, b""))


class TooLong(Beltbeam):
    REPORT = (b"refused=18 line=0\n", b"the sheet has over 65,536 bytes\n")

    def test_longest(self) -> None:
        sheet = STRAIGHT + b"x" * (65536 - len(STRAIGHT))
        self.assertEqual(beltbeam(sheet).stdout, b"refused=17 line=13\n")
        done = beltbeam(sheet + b"x")
        self.assertEqual((done.stdout, done.stderr), self.REPORT)

    def test_told_at_once(self) -> None:
        """The writer neither goes on nor ends: the answer comes all the same."""
        with subprocess.Popen([PROGRAM], stdin=subprocess.PIPE, stdout=subprocess.PIPE, stderr=subprocess.PIPE) as run:
            run.stdin.write(b"y" * 65537)
            run.stdin.flush()
            self.assertEqual(run.stdout.readline(), self.REPORT[0])
            self.assertIsNone(run.poll())
            run.stdin.close()
            self.assertEqual((run.stdout.read(), run.stderr.read()), (b"", self.REPORT[1]))

    def test_endless(self) -> None:
        """So much is read off, and not more."""
        with open("/dev/zero", "rb", buffering=0) as zeros:
            done = beltbeam(stdin=zeros)
        self.assertEqual((done.stdout, done.stderr), self.REPORT)

    def test_how_much_is_read_off(self) -> None:
        with tempfile.TemporaryFile() as sheet:
            sheet.write(b"y" * 3000000)
            sheet.seek(0)
            done = beltbeam(stdin=sheet)
            self.assertEqual(os.lseek(sheet.fileno(), 0, os.SEEK_CUR), 65537 + 1048576)
        self.assertEqual((done.stdout, done.stderr), self.REPORT)

    def test_writer_can_finish(self) -> None:
        theirs, ours = os.pipe()
        finished = []

        def feed() -> None:
            with open(ours, "wb") as end:
                end.write(b"y" * 1000000)
            finished.append(True)

        writer = threading.Thread(target=feed)
        writer.start()
        done = beltbeam(stdin=theirs)
        writer.join()
        os.close(theirs)
        self.assertEqual((done.stdout, done.stderr, finished), (*self.REPORT, [True]))


class Lines(Beltbeam):
    def check_refused(self, sheet: bytes, line: int, words: str) -> None:
        done = beltbeam(sheet)
        self.assertEqual(done.stdout.decode(), f"refused=17 line={line}\n")
        self.assertEqual(done.stderr.decode(), f"line {line}: {words}\n")

    def test_crlf(self) -> None:
        why = "it ends in CR LF, and a line ends in LF alone; expected "
        self.check_refused(STRAIGHT.replace(b"\n", b"\r\n"), 1, why + "degree= and one or two decimal digits")
        self.check_refused(STRAIGHT[:-1] + b"\r\n", 12, why + "a point, one of at most 64 beams, or the end")
        self.check_refused(STRAIGHT + b"\r\n", 13, why + "a point, one of at most 64 beams, or the end")

    def test_no_last_lf(self) -> None:
        why = "the last line has no LF at its end; expected "
        self.check_refused(STRAIGHT[:-1], 12, why + "a point, one of at most 64 beams, or the end")
        self.check_refused(b"degree=3", 1, why + "degree= and one or two decimal digits")
        self.check_refused(STRAIGHT[:-1] + b"\r", 12, why + "a point, one of at most 64 beams, or the end")

    def test_other_wrong_lines(self) -> None:
        self.check_refused(b"", 1, "expected degree= and one or two decimal digits")
        self.check_refused(b"degree=3\n", 2, "expected basis=bezier or bspline")
        self.check_refused(b"\n" + STRAIGHT, 1, "expected degree= and one or two decimal digits")
        self.check_refused(STRAIGHT.replace(b"flat\n", b"flax\n"), 3, "expected type=flat, ribbon or cylinder")


class Laying(Beltbeam):
    def test_refusals(self) -> None:
        doubled = STRAIGHT.replace(b"point=3f8", b"point=bf8")
        for sheet, number, words in (
            (STRAIGHT.replace(b"degree=3", b"degree=4"), 1, "the degree is not 2 or 3"),
            (doubled, 22, "two neighbouring points are equal"),
            (doubled.replace(b"flat", b"ribbon"), 22, "two neighbouring points are equal"),
        ):
            done = beltbeam(sheet)
            self.assertEqual(done.stdout.decode(), f"refused={number} line=0\n")
            self.assertEqual(done.stderr.decode(), f"{words}\n")


@unittest.skipUnless(shutil.which("cc"), "no C compiler is found, so no call can be interrupted")
class Interrupted(Beltbeam):
    folder: tempfile.TemporaryDirectory

    @classmethod
    def setUpClass(cls) -> None:
        super().setUpClass()
        cls.folder = tempfile.TemporaryDirectory()
        cls.addClassCleanup(cls.folder.cleanup)
        source = Path(cls.folder.name) / "interrupting.c"
        source.write_text(INTERRUPTING)
        subprocess.run(["cc", "-shared", "-fPIC", "-o", source.with_suffix(".so"), source, "-ldl"], check=True)

    def interrupted(self, name: str, often: int, most: int, sheet: bytes) -> subprocess.CompletedProcess:
        """A run whose calls of that name, or those for standard error, are interrupted so often in a row, and then move
        at most so many bytes."""
        library = str(Path(self.folder.name) / "interrupting.so")
        values = {"LD_PRELOAD": library, "INTERRUPTED": name, "OFTEN": str(often), "MOST": str(most)}
        return beltbeam(sheet, env={**os.environ, **values})

    def test_taken_up(self) -> None:
        for often, most in ((0, 1000), (1, 4097), (99, 65536)):
            done = self.interrupted("write", often, most, LONG)
            self.assertEqual((done.stdout, done.stderr), (self.long_report, b""))
            done = self.interrupted("read", often, 7, STRAIGHT)
            self.assertEqual((done.stdout, done.stderr), (STRAIGHT_REPORT, b""))

    def test_given_up(self) -> None:
        self.check_unread(self.interrupted("read", 100, 7, STRAIGHT), "100 reads in a row were interrupted")
        done = self.interrupted("write", 100, 7, STRAIGHT)
        self.assertEqual(done.stdout, b"")
        self.check_cut_short(done, b"", "100 writes in a row were interrupted")

    def test_standard_error(self) -> None:
        """A sentence is given up, too."""
        sheet = STRAIGHT.replace(b"degree=3", b"degree=4")
        for often, said in ((99, b"the degree is not 2 or 3\n"), (100, b"")):
            done = self.interrupted("error", often, 7, sheet)
            self.assertEqual((done.stdout, done.stderr), (b"refused=1 line=0\n", said))


if __name__ == "__main__":
    unittest.main()
