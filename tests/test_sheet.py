#!/usr/bin/env python3
"""Tests the sheet program as it is built, and the command ./sheet: python3 tests/test_sheet.py

The program is built first where it is older than its sources. Inputs at its bound of 16,384 bytes are chosen so that the rules
would give another number than 2.
"""
import os
import pty
import random
import signal
import subprocess
import sys
import tempfile
import unittest
from pathlib import Path

sys.dont_write_bytecode = True

from damage_ways import questions
from places import EXAMPLES, TOP_FOLDER
from processes import SECONDS, taken, with_interrupts
from yardstick import PROGRAM_BOUND, VERSION, accepted_line, number_of, program, sample_line, write_line

import building
from asking import ask, explanation, refusal_in
from vellumrill.inputs import Given
from vellumrill.linetext import decode, read_text, to_bytes
from vellumrill.messages import speaker

PROGRAM = building.PROGRAM.path
SHEET = TOP_FOLDER / "sheet"
SAMPLE = write_line(sample_line())
SAMPLE_SHEET = b"train start run block\n1 0 69282976 0\n2 57282976 69282976 2\n"


def setUpModule():
    building.bring_up_to_date(building.PROGRAM, speaker("test_sheet"))


def printed(*pieces, command=(PROGRAM,)):
    """What a process prints that gets each piece of its input only after it has taken the one before."""
    reading, writing = os.pipe()
    os.set_blocking(writing, False)
    with subprocess.Popen(command, stdin=reading, stdout=subprocess.PIPE) as running:
        for piece in pieces:
            if os.write(writing, piece) < len(piece):
                raise ValueError("a piece is longer than the pipe")
            taken(running, reading)
        os.close(writing)
        os.close(reading)
        return running.stdout.read()


def cut_up(data, *sizes):
    """The data in pieces of these sizes, over and over."""
    pieces, at = [], 0
    while at < len(data):
        size = sizes[len(pieces) % len(sizes)]
        pieces.append(data[at:at + size])
        at += size
    return pieces


def sheet(*arguments, given=b"", **options):
    """A run of ./sheet."""
    if "stdin" not in options:
        options["input"] = given
    if "stdout" not in options:
        options["stdout"] = subprocess.PIPE
    return subprocess.run([SHEET, *arguments], stderr=subprocess.PIPE, timeout=SECONDS, **options)


class Pieces(unittest.TestCase):
    """The helper itself: input comes in pieces indeed."""
    ONE_READ = (sys.executable, "-c", "import os; print(len(os.read(0, 16385)))")
    ALL_READS = (sys.executable, "-c", "import os\nwhile piece := os.read(0, 16385): print(len(piece))")

    def test_a_single_read_gets_the_first_piece_alone(self):
        for sizes in ((1,), (3, 1, 20), (4096,), (len(SAMPLE),)):
            pieces = cut_up(SAMPLE * 200, *sizes)[:50]
            self.assertEqual(printed(*pieces, command=self.ONE_READ), b"%d\n" % len(pieces[0]))

    def test_each_piece_is_read_by_itself(self):
        for sizes in ((1,), (3, 1, 20), (4096,)):
            pieces = cut_up(SAMPLE * 200, *sizes)[:50]
            sizes_read = b"".join(b"%d\n" % len(piece) for piece in pieces)
            self.assertEqual(printed(*pieces, command=self.ALL_READS), sizes_read)


class SheetProgram(unittest.TestCase):
    def test_sample(self):
        self.assertEqual(printed(SAMPLE), SAMPLE_SHEET)

    def test_last_of_equal_blocks_is_named(self):
        tunnel = to_bytes(read_text(decode((EXAMPLES / "tunnel.txt").read_bytes())))
        lines = b"train start run block\n1 0 132000000 0\n2 73000000 132000000 8\n3 146000000 132000000 8\n"
        self.assertEqual(printed(tunnel), lines)

    def test_pieces(self):
        for sizes in ((1,), (1, 2, 5), (67, 1), (33,)):
            self.assertEqual(printed(*cut_up(SAMPLE, *sizes)), SAMPLE_SHEET)
            self.assertEqual(printed(*cut_up(SAMPLE[:-1], *sizes)), b"refused 1\n")
            self.assertEqual(printed(*cut_up(SAMPLE + b"\0", *sizes)), b"refused 2\n")

    def test_no_input(self):
        self.assertEqual(printed(), b"refused 1\n")

    def test_bound(self):
        for byte in (b"\xff", b"\x01"):
            whole = byte * PROGRAM_BOUND
            self.assertNotEqual(program(whole), b"refused 2\n")
            self.assertEqual(printed(whole), program(whole))
            self.assertEqual(printed(whole, byte), b"refused 2\n")
            self.assertEqual(printed(whole + byte * 3 * PROGRAM_BOUND), b"refused 2\n")

    def test_bound_in_pieces(self):
        whole = b"\x01" * PROGRAM_BOUND
        for sizes in ((4096,), (4097,), (5000, 3000), (8192,), (PROGRAM_BOUND - 1, 1)):
            self.assertEqual(printed(*cut_up(whole, *sizes)), program(whole))
            self.assertEqual(printed(*cut_up(whole + b"\x01", *sizes)), b"refused 2\n")

    def test_damaged_files(self):
        """The program's number is the calculator's, and the explanation finds its place."""
        for data, *_ in questions(random.Random(11), 1000):
            with self.subTest(data=data.hex()):
                number = refusal_in(ask(data[:PROGRAM_BOUND + 1]))
                self.assertEqual(number, 2 if len(data) > PROGRAM_BOUND else number_of(accepted_line, data))
                if number:
                    self.assertNotIn("not found", explanation(number, Given(data)))


class Accepted(unittest.TestCase):
    def check(self, done):
        self.assertEqual((done.returncode, done.stdout, done.stderr), (0, SAMPLE_SHEET, b""))

    def test_line_text(self):
        self.check(sheet(EXAMPLES / "sample.txt"))

    def test_line_file(self):
        with tempfile.TemporaryDirectory() as folder:
            for name in ("sample.line", "sample", "zürich line", "-x"):
                Path(folder, name).write_bytes(SAMPLE)
                self.check(sheet("--", name, cwd=folder))
            self.check(sheet("sample.line", cwd=folder))

    def test_standard_input(self):
        self.check(sheet(given=SAMPLE))
        self.check(sheet("-", given=SAMPLE))
        for sizes in ((1,), (60, 8)):
            self.assertEqual(printed(*cut_up(SAMPLE, *sizes), command=(SHEET,)), SAMPLE_SHEET)

    def test_symbolic_link_from_another_folder(self):
        with tempfile.TemporaryDirectory() as folder:
            Path(folder, "link").symlink_to(SHEET)
            Path(folder, "sample.line").write_bytes(SAMPLE)
            self.check(subprocess.run(["./link", "sample.line"], cwd=folder, capture_output=True, timeout=SECONDS))

    def test_closed_streams_that_are_not_needed(self):
        for closed in ([0], [2], [0, 2]):
            done = sheet(EXAMPLES / "sample.txt", preexec_fn=lambda: [os.close(file) for file in closed])
            self.check(done)


class Refused(unittest.TestCase):
    def check(self, data, explanation, *arguments):
        done = sheet(*arguments, given=data)
        self.assertEqual(done.stdout, ask(data))
        self.assertEqual(done.returncode, 1)
        number = done.stdout.split()[1].decode()
        self.assertEqual(done.stderr.decode(), f"sheet: explanation of refused {number}: {explanation}\n")

    def test_explanations(self):
        line = sample_line()
        line.trains[1].stops = [0, 1]
        self.check(write_line(line), "train 2, stop 2 of 2: point 1 is less than two points after the stop before it at point 0")
        self.check(b"", "the file is cut short: the sizes should fill bytes 0 to 13, but the file has 0 bytes")
        self.check(SAMPLE[:-1], "the file is cut short: the dwells of train 2 of 2 should fill bytes 64 to 67,"
                                " but the file has 67 bytes", "-")
        self.check(SAMPLE + b"ab", "2 bytes follow the last announced train: the file should end with byte 67, and has 70 bytes")

    def test_bytes_that_are_no_line_text_go_to_the_program(self):
        for data in (b"point 7\n", b"# points 7\n", b"\n\n", b"points\xff 7\n", b"points 7\n\0", b"7 points\n"):
            done = sheet(given=data)
            self.assertEqual((done.returncode, done.stdout), (1, b"refused 1\n"))

    def test_more_bytes_than_the_bound(self):
        words = "the line file has more than 16,384 bytes, so no rule was checked"
        self.check(b"\x01" * (PROGRAM_BOUND + 1), words)
        self.check(b"\x01" * (16 * PROGRAM_BOUND), words)
        done = sheet("/dev/zero")
        self.assertEqual((done.returncode, done.stdout), (1, b"refused 2\n"))
        self.assertEqual(done.stderr.decode(), f"sheet: explanation of refused 2: {words}\n")

    def test_line_text(self):
        with tempfile.TemporaryDirectory() as folder:
            text = (EXAMPLES / "sample.txt").read_text()
            for old, new, number in (("length 100", "length 101", 9), ("limit 0 72", "limit 0 72\n" * 5000, 2)):
                Path(folder, "bad.txt").write_text(text.replace(old, new))
                done = sheet("bad.txt", cwd=folder)
                self.assertEqual((done.returncode, done.stdout), (1, b"refused %d\n" % number))
                self.assertIn(b"sheet: explanation of refused %d: " % number, done.stderr)


class BadInput(unittest.TestCase):
    def check(self, done, *words):
        self.assertEqual((done.returncode, done.stdout), (2, b""))
        self.assertTrue(done.stderr.startswith(b"sheet: "))
        self.assertNotIn(b"Traceback", done.stderr)
        for word in words:
            self.assertIn(word, done.stderr.decode())

    def test_directory(self):
        self.check(sheet(EXAMPLES), f"{EXAMPLES} is a directory")
        given = os.open(EXAMPLES, os.O_RDONLY)
        self.check(sheet(stdin=given), "sheet: standard input is a directory")
        os.close(given)
        with tempfile.TemporaryDirectory() as folder:
            Path(folder, "a.txt").mkdir()
            self.check(sheet("a.txt", cwd=folder), "a.txt is a directory")

    def test_files_that_cannot_be_read(self):
        self.check(sheet("/no/such"), "/no/such cannot be read: No such file or directory")
        self.check(sheet("/no/such.txt"), "/no/such.txt cannot be read: No such file or directory")
        self.check(sheet("/proc/self/mem"), "/proc/self/mem cannot be read: Input/output error")
        self.check(sheet(""), "cannot be read: No such file or directory")

    def test_closed_standard_input(self):
        self.check(sheet(stdin=None, preexec_fn=lambda: os.close(0)), "standard input cannot be read: Bad file descriptor")

    def test_line_text_in_place_of_a_line_file(self):
        text = (EXAMPLES / "sample.txt").read_bytes()
        long = ("points 7\n# " + "ä" * PROGRAM_BOUND).encode()
        for data in (text, b"\xef\xbb\xbf" + text, b"\n# a line\n\n  train goods\n", long, long.replace(b"#", b"##")):
            done = sheet(given=data)
            self.check(done, "standard input is a line text, not a line file", "ends in .txt", "tools/linefile pack")
            self.assertLess(len(done.stderr), 200)
        with tempfile.TemporaryDirectory() as folder:
            Path(folder, "sample.line").write_bytes(text)
            self.check(sheet("sample.line", cwd=folder), "sheet: sample.line is a line text", "tools/linefile pack")

    def test_line_file_in_place_of_a_line_text(self):
        with tempfile.TemporaryDirectory() as folder:
            Path(folder, "sample.txt").write_bytes(SAMPLE)
            self.check(sheet("sample.txt", cwd=folder), "sample.txt has a byte 0, so it is no line text in UTF-8")
            Path(folder, "zero.txt").symlink_to("/dev/zero")
            self.check(sheet("zero.txt", cwd=folder), "zero.txt has a byte 0")

    def test_faults_of_the_line_text(self):
        with tempfile.TemporaryDirectory() as folder:
            for text, message in ((b"points 7\nstep x\n", "line 2: 'x' is not a whole number"), (b"", "line 1: the description"),
                                  (b"points \xff\n", "line 1: this is not text in UTF-8")):
                Path(folder, "bad.txt").write_bytes(text)
                self.check(sheet("bad.txt", cwd=folder), f"sheet: bad.txt: {message}")

    def test_usage(self):
        usage = "usage: sheet [FILE | -]"
        self.check(sheet("a", "b"), usage)
        self.check(sheet("--verbose"), "there is no option --verbose", usage)
        self.check(sheet("-x", "a"), "there is no option -x", usage)
        ours, theirs = pty.openpty()
        try:
            self.check(sheet(stdin=theirs), usage)
        finally:
            os.close(ours)
            os.close(theirs)


class HelpAndVersion(unittest.TestCase):
    def test_help(self):
        for option in ("--help", "-h"):
            done = sheet(option)
            self.assertEqual((done.returncode, done.stderr), (0, b""))
            for words in ("usage: sheet [FILE | -]", "exit status:", "0    the sheet is printed", "1    the file is refused",
                          "2    failed"):
                self.assertIn(words, done.stdout.decode())

    def test_version_is_that_of_the_header(self):
        done = sheet("--version")
        header = (TOP_FOLDER / "include" / "vellumrill.h").read_text()
        self.assertIn(f"\n#define VR_VERSION {VERSION}\n", header)
        line = f"Vellumrill {VERSION}: document 01 with requests 01 to {VERSION:02} of document 02\n"
        self.assertEqual((done.returncode, done.stdout.decode(), done.stderr), (0, line, b""))


class OutputThatIsNotWritten(unittest.TestCase):
    CASES = ((EXAMPLES / "sample.txt",), ("/dev/null",), ("--help",), ("--version",))

    def check(self, done, message):
        self.assertEqual((done.returncode, done.stderr.decode()), (2, f"sheet: {message}\n"))

    def test_full(self):
        for arguments in self.CASES:
            with open("/dev/full", "wb") as full:
                self.check(sheet(*arguments, stdout=full), "standard output was not written: No space left on device")

    def test_closed(self):
        for arguments in self.CASES:
            done = sheet(*arguments, stdout=None, preexec_fn=lambda: os.close(1))
            self.check(done, "standard output is closed, so nothing can be printed")

    def test_closed_pipe(self):
        for arguments in self.CASES:
            reading, writing = os.pipe()
            os.close(reading)
            try:
                self.check(sheet(*arguments, stdout=writing), "standard output was not written: Broken pipe")
            finally:
                os.close(writing)

    def test_both_closed(self):
        done = sheet(EXAMPLES / "sample.txt", stdout=None, preexec_fn=lambda: [os.close(1), os.close(2)])
        self.assertEqual((done.returncode, done.stderr), (2, b""))


class Interrupts(unittest.TestCase):
    def test_while_the_input_is_read(self):
        reading, writing = os.pipe()
        with subprocess.Popen([SHEET], stdin=reading, stdout=subprocess.PIPE, stderr=subprocess.PIPE,
                              preexec_fn=with_interrupts) as running:
            os.write(writing, b"\x07")
            taken(running, reading)
            running.send_signal(signal.SIGINT)
            self.assertEqual((*running.communicate(timeout=SECONDS), running.returncode), (b"", b"", 130))
        os.close(writing)
        os.close(reading)


if __name__ == "__main__":
    unittest.main()
