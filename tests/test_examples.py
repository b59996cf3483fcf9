#!/usr/bin/env python3
"""Tests the example programs: the commands at the head of each build it and run it as they stand, and what it prints of every example
line is what the independent calculator says."""
import re
import shlex
import struct
import subprocess
import sys
import unittest

sys.dont_write_bytecode = True

from library import need_archive
from places import EXAMPLES, TOP_FOLDER
from yardstick import HEADER_LINE, POINT_SIZE, Refused, accepted_line, add_call, diagram_call, hold_call, open_call, path_call
from yardstick import period_call, program

OUT = TOP_FOLDER / "target"
TEXTS = sorted(EXAMPLES.glob("*.txt"))


def run(words, status=0, **options):
    """What a command prints that ends with this status."""
    done = subprocess.run(words, cwd=TOP_FOLDER, capture_output=True, **options)
    if done.returncode != status:
        raise AssertionError("%s ended with %d: %s" % (words, done.returncode, done.stderr))
    return done.stdout


def head_commands(source):
    """The commands that the comment at the head of a program shows: its indented lines."""
    for line in source.read_text().splitlines():
        found = re.match(r"(?: \*|//!) {5}(\S.*)", line)
        if found:
            yield found[1]
        elif not re.match(r"/\*| \*|//!", line):
            return


def built(source):
    """What the last of the head's commands prints, which runs the program, and the program itself."""
    printed = [run(shlex.split(command)) for command in head_commands(source)]
    return printed[-1], shlex.split(list(head_commands(source))[-1])[0]


def packed(text):
    """The line file of a text, under target."""
    file = OUT / (text.stem + ".line")
    run([TOP_FOLDER / "tools" / "linefile", "pack", text, file])
    return file


def holds(data):
    points = accepted_line(data).P
    return [hold_call(data, k, [0] * points, [0] * points) for k in range(len(accepted_line(data).trains))]


def left_sheet(data):
    each = holds(data)
    sheet = open_call(each[0].count)
    for hold in each:
        add_call(sheet, hold)
    return sheet


class Examples(unittest.TestCase):
    def test_sheet_in_c_and_rust(self):
        for source in (EXAMPLES / "c" / "sheet.c", EXAMPLES / "rust" / "sheet.rs"):
            printed, made = built(source)
            self.assertTrue(printed.startswith(HEADER_LINE))
            for text in TEXTS:
                with self.subTest(source=source.name, line=text.name):
                    file = packed(text)
                    self.assertEqual(run([made, file]), program(file.read_bytes()))
            with self.subTest(source=source.name, line="refused"):
                refused = OUT / "refused.line"
                refused.write_bytes(packed(TEXTS[0]).read_bytes()[:-1])
                self.assertEqual(run([made, refused], status=1), b"refused 1\n")
                self.assertEqual(run([made], status=2), b"")

    def test_period(self):
        _, made = built(EXAMPLES / "c" / "period.c")
        for text in TEXTS:
            with self.subTest(text.name):
                file = packed(text)
                figures = period_call(left_sheet(file.read_bytes()))
                self.assertEqual([int(word) for word in re.findall(rb"[0-9]+", run([made, file]))], list(figures))

    def test_path(self):
        printed, made = built(EXAMPLES / "c" / "path.c")
        data = packed(EXAMPLES / "valley.txt").read_bytes()
        each, sold = holds(data), [0, 300, 1500, 2100]
        for train, low, high in ((0, 0, 3600), (1, 600, 9000), (5, 0, 60)):
            with self.subTest(train=train):
                words = [made, OUT / "valley.line", *map(str, (train + 1, low, high, *sold))]
                count = each[0].count
                rows = [[time for hold in each[:len(sold)] for time in getattr(hold, name)[:count]] for name in ("begins", "ends")]
                try:
                    start, before = path_call(each[train], [1000000 * s for s in sold], *rows, 1000000 * low, 1000000 * high)
                    right, status = "start before\n%d %d\n" % (start, before), 0
                except Refused as refusal:
                    right, status = "refused %d\n" % refusal.number, 1
                self.assertEqual(run(words, status, text=True), right)
        self.assertEqual(printed, b"start before\n784287634 2\n")

    def test_diagram(self):
        _, made = built(EXAMPLES / "c" / "diagram.c")
        for text in TEXTS:
            data = packed(text).read_bytes()
            points = accepted_line(data).P
            for k in range(len(accepted_line(data).trains)):
                with self.subTest(line=text.name, train=k + 1):
                    lent = bytearray(POINT_SIZE * points)
                    diagram_call(data, k, lent)
                    lines = run([made, OUT / (text.stem + ".line"), str(k + 1)], text=True).splitlines()[-points:]
                    for i, line in enumerate(lines):
                        position, speed, arrival, dot = struct.unpack_from("<dddB", lent, POINT_SIZE * i)
                        shown = line.split()
                        self.assertEqual([float(word) for word in shown[:3]], [position, speed / 100, arrival / 1000000])
                        self.assertEqual(shown[3], "full" if dot else "open")


def setUpModule():
    need_archive()
    OUT.mkdir(exist_ok=True)


if __name__ == "__main__":
    unittest.main()
