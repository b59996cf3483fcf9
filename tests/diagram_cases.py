#!/usr/bin/env python3
"""Packs files for the program diagram_cases, and works out what it must print.

Writes crates/diagram_cases/stdin and crates/diagram_cases/stdout. The answers are those of calculator/calculator.py, which
was written apart from the code under test. The seed is fixed: every run writes the same bytes.

The input is numbers of 8 bytes, low byte first, and the bytes of files. First comes the count of cases. A case is:
    LENGTH      of the file, at most 20,000
    the file    so many bytes
    K           the train number
    LENT        how many bytes are lent for the diagram, at most 102,500
Lent bytes are all 255 before the call.

The output has a line for each case:
    diagram NUMBER BYTES CHECKSUM   the answer, and a checksum of all lent bytes as the call leaves them
NUMBER and BYTES are decimal; BYTES is 0 on a refusal. CHECKSUM has 16 hexadecimal digits: it begins at 0, and for each byte
in turn it is rotated left by 7 of its 64 bits, and the byte is added, modulo 2^64.
"""
import random
import struct
import sys

sys.dont_write_bytecode = True

from line_cases import kept  # noqa: E402
from packed import PackedFiles  # noqa: E402
from run_cases import broken_lines, checksum, some_line, with_stops  # noqa: E402
from yardstick import POINT_SIZE, Line, Refused, Train, accepted_line, diagram_call, number_of, parse, sample_line, write_line  # noqa: E402

NO_BYTE = 255
MOST_BYTES = 20000
MOST_LENT = 102500
TOP = 2 ** 64 - 1


class Cases(PackedFiles):
    """The packed cases, and the lines that answer."""

    def ask(self, data, k, lent):
        assert len(data) <= MOST_BYTES and lent <= MOST_LENT
        self.files.add(data)
        left, number, count = bytearray([NO_BYTE]) * lent, 0, 0
        try:
            count = diagram_call(data, k, left)
        except Refused as refusal:
            number = refusal.number
        self.packed += struct.pack("<Q", len(data)) + data + struct.pack("<QQ", k, lent)
        self.lines.append("diagram %d %d %016x" % (number, count, checksum(left)))
        self.count("diagrams" if number == 0 else "refusals by %2d" % number)
        if number == 0 and lent > count:
            self.count("diagrams with bytes behind them")

    def line(self, line, trains=None):
        """Each train with just enough bytes, and one of them with one byte less and with more."""
        data, size = write_line(line), POINT_SIZE * line.P
        for k in range(len(line.trains)) if trains is None else trains:
            self.ask(data, k, size)
        for lent in (size - 1, size + 1 + len(self.lines) % 90):
            self.ask(data, len(self.lines) % len(line.trains), lent)

    def refused(self, data):
        """A file that is refused, with many bytes and with none."""
        self.ask(data, len(self.lines) % 3, [0, 500, MOST_LENT][len(self.lines) % 3])

    def write(self, name):
        self.packed[:0] = struct.pack("<Q", len(self.lines))
        super().write(name)


# ---- lists of cases

def sample(cases, rng):
    data = write_line(sample_line())
    exact = 7 * POINT_SIZE
    for k in (0, 1, 2, 255, 256, 2 ** 32, TOP):
        for lent in (0, 1, POINT_SIZE, exact - POINT_SIZE, exact - 1, exact, exact + 1, exact + POINT_SIZE, MOST_LENT):
            cases.ask(data, k, lent)
    for length in range(0, len(data), 5):
        cases.refused(data[:length])
    for extra in (b"\0", bytes(8), data):
        cases.refused(data + extra)


def sizes(cases, rng):
    """P from 3 to 4,096."""
    for P in range(3, 43):
        cases.line(kept(some_line(rng, P, 2)))
    for low, high, count in ((43, 130, 40), (131, 400, 30), (401, 1500, 16), (1501, 4095, 8), (4096, 4096, 4)):
        for _ in range(count):
            cases.line(kept(some_line(rng, rng.randint(low, high), 2)))


def stops(cases, rng):
    """Dwells and speeds of 0 at the first point, at the last, and between them."""
    for P in (3, 4, 6, 20, 70):
        for L in (1, 7, 100):
            even = list(range(0, min(P, 64), 2))
            cases.line(with_stops(rng, P, L, [[], [0], [P - 1], [0, P - 1], [1], even]))


def extremes(cases, rng):
    """The slowest and the fastest trains over the longest line: the greatest positions, speeds and arrivals."""
    for P in (3, 4096):
        for L, top, rate, cls in ((100, 1, 1, 2), (1, 300, 200, 1), (100, 300, 200, 0)):
            points = [0, P - 1] if P == 3 else [0] + list(range(4, 60, 2)) + [P - 1]
            train = Train(cls, 1, [top], [rate], points, [3600] * len(points))
            cases.line(kept(Line(P, L, 65535, 65535, [0], [top], [0], [P - 2], [train])))


def many_trains(cases, rng):
    """The last of 64 trains, and the train numbers behind it."""
    for P in (3, 20):
        line = kept(some_line(rng, P, 64))
        cases.line(line, trains=[0, 31, 63])
        for k in (64, 65, 128, TOP):
            for lent in (0, POINT_SIZE * P - 1, POINT_SIZE * P):
                cases.ask(write_line(line), k, lent)


def broken_rules(cases, rng):
    for line in broken_lines(rng, 6, 3):
        data = write_line(line)
        if number_of(accepted_line, data):
            cases.refused(data)
        else:
            cases.line(parse(data))


def main():
    rng = random.Random(20241118)
    cases = Cases()
    for part in (sample, sizes, stops, extremes, many_trains, broken_rules):
        part(cases, rng)
    cases.write("diagram_cases")


if __name__ == "__main__":
    main()
