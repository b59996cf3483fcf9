#!/usr/bin/env python3
"""Packs files for the program study_cases, and works out what it must print.

Writes crates/study_cases/stdin and crates/study_cases/stdout. The answers are those of calculator/calculator.py, which was
written apart from the code under test. The seed is fixed: every run writes the same bytes.

The input is numbers of 8 bytes, low byte first, and the bytes of files. First comes the count of cases. A case is:
    LENGTH      of the file, at most 20,000
    the file    so many bytes
    KIND        0 for study(file, text), 1 for program_text(file)
    LENT        the length of the bytes lent for the text, at most 4,096; 0 for KIND 1
Lent bytes are all 255 before the call.

The output has a line for each case:
    study NUMBER BYTES CHECKSUM     the answer, and a checksum of all lent bytes as the call leaves them
    program BYTES CHECKSUM          the count of bytes of the text, and a checksum of these bytes alone
NUMBER and BYTES are decimal; BYTES is 0 where a study is refused. CHECKSUM has 16 hexadecimal digits: it begins at 0, and for
each byte in turn it is rotated left by 7 of its 64 bits, and the byte is added, modulo 2^64.
"""
import random
import struct
import sys

sys.dont_write_bytecode = True

from line_cases import a_line, changed, kept, pick  # noqa: E402
from packed import PackedFiles  # noqa: E402
from run_cases import broken_lines, checksum, quick_train, some_line  # noqa: E402
from yardstick import HEADER_LINE, Line, Train, accepted_line, number_of, program, sample_line, write_line  # noqa: E402

NO_BYTE = 255
MOST_BYTES = 20000
MOST_TEXT = 4096
STUDY, PROGRAM = 0, 1


def lengths_about(text):
    """Lent lengths about that of a text."""
    return [len(text), len(text) - 1, len(text) + 1, 0, len(HEADER_LINE), MOST_TEXT]


class Cases(PackedFiles):
    """The packed cases, and the lines that answer."""

    def ask(self, data, every_length=False):
        """What the program prints, and the study with the text's own length and another one in turn, or with every one."""
        number, text = number_of(accepted_line, data), program(data)
        self.files.add(data)
        self.case(data, PROGRAM, 0, "program %d %016x" % (len(text), checksum(text)))
        exact, *others = lengths_about(text)
        for lent in [exact] + (others if every_length else [others[len(self.files) % len(others)]]):
            self.study(data, lent, number, text)

    def study(self, data, lent, number, text):
        if number == 0 and lent < len(text):
            number = 11
        written = text if number == 0 else b""
        left = written + bytes([NO_BYTE]) * (lent - len(written))
        self.case(data, STUDY, lent, "study %d %d %016x" % (number, len(written), checksum(left)))
        self.count("studies accepted" if number == 0 else "studies of number %2d" % number)

    def case(self, data, kind, lent, answer):
        assert len(data) <= MOST_BYTES
        self.packed += struct.pack("<Q", len(data)) + data + struct.pack("<QQ", kind, lent)
        self.lines.append(answer)
        self.count("cases")

    def line(self, line, every_length=False):
        self.ask(write_line(line), every_length)

    def write(self, name):
        self.packed[:0] = struct.pack("<Q", len(self.lines))
        super().write(name)


# ---- lists of cases

def sample(cases, rng):
    data = write_line(sample_line())
    cases.ask(data, every_length=True)
    for length in range(len(data)):
        cases.ask(data[:length])
    for extra in (b"\0", b"\xff\xff", bytes(8), data):
        cases.ask(data + extra)


def sizes(cases, rng):
    """P from 3 to 4,096, with up to five trains."""
    for P in range(3, 43):
        for trains in (1, 2, 3, 5):
            cases.line(kept(some_line(rng, P, trains)))
    for low, high, count in ((43, 130, 60), (131, 400, 40), (401, 1500, 20), (1501, 4095, 10), (4096, 4096, 4)):
        for _ in range(count):
            cases.line(kept(some_line(rng, rng.randint(low, high), rng.randint(1, 5))))


def many_trains(cases, rng):
    """Up to 64 trains, equal ones among them, so that each waits for the one before it."""
    for P in (3, 8, 20, 50):
        for trains in (10, 63, 64):
            cases.line(kept(some_line(rng, P, trains)))
            train = quick_train(rng, 1, [0, P - 1])
            cases.line(kept(Line(P, 100, 10, 20, [0], [200], [0], [P - 2], [train] * trains)), every_length=True)


def late_starts(cases, rng):
    """The latest starts: 64 trains that stop for an hour wherever they can, on a line of one block."""
    stops = list(range(2, 66, 2))
    train = Train(2, 1000, [1], [1], stops, [3600] * len(stops))
    cases.line(kept(Line(4096, 100, 65535, 65535, [0], [1], [0], [4085], [train] * 64)), every_length=True)


def equal_blocks(cases, rng):
    """Trains that pass equal blocks at one speed, equal ones among them, so that several blocks fix a start equally."""
    for count in (2, 3, 8, 31, 32):
        for cells in (1, 2, 5):
            ends = [cells * (b + 1) for b in range(count)]
            kinds = [Train(rng.randrange(3), pick(rng, 1, 100), [rng.randint(10, 100)], [pick(rng, 1, 200)], [], []) for _ in range(2)]
            for trains in (kinds[:1] * 2, kinds[:1] * 6, kinds * 3, kinds[:1] * 3 + kinds[1:] * 3):
                step = pick(rng, 10, 100)
                points = ends[-1] + 1 + -(-100 // step)
                cases.line(kept(Line(points, step, pick(rng, 0, 600), pick(rng, 0, 100), [0], [300], [0] + ends[:-1], ends, trains)))


def broken_rules(cases, rng):
    for line in broken_lines(rng, 12, 6):
        cases.line(line)


def bound(cases, rng):
    """Inputs of 16,384 bytes, somewhat less and more: whole files with bytes behind them, and cut ones."""
    whole, cut = write_line(sample_line()), struct.pack("<7H", 7, 100, 64, 65535, 0, 0, 65535)
    large = write_line(kept(a_line(rng, 200, 100, 64, 32, 10, [(8, 32)] * 64)))
    for data in (whole, cut, large, b"\xff\xff" * 7):
        for length in (16383, 16384, 16385, 16386, MOST_BYTES):
            cases.ask(data + bytes(length - len(data)))
    cases.ask(large)


def lent_lengths(cases, rng):
    """Every length for lines of few and many points, and for refused files."""
    for P in (3, 4, 10, 255, 1000, 4096):
        cases.line(kept(some_line(rng, P, 3)), every_length=True)
    for data in (b"", write_line(changed(sample_line(), lambda line: setattr(line, "L", 0))), bytes(16385)):
        cases.ask(data, every_length=True)


def main():
    rng = random.Random(20241117)
    cases = Cases()
    for part in (sample, sizes, many_trains, late_starts, broken_rules, bound, lent_lengths, equal_blocks):
        part(cases, rng)
    cases.write("study_cases")


if __name__ == "__main__":
    main()
