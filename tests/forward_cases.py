#!/usr/bin/env python3
"""Packs files and questions for the program forward_cases, and works out what it must print.

Writes crates/forward_cases/stdin and crates/forward_cases/stdout. The answers are those of calculator/calculator.py, which was
written apart from the code under test. The seed is fixed: every run writes the same bytes.

The input is, for each file: how many questions are asked, the file's length, the file's bytes, the questions. A file has one
train, and the length that its sizes announce. A question is the point that the sweep goes up to, and the length of the buffer
lent. Each number has 8 bytes, low byte first. Every entry of the buffer is 4,294,967,295 before the call.

The output has a line for each question: the number, then the lent entries as the call leaves them, up to and including the one
behind the point.
"""
import random
import struct
import sys
from dataclasses import replace

sys.dont_write_bytecode = True

from balises import last_place, set_balises  # noqa: E402
from line_cases import a_line, changed, kept, pick, rising  # noqa: E402
from packed import PackedFiles  # noqa: E402
from run_cases import LONGEST, MOST_POINTS, NO_SPEED, broken_lines, quick_train, some_line, with_stops  # noqa: E402
from yardstick import Line, Train, accepted_line, caps, forward_row, number_of, sample_line, write_line  # noqa: E402

FURTHEST = 65535            # the greatest point that can be asked


def answer(line, number, point, length):
    """The line for a question about the one train of a line, whose number is given."""
    speeds = [NO_SPEED] * length
    if number == 0:
        row = forward_row(line, line.trains[0], min(point, line.P - 1))[:length]
        speeds[:len(row)] = row
    return " ".join(["forward", str(number)] + [str(speed) for speed in speeds[:point + 2]])


class Cases(PackedFiles):
    """The packed files with the questions asked, and the lines that answer."""

    def __init__(self):
        super().__init__()
        self.part = ""

    def ask(self, line, questions):
        """A line of one train, and pairs of a point and the length of the buffer."""
        data = write_line(line)
        if data in self.files:
            return
        assert len(line.trains) == 1
        self.files.add(data)
        number = number_of(accepted_line, data)
        self.count("files accepted" if number == 0 else "files of number %d" % number)
        self.packed += struct.pack("<QQ", len(questions), len(data)) + data
        for point, length in questions:
            assert point <= FURTHEST and length <= LONGEST
            self.packed += struct.pack("<QQ", point, length)
            self.lines.append(answer(line, number, point, length))
            self.count_question(line, number, point, length)

    def count_question(self, line, number, point, length):
        self.count("questions by %s" % self.part)
        if number != 0:
            self.count("questions of number %2d" % number)
            return
        self.count("questions accepted")
        if point >= line.P:
            self.count("questions accepted, beyond the line")
        sizes = ("fewer entries than", "as many entries as", "more entries than")
        order = (length > point + 1) - (length < point + 1) + 1
        self.count("questions accepted, %s points up to the one asked" % sizes[order])


# ---- lines of one train, and points to ask

def alone(line):
    """Each train of a line as the only one."""
    for train in line.trains:
        yield changed(line, lambda l: setattr(l, "trains", [train]))


def turning_points(line):
    """The points where a cap can change: those of limits, balises and stops, and where the train leaves a lower limit. Then the points beside
    all these."""
    train = line.trains[0]
    row = caps(line, replace(train, stops=[], dwells=[]))
    turns = {i for i in range(1, line.P) if row[i] != row[i - 1]}
    turns.update(line.limit_points, line.balise_points, train.stops)
    return sorted({turn + off for turn in turns for off in (-1, 0, 1)} & set(range(line.P)))


def some(rng, points, count):
    """So many of the points, or all."""
    return sorted(rng.sample(points, min(count, len(points))))


def roomy_questions(rng, points):
    """A question for each point; most buffers suffice, and some end before the point."""
    return [(point, max(0, point + rng.choice([1, 1, 2, 3, 9, 0, -2]))) for point in points]


# ---- lists of files

def sample(cases, rng):
    """Each point of the sample with buffers of all lengths, and points behind the last."""
    for line in alone(sample_line()):
        points = list(range(9)) + [255, 256, FURTHEST]
        cases.ask(line, [(point, length) for point in points for length in (*range(10), LONGEST if point < 9 else 20)])


def every_point(cases, rng):
    """P from 3 to 40: each point with a buffer that is too short, just suffices or is longer; for small P with all three."""
    for P in range(3, 41):
        line = kept(some_line(rng, P, 1))
        questions = []
        for point in range(P):
            lengths = [rng.randint(0, point), point + 1, point + 1 + rng.randint(1, 9)]
            questions += [(point, length) for length in (lengths if P <= 12 else [lengths[(point + P) % 3]])]
        cases.ask(line, questions)


def beyond_the_line(cases, rng):
    """The last point and points behind it, with buffers of about P entries, of 0 and of 1."""
    for P in (3, 4, 5, 17, 30):
        points, lengths = (P - 2, P - 1, P, P + 1, P + 7, FURTHEST - 1, FURTHEST), (0, 1, P - 1, P, P + 1, P + 8)
        cases.ask(kept(some_line(rng, P, 1)), [(point, length) for point in points for length in lengths])


def stops(cases, rng):
    """Sweeps that end before, at and behind a stop: at 0 and P - 1, every two points, and none."""
    for P, L in ((3, 7), (4, 100), (5, 1), (12, 10), (66, 40)):
        even, odd = list(range(0, min(P, 64), 2)), list(range(1, min(P, 64), 2))
        for line in alone(with_stops(rng, P, L, [[], [0], [P - 1], [0, P - 1], [1], [P - 2], even, odd])):
            cases.ask(line, roomy_questions(rng, some(rng, turning_points(line), 7)))


def random_lines(cases, rng):
    """1 to 64 limits, 0 to 64 balises, 1 to 8 bands: points where the caps change, points beside them, and any others."""
    for low, high, count in ((13, 64, 24), (65, 120, 20), (121, 300, 6)):
        for _ in range(count):
            line = kept(some_line(rng, rng.randint(low, high), 1))
            points = some(rng, turning_points(line), 6) + some(rng, range(line.P), 2)
            cases.ask(line, roomy_questions(rng, points))


def lower_limits(cases, rng):
    """A train about as long as a few steps leaves a lower limit: sweeps that end there, a point before and a point behind."""
    for L in (1, 10, 99):
        for length in sorted({max(1, min(1000, n * L + more)) for n in (1, 5) for more in (-1, 0, 1)}):
            for limits in ([200, 60, 250], [80, 5, 300]):
                train = quick_train(rng, length, rng.choice([[], [0]]), 1)
                line = kept(Line(50, L, 0, 0, [0, 8, 12], limits, [0], [30], [train]))
                cases.ask(line, roomy_questions(rng, [point for point in turning_points(line) if point > 12]))


def many_limits(cases, rng):
    """64 limits: without balises, with 64 of them in one stretch or spread, and with few that a train long misses."""
    for P, L in ((66, 3), (70, 100)):
        line = a_line(rng, P, L, 64, 3, 1, [(3, 0)])
        line.limits = [rng.choice([20, 60, 100, 200]) for _ in line.limits]
        line.trains = [quick_train(rng, pick(rng, 1, L), [], 1)]
        last = last_place(line)
        for places in ([], [0], [last], range(64), range(last // 2, last // 2 + 64), range(0, last + 1, last // 63), [last // 3, 2 * last // 3 + 1]):
            other = kept(changed(line, lambda l: set_balises(l, list(places)[:64])))
            cases.ask(other, roomy_questions(rng, some(rng, turning_points(other), 6)))


def bands(cases, rng):
    """1 to 8 bands with rates that fall, rise, are equal and are in any order; sweeps that end while the speed rises."""
    for count in range(1, 9):
        for order in (sorted, lambda rates: sorted(rates, reverse=True), lambda rates: rates[:1] * count, list):
            L = rng.choice([1, 10, 30, 100])
            train = Train(rng.randrange(3), L, rising(rng, count, 1, 300), order([pick(rng, 1, 200) for _ in range(count)]), [0], [5])
            line = kept(Line(40, L, 3, 4, [0, 25], [300, 90], [0, 10], [9, 30], [train]))
            cases.ask(line, roomy_questions(rng, [1, 2, *some(rng, range(3, 40), 3)]))


def longest_lines(cases, rng):
    """4,096 points: a few whole rows, with the last entry of the buffer before, at and behind the last point; others that end early."""
    line = kept(a_line(rng, MOST_POINTS, 1, 64, 32, 1000, [(8, 32)]))
    short = [(point, point + 2) for point in (0, 1, 63, 64, 255, 256, 257)]
    cases.ask(line, short + [(300, LONGEST), (512, 512), (MOST_POINTS - 1, 100), (FURTHEST, 1), (MOST_POINTS - 1, MOST_POINTS)])
    line = kept(a_line(rng, MOST_POINTS, 100, 64, 32, 10, [(8, 32)]))
    cases.ask(line, [(0, LONGEST), (1, MOST_POINTS), (MOST_POINTS, 2), (FURTHEST, LONGEST)])
    slow = Train(2, 1, [1], [1], [0, MOST_POINTS - 1], [3600, 3600])
    line = kept(Line(MOST_POINTS, 100, 65535, 65535, [0], [1], [0], [MOST_POINTS - 2], [slow]))
    cases.ask(line, [(MOST_POINTS - 2, MOST_POINTS), (MOST_POINTS, 4), (FURTHEST, 0)])


def broken_rules(cases, rng):
    """Lines that break a rule from 3 on, with each of their trains alone: nothing is written."""
    for line in broken_lines(rng, 16, 4):
        for other in alone(line):
            cases.ask(other, [(rng.randrange(12), rng.randint(0, 14)), rng.choice([(0, 0), (0, 1), (FURTHEST, 5), (300, 3)])])


def main():
    rng = random.Random(20241119)
    cases = Cases()
    for part in (sample, every_point, beyond_the_line, stops, random_lines, lower_limits, many_limits, bands, longest_lines, broken_rules):
        cases.part = part.__name__
        part(cases, rng)
    cases.write("forward_cases")


if __name__ == "__main__":
    main()
