#!/usr/bin/env python3
"""Packs files and questions for the program run_cases, and works out what it must print.

Writes crates/run_cases/stdin and crates/run_cases/stdout. The answers are those of calculator/calculator.py, which was
written apart from the code under test. The seed is fixed: every run writes the same bytes.

The input is, for each file: how many questions are asked, the file's length, the file's bytes, the questions. A question is
the train number and the lengths of the buffers lent for speeds and times. Each number has 8 bytes, low byte first.

The output has a line for the run call of each question and a line for the hold call. Both begin with the number, how many
entries of each buffer stand before those that are as they came (P, or 0 after a refusal), the last arrival, and a checksum of
each whole buffer. The hold call's line goes on with the hold record: its block count, a checksum of all beginnings and one of
all ends.
"""
import random
import struct
import sys

sys.dont_write_bytecode = True

from balises import last_place, set_balises  # noqa: E402
from line_cases import a_line, changed, changes_of_line, changes_of_train, kept, pick, rising, roomy  # noqa: E402
from packed import PackedFiles  # noqa: E402
from yardstick import Hold, Line, Refused, Train, accepted_line, hold_call, number_of, padded, parse  # noqa: E402
from yardstick import sample_line, write_line  # noqa: E402

NO_SPEED = 2 ** 32 - 1
NO_TIME = 2 ** 64 - 1
MOST_POINTS = 4096
LONGEST = 4104              # the longest buffer that the program lends
TOP = 2 ** 64 - 1


def checksum(entries):
    total = 0
    for entry in entries:
        turned = (total << 7 | total >> 57) & TOP
        total = turned + entry & TOP
    return total


def written(entries, untouched):
    n = len(entries)
    while n > 0 and entries[n - 1] == untouched:
        n -= 1
    return n


def answers(data, k, speeds_length, times_length):
    """The number, and the lines for the run call and the hold call, which leave the same in the buffers."""
    speeds, times = [NO_SPEED] * speeds_length, [NO_TIME] * times_length
    number, hold = 0, Hold(0, padded([]), padded([]))
    try:
        hold = hold_call(data, k, speeds, times)
    except Refused as refusal:
        number = refusal.number
    n = written(times, NO_TIME)
    left = "%d %d %d %d %016x %016x" % (
        number, written(speeds, NO_SPEED), n, times[n - 1] if n else 0, checksum(speeds), checksum(times))
    record = "%d %016x %016x" % (hold.count, checksum(hold.begins), checksum(hold.ends))
    return number, ["run %s" % left, "hold %s %s" % (left, record)]


class Cases(PackedFiles):
    """The packed files with the questions asked, and the lines that answer."""

    def __init__(self, rng):
        super().__init__()
        self.rng = rng

    def ask(self, data, questions=None):
        if data in self.files:
            return
        self.files.add(data)
        number = number_of(accepted_line, data)
        self.count("files accepted" if number == 0 else "files of number %d" % number)
        if questions is None:
            questions = self.questions(data, number)
        self.packed += struct.pack("<QQ", len(questions), len(data)) + data
        for question in questions:
            self.packed += struct.pack("<QQQ", *question)
            number, lines = answers(data, *question)
            self.lines += lines
            self.count("questions accepted" if number == 0 else "questions of number %2d" % number)

    def line(self, line, questions=None):
        self.ask(write_line(line), questions)

    def questions(self, data, number):
        """Each train and one more, with buffers of P entries or somewhat more; one or two trains of a refused file."""
        try:
            line = parse(data)
        except Refused:
            return [(0, 9, 9), (TOP, 0, 0)][:self.rng.randint(1, 2)]
        P, T = line.P, len(line.trains)
        if number != 0:
            return [(self.rng.randrange(T + 1), min(P, LONGEST), self.rng.choice([0, min(P, LONGEST)]))]
        return [(k, P + self.rng.randint(0, 8), P + self.rng.randint(0, 8)) for k in range(T + 1)]


# ---- lines and trains

def some_line(rng, P, trains=2, L=None, cells=None):
    if cells is None:
        cells = rng.randint(1, min(P - 2, rng.choice([1, 4, 30, 1000])))
    sizes = [(pick(rng, 1, 8), min(rng.choice([0, 1, 2, 4, 32]), (P + 1) // 2)) for _ in range(trains)]
    limits = min(rng.choice([1, 2, 5, 64, rng.randint(1, 64)]), P - 1)
    return a_line(rng, P, L or pick(rng, 1, 100), limits, min(pick(rng, 1, 32), P - 1 - cells), cells, sizes)


def quick_train(rng, length, stops, cls=None):
    """A train that reaches high speeds."""
    bands = rng.randint(1, 8)
    return Train(rng.randrange(3) if cls is None else cls, length, rising(rng, bands, 40, 300),
                 sorted((rng.randint(20, 200) for _ in range(bands)), reverse=True), list(stops), [pick(rng, 0, 3600) for _ in stops])


def with_stops(rng, P, L, lists):
    """One long block, and a train for each list of stops."""
    return kept(Line(P, L, 10, 20, [0], [300], [0], [P - 2], [quick_train(rng, 1, stops) for stops in lists]))


# ---- lists of files

def sample(cases, rng):
    data = write_line(sample_line())
    lengths = [(7, 7), (8, 15), (6, 7), (7, 6), (6, 6), (0, 7), (7, 0), (0, 0), (LONGEST, LONGEST), (7, LONGEST), (LONGEST, 6)]
    cases.ask(data, [(k, a, b) for k in (0, 1, 2) for a, b in lengths])
    for length in list(range(0, len(data), 3)) + [len(data) - 1]:
        cases.ask(data[:length])
    for extra in (b"\0", b"\xff\xff", bytes(8), data):
        cases.ask(data + extra)


def all_sizes(cases, rng):
    """P from 3 to 4,096."""
    for P in range(3, 43):
        for trains in (1, 2, 3):
            cases.line(kept(some_line(rng, P, trains)))
    for low, high, count, trains in ((43, 130, 110, 2), (131, 400, 70, 2), (401, 1500, 50, 2), (1501, 4095, 30, 2), (4096, 4096, 20, 2)):
        for _ in range(count):
            cases.line(kept(some_line(rng, rng.randint(low, high), trains)))


def stops(cases, rng):
    """Stops at 0 and P - 1, every two points, and none."""
    for P in (3, 4, 5, 6, 12, 65, 66, 90):
        for L in (1, 7, 100):
            even, odd = list(range(0, min(P, 64), 2)), list(range(1, min(P, 64), 2))
            ends = [P - 1 - 2 * i for i in range(min(32, (P + 1) // 2))][::-1]
            cases.line(with_stops(rng, P, L, [[], [0], [P - 1], [0, P - 1], [1], [P - 2], even, odd, ends]))


def lower_limits(cases, rng):
    """A lower limit between higher ones: trains of a whole number of steps, and of a metre more or less."""
    for L in (1, 10, 64, 99):
        lengths = sorted({max(1, min(1000, n * L + more)) for n in (1, 2, 5, 10) for more in (-1, 0, 1)})
        trains = [quick_train(rng, length, rng.choice([[], [0], [0, 79]]), 1) for length in lengths]
        for points, limits in (([0, 20, 30], [200, 60, 250]), ([0, 1, 2], [80, 5, 300]), ([0, 40, 78], [300, 90, 30]), ([0, 30, 31, 32], [250, 100, 40, 90])):
            cases.line(kept(Line(80, L, 0, 0, points, limits, [0, 30], [30, 60], trains)))


def balises_at_limits(cases, rng):
    """Balises where trains leave lower limits: with spare metres left at a point, one 50 times as far back just suffices there. Then the
    same with others before each, up to 64."""
    for L in (1, 2, 7, 25, 50, 99, 100):
        n, gap = 2 + 4 // L, max(30, 160 // L)
        points = [place * gap for place in range(7)]
        spares = (0, 1, 2)
        trains = [quick_train(rng, n * L - 2 - spare, [], 1) for spare in spares]
        line = Line(8 * gap, L, 0, 0, points, [200, 60, 250, 40, 240, 50, 260], [0, 2 * gap], [gap, 6 * gap], trains)
        heads = [(points[2 * spare + 2] + n) * L for spare in spares]
        places = [head - 50 * spare for head, spare in zip(heads, spares)]
        for off in (-1, 0, 1):
            cases.line(kept(set_balises(line, [place + off for place in places])))
        cases.line(kept(set_balises(line, [*range(58)] + [place + off for place in places for off in (-1, 0)])))


def balises(cases, rng):
    """Many limits: without balises, with 64 of them in one stretch or spread, and with few that a train long misses."""
    for P, L in ((70, 3), (90, 100), (400, 10), (1200, 100)):
        line = a_line(rng, P, L, 64, 3, 3, [(3, 0), (3, 1), (2, 0)])
        line.limits = [rng.choice([20, 60, 100, 200]) for _ in line.limits]
        for t in line.trains:
            t.tops, t.rates = rising(rng, len(t.tops), 90, 250), sorted((rng.randint(50, 200) for _ in t.tops), reverse=True)
        last = last_place(line)
        for places in ([], [0], [last], range(64), range(last // 2, last // 2 + 64), range(0, last + 1, last // 63), [last // 3, 2 * last // 3 + 1]):
            cases.line(kept(set_balises(line, list(places)[:64])))


def bands(cases, rng):
    """Eight bands under 64 limits; rates that fall, that rise, and that do not matter."""
    for P in (66, 70, 300):
        for L in (1, 10, 100):
            line = a_line(rng, P, L, 64, 4, 8, [(8, rng.randint(0, 9)) for _ in range(4)])
            for t, rates in zip(line.trains, (range(200, 120, -10), range(10, 90, 10), [1] * 8, [200] * 8)):
                t.rates = list(rates)
            cases.line(kept(line))
    for tops in ([1, 2, 3, 4, 5, 6, 7, 8], [293, 294, 295, 296, 297, 298, 299, 300], [30, 60], [10, 300], [1, 300]):
        for L in (1, 10, 100):
            train = Train(0, L, tops, [max(1, 200 - 25 * i) for i in range(len(tops))], [0, 49], [5, 7])
            cases.line(kept(Line(60, L, 3, 4, [0], [300], [0, 10], [9, 50], [train])))


def longest_trains(cases, rng):
    """Trains that the last block's end just leaves room for, and of one step more."""
    for P, L, end in ((3, 1, 1), (3, 100, 1), (12, 100, 2), (30, 7, 20), (1003, 1, 2), (500, 2, 10), (200, 100, 195)):
        room = P - 1 - end
        for more in (0, 1):
            length = min(1000, room * L + more)
            train = quick_train(rng, length, [0, P - 1])
            cases.line(Line(P, L, 65535, 65535, [0], [250], [0], [end], [quick_train(rng, 1, []), train]))


def extremes(cases, rng):
    """The slowest and the fastest trains, short steps and long ones, dwells of an hour, times of 65,535 tenths."""
    for P in (3, 50, MOST_POINTS):
        for L, top, rate, cls in ((100, 1, 1, 2), (1, 300, 200, 1), (100, 300, 200, 0), (1, 1, 200, 0)):
            points = [0, P - 1] if P < 50 else [0] + list(range(4, 60, 2))[:20] + [P - 1]
            train = Train(cls, 1, [top], [rate], points, [3600] * len(points))
            cases.line(kept(Line(P, L, 65535, 65535, [0], [top], [0], [P - 2], [train, Train(cls, L, [top], [rate], [], [])])))
    for L, cells in ((1, 1000), (100, 10)):
        cases.line(kept(a_line(rng, MOST_POINTS, L, 64, 32, cells, [(8, 32)] * 64)))


def many_trains(cases, rng):
    for P, T in ((20, 64), (70, 64), (3, 64), (200, 20)):
        line = some_line(rng, P, T)
        questions = [(k, P + 1, P) for k in range(T + 1)]
        questions += [(k, P, P) for k in (T + 1, 255, 256, 2 ** 16, 2 ** 16 + 1, 2 ** 32, 2 ** 32 + 1, 2 ** 63, TOP)]
        questions += [(k, 0, 0) for k in (T - 1, T, TOP)]
        cases.line(kept(line), questions)


def short_buffers(cases, rng):
    for P in (3, 4, 10, 255, 256, 257, 1000, MOST_POINTS):
        line = kept(some_line(rng, P, 1))
        lengths = [(P - 1, P), (P, P - 1), (P - 1, P - 1), (P - 1, P + 8), (P + 8, P - 1), (0, P), (P, 0), (0, 0), (1, 1), (P, P + 8), (P % 256, P)]
        cases.line(line, [(0, a, b) for a, b in lengths] + [(1, 0, 0), (1, P - 1, P)])


def broken_lines(rng, alone, twice):
    """Lines that break a rule from 3 on: of each rule so many that break it alone, and so many with another. One of these is 15, which is
    checked before 7."""
    base = roomy(rng, 3)
    changes = {}
    for change in list(changes_of_line(base)) + [c for k in range(3) for c in changes_of_train(base, k)]:
        changes.setdefault(change[0], []).append(change[1])
    rules = [rule for rule in sorted(changes) if rule]
    for rule in rules:
        for change in rng.sample(changes[rule], min(alone, len(changes[rule]))):
            yield changed(base, change)
        for other in [15] + [rng.choice(rules) for _ in range(twice - 1)]:
            yield changed(base, rng.choice(changes[other]), rng.choice(changes[rule]))


def broken_rules(cases, rng):
    for line in broken_lines(rng, 16, 4):
        cases.line(line)


def main():
    rng = random.Random(20241116)
    cases = Cases(rng)
    for part in (sample, all_sizes, stops, lower_limits, balises_at_limits, balises, bands, longest_trains, extremes, many_trains, short_buffers,
                 broken_rules):
        part(cases, rng)
    cases.write("run_cases")


if __name__ == "__main__":
    main()
