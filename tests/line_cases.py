#!/usr/bin/env python3
"""Packs files and train numbers for the program line_cases, and works out what it must print.

Writes crates/line_cases/stdin and crates/line_cases/stdout. The answers are those of calculator/calculator.py, which was
written apart from the code under test. The seed is fixed: every run writes the same bytes.

The input is, for each file: how many train numbers are asked, the file's length, the file's bytes, the train numbers. Each
number has 8 bytes, low byte first. The output has a line for each train number: what check_file and check_train answer, and
the place and the length of the part that train_record gives. The program finds the place by comparing: it is the first place
where these bytes stand.
"""
import random
import struct
import sys
from copy import deepcopy

sys.dont_write_bytecode = True

from balises import last_place, set_balises, with_some_balises  # noqa: E402
from packed import PackedFiles  # noqa: E402
from yardstick import Line, Refused, Train, accepted_line, broken_rules, check_call, number_of, parse  # noqa: E402
from yardstick import record_call, sample_line, write_line  # noqa: E402

MOST_BYTES = 65536
MOST = 65535
TOP = 2 ** 64 - 1


class Cases(PackedFiles):
    """The packed files with the train numbers asked, and the lines that answer."""

    def ask(self, data, numbers=None):
        if data in self.files:
            return
        assert len(data) <= MOST_BYTES
        self.files.add(data)
        number = number_of(accepted_line, data)
        if numbers is None:
            numbers = numbers_to_ask(data, number)
        self.count("files of number %d" % number)
        self.packed += struct.pack("<QQ", len(numbers), len(data)) + data + struct.pack("<%dQ" % len(numbers), *numbers)
        for k in numbers:
            at, length = record_call(data, k)
            place = data.find(data[at:at + length])
            answer = check_call(data, k)
            self.lines.append("%d %d %d %d" % (number, answer, place, length))
            self.count("cases")
            self.count("cases of number %2d" % answer)
            if length > 0 and place != at:
                self.count("parts that an equal part precedes")

    def line(self, line, numbers=None, **counts):
        self.ask(write_line(line, **counts), numbers)


def numbers_to_ask(data, number):
    """Train numbers about T, and numbers that differ from a train's only above the low 8, 16 or 32 bits."""
    try:
        count = len(parse(data).trains)
    except Refused:
        return [0, TOP]
    last = max(count - 1, 0)
    if number == 0:
        return sorted({0, count // 2, last, count, 256, 2 ** 16, 2 ** 16 + last, 2 ** 32 + last, 2 ** 63, TOP})
    return sorted({last, count}) if number != 3 else [last, TOP]


# ---- files that keep every rule

def pick(rng, low, high):
    return rng.choice([low, high]) if rng.random() < 0.2 else rng.randint(low, high)


def rising(rng, count, low, high, gap=1):
    """Numbers from low to high, each by at least gap more than the one before it."""
    room = high - low + 1 - (gap - 1) * (count - 1)
    return [low + number + (gap - 1) * i for i, number in enumerate(sorted(rng.sample(range(room), count)))]


def a_train(rng, P, L, cells, bands, stops):
    """A train of at most the given cells."""
    return Train(
        cls=rng.randrange(3),
        length=pick(rng, 1, min(1000, cells * L)),
        tops=rising(rng, bands, 1, 300),
        rates=[pick(rng, 1, 200) for _ in range(bands)],
        stops=rising(rng, stops, 0, P - 1, 2) if stops > 0 else [],
        dwells=[pick(rng, 0, 3600) for _ in range(stops)],
    )


def a_line(rng, P, L, limits, blocks, cells, trains):
    """A line whose last block leaves room for a train of the given cells; a pair (bands, stops) for each train."""
    ends = rising(rng, blocks, 1, P - 1 - cells)
    starts = [0] + [rng.choice([end, rng.randrange(end, after)]) for end, after in zip(ends, ends[1:])]
    return with_some_balises(rng, Line(
        P, L, pick(rng, 0, MOST), pick(rng, 0, MOST),
        [0] + (rising(rng, limits - 1, 1, P - 2) if limits > 1 else []),
        [pick(rng, 1, 300) for _ in range(limits)],
        starts, ends,
        [a_train(rng, P, L, cells, bands, stops) for bands, stops in trains],
    ))


def any_line(rng, most_points, most_trains):
    P = pick(rng, 3, most_points)
    cells = rng.randint(1, min(P - 2, rng.choice([1, 10, 1000])))
    trains = []
    for _ in range(pick(rng, 1, most_trains)):
        trains.append((pick(rng, 1, 8), min(pick(rng, 0, 32), (P + 1) // 2)))
    limits = min(pick(rng, 1, 64), P - 1)
    blocks = min(pick(rng, 1, 32), P - 1 - cells)
    return a_line(rng, P, pick(rng, 1, 100), limits, blocks, cells, trains)


def kept(line):
    assert not broken_rules(line), broken_rules(line)
    return line


# ---- files that break a rule

def roomy(rng, trains=3):
    """A line with room to spare: every number can be put beyond its limit without another rule being broken."""
    line = a_line(rng, 900, 100, 3, 4, 700, [(rng.randint(3, 7), rng.randint(3, 31)) for _ in range(trains)])
    line.limit_points = [0, 300, 700]
    line.block_starts, line.block_ends = [0, 20, 50, 60], [20, 40, 60, 90]
    line.balise_points, line.balise_metres = [0, 7, 60], [0, 0, 0]
    for t in line.trains:
        t.tops = rising(rng, len(t.tops), 2, 299)
        t.stops = rising(rng, len(t.stops), 5, 800, 5)
    return kept(line)


def put(numbers, i, value):
    """Alters number i, or the last, of what another change may have made shorter."""
    if numbers:
        numbers[min(i, len(numbers) - 1)] = value


def changes_of_line(line):
    """(the rule that is broken, or 0, and the change) for each number of the line at both sides of its limits."""
    P, L = line.P, line.L

    def limit_points(values):
        return lambda l: (setattr(l, "limit_points", list(values)), setattr(l, "limits", [80] * len(values)))

    def blocks(starts, ends):
        return lambda l: (setattr(l, "block_starts", list(starts)), setattr(l, "block_ends", list(ends)))

    def balises(*pairs):
        points, metres = [point for point, _ in pairs], [metres for _, metres in pairs]
        return lambda l: (setattr(l, "balise_points", list(points)), setattr(l, "balise_metres", list(metres)))

    for rule, value in ((3, 4097), (0, 4096), (3, MOST)):
        yield rule, lambda l, v=value: setattr(l, "P", v)
    for rule, value in ((3, 0), (0, 100), (3, 101), (3, 256), (3, MOST)):
        yield rule, lambda l, v=value: setattr(l, "L", v)
    for rule, count in ((3, 0), (0, 1), (0, 63), (0, 64), (3, 65), (3, 66), (3, 320)):
        yield rule, limit_points(list(range(count)))
    for rule, count in ((3, 0), (0, 1), (0, 31), (0, 32), (3, 33), (3, 64), (3, 65), (3, 160)):
        yield rule, blocks(list(range(count)), list(range(1, count + 1)))
    for rule, count in ((0, 0), (0, 1), (0, 63), (0, 64), (3, 65), (3, 66), (3, 320)):
        yield rule, balises(*[(place // L, place % L) for place in range(count)])
    for rule, values in ((4, [1]), (4, [MOST]), (4, [1, 2, 3]), (4, [0, 0]), (4, [0, 5, 5]), (4, [0, 9, 5]), (4, [0, 5, 0]), (0, [0, 1, 2]),
                         (0, [0, P - 2]), (4, [0, P - 1]), (4, [0, P]), (4, [0, 7, MOST]), (4, [0, MOST, 0]), (4, [0, 256, 255]),
                         (4, [P - 1]), (0, [0, P - 3, P - 2]), (4, [0, P - 2, P - 1])):
        yield rule, limit_points(values)
    for i in range(3):
        for rule, value in ((5, 0), (0, 1), (0, 300), (5, 301), (5, 556), (5, MOST)):
            yield rule, lambda l, i=i, v=value: put(l.limits, i, v)
    for rule, starts, ends in ((6, [1], [2]), (6, [MOST], [2]), (6, [0], [0]), (0, [0], [1]), (6, [0, 5], [5, 5]), (6, [0, 6], [5, 5]),
                               (0, [0, 5], [5, 6]), (0, [0, 6], [5, 7]), (6, [0, 4], [5, 6]), (6, [0, 3, 9], [4, 8, 12]),
                               (6, [0, 4, 7], [4, 8, 12]), (6, [1, 4, 8], [4, 8, 12]), (0, [0, 4, 8], [4, 8, 12]), (6, [0, 4, 8], [4, 8, 8]),
                               (6, [0, 4, 256], [4, 8, 255]), (9, [0], [P - 1]), (6, [0], [P]), (6, [0], [MOST]), (6, [0, 9], [MOST, 20]),
                               (6, [0, 0], [5, 6]), (6, [0, MOST], [5, 20])):
        yield rule, blocks(starts, ends)
    for rule, *pairs in ((0, (3, L - 1)), (15, (3, L)), (15, (0, MOST)), (0, (P - 1, 0)), (15, (P - 1, 1)), (0, (P - 2, L - 1)), (15, (P - 2, L)),
                         (15, (P, 0)), (15, (MOST, 0)), (15, (MOST, MOST)), (0, (3, 5), (3, 6)), (15, (3, 5), (3, 5)), (15, (3, 6), (3, 5)),
                         (0, (3, L - 1), (4, 0)), (15, (3, L), (4, 0)), (15, (3, L), (4, 1)), (15, (4, 5), (3, 6)), (15, (256, 0), (255, 0)),
                         (0, (0, 0), (0, 1), (P - 1, 0)), (15, (0, 0), (5, 9), (5, 9)), (15, (0, 1), (0, 0), (9, 0)), (15, (1, 0), (P, 0), (2, 0)),
                         (0, (655, 35), (655, 36)), (15, (655, 36), (0, 0))):
        yield rule, balises(*pairs)


def changes_of_train(line, k):
    """The same for train k."""
    P, L = line.P, line.L
    room = P - 1 - line.block_ends[-1]

    def change(name, value):
        return lambda l: setattr(l.trains[k], name, value)

    def bands(tops):
        return lambda l: (change("tops", list(tops))(l), change("rates", [90] * len(tops))(l))

    def stops(points):
        return lambda l: (change("stops", list(points))(l), change("dwells", [30] * len(points))(l))

    for rule, value in ((0, 0), (0, 1), (0, 2), (3, 3), (3, 256), (3, MOST)):
        yield rule, change("cls", value)
    for rule, value in ((3, 0), (0, 1), (0, 1000), (3, 1001), (3, 1024), (3, MOST)):
        yield rule, change("length", value)
    for rule, count in ((3, 0), (0, 1), (0, 8), (3, 9), (3, 64), (3, 65), (3, 264)):
        yield rule, bands(list(range(1, count + 1)))
    for rule, count in ((0, 0), (0, 1), (0, 32), (3, 33), (3, 64), (3, 65), (3, 288)):
        yield rule, stops([2 * i for i in range(count)])
    for rule, tops in ((7, [0]), (0, [1]), (0, [300]), (7, [301]), (7, [MOST]), (7, [0, 1]), (0, [1, 2]), (7, [2, 2]), (7, [9, 5, 20]), (7, [5, 9, 7]),
                       (0, [298, 299, 300]), (7, [299, 300, 301]), (7, [299, 301, 300]), (7, [255, 256, 256]), (7, [256, 255]), (7, [20, 20, 20])):
        yield rule, bands(tops)
    for i in range(3):
        for rule, value in ((7, 0), (0, 1), (0, 200), (7, 201), (7, 256), (7, MOST)):
            yield rule, lambda l, i=i, v=value: put(l.trains[k].rates, i, v)
    for rule, points in ((0, [0]), (0, [0, 2]), (8, [0, 1]), (8, [3, 3]), (8, [9, 5]), (8, [0, 2, 3]), (0, [0, 2, 4]), (8, [1, 2, 4]), (0, [P - 1]), (8, [P]),
                         (0, [P - 3, P - 1]), (8, [P - 2, P - 1]), (8, [P - 2, P]), (8, [0, MOST]), (8, [MOST, 0]), (8, [MOST - 1, MOST]), (8, [MOST, 1]),
                         (8, [255, 256, 258]), (8, [0, 2, 4, 6, 7])):
        yield rule, stops(points)
    for i in range(3):
        for rule, value in ((0, 0), (0, 3600), (8, 3601), (8, 3840), (8, MOST)):
            yield rule, lambda l, i=i, v=value: put(l.trains[k].dwells, i, v)
    for step in (1, 3, 7, L):       # the last block's end plus n is P - 1, or P
        for rule, length in ((0, 5 * step), (9, 5 * step + 1), (0, 4 * step + 1), (9, 6 * step)):
            def near(l, s=step, n=length):
                l.L, l.P = s, P - room + 5
                for t in l.trains:
                    t.length, t.stops, t.dwells = 1, [0], [0]
                l.limit_points = [0, 5, 9]
                l.trains[k].length = n
            yield rule, near


def changed(line, *changes):
    other = deepcopy(line)
    for change in changes:
        change(other)
    return other


# ---- lists of files

def sample(cases, rng):
    """The sample, whole, cut at every byte and with bytes behind it; each of its numbers put to others."""
    data = write_line(sample_line())
    cases.ask(data)
    for length in range(len(data)):
        cases.ask(data[:length], [0, 1, 2, TOP])
    for extra in (b"\0", b"\xff", b"\0\0", b"\1\0", bytes(7), bytes(8), data[-20:], data[:12], data, bytes(300)):
        cases.ask(data + extra, [0, 1, 2, TOP])
    numbers = struct.unpack("<%dH" % (len(data) // 2), data)
    for i, number in enumerate(numbers):
        for value in (0, 1, number - 1, number + 1, 2, 3, 8, 32, 64, 65, 100, 101, 256, 300, 301, 4096, 4097, 2 ** 15, MOST):
            if value >= 0:
                other = numbers[:i] + (value,) + numbers[i + 1:]
                cases.ask(struct.pack("<%dH" % len(other), *other), [rng.randrange(3)])


def single_rules(cases, rng):
    """One number at a time put to both sides of its limits, for the line and for the first, a middle and the last train."""
    for trains in (1, 3):
        base = roomy(rng, trains)
        changes = list(changes_of_line(base))
        for k in range(trains):
            changes += changes_of_train(base, k)
        for rule, change in changes:
            line = changed(base, change)
            broken = {number for number, _ in broken_rules(line)}
            assert number_of(accepted_line, write_line(line)) == rule, (rule, broken_rules(line))
            assert broken <= {rule, 9, 15}, broken_rules(line)      # 9 with an end beyond P - 1, 15 with a step of 0
            cases.count("files with one rule broken, at a limit" if len(broken) == 1 else "other files at a limit")
            cases.line(line)
    for P in (0, 1, 2, 3, 4):           # 9 cannot be kept with fewer points than 3
        for trains in (0, 1, 2):
            line = Line(P, 100, 10, 20, [0], [72], [0], [1], [Train(0, 100, [72], [50], [], []) for _ in range(trains)])
            cases.line(line)
    for count in (0, 1, 63, 64, 65, 66, 127, 128, 320):
        line = roomy(rng, 1)
        line.trains = [Train(k % 3, 1 + k, [72], [50], [], []) for k in range(count)]
        cases.line(line)


def several_rules(cases, rng):
    """Two rules broken in one file, the first in checking order before and behind the other; then more rules at once."""
    base = roomy(rng, 4)
    by_rule = {}
    for change in list(changes_of_line(base)) + [c for k in range(4) for c in changes_of_train(base, k)]:
        by_rule.setdefault(change[0], []).append(change[1])
    rules = [rule for rule in sorted(by_rule) if rule]
    for low in rules:
        for high in rules:
            for _ in range(6):
                cases.line(changed(base, rng.choice(by_rule[high]), rng.choice(by_rule[low])))
    for rule in rules:
        for _ in range(6):
            data = write_line(changed(base, rng.choice(by_rule[rule])))
            cases.ask(data[:rng.choice([len(data) - 1, rng.randrange(len(data))])])
            cases.ask(data + bytes(rng.choice([1, 2, 8])))
    for _ in range(150):
        line = changed(base, *[rng.choice(by_rule[rng.choice(rules)]) for _ in range(rng.randint(2, 6))])
        cases.line(line)
    for low in (7, 8):                  # one rule in the first train, a higher one in the last, and the other way round
        for high in (8, 9):
            for first, last in ((low, high), (high, low)):
                line = roomy(rng, 5)
                line.L, line.P = 100, 111
                for t in line.trains:
                    t.length, t.stops, t.dwells = 1000, [0, 2], [0, 0]
                line.limit_points = [0, 5, 9]
                for k, rule in ((0, first), (4, last)):
                    t = line.trains[k]
                    if rule == 7:
                        t.rates[-1] = 201
                    elif rule == 8:
                        t.dwells[-1] = 3601
                    else:
                        line.P = 100
                cases.line(line)


def balises(cases, rng):
    """One balise and 64, at the first and the last point, each beside its neighbour, and just before and at the points."""
    for L in (1, 2, 50, 100):
        line = a_line(rng, 66, L, 2, 2, 3, [(1, 1)])
        last = last_place(line)
        points = range(0, last, L)
        for places in ([0], [1], [last], [0, last], range(64), range(last - 63, last + 1), points[:64],
                       [place + L - 1 for place in points[:64]], [place + off for place in points[:16] for off in (0, L - 1)]):
            cases.line(kept(set_balises(line, sorted(set(places)))))


def valid_files(cases, rng):
    for P in range(3, 40):
        cases.line(kept(any_line(rng, P, 3)))
    for most_points, most_trains, count in ((10, 2, 60), (40, 4, 100), (300, 6, 80), (4096, 8, 60), (4096, 64, 6)):
        for _ in range(count):
            cases.line(kept(any_line(rng, most_points, most_trains)))
    for bands in range(1, 9):
        for stops in (0, 1, 5, 32):
            cases.line(kept(a_line(rng, 70, 90, 2, 3, 12, [(bands, stops), (9 - bands, 32 - stops)])))


def largest_files(cases, rng):
    """The most of everything: 11,408 bytes."""
    line = a_line(rng, 4096, 1, 64, 32, 1000, [(8, 32)] * 64)
    kept(set_balises(line, rising(rng, 64, 0, 4095)))
    data = write_line(line)
    assert len(data) == 11408
    cases.ask(data, sorted(set(range(64)) | {64, 65, 255, 256, 2 ** 16, 2 ** 16 + 63, 2 ** 32, 2 ** 32 + 63, TOP}))
    limits = 14                         # where each part begins
    blocks = limits + 4 * 64
    balises = blocks + 4 * 32
    trains = balises + 4 * 64
    for length in (blocks - 1, blocks, balises - 1, balises, balises + 1, trains - 1, trains, trains + 1, trains + 2, trains + 9, trains + 10,
                   len(data) - 168, len(data) - 160, len(data) - 1):
        cases.ask(data[:length])
    cases.ask(data + b"\0")
    for k in (0, 31, 63):
        for name, i, value in (("rates", 7, 201), ("stops", 31, 4096), ("stops", 31, 4095), ("dwells", 31, 3601)):
            cases.line(changed(line, lambda l: put(getattr(l.trains[k], name), i, value)))
        cases.line(changed(line, lambda l: setattr(l.trains[k], "length", 1001)))
    cases.line(changed(line, lambda l: put(l.limits, 63, 301)))
    cases.line(changed(line, lambda l: put(l.limit_points, 63, 4095)))
    cases.line(changed(line, lambda l: put(l.block_ends, 31, 4096)))
    cases.line(changed(line, lambda l: put(l.balise_points, 63, 4096)))
    cases.line(changed(line, lambda l: put(l.balise_metres, 63, 1)))
    cases.line(changed(line, lambda l: l.trains.append(Train(0, 1, [1], [1], [], []))))


def cut_files(cases, rng):
    """Files cut at every byte."""
    for _ in range(3):
        data = write_line(set_balises(any_line(rng, 12, 2), range(3)))
        for length in range(max(len(data) - 150, 0), len(data)):
            cases.ask(data[:length], [0, TOP] if length % 2 else [0])


def great_sizes(cases, rng):
    """Sizes of 65,535 and others that the file does not hold; files longer than any that is accepted."""
    for words in (0, 1, 6, 7, 8, 13, 40, 400, 4000):
        cases.ask(b"\xff\xff" * words)
        cases.ask(b"\xff\xff" * words + b"\xff")
        cases.ask(bytes(2 * words))
        cases.ask(bytes(2 * words) + b"\0")
    for value in (MOST, 2 ** 15, 2 ** 14, 4097, 1000, 300):
        line = roomy(rng, 2)
        for counts in ({"K": value}, {"B": value}, {"Q": value}, {"T": value}, {"K": value, "B": value}, dict.fromkeys("KBQT", value)):
            cases.line(line, **counts)
        for k in (0, 1):
            t = line.trains[k]
            for sizes in ((value, len(t.stops)), (len(t.tops), value), (value, value)):
                cases.line(line, sizes={k: sizes})
    for K, B, Q, T, A, S in ((1000, 1, 0, 1, 1, 0), (1, 1000, 0, 1, 1, 0), (1, 1, 1000, 1, 1, 0), (1, 1, 0, 500, 0, 0), (1, 1, 0, 1, 1000, 0),
                             (1, 1, 0, 1, 0, 1000), (1, 1, 0, 2, 500, 500), (4000, 4000, 0, 0, 0, 0), (65, 33, 65, 65, 9, 33), (64, 32, 64, 64, 9, 33),
                             (0, 0, 0, 0, 0, 0), (0, 0, 0, 1, 0, 0), (0, 1, 0, 0, 0, 0), (1, 0, 0, 0, 0, 0), (0, 0, 1, 0, 0, 0)):
        trains = [Train(0, 1, list(range(1, A + 1)), [1] * A, [2 * i for i in range(S)], [0] * S) for _ in range(T)]
        line = set_balises(Line(4096, 100, 0, 0, list(range(K)), [1] * K, list(range(B)), list(range(1, B + 1)), trains), range(Q))
        cases.line(line)
        cases.ask(write_line(line)[:-1])
        cases.ask(write_line(line) + b"\1")


def any_bytes(cases, rng):
    for _ in range(60):
        cases.ask(rng.randbytes(rng.randrange(80)))
    for _ in range(250):                # small numbers, so that the sizes often fit the file
        numbers = [rng.choice([0, 1, 1, 2, 2, 3, 4, 5, 9, 50, 100, 300, 301, 4096, MOST]) for _ in range(rng.randrange(7, 60))]
        numbers[2:4] = [rng.randrange(4), rng.randrange(4)]
        numbers[6] = rng.randrange(4)
        cases.ask(struct.pack("<%dH" % len(numbers), *numbers) + bytes(rng.randrange(2)))
    for _ in range(200):                # one byte of a valid file altered
        data = bytearray(write_line(any_line(rng, 20, 3)))
        data[rng.randrange(len(data))] = rng.randrange(256)
        cases.ask(bytes(data))


def main():
    rng = random.Random(20241115)
    cases = Cases()
    for part in (sample, single_rules, several_rules, balises, valid_files, largest_files, cut_files, great_sizes, any_bytes):
        part(cases, rng)
    cases.write("line_cases")


if __name__ == "__main__":
    main()
