#!/usr/bin/env python3
"""Packs calls on a sheet for the program sheet_cases, and works out what it must print.

Writes crates/sheet_cases/stdin and crates/sheet_cases/stdout. The answers are those of calculator/calculator.py, which was
written apart from the code under test. The seed is fixed: every run writes the same bytes.

The input is numbers of 8 bytes, low byte first. A call is its kind and then its arguments:
    1 COUNT                         open
    2 RECORD                        add to the sheet that the call before left
    3 RECORD RECORD                 headway
    4 COUNT TRAINS PLACES PLACES    take a forged sheet instead, with these free times and first beginnings
    5                               print the whole sheet
    6                               period of the sheet
RECORD is COUNT PLACES PLACES; PLACES is a value for all 32 places, how many of the first places differ from it, and these.
"""
import random
import struct
import sys

sys.dont_write_bytecode = True

from packed import write_cases  # noqa: E402
from yardstick import Hold, Refused, Sheet, add_call, headway_call, hold_call, open_call, period_call  # noqa: E402
from yardstick import sample_line, write_line  # noqa: E402

OPEN, ADD, HEADWAY, FORGE, SHOW, PERIOD = 1, 2, 3, 4, 5, 6
PLACES = 32
LATEST = 2 ** 44
TOP = 2 ** 64 - 1
SECOND = 1_000_000
PERCENT = 36 * SECOND
WRONG_COUNTS = [0, 33, 34, 64, 255, 256, 2 ** 32, 2 ** 32 + 1, 2 ** 32 + 32, 2 ** 63, TOP]


class Calls:
    """The packed calls, the lines that answer them, and the sheet between two calls."""

    def __init__(self):
        self.numbers = []
        self.lines = []
        self.sheet = open_call(1)
        self.tally = {}

    def count(self, what):
        self.tally[what] = self.tally.get(what, 0) + 1

    def places(self, values):
        assert len(values) == PLACES
        apart = PLACES
        while apart > 0 and values[apart - 1] == values[-1]:
            apart -= 1
        self.numbers += [values[-1], apart] + values[:apart]

    def record(self, hold):
        self.numbers.append(hold.count)
        self.places(hold.begins)
        self.places(hold.ends)

    def open(self, count):
        self.numbers += [OPEN, count]
        try:
            self.sheet = open_call(count)
            number = 0
        except Refused as refusal:
            self.sheet = Sheet(0, 0, [0] * PLACES, [0] * PLACES)
            number = refusal.number
        self.lines.append("opened %d" % number)
        self.count("opened %d" % number)

    def add(self, hold):
        self.numbers.append(ADD)
        self.record(hold)
        free = list(self.sheet.free)
        try:
            start, block = add_call(self.sheet, hold)
            answer = "accepted %d %d" % (start, block)
            self.count("accepted")
            if start > 0 and sum(start + hold.begins[b] == free[b] for b in range(hold.count)) > 1:
                self.count("accepted, with a tie")
        except Refused as refusal:
            answer = "refused %d" % refusal.number
            self.count(answer)
        self.lines.append("%s left %016x" % (answer, checksum(self.sheet)))
        self.count("adding calls")
        if self.tally["adding calls"] % 3 == 0:
            self.period()
        if self.tally["adding calls"] % 50 == 0:
            self.show()

    def headway(self, first, second):
        self.numbers.append(HEADWAY)
        self.record(first)
        self.record(second)
        try:
            self.lines.append("headway %d" % headway_call(first, second))
            self.count("headway")
        except Refused as refusal:
            self.lines.append("no headway %d" % refusal.number)
            self.count("no headway %d" % refusal.number)

    def period(self):
        self.numbers.append(PERIOD)
        try:
            self.lines.append("period %d %d" % period_call(self.sheet))
            self.count("period")
        except Refused as refusal:
            self.lines.append("no period %d" % refusal.number)
            self.count("no period %d" % refusal.number)

    def forge(self, count, trains, free, first):
        self.numbers += [FORGE, count, trains]
        self.places(free)
        self.places(first)
        self.sheet = Sheet(count, trains, list(free), list(first))
        self.count("forged sheets")

    def show(self):
        self.numbers.append(SHOW)
        self.lines.append("sheet " + " ".join(str(value) for value in sheet_numbers(self.sheet)))
        self.count("sheets shown")


def sheet_numbers(sheet):
    return [sheet.count, sheet.trains] + sheet.free + sheet.first


def checksum(sheet):
    total = 0
    for value in sheet_numbers(sheet):
        total = (((total << 7) | (total >> 57)) + value) & TOP
    return total


# ---- records

def beyond(rng, values):
    """32 places, of which those beyond the given ones hold anything."""
    left = PLACES - len(values)
    rest = rng.choice([[0] * left, [TOP] * left, [rng.randrange(2 ** 64)] * left, [rng.randrange(2 ** 64) for _ in range(left)]])
    return values + (rest if rng.random() < 0.4 else [0] * left)


def train(rng, n):
    """A train that passes n blocks one after another."""
    begins, ends, time = [], [], rng.randrange(100 * SECOND)
    for _ in range(n):
        begins.append(time)
        time += rng.randrange(10 * SECOND, 120 * SECOND)
        ends.append(time + rng.randrange(1, 60 * SECOND))
    return Hold(n, beyond(rng, begins), beyond(rng, ends))


def tiny(rng, n):
    """Small numbers, so that several blocks bind at once and starts are often 0."""
    begins = [rng.randrange(6) for _ in range(n)]
    ends = [begin + rng.randrange(1, 5) for begin in begins]
    return Hold(n, beyond(rng, begins), beyond(rng, ends))


def large(rng, n):
    """Ends up to 2^44, often that number itself."""
    ends = [rng.choice([LATEST, LATEST - 1, rng.randrange(1, LATEST + 1)]) for _ in range(n)]
    begins = [rng.choice([0, end - 1, rng.randrange(end)]) for end in ends]
    return Hold(n, beyond(rng, begins), beyond(rng, ends))


def longest(rng, n):
    return Hold(n, beyond(rng, [0] * n), beyond(rng, [LATEST] * n))


def alike(rng, n):
    """A train that holds n equal blocks equally long, each as much later than the one before."""
    begin, later, length = rng.randrange(100 * SECOND), rng.randrange(120 * SECOND), rng.randrange(1, 200 * SECOND)
    begins = [begin + b * later for b in range(n)]
    return Hold(n, beyond(rng, begins), beyond(rng, [begin + length for begin in begins]))


def tied(rng, n, blocks):
    """Two trains, of which the second waits equally long for each of these blocks and less for the others."""
    second, wait = train(rng, n), rng.randrange(2, 120 * SECOND)
    ends = [second.begins[b] + wait - (0 if b in blocks else rng.choice([1, rng.randrange(1, wait)])) for b in range(n)]
    return [Hold(n, beyond(rng, [0] * n), beyond(rng, ends)), second]


def any_hold(rng, n):
    return rng.choice([train, train, tiny, large])(rng, n)


def broken(rng, n):
    """A record that breaks 14 in one way."""
    hold = any_hold(rng, n)
    b = rng.choice([0, n - 1, rng.randrange(n)])
    way = rng.randrange(8)
    if way == 0:
        hold.count = rng.choice([n - 1, n + 1] + WRONG_COUNTS)
    elif way == 1:
        hold.count = rng.choice([k for k in range(34) if k != n])
    elif way == 2:
        hold.begins[b] = hold.ends[b]
    elif way == 3:
        hold.begins[b] = rng.choice([hold.ends[b] + 1, TOP, rng.randrange(hold.ends[b], 2 ** 64)])
    elif way == 4:
        hold.ends[b] = LATEST + 1
    elif way == 5:
        hold.ends[b] = rng.choice([TOP, rng.randrange(LATEST + 1, 2 ** 64), LATEST + 2 ** 32])
    elif way == 6:
        hold.ends[b] = 0
    else:
        hold.begins[b] = hold.ends[b] = TOP
    return hold


def mixed(rng, n, share):
    return broken(rng, n) if rng.random() < share else any_hold(rng, n)


# ---- lists of calls

def every_count(calls, rng):
    for n in range(1, PLACES + 1):
        calls.open(n)
        calls.period()
        for _ in range(52):
            calls.add(mixed(rng, n, 0.2))
        calls.period()
        calls.show()


def seventy_in_a_row(calls, rng):
    for n, make in ((1, tiny), (2, train), (7, train), (19, large), (32, train)):
        calls.open(n)
        for _ in range(70):
            calls.add(make(rng, n))
        for _ in range(6):
            calls.add(broken(rng, n))
        calls.period()
        calls.show()


def beyond_full(calls, rng, counts, make):
    for n in counts:
        calls.open(n)
        for _ in range(66):
            calls.add(make(rng, n))
        calls.period()
        calls.show()


def latest_ends(calls, rng):
    beyond_full(calls, rng, (1, 3, 32), longest)


def small_times(calls, rng):
    beyond_full(calls, rng, range(2, 9), tiny)


def one_record_again(calls, rng):
    for n in (1, 5, 32):
        calls.open(n)
        hold = train(rng, n)
        for _ in range(20):
            calls.add(hold)
        calls.show()


def wrong_openings(calls, rng):
    for count in WRONG_COUNTS:
        calls.open(count)
        calls.add(any_hold(rng, rng.randrange(1, PLACES + 1)))
        calls.add(Hold(count, [0] * PLACES, [1] * PLACES))
        calls.period()
        calls.show()


def sample(calls, rng):
    data = write_line(sample_line())
    calls.open(2)
    for k in (0, 1):
        calls.add(hold_call(data, k, [0] * 7, [0] * 7))
    calls.period()
    assert calls.lines[-1] == "period 114565952 3"


# ---- forged sheets

def tried(calls, rng, n, sheet, adds=3):
    """A forged sheet: its period, a broken record, then sound ones, and the period that they leave."""
    calls.forge(*sheet)
    calls.period()
    calls.add(broken(rng, n))
    for _ in range(adds):
        calls.add(any_hold(rng, n))
    calls.period()


def any_times(rng, n):
    return beyond(rng, [rng.choice([0, TOP, rng.randrange(2 ** 64)]) for _ in range(n)])


def sound_times(rng, n, trains):
    """Free times and first beginnings that rule 12 lets pass, often just so."""
    if trains == 0:
        return beyond(rng, [0] * n), any_times(rng, n)
    most = trains * LATEST
    free = [rng.choice([1, most, rng.randrange(1, most + 1)]) for _ in range(n)]
    first = [rng.choice([0, time - 1, rng.randrange(time)]) for time in free]
    return beyond(rng, free), beyond(rng, first)


def some_blocks(rng, n):
    return sorted({0, n - 1, rng.randrange(n)})


def wrong_counts(calls, rng):
    for count in WRONG_COUNTS:
        free, first = sound_times(rng, PLACES, 1)
        tried(calls, rng, rng.randrange(1, PLACES + 1), (count, rng.randrange(65), free, first))
        tried(calls, rng, 1, (count, 1, [1] * PLACES, [0] * PLACES))
        tried(calls, rng, 1, (count, 0, [0] * PLACES, [0] * PLACES))


def wrong_trains(calls, rng):
    for trains in (65, 66, 127, 128, 2 ** 20, 2 ** 20 + 1, 2 ** 32, 2 ** 63, TOP):
        n = rng.randrange(1, PLACES + 1)
        tried(calls, rng, n, (n, trains, [1] * PLACES, [0] * PLACES))
        tried(calls, rng, n, (n, trains, any_times(rng, n), any_times(rng, n)))


def wrong_free_times(calls, rng):
    for trains in (0, 1, 2, 63, 64):
        for n in (1, 2, 17, 32):
            for b in some_blocks(rng, n):
                free, first = sound_times(rng, n, trains)
                free[b] = rng.choice([trains * LATEST + 1, TOP, rng.randrange(trains * LATEST + 1, 2 ** 64)])
                tried(calls, rng, n, (n, trains, free, first), 1)


def wrong_beginnings(calls, rng):
    """The greatest beginning that is below its free time, then those that are not: equal, above, and both 0."""
    for trains in (1, 2, 33, 63, 64):
        for n in (1, 2, 17, 32):
            for b in some_blocks(rng, n):
                free, first = sound_times(rng, n, trains)
                for begin in (free[b] - 1, free[b], rng.choice([free[b] + 1, TOP, rng.randrange(free[b], 2 ** 64)])):
                    first[b] = begin
                    tried(calls, rng, n, (n, trains, free, first), 1)
                free[b] = first[b] = 0
                tried(calls, rng, n, (n, trains, free, first), 1)


def sound_sheets(calls, rng):
    """Anything stands beyond the count."""
    for trains in (0, 1, 2, 33, 62, 63, 64):
        for n in (1, 2, 9, 31, 32):
            left = PLACES - n
            most = trains * LATEST
            tried(calls, rng, n, (n, trains, *sound_times(rng, n, trains)), 4)
            tried(calls, rng, n, (n, trains, [most] * n + [TOP] * left, [max(1, most) - 1] * n + [0] * left), 4)
            tried(calls, rng, n, (n, trains, [most] * n + [0] * left, [0] * n + [TOP] * left), 4)


def without_trains(calls, rng):
    """Kept beginnings that nothing judges; the first train that is added sets those within the count."""
    for n in range(1, PLACES + 1):
        for first in ([TOP] * PLACES, any_times(rng, n)):
            tried(calls, rng, n, (n, 0, beyond(rng, [0] * n), first), 2)
            calls.show()


# ---- percentages

def periods(rng):
    """Periods about halves of a percentage and about whole ones, those named in the paper among them."""
    named = [18 * SECOND, 3258 * SECOND, 3154 * SECOND, 3600 * SECOND]
    most = 64 * LATEST // PERCENT
    parts = [0, 1, 2, 3, 49, 50, 86, 87, 88, 89, 90, 91, 99, 100, 101, most - 1, most]
    parts += [rng.randrange(200) for _ in range(20)] + [rng.randrange(2 ** rng.randrange(1, 25)) for _ in range(40)]
    middles = named + [part * PERCENT + half for part in parts for half in (0, PERCENT // 2)]
    around = {middle + off for middle in middles for off in (-1, 0, 1)}
    chosen = {rng.randrange(1, 2 ** rng.randrange(1, 51)) for _ in range(60)}
    return sorted(period for period in around | chosen | {64 * LATEST} if 1 <= period <= 64 * LATEST)


def percentages(calls, rng):
    """Through a sheet of one block: added to where one train has this period, and forged."""
    for period in periods(rng):
        trains = max(1, -(-period // LATEST))
        if trains == 1:
            begin = rng.choice([0, LATEST - period, rng.randrange(LATEST - period + 1)])
            calls.open(1)
            calls.add(Hold(1, [begin] * PLACES, [begin + period] * PLACES))
            calls.period()
        first = rng.choice([0, trains * LATEST - period])
        calls.forge(1, trains, [first + period] * PLACES, [first] * PLACES)
        calls.period()


def headways(calls, rng):
    for _ in range(300):
        n = rng.randrange(1, PLACES + 1)
        calls.headway(mixed(rng, n, 0.15), mixed(rng, n, 0.15))
    for n in (1, 2, 32):
        hold = train(rng, n)
        calls.headway(hold, hold)
        calls.headway(longest(rng, n), longest(rng, n))
        calls.headway(hold, train(rng, n % PLACES + 1))
    for count in WRONG_COUNTS:
        calls.headway(Hold(count, [0] * PLACES, [1] * PLACES), tiny(rng, 4))
        calls.headway(tiny(rng, 4), Hold(count, [0] * PLACES, [1] * PLACES))
        calls.headway(Hold(count, [1] * PLACES, [1] * PLACES), Hold(count, [0] * PLACES, [1] * PLACES))


# ---- starts that several blocks fix equally

def ties(calls, rng):
    """All blocks, the first and the last, one of these, the first and a middle one, and any; then one record again and again."""
    for n in range(1, PLACES + 1):
        for blocks in (range(n), {0, n - 1}, {0}, {n - 1}, {0, n // 2}, rng.sample(range(n), rng.randint(1, n))):
            calls.open(n)
            for hold in tied(rng, n, blocks):
                calls.add(hold)
        calls.open(n)
        hold = alike(rng, n)
        for _ in range(4):
            calls.add(hold)


def ties_beyond(calls, rng):
    """Places beyond the block count that would fix the start as well, and starts at 0 that every block fixes."""
    for n in range(1, PLACES + 1):
        begins = [rng.randrange(1, LATEST // 2) for _ in range(PLACES)]
        for start in (rng.randrange(1, LATEST // 2), 1, 0):
            calls.forge(n, rng.randrange(1, 64), [start + begin for begin in begins], [0] * PLACES)
            calls.add(Hold(n, begins, [begin + 1 for begin in begins]))


PARTS = [every_count, seventy_in_a_row, latest_ends, small_times, one_record_again, wrong_openings, sample, wrong_counts, wrong_trains,
         wrong_free_times, wrong_beginnings, sound_sheets, without_trains, percentages, headways, ties, ties_beyond]


def main():
    rng = random.Random(20240917)
    calls = Calls()
    for part in PARTS:
        part(calls, rng)
    packed = struct.pack("<%dQ" % len(calls.numbers), *calls.numbers)
    write_cases("sheet_cases", packed, calls.lines, calls.tally)


if __name__ == "__main__":
    main()
