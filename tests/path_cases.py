#!/usr/bin/env python3
"""Packs questions for a path for the program path_cases, and works out what it must print.

Writes crates/path_cases/stdin and crates/path_cases/stdout. The answers are those of calculator/calculator.py, which was
written apart from the code under test. The seed is fixed: every run writes the same bytes.

The input is numbers of 8 bytes, low byte first. A question is
    1 COUNT BEGINS ENDS LOW HIGH M B E STARTS ROWS ROWS
with 32 BEGINS and 32 ENDS of the new hold, the window, the lengths of the three slices, and their entries: M starts, B
beginnings and E ends. The output has a line for each question: the number, the start and the trains before it.
"""
import random
import struct
import sys
from dataclasses import dataclass, field, replace

sys.dont_write_bytecode = True

from packed import write_cases  # noqa: E402
from sheet_cases import LATEST, PLACES, TOP, WRONG_COUNTS, any_hold, broken, large, longest, tiny, train  # noqa: E402
from yardstick import Hold, Refused, add_call, hold_call, open_call, path_by_trying, path_call, sample_line, write_line  # noqa: E402

MOST_ROWS = 64
LATEST_START = 2 ** 50
MOST_ENTRIES = 2200         # of a slice, in the program


@dataclass
class Rows:
    """Placed rows of so many blocks, in running order."""
    count: int
    starts: list = field(default_factory=list)
    begins: list = field(default_factory=list)
    ends: list = field(default_factory=list)

    def add(self, hold, gap):
        """Places a train so long behind the least start after the last one."""
        start = gap + max([0] + [self.free(j) - hold.begins[j] for j in range(self.count)])
        self.put(start, hold)

    def put(self, start, hold):
        self.starts.append(start)
        self.begins += hold.begins[:self.count]
        self.ends += hold.ends[:self.count]

    def free(self, j):
        return self.starts[-1] + self.ends[-self.count + j] if self.starts else 0

    def placed(self):
        cut = [slice(t * self.count, (t + 1) * self.count) for t in range(len(self.starts))]
        return [(start, self.begins[row], self.ends[row]) for start, row in zip(self.starts, cut)]

    def copy(self):
        return replace(self, starts=list(self.starts), begins=list(self.begins), ends=list(self.ends))


class Questions:
    """The packed questions and the lines that answer them."""

    def __init__(self):
        self.numbers = []
        self.lines = []
        self.tally = {}
        self.part = ""

    def count(self, what):
        self.tally[what] = self.tally.get(what, 0) + 1

    def ask(self, new, rows, low, high):
        slices = rows.starts, rows.begins, rows.ends
        assert max(map(len, slices)) <= MOST_ENTRIES
        self.numbers += [1, new.count, *new.begins, *new.ends, low, high, *map(len, slices), *sum(slices, [])]
        try:
            start, before = path_call(new, *slices, low, high)
            self.lines.append("path 0 %d %d" % (start, before))
            self.count("accepted")
            self.count("accepted, %s" % ("window's beginning" if start == low else "window's end" if start == high else "inside the window"))
            self.count("accepted, %s" % ("no rows" if not rows.starts else "behind all" if before == len(rows.starts) else
                                         "before all" if before == 0 else "between two"))
        except Refused as refusal:
            start = None
            self.lines.append("path %d 0 0" % refusal.number)
            self.count("refused by %d" % refusal.number)
        self.count("questions by %s" % self.part)
        return start

    def around(self, new, rows, low, high):
        """The question, and again with windows that begin or end at the least start, one before it and one behind it."""
        start = self.ask(new, rows, low, high)
        if start is None:
            return
        for end in {start - 1, start, start + 1}:
            if low <= end:
                self.ask(new, rows, low, end)
            if 0 <= end <= LATEST_START:
                self.ask(new, rows, end, max(end, high))


def chain(rng, n, trains, kind, gap):
    rows = Rows(n)
    for _ in range(trains):
        rows.add(kind(rng, n), rng.choice([0, rng.randint(0, gap)]))
    return rows


# ---- lists of questions

def every_count(questions, rng):
    """1 to 32 blocks: a few rows and a window over all of them."""
    for n in range(1, PLACES + 1):
        rows = chain(rng, n, rng.randrange(1, 5), train, 600_000_000)
        questions.around(train(rng, n), rows, rng.randrange(200_000_000), LATEST_START)


def each_place(questions, rng):
    """Rows with one gap that a train fits exactly, or misses by a microsecond in one block; the gap is at each place in turn."""
    for n, trains in ((1, 5), (3, 4), (32, 2)):
        for place in range(trains):
            for missing in (0, 1):
                new, rows = tiny(rng, n), Rows(n)
                for k in range(trains):
                    rows.add(tiny(rng, n), 0)
                    if k == place:
                        rows.add(new, 0)
                        for _ in range(2):          # closes up what the new train would leave open
                            rows.add(tiny(rng, n), 0)
                cut = rows.copy()
                at = place + 1
                del cut.starts[at], cut.begins[at * n:at * n + n], cut.ends[at * n:at * n + n]
                if missing:
                    j = rng.randrange(n)
                    cut.ends[place * n + j] = max(cut.ends[place * n + j], rows.starts[at] + new.begins[j] - rows.starts[place]) + 1
                questions.around(new, cut, 0, rows.starts[-1] + 20)


def by_trying(questions, rng):
    """Small numbers, with every start and every place of the window tried one after the other."""
    for _ in range(220):
        n = rng.choice([1, 1, 2, 3, 4])
        rows = chain(rng, n, rng.randrange(0, 6), tiny, rng.choice([0, 3, 12]))
        new, low = tiny(rng, n), rng.randrange(0, 12)
        high = low + rng.choice([0, 1, 5, 25, 60])
        found = path_by_trying(new, rows.placed(), low, high)
        assert questions.ask(new, rows, low, high) == (found[0] if found else None)


def one_block_only(questions, rng):
    """Room between two rows in all blocks, or in all but one, which is the first, the last or any."""
    for n in (2, 3, 8, 32):
        rows = Rows(n)
        rows.put(0, Hold(n, [0] * PLACES, [10] * PLACES))
        rows.put(0, Hold(n, [30] * PLACES, [40] * PLACES))
        for j in sorted({0, n - 1, rng.randrange(n)}):
            for begin, end in ((0, 20), (5, 25)):
                for more in (0, 1):
                    new = Hold(n, [begin] * PLACES, [end + more * (b == j) for b in range(PLACES)])
                    questions.around(new, rows, 0, 9)
                    questions.around(new, rows, 0, 100)


def windows(questions, rng):
    """Ends at 0 and at 2^50 and one behind; windows that end before they begin."""
    new, rows = tiny(rng, 2), chain(rng, 2, 3, tiny, 5)
    ends = [0, 1, 7, 2 ** 32, LATEST_START - 1, LATEST_START, LATEST_START + 1, 2 ** 63, TOP]
    for low in ends:
        for high in ends:
            questions.ask(new, rows, low, high)
            questions.ask(new, Rows(2), low, high)


def lengths(questions, rng):
    """Slices with an entry or a row too many or too few; rows of another block count; 0 to 66 rows."""
    for n in (1, 2, 5, 32):
        new, rows = train(rng, n), chain(rng, n, 3, train, 10 ** 9)
        for name in ("starts", "begins", "ends"):
            for more in (-n, -1, 1, n):
                other = rows.copy()
                entries = getattr(other, name)
                setattr(other, name, entries[:more] if more < 0 else entries + [0] * more)
                questions.ask(new, other, 0, LATEST_START)
        questions.ask(replace(new, count=n % PLACES + 1), rows, 0, LATEST_START)
        questions.ask(new, Rows(n, [], [0], []), 0, LATEST_START)
        questions.ask(new, Rows(n, [], [], [1]), 0, LATEST_START)
        questions.ask(new, Rows(n, [0], [], []), 0, LATEST_START)
    for trains in (*range(4), 62, 63, 64, 65, 66):
        rows = Rows(1, [10 * t for t in range(trains)], [0] * trains, [5] * trains)
        for end in (5, 6):
            questions.ask(Hold(1, [0] * PLACES, [end] * PLACES), rows, 0, LATEST_START)
            questions.ask(Hold(1, [0] * PLACES, [end] * PLACES), rows, 633, 650)
    for trains in (63, 64, 65):
        questions.ask(tiny(rng, PLACES), chain(rng, PLACES, trains, tiny, 3), 30, LATEST_START)
    questions.ask(tiny(rng, 1), Rows(1, [0] * MOST_ENTRIES, [0] * MOST_ENTRIES, [1] * MOST_ENTRIES), 0, 9)


def placed_starts(questions, rng):
    """Starts of 2^50 and beyond, at each row; starts that fall although the holds are in order."""
    for start in (LATEST_START, LATEST_START + 1, 2 ** 63, TOP - 5, TOP):
        for k in range(3):
            rows = Rows(1, [0, 0, 0], [0, 10, 20], [5, 15, 25])
            rows.starts[k] = start
            questions.ask(tiny(rng, 1), rows, 0, LATEST_START)
            questions.ask(tiny(rng, 1), Rows(1, [start], [0], [5]), 0, LATEST_START)
    for new_end in (5, 90, 91):
        new = Hold(1, [0] * PLACES, [new_end] * PLACES)
        questions.around(new, Rows(1, [100, 0], [0, 200], [10, 210]), 0, 1000)


def broken_rows(questions, rng):
    """A row that breaks 14 in one entry; rows that overlap by a microsecond in one block, touch, or are exchanged."""
    for n in (1, 3, 32):
        for _ in range(8):
            rows = chain(rng, n, 3, train, 10 ** 9)
            new, k = train(rng, n), rng.randrange(3 * n)
            for begin, end in ((rows.ends[k], rows.ends[k]), (TOP, TOP), (rows.begins[k], TOP), (rows.begins[k], LATEST + 1),
                               (TOP, rows.ends[k]), (rows.ends[k], rows.begins[k])):
                other = rows.copy()
                other.begins[k], other.ends[k] = begin, end
                questions.ask(new, other, 0, LATEST_START)
        for at in (1, 2):
            rows = chain(rng, n, 3, train, 0)
            questions.around(train(rng, n), rows, 0, LATEST_START)
            early = rows.copy()
            early.starts[at] -= 1
            questions.ask(train(rng, n), early, 0, LATEST_START)
            turned = rows.copy()
            turned.starts.reverse()
            questions.ask(train(rng, n), turned, 0, LATEST_START)
            first = rows.copy()
            first.put(0, train(rng, n))
            questions.ask(train(rng, n), first, 0, LATEST_START)


def new_holds(questions, rng):
    """12 and 14 of the new hold, alone and with rows and windows that break 16."""
    for n in (1, 4, 32):
        rows = chain(rng, n, 2, train, 10 ** 9)
        bad = rows.copy()
        bad.starts[0] = TOP
        for count in WRONG_COUNTS:
            for some in (rows, bad):
                questions.ask(replace(train(rng, n), count=count), some, 5, rng.choice([4, 9]))
        for _ in range(12):
            hold = replace(broken(rng, n), count=n)
            questions.ask(hold, rows, 0, LATEST_START)
            questions.ask(hold, bad, 5, rng.choice([4, 9]))


def greatest_times(questions, rng):
    """Starts and ends at their greatest, in the rows and in the new hold."""
    new = longest(rng, 1)
    for low in (0, LATEST_START - LATEST - 1, LATEST_START - LATEST, LATEST_START - LATEST + 1, LATEST_START):
        questions.around(new, Rows(1, [LATEST_START], [0], [LATEST]), low, LATEST_START)
        questions.around(new, Rows(1, [LATEST_START], [LATEST - 1], [LATEST]), low, LATEST_START)
        questions.around(Hold(1, [LATEST - 1] * PLACES, [LATEST] * PLACES), Rows(1, [LATEST_START], [0], [LATEST]), low, LATEST_START)
    for trains in (1, 5, 63, 64):
        rows = chain(rng, 1, trains, longest, 0)
        questions.around(new, rows, 0, LATEST_START)
        questions.around(large(rng, 1), chain(rng, 1, trains, large, LATEST // 8), rng.randrange(LATEST), LATEST_START)


def sample(questions, rng):
    """The sample's trains as its sheet has them, and each of them once more."""
    data = write_line(sample_line())
    P = sample_line().P
    holds = [hold_call(data, k, [0] * P, [0] * P) for k in range(len(sample_line().trains))]
    sheet, rows = open_call(holds[0].count), Rows(holds[0].count)
    for hold in holds:
        rows.put(add_call(sheet, hold)[0], hold)
    for hold in holds:
        questions.around(hold, rows, 0, LATEST_START)
        apart = replace(rows, starts=[start + 900_000_000 * k for k, start in enumerate(rows.starts)])
        questions.around(hold, apart, 0, LATEST_START)
        questions.around(hold, apart, 500_000_000, LATEST_START)


def mixtures(questions, rng):
    """Any rows and any hold, with windows within and behind the rows."""
    for _ in range(160):
        n = rng.choice([1, 2, 3, 5, 8, 12])
        rows = chain(rng, n, rng.choice([1, 2, 3, 6, 10, 20]), rng.choice([train, tiny, any_hold]), rng.choice([3, 10 ** 8, 10 ** 9]))
        last = rows.starts[-1]
        low = rng.choice([0, rng.randint(0, last), rng.randint(0, last)])
        questions.ask(any_hold(rng, n), rows, low, rng.choice([low, low + rng.randint(0, 10 ** 9), max(low, last), LATEST_START]))


PARTS = [every_count, each_place, by_trying, one_block_only, windows, lengths, placed_starts, broken_rows, new_holds, greatest_times, sample,
         mixtures]


def main():
    rng = random.Random(20241203)
    questions = Questions()
    for part in PARTS:
        questions.part = part.__name__
        part(questions, rng)
    packed = struct.pack("<%dQ" % len(questions.numbers), *questions.numbers)
    write_cases("path_cases", packed, questions.lines, questions.tally)


if __name__ == "__main__":
    main()
