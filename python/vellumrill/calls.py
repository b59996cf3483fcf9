"""The calls of the header, one function each, over the proved library.

A call either gives its whole answer or raises Refusal with the number of the first broken rule in checking order; what it was given is
then as before. `file` is the bytes of a line file, and train k is counted from 0. The file's rules are 1 to 9 and 15. Nothing is asked
of the values: files, sheets and hold records may hold any numbers of 64 bits. A number that is none of these raises ValueError.
"""

import operator
import struct
from collections.abc import Sequence
from ctypes import c_uint8, c_uint32, c_uint64

from . import binding
from .answers import Added, DiagramPoint, Held, Hold, Path, Period, RecordPlace, Rows, Run, Sheet, Sizes
from .binding import MOST_BLOCKS, MOST_TEXT, MOST_TRAINS, POINT
from .rules import Refusal

Bytes = bytes | bytearray | memoryview


# ------------------------------------------------------------ what is lent

def lent_file(file: Bytes):
    return (c_uint8 * len(file)).from_buffer_copy(file), len(file)


def whole(value: int, name: str) -> int:
    """The value, if it is a whole number of 64 bits; ctypes would cut any other."""
    number = operator.index(value)
    if not 0 <= number < 1 << 64:
        raise ValueError(f"{name} is {number}, which is no whole number from 0 to 2^64 - 1")
    return number


def lent_numbers(values: Sequence[int], name: str):
    return (c_uint64 * len(values))(*(whole(value, f"an entry of {name}") for value in values)), len(values)


def places(values: Sequence[int], name: str):
    """The first 32 entries, 0 in the places behind them. A record of more blocks is refused by its count."""
    return (c_uint64 * MOST_BLOCKS)(*(whole(value, f"an entry of {name}") for value in values[:MOST_BLOCKS]))


def lent_hold(hold: Hold) -> binding.HoldRecord:
    begins, ends = hold
    if len(begins) != len(ends):
        raise ValueError(f"the hold record has {len(begins)} beginnings and {len(ends)} ends")
    return binding.HoldRecord(len(begins), places(begins, "begins"), places(ends, "ends"))


def lent_sheet(sheet: Sheet) -> binding.Sheet:
    if not len(sheet.free) == len(sheet.first) == MOST_BLOCKS:
        raise ValueError(f"the sheet has {len(sheet.free)} free times and {len(sheet.first)} first beginnings, not {MOST_BLOCKS} of each")
    return binding.Sheet(whole(sheet.blocks, "blocks"), whole(sheet.trains, "trains"), places(sheet.free, "free"),
                         places(sheet.first, "first"))


def accepted(number: int) -> None:
    if number:
        raise Refusal(number)


# ------------------------------------------------------------ files and trains

def check_file(file: Bytes) -> None:
    """Checks a file: a refusal is by the file's rules."""
    accepted(binding.library().vr_check_file(*lent_file(file)))


def check_train(file: Bytes, k: int) -> None:
    """Checks a file and a train number, counted from 0: a refusal is by the file's rules and 10."""
    accepted(binding.library().vr_check_train(*lent_file(file), whole(k, "k")))


def train_record(file: Bytes, k: int) -> RecordPlace:
    """Where the record of train k, counted from 0, stands: from its class to its last dwell, or to its last rate if it has no stops. A
    refusal is by the file's rules and 10."""
    answer = binding.library().vr_train_record(*lent_file(file), whole(k, "k"))
    accepted(answer.number)
    return RecordPlace(answer.start, answer.length)


def sizes(file: Bytes) -> Sizes:
    """The file's points, its step in m, its blocks and its trains. A refusal is by the file's rules."""
    answer = binding.library().vr_sizes(*lent_file(file))
    accepted(answer.number)
    return Sizes(answer.points, answer.step, answer.blocks, answer.trains)


def lent_for_run(file: Bytes, k: int):
    """The arguments of the calls that compute a run, and the two buffers among them, with an entry for each point."""
    points = sizes(file).points
    speeds, times = (c_uint32 * points)(), (c_uint64 * points)()
    return (*lent_file(file), whole(k, "k"), speeds, points, times, points), speeds, times


def run(file: Bytes, k: int) -> Run:
    """The run of train k, counted from 0: at each point its squared speed, in squares of hundredths of a km/h, and its arrival. No
    permitted row of speeds reaches a point before these. A refusal is by the file's rules and 10."""
    arguments, speeds, times = lent_for_run(file, k)
    accepted(binding.library().vr_run(*arguments))
    return Run(list(speeds), list(times))


def hold(file: Bytes, k: int) -> Held:
    """The block holds of train k, counted from 0, and its run as the run call gives it. A refusal is by the file's rules and 10."""
    arguments, speeds, times = lent_for_run(file, k)
    answer = binding.library().vr_hold(*arguments)
    accepted(answer.number)
    blocks = answer.hold.blocks
    return Held(Hold(answer.hold.begins[:blocks], answer.hold.ends[:blocks]), Run(list(speeds), list(times)))


def diagram(file: Bytes, k: int) -> list[DiagramPoint]:
    """The speed-distance diagram of train k, counted from 0, a record for each point: the position in m, the speed in hundredths of a
    km/h and the arrival as doubles, which turned back are the run's own figures, and the dot, full exactly if the squared speed is the
    square of the speed beside it. A refusal is by the file's rules and 10."""
    length = struct.calcsize(POINT) * sizes(file).points
    lent = (c_uint8 * length)()
    answer = binding.library().vr_diagram(*lent_file(file), whole(k, "k"), lent, length)
    accepted(answer.number)
    return [DiagramPoint(position, speed, arrival, dot == 1)
            for position, speed, arrival, dot in struct.iter_unpack(POINT, bytes(lent)[:answer.bytes])]


# ------------------------------------------------------------ sheets of starts

def open_sheet(blocks: int) -> Sheet:
    """A fresh sheet of starts for so many blocks. Trains added to it never overlap in a block, and none could start sooner in that order.
    A refusal is by 12."""
    sheet = binding.Sheet()
    accepted(binding.library().vr_open(whole(blocks, "blocks"), sheet))
    return Sheet(sheet.blocks, sheet.trains, list(sheet.free), list(sheet.first))


def add(sheet: Sheet, hold: Hold) -> Added:
    """Adds a train to the sheet, which is altered. Gives the least start, and the block named, counted from 1: the last where start plus
    beginning is the free time before the addition, or 0 if the start is 0. A refusal is by 12 to 14, and leaves the sheet as it was."""
    lent = lent_sheet(sheet)
    answer = binding.library().vr_add(lent, lent_hold(hold))
    accepted(answer.number)
    sheet.trains, sheet.free, sheet.first = lent.trains, list(lent.free), list(lent.first)
    return Added(answer.start, answer.block)


def headway(first: Hold, second: Hold) -> int:
    """The headway of two trains: the second's start on a sheet of these two. A refusal is the first met, by 12 to 14."""
    answer = binding.library().vr_headway(lent_hold(first), lent_hold(second))
    accepted(answer.number)
    return answer.headway


def period(sheet: Sheet) -> Period:
    """The shortest period with which the sheet's trains can be repeated, and its percentage of 3,600 s, rounded to the nearest, halves
    up. The period is the greatest, over the blocks, of the free time less the first train's beginning; of a sheet without trains it is 0.
    A refusal is by 12."""
    answer = binding.library().vr_period(lent_sheet(sheet))
    accepted(answer.number)
    return Period(answer.period, answer.percent)


def path(hold: Hold, starts: Sequence[int], begins: Sequence[int], ends: Sequence[int], low: int, high: int) -> Path:
    """A path for one more train between those already placed.

    `starts` has the start of each placed train, in running order. `begins` and `ends` are flat lists of numbers: the beginnings, and the
    ends, of the first placed train's holds, then those of the second, and so on, for each train as many as the new hold has blocks. The
    answer is the least start from `low` to `high`, both included, that has a place in the order, and how many trains are before that
    place: in every block the new hold comes after all trains before it and before all others. A refusal is by 12, 14, 16 and 17; by 17 if
    and only if no start in the window will do."""
    rows = [*lent_numbers(starts, "starts"), *lent_numbers(begins, "begins"), *lent_numbers(ends, "ends")]
    answer = binding.library().vr_path(lent_hold(hold), *rows, whole(low, "low"), whole(high, "high"))
    accepted(answer.number)
    return Path(answer.start, answer.before)


# ------------------------------------------------------------ whole files

def rows(file: Bytes) -> Rows:
    """The sheet of a whole file: all its trains, added in the file's order to a fresh sheet. No two trains overlap in a block, and none
    could start sooner in that order. A refusal is by the file's rules."""
    columns = [(c_uint64 * MOST_TRAINS)() for _ in Rows._fields]
    answer = binding.library().vr_rows(*lent_file(file), *(word for column in columns for word in (column, MOST_TRAINS)))
    accepted(answer.number)
    return Rows(*(column[:answer.trains] for column in columns))


def study(file: Bytes) -> str:
    """The same sheet as text: a line `train start run block`, then a line for each train, counted from 1. A refusal is by the file's
    rules."""
    lent = (c_uint8 * MOST_TEXT)()
    answer = binding.library().vr_study(*lent_file(file), lent, MOST_TEXT)
    accepted(answer.number)
    return bytes(lent)[:answer.bytes].decode("ascii")
