"""Prints all figures of each train: squared speeds, speeds and passing times at
every point, the hold of every block, the start and the block that fixed it."""

import os
from pathlib import Path

from ..figures import figures_of
from ..inputs import STANDARD_INPUT
from ..messages import Failure
from ..output import need_place_for, write_file
from ..readable import clock, kilometres, kmh
from ..tables import aligned, as_csv
from .asked import add_file, for_file, print_lines

HELP = "every figure of each train, printed or as CSV files"
NOTES = """\
Arrivals and holds are counted from the train's start on; `clock` is the time on
the sheet, start plus arrival. A dot is full where the speed is exact, and open
where it was rounded down to hundredths of a km/h.

With --csv three files are written into DIR, which is made if it is not there:
NAME-trains.csv, NAME-points.csv and NAME-holds.csv, where NAME is that of FILE
without its ending, or `line` for standard input. Old ones are replaced. Each has
a header line; times in them are in microseconds, squared speeds in squares of
hundredths of a km/h.
"""

TRAINS = ("train", "class", "length_m", "start_us", "run_us", "block")
POINTS = ("train", "point", "position_m", "squared_speed", "speed_kmh", "dot", "dwell_s", "arrival_us", "clock_us")
HOLDS = ("train", "block", "from_point", "to_point", "begin_us", "end_us", "clock_begin_us", "clock_end_us")


def add_arguments(parser):
    add_file(parser)
    parser.add_argument("--train", metavar="N", type=int, help="one train alone, counted from 1")
    parser.add_argument("--csv", metavar="DIR", help="write CSV files into this folder, and print nothing")


def chosen(figures, number):
    """The train of this number, or all."""
    if number is None:
        return figures.trains
    if not 1 <= number <= len(figures.trains):
        raise Failure(f"there is no train {number}: the file has trains 1 to {len(figures.trains)}")
    return [figures.trains[number - 1]]


# ------------------------------------------------------------ rows

def train_row(train):
    return train.number, train.class_word, train.given.sizes["length"], train.start, train.run, train.block


def point_rows(train):
    dwells = dict(train.given.pairs["stop"])
    for i, (squared, point) in enumerate(zip(train.squared_speeds, train.points)):
        arrival = int(point.arrival)
        yield (train.number, i, int(point.position), squared, kmh(int(point.speed)), "full" if point.full else "open",
               dwells.get(i, ""), arrival, train.clock_of(arrival))


def hold_rows(line, train):
    for block, ((start, end), begin, close) in enumerate(zip(line.pairs["block"], *train.hold), 1):
        yield train.number, block, start, end, begin, close, train.clock_of(begin), train.clock_of(close)


# ------------------------------------------------------------ tables for people

def point_table(train):
    rows = [(i, kilometres(position), squared, speed, dot, dwell, clock(arrival), arrival, clock(time))
            for _, i, position, squared, speed, dot, dwell, arrival, time in point_rows(train)]
    return aligned(("point", "km", "squared speed", "km/h", "dot", "dwell s", "arrival", "µs", "clock"), rows)


def hold_table(line, train):
    rows = [(block, start, end, clock(begin), begin, clock(close), close, clock(begins_at), clock(ends_at))
            for _, block, start, end, begin, close, begins_at, ends_at in hold_rows(line, train)]
    return aligned(("block", "from", "to", "begin", "µs", "end", "µs", "clock begin", "clock end"), rows)


def train_lines(line, train):
    fixed = f"fixed by block {train.block}" if train.block else "fixed by no block"
    yield f"train {train.number}, {train.class_word}, {train.given.sizes['length']} m"
    yield f"start {clock(train.start)} ({train.start} µs), {fixed}; running time {clock(train.run)} ({train.run} µs)"
    yield from ("", *point_table(train), "", *hold_table(line, train))


def print_figures(figures, number):
    for at, train in enumerate(chosen(figures, number)):
        print_lines([*([""] if at else []), *train_lines(figures.line, train)])


# ------------------------------------------------------------ files for programs

def make_folder(name):
    try:
        os.makedirs(name, exist_ok=True)
    except FileExistsError:
        raise Failure(f"{name} is a file, not a folder") from None
    except OSError as error:
        raise Failure(f"the folder {name!r} cannot be made: {error.strerror}") from None


def write_files(figures, number, folder, name):
    trains = chosen(figures, number)
    tables = {"trains": (TRAINS, map(train_row, trains)),
              "points": (POINTS, (row for train in trains for row in point_rows(train))),
              "holds": (HOLDS, (row for train in trains for row in hold_rows(figures.line, train)))}
    stem = "line" if name == STANDARD_INPUT else Path(name).stem
    make_folder(folder)
    places = {kind: os.path.join(folder, f"{stem}-{kind}.csv") for kind in tables}
    for place in places.values():
        need_place_for(place)
    for kind, (header, rows) in tables.items():
        write_file(places[kind], as_csv(header, rows))


def run(asked, say):
    def answer(data):
        if asked.csv is None:
            print_figures(figures_of(data), asked.train)
        else:
            write_files(figures_of(data), asked.train, asked.csv, asked.file)
        return 0
    return for_file(asked.file, answer, say)
