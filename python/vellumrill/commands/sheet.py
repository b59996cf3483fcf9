"""Prints the sheet of starts: each train's start, running time and the block
that fixed its start, or 0."""

from .. import calls, linetext
from ..inputs import spoken
from ..output import write_out
from ..readable import clock
from ..tables import aligned
from .asked import add_files, answered, for_each, print_lines

HELP = "the starts, running times and blocks named"
NOTES = """\
Times are printed as h:mm:ss and in microseconds. With --plain the sheet is
printed as the sheet program prints it: a line `train start run block`, then a
line for each train, with times in microseconds alone. The program's bound of
16,384 bytes does not count here: a longer file is refused by the rule it breaks.
"""
HEADER = ("train", "class", "start", "µs", "run", "µs", "block")


def add_arguments(parser):
    add_files(parser)
    parser.add_argument("--plain", action="store_true", help="the form of the sheet program")


def sheet_table(data):
    starts, runs, blocks = calls.rows(data)
    trains = linetext.from_bytes(data).trains
    return aligned(HEADER, [(number, linetext.class_word(train.train_class), clock(start), start, clock(run), run, block)
                            for number, (train, start, run, block) in enumerate(zip(trains, starts, runs, blocks), 1)])


def print_table(data):
    print_lines(sheet_table(data))
    return 0


def print_plain(data):
    write_out(calls.study(data).encode())
    return 0


def run(asked, say):
    def about(name, given):
        if len(asked.files) > 1:
            print_lines([f"{spoken(name)}:"])
        return answered(name, given, print_plain if asked.plain else print_table, say)
    return for_each(asked.files, about, say)
