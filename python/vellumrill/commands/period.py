"""Prints the shortest time after which all trains of the sheet can run once
more, round behind round, its percentage of an hour, and the block that binds."""

from .. import calls
from ..figures import figures_of
from ..readable import clock
from .asked import add_file, for_file, print_lines

HELP = "the shortest repeat of the sheet, and what binds it"
NOTES = """\
In a block that binds, the first train of the next round comes just when the
last train of this one has left it. A shorter period would make the two overlap.
"""


def add_arguments(parser):
    add_file(parser)


def binding_blocks(sheet, period):
    """The blocks, counted from 1, of which the free time less the first train's beginning is the period."""
    return [block for block, (free, first) in enumerate(zip(sheet.free, sheet.first), 1)
            if block <= sheet.blocks and free - first == period]


def block_line(figures, block):
    start, end = figures.line.pairs["block"][block - 1]
    free, first = figures.sheet.free[block - 1], figures.sheet.first[block - 1]
    return (f"binds    block {block}, from point {start} to {end}: train 1 holds it from {clock(first)} on,"
            f" train {len(figures.trains)} up to {clock(free)}")


def period_lines(figures):
    period, percent = calls.period(figures.sheet)
    return [f"period   {clock(period)} ({period} µs)", f"percent  {percent} % of an hour",
            *(block_line(figures, block) for block in binding_blocks(figures.sheet, period))]


def print_period(data):
    print_lines(period_lines(figures_of(data)))
    return 0


def run(asked, say):
    return for_file(asked.file, print_period, say)
