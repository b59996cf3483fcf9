"""Prints the headway of the last two trains in whole seconds, as a panel shows
it: how long after the first of the two the second may start, if only these two
run."""

from .. import calls
from ..readable import seconds_up
from .asked import add_file, for_file, print_lines

HELP = "the headway of the last two trains, for a panel"
NOTES = """\
It is rounded up: a headway rounded down would be one that the line does not
have. A file with one train has no headway, and ends with status 3.
"""
ONE_TRAIN = 3
NO_HEADWAY = "one train, so no headway"


def add_arguments(parser):
    add_file(parser)


def last_headway(data):
    """The headway of the last two trains in microseconds; None if there is one train."""
    trains = calls.sizes(data).trains
    if trains == 1:
        return None
    first, second = (calls.hold(data, k).hold for k in (trains - 2, trains - 1))
    return calls.headway(first, second)


def print_headway(data):
    headway = last_headway(data)
    print_lines([NO_HEADWAY if headway is None else seconds_up(headway)])
    return ONE_TRAIN if headway is None else 0


def run(asked, say):
    return for_file(asked.file, print_headway, say)
