"""Prints the headway of the last two trains of a line."""

from commands import Command, run
from pairs import last_headway
from vellumrill.commands.headway import NO_HEADWAY, ONE_TRAIN
from vellumrill.readable import seconds_up

ABOUT = """\
Prints the headway of the last two trains of a line, in whole seconds: how long
after the first of the two the second may start, if only these two run. It is
the second's start on a sheet of the two, rounded up: a headway rounded down
would be one that the line does not have.
"""


def answer(data, sheet):
    """What is printed of an accepted file, and the exit status."""
    headway = last_headway(data)
    if headway is None:
        return f"{NO_HEADWAY}\n".encode(), ONE_TRAIN
    return b"%d\n" % seconds_up(headway), 0


HEADWAY = Command("headway", ABOUT, "the headway is printed", answer, "  3    the file has one train, so no headway\n")


def main(arguments):
    return run(HEADWAY, arguments)
