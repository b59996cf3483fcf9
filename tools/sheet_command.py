"""Prints the sheet of a line and its trains."""

from commands import Command, run

ABOUT = """\
Prints the sheet of a line and its trains: a line for each train, with its
number counted from 1, its start and its running time from there to the last
point, both in microseconds, and the block that it had to wait for, or 0.
"""

SHEET = Command("sheet", ABOUT, "the sheet is printed", lambda data, sheet: (sheet, 0))


def main(arguments):
    return run(SHEET, arguments)
