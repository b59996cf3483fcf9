"""Asks the proved sheet program, and takes its answer apart."""

import re
import subprocess

from building import PROGRAM
from vellumrill import refusals
from vellumrill.inputs import given
from vellumrill.messages import Failure, end_of, reason

BOUND = 16_384                          # bytes; a longer line file is refused by the program, no rule checked

WHOLE_ANSWER = re.compile(rb"refused [0-9]+\n|train start run block\n(?:[0-9]+ [0-9]+ [0-9]+ [0-9]+\n)+")


def input_of(name):
    """The line file to ask about, cut behind the byte that passes the program's bound."""
    return given(name, BOUND)


def ask(data, program=PROGRAM.path):
    """What the program prints of a line file, known to be whole."""
    try:
        done = subprocess.run([program], input=data, capture_output=True)
    except OSError as error:
        raise Failure(f"the program cannot be run: {reason(error)}") from None
    if done.returncode or not WHOLE_ANSWER.fullmatch(done.stdout):
        raise Failure(f"the program gave no whole answer: it {end_of(done.returncode)}"
                      f" and printed {len(done.stdout)} bytes {done.stdout[:60]!r}")
    return done.stdout


def refusal_in(answer):
    """The number of a refusal, 0 for a sheet."""
    return int(answer.split()[1]) if answer.startswith(b"refused") else 0


def explanation(number, asked):
    """Why the program refused this input by this number, in words."""
    if number == 2 and len(asked.data) > BOUND:
        return f"the line file has more than {BOUND:,} bytes, so no rule was checked"
    return refusals.explanation(number, *asked)


def rows_in(sheet):
    """The train, start, run and block of each line."""
    return [tuple(map(int, line.split())) for line in sheet.splitlines()[1:]]
