"""The independent calculator as the tests ask it: its calls at one version. The tests take all of it from here."""
from functools import partial

import places  # noqa: F401
import calculator
from calculator import HEADER_LINE, PROGRAM_BOUND, Hold, Line, Refused, Sheet, Train, number_of  # noqa: F401
from calculator import open_call, padded, path_by_trying, path_call, sample_line  # noqa: F401
from header import version

VERSION = version()         # how many requests of document 02 are in force, from the first on, as the header says
POINT_SIZE = 25             # bytes of a point in the diagram

accepted_line = partial(calculator.accepted_line, version=VERSION)
add_call = partial(calculator.add_call, version=VERSION)
broken_rules = partial(calculator.broken_rules, version=VERSION)
caps = partial(calculator.caps, version=VERSION)
check_call = partial(calculator.check_call, version=VERSION)
diagram_call = partial(calculator.diagram_call, version=VERSION)
forward_row = partial(calculator.forward_row, version=VERSION)
headway_call = partial(calculator.headway_call, version=VERSION)
hold_call = partial(calculator.hold_call, version=VERSION)
parse = partial(calculator.parse, version=VERSION)
period_call = partial(calculator.period_call, version=VERSION)
program = partial(calculator.program, version=VERSION)
record_call = partial(calculator.record_call, version=VERSION)
write_line = partial(calculator.write_line, version=VERSION)


def sizes_of(line):
    """P, L, B and T."""
    return [line.P, line.L, len(line.block_starts), len(line.trains)]
