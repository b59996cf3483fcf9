"""All figures of a line file, from the calls of the library: each train's run, holds and start, and the sheet with all trains on it."""

from typing import NamedTuple

from . import calls, linetext
from .answers import DiagramPoint, Hold, Sheet


class TrainFigures(NamedTuple):
    number: int                         # counted from 1
    given: linetext.Train               # what the file says of the train
    start: int
    block: int                          # the block that fixes the start, or 0
    hold: Hold
    squared_speeds: list[int]
    points: list[DiagramPoint]

    @property
    def class_word(self):
        return linetext.class_word(self.given.train_class)

    @property
    def run(self):
        """The running time."""
        return int(self.points[-1].arrival)

    def clock_of(self, time):
        """A time from the train's start on, as the clock of the sheet has it."""
        return self.start + time


class LineFigures(NamedTuple):
    line: linetext.Line                 # what the file says of the line
    trains: list[TrainFigures]
    sheet: Sheet                        # with all trains on it


def train_figures(file, line, sheet, k):
    """The figures of train k, which is added to the sheet."""
    held = calls.hold(file, k)
    added = calls.add(sheet, held.hold)
    return TrainFigures(k + 1, line.trains[k], added.start, added.block, held.hold, held.run.squared_speeds, calls.diagram(file, k))


def figures_of(file: bytes) -> LineFigures:
    """The figures of an accepted file; another raises Refusal."""
    sizes = calls.sizes(file)
    line, sheet = linetext.from_bytes(file), calls.open_sheet(sizes.blocks)
    return LineFigures(line, [train_figures(file, line, sheet, k) for k in range(sizes.trains)], sheet)
