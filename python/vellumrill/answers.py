"""What the calls take and give. Times are whole microseconds."""

from dataclasses import dataclass
from typing import NamedTuple


class RecordPlace(NamedTuple):
    """Where a train's record stands in the file: its first byte, counted from 0, and how many bytes it has."""
    start: int
    length: int


class Sizes(NamedTuple):
    """The points of a line, its step in m, its blocks and its trains."""
    points: int
    step: int
    blocks: int
    trains: int


class Run(NamedTuple):
    """An entry for each point of the line: the squared speeds, in squares of hundredths of a km/h, and the arrivals, from the train's start
    on."""
    squared_speeds: list[int]
    arrivals: list[int]


class Hold(NamedTuple):
    """A hold record. An entry for each block: when the train's hold of it begins and ends, from the train's start on."""
    begins: list[int]
    ends: list[int]


class Held(NamedTuple):
    """The hold record of a train, and its run."""
    hold: Hold
    run: Run


class DiagramPoint(NamedTuple):
    """A point of the speed-distance diagram: its position in m from the first point, the speed in hundredths of a km/h, which is the root
    of the squared speed, and the arrival, from the train's start on. Each is a whole number, so that turning it back loses nothing. The dot
    is full where the squared speed is the square of that speed, and open where the speed was rounded down."""
    position: float
    speed: float
    arrival: float
    full: bool


@dataclass
class Sheet:
    """The sheet of starts: how many blocks and trains it has, when each block is free again, and the first train's beginnings. The lists
    have 32 places; those beyond the block count are not used."""
    blocks: int
    trains: int
    free: list[int]
    first: list[int]


class Added(NamedTuple):
    """The least start of an added train, and the block named, counted from 1, or 0 if the start is 0."""
    start: int
    block: int


class Period(NamedTuple):
    """The period of a sheet, and its percentage of 3,600 s, rounded to the nearest, halves up."""
    period: int
    percent: int


class Path(NamedTuple):
    """The start of a path for one more train, and how many placed trains come before it."""
    start: int
    before: int


class Rows(NamedTuple):
    """An entry for each train of a file: its start, its running time, which is the arrival at the last point, and the block named, counted
    from 1, or 0."""
    starts: list[int]
    runs: list[int]
    blocks: list[int]
