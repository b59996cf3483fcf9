"""Draws the time-distance picture of the whole sheet, with each train's blocking
times and the block that fixes each start; or with --train the speed-distance
diagram of one train, with its limits and stops."""

import os
from pathlib import Path

from ..figures import figures_of
from ..inputs import spoken
from ..messages import Failure
from ..pictures import drawing
from ..pictures.sheet import draw_sheet
from ..pictures.speed import draw_speed
from .asked import add_file, for_file
from .figures import chosen

HELP = "pictures: the sheet in time and distance, the speed of a train"
NOTES = """\
Needs matplotlib, on Debian the package python3-matplotlib.

In the picture of the sheet a box is the hold of a block: its width is the
block, its height the time for which the train holds it. Boxes of two trains
touch where the second waits for the first; the block that fixed the start has a
bar there. In the picture of a train a full dot is a speed that is exact, an
open one a speed that was rounded down.
"""


def add_arguments(parser):
    add_file(parser)
    parser.add_argument("--out", metavar="PICTURE", required=True, help="the picture: a name that ends in .svg, .png or .pdf")
    parser.add_argument("--train", metavar="N", type=int, help="the speed-distance diagram of this train, counted from 1")


def kind_of(name):
    kind = Path(name).suffix.lower().removeprefix(".")
    if kind not in drawing.KINDS:
        raise Failure(f"{name} is no name of a picture: it has to end in .svg, .png or .pdf")
    return kind


def picture_of(data, name, number):
    figures = figures_of(data)
    if number is None:
        return draw_sheet(figures, name)
    [train] = chosen(figures, number)
    return draw_speed(figures.line, train, name)


def run(asked, say):
    kind = kind_of(asked.out)
    drawing.need_matplotlib()

    def answer(data):
        drawing.save(picture_of(data, os.path.basename(spoken(asked.file)), asked.train), asked.out, kind)
        return 0
    return for_file(asked.file, answer, say)
