"""What the pictures have in common: an empty one, its axes of distance and time, and how it is saved."""

import io
import logging
import sys
import warnings
from itertools import chain, count

from ..messages import Failure
from ..output import write_file

# The endings of pictures, with what is left out of each so that equal figures give equal bytes.
KINDS = {"svg": {"Date": None}, "png": {"Software": None}, "pdf": {"CreationDate": None}}
SETTINGS = {"svg.hashsalt": "vellumrill", "svg.fonttype": "none", "font.size": 9, "axes.titlesize": 11, "axes.spines.right": False,
            "axes.grid": True, "grid.color": "#e4e4e4", "grid.linewidth": 0.6, "axes.axisbelow": True}
DOTS_PER_INCH = 130
COLOURS = {"intercity": "#1f5fa8", "stopping": "#2b8a4b", "goods": "#a2591c"}
RED = "#c62828"
GREY = "#777777"
TICKS = (0.1, 0.25, 0.5, 1, 2, 5, 10, 15, 30, 60, 120, 240, 480)       # minutes between two ticks of an axis of time
DAY = 1440                              # the same for longer axes: a day, two, four ..
MOST_TICKS = 14
LONGEST_NAME = 70                       # letters of a title


def need_matplotlib():
    logging.getLogger("matplotlib").setLevel(logging.ERROR)     # it warns where it finds no folder for its settings
    try:
        import matplotlib.figure  # noqa: F401
    except ImportError as error:
        raise Failure(f"drawing needs matplotlib, and {sys.executable} cannot load it ({error}); on Debian,"
                      " `apt-get install python3-matplotlib` gives it to /usr/bin/python3. All other words work without it") from None


def empty(rows, width, height, ratios):
    """A figure with so many axes, one above the other, over the same distance."""
    import matplotlib
    from matplotlib.figure import Figure
    matplotlib.rcParams.update(SETTINGS)
    figure = Figure(figsize=(width, height), dpi=DOTS_PER_INCH, layout="constrained")
    return figure, figure.subplots(rows, 1, sharex=True, squeeze=False, height_ratios=ratios)[:, 0]


def minutes(microseconds):
    return microseconds / 60_000_000


def passages(train):
    """The places of the head in km and its times from the start on in microseconds; at a stop on the way, when it comes and when it
    leaves."""
    dwells, last = dict(train.given.pairs["stop"]), len(train.points) - 1
    for i, point in enumerate(train.points):
        yield point.position / 1000, point.arrival
        if i in dwells and 0 < i < last:
            yield point.position / 1000, point.arrival + 1_000_000 * dwells[i]


def tick(value, with_seconds):
    """Minutes as h:mm or h:mm:ss."""
    seconds = round(60 * value)
    return f"{seconds // 3600}:{seconds // 60 % 60:02}" + (f":{seconds % 60:02}" if with_seconds else "")


def show_time(axes, words, last, most_ticks=MOST_TICKS):
    """The axis of time, which ends with this minute."""
    from matplotlib.ticker import MultipleLocator
    between = next(between for between in chain(TICKS, (DAY << n for n in count())) if last <= between * most_ticks)
    with_seconds = between < 1
    axes.set_ylabel(f"{words}, {'h:mm:ss' if with_seconds else 'h:mm'}")
    axes.yaxis.set_major_locator(MultipleLocator(between))
    axes.yaxis.set_major_formatter(lambda value, position: tick(value, with_seconds))


def show_legend(axes, entries):
    """What the colours and lines stand for, below the axis of distance."""
    below = 0.55 / axes.get_figure().get_figheight() / axes.get_position().height
    axes.legend(handles=entries, loc="upper center", bbox_to_anchor=(0.5, -below), ncols=len(entries), fontsize=8, frameon=False)


def length_of(line):
    """The line's length in km."""
    return (line.sizes["points"] - 1) * line.sizes["step"] / 1000


def apart(entries, distance):
    """Those of the entries, each with its place in front, that have this distance from the one taken before."""
    last = None
    for entry in entries:
        if last is None or entry[0] >= last + distance:
            last = entry[0]
            yield entry


def show_distance(axes, line):
    axes.set_xlim(0, length_of(line))
    axes.set_xlabel("distance in km")


def show_blocks(axes, line):
    """The boundaries of the blocks as lines, and the numbers of the blocks above, as far as they find room."""
    step = line.sizes["step"]
    for place in sorted({point for block in line.pairs["block"] for point in block}):
        axes.axvline(place * step / 1000, color="#d0d0d0", linewidth=0.7, zorder=0.5)
    above = axes.secondary_xaxis("top")
    middles = [((start + end) * step / 2000, str(number)) for number, (start, end) in enumerate(line.pairs["block"], 1)]
    above.set_xticks(*zip(*apart(middles, 0.011 * length_of(line))), fontsize=7)
    above.tick_params(length=0, pad=1)
    above.set_xlabel("block", fontsize=8)


def show_title(axes, name, words):
    """The name of the file and what is shown of it. Letters that cannot be printed are shown as a question mark."""
    plain = "".join(letter if letter.isprintable() else "?" for letter in name)
    cut = plain if len(plain) <= LONGEST_NAME else plain[:LONGEST_NAME] + ".."
    axes.set_title(f"{cut}: {words}", parse_math=False)


def save(figure, name, kind):
    """Writes the picture; a file keeps what it had where this fails. Letters that the font lacks are no reason to warn."""
    picture = io.BytesIO()
    with warnings.catch_warnings():
        warnings.simplefilter("ignore")
        figure.savefig(picture, format=kind, metadata=KINDS[kind])
    write_file(name, picture.getvalue())
