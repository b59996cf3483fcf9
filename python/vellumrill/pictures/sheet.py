"""The time-distance picture of a sheet: each train's path and blocking times, and the block that fixes each start."""

from ..readable import counted
from .drawing import COLOURS, GREY, RED, empty, minutes, passages, show_blocks, show_distance, show_legend, show_time, show_title

PALE = 0.28                             # how much colour a box has


def draw_holds(axes, line, train, colour):
    """A box for each block: its width the block, its height the time for which the train holds it."""
    from matplotlib.colors import to_rgba
    from matplotlib.patches import Rectangle
    step, face = line.sizes["step"], to_rgba(colour, PALE)
    for block, ((start, end), begin, close) in enumerate(zip(line.pairs["block"], *train.hold), 1):
        low, high = minutes(train.clock_of(begin)), minutes(train.clock_of(close))
        axes.add_patch(Rectangle((start * step / 1000, low), (end - start) * step / 1000, high - low, facecolor=face,
                                 edgecolor=colour, linewidth=0.6, gid=f"hold-{train.number}-{block}"))


def draw_path(axes, train, colour):
    """The path of the head, the train's number before it, and behind it the block that fixes the start."""
    places, times = zip(*((place, minutes(train.clock_of(time))) for place, time in passages(train)))
    axes.plot(places, times, color=colour, linewidth=1.3, gid=f"path-{train.number}")
    axes.annotate(f"{train.number}", (places[0], times[0]), xytext=(-4, 0), textcoords="offset points", ha="right", va="center",
                  fontsize=8, color=colour, fontweight="bold", annotation_clip=False)
    if train.block:
        axes.annotate(f"{train.number}: block {train.block}", (places[-1], times[-1]), xytext=(4, 0), textcoords="offset points",
                      va="center", fontsize=7, color=RED, annotation_clip=False)


def draw_binding(axes, line, train):
    """A bar where the train comes to the block that fixes its start, just when the train before it has left."""
    if train.block:
        start, end = (point * line.sizes["step"] / 1000 for point in line.pairs["block"][train.block - 1])
        time = minutes(train.clock_of(train.hold.begins[train.block - 1]))
        axes.plot([start, end], [time, time], color=RED, linewidth=3, solid_capstyle="butt", gid=f"binding-{train.number}", zorder=4)


def legend_entries(figures):
    from matplotlib.lines import Line2D
    from matplotlib.patches import Patch
    classes = sorted({train.class_word for train in figures.trains}, key=list(COLOURS).index)
    entries = [Line2D([], [], color=COLOURS[word], linewidth=1.3, label=word) for word in classes]
    entries.append(Patch(facecolor=GREY, alpha=PALE, edgecolor=GREY, label="hold of a block"))
    if any(train.block for train in figures.trains):
        entries.append(Line2D([], [], color=RED, linewidth=3, label="block that fixes the start"))
    return entries


def draw_sheet(figures, name):
    """The figure, time running downwards."""
    line, trains = figures.line, figures.trains
    figure, (axes,) = empty(1, 12, max(8, 4 + 0.5 * len(trains)), (1,))
    show_blocks(axes, line)
    show_distance(axes, line)
    for train in trains:
        colour = COLOURS[train.class_word]
        draw_holds(axes, line, train, colour)
        draw_path(axes, train, colour)
        draw_binding(axes, line, train)
    last = minutes(max(figures.sheet.free[:figures.sheet.blocks] + [train.clock_of(train.run) for train in trains]))
    axes.set_ylim(1.01 * last, 0)
    show_time(axes, "time on the sheet", last)
    axes.tick_params(axis="y", pad=14)
    show_legend(axes, legend_entries(figures))
    show_title(axes, name, counted(len(trains), "train"))
    return figure
