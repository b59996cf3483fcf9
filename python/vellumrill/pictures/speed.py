"""The speed-distance diagram of a train, from the doubles of the diagram call."""

from ..readable import clock
from .drawing import COLOURS, GREY, RED, apart, empty, length_of, minutes, passages
from .drawing import show_blocks, show_distance, show_legend, show_time, show_title


def limit_steps(line):
    """Distances and speeds of the limits, each up to the next one."""
    step, last = line.sizes["step"], line.sizes["points"] - 1
    limits = line.pairs["limit"]
    ends = [point for point, _ in limits[1:]] + [last]
    distances = [place * step / 1000 for (point, _), end in zip(limits, ends) for place in (point, end)]
    return distances, [limit for _, limit in limits for _ in range(2)]


def draw_limits(axes, line):
    axes.plot(*limit_steps(line), color=GREY, linewidth=1.2, linestyle=(0, (5, 2)), label="limit", gid="limits")


def draw_run(axes, train, colour):
    distances = [point.position / 1000 for point in train.points]
    speeds = [point.speed / 100 for point in train.points]
    axes.plot(distances, speeds, color=colour, linewidth=1, gid="run")
    size = max(1.5, min(5.0, 900 / len(train.points)))
    for full, face, words in ((True, colour, "speed, exact"), (False, "white", "speed, rounded down")):
        dots = [(x, y) for x, y, point in zip(distances, speeds, train.points) if point.full == full]
        if dots:
            axes.plot(*zip(*dots), linestyle="none", marker="o", markersize=size, markerfacecolor=face, markeredgecolor=colour,
                      markeredgewidth=0.6, label=words, gid="full-dots" if full else "open-dots", clip_on=False)


def draw_stops(axes, line, train):
    stops = [(point * line.sizes["step"] / 1000, dwell) for point, dwell in train.given.pairs["stop"]]
    for number, (place, _) in enumerate(stops, 1):
        axes.axvline(place, color=RED, linewidth=0.9, alpha=0.7, gid=f"stop-{number}", label="stop" if number == 1 else None)
    for place, dwell in apart(stops, 0.035 * length_of(line)):
        axes.annotate(f"{dwell} s" if dwell else "stop", (place, 1), xycoords=("data", "axes fraction"), xytext=(3, -9),
                      textcoords="offset points", fontsize=7, color=RED)


def draw_times(axes, train, colour):
    """The passing times, with the dwells as steps."""
    places, times = zip(*passages(train))
    axes.plot(places, [minutes(time) for time in times], color=colour, linewidth=1.1, gid="times")
    axes.set_ylim(bottom=0)
    show_time(axes, "time", minutes(train.run), most_ticks=6)


def draw_speed(line, train, name):
    """The figure: speeds over the distance with limits and stops, and below it the times."""
    figure, (speeds, times) = empty(2, 12, 7, (3, 1))
    colour = COLOURS[train.class_word]
    draw_limits(speeds, line)
    draw_run(speeds, train, colour)
    draw_stops(speeds, line, train)
    show_blocks(speeds, line)
    speeds.set_ylabel("speed in km/h")
    speeds.set_ylim(bottom=0, top=1.12 * max(limit for _, limit in line.pairs["limit"]))
    show_title(speeds, name, f"train {train.number}, {train.class_word}, {train.given.sizes['length']} m, running time {clock(train.run)}")
    draw_times(times, train, colour)
    show_distance(times, line)
    show_legend(times, speeds.get_legend_handles_labels()[0])
    return figure
