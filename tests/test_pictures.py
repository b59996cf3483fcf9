#!/usr/bin/env python3
"""Tests the pictures of ./vellumrill plot against the figures of the independent calculator.

    python3 tests/test_pictures.py [--files N] [--seed N]

Pictures are looked at from outside, as SVG: what is drawn, and where. N accepted files are made at random from a seed, which is printed;
--seed sets it. matplotlib may be missing for this Python where Debian's has it, which the command then takes.
"""
import os
import random
import re
import resource
import struct
import subprocess
import sys
import tempfile
import unittest
from concurrent.futures import ThreadPoolExecutor
from functools import cache
from itertools import pairwise
from pathlib import Path
from statistics import linear_regression
from typing import NamedTuple
from xml.etree import ElementTree

sys.dont_write_bytecode = True

from knobs import take_options
from library import need_shared_object
from places import EXAMPLES, TOP_FOLDER
from some_files import packed, random_file, with_trains
from yardstick import POINT_SIZE, accepted_line, add_call, diagram_call, hold_call, open_call, sample_line, write_line

VELLUMRILL = TOP_FOLDER / "vellumrill"
SAMPLE = EXAMPLES / "sample.txt"
NAMES = ("sample.txt", "tunnel.txt", "valley.txt", "utrecht-geldermalsen.txt")
FILES = 3
SEED = 1
SECONDS = 60                            # that a run may take
SECOND = 1_000_000                      # microseconds
NEAR = 0.01                             # points of the picture, for what is drawn as it is
NEAR_LINE = 0.2                         # the same for a line of many corners, which matplotlib draws with fewer
SVG = "{http://www.w3.org/2000/svg}"
OLD = b"an old picture"


def setUpModule():
    need_shared_object()


def plot(*arguments, **options):
    """A run of ./vellumrill plot."""
    return subprocess.run([VELLUMRILL, "plot", *map(str, arguments)], stdin=subprocess.DEVNULL, capture_output=True, timeout=SECONDS,
                          **options)


# ------------------------------------------------------------ the calculator's figures

class TrainFigures(NamedTuple):
    given: object                       # the calculator's train
    start: int
    block: int
    begins: list                        # of the holds, on the sheet's clock
    ends: list
    points: list                        # position, speed, arrival and whether the dot is full

    def passages(self, line):
        """The places of the head in m and its times on the sheet's clock; at a stop on the way when it comes and when it leaves."""
        dwells = dict(zip(self.given.stops, self.given.dwells))
        for i, (position, _, arrival, _) in enumerate(self.points):
            yield position, self.start + arrival
            if 0 < i < line.P - 1 and i in dwells:
                yield position, self.start + arrival + dwells[i] * SECOND


def train_figures(data, line, sheet, k):
    hold = hold_call(data, k, [0] * line.P, [0] * line.P)
    start, block = add_call(sheet, hold)
    lent = bytearray(POINT_SIZE * line.P)
    diagram_call(data, k, lent)
    begins, ends = ([start + time for time in times[:hold.count]] for times in (hold.begins, hold.ends))
    return TrainFigures(line.trains[k], start, block, begins, ends, list(struct.iter_unpack("<dddB", lent)))


@cache
def calculated(data):
    """The line, and the figures of its trains."""
    line = accepted_line(data)
    sheet = open_call(len(line.block_ends))
    return line, [train_figures(data, line, sheet, k) for k in range(len(line.trains))]


# ------------------------------------------------------------ what a picture shows

def corners_of(path):
    return [(float(x), float(y)) for x, y in re.findall(r"[ML] (\S+) (\S+)", path.get("d"))]


def seconds_of(words):
    """The time of a tick: h:mm or h:mm:ss."""
    return sum(int(word) * unit for word, unit in zip(words.split(":"), (3600, 60, 1)))


class Picture:
    def __init__(self, data):
        self.root = ElementTree.fromstring(data)
        self.groups = {group.get("id"): group for group in self.root.iter(SVG + "g") if group.get("id")}

    def numbers(self, word):
        """What follows this word in the names of the groups."""
        return sorted(tuple(map(int, name.split("-")[1:])) for name in self.groups if re.fullmatch(word + "(-.*)?", name))

    def corners(self, name):
        """The corners of the only path in a group."""
        [path] = self.groups[name].iter(SVG + "path")
        return corners_of(path)

    def box(self, name):
        """The left, upper, right and lower edge."""
        xs, ys = zip(*self.corners(name))
        return min(xs), min(ys), max(xs), max(ys)

    def dots(self, name):
        return [(float(dot.get("x")), float(dot.get("y"))) for dot in self.groups[name].iter(SVG + "use")]

    def ticks(self, axes, letter):
        """The words and the places of the ticks on the axes' own axis x or y."""
        for axis in self.groups[axes]:
            for tick in axis if axis.get("id", "").startswith("matplotlib.axis_") else ():
                texts, marks = list(tick.iter(SVG + "text")), list(tick.iter(SVG + "use"))
                if tick.get("id", "").startswith(letter + "tick_") and texts and marks:
                    yield texts[0].text, float(marks[0].get(letter))

    def texts(self):
        return [text.text for text in self.root.iter(SVG + "text")]


def fitted(pairs):
    """The linear map that fits the pairs best."""
    slope, base = linear_regression(*zip(*pairs))
    return lambda value: slope * value + base


def height_on(corners, x):
    """The heights of a line's corners and pieces at this place: the uppermost and the lowest."""
    found = [y + (x - x1) / (x2 - x1) * (y2 - y) if x2 > x1 else bound
             for (x1, y), (x2, y2) in pairwise(corners) if x1 <= x <= x2 for bound in (y, y2)]
    return min(found), max(found)


def distance(place, corners):
    """How far a place lies from a line that runs to the right, if that is not far."""
    def to_piece(piece):
        (x1, y1), (x2, y2) = piece
        dx, dy = x2 - x1, y2 - y1
        along = ((place[0] - x1) * dx + (place[1] - y1) * dy) / (dx * dx + dy * dy or 1)
        along = min(1, max(0, along))
        return ((x1 + along * dx - place[0]) ** 2 + (y1 + along * dy - place[1]) ** 2) ** 0.5
    about = (piece for piece in pairwise(corners) if piece[0][0] - 1 <= place[0] <= piece[1][0] + 1)
    return min(map(to_piece, about), default=1)


# ------------------------------------------------------------ files and their pictures

class Drawn(NamedTuple):
    name: str
    line: object
    trains: list
    number: int                         # of the train that is drawn, or None
    picture: Picture

    def about(self):
        return f"{self.name}, train {self.number}, --seed {SEED}"


@cache
def files():
    """Names, and the bytes of the line files."""
    rng = random.Random(SEED)
    return {**{name: packed(name) for name in NAMES}, **{f"random {at}": random_file(rng) for at in range(FILES)},
            "one train": with_trains(1)}


def drawn(folder, name, number=None):
    """The picture of one of the files, of all its trains or of one."""
    source, out = Path(folder, name), Path(folder, f"{name} {number}.svg")
    source.write_bytes((EXAMPLES / name).read_bytes() if name in NAMES else files()[name])
    done = plot(source, "--out", out, *(["--train", number] if number else []))
    if (done.returncode, done.stdout, done.stderr) != (0, b"", b""):
        raise AssertionError(f"{name}: {done}")
    return Drawn(name, *calculated(files()[name]), number, Picture(out.read_bytes()))


def drawn_alone(data, number=None):
    """The picture of another file."""
    with tempfile.TemporaryDirectory() as folder:
        source, out = Path(folder, "file"), Path(folder, "a.svg")
        source.write_bytes(data)
        plot(source, "--out", out, *(["--train", number] if number else []))
        return Drawn("file", *calculated(data), number, Picture(out.read_bytes()))


def all_drawn(asked):
    """The same of many, drawn by as many processes as there are cores."""
    with tempfile.TemporaryDirectory() as folder, ThreadPoolExecutor(os.cpu_count()) as workers:
        return list(workers.map(lambda words: drawn(folder, *words), asked))


@cache
def sheets():
    return all_drawn([(name, None) for name in files()])


@cache
def diagrams():
    """Of each file the first or the last train."""
    counts = {name: len(accepted_line(data).trains) for name, data in files().items()}
    return all_drawn([(name, 1 if name in NAMES[::2] else count) for name, count in counts.items()])


class Pictures(unittest.TestCase):
    def check_near(self, place, wanted, near=NEAR):
        self.assertEqual(len(place), len(wanted))
        self.assertLess(max(abs(one - other) for one, other in zip(place, wanted)), near, (place, wanted))

    def check_line(self, corners, wanted):
        """A line begins and ends where it should, passes all these places, and has no corner elsewhere."""
        self.check_near(corners[0] + corners[-1], wanted[0] + wanted[-1], NEAR_LINE)
        for place in wanted:
            self.assertLess(distance(place, corners), NEAR_LINE)
        for corner in corners:
            self.assertLess(distance(corner, wanted), NEAR_LINE)


# ------------------------------------------------------------ the picture of the sheet

def boxes_with_figures(one):
    """The edges of each box, and its block in m and hold in microseconds, as (begin, end) each."""
    for number, train in enumerate(one.trains, 1):
        for block, hold in enumerate(zip(one.line.block_starts, one.line.block_ends, train.begins, train.ends), 1):
            start, end, begin, close = hold
            yield one.picture.box(f"hold-{number}-{block}"), (start * one.line.L, begin, end * one.line.L, close)


def maps_of(one):
    """The maps from m to x and from microseconds to y that fit all boxes best."""
    found = list(boxes_with_figures(one))
    across, down = ([(figures[at + side], box[at + side]) for box, figures in found for side in (0, 2)] for at in (0, 1))
    return fitted(across), fitted(down)


class SheetPictures(Pictures):
    def test_parts(self):
        """A box for each train and block, a path for each train, a bar where a block fixes the start, and no others."""
        for one in sheets():
            with self.subTest(one.about()):
                trains, blocks = range(1, len(one.trains) + 1), range(1, len(one.line.block_ends) + 1)
                self.assertEqual(one.picture.numbers("hold"), [(number, block) for number in trains for block in blocks])
                self.assertEqual(one.picture.numbers("path"), [(number,) for number in trains])
                self.assertEqual(one.picture.numbers("binding"), [(number,) for number in trains if one.trains[number - 1].block])

    def test_boxes_stand_where_the_figures_say(self):
        for one in sheets():
            with self.subTest(one.about()):
                x_of, y_of = maps_of(one)
                for box, (start, begin, end, close) in boxes_with_figures(one):
                    self.check_near(box, (x_of(start), y_of(begin), x_of(end), y_of(close)))
                self.assertLess(x_of(0), x_of(1))
                self.assertLess(y_of(0), y_of(1))       # time runs downwards

    def test_boxes_have_four_corners(self):
        for one in sheets():
            with self.subTest(one.about()):
                for number, block in one.picture.numbers("hold"):
                    name = f"hold-{number}-{block}"
                    left, top, right, bottom = one.picture.box(name)
                    self.assertEqual(set(one.picture.corners(name)), {(x, y) for x in (left, right) for y in (top, bottom)})

    def test_nothing_is_cut_off(self):
        """All that is drawn lies between the axes."""
        for one in sheets():
            with self.subTest(one.about()):
                left, top, right, bottom = one.picture.box("patch_2")
                for name in one.picture.groups:
                    if re.match("(hold|path|binding)-", name):
                        for x, y in one.picture.corners(name):
                            self.assertTrue(left - NEAR <= x <= right + NEAR and top - NEAR <= y <= bottom + NEAR, (name, x, y))

    def test_no_overlap(self):
        """In every block each train's box ends, in the picture, before or where the next one's begins."""
        for one in sheets():
            with self.subTest(one.about()):
                for block in range(1, len(one.line.block_ends) + 1):
                    boxes = [one.picture.box(f"hold-{number}-{block}") for number in range(1, len(one.trains) + 1)]
                    for (_, _, _, lower), (_, upper, _, _) in pairwise(boxes):
                        self.assertLess(lower, upper + NEAR)

    def test_bars_lie_where_boxes_touch(self):
        for one in sheets():
            with self.subTest(one.about()):
                for [number] in one.picture.numbers("binding"):
                    block = one.trains[number - 1].block
                    left, top, right, bottom = one.picture.box(f"binding-{number}")
                    self.assertEqual(top, bottom)
                    self.check_near((left, top, right), one.picture.box(f"hold-{number}-{block}")[:3])
                    before = one.picture.box(f"hold-{number - 1}-{block}")
                    self.check_near((left, right, bottom), (before[0], *before[2:]))
                    self.assertIn(f"{number}: block {block}", one.picture.texts())

    def test_paths_follow_the_arrivals(self):
        for one in sheets():
            with self.subTest(one.about()):
                x_of, y_of = maps_of(one)
                for number, train in enumerate(one.trains, 1):
                    wanted = [(x_of(place), y_of(time)) for place, time in train.passages(one.line)]
                    self.check_line(one.picture.corners(f"path-{number}"), wanted)

    def test_head_is_in_a_block_only_while_it_is_held(self):
        for one in sheets():
            with self.subTest(one.about()):
                for number, block in one.picture.numbers("hold"):
                    left, top, right, bottom = one.picture.box(f"hold-{number}-{block}")
                    path = one.picture.corners(f"path-{number}")
                    inside = (right - left) / 1000
                    enters, leaves = height_on(path, left + inside)[0], height_on(path, right - inside)[1]
                    self.assertLess(top - NEAR_LINE, enters)
                    self.assertLess(leaves, bottom + NEAR_LINE)

    def test_ticks_of_distance_tell_the_truth(self):
        for one in sheets():
            with self.subTest(one.about()):
                ticks, (x_of, _) = list(one.picture.ticks("axes_1", "x")), maps_of(one)
                self.assertGreater(len(ticks), 2)
                for words, place in ticks:
                    self.check_near([place], [x_of(1000 * float(words))])

    def check_ticks_of_time(self, one):
        ticks, (_, y_of) = list(one.picture.ticks("axes_1", "y")), maps_of(one)
        self.assertGreater(len(ticks), 2 if one.name in NAMES else 0)
        for words, place in ticks:
            self.check_near([place], [y_of(SECOND * seconds_of(words))])

    def test_ticks_of_time_tell_the_truth(self):
        for one in sheets():
            with self.subTest(one.about()):
                self.check_ticks_of_time(one)

    def test_ticks_of_nineteen_minutes(self):
        """Ticks every 2.5 minutes would not be whole minutes."""
        self.check_ticks_of_time(drawn_alone(with_trains(20)))

    def test_titles(self):
        for one in sheets():
            with self.subTest(one.about()):
                self.assertIn(f"{one.name}: {len(one.trains)} train{'s' if len(one.trains) > 1 else ''}", one.picture.texts())


# ------------------------------------------------------------ the picture of a train

class SpeedPictures(Pictures):
    def maps(self, one):
        """The maps from m to x and from hundredths of a km/h to y that the ticks tell; those of distance stand at the lower axes."""
        across, up = list(one.picture.ticks("axes_3", "x")), list(one.picture.ticks("axes_1", "y"))
        for ticks in (across, up):
            self.assertGreater(len(ticks), 2)
        return fitted([(1000 * float(words), place) for words, place in across]), \
            fitted([(100 * float(words), place) for words, place in up])

    def test_dots(self):
        """The full and the open dots are those of the calculator's diagram, each at its place."""
        for one in diagrams():
            with self.subTest(one.about()):
                x_of, y_of = self.maps(one)
                for name, kind in (("full-dots", 1), ("open-dots", 0)):
                    points = [point for point in one.trains[one.number - 1].points if point[3] == kind]
                    wanted = [(x_of(position), y_of(speed)) for position, speed, _, _ in points]
                    found = one.picture.dots(name) if name in one.picture.groups else []
                    self.assertEqual(len(found), len(wanted))
                    for dot, place in zip(sorted(found), sorted(wanted)):
                        self.check_near(dot, place)

    def test_both_kinds_of_dots_are_drawn_otherwise(self):
        [one] = [one for one in diagrams() if (one.name, one.number) == ("valley.txt", 1)]
        faces = [re.search("fill: ([^;]*)", next(one.picture.groups[name].iter(SVG + "use")).get("style"))[1]
                 for name in ("full-dots", "open-dots")]
        self.assertEqual(faces[1], "#ffffff")
        self.assertNotEqual(*faces)

    def test_run_joins_the_dots(self):
        for one in diagrams():
            with self.subTest(one.about()):
                x_of, y_of = self.maps(one)
                wanted = [(x_of(position), y_of(speed)) for position, speed, _, _ in one.trains[one.number - 1].points]
                self.check_line(one.picture.corners("run"), wanted)

    def test_stops(self):
        """A line for each stop, at its place, over the whole height of the axes."""
        for one in diagrams():
            with self.subTest(one.about()):
                x_of, _ = self.maps(one)
                stops = one.trains[one.number - 1].given.stops
                _, top, _, bottom = one.picture.box("patch_2")
                self.assertEqual(one.picture.numbers("stop"), [(number,) for number in range(1, len(stops) + 1)])
                for number, point in enumerate(stops, 1):
                    x = x_of(point * one.line.L)
                    self.check_near(one.picture.box(f"stop-{number}"), (x, top, x, bottom))

    def test_limits(self):
        for one in diagrams():
            with self.subTest(one.about()):
                x_of, y_of = self.maps(one)
                ends = [*one.line.limit_points[1:], one.line.P - 1]
                wanted = [(x_of(place * one.line.L), y_of(100 * limit))
                          for point, limit, end in zip(one.line.limit_points, one.line.limits, ends) for place in (point, end)]
                self.check_line(one.picture.corners("limits"), wanted)

    def test_nothing_is_cut_off(self):
        """Neither dots nor limits lie beyond the axes, and no speed lies above the limits."""
        for one in diagrams():
            with self.subTest(one.about()):
                left, top, right, bottom = one.picture.box("patch_2")
                highest = one.picture.box("limits")[1]
                dots = [dot for name in ("full-dots", "open-dots") if name in one.picture.groups for dot in one.picture.dots(name)]
                for x, y in dots + one.picture.corners("limits"):
                    self.assertTrue(left - NEAR <= x <= right + NEAR and highest - NEAR <= y <= bottom + NEAR)
                self.assertLess(top, highest)

    def test_speeds_have_their_room(self):
        """Also where all dots are full, as of the tunnel's trains."""
        for one in diagrams():
            with self.subTest(one.about()):
                _, top, _, bottom = one.picture.box("patch_2")
                self.assertGreater(bottom - top, 250)

    def test_times(self):
        """The line of times below: one map from the calculator's times to heights, time running upwards from 0."""
        for one in diagrams():
            with self.subTest(one.about()):
                train, corners = one.trains[one.number - 1], one.picture.corners("times")
                x_of = self.maps(one)[0]
                places, times = zip(*((place, time - train.start) for place, time in train.passages(one.line)))
                y_of = fitted([(0, corners[0][1]), (times[-1], corners[-1][1])])
                self.check_line(corners, [(x_of(place), y_of(time)) for place, time in zip(places, times)])
                self.assertLess(y_of(1), y_of(0))

    def check_ticks_of_time(self, one):
        corners, run = one.picture.corners("times"), one.trains[one.number - 1].points[-1][2]
        y_of = fitted([(0, corners[0][1]), (run, corners[-1][1])])
        ticks = list(one.picture.ticks("axes_3", "y"))
        self.assertGreater(len(ticks), 1 if one.name in NAMES else 0)
        for words, place in ticks:
            self.check_near([place], [y_of(SECOND * seconds_of(words))], NEAR_LINE)

    def test_ticks_of_time_tell_the_truth(self):
        for one in diagrams():
            with self.subTest(one.about()):
                self.check_ticks_of_time(one)

    def test_ticks_of_ten_minutes(self):
        """Ticks every 2.5 minutes would not be whole minutes."""
        line = sample_line()
        line.trains[0].stops, line.trains[0].dwells = [0, 3], [0, 520]
        self.check_ticks_of_time(drawn_alone(write_line(line), 1))

    def test_ticks_of_less_than_a_second(self):
        line = sample_line()
        line.L = 1
        for train in line.trains:
            train.length, train.stops, train.dwells = 1, [], []
        self.check_ticks_of_time(drawn_alone(write_line(line), 1))


# ------------------------------------------------------------ files that are written, and what is told

class Files(unittest.TestCase):
    def setUp(self):
        folder = tempfile.TemporaryDirectory()
        self.addCleanup(folder.cleanup)
        self.folder = Path(folder.name)

    def check_failed(self, done, status, words, out=None):
        """The status and a sentence, no traceback; an old picture keeps its bytes, and no new file is left."""
        self.assertEqual(done.returncode, status, done)
        self.assertIn(words, done.stderr.decode())
        self.assertNotIn(b"Traceback", done.stderr)
        self.assertEqual([path for path in self.folder.iterdir() if path != out], [])
        if out:
            self.assertEqual(out.read_bytes(), OLD)

    def old_picture(self, name="a.svg"):
        out = self.folder / name
        out.write_bytes(OLD)
        return out

    def test_png(self):
        for train in ([], ["--train", 2]):
            out = self.folder / "a.png"
            self.assertEqual(plot(SAMPLE, "--out", out, *train).returncode, 0)
            data = out.read_bytes()
            self.assertEqual((data[:8], data[12:16], data[-8:-4]), (b"\x89PNG\r\n\x1a\n", b"IHDR", b"IEND"))
            width, height = struct.unpack(">II", data[16:24])
            self.assertTrue(width >= 1000 and height >= 600, (width, height))

    def test_pdf(self):
        out = self.folder / "a.pdf"
        self.assertEqual(plot(EXAMPLES / "valley.txt", "--out", out).returncode, 0)
        data = out.read_bytes()
        self.assertTrue(data.startswith(b"%PDF-1.") and data.rstrip().endswith(b"%%EOF"))

    def test_same_file_gives_same_bytes(self):
        places = [self.folder / f"{name}.{ending}" for ending in ("svg", "pdf") for name in "ab"]
        with ThreadPoolExecutor(os.cpu_count()) as workers:
            self.assertEqual([done.returncode for done in workers.map(lambda place: plot(SAMPLE, "--out", place), places)], [0] * 4)
        one, again, other, another = (place.read_bytes() for place in places)
        self.assertEqual((one, other), (again, another))

    def test_old_picture_is_replaced_and_keeps_its_rights(self):
        """The ending may stand in capitals."""
        out = self.old_picture("a.SVG")
        out.chmod(0o640)
        self.assertEqual(plot(SAMPLE, "--out", out).returncode, 0)
        self.assertIn("path-2", Picture(out.read_bytes()).groups)
        self.assertEqual((out.stat().st_mode & 0o7777, list(self.folder.iterdir())), (0o640, [out]))

    def test_standard_input(self):
        out = self.folder / "a.svg"
        done = subprocess.run([VELLUMRILL, "plot", "-", "--out", out], input=packed("tunnel.txt"), capture_output=True, timeout=SECONDS)
        self.assertEqual((done.returncode, done.stdout, done.stderr), (0, b"", b""))
        self.assertEqual(len(Picture(out.read_bytes()).numbers("hold")), 3 * 8)

    def test_unknown_ending(self):
        for name in ("a.jpg", "svg", "a.svg.gz"):
            self.check_failed(plot(SAMPLE, "--out", self.folder / name), 2, "it has to end in .svg, .png or .pdf")
        out = self.old_picture("a.txt")
        self.check_failed(plot(SAMPLE, "--out", out), 2, f"{out} is no name of a picture", out)

    def test_missing_out(self):
        self.check_failed(plot(SAMPLE), 2, "the following arguments are required: --out")
        self.check_failed(plot(SAMPLE, "--out"), 2, "argument --out: expected one argument")

    def test_no_such_train(self):
        out = self.old_picture()
        for number in (0, 3, -1):
            done = plot(SAMPLE, "--out", out, f"--train={number}")
            self.check_failed(done, 2, f"vellumrill: there is no train {number}: the file has trains 1 to 2\n", out)
        self.check_failed(plot(SAMPLE, "--out", out, "--train", "x"), 2, "invalid int value: 'x'", out)

    def test_refused_file(self):
        out = self.old_picture()
        with tempfile.TemporaryDirectory() as folder:
            bad = Path(folder, "bad.txt")
            bad.write_text(SAMPLE.read_text().replace("length 100", "length 101"))
            for train in ([], ["--train", 9]):
                done = plot(bad, "--out", out, *train)
                self.assertEqual(done.stdout, b"refused 9\n")
                self.check_failed(done, 1, "bad.txt: explanation of refused 9: ", out)

    def test_file_that_cannot_be_read(self):
        out = self.old_picture()
        self.check_failed(plot("/no/such", "--out", out), 2, "vellumrill: /no/such cannot be read: No such file or directory\n", out)

    def test_folder_that_is_not_there(self):
        out = self.folder / "no" / "a.svg"
        self.check_failed(plot(SAMPLE, "--out", out), 2, f"vellumrill: {out} was not written: No such file or directory\n")

    def test_picture_that_is_not_written(self):
        """A write that fails half-way leaves the old picture as it was, and nothing beside it."""
        out = self.old_picture()
        done = plot(SAMPLE, "--out", out, preexec_fn=lambda: resource.setrlimit(resource.RLIMIT_FSIZE, (5000, 5000)))
        self.check_failed(done, 2, f"vellumrill: {out} was not written: File too large\n", out)

    def test_folder_in_place_of_a_picture(self):
        with tempfile.TemporaryDirectory(suffix=".svg") as folder:
            self.check_failed(plot(SAMPLE, "--out", folder), 2, "was not written: Is a directory\n")


TITLES = {"signs": "Zürich a--b & <c> %d {x} _y^2.txt".encode(), "dollars": b"5$ or 6_$.txt", "bytes": b"a\xff.txt",
          "control": b"a\x01.txt", "letters": "東京.txt".encode()}


@cache
def titled():
    """A run for a copy of the sample of each of these names, and what it wrote."""
    def ran(name):
        with tempfile.TemporaryDirectory() as folder:
            source, out = Path(folder, os.fsdecode(name)), Path(folder, "a.svg")
            source.write_bytes(SAMPLE.read_bytes())
            return plot(source, "--out", out), out.read_bytes() if out.exists() else b""
    with ThreadPoolExecutor(os.cpu_count()) as workers:
        return dict(zip(TITLES, workers.map(ran, TITLES.values())))


class Titles(unittest.TestCase):
    """The name of the file is the title, whatever it holds."""

    def check(self, word, title):
        done, data = titled()[word]
        self.assertEqual((done.returncode, done.stderr[-300:]), (0, b""))
        self.assertTrue(any(title in text for text in Picture(data).texts() if text))

    def test_letters_and_signs(self):
        self.check("signs", "Zürich a--b & <c> %d {x} _y^2.txt: 2 trains")

    def test_dollars(self):
        self.check("dollars", "5$ or 6_$.txt: 2 trains")

    def test_bytes_that_are_no_utf_8(self):
        self.check("bytes", ".txt: 2 trains")

    def test_control_characters(self):
        self.check("control", ".txt: 2 trains")

    def test_letters_that_the_font_has_not(self):
        self.check("letters", "東京.txt: 2 trains")


class WithoutMatplotlib(unittest.TestCase):
    """Python with -S leaves out installed packages."""

    def ran(self, *words):
        return subprocess.run([sys.executable, "-B", "-S", "-m", "vellumrill", *map(str, words)], stdin=subprocess.DEVNULL,
                              capture_output=True, timeout=SECONDS, env={**os.environ, "PYTHONPATH": str(TOP_FOLDER / "python")})

    def test_message(self):
        with tempfile.TemporaryDirectory() as folder:
            for train in ([], ["--train", 1]):
                done = self.ran("plot", SAMPLE, "--out", Path(folder, "a.svg"), *train)
                self.assertEqual((done.returncode, done.stdout), (2, b""))
                for words in ("vellumrill: drawing needs matplotlib", "apt-get install python3-matplotlib", "All other words work without"):
                    self.assertIn(words, done.stderr.decode())
                self.assertEqual((done.stderr.count(b"\n"), list(Path(folder).iterdir())), (1, []))

    def test_other_words_work(self):
        with tempfile.TemporaryDirectory() as folder:
            for words in (["sheet", SAMPLE], ["headway", SAMPLE], ["check", SAMPLE], ["figures", SAMPLE], ["period", SAMPLE],
                          ["figures", SAMPLE, "--csv", folder], ["batch", EXAMPLES, "--csv", Path(folder, "a.csv")], ["plot", "--help"]):
                done = self.ran(*words)
                self.assertEqual((done.returncode, b"Traceback" in done.stderr), (0, False), done)


if __name__ == "__main__":
    FILES, SEED = take_options(FILES)
    unittest.main()
