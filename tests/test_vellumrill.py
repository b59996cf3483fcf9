#!/usr/bin/env python3
"""Tests the words sheet, headway, check, figures and period of the command ./vellumrill against the independent calculator, and what it
says of wrong usage and input."""
import csv
import os
import random
import struct
import subprocess
import sys
import tempfile
import unittest
from pathlib import Path

sys.dont_write_bytecode = True

from library import need_shared_object
from places import EXAMPLES, TOP_FOLDER
from some_files import packed, random_file, with_trains
from yardstick import POINT_SIZE, VERSION, accepted_line, add_call, diagram_call, headway_call, hold_call, open_call, parse
from yardstick import period_call, program

from vellumrill.readable import clock, kilometres, kmh
from vellumrill.commands import figures as figures_word
from vellumrill.commands.period import binding_blocks
from vellumrill.linetext import CLASS_NAMES

COMMAND = TOP_FOLDER / "vellumrill"
WORDS = ("sheet", "headway", "check", "figures", "period", "plot", "batch")
SECONDS = 60
SECOND = 1_000_000


def setUpModule():
    need_shared_object()


def vellumrill(*arguments, **options):
    """A run of the command."""
    options.setdefault("stdout", subprocess.PIPE)
    return subprocess.run([COMMAND, *arguments], stderr=subprocess.PIPE, timeout=SECONDS, **options)


def calculated(data):
    """The holds, the sheet with all trains, and the rows of the calculator."""
    line = accepted_line(data)
    holds = [hold_call(data, k, [0] * line.P, [0] * line.P) for k in range(len(line.trains))]
    sheet = open_call(holds[0].count)
    for hold in holds:
        add_call(sheet, hold)
    return holds, sheet, [tuple(map(int, row.split())) for row in program(data).splitlines()[1:]]


def diagram(data, k):
    lent = bytearray(POINT_SIZE * accepted_line(data).P)
    diagram_call(data, k, lent)
    return list(struct.iter_unpack("<dddB", lent))


def columns(text):
    """The cells of each line of a table, without its header."""
    return [line.split() for line in text.splitlines()[1:]]


class InFolder(unittest.TestCase):
    def setUp(self):
        folder = tempfile.TemporaryDirectory()
        self.addCleanup(folder.cleanup)
        self.folder = Path(folder.name)

    def put(self, name, data):
        path = self.folder / name
        path.write_bytes(data if isinstance(data, bytes) else data.encode())
        return path

    def check_done(self, done, printed=None):
        self.assertEqual((done.returncode, done.stderr), (0, b""))
        if printed is not None:
            self.assertEqual(done.stdout, printed)
        return done.stdout.decode()

    def check_failed(self, done, words, status=2, printed=b""):
        self.assertEqual((done.returncode, done.stdout), (status, printed))
        self.assertIn(words, done.stderr.decode())
        self.assertNotIn("Traceback", done.stderr.decode())


class Sheets(InFolder):
    def test_plain_is_the_sheet_program(self):
        for text in sorted(EXAMPLES.glob("*.txt")):
            self.check_done(vellumrill("sheet", "--plain", text), program(packed(text.name)))

    def test_table(self):
        rng = random.Random(11)
        for data in [packed("valley.txt"), *(random_file(rng, 1) for _ in range(5))]:
            table = columns(self.check_done(vellumrill("sheet", self.put("one.line", data))))
            trains = accepted_line(data).trains
            right = [[str(number), CLASS_NAMES[train.cls], clock(start), str(start), clock(run), str(run), str(block)]
                     for train, (number, start, run, block) in zip(trains, program_rows(data))]
            self.assertEqual(table, right)

    def test_several_files(self):
        """Each has its name above its sheet; one that is refused or cannot be read stops none."""
        one, cut = self.put("one.line", packed("sample.txt")), self.put("cut.line", packed("sample.txt")[:-1])
        done = vellumrill("sheet", "--plain", one, cut, self.folder / "none", EXAMPLES / "sample.txt")
        sheet = program(packed("sample.txt")).decode()
        self.assertEqual((done.returncode, done.stdout.decode()),
                         (2, f"{one}:\n{sheet}{cut}:\nrefused 1\n{EXAMPLES / 'sample.txt'}:\n{sheet}"))
        first, second = done.stderr.decode().splitlines()
        self.assertTrue(first.startswith(f"vellumrill: {cut}: explanation of refused 1: the file is cut short"))
        self.assertEqual(second, f"vellumrill: {self.folder / 'none'} cannot be read: No such file or directory")

    def test_standard_input(self):
        self.check_done(vellumrill("sheet", "--plain", "-", input=packed("valley.txt")), program(packed("valley.txt")))

    def test_long_file(self):
        """The calls have no bound of 16,384 bytes: the rules are checked."""
        done = vellumrill("check", self.put("long.line", b"\1" * 20_000))
        self.assertTrue(done.stdout.decode().splitlines()[0].endswith("long.line: refused 1"))


def program_rows(data):
    return [tuple(map(int, row.split())) for row in program(data).splitlines()[1:]]


class Headways(InFolder):
    def test_whole_seconds(self):
        for name, seconds in (("sample.txt", 58), ("valley.txt", 119), ("tunnel.txt", 73), ("utrecht-geldermalsen.txt", 359)):
            self.check_done(vellumrill("headway", EXAMPLES / name), b"%d\n" % seconds)

    def test_random_files(self):
        rng = random.Random(12)
        for _ in range(10):
            data = random_file(rng, 1)
            if len(parse(data).trains) > 1:
                holds, _, _ = calculated(data)
                done = self.check_done(vellumrill("headway", self.put("one.line", data)))
                self.assertEqual(int(done), -(-headway_call(*holds[-2:]) // SECOND))

    def test_one_train(self):
        done = vellumrill("headway", self.put("one.line", with_trains(1)))
        self.assertEqual((done.returncode, done.stdout, done.stderr), (3, b"one train, so no headway\n", b""))


class Checks(InFolder):
    def test_accepted(self):
        self.check_done(vellumrill("check", EXAMPLES / "valley.txt"),
                        f"{EXAMPLES / 'valley.txt'}: accepted (307 points, 20 blocks, 8 trains)\n".encode())

    def test_refused(self):
        text = self.put("long.txt", (EXAMPLES / "sample.txt").read_text().replace("length 100", "length 101"))
        done = vellumrill("check", EXAMPLES / "sample.txt", text)
        lines = done.stdout.decode().splitlines()
        self.assertEqual((done.returncode, done.stderr, lines[1]), (1, b"", f"{text}: refused 9"))
        self.assertEqual(lines[2], "  rule: a train has no room behind the last block: that block's end plus the train's length"
                                   " is beyond the last point")
        self.assertRegex(lines[3], r"^  here: train 1: its length of 101 m takes 2 steps .* \(line 14 of the text\)$")

    def test_slip(self):
        text = self.put("slip.txt", "points 7\nstep many\n")
        done = vellumrill("check", text, EXAMPLES / "sample.txt")
        self.assertEqual((done.returncode, done.stdout.count(b"accepted")), (2, 1))
        self.assertEqual(done.stderr.decode(), f"vellumrill: {text}: line 2: 'many' is not a whole number\n")


class Figures(InFolder):
    def rows_of(self, name):
        with open(self.folder / "out" / name, newline="") as file:
            header, *rows = csv.reader(file)
        return header, rows

    def write(self, data, *options):
        done = vellumrill("figures", self.put("one.line", data), "--csv", self.folder / "out", *options)
        self.check_done(done, b"")
        self.assertEqual(sorted(path.name for path in (self.folder / "out").iterdir()),
                         ["one-holds.csv", "one-points.csv", "one-trains.csv"])

    def points_of(self, data, k, start):
        """The rows of a train as the calculator has them."""
        line = accepted_line(data)
        speeds, dwells = [0] * line.P, dict(zip(line.trains[k].stops, line.trains[k].dwells))
        hold_call(data, k, speeds, [0] * line.P)
        for i, (position, speed, arrival, dot) in enumerate(diagram(data, k)):
            yield [str(cell) for cell in (k + 1, i, int(position), speeds[i], "%.2f" % (speed / 100), "full" if dot else "open",
                                          dwells.get(i, ""), int(arrival), start + int(arrival))]

    def check_csv(self, data, trains):
        line, (holds, _, sheet_rows) = accepted_line(data), calculated(data)
        header, rows = self.rows_of("one-trains.csv")
        self.assertEqual(header, list(figures_word.TRAINS))
        self.assertEqual(rows, [[str(k + 1), CLASS_NAMES[line.trains[k].cls], str(line.trains[k].length), *map(str, sheet_rows[k][1:])]
                                for k in trains])
        header, rows = self.rows_of("one-points.csv")
        self.assertEqual(header, list(figures_word.POINTS))
        self.assertEqual(rows, [row for k in trains for row in self.points_of(data, k, sheet_rows[k][1])])
        header, rows = self.rows_of("one-holds.csv")
        self.assertEqual(header, list(figures_word.HOLDS))
        self.assertEqual(rows, [[str(cell) for cell in (k + 1, b + 1, line.block_starts[b], line.block_ends[b], holds[k].begins[b],
                                                        holds[k].ends[b], sheet_rows[k][1] + holds[k].begins[b],
                                                        sheet_rows[k][1] + holds[k].ends[b])]
                                for k in trains for b in range(holds[k].count)])

    def test_csv_files(self):
        rng = random.Random(13)
        for data in [packed("valley.txt"), *(random_file(rng, 1) for _ in range(8))]:
            self.write(data)
            self.check_csv(data, range(len(parse(data).trains)))

    def test_one_train(self):
        self.write(packed("valley.txt"), "--train", "3")
        self.check_csv(packed("valley.txt"), [2])

    def test_tables(self):
        """What is printed has the figures of the CSV files, as people read them."""
        data = packed("valley.txt")
        printed = self.check_done(vellumrill("figures", EXAMPLES / "valley.txt", "--train", "2"))
        self.write(data, "--train", "2")
        lines = printed.splitlines()
        self.assertEqual(lines[:2], ["train 2, stopping, 101 m", "start 0:01:51.005184 (111005184 µs), fixed by block 2;"
                                                                 " running time 0:23:46.195188 (1426195188 µs)"])
        _, points = self.rows_of("one-points.csv")
        _, holds = self.rows_of("one-holds.csv")
        self.assertEqual([line.split() for line in lines[4:4 + len(points)]],
                         [[i, kilometres(int(metres)), squared, speed, dot, *([dwell] if dwell else []), clock(int(arrival)), arrival,
                           clock(int(time))] for _, i, metres, squared, speed, dot, dwell, arrival, time in points])
        self.assertEqual([line.split() for line in lines[-len(holds):]],
                         [[block, start, end, clock(int(begin)), begin, clock(int(close)), close, clock(int(one)), clock(int(two))]
                          for _, block, start, end, begin, close, one, two in holds])

    def test_all_trains_are_printed(self):
        printed = self.check_done(vellumrill("figures", EXAMPLES / "sample.txt"))
        self.assertEqual([line for line in printed.splitlines() if line.startswith("train")],
                         ["train 1, intercity, 100 m", "train 2, intercity, 100 m"])
        self.assertIn("fixed by no block", printed)

    def test_wrong_train(self):
        for number in ("0", "9", "-1"):
            self.check_failed(vellumrill("figures", EXAMPLES / "valley.txt", f"--train={number}"),
                              f"there is no train {number}: the file has trains 1 to 8")

    def test_folder_that_cannot_be_made(self):
        file = self.put("file", "")
        for folder, words in ((file, f"{file} is a file, not a folder"), ("/proc/none", "the folder '/proc/none' cannot be made: No such"),
                              ("", "the folder '' cannot be made: No such file")):
            self.check_failed(vellumrill("figures", EXAMPLES / "sample.txt", "--csv", folder), words)

    def test_file_that_cannot_be_written(self):
        """Then none of the three is written."""
        (self.folder / "out" / "sample-holds.csv").mkdir(parents=True)
        self.check_failed(vellumrill("figures", EXAMPLES / "sample.txt", "--csv", self.folder / "out"),
                          "sample-holds.csv was not written: Is a directory")
        self.assertEqual([path.name for path in (self.folder / "out").iterdir()], ["sample-holds.csv"])

    def test_refused_file_writes_nothing(self):
        done = vellumrill("figures", self.put("cut.line", packed("sample.txt")[:-1]), "--csv", self.folder / "out")
        self.check_failed(done, "explanation of refused 1", 1, b"refused 1\n")
        self.assertFalse((self.folder / "out").exists())


class Periods(InFolder):
    def test_period(self):
        rng = random.Random(14)
        for data in [packed("sample.txt"), packed("valley.txt"), *(random_file(rng, 1) for _ in range(8))]:
            holds, sheet, rows = calculated(data)
            period, percent = period_call(sheet)
            lines = self.check_done(vellumrill("period", self.put("one.line", data))).splitlines()
            self.assertEqual(lines[:2], [f"period   {clock(period)} ({period} µs)", f"percent  {percent} % of an hour"])
            line, right = accepted_line(data), []
            for b in range(sheet.count):
                last = rows[-1][1] + holds[-1].ends[b]
                if last - holds[0].begins[b] == period:
                    right.append(f"binds    block {b + 1}, from point {line.block_starts[b]} to {line.block_ends[b]}: train 1 holds it"
                                 f" from {clock(holds[0].begins[b])} on, train {len(holds)} up to {clock(last)}")
            self.assertEqual(lines[2:], right)
            self.assertTrue(right)

    def test_unused_places_do_not_bind(self):
        sheet = open_call(2)
        sheet.blocks, sheet.free, sheet.first = 2, [7, 9, *[9] * 30], [2, 2, *[2] * 30]
        self.assertEqual(binding_blocks(sheet, 7), [2])


class Usage(InFolder):
    def test_help(self):
        printed = self.check_done(vellumrill("--help"))
        for word in WORDS:
            self.assertIn(f"    {word} ", printed)
            self.assertTrue(self.check_done(vellumrill(word, "--help")).startswith(f"usage: vellumrill {word} "))

    def test_version(self):
        self.assertEqual(self.check_done(vellumrill("--version")).split()[:2], ["Vellumrill", f"{VERSION}:"])

    def test_wrong_usage(self):
        for arguments in ((), ("nothing",), ("sheet",), ("period", "a", "b"), ("figures", "a", "--train", "one"), ("sheet", "--nope", "a"),
                          ("plot", "a"), ("batch", "a")):
            self.check_failed(vellumrill(*arguments), "usage: vellumrill")

    def test_wrong_input(self):
        for word in ("sheet", "headway", "check", "figures", "period"):
            self.check_failed(vellumrill(word, "/no/such"), "vellumrill: /no/such cannot be read: No such file or directory")
            self.check_failed(vellumrill(word, self.folder), "is a directory, not a file")
            self.check_failed(vellumrill(word, self.put("text", "points 7\n")), "is a line text, not a line file")
            self.check_failed(vellumrill(word, self.put("text.txt", "points\n")), "text.txt: line 1: too few numbers")

    def test_refused(self):
        cut = self.put("cut.line", packed("sample.txt")[:-1])
        for word in ("sheet", "headway", "figures", "period"):
            self.check_failed(vellumrill(word, cut), f"vellumrill: {cut}: explanation of refused 1: ", 1, b"refused 1\n")

    def test_output_that_is_not_written(self):
        for word in ("sheet", "headway", "check", "figures", "period"):
            with open("/dev/full", "wb") as full:
                done = vellumrill(word, EXAMPLES / "sample.txt", stdout=full)
            self.assertEqual((done.returncode, done.stderr),
                             (2, b"vellumrill: standard output was not written: No space left on device\n"))
            done = vellumrill(word, EXAMPLES / "sample.txt", stdout=None, preexec_fn=lambda: os.close(1))
            self.assertEqual(done.returncode, 2)
            self.assertIn(b"standard output is closed", done.stderr)

    def test_closed_pipe(self):
        """Behind head the command ends without a word."""
        for word in ("figures", "sheet", "--help"):
            reading, writing = os.pipe()
            os.close(reading)
            done = vellumrill(word, EXAMPLES / "valley.txt", stdout=writing)
            os.close(writing)
            self.assertEqual((done.returncode, done.stderr), (141, b""))

    def test_from_elsewhere(self):
        (self.folder / "link").symlink_to(COMMAND)
        self.put("sample.line", packed("sample.txt"))
        done = subprocess.run(["./link", "headway", "sample.line"], cwd=self.folder, capture_output=True, timeout=SECONDS)
        self.check_done(done, b"58\n")

    def test_as_a_module(self):
        environment = {**os.environ, "PYTHONPATH": str(TOP_FOLDER / "python")}
        for options in ((), ("-S",)):
            done = subprocess.run([sys.executable, "-B", *options, "-m", "vellumrill", "headway", EXAMPLES / "valley.txt"], env=environment,
                                  capture_output=True, timeout=SECONDS)
            self.check_done(done, b"119\n")


class ForPeople(unittest.TestCase):
    def test_clock(self):
        for microseconds, words in ((0, "0:00:00.000000"), (1, "0:00:00.000001"), (59_999_999, "0:00:59.999999"),
                                    (60_000_000, "0:01:00.000000"), (3_599_999_999, "0:59:59.999999"), (3_600_000_000, "1:00:00.000000"),
                                    (100 * 3_600_000_000 + 61_000_007, "100:01:01.000007")):
            self.assertEqual(clock(microseconds), words)

    def test_speeds_and_distances(self):
        self.assertEqual([kmh(speed) for speed in (0, 5, 99, 100, 5091, 30000)], ["0.00", "0.05", "0.99", "1.00", "50.91", "300.00"])
        self.assertEqual([kilometres(metres) for metres in (0, 7, 1000, 30600)], ["0.000", "0.007", "1.000", "30.600"])


if __name__ == "__main__":
    unittest.main()
