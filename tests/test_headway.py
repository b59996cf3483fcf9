#!/usr/bin/env python3
"""Tests the command ./headway against the headways of the independent calculator.

    python3 tests/test_headway.py [--files N] [--seed N]

N accepted files are made at random from a seed, which is printed; --seed sets it.
"""
import os
import random
import subprocess
import sys
import tempfile
import unittest
from pathlib import Path

sys.dont_write_bytecode = True

from knobs import take_options
from places import EXAMPLES, TOP_FOLDER
from some_files import packed, random_file, with_trains
from yardstick import VERSION, headway_call, hold_call, parse, sample_line, write_line

import building
from asking import ask, rows_in
from pairs import last_headway
from records import split_records, with_records
from vellumrill.readable import seconds_up
from vellumrill.messages import speaker

HEADWAY = TOP_FOLDER / "headway"
FILES = 400
SEED = 1
SECONDS = 60                            # that a run may take
SECOND = 1_000_000                      # microseconds


def setUpModule():
    building.bring_up_to_date(building.PROGRAM, speaker("test_headway"))


def headway(*arguments, given=b"", **options):
    """A run of ./headway."""
    options.setdefault("stdout", subprocess.PIPE)
    return subprocess.run([HEADWAY, *arguments], input=given, stderr=subprocess.PIPE, timeout=SECONDS, **options)


def calculated(data):
    """The headway of the last two trains by the calculator, in microseconds."""
    line = parse(data)
    first, second = (hold_call(data, k, [0] * line.P, [0] * line.P) for k in (len(line.trains) - 2, len(line.trains) - 1))
    return headway_call(first, second)


class Headways(unittest.TestCase):
    def test_examples(self):
        for name, seconds in (("sample.txt", 58), ("valley.txt", 119), ("tunnel.txt", 73)):
            for done in (headway(EXAMPLES / name), headway(given=packed(name)), headway("-", given=packed(name))):
                self.assertEqual((done.returncode, done.stdout, done.stderr), (0, b"%d\n" % seconds, b""))
            self.assertEqual(seconds_up(calculated(packed(name))), seconds)

    def test_line_file(self):
        with tempfile.TemporaryDirectory() as folder:
            Path(folder, "sample.line").write_bytes(with_trains(2))
            Path(folder, "link").symlink_to(HEADWAY)
            done = subprocess.run(["./link", "sample.line"], cwd=folder, capture_output=True, timeout=SECONDS)
            self.assertEqual((done.returncode, done.stdout, done.stderr), (0, b"58\n", b""))

    def test_random_files(self):
        """Every train holds every block, so the last two starts of the whole sheet lie as far apart."""
        rng = random.Random(SEED)
        for at in range(FILES):
            data = random_file(rng)
            with self.subTest(seed=SEED, file=at, data=data.hex()):
                starts = [start for _, start, _, _ in rows_in(ask(data))]
                self.assertEqual(last_headway(data), calculated(data))
                self.assertEqual(last_headway(data), starts[-1] - starts[-2])

    def test_random_files_by_the_command(self):
        rng = random.Random(SEED)
        for at in range(10):
            data = random_file(rng)
            with self.subTest(seed=SEED, file=at, data=data.hex()):
                done, microseconds = headway(given=data), calculated(data)
                self.assertEqual((done.returncode, done.stderr), (0, b""))
                self.assertTrue(microseconds <= int(done.stdout) * SECOND < microseconds + SECOND)

    def test_order_of_the_two_counts(self):
        track, records = split_records(packed("valley.txt"))
        one, two = with_records(track, records[:2]), with_records(track, records[1::-1])
        self.assertNotEqual(calculated(one), calculated(two))
        self.assertEqual((last_headway(one), last_headway(two)), (calculated(one), calculated(two)))

    def test_rounded_up(self):
        for microseconds, seconds in ((0, 0), (1, 1), (SECOND - 1, 1), (SECOND, 1), (SECOND + 1, 2), (73 * SECOND, 73),
                                      (73 * SECOND + 1, 74), (2 ** 44, 17592187)):
            self.assertEqual(seconds_up(microseconds), seconds)

    def test_one_train(self):
        done = headway(given=with_trains(1))
        self.assertEqual((done.returncode, done.stdout, done.stderr), (3, b"one train, so no headway\n", b""))

    def test_most_trains(self):
        done = headway(given=with_trains(64))
        self.assertEqual((done.returncode, done.stdout), (0, b"58\n"))


class Records(unittest.TestCase):
    def test_split_and_put_together(self):
        rng = random.Random(5)
        for data in [packed("valley.txt"), with_trains(1), *(random_file(rng) for _ in range(100))]:
            track, records = split_records(data)
            self.assertEqual(with_records(track, records), data)
            for train, record in zip(parse(data).trains, records):
                self.assertEqual(record, data[train.offset:train.end])

    def test_last_two(self):
        track, records = split_records(packed("valley.txt"))
        line, pair = parse(packed("valley.txt")), parse(with_records(track, records[-2:]))
        self.assertEqual([train.stops for train in pair.trains], [train.stops for train in line.trains[-2:]])
        self.assertEqual((pair.P, pair.limits, pair.block_ends), (line.P, line.limits, line.block_ends))


class NoHeadway(unittest.TestCase):
    def test_refused(self):
        line = sample_line()
        line.trains[0].stops = [0, 1]
        line.trains += line.trains[1:] * 2
        for data, words in ((write_line(line), "8: train 1, stop 2 of 2: point 1 is less than two points after"),
                            (b"", "1: the file is cut short"), (with_trains(65), "3: the number of trains is 65"),
                            (with_trains(2) + b"\0", "2: 1 byte follows"), (bytes(20_000), "2: the line file has more than 16,384 bytes")):
            done = headway(given=data)
            self.assertEqual((done.returncode, done.stdout), (1, ask(data)))
            self.assertTrue(done.stderr.decode().startswith(f"headway: explanation of refused {words}"))
            self.assertEqual(done.stderr.count(b"\n"), 1)

    def check_failed(self, done, words):
        self.assertEqual((done.returncode, done.stdout or b""), (2, b""))
        self.assertTrue(done.stderr.decode().startswith(f"headway: {words}"))

    def test_bad_input(self):
        self.check_failed(headway(EXAMPLES), f"{EXAMPLES} is a directory")
        self.check_failed(headway("/no/such"), "/no/such cannot be read: No such file or directory")
        self.check_failed(headway(given=b"points 7\n"), "standard input is a line text, not a line file")
        self.check_failed(headway("a", "b"), "2 names are given")
        self.check_failed(headway("--nope"), "there is no option --nope; a file of that name is written ./--nope\nusage: headway [FILE | -]\n")

    def test_output_that_is_not_written(self):
        for count in (1, 2):
            data = with_trains(count)
            with open("/dev/full", "wb") as full:
                self.check_failed(headway(given=data, stdout=full), "standard output was not written: No space left on device\n")
            self.check_failed(headway(given=data, stdout=None, preexec_fn=lambda: os.close(1)), "standard output is closed")

    def test_help_and_version(self):
        done = headway("--help")
        self.assertEqual((done.returncode, done.stderr), (0, b""))
        for words in ("usage: headway [FILE | -]", "rounded up", "3    the file has one train"):
            self.assertIn(words, done.stdout.decode())
        done = headway("--version")
        self.assertEqual((done.returncode, done.stdout.split()[:2]), (0, [b"Vellumrill", b"%d:" % VERSION]))


if __name__ == "__main__":
    FILES, SEED = take_options(FILES)
    unittest.main()
