#!/usr/bin/env python3
"""Tests how refusals are explained: over damaged files and files made by hand, the rule that it finds is the number
of the independent calculator, and the train and the entry that it names are the first that break the rule.

    python3 tests/test_refusals.py [--files N] [--seed N]

N damaged files are made from a fixed seed and N from a fresh one, which is printed; --seed sets it.
"""
import copy
import random
import re
import sys
import unittest
from collections import Counter
from dataclasses import replace

sys.dont_write_bytecode = True

from damage_ways import questions  # noqa: E402
from knobs import take_options  # noqa: E402
from yardstick import PROGRAM_BOUND, Line, Train, accepted_line, broken_rules, number_of, parse, write_line  # noqa: E402

import asking  # noqa: E402
from records import split_records, with_records  # noqa: E402
from vellumrill.inputs import Given  # noqa: E402
from vellumrill.linetext import from_bytes, read_text, write_text  # noqa: E402
from vellumrill.refusals import explanation, first_broken  # noqa: E402
from vellumrill.rules import RULES  # noqa: E402

FILES = 20_000
FIXED_SEED = 7
FRESH_SEED = 1

# The parallel lists in which a rule's entry stands.
LINE_LISTS = {4: ("limit_points", "limits"), 5: ("limit_points", "limits"), 6: ("block_starts", "block_ends"),
              15: ("balise_points", "balise_metres")}
TRAIN_LISTS = {7: ("tops", "rates"), 8: ("stops", "dwells")}


def base_line():
    """An accepted line with two of everything."""
    trains = [Train(0, 100, [40, 72], [60, 50], [0, 3, 6], [0, 30, 0]), Train(1, 90, [50, 60], [40, 30], [2, 6], [20, 10])]
    return Line(7, 100, 10, 20, [0, 3], [72, 60], [0, 2], [2, 5], trains, [1, 3], [50, 45])


def changed(**changes):
    """The file of the base line with some numbers changed; train 2 has those that a train has."""
    line = base_line()
    for name, value in changes.items():
        setattr(line if hasattr(line, name) else line.trains[1], name, value)
    return write_line(line)


ROW = list(range(65))
PARTS = [
    (3, changed(P=2), "number of points", "the number of points is 2, not 3 to 4096"),
    (3, changed(P=4097), "number of points", "the number of points is 4097, not 3 to 4096"),
    (3, changed(L=0), "step", "the step is 0 m, not 1 to 100 m"),
    (3, changed(L=101), "step", "the step is 101 m, not 1 to 100 m"),
    (3, changed(limit_points=[], limits=[]), "number of limits", "the number of limits is 0, not 1 to 64"),
    (3, changed(limit_points=ROW, limits=ROW), "number of limits", "the number of limits is 65, not 1 to 64"),
    (3, changed(block_starts=[], block_ends=[]), "number of blocks", "the number of blocks is 0, not 1 to 32"),
    (3, changed(block_starts=ROW[:33], block_ends=ROW[1:34]), "number of blocks", "the number of blocks is 33, not 1 to 32"),
    (3, changed(balise_points=ROW, balise_metres=ROW), "number of balises", "the number of balises is 65, not 0 to 64"),
    (3, changed(trains=[]), "number of trains", "the number of trains is 0, not 1 to 64"),
    (3, changed(trains=65 * base_line().trains[:1]), "number of trains", "the number of trains is 65, not 1 to 64"),
    (3, changed(cls=3), "class", "train 2: the class is 3, not 0 to 2"),
    (3, changed(length=0), "length", "train 2: the length is 0 m, not 1 to 1000 m"),
    (3, changed(length=1001), "length", "train 2: the length is 1001 m, not 1 to 1000 m"),
    (3, changed(tops=[], rates=[]), "number of bands", "train 2: the number of bands is 0, not 1 to 8"),
    (3, changed(tops=ROW[1:10], rates=ROW[1:10]), "number of bands", "train 2: the number of bands is 9, not 1 to 8"),
    (3, changed(stops=ROW[:33], dwells=ROW[:33]), "number of stops", "train 2: the number of stops is 33, not 0 to 32"),
    (4, changed(limit_points=[1, 3]), "begin", "limit 1 of 2: point 1 is not point 0, where the limits begin"),
    (4, changed(limit_points=[0, 0]), "rise", "limit 2 of 2: point 0 is not beyond point 0 of the limit before it"),
    (4, changed(limit_points=[0, 6]), "last cell", "limit 2 of 2: point 6 is beyond the last cell, which begins at point 5"),
    (5, changed(limits=[0, 60]), "limit", "limit 1 of 2: 0 km/h is not 1 to 300 km/h"),
    (5, changed(limits=[72, 301]), "limit", "limit 2 of 2: 301 km/h is not 1 to 300 km/h"),
    (6, changed(block_starts=[1, 2]), "begin", "block 1 of 2: its start at point 1 is not at point 0, where the first block starts"),
    (6, changed(block_ends=[2, 2]), "start below end", "block 2 of 2: its start at point 2 is not before its end at point 2"),
    (6, changed(block_starts=[0, 1]), "overlap", "block 2 of 2: its start at point 1 lies before point 2, where the block before it ends"),
    (6, changed(block_ends=[2, 7]), "last point", "block 2 of 2: its end at point 7 is beyond the last point, 6"),
    (15, changed(balise_points=[1, 1]), "rise",
     "balise 2 of 2: 45 m past point 1: its place at 145 m is not beyond that of the balise before it at 150 m"),
    (15, changed(balise_metres=[100, 45]), "metres", "balise 1 of 2: 100 m past point 1: the metres reach the step of 100 m"),
    (15, changed(balise_points=[1, 6]), "last point",
     "balise 2 of 2: 45 m past point 6: its place at 645 m is beyond the last point at 600 m"),
    (7, changed(tops=[0, 60]), "top", "train 2, band 1 of 2: its top of 0 km/h is not 1 to 300 km/h"),
    (7, changed(tops=[50, 301]), "top", "train 2, band 2 of 2: its top of 301 km/h is not 1 to 300 km/h"),
    (7, changed(tops=[50, 50]), "rise", "train 2, band 2 of 2: its top of 50 km/h is not above the 50 km/h of the band before it"),
    (7, changed(rates=[0, 30]), "rate", "train 2, band 1 of 2: its rate of 0 cm/s2 is not 1 to 200 cm/s2"),
    (7, changed(rates=[40, 201]), "rate", "train 2, band 2 of 2: its rate of 201 cm/s2 is not 1 to 200 cm/s2"),
    (8, changed(stops=[2, 3]), "two points", "train 2, stop 2 of 2: point 3 is less than two points after the stop before it at point 2"),
    (8, changed(stops=[2, 1]), "two points", "train 2, stop 2 of 2: point 1 is less than two points after the stop before it at point 2"),
    (8, changed(stops=[2, 7]), "last point", "train 2, stop 2 of 2: point 7 is beyond the last point, 6"),
    (8, changed(dwells=[20, 3601]), "dwell", "train 2, stop 2 of 2: its dwell of 3601 s is longer than 3600 s"),
    (9, changed(length=101), "room", "train 2: its length of 101 m takes 2 steps of 100 m, which from the last block's end at point 5"
                                     " reach point 7, beyond the last point, 6"),
    (1, b"", "cut short", "the file is cut short: the sizes should fill bytes 0 to 13, but the file has 0 bytes"),
    (1, changed()[:-1], "cut short",
     "the file is cut short: the dwells of train 2 of 2 should fill bytes 88 to 91, but the file has 91 bytes"),
    (2, changed() + b"\0", "left over",
     "1 byte follows the last announced train: the file should end with byte 91, and has 93 bytes"),
    (2, changed() + bytes(6), "left over",
     "6 bytes follow the last announced train: the file should end with byte 91, and has 98 bytes"),
    (2, changed(trains=[]) + bytes(4), "left over",
     "4 bytes follow the number of trains, which is 0: the file should end with byte 39, and has 44 bytes"),
]


def numbers_broken(line):
    return {number for number, _ in broken_rules(line)}


def with_lists_cut(holder, names, size):
    """The line or the train with the entries of these lists up to this one."""
    cut = copy.copy(holder)
    for name in names:
        setattr(cut, name, getattr(holder, name)[:size])
    return cut


class Finding(unittest.TestCase):
    """Checks what is found against the calculator alone."""

    def check(self, data):
        found, number = first_broken(data), number_of(accepted_line, data)
        self.assertEqual(found.number if found else 0, number)
        if found:
            self.assertIn(str(found.value), re.findall("[0-9]+", found.words))
            self.assertTrue(explanation(number, data).startswith(found.words))
        if found and found.train:
            self.check_train(data, found)
        if found and found.entry:
            self.check_entry(parse(data), found)
        return found

    def check_train(self, data, found):
        """The train named breaks the rule alone, and those before it do not."""
        self.assertTrue(found.words.startswith(f"train {found.train}"))
        track, records = split_records(data)
        alone = with_records(track, [records[found.train - 1]])
        self.assertEqual(number_of(accepted_line, alone), found.number)
        if found.train > 1:
            before = with_lists_cut(parse(data), ["trains"], found.train - 1)
            self.assertNotIn(found.number, numbers_broken(before))

    def check_entry(self, line, found):
        """The list breaks the rule with the entry named, and does not without it and those behind it."""
        holder = line.trains[found.train - 1] if found.train else line
        names = TRAIN_LISTS[found.number] if found.train else LINE_LISTS[found.number]
        values = [getattr(holder, name)[found.entry - 1] for name in names]
        self.assertIn(found.value, values + [values[0] * line.L + values[1]] if found.number == 15 else values)
        self.assertIn(f"{found.entry} of {len(getattr(holder, names[0]))}: ", found.words)
        for size, breaks in ((found.entry - 1, False), (found.entry, True)):
            cut = with_lists_cut(holder, names, size)
            alone = replace(line, trains=[cut]) if found.train else cut
            self.assertEqual(found.number in numbers_broken(alone), breaks)


class FilesMadeByHand(Finding):
    def test_each_part_of_each_rule(self):
        for number, data, part, words in PARTS:
            with self.subTest(words):
                found = self.check(data)
                self.assertEqual((found.number, found.part, found.words), (number, part, words))

    def test_base_line_is_accepted(self):
        self.assertIsNone(self.check(changed()))

    def test_first_of_several_in_checking_order(self):
        self.assertEqual(self.check(changed(dwells=[9999, 9999], tops=[0, 0])).number, 7)
        self.assertEqual(self.check(changed(balise_points=[1, 1], tops=[0, 0])).number, 15)
        self.assertEqual(self.check(changed(balise_points=[1, 1], cls=3)).number, 3)
        self.assertEqual(self.check(changed(dwells=[9999, 9999])).entry, 1)

    def test_limits_of_the_numbers_are_accepted(self):
        for changes in ({"limits": [1, 300]}, {"tops": [1, 300]}, {"rates": [1, 200]}, {"dwells": [0, 3600]}, {"length": 1},
                        {"limit_points": [0, 5]}, {"stops": [4, 6]}, {"balise_points": [1, 6], "balise_metres": [99, 0]}):
            with self.subTest(changes):
                self.assertIsNone(self.check(changed(**changes)))


class Explanations(unittest.TestCase):
    def test_every_rule_has_words(self):
        self.assertEqual(list(RULES), [1, 2, 3, 4, 5, 6, 15, 7, 8, 9, 10, 11, 12, 13, 14, 16, 17])
        self.assertTrue(all(RULES.values()))

    def test_the_program_bound_is_no_rule(self):
        words = "the line file has more than 16,384 bytes, so no rule was checked"
        self.assertEqual(asking.explanation(2, Given(bytes(PROGRAM_BOUND + 1))), words)
        self.assertNotEqual(asking.explanation(2, Given(changed() + b"\0")), words)
        self.assertNotEqual(asking.explanation(3, Given(bytes(PROGRAM_BOUND))), words)
        self.assertNotEqual(explanation(2, bytes(PROGRAM_BOUND + 1)), words)

    def test_line_of_the_text(self):
        """The line that is named has the word of the entry, and is the one of its number among them in its train."""
        for number, data, part, words in PARTS:
            if number < 3 or part.startswith("number of") and part != "number of points":
                continue
            with self.subTest(words):
                found, text = first_broken(data), write_text(from_bytes(data))
                told = explanation(number, data, read_text(text))
                at = int(re.fullmatch(re.escape(words) + r" \(line ([0-9]+) of the text\)", told)[1])
                before = text.splitlines()[:at]
                self.assertEqual(before[-1].split()[0], found.word)
                trains = [place for place, line in enumerate(before) if line.startswith("train ")]
                self.assertEqual(len(trains), found.train or 0)
                same = [line for line in before[trains[-1] if trains else 0:] if line.split()[:1] == [found.word]]
                self.assertEqual(len(same), found.entry or 1)

    def test_no_line_for_a_count(self):
        data = changed(limit_points=ROW, limits=ROW)
        self.assertEqual(explanation(3, data, from_bytes(data)), "the number of limits is 65, not 1 to 64")

    def test_other_texts_are_told(self):
        for data, told in ((b"A page about something else.\n", True), (b"\t", False), (b"\xff" + 20 * b"text ", False), (b"", False)):
            self.assertEqual("it looks like a text" in explanation(number_of(accepted_line, data), data), told)

    def test_another_number_than_the_one_found(self):
        for data in (changed(), changed(length=101)):
            self.assertEqual(explanation(5, data), RULES[5] + "; the place was not found")
        self.assertIn("the place was not found", explanation(99, changed()))


class DamagedFiles(Finding):
    def tally_of(self, seed):
        """How often each part of a rule was found."""
        tally = Counter()
        for at, (data, *_) in enumerate(questions(random.Random(seed), FILES)):
            with self.subTest(seed=seed, file=at, data=data.hex()):
                found = self.check(data)
                tally[(found.number, found.part) if found else 0] += 1
        self.assertEqual(sum(tally.values()), FILES)
        self.assertLessEqual(set(tally) - {0}, {(number, part) for number, _, part, _ in PARTS})
        return tally

    def test_fixed_seed(self):
        tally = self.tally_of(FIXED_SEED)
        numbers = {key[0] for key in tally if key}
        self.assertEqual(numbers, {1, 2, 3, 4, 5, 6, 7, 8, 9, 15})
        self.assertGreater(tally[0], FILES // 20)

    def test_fresh_seed(self):
        self.tally_of(FRESH_SEED)


if __name__ == "__main__":
    FILES, FRESH_SEED = take_options(FILES)
    unittest.main()
