#!/usr/bin/env python3
"""Tests that the comparisons can fail: a library of which one call gives one field of its answer wrong by one, or writes behind a buffer,
is found out by tests/compare and by tests/damage."""
import random
import sys
import unittest
from importlib.machinery import SourceFileLoader
from importlib.util import module_from_spec, spec_from_loader
from pathlib import Path

sys.dont_write_bytecode = True

from library import HoldRecord, Library, Touched
from damage_ways import questions

TESTS = Path(__file__).resolve().parent
FIELDS = {"check_file": 1, "check_train": 1, "train_record": 3, "sizes": 5, "run": 3, "hold": 4, "diagram": 3, "rows": 5, "study": 3,
          "open": 2, "add": 3, "headway": 2, "period": 3, "path": 3}            # of each call's answer
FILES = 150                             # damaged files that the wrong libraries are asked about


def script(name):
    loader = SourceFileLoader(name, str(TESTS / name))
    module = module_from_spec(spec_from_loader(name, loader))
    loader.exec_module(module)
    return module


compare, damage = script("compare"), script("damage")


def one_more(value):
    """A number, the last of a list or of bytes, or the first beginning or free time of a struct, wrong by one."""
    if isinstance(value, int):
        return value + 1
    if isinstance(value, bytes):
        return value[:-1] + bytes([value[-1] ^ 1]) if value else value
    if isinstance(value, list):
        return value[:-1] + [value[-1] + 1] if value else value
    times = value.begins if isinstance(value, HoldRecord) else value.free
    times[0] += 1
    return value


class Wrong:
    """A library of which one call gives one field of an accepted answer wrong by one; field 0 is the number."""

    def __init__(self, call, field):
        self.right, self.call, self.field = Library(), call, field

    def altered(self, answer):
        if isinstance(answer, int):
            return one_more(answer)
        fields = list(answer)
        if fields[0] == 0:
            fields[self.field] = one_more(fields[self.field])
        return tuple(fields)

    def __getattr__(self, name):
        asked = getattr(self.right, name)
        return (lambda *arguments: self.altered(asked(*arguments))) if name == self.call else asked


def writing_behind():
    """A library of which the run call also writes the entry behind the buffer for speeds."""
    library = Library()
    right = library.run_in_c

    def run(file, size, k, speeds, length, *times):
        speeds[length] = 0
        return right(file, size, k, speeds, length, *times)
    library.run_in_c = run
    return library


class Options:
    seed, scale, only = 5, "quick", ""


class CanFail(unittest.TestCase):
    @classmethod
    def setUpClass(cls):
        cls.lines = [text for text in compare.vectors(Options) if not text.startswith("#")]
        rng = random.Random(5)
        cls.asked = list(questions(rng, FILES))
        cls.expected = [damage.calculator_answers(rng, *asked) for asked in cls.asked]

    def differences_of_compare(self, library):
        answers, tally = compare.Answers(library), compare.Tally()
        tally.difference = lambda *which: setattr(tally, "differ", tally.differ + 1)
        for text in self.lines:
            compare.compare_line(text, answers, tally)
        return tally.differ

    def differences_of_damage(self, library):
        result = damage.Result()
        for asked, expected in zip(self.asked, self.expected):
            result.compare(asked, expected, damage.library_answers(library, *asked))
        return len(result.differences)

    def test_right_library(self):
        self.assertEqual(self.differences_of_compare(Library()), 0)
        self.assertEqual(self.differences_of_damage(Library()), 0)

    def test_wrong_by_one(self):
        for call, fields in FIELDS.items():
            for field in range(fields):
                with self.subTest(call, field=field):
                    self.assertGreater(self.differences_of_compare(Wrong(call, field)), 0)
                    self.assertGreater(self.differences_of_damage(Wrong(call, field)), 0)

    def test_written_behind_a_buffer(self):
        self.assertGreater(self.differences_of_compare(writing_behind()), 0)
        self.assertRaises(Touched, self.differences_of_damage, writing_behind())


if __name__ == "__main__":
    unittest.main()
