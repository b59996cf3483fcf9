#!/usr/bin/env python3
"""Tests the Python package: every call of the header has its function, and gives what the independent calculator gives; what is missing or
wrong is told.

    python3 tests/test_package.py [--files N] [--seed N]

N files are made at random from a seed, which is printed; --seed sets it.
"""
import inspect
import os
import random
import re
import shutil
import struct
import subprocess
import sys
import tempfile
import tomllib
import typing
import unittest
from ctypes import sizeof
from pathlib import Path
from unittest import mock

sys.dont_write_bytecode = True

from damage_ways import base_file, questions
from knobs import take_options
from library import ARCHIVE, INCLUDE, need_archive, need_shared_object
from places import EXAMPLES, TOP_FOLDER
from yardstick import POINT_SIZE, VERSION, Hold, Refused, accepted_line, add_call, check_call, diagram_call, headway_call, hold_call
from yardstick import open_call, padded, parse, path_call, period_call, program, record_call, sizes_of

import header
import linking
import vellumrill
from vellumrill import binding

FILES = 300
SEED = 1
PACKAGE = TOP_FOLDER / "python" / "vellumrill"
HEADER = (INCLUDE / "vellumrill.h").read_text()
FUNCTIONS = {"vr_open": "open_sheet"}   # the names that differ; the others are the header's without vr_
SECONDS = 60


def setUpModule():
    need_archive()
    need_shared_object()


def function_of(call):
    return getattr(vellumrill, FUNCTIONS.get(call, call.removeprefix("vr_")))


def answer_of(call, *arguments):
    """What a call of the package or of the calculator answers, or its number of refusal."""
    try:
        return call(*arguments)
    except (vellumrill.Refusal, Refused) as refusal:
        return refusal.number


# ---- the calculator's answers in the package's forms

def calculated_hold(data, k):
    points = accepted_line(data).P
    speeds, times = [0] * points, [0] * points
    hold = hold_call(data, k, speeds, times)
    return vellumrill.Held(plain(hold), vellumrill.Run(speeds, times))


def plain(hold):
    return vellumrill.Hold(hold.begins[:hold.count], hold.ends[:hold.count])


def calculated_check(data, k):
    if number := check_call(data, k):
        raise Refused(number)


def calculated_record(data, k):
    calculated_check(data, k)
    return record_call(data, k)


def calculated_run(data, k):
    return calculated_hold(data, k).run


def calculated_diagram(data, k):
    lent = bytearray(POINT_SIZE * accepted_line(data).P)
    diagram_call(data, k, lent)
    return bytes(lent)


def drawn(data, k):
    """The package's diagram as the bytes that it came from."""
    return b"".join(struct.pack("<dddB", *point) for point in vellumrill.diagram(data, k))


def calculated_study(data):
    accepted_line(data)
    return program(data).decode()


def calculated_rows(data):
    lines = [list(map(int, line.split())) for line in calculated_study(data).splitlines()[1:]]
    return vellumrill.Rows(*([line[i] for line in lines] for i in (1, 2, 3)))


class Calls(unittest.TestCase):
    def check_same(self, ours, theirs, *arguments):
        self.assertEqual(answer_of(ours, *arguments), answer_of(theirs, *arguments))

    def check_file(self, data):
        self.check_same(vellumrill.sizes, lambda data: vellumrill.Sizes(*sizes_of(accepted_line(data))), data)
        self.check_same(vellumrill.check_file, lambda data: accepted_line(data) and None, data)
        self.check_same(vellumrill.study, calculated_study, data)
        self.check_same(vellumrill.rows, calculated_rows, data)

    def check_train(self, data, k):
        self.check_same(vellumrill.check_train, calculated_check, data, k)
        self.check_same(vellumrill.train_record, calculated_record, data, k)
        self.check_same(vellumrill.run, calculated_run, data, k)
        self.check_same(vellumrill.hold, calculated_hold, data, k)
        self.check_same(drawn, calculated_diagram, data, k)

    def test_examples(self):
        for text in sorted(EXAMPLES.glob("*.txt")):
            data = vellumrill.read_file(text)
            with self.subTest(text.name):
                self.check_file(data)
                self.check_train(data, 0)
                self.check_train(data, vellumrill.sizes(data).trains)

    def test_damaged_files(self):
        rng = random.Random(SEED)
        for data, *_ in questions(rng, FILES):
            with self.subTest(seed=SEED, data=data.hex()):
                self.check_file(data)
                self.check_train(data, rng.choice([0, 1, 2, 2 ** 64 - 1]))

    def test_sheets(self):
        rng = random.Random(SEED)
        for at in range(FILES // 3):
            data = base_file(rng)
            with self.subTest(seed=SEED, data=data.hex()):
                holds = [calculated_hold(data, k).hold for k in range(len(parse(data).trains))]
                self.check_additions([rng.choice(holds) for _ in range(rng.randint(0, 6))], len(holds[0].begins))

    def check_additions(self, holds, blocks):
        ours, theirs = vellumrill.open_sheet(blocks), open_call(blocks)
        for hold in holds:
            self.assertEqual(vellumrill.add(ours, hold), add_call(theirs, padded_hold(hold)))
            self.assertEqual(ours, vellumrill.Sheet(theirs.count, theirs.trains, theirs.free, theirs.first))
        self.assertEqual(vellumrill.period(ours), period_call(theirs))
        if len(holds) > 1:
            self.assertEqual(vellumrill.headway(*holds[:2]), headway_call(*map(padded_hold, holds[:2])))

    def test_paths(self):
        data = vellumrill.read_file(EXAMPLES / "valley.txt")
        holds = [vellumrill.hold(data, k).hold for k in range(4)]
        starts = [0, 300_000_000, 1_500_000_000, 2_100_000_000]
        begins, ends = [time for hold in holds for time in hold.begins], [time for hold in holds for time in hold.ends]
        for low, high in ((0, 3_600_000_000), (0, 60_000_000), (2 ** 50, 2 ** 50 + 1), (5, 4)):
            self.check_same(vellumrill.path, lambda hold, *rest: path_call(padded_hold(hold), *rest), holds[0], starts, begins, ends,
                            low, high)
        self.assertEqual(vellumrill.path(holds[0], starts, begins, ends, 0, 3_600_000_000), (784287634, 2))


def padded_hold(hold):
    return Hold(len(hold.begins), padded(hold.begins), padded(hold.ends))


class Refusals(unittest.TestCase):
    def check_refused(self, number, call, *arguments):
        with self.assertRaises(vellumrill.Refusal) as caught:
            call(*arguments)
        self.assertEqual((caught.exception.number, caught.exception.words), (number, vellumrill.RULES[number]))
        self.assertEqual(str(caught.exception), f"refused {number}: {vellumrill.RULES[number]}")

    def test_sheets_and_holds(self):
        one = vellumrill.Hold([0], [5])
        for blocks in (0, 33, 2 ** 64 - 1):
            self.check_refused(12, vellumrill.open_sheet, blocks)
        sheet = vellumrill.open_sheet(1)
        self.check_refused(14, vellumrill.add, sheet, vellumrill.Hold([0, 0], [5, 5]))
        self.check_refused(14, vellumrill.add, sheet, vellumrill.Hold([5], [5]))
        self.check_refused(14, vellumrill.add, sheet, vellumrill.Hold([0], [2 ** 44 + 1]))
        self.assertEqual(sheet, vellumrill.open_sheet(1))
        for _ in range(64):
            vellumrill.add(sheet, one)
        before = vellumrill.Sheet(sheet.blocks, sheet.trains, list(sheet.free), list(sheet.first))
        self.check_refused(13, vellumrill.add, sheet, one)
        self.assertEqual(sheet, before)
        for other in (vellumrill.Hold([], []), vellumrill.Hold([0] * 33, [5] * 33)):
            self.check_refused(12, vellumrill.headway, other, one)
        self.check_refused(12, vellumrill.period, vellumrill.Sheet(1, 65, [0] * 32, [0] * 32))

    def test_paths(self):
        one = vellumrill.Hold([0], [5])
        self.check_refused(16, vellumrill.path, one, [0], [], [], 0, 5)
        self.check_refused(17, vellumrill.path, one, [0], [0], [5], 0, 4)
        self.assertEqual(vellumrill.path(one, [], [], [], 7, 7), (7, 0))

    def test_files(self):
        self.check_refused(1, vellumrill.check_file, b"")
        self.check_refused(10, vellumrill.run, vellumrill.read_file(EXAMPLES / "sample.txt"), 2)

    def test_explanation(self):
        data = vellumrill.pack_text((EXAMPLES / "sample.txt").read_text().replace("length 100", "length 101"))
        self.check_refused(9, vellumrill.rows, data)
        self.assertTrue(vellumrill.explanation(data, 9).startswith("train 1: its length of 101 m takes 2 steps"))

    def test_words_are_those_of_the_page(self):
        rows = dict(re.findall(r"(?m)^\| (\d+) \| (.*) \|$", (TOP_FOLDER / "docs" / "CALLS.md").read_text()))
        self.assertEqual([int(number) for number in rows], list(vellumrill.RULES))
        for number, words in vellumrill.RULES.items():
            self.assertTrue(rows[str(number)].startswith(words), number)
            self.assertTrue(number == 2 or rows[str(number)] == words, number)


class WrongValues(unittest.TestCase):
    """ctypes would cut numbers, and lists of another length have no record."""

    def test_numbers(self):
        data = vellumrill.read_file(EXAMPLES / "sample.txt")
        for number in (-1, 2 ** 64, -2 ** 70):
            for call, arguments in ((vellumrill.run, (data, number)), (vellumrill.open_sheet, (number,)),
                                    (vellumrill.headway, (vellumrill.Hold([number], [5]), vellumrill.Hold([0], [5]))),
                                    (vellumrill.path, (vellumrill.Hold([0], [5]), [], [], [], number, 5)),
                                    (vellumrill.path, (vellumrill.Hold([0], [5]), [number], [0], [5], 0, 5))):
                with self.subTest(call=call.__name__, number=number), self.assertRaisesRegex(ValueError, str(number)):
                    call(*arguments)

    def test_lists(self):
        with self.assertRaisesRegex(ValueError, "2 beginnings and 1 ends"):
            vellumrill.headway(vellumrill.Hold([0, 0], [5]), vellumrill.Hold([0], [5]))
        with self.assertRaisesRegex(ValueError, "31 free times"):
            vellumrill.period(vellumrill.Sheet(1, 0, [0] * 31, [0] * 32))

    def test_types(self):
        for call, arguments in ((vellumrill.check_file, ("text",)), (vellumrill.run, (b"", 0.5)), (vellumrill.open_sheet, ("1",))):
            with self.assertRaises((TypeError, vellumrill.Refusal)):
                call(*arguments)


class Declarations(unittest.TestCase):
    def test_every_call_has_its_function(self):
        calls = re.findall(r"(?m)^\w+ (vr_\w+)\(", HEADER)
        self.assertEqual(sorted(calls), sorted(binding.CALLS))
        for call in calls:
            function = function_of(call)
            with self.subTest(call):
                self.assertIn(function.__name__, vellumrill.__all__)
                self.assertIn("refusal", function.__doc__.lower())
                names = set(inspect.signature(function).parameters) | {"return"}
                self.assertEqual(set(typing.get_type_hints(function)), names)

    def test_structs_are_the_headers(self):
        """The C compiler and ctypes give each struct the same size."""
        structs = {"vr_hold_record": binding.HoldRecord, "vr_sheet": binding.Sheet, "vr_record_answer": binding.RecordAnswer,
                   "vr_sizes_answer": binding.SizesAnswer, "vr_hold_answer": binding.HoldAnswer, "vr_added": binding.Added,
                   "vr_headway_answer": binding.HeadwayAnswer, "vr_period_answer": binding.PeriodAnswer,
                   "vr_path_answer": binding.PathAnswer, "vr_rows_answer": binding.RowsAnswer, "vr_written": binding.Written}
        self.assertEqual(sorted(re.findall(r"typedef struct (\w+)", HEADER)), sorted(structs))
        for name, kind in structs.items():
            fields = re.search(r"typedef struct %s \{(.*?)\}" % name, HEADER, re.DOTALL)[1]
            self.assertEqual(re.findall(r"(\w+)(?:\[\w+\])?;", fields), [field for field, *_ in kind._fields_])
        words = "".join(f"_Static_assert(sizeof({name}) == {sizeof(kind)}, \"{name}\");\n" for name, kind in structs.items())
        words += "".join(f"_Static_assert(VR_{name} == {getattr(binding, name)}, \"{name}\");\n"
                         for name in ("MOST_TRAINS", "MOST_BLOCKS", "MOST_TEXT"))
        subprocess.run(["gcc", "-std=c11", "-fsyntax-only", "-include", INCLUDE / "vellumrill.h", "-xc", "-"], input=words.encode(),
                       check=True)

    def test_version(self):
        self.assertEqual(vellumrill.VERSION, header.version())
        self.assertEqual(vellumrill.VERSION, VERSION)

    def test_project_file(self):
        project = tomllib.loads((TOP_FOLDER / "python" / "pyproject.toml").read_text())
        folders = {".".join(path.parent.relative_to(PACKAGE.parent).parts) for path in PACKAGE.rglob("__init__.py")}
        self.assertEqual(set(project["tool"]["setuptools"]["packages"]), folders)
        self.assertEqual(project["project"]["scripts"], {"vellumrill": "vellumrill.__main__:main"})


class Library(unittest.TestCase):
    """Where the shared object is missing or of another version, that is told."""

    def setUp(self):
        folder = tempfile.TemporaryDirectory()
        self.addCleanup(folder.cleanup)
        self.folder = Path(folder.name)

    def ask(self, library):
        words = [sys.executable, "-B", "-m", "vellumrill", "sheet", "--plain", EXAMPLES / "sample.txt"]
        environment = {**os.environ, "PYTHONPATH": str(PACKAGE.parent), "VELLUMRILL_LIBRARY": str(library)}
        return subprocess.run(words, env=environment, capture_output=True, text=True, timeout=SECONDS)

    def check_told(self, library, *words):
        done = self.ask(library)
        self.assertEqual((done.returncode, done.stdout), (2, ""))
        self.assertTrue(done.stderr.startswith("vellumrill: "))
        self.assertEqual(done.stderr.count("\n"), 1)
        for word in (str(library), "the variable VELLUMRILL_LIBRARY names it", *words):
            self.assertIn(word, done.stderr)

    def linked(self, *words, whole="-Wl,--whole-archive"):
        made = self.folder / "libvellumrill.so"
        subprocess.run(["gcc", "-shared", "-o", made, whole, ARCHIVE, "-Wl,--no-whole-archive", *words], check=True)
        return made

    def test_right_one(self):
        for place in ("", self.linked(f"-Wl,--defsym=vr_version={VERSION}")):
            done = self.ask(place)
            self.assertEqual((done.returncode, done.stderr), (0, ""))
            self.assertEqual(done.stdout, "train start run block\n1 0 69282976 0\n2 57282976 69282976 2\n")

    def test_missing(self):
        self.check_told(self.folder / "none.so", "is not there")

    def test_other_version(self):
        for version in (VERSION - 1, VERSION + 1):
            self.check_told(self.linked(f"-Wl,--defsym=vr_version={version}"), f"is of version {version}", f"for version {VERSION}")

    def test_no_version(self):
        self.check_told(self.linked(), "is no shared object of Vellumrill")

    def test_calls_that_are_missing(self):
        made = self.linked(f"-Wl,--defsym=vr_version={VERSION}", whole="-Wl,--no-whole-archive")
        self.check_told(made, "is no shared object of Vellumrill", "vr_check_file")

    def test_no_library_at_all(self):
        text = self.folder / "libvellumrill.so"
        text.write_text("no library")
        self.check_told(text, "is no shared object of Vellumrill")
        self.check_told(self.folder, "is no shared object of Vellumrill")

    def test_import_without_library(self):
        """The package without its shared object can be imported, reads texts and tells what is missing."""
        shutil.copytree(PACKAGE, self.folder / "vellumrill", ignore=shutil.ignore_patterns("*.so", "__pycache__"))
        words = ("import vellumrill\nfile = vellumrill.read_file(%r)\nassert vellumrill.show_text(file)\n"
                 "try: vellumrill.rows(file)\nexcept vellumrill.NoLibrary as error: print(error)" % str(EXAMPLES / "sample.txt"))
        done = subprocess.run([sys.executable, "-B", "-c", words], env={**os.environ, "PYTHONPATH": str(self.folder)},
                              capture_output=True, text=True, timeout=SECONDS)
        self.assertEqual((done.returncode, done.stderr), (0, ""))
        self.assertIn("libvellumrill.so is not there: `tools/sharedlib`", done.stdout)

    def test_no_compiler(self):
        with mock.patch.dict(os.environ, PATH=str(self.folder)), self.assertRaisesRegex(vellumrill.Failure, "no command `gcc`"):
            linking.linker()

    def sharedlib(self, shared_object, archive):
        """A run of tools/sharedlib in a copy of the repository with this shared object and this archive, both newer than all sources."""
        for name in ("tools", "include", "python"):
            shutil.copytree(TOP_FOLDER / name, self.folder / name, ignore=shutil.ignore_patterns("__pycache__", "*.so"))
        shutil.copy2(TOP_FOLDER / "crates.txt", self.folder)
        (self.folder / "target" / "staticlib").mkdir(parents=True)
        (self.folder / "target" / "staticlib" / "libvellumrill.a").write_bytes(archive)
        made = self.folder / "python" / "vellumrill" / "libvellumrill.so"
        if shared_object is not None:
            made.write_bytes(shared_object)
        done = subprocess.run([self.folder / "tools" / "sharedlib"], capture_output=True, text=True, timeout=SECONDS)
        return done, made

    def test_sharedlib_replaces_what_is_not_sound(self):
        for kind in ("other version", "empty"):
            with self.subTest(kind):
                wrong = self.linked(f"-Wl,--defsym=vr_version={VERSION + 1}").read_bytes() if kind == "other version" else b""
                done, made = self.sharedlib(wrong, ARCHIVE.read_bytes())
                self.assertEqual((done.returncode, done.stdout), (0, "python/vellumrill/libvellumrill.so is up to date\n"))
                self.assertIn("so it is linked anew", done.stderr)
                self.assertEqual(self.ask(made).returncode, 0)
                shutil.rmtree(self.folder)
                self.folder.mkdir()

    def test_sharedlib_tells_of_an_archive_that_is_not_whole(self):
        done, made = self.sharedlib(None, b"")
        self.assertEqual((done.returncode, done.stdout), (2, ""))
        self.assertIn("libvellumrill.a is not whole, `tools/staticlib` makes it anew", done.stderr)
        self.assertEqual(list(made.parent.glob("libvellumrill.*")), [])

    def test_sharedlib(self):
        done = subprocess.run([TOP_FOLDER / "tools" / "sharedlib"], capture_output=True, text=True, timeout=SECONDS)
        self.assertEqual((done.returncode, done.stdout, done.stderr), (0, "python/vellumrill/libvellumrill.so is up to date\n", ""))


class Texts(unittest.TestCase):
    def test_pack_and_show(self):
        text = (EXAMPLES / "valley.txt").read_text()
        file = vellumrill.pack_text(text)
        self.assertEqual(file, vellumrill.read_file(EXAMPLES / "valley.txt"))
        self.assertEqual(vellumrill.pack_text(vellumrill.show_text(file)), file)

    def test_slips(self):
        with self.assertRaisesRegex(vellumrill.Failure, "line 2: unknown word 'pints'"):
            vellumrill.pack_text("step 3\npints 4\n")
        with self.assertRaisesRegex(vellumrill.Failure, "cut short"):
            vellumrill.show_text(b"\1")
        with self.assertRaisesRegex(vellumrill.Failure, "cannot be read: No such file"):
            vellumrill.read_file("/no/such.txt")

    def test_example_of_the_package(self):
        """What the package's docstring shows."""
        import doctest
        here = os.getcwd()
        os.chdir(TOP_FOLDER)
        try:
            self.assertEqual(doctest.testmod(vellumrill), (0, 3))
        finally:
            os.chdir(here)


if __name__ == "__main__":
    FILES, SEED = take_options(FILES)
    unittest.main()
