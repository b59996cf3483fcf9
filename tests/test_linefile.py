#!/usr/bin/env python3
"""Tests of tools/linefile: python3 tests/test_linefile.py"""

import os
import pty
import random
import resource
import shutil
import signal
import struct
import subprocess
import sys
import tempfile
import unittest

ROOT = os.path.dirname(os.path.dirname(os.path.abspath(__file__)))
TOOL = os.path.join(ROOT, "tools", "linefile")
SAMPLE = os.path.join(ROOT, "examples", "sample.txt")
VALLEY = os.path.join(ROOT, "examples", "valley.txt")
TUNNEL = os.path.join(ROOT, "examples", "tunnel.txt")

SAMPLE_TRAIN = [0, 100, 1, 2, 72, 50, 0, 6, 0, 0]
SAMPLE_NUMBERS = [7, 100, 1, 2, 10, 20, 0, 0, 72, 0, 2, 2, 5, 2] + 2 * SAMPLE_TRAIN

SIZES = "points 7\nstep 100\nset-up 10\nrelease 20\n"
TRAIN = "train goods\nlength 600\n"


sys.dont_write_bytecode = True

import places  # noqa: F401
from processes import SECONDS, taken, with_interrupts

import linefile_command
from vellumrill import linetext


def packed_numbers(numbers):
    return b"".join(number.to_bytes(2, "little") for number in numbers)


def unpacked_numbers(data):
    return [number for number, in struct.iter_unpack("<H", data)]


def pack_text(text):
    return linetext.to_bytes(linetext.read_text(text))


def show_text(data):
    return linetext.write_text(linetext.from_bytes(data))


def read(name):
    with open(name, "rb") as stream:
        return stream.read()


def run_tool(*arguments, given=b"", **options):
    return subprocess.run([TOOL, *arguments], input=given, capture_output=True, **options)


def random_number(dice):
    return dice.choice([0, 1, 2, 255, 256, 32767, 32768, 65535, dice.randrange(65536)])


def random_numbers(dice, count):
    return [random_number(dice) for _ in range(count)]


def random_train(dice):
    bands, stops = dice.randrange(9), dice.randrange(33)
    return [random_number(dice), random_number(dice), bands, stops,
            *random_numbers(dice, 2 * bands + 2 * stops)]


def random_file(dice):
    limits, blocks, balises, trains = (dice.randrange(bound) for bound in (65, 33, 65, 12))
    numbers = [*random_numbers(dice, 2), limits, blocks, *random_numbers(dice, 2), balises,
               *random_numbers(dice, 2 * (limits + blocks + balises)), trains]
    for _ in range(trains):
        numbers += random_train(dice)
    return packed_numbers(numbers)


def disguised(dice, text):
    """The same description with other spacing, comments and blank lines."""
    lines = []
    for line in text.split("\n"):
        words = line.split("#")[0].split()
        lines += dice.choice([[], [""], ["   # train goods"], ["\t"]])
        lines.append(dice.choice(["", "  ", "\t"]) + dice.choice([" ", "\t", "   "]).join(words)
                     + dice.choice(["", " ", "#", " # points 5 # step"]))
    return dice.choice(["\n", "\r\n"]).join(lines)


class RoundTrips(unittest.TestCase):
    def test_show_then_pack_gives_the_same_bytes(self):
        dice = random.Random(1)
        for _ in range(400):
            data = random_file(dice)
            self.assertEqual(pack_text(show_text(data)), data)

    def test_pack_then_show_gives_one_normal_form(self):
        dice = random.Random(2)
        for _ in range(200):
            normal = show_text(random_file(dice))
            self.assertEqual(show_text(pack_text(disguised(dice, normal))), normal)

    def test_words_of_the_line_stand_in_any_order(self):
        dice = random.Random(3)
        numbers = [7, 100, 1, 1, 10, 20, 1, 0, 72, 0, 2, 3, 45, 0]
        lines = ["points 7", "step 100", "set-up 10", "release 20", "limit 0 72", "block 0 2", "balise 3 45"]
        for _ in range(50):
            dice.shuffle(lines)
            self.assertEqual(unpacked_numbers(pack_text("\n".join(lines))), numbers)

    def test_words_of_a_train_stand_in_any_order(self):
        one = SIZES + "train 1\nstop 5 6\nband 3 4\nlength 2\n"
        two = SIZES + "train stopping\nlength 2\nband 3 4\nstop 5 6\n"
        self.assertEqual(pack_text(one), pack_text(two))

    def test_lists_keep_their_order(self):
        text = SIZES + "limit 9 1\nlimit 3 2\nblock 8 7\nblock 6 5\nbalise 5 4\nbalise 3 2\n"
        self.assertEqual(unpacked_numbers(pack_text(text)),
                         [7, 100, 2, 2, 10, 20, 2, 9, 3, 1, 2, 8, 6, 7, 5, 5, 3, 4, 2, 0])

    def test_largest_lists(self):
        for word in ("limit", "balise"):
            data = pack_text(SIZES + f"{word} 1 2\n" * 65535)
            self.assertEqual(len(data), 2 * (8 + 2 * 65535))
            self.assertEqual(pack_text(show_text(data)), data)


class Text(unittest.TestCase):
    def test_class_names_and_numbers(self):
        for word, number in [("intercity", 0), ("stopping", 1), ("goods", 2), ("0", 0), ("2", 2),
                             ("3", 3), ("65535", 65535)]:
            data = pack_text(SIZES + f"train {word}\nlength 1\n")
            self.assertEqual(unpacked_numbers(data)[8:], [number, 1, 0, 0])

    def test_show_names_the_classes(self):
        text = SIZES + "".join(f"train {number}\nlength 1\n" for number in range(4))
        heads = [line.split()[:2] for line in show_text(pack_text(text)).splitlines()
                 if line.startswith("train")]
        self.assertEqual(heads, [["train", "intercity"], ["train", "stopping"],
                                 ["train", "goods"], ["train", "3"]])

    def test_show_numbers_blocks_and_trains_as_the_sheet_does(self):
        text = show_text(packed_numbers(SAMPLE_NUMBERS))
        for comment in ["block 2 5           # block 2\n", "train intercity     # train 2\n"]:
            self.assertIn(comment, text)

    def test_balises_may_be_left_out(self):
        self.assertEqual(unpacked_numbers(pack_text(SIZES)), [7, 100, 0, 0, 10, 20, 0, 0])
        self.assertNotIn("\nbalise", show_text(pack_text(SIZES)))

    def test_balises_stand_behind_the_blocks(self):
        text = "balise 0 40\n" + SIZES + "limit 0 72\nbalise 6 0\nblock 0 2\n" + TRAIN
        numbers = [7, 100, 1, 1, 10, 20, 2, 0, 72, 0, 2, 0, 6, 40, 0, 1, 2, 600, 0, 0]
        self.assertEqual(unpacked_numbers(pack_text(text)), numbers)
        shown = show_text(packed_numbers(numbers))
        self.assertIn("# balise POINT METRES\nbalise 0 40\nbalise 6 0\n", shown)
        self.assertTrue(shown.index("\nblock 0 2") < shown.index("\nbalise 0 40") < shown.index("\ntrain goods"))

    def test_leading_zeros_and_long_zeros(self):
        data = pack_text("points 007\nstep -0\nset-up " + "0" * 5000 + "9\nrelease 65535\n")
        self.assertEqual(unpacked_numbers(data), [7, 0, 0, 0, 9, 65535, 0, 0])

    def test_files_that_the_calculator_refuses_can_be_written(self):
        text = ("points 0\nstep 65535\nset-up 0\nrelease 0\nblock 9 3\nbalise 8 65535\nbalise 8 7\n"
                "train 7\nlength 0\nstop 9 9\nstop 9 9\n")
        self.assertEqual(unpacked_numbers(pack_text(text)),
                         [0, 65535, 0, 1, 0, 0, 2, 9, 3, 8, 8, 65535, 7, 1, 7, 0, 0, 2, 9, 9, 9, 9])

    def test_marks_of_other_systems(self):
        plain = SIZES + TRAIN
        for data in [plain.replace("\n", "\r\n").encode(), plain.replace("\n", "\r").encode(),
                     b"\xef\xbb\xbf" + plain.encode(), plain.rstrip("\n").encode(),
                     ("# Zürich\u2028points 3\n" + plain).encode()]:
            self.assertEqual(pack_text(linetext.decode(data)), pack_text(plain))

    def test_example_in_the_help_packs(self):
        text = linefile_command.HELP
        example = text[text.index("  points 7"):text.index("  linefile pack")]
        numbers = unpacked_numbers(pack_text(example))
        self.assertEqual(numbers, SAMPLE_NUMBERS[:13] + [1] + SAMPLE_TRAIN)


TEXT_FAULTS = [
    ("points seven", 1, "'seven' is not a whole number"),
    ("points 7.0", 1, "'7.0' is not a whole number"),
    ("points 1_000", 1, "'1_000' is not a whole number"),
    ("points +7", 1, "'+7' is not a whole number"),
    ("points \u0667", 1, "'\u0667' is not a whole number"),
    ("\n\nlimit 0 72km/h", 3, "'72km/h' is not a whole number"),
    (SIZES + "balise 3 0.5", 5, "'0.5' is not a whole number"),
    (SIZES + "train 1.5", 5, "'1.5' is not a whole number"),
    ("points 65536", 1, "65536 does not fit 16 bits (0 to 65535)"),
    ("points -1", 1, "-1 does not fit 16 bits (0 to 65535)"),
    ("points 1" + "0" * 5000, 1, "0.. does not fit 16 bits (0 to 65535)"),
    (SIZES + "limit 0 99999", 5, "99999 does not fit 16 bits (0 to 65535)"),
    (SIZES + "balise 3 -1", 5, "-1 does not fit 16 bits (0 to 65535)"),
    (SIZES + "train 65536", 5, "65536 does not fit 16 bits (0 to 65535)"),
    ("", 1, "the description of the line ends here without 'points' and 'step' and 'set-up' and 'release'"),
    (SIZES.replace("step 100\n", "") + "limit 0 5\n\n", 4,
     "the description of the line ends here without 'step'"),
    (SIZES.replace("step 100\n", "") + TRAIN + TRAIN, 4,
     "the description of the line ends here without 'step'"),
    (SIZES + TRAIN + "train goods\nband 1 1\n" + TRAIN, 7, "this train is without 'length'"),
    (SIZES + "train goods", 5, "this train is without 'length'"),
    (SIZES + "step 100", 5, "'step' is given twice"),
    (SIZES + TRAIN + "length 600", 7, "'length' is given twice"),
    ("points 7\npionts 7", 2, "unknown word 'pionts'; known: points, step, set-up,"),
    ("Points 7", 1, "unknown word 'Points'"),
    ("points 7\n7", 2, "unknown word '7'"),
    (SIZES + "train freight", 5, "unknown class 'freight'; write intercity, stopping, goods or a number"),
    ("points", 1, "too few numbers; write: points COUNT"),
    ("limit 0 # 72", 1, "too few numbers; write: limit POINT KMH"),
    ("balise 3", 1, "too few numbers; write: balise POINT METRES"),
    (SIZES + "train", 5, "too few numbers; write: train CLASS"),
    (SIZES + TRAIN + "stop 5", 7, "too few numbers; write: stop POINT DWELL"),
    ("step 100 m", 1, "too many numbers; write: step METRES"),
    ("block 0 2 5", 1, "too many numbers; write: block START END"),
    ("balise 3 45 m", 1, "too many numbers; write: balise POINT METRES"),
    (SIZES + "train goods 600", 5, "too many numbers; write: train CLASS"),
    (SIZES + TRAIN + "band 1 2 3", 7, "too many numbers; write: band TOP RATE"),
    (SIZES + "length 100\n" + TRAIN, 5, "'length' outside a train; first open one: train CLASS"),
    ("band 1 2", 1, "'band' outside a train; first open one: train CLASS"),
    ("stop 1 2", 1, "'stop' outside a train; first open one: train CLASS"),
    (SIZES + TRAIN + "limit 0 72", 7, "'limit' belongs to the line and stands before the first train"),
    (SIZES + TRAIN + "balise 3 45", 7, "'balise' belongs to the line and stands before the first train"),
    (SIZES + TRAIN + "points 7", 7, "'points' belongs to the line and stands before the first train"),
]

for _word, _text in [("limit", SIZES), ("block", SIZES), ("balise", SIZES),
                     ("band", SIZES + TRAIN), ("stop", SIZES + TRAIN)]:
    TEXT_FAULTS.append((_text + f"{_word} 0 0\n" * 65536, _text.count("\n") + 65536,
                        f"more than 65535 of '{_word}' do not fit the file"))
TEXT_FAULTS.append((SIZES + TRAIN * 65536, 4 + 2 * 65535 + 1,
                    "more than 65535 of 'train' do not fit the file"))


class FaultsOfTheText(unittest.TestCase):
    def test_messages_with_line_number(self):
        for text, number, message in TEXT_FAULTS:
            with self.subTest(text=text[:80]):
                with self.assertRaises(linetext.Fault) as caught:
                    pack_text(text)
                self.assertEqual(caught.exception.status, 2)
                self.assertRegex(str(caught.exception), f"^line {number}: ")
                self.assertIn(message, str(caught.exception))

    def test_nothing_is_written(self):
        with tempfile.TemporaryDirectory() as folder:
            new, old = os.path.join(folder, "new"), os.path.join(folder, "old")
            with open(old, "wb") as stream:
                stream.write(b"kept")
            for target in ["-", new, old]:
                done = run_tool("pack", "-", target, given=b"points 7\nstep x\n")
                self.assertEqual((done.returncode, done.stdout), (2, b""))
                self.assertEqual(done.stderr, b"linefile: standard input: line 2: 'x' is not a whole number\n")
            self.assertFalse(os.path.exists(new))
            self.assertEqual(read(old), b"kept")

    def test_message_names_the_text(self):
        with tempfile.TemporaryDirectory() as folder:
            name = os.path.join(folder, "bad.txt")
            with open(name, "w") as stream:
                stream.write("points\n")
            done = run_tool("pack", name)
            self.assertEqual(done.stderr.decode(),
                             f"linefile: {name}: line 1: too few numbers; write: points COUNT\n")

    def test_text_that_is_no_text(self):
        done = run_tool("pack", given=b"points 7\n\nstep \xff\n")
        self.assertEqual((done.returncode, done.stdout), (2, b""))
        self.assertIn(b"line 3: this is not text in UTF-8", done.stderr)


class FaultsOfTheFile(unittest.TestCase):
    def fault_of(self, data):
        with self.assertRaises(linetext.FileFault) as caught:
            show_text(data)
        self.assertEqual(caught.exception.status, 1)
        return str(caught.exception)

    def test_every_cut_of_the_sample(self):
        data = packed_numbers(SAMPLE_NUMBERS)
        for size in range(len(data)):
            self.assertRegex(self.fault_of(data[:size]),
                             f"^cut short: .* but the file has {size} bytes?$")

    def test_cuts_and_additions_of_random_files(self):
        dice = random.Random(4)
        for _ in range(200):
            data = random_file(dice)
            self.assertIn("cut short", self.fault_of(data[:dice.randrange(len(data))]))
            extra = dice.randrange(1, 9)
            self.assertEqual(self.fault_of(data + bytes(extra)),
                             "bytes left over: the last announced train ends with byte"
                             f" {len(data) - 1}, but the file has {len(data) + extra} bytes")

    def test_the_place_of_the_cut_is_named(self):
        data = packed_numbers([7, 100, 1, 1, 0, 0, 1, 0, 72, 0, 2, 3, 45, 1, 0, 100, 1, 1, 72, 50, 6, 0])
        places = {0: "the sizes should fill bytes 0 to 13", 13: "the sizes should fill bytes 0 to 13",
                  14: "the limit points should fill bytes 14 to 15",
                  17: "the limits should", 18: "the block starts should", 20: "the block ends should",
                  22: "the balise points should fill bytes 22 to 23",
                  25: "the metres of the balises should fill bytes 24 to 25",
                  26: "the number of trains should", 28: "the sizes of train 1 of 1 should fill bytes 28 to 35",
                  36: "the band tops of train 1 of 1 should", 38: "the rates of train 1 of 1 should",
                  40: "the stop points of train 1 of 1 should", 43: "the dwells of train 1 of 1 should"}
        for size, place in places.items():
            self.assertIn(place, self.fault_of(data[:size]))

    def test_status_and_output(self):
        data = packed_numbers(SAMPLE_NUMBERS)
        for given, word in [(b"", b"cut short"), (data[:-1], b"cut short"), (data + b"\0", b"bytes left over")]:
            done = run_tool("show", given=given)
            self.assertEqual((done.returncode, done.stdout), (1, b""))
            self.assertIn(b"linefile: standard input: " + word, done.stderr)


class Commands(unittest.TestCase):
    def test_standard_input_and_output(self):
        data, text = packed_numbers(SAMPLE_NUMBERS), read(SAMPLE)
        for arguments in [("pack",), ("pack", "-"), ("pack", "-", "-")]:
            self.assertEqual(run_tool(*arguments, given=text).stdout, data)
        for arguments in [("show",), ("show", "-")]:
            done = run_tool(*arguments, given=data)
            self.assertEqual((done.returncode, done.stdout.decode()), (0, show_text(data)))

    def test_named_files(self):
        with tempfile.TemporaryDirectory() as folder:
            name = os.path.join(folder, "sample.line")
            done = run_tool("pack", SAMPLE, name)
            self.assertEqual((done.returncode, done.stdout, done.stderr), (0, b"", b""))
            self.assertEqual(read(name), packed_numbers(SAMPLE_NUMBERS))
            self.assertEqual(run_tool("show", name).stdout.decode(), show_text(read(name)))

    def test_pack_refuses_a_terminal(self):
        ours, theirs = pty.openpty()
        try:
            done = subprocess.run([TOOL, "pack", SAMPLE], stdout=theirs, stderr=subprocess.PIPE)
            self.assertEqual(done.returncode, 2)
            self.assertIn(b"standard output is a terminal", done.stderr)
            os.set_blocking(ours, False)
            self.assertRaises(BlockingIOError, os.read, ours, 1)
        finally:
            os.close(ours)
            os.close(theirs)

    def test_pack_does_not_overwrite_its_text(self):
        with tempfile.TemporaryDirectory() as folder:
            name = os.path.join(folder, "sample.txt")
            with open(name, "wb") as stream:
                stream.write(read(SAMPLE))
            done = run_tool("pack", name, name)
            self.assertEqual(done.returncode, 2)
            self.assertIn(b"is the text itself", done.stderr)
            self.assertEqual(read(name), read(SAMPLE))

    def test_files_that_cannot_be_opened(self):
        for arguments in [("pack", "/no/such.txt"), ("show", "/no/such.line"),
                          ("pack", SAMPLE, "/no/such.line"), ("pack", SAMPLE, ROOT)]:
            done = run_tool(*arguments)
            self.assertEqual((done.returncode, done.stdout), (2, b""))
            self.assertRegex(done.stderr.decode(), f"^linefile: {arguments[-1]} (cannot be read|was not written|is a directory)")

    def test_reader_that_goes_away(self):
        ours, theirs = os.pipe()
        os.close(ours)
        try:
            done = subprocess.run([TOOL, "show"], input=packed_numbers(SAMPLE_NUMBERS),
                                  stdout=theirs, stderr=subprocess.PIPE)
            self.assertEqual((done.returncode, done.stderr), (2, b"linefile: standard output was not written: Broken pipe\n"))
        finally:
            os.close(theirs)

    def test_output_that_is_not_written(self):
        for arguments in [("pack", SAMPLE), ("show", "-"), ("--help",), ("pack", "--help"), ("--version",)]:
            given = packed_numbers(SAMPLE_NUMBERS)
            with open("/dev/full", "wb") as full:
                done = subprocess.run([TOOL, *arguments], input=given, stdout=full, stderr=subprocess.PIPE)
            self.assertEqual((done.returncode, done.stderr),
                             (2, b"linefile: standard output was not written: No space left on device\n"))
            done = subprocess.run([TOOL, *arguments], input=given, stderr=subprocess.PIPE, preexec_fn=lambda: os.close(1))
            self.assertEqual((done.returncode, done.stderr), (2, b"linefile: standard output is closed, so nothing can be printed\n"))
        self.assertEqual(run_tool("pack", SAMPLE, "/dev/full").stderr,
                         b"linefile: /dev/full was not written: No space left on device\n")

    def test_a_file_that_cannot_be_written_whole_keeps_what_it_had(self):
        with tempfile.TemporaryDirectory() as folder:
            name = os.path.join(folder, "old.line")
            with open(name, "wb") as stream:
                stream.write(b"before")
            done = run_tool("pack", SAMPLE, name, preexec_fn=lambda: resource.setrlimit(resource.RLIMIT_FSIZE, (10, 10)))
            self.assertEqual((done.returncode, done.stderr), (2, f"linefile: {name} was not written: File too large\n".encode()))
            self.assertEqual((read(name), os.listdir(folder)), (b"before", ["old.line"]))

    def test_access_rights(self):
        with tempfile.TemporaryDirectory() as folder:
            new, old, link = (os.path.join(folder, name) for name in ("new.line", "old.line", "link.line"))
            with open(old, "wb"):
                os.chmod(old, 0o640)
            os.symlink(old, link)
            for name in (new, link):
                self.assertEqual(run_tool("pack", SAMPLE, name, umask=0o027).returncode, 0)
                self.assertEqual(len(read(name)), 68)
            self.assertEqual([os.stat(name).st_mode & 0o777 for name in (new, old)], [0o640, 0o640])
            self.assertTrue(os.path.islink(link))

    def test_texts_are_not_overwritten(self):
        with tempfile.TemporaryDirectory() as folder:
            text, other = os.path.join(folder, "a.text"), os.path.join(folder, "b.txt")
            for name in (text, other):
                shutil.copy(SAMPLE, name)
            done = run_tool("pack", text, other)
            self.assertEqual((done.returncode, done.stderr),
                             (2, f"linefile: {other} ends in .txt, as texts do; a line file needs another name\n".encode()))
            with open(text, "rb") as stream:
                done = subprocess.run([TOOL, "pack", "-", text], stdin=stream, capture_output=True)
            self.assertEqual(done.returncode, 2)
            self.assertIn(b"is the text itself", done.stderr)
            self.assertEqual([read(text), read(other)], 2 * [read(SAMPLE)])

    def test_closed_standard_error(self):
        done = subprocess.run([TOOL, "show"], input=b"", stdout=subprocess.PIPE, preexec_fn=lambda: os.close(2))
        self.assertEqual((done.returncode, done.stdout), (1, b""))

    def test_endless_input(self):
        for word in ("pack", "show"):
            done = run_tool(word, "/dev/zero")
            self.assertEqual((done.returncode, done.stdout), (2, b""))
            self.assertIn(b"/dev/zero has more than 16777216 bytes", done.stderr)

    def test_directory_as_standard_input(self):
        given = os.open(ROOT, os.O_RDONLY)
        done = subprocess.run([TOOL, "show"], stdin=given, capture_output=True)
        os.close(given)
        self.assertEqual((done.returncode, done.stdout, done.stderr),
                         (2, b"", b"linefile: standard input is a directory, not a file\n"))

    def test_interrupt(self):
        ours, theirs = os.pipe()
        with subprocess.Popen([TOOL, "pack"], stdin=ours, stdout=subprocess.PIPE, stderr=subprocess.PIPE,
                              preexec_fn=with_interrupts) as running:
            os.write(theirs, b"points")
            taken(running, ours)
            running.send_signal(signal.SIGINT)
            self.assertEqual((*running.communicate(timeout=SECONDS), running.returncode), (b"", b"", 130))
        os.close(ours)
        os.close(theirs)

    def test_long_words_are_cut(self):
        for text in (f"points {'7' * 10 ** 6}", f"{'x' * 10 ** 6} 7", f"train {'x' * 10 ** 6}", f"points {'x' * 10 ** 6}"):
            done = run_tool("pack", given=text.encode())
            self.assertEqual(done.returncode, 2)
            self.assertLess(len(done.stderr), 300)

    def test_help(self):
        for arguments in [("--help",), ("pack", "--help"), ("show", "--help")]:
            self.assertEqual(run_tool(*arguments).returncode, 0)
        self.assertIn(b"linefile pack sample.txt sample.line", run_tool("--help").stdout)

    def test_wrong_commands(self):
        for arguments in [(), ("draw",), ("pack", "a", "b", "c"), ("show", "a", "b")]:
            done = run_tool(*arguments)
            self.assertEqual((done.returncode, done.stdout), (2, b""))
            self.assertIn(b"usage: linefile", done.stderr)


class Examples(unittest.TestCase):
    def test_sample_is_the_sample_of_the_documents(self):
        data = run_tool("pack", SAMPLE).stdout
        self.assertEqual(len(data), 68)
        self.assertEqual(data, packed_numbers(SAMPLE_NUMBERS))

    def test_examples_round_trip(self):
        for name in [SAMPLE, VALLEY, TUNNEL]:
            data = run_tool("pack", name).stdout
            text = run_tool("show", given=data).stdout
            self.assertEqual(run_tool("pack", given=text).stdout, data)

    def test_valley_is_a_line_of_30_km_with_all_classes(self):
        line = linetext.read_text(read(VALLEY).decode())
        metres = (line.sizes["points"] - 1) * line.sizes["step"]
        self.assertTrue(29_000 <= metres <= 32_000)
        self.assertTrue(10 <= len(line.pairs["block"]) <= 20)
        self.assertTrue(10 <= len(line.pairs["balise"]) <= 30)
        self.assertTrue(6 <= len(line.trains) <= 10)
        self.assertEqual({train.train_class for train in line.trains}, {0, 1, 2})

    def test_valley_keeps_the_rules_of_the_line(self):
        line = linetext.read_text(read(VALLEY).decode())
        points, step = line.sizes["points"], line.sizes["step"]
        limits, blocks = line.pairs["limit"], line.pairs["block"]
        self.assertTrue(3 <= points <= 4096 and 1 <= step <= 100)
        self.assertEqual(limits[0][0], 0)
        self.assert_rising([point for point, _ in limits], 1, points - 2)
        self.assertTrue(all(1 <= limit <= 300 for _, limit in limits))
        self.assertEqual([start for start, _ in blocks], [0] + [end for _, end in blocks[:-1]])
        self.assert_rising([end for _, end in blocks], 1, points - 1)

    def test_valley_keeps_the_rules_of_the_balises(self):
        line = linetext.read_text(read(VALLEY).decode())
        points, step, balises = line.sizes["points"], line.sizes["step"], line.pairs["balise"]
        self.assertTrue(all(metres < step for _, metres in balises))
        self.assert_rising([point * step + metres for point, metres in balises], 1, (points - 1) * step)

    def test_valley_keeps_the_rules_of_the_trains(self):
        line = linetext.read_text(read(VALLEY).decode())
        last_point, step = line.sizes["points"] - 1, line.sizes["step"]
        last_end = line.pairs["block"][-1][1]
        for train in line.trains:
            bands, stops = train.pairs["band"], train.pairs["stop"]
            self.assertTrue(1 <= len(bands) <= 8 and len(stops) <= 32)
            self.assertTrue(1 <= train.sizes["length"] <= 1000)
            self.assert_rising([top for top, _ in bands], 1, 300)
            self.assertTrue(all(1 <= rate <= 200 for _, rate in bands))
            self.assert_rising([point for point, _ in stops], 2, last_point)
            self.assertTrue(all(dwell <= 3600 for _, dwell in stops))
            self.assertTrue(last_end * step + train.sizes["length"] <= last_point * step)

    def assert_rising(self, numbers, least_rise, greatest):
        self.assertTrue(all(b - a >= least_rise for a, b in zip(numbers, numbers[1:])))
        self.assertTrue(all(number <= greatest for number in numbers))


if __name__ == "__main__":
    unittest.main()
