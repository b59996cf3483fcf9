#!/usr/bin/env python3
"""Tests ./vellumrill batch, which computes all files of a folder into one CSV file, against the independent calculator.

    python3 tests/test_batch.py [--files N] [--seed N]

N damaged files are made at random from a seed, which is printed; --seed sets it.
"""
import csv
import os
import pty
import random
import re
import resource
import signal
import socket
import subprocess
import sys
import tempfile
import unittest
from collections import Counter
from pathlib import Path

sys.dont_write_bytecode = True

from damage_ways import base_file, questions
from knobs import take_options
from library import need_shared_object
from places import EXAMPLES, TOP_FOLDER
from processes import SECONDS, wait_until, with_interrupts
from yardstick import PROGRAM_BOUND, accepted_line, number_of, program, sample_line, write_line

from vellumrill.linetext import decode, from_bytes, read_text, to_bytes, write_text
from vellumrill.refusals import explanation

VELLUMRILL = TOP_FOLDER / "vellumrill"
HEADER = ["file", "verdict", "train", "class", "start_us", "run_us", "block", "number", "words"]
CLASSES = ("intercity", "stopping", "goods")
FILES = 150
SEED = 1
SAMPLE = write_line(sample_line())
TEXT = (EXAMPLES / "sample.txt").read_bytes()
OLD = b"an old table"
MOST_BYTES = 1 << 24                    # that a file may have which is read at all


def setUpModule():
    need_shared_object()


def batch(folder, out, **options):
    """A run of ./vellumrill batch."""
    options = {"stdout": subprocess.PIPE, "stderr": subprocess.PIPE, **options}
    return subprocess.run([VELLUMRILL, "batch", folder, "--csv", out], stdin=subprocess.DEVNULL, timeout=SECONDS, **options)


def table(out):
    """The header and the rows of a CSV file."""
    with open(out, newline="", encoding="utf-8", errors="surrogateescape") as file:
        header, *rows = csv.reader(file, strict=True)
    return header, rows


def line_file_of(name, content):
    """The bytes of the line file that a file of this name gives."""
    return to_bytes(read_text(decode(content))) if name.endswith(".txt") else content


def calculated_rows(name, data):
    """The rows of a file that can be read, as the calculator has them."""
    number = number_of(accepted_line, data)
    if number:
        return [[name, "refused", "", "", "", "", "", str(number), explanation(number, data)]]
    sheet = [line.split() for line in program(data).decode().splitlines()[1:]]
    return [[name, "accepted", row[0], CLASSES[train.cls], *row[1:], "", ""] for train, row in zip(accepted_line(data).trains, sheet)]


def failed_row(name, words):
    return [name, "failed", "", "", "", "", "", "", words]


def rows_of(files):
    """The calculator's rows of these files, in the order of their names."""
    return [row for name in sorted(files) for row in calculated_rows(name, line_file_of(name, files[name]))]


class Folders(unittest.TestCase):
    """Each test has a folder for the files, and a place for the CSV file."""

    def setUp(self):
        folder = tempfile.TemporaryDirectory()
        self.addCleanup(folder.cleanup)
        self.top = Path(folder.name)
        self.folder, self.out = self.top / "files", self.top / "out.csv"
        self.folder.mkdir()

    def put(self, files):
        for name, content in files.items():
            Path(self.folder, name).write_bytes(content)

    def done(self, status, **options):
        """A run, known to end with this status and without a traceback."""
        done = batch(self.folder, self.out, **options)
        self.assertEqual(done.returncode, status, done)
        self.assertNotIn(b"Traceback", done.stderr)
        return done

    def rows(self):
        header, rows = table(self.out)
        self.assertEqual(header, HEADER)
        return rows


# ------------------------------------------------------------ rows

class Rows(Folders):
    def test_accepted(self):
        """Line files and line texts of the same lines, and the examples."""
        rng, files = random.Random(SEED), {path.name: path.read_bytes() for path in EXAMPLES.glob("*.txt")}
        for at in range(12):
            data = base_file(rng)
            files[f"line-{at}"], files[f"text-{at}.txt"] = data, write_text(from_bytes(data)).encode()
        self.put(files)
        self.done(0)
        self.assertEqual(self.rows(), rows_of(files))
        self.assertEqual({row[1] for row in self.rows()}, {"accepted"})

    def test_damaged(self):
        """Each refused file has one row with the calculator's number."""
        rng = random.Random(SEED)
        files = {f"{at:04}": data for at, (data, *_) in enumerate(questions(rng, FILES))}
        self.put({**files, "zz": b""})
        self.done(1)
        self.assertEqual(self.rows(), rows_of({**files, "zz": b""}))

    def test_words(self):
        line = sample_line()
        line.trains[1].stops = [0, 1]
        self.put({"a": write_line(line), "b": b"", "c": SAMPLE[:-1], "d": SAMPLE + b"ab",
                  "e.txt": TEXT.replace(b"length 100", b"length 101")})
        self.done(1)
        words = {row[0]: (row[7], row[8]) for row in self.rows()}
        for name, number, part in (("a", "8", "train 2, stop 2 of 2: point 1 is less than two points after the stop before it"),
                                   ("b", "1", "the sizes should fill bytes 0 to 13, but the file has 0 bytes"),
                                   ("c", "1", "the dwells of train 2 of 2 should fill bytes 64 to 67, but the file has 67 bytes"),
                                   ("d", "2", "2 bytes follow the last announced train"),
                                   ("e.txt", "9", "train 1: its length of 101 m"), ("e.txt", "9", "of the text)")):
            self.assertEqual(words[name][0], number)
            self.assertIn(part, words[name][1])

    def test_files_longer_than_the_program_reads(self):
        """The library has no bound, so the rules give the number."""
        for content in (b"\x01" * (PROGRAM_BOUND + 1), b"\xff" * 3 * PROGRAM_BOUND):
            self.put({"a": content})
            self.done(1)
            self.assertEqual(self.rows(), calculated_rows("a", content))

    def test_most_bytes(self):
        self.put({"a": SAMPLE})
        os.truncate(self.folder / "a", MOST_BYTES)
        self.done(1)
        [[_, verdict, *_, number, _]] = self.rows()
        self.assertEqual((verdict, number), ("refused", "2"))

    def test_files_that_cannot_be_read(self):
        """Each has a row `failed` that says why, and stops nothing."""
        self.put({"a": SAMPLE, "slip.txt": b"points 7\nstep x\n", "empty.txt": b"", "latin.txt": b"points \xff\n", "bytes.txt": SAMPLE,
                  "text": TEXT, "long": b"", "long.txt": b"", "z.txt": TEXT})
        for name in ("long", "long.txt"):
            os.truncate(self.folder / name, MOST_BYTES + 1)
        for name, target in (("nowhere", "no such"), ("memory", "/proc/self/mem")):
            (self.folder / name).symlink_to(target)
        self.done(2)
        at = os.path.join(self.folder, "")
        wanted = [failed_row(name, at + words) for name, words in (
            ("bytes.txt", "bytes.txt has a byte 0, so it is no line text in UTF-8; a line file needs a name that does not end in .txt"),
            ("empty.txt", "empty.txt: line 1: the description of the line ends here without 'points' and 'step' and 'set-up' and"
                          " 'release'"),
            ("latin.txt", "latin.txt: line 1: this is not text in UTF-8"),
            ("long", f"long has more than {MOST_BYTES} bytes, which no accepted line file has"),
            ("long.txt", "long.txt has a byte 0, so it is no line text in UTF-8; a line file needs a name that does not end in .txt"),
            ("memory", "memory cannot be read: Input/output error"),
            ("nowhere", "nowhere cannot be read: No such file or directory"),
            ("slip.txt", "slip.txt: line 2: 'x' is not a whole number"),
            ("text", "text is a line text, not a line file: give it as a file whose name ends in .txt, or pack it first by"
                     " `tools/linefile pack`"))]
        self.assertEqual(self.rows(), [*calculated_rows("a", SAMPLE), *wanted, *calculated_rows("z.txt", SAMPLE)])

    def test_links_to_files(self):
        (self.top / "there").write_bytes(SAMPLE)
        (self.folder / "link").symlink_to("../there")
        self.done(0)
        self.assertEqual(self.rows(), calculated_rows("link", SAMPLE))

    def test_links_in_a_circle(self):
        self.put({"a": SAMPLE})
        (self.folder / "circle").symlink_to("circle")
        self.done(2)
        self.assertEqual([row[:2] for row in self.rows()], [["a", "accepted"]] * 2 + [["circle", "failed"]])

    def test_links_through_a_file(self):
        self.put({"a": SAMPLE})
        (self.folder / "through").symlink_to("a/b")
        self.done(2)
        self.assertEqual([row[:2] for row in self.rows()], [["a", "accepted"]] * 2 + [["through", "failed"]])


class Names(Folders):
    def test_hidden_files_folders_and_pipes_are_left_out(self):
        self.put({"a": SAMPLE, ".hidden": b"", ".hidden.txt": b"x"})
        for name in ("folder", "folder.txt"):
            (self.folder / name).mkdir()
            (self.folder / name / "b").write_bytes(b"")
        for name in ("pipe", "pipe.txt"):
            os.mkfifo(self.folder / name)
        for name, target in (("to-pipe", "pipe"), ("to-zero", "/dev/zero"), ("to-folder", "folder")):
            (self.folder / name).symlink_to(target)
        with socket.socket(socket.AF_UNIX) as listening:
            listening.bind(str(self.folder / "socket"))
            done = self.done(0)
        self.assertEqual(self.rows(), calculated_rows("a", SAMPLE))
        self.assertIn(b"1 of 1 files", done.stderr)
        self.assertEqual(done.stdout.splitlines()[-1], b"  left out  10 that are folders, hidden or no plain files")

    def test_odd_names_survive(self):
        """Rows stand in the order of the names, and every name is as it was."""
        names = ["a b", " ", "a,b", 'a"b', '"', "'", "a\nb", "\n", "a\\b", "=1+1", "-x", "--csv", "*", "ä", "Z", "z", "10", "9", "é.txt",
                 "日本", "a,b\n.txt", "\t", "a;b", "%s", "{}", os.fsdecode(b"\xff\xfe"), os.fsdecode(b"a\xe4.txt"), "x" * 255]
        files = {name: TEXT if name.endswith(".txt") else SAMPLE for name in names}
        self.put(files)
        self.done(0)
        self.assertEqual([row[0] for row in self.rows()], [name for name in sorted(os.listdir(self.folder)) for _ in range(2)])
        self.assertEqual(self.rows(), rows_of(files))

    def test_odd_names_in_what_is_told(self):
        name = os.fsdecode(b'a "\n\xff,.txt')
        self.put({name: b"points x\n"})
        self.done(2)
        self.assertEqual(self.rows(), [failed_row(name, f"{self.folder}/{name}: line 1: 'x' is not a whole number")])

    def test_carriage_returns_in_names(self):
        self.put({"a\rb": SAMPLE})
        self.done(0)
        self.assertEqual(self.rows(), calculated_rows("a\rb", SAMPLE))

    def test_odd_name_of_the_folder(self):
        for name in (b"a b", b"\xff", b"-", b"a.csv"):
            folder = self.top / os.fsdecode(name)
            folder.mkdir()
            (folder / "a").write_bytes(SAMPLE)
            done = batch(folder, self.out)
            self.assertEqual((done.returncode, self.rows()), (0, calculated_rows("a", SAMPLE)))

    def test_relative_names(self):
        self.put({"a": SAMPLE, "-b": b""})
        done = batch(".", "out.csv", cwd=self.folder)
        self.out = self.folder / "out.csv"
        self.assertEqual((done.returncode, self.rows()), (1, rows_of({"a": SAMPLE, "-b": b""})))


# ------------------------------------------------------------ the CSV file

class Out(Folders):
    def check_failed(self, done, words, old=True):
        """Status 2 and a sentence, and nothing else; an old table keeps its bytes."""
        self.assertEqual((done.returncode, done.stdout), (2, b""))
        self.assertIn(f"vellumrill: {words}\n", done.stderr.decode())
        self.assertNotIn(b"Traceback", done.stderr)
        if old:
            self.assertEqual(self.out.read_bytes(), OLD)
        self.assertEqual({path.name for path in self.top.iterdir()} - {"files", "out.csv", "old.csv"}, set())

    def test_bytes(self):
        """The whole file: commas, lines that end in a newline, no other quotes than are needed."""
        self.put({"a": SAMPLE, "b": b"\x07\0", "c,d.txt": b"points\n"})
        self.done(2)
        wanted = ("file,verdict,train,class,start_us,run_us,block,number,words\n"
                  "a,accepted,1,intercity,0,69282976,0,,\na,accepted,2,intercity,57282976,69282976,2,,\n"
                  'b,refused,,,,,,1,"the file is cut short: the sizes should fill bytes 0 to 13, but the file has 2 bytes"\n'
                  f'"c,d.txt",failed,,,,,,,"{self.folder}/c,d.txt: line 1: too few numbers; write: points COUNT"\n')
        self.assertEqual(self.out.read_text(), wanted)

    def test_in_the_folder_itself(self):
        """The CSV file is not taken as input the second time, whatever its name or a link is."""
        self.put({"a": SAMPLE})
        for name in ("out.csv", "./sub/../out.csv"):
            (self.folder / "sub").mkdir(exist_ok=True)
            self.out = self.folder / name
            for _ in range(2):
                self.assertIn(b"1 of 1 files", self.done(0).stderr)
                self.assertEqual(self.rows(), calculated_rows("a", SAMPLE))

    def test_link_to_it_in_the_folder(self):
        self.put({"a": SAMPLE})
        (self.folder / "link.csv").symlink_to(self.out)
        self.out = self.folder / "link.csv"
        for _ in range(2):
            self.done(0)
            self.assertEqual(self.rows(), calculated_rows("a", SAMPLE))
            self.assertTrue(self.out.is_symlink())

    def test_another_csv_file_in_the_folder_is_taken(self):
        self.put({"a": SAMPLE, "old.csv": b"file,verdict\n"})
        self.done(1)
        self.assertEqual([row[:2] for row in self.rows()][2:], [["old.csv", "refused"]])

    def test_old_one_is_replaced_and_keeps_its_rights(self):
        self.put({"a": SAMPLE})
        self.out.write_bytes(OLD)
        self.out.chmod(0o640)
        self.done(0)
        self.assertEqual((self.rows(), self.out.stat().st_mode & 0o7777), (calculated_rows("a", SAMPLE), 0o640))

    def test_name_that_is_no_csv(self):
        self.put({"a": SAMPLE})
        self.out.write_bytes(OLD)
        for name in ("out", "out.CSV", "out.csv.txt", "csv", ".csv"):
            out = self.top / name
            self.check_failed(batch(self.folder, out), f"{out} is no name of a CSV file: it has to end in .csv")

    def test_missing_out(self):
        done = subprocess.run([VELLUMRILL, "batch", self.folder], capture_output=True, timeout=SECONDS)
        self.assertEqual((done.returncode, done.stdout), (2, b""))
        self.assertIn(b"the following arguments are required: --csv", done.stderr)

    def test_folder_without_files(self):
        self.out.write_bytes(OLD)
        self.put({".hidden": SAMPLE})
        (self.folder / "folder").mkdir()
        self.check_failed(batch(self.folder, self.out), f"{self.folder} has no files; folders in it are not entered")
        (self.folder / "out.csv").write_bytes(OLD)
        self.check_failed(batch(self.folder, self.folder / "out.csv"), f"{self.folder} has no files; folders in it are not entered")

    def test_folder_that_cannot_be_read(self):
        self.out.write_bytes(OLD)
        self.put({"a": SAMPLE})
        for folder, words in (("/no/such", "No such file or directory"), (self.folder / "a", "Not a directory"),
                              ("", "No such file or directory")):
            self.check_failed(batch(folder, self.out), f"{folder} cannot be read: {words}")

    def test_out_that_cannot_be_written(self):
        """This is known before the first file is taken."""
        self.put({"a": SAMPLE})
        out = self.top / "no" / "out.csv"
        self.check_failed(batch(self.folder, out), f"{out} was not written: No such file or directory", old=False)
        self.out.mkdir()
        self.check_failed(batch(self.folder, self.out), f"{self.out} was not written: Is a directory", old=False)
        self.out.rmdir()
        self.out.symlink_to("/dev/full")
        self.check_failed(batch(self.folder, self.out), f"{self.out} was not written: No space left on device", old=False)

    def test_out_that_is_not_written_to_its_end(self):
        """An old table keeps its bytes, and nothing is left beside it."""
        self.put({"a": SAMPLE})
        self.out.write_bytes(OLD)
        done = batch(self.folder, self.out, preexec_fn=lambda: resource.setrlimit(resource.RLIMIT_FSIZE, (100, 100)))
        self.check_failed(done, f"{self.out} was not written: File too large")

    def test_standard_output_that_is_not_written(self):
        self.put({"a": SAMPLE})
        with open("/dev/full", "wb") as full:
            done = self.done(2, stdout=full)
        self.assertIn(b"vellumrill: standard output was not written: No space left on device\n", done.stderr)
        self.out.write_bytes(OLD)
        done = self.done(2, stdout=None, preexec_fn=lambda: os.close(1))
        self.assertEqual((done.stderr, self.out.read_bytes()), (b"vellumrill: standard output is closed, so nothing can be printed\n", OLD))


# ------------------------------------------------------------ what is told

def all_from(terminal):
    """All that was written to a terminal which nobody has open any more."""
    told = b""
    with open(terminal, "rb", buffering=0) as file:
        try:
            while piece := file.read(1 << 12):
                told += piece
        except OSError:
            pass                        # the end
    return told.decode()


class Told(Folders):
    KINDS = {"accepted": SAMPLE, "refused": SAMPLE[:-1], "failed": TEXT}

    def test_exit_status(self):
        for kinds, status in ((["accepted"], 0), (["refused"], 1), (["failed"], 2), (["accepted", "refused"], 1),
                              (["accepted", "failed"], 2), (["refused", "failed"], 2), (["accepted", "refused", "failed"], 2)):
            for old in self.folder.iterdir():
                old.unlink()
            self.put({kind: self.KINDS[kind] for kind in kinds})
            self.done(status)
            self.assertEqual({row[1] for row in self.rows()}, set(kinds))

    def test_summary(self):
        """The counts are those of the rows, with one line for each rule that refused a file."""
        rng = random.Random(SEED + 1)
        self.put({f"{at:04}": data for at, (data, *_) in enumerate(questions(rng, 60))})
        self.put({f"ok-{at}": base_file(rng) for at in range(5)} | {f"text-{at}": TEXT for at in range(3)})
        done = self.done(2)
        rows = self.rows()
        files = Counter(verdict for _, verdict in {(row[0], row[1]) for row in rows})
        numbers = Counter(int(row[7]) for row in rows if row[7])
        lines = done.stdout.decode().splitlines()
        self.assertRegex(lines[0], rf"^68 files in \d+\.\d s; {re.escape(str(self.out))} has {len(rows)} rows$")
        trains = sum(row[1] == "accepted" for row in rows)
        self.assertEqual(lines[1:3], [f"  accepted  {files['accepted']} files with {trains} trains",
                                      f"  refused   {files['refused']} files"])
        told = [re.fullmatch(r"    (\d+) by rule (\d+): (.+)", line).groups() for line in lines[3:-1]]
        self.assertEqual({int(number): int(count) for count, number, _ in told}, numbers)
        self.assertEqual(lines[-1], "  failed    3 files that could not be read")
        self.assertEqual((files["failed"], sum(files.values()), sum(numbers.values())), (3, 68, files["refused"]))

    def test_progress(self):
        """At most ten lines, counting up to all files; the last has the counts of the rows."""
        for count in (1, 2, 9, 10, 11, 37, 100):
            self.put({f"{at:03}": list(self.KINDS.values())[at % 3] for at in range(count)})
            lines = batch(self.folder, self.out).stderr.decode().splitlines()
            done = [int(re.match(rf"vellumrill: (\d+) of {count} files: ", line)[1]) for line in lines]
            self.assertEqual((len(lines), sorted(set(done)), done[-1]), (min(count, 10), done, count))
            counts = Counter(verdict for _, verdict in {(row[0], row[1]) for row in self.rows()})
            self.assertEqual(lines[-1], f"vellumrill: {count} of {count} files: {counts['accepted']} accepted,"
                                        f" {counts['refused']} refused, {counts['failed']} failed")

    def test_progress_on_a_terminal(self):
        """One line, written anew for each file, with a newline behind the last alone."""
        self.put({f"{at:03}": SAMPLE for at in range(30)})
        ours, theirs = pty.openpty()
        try:
            self.assertEqual(batch(self.folder, self.out, stderr=theirs).returncode, 0)
        finally:
            os.close(theirs)
        told = all_from(ours)
        self.assertEqual(told, "".join(f"\r{at} of 30 files: {at} accepted, 0 refused, 0 failed" for at in range(1, 31)) + "\r\n")

    def test_closed_standard_error(self):
        self.put({"a": SAMPLE})
        done = self.done(0, preexec_fn=lambda: os.close(2))
        self.assertEqual((done.stderr, self.rows()), (b"", calculated_rows("a", SAMPLE)))


# ------------------------------------------------------------ signals

def is_there(group):
    """Whether a process of this group is left."""
    try:
        os.killpg(group, 0)
        return True
    except ProcessLookupError:
        return False


def on_two_cores():
    """In a new process: it is not done before it gets its signal, however many cores there are."""
    with_interrupts()
    os.sched_setaffinity(0, sorted(os.sched_getaffinity(0))[:2])


class Signals(Folders):
    COUNT = 3000                        # files, of which each takes a millisecond or more
    INTERRUPTED = b"vellumrill: interrupted, so nothing is written\n"

    def started(self):
        """A run that has done a tenth, and its first line."""
        line = sample_line()
        line.P, line.trains = 4096, 32 * line.trains
        (self.top / "heavy").write_bytes(write_line(line))
        self.out.write_bytes(OLD)
        for at in range(self.COUNT):
            os.link(self.top / "heavy", self.folder / f"{at:05}")
        running = subprocess.Popen([VELLUMRILL, "batch", self.folder, "--csv", self.out], stdin=subprocess.DEVNULL,
                                   stdout=subprocess.PIPE, stderr=subprocess.PIPE, start_new_session=True, preexec_fn=on_two_cores)
        return running, running.stderr.readline()

    def check_ended(self, send, status, last=b""):
        """It ends with the status, says no more than this, and leaves neither a process nor a changed file."""
        running, first = self.started()
        with running:
            self.assertEqual(first, b"vellumrill: %d of %d files: %d accepted, 0 refused, 0 failed\n"
                             % (self.COUNT // 10, self.COUNT, self.COUNT // 10))
            send(running.pid)
            printed, told = running.communicate(timeout=SECONDS)
        self.assertEqual((running.returncode, printed), (status, b""))
        self.assertLess(told.count(b"\n"), 9)
        self.assertRegex(told, rb"^(vellumrill: \d+ of \d+ files: .*\n)*" + last + b"$")
        wait_until(lambda: not is_there(running.pid), "a process is left behind")
        self.assertEqual((self.out.read_bytes(), {path.name for path in self.top.iterdir()}), (OLD, {"files", "heavy", "out.csv"}))

    def test_ctrl_c(self):
        """At a terminal all processes of the group get the signal."""
        self.check_ended(lambda running: os.killpg(running, signal.SIGINT), 130, self.INTERRUPTED)

    def test_interrupt_of_the_command_alone(self):
        self.check_ended(lambda running: os.kill(running, signal.SIGINT), 130, self.INTERRUPTED)

    def test_end_asked_for(self):
        self.check_ended(lambda running: os.kill(running, signal.SIGTERM), 128 + signal.SIGTERM)

    def test_worker_that_is_killed(self):
        """As by a system that is short of memory: the command fails with a sentence, and is not taken for one with refused files."""
        running, _ = self.started()
        with running:
            worker = Path(f"/proc/{running.pid}/task/{running.pid}/children").read_text().split()[0]
            os.kill(int(worker), signal.SIGKILL)
            _, told = running.communicate(timeout=SECONDS)
        self.assertEqual((running.returncode, self.out.read_bytes()), (2, OLD))
        self.assertNotIn(b"Traceback", told)


if __name__ == "__main__":
    FILES, SEED = take_options(FILES)
    unittest.main()
