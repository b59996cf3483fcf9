"""Computes the sheets of all files in a folder, and writes a CSV file with a row
for each train, or for the file where it is refused or cannot be read."""

import contextlib
import os
import signal
import time
from collections import Counter
from concurrent.futures import ProcessPoolExecutor
from concurrent.futures.process import BrokenProcessPool
from multiprocessing import get_context
from pathlib import Path
from typing import NamedTuple

from .. import binding, calls, inputs, linetext, refusals
from ..messages import Failure
from ..output import need_place_for, write_file
from ..readable import counted
from ..rules import RULES, Refusal
from ..running import FAILED, REFUSED, is_terminal
from ..tables import as_csv
from .asked import print_lines

HELP = "all files of a folder, on all cores, into one CSV file"
NOTES = """\
The files are those in DIR itself, in the order of their names, without hidden
ones; a line text has a name that ends in .txt, every other file is taken as a
line file. Times are in microseconds. A file that is refused or cannot be read
has a row that says why, and stops nothing. OUT is in UTF-8, but names of files
keep their own bytes.

exit status: 0 all files are accepted; 1 some are refused; 2 some cannot be
read, or nothing was written.
"""
HEADER = ("file", "verdict", "train", "class", "start_us", "run_us", "block", "number", "words")
ACCEPTED, REFUSED_FILE, FAILED_FILE = "accepted", "refused", "failed"


class Result(NamedTuple):
    """What came of one file."""
    verdict: str
    rows: list
    number: int = 0                     # of a refusal


def add_arguments(parser):
    parser.add_argument("folder", metavar="DIR", help="the folder with the files")
    parser.add_argument("--csv", metavar="OUT", required=True, help="the CSV file, a name that ends in .csv; an old one is replaced")


# ------------------------------------------------------------ one file

def train_rows(name, data):
    columns = calls.rows(data)
    return [(name, ACCEPTED, number, linetext.class_word(train.train_class), start, run, block, "", "")
            for number, (train, start, run, block) in enumerate(zip(linetext.from_bytes(data).trains, *columns), 1)]


def row_without_train(name, verdict, number, words):
    return [(name, verdict, "", "", "", "", "", number, words)]


def result_of(path):
    name = os.path.basename(path)
    try:
        given = inputs.whole(path)
        return Result(ACCEPTED, train_rows(name, given.data))
    except Refusal as refusal:
        words = refusals.explanation(refusal.number, *given)
        return Result(REFUSED_FILE, row_without_train(name, REFUSED_FILE, refusal.number, words), refusal.number)
    except Failure as failure:
        return Result(FAILED_FILE, row_without_train(name, FAILED_FILE, "", str(failure)))


# ------------------------------------------------------------ all files

def is_taken(entry):
    """Whether an entry of the folder is a file that is not hidden, or should be one: a link that leads nowhere."""
    if entry.name.startswith("."):
        return False
    try:
        return entry.is_file() or entry.is_symlink() and not os.path.exists(entry.path)
    except OSError:                     # a link in a circle, or through a file
        return True


def files_in(folder, out):
    """The files of the folder, and how many entries are left out. The file that is to be written is neither."""
    try:
        entries = [entry for entry in os.scandir(folder) if os.path.realpath(entry.path) != os.path.realpath(out)]
    except OSError as error:
        raise Failure(f"{folder} cannot be read: {error.strerror}") from None
    found = sorted(entry.path for entry in entries if is_taken(entry))
    if not found:
        raise Failure(f"{folder} has no files; folders in it are not entered")
    return found, len(entries) - len(found)


def leave_interrupts():
    """In a worker: Ctrl-C is told to the command alone, which ends its workers."""
    signal.signal(signal.SIGINT, signal.SIG_IGN)
    signal.signal(signal.SIGTERM, signal.SIG_DFL)


@contextlib.contextmanager
def interrupts_later():
    """Ctrl-C waits while the workers are started: there it could be lost."""
    before = signal.pthread_sigmask(signal.SIG_BLOCK, {signal.SIGINT})
    try:
        yield
    finally:
        signal.pthread_sigmask(signal.SIG_SETMASK, before)


def results(paths):
    """What comes of each file, in order, by as many processes as there are cores."""
    cores = len(os.sched_getaffinity(0))
    with ProcessPoolExecutor(cores, get_context("fork"), leave_interrupts) as workers:
        try:
            with interrupts_later():
                found = workers.map(result_of, paths, chunksize=max(1, min(16, len(paths) // (4 * cores))))
            yield from found
        except BrokenProcessPool:
            raise Failure("a process of this command was ended from outside, so nothing is written") from None
        except BaseException:
            workers.shutdown(wait=False, cancel_futures=True)
            raise


class Progress:
    """A line on standard error that tells how far the command is: written anew on a terminal, else ten times."""

    def __init__(self, files, say):
        self.files, self.say, self.counts = files, say, Counter()
        self.on_terminal = is_terminal(2)

    def line(self):
        return (f"{self.counts.total()} of {self.files} files: {self.counts[ACCEPTED]} accepted, {self.counts[REFUSED_FILE]} refused,"
                f" {self.counts[FAILED_FILE]} failed")

    def count(self, verdict):
        self.counts[verdict] += 1
        done = self.counts.total()
        if self.on_terminal:
            os.write(2, f"\r{self.line()}{chr(10) if done == self.files else ''}".encode())
        elif done * 10 // self.files > (done - 1) * 10 // self.files:
            self.say(self.line())

    def interrupted(self):
        if self.on_terminal:
            os.write(2, b"\n")
        self.say("interrupted, so nothing is written")


def all_results(paths, progress):
    found = []
    try:
        for result in results(paths):
            found.append(result)
            progress.count(result.verdict)
    except KeyboardInterrupt:
        progress.interrupted()
        raise
    return found


def summary(found, left_out, out, seconds):
    verdicts = Counter(result.verdict for result in found)
    numbers = Counter(result.number for result in found if result.number)
    trains = sum(len(result.rows) for result in found if result.verdict == ACCEPTED)
    yield f"{counted(len(found), 'file')} in {seconds:.1f} s; {out} has {counted(sum(len(result.rows) for result in found), 'row')}"
    yield f"  accepted  {counted(verdicts[ACCEPTED], 'file')} with {counted(trains, 'train')}"
    yield f"  refused   {counted(verdicts[REFUSED_FILE], 'file')}"
    for number in RULES:
        if numbers[number]:
            yield f"    {numbers[number]} by rule {number}: {RULES[number]}"
    yield f"  failed    {counted(verdicts[FAILED_FILE], 'file')} that could not be read"
    if left_out:
        yield f"  left out  {left_out} that are folders, hidden or no plain files"


def status_of(found):
    verdicts = {result.verdict for result in found}
    return FAILED if FAILED_FILE in verdicts else REFUSED if REFUSED_FILE in verdicts else 0


def run(asked, say):
    if Path(asked.csv).suffix != ".csv":
        raise Failure(f"{asked.csv} is no name of a CSV file: it has to end in .csv")
    began, (paths, left_out) = time.monotonic(), files_in(asked.folder, asked.csv)
    need_place_for(asked.csv)
    binding.library()                   # made and loaded once, before the workers are there
    found = all_results(paths, Progress(len(paths), say))
    write_file(asked.csv, as_csv(HEADER, (row for result in found for row in result.rows)))
    print_lines(summary(found, left_out, asked.csv, time.monotonic() - began))
    return status_of(found)
