"""The library for C, called from Python, with checks of all memory that is lent to it.

The shared object is linked from the archive that `tools/staticlib` writes; an archive that is older than its sources is not
taken. Every lent buffer is filled with a pattern first and has guard entries behind it; neither a dot nor the highest byte of a
squared speed or a time is that of the pattern.
"""
import ctypes
import sys
from ctypes import c_uint8, c_uint32, c_uint64

from places import TOP_FOLDER

from building import LIBRARY, out_of_date
from linking import is_old, link
from vellumrill.binding import CALLS, MOST_BLOCKS as PLACES, SHARED_OBJECT, HoldRecord, Sheet, declared  # noqa: F401

ARCHIVE = LIBRARY.path
INCLUDE = TOP_FOLDER / "include"
GUARDS = 8                              # entries behind each lent buffer
PATTERN = 0xA5                          # of each byte


class Touched(Exception):
    """Memory was written that the call must leave alone."""


def need_archive():
    """Ends the test where the archive is not there, or is older than something that it is made from."""
    if out_of_date(ARCHIVE, LIBRARY.crate):
        sys.exit("%s is not there or older than its sources: run `tools/staticlib`" % ARCHIVE.relative_to(TOP_FOLDER))


def need_shared_object():
    """The same of the shared object, which is linked from the archive where that alone is up to date."""
    if is_old():
        need_archive()
        link()


def untouched(what, kept):
    if not kept:
        raise Touched(what)


class Library:
    """The calls. Each checks the memory that it lends and raises Touched."""

    def __init__(self, path=None):
        if path is None:
            need_shared_object()
        loaded = declared(path or SHARED_OBJECT)
        for name in CALLS:
            setattr(self, name[len("vr_"):] + "_in_c", getattr(loaded, name))

    # ---- files

    def check_file(self, data):
        file = lent_file(data)
        number = self.check_file_in_c(file, len(data))
        untouched("file", bytes(file) == data)
        return number

    def check_train(self, data, k):
        file = lent_file(data)
        number = self.check_train_in_c(file, len(data), k)
        untouched("file", bytes(file) == data)
        return number

    def train_record(self, data, k):
        """The number, the start and the length."""
        file = lent_file(data)
        answer = self.train_record_in_c(file, len(data), k)
        untouched("file", bytes(file) == data)
        return answer.number, answer.start, answer.length

    def sizes(self, data):
        """The number, P, L, B and T."""
        file = lent_file(data)
        answer = self.sizes_in_c(file, len(data))
        untouched("file", bytes(file) == data)
        return answer.number, answer.points, answer.step, answer.blocks, answer.trains

    def run(self, data, k, speeds_length, times_length):
        """The number, and the entries written to both buffers."""
        lent = Lent(data, speeds_length, times_length)
        number = self.run_in_c(*lent.arguments(k))
        return number, *lent.written(number)

    def hold(self, data, k, speeds_length, times_length):
        """The number, the hold record, and the entries written to both buffers."""
        lent = Lent(data, speeds_length, times_length)
        answer = self.hold_in_c(*lent.arguments(k))
        return answer.number, answer.hold, *lent.written(answer.number)

    def diagram(self, data, k, length):
        """The number, the count of bytes, and the bytes written."""
        return self.bytes_of(self.diagram_in_c, data, [k], length)

    def bytes_of(self, call, data, arguments, length):
        """What a call answers and writes that is lent bytes alone."""
        file, lent = lent_file(data), filled(c_uint8, length)
        answer = call(file, len(data), *arguments, lent, length)
        untouched("file", bytes(file) == data)
        written = bytes(written_entries(lent, length))
        untouched("bytes on a refusal", answer.number == 0 or not written)
        return answer.number, answer.bytes, written

    # ---- whole files

    def rows(self, data, *lengths):
        """The number, T, and the entries written to the three columns: starts, running times and blocks."""
        file, columns = lent_file(data), [filled(c_uint64, length) for length in lengths]
        answer = self.rows_in_c(file, len(data), *[word for pair in zip(columns, lengths) for word in pair])
        untouched("file", bytes(file) == data)
        written = [written_entries(column, length) for column, length in zip(columns, lengths)]
        untouched("columns on a refusal", answer.number == 0 or not any(written))
        return answer.number, answer.trains, *written

    def study(self, data, length):
        """The number, the count of bytes, and the text written."""
        return self.bytes_of(self.study_in_c, data, [], length)

    # ---- sheets

    def open(self, blocks):
        """The number and the sheet, all zeros on a refusal."""
        sheet = Sheet.from_buffer_copy(bytes([PATTERN]) * ctypes.sizeof(Sheet))
        before = bytes(sheet)
        number = self.open_in_c(blocks, sheet)
        untouched("sheet on a refusal", number == 0 or bytes(sheet) == before)
        return number, Sheet() if number else sheet

    def add(self, sheet, hold):
        """The number, the start and the block; the sheet is altered where it lies."""
        before, hold_before = bytes(sheet), bytes(hold)
        answer = self.add_in_c(sheet, hold)
        untouched("hold record", bytes(hold) == hold_before)
        untouched("sheet on a refusal", answer.number == 0 or bytes(sheet) == before)
        return answer.number, answer.start, answer.block

    def headway(self, first, second):
        """The number and the headway."""
        before = bytes(first), bytes(second)
        answer = self.headway_in_c(first, second)
        untouched("hold record", (bytes(first), bytes(second)) == before)
        return answer.number, answer.headway

    def period(self, sheet):
        """The number, the period and the percentage."""
        before = bytes(sheet)
        answer = self.period_in_c(sheet)
        untouched("sheet", bytes(sheet) == before)
        return answer.number, answer.period, answer.percent

    def path(self, hold, starts, begins, ends, low, high):
        """The number, the start and the trains before it. A slice without entries is lent as a null pointer."""
        before, slices = bytes(hold), [starts, begins, ends]
        lent = [(c_uint64 * len(entries))(*entries) if entries else None for entries in slices]
        answer = self.path_in_c(hold, *[word for entries, place in zip(slices, lent) for word in (place, len(entries))], low, high)
        untouched("hold record", bytes(hold) == before)
        untouched("rows", all(list(place or []) == entries for entries, place in zip(slices, lent)))
        return answer.number, answer.start, answer.before


class Lent:
    """A file and two buffers, as they are lent to a call."""

    def __init__(self, data, speeds_length, times_length):
        self.data = data
        self.file = lent_file(data)
        self.speeds_length, self.times_length = speeds_length, times_length
        self.speeds = filled(c_uint32, speeds_length)
        self.times = filled(c_uint64, times_length)

    def arguments(self, k):
        return self.file, len(self.data), k, self.speeds, self.speeds_length, self.times, self.times_length

    def written(self, number):
        """The entries written to both buffers, none on a refusal, after a check that nothing else was written."""
        untouched("file", bytes(self.file) == self.data)
        speeds = written_entries(self.speeds, self.speeds_length)
        times = written_entries(self.times, self.times_length)
        untouched("buffers on a refusal", number == 0 or not speeds and not times)
        return speeds, times


def lent_file(data):
    return (c_uint8 * len(data)).from_buffer_copy(data)


def filled(kind, length):
    """A buffer of this length and the guards behind it, every byte of the pattern."""
    buffer = (kind * (length + GUARDS))()
    ctypes.memset(buffer, PATTERN, ctypes.sizeof(buffer))
    return buffer


def written_entries(buffer, length):
    """The entries before those that keep the pattern to the end."""
    size = ctypes.sizeof(buffer._type_)
    count = -(-len(bytes(buffer).rstrip(bytes([PATTERN]))) // size)
    untouched("entries behind a buffer", count <= length)
    return buffer[:count]
