"""Reads the line file that is asked about, or packs it from a line text."""

import codecs
import os
import stat
from typing import NamedTuple

from . import linetext
from .messages import Failure

MOST_BYTES = 1 << 24                    # more than any line text or accepted line file has, so that an endless input ends
STANDARD_INPUT = "-"


def spoken(name):
    return "standard input" if name == STANDARD_INPUT else name or "a file without a name"


def read_at_most(file, size):
    pieces = []
    while size > 0 and (piece := os.read(file, min(size, 1 << 16))):
        pieces.append(piece)
        size -= len(piece)
    return b"".join(pieces)


def opened(name):
    return 0 if name == STANDARD_INPUT else os.open(name, os.O_RDONLY | os.O_CLOEXEC)


def read_bytes(name, size):
    """The first bytes of the input, at most so many."""
    try:
        file = opened(name)
        try:
            if stat.S_ISDIR(os.fstat(file).st_mode):
                raise Failure(f"{spoken(name)} is a directory, not a file")
            return read_at_most(file, size)
        finally:
            if name != STANDARD_INPUT:
                os.close(file)
    except OSError as error:
        raise Failure(f"{spoken(name)} cannot be read: {error.strerror}") from None


def is_line_text(data, whole):
    """Whether these bytes, of which the last are missing if they are not the whole input, are a line text."""
    if b"\0" in data:
        return False
    try:
        text = codecs.getincrementaldecoder("utf-8-sig")().decode(data, final=whole)
    except UnicodeDecodeError:
        return False
    first = next(linetext.numbered_words(text), None)
    return first is not None and first[1][0] in linetext.VALUES


def read_line_file(name, most):
    """The bytes of a line file, cut behind the one that passes so many."""
    data = read_bytes(name, most + 1)
    if is_line_text(data, whole=len(data) <= most):
        raise Failure(f"{spoken(name)} is a line text, not a line file: give it as a file whose name ends in .txt,"
                      " or pack it first by `tools/linefile pack`")
    return data


def read_line_text(name):
    data = read_bytes(name, MOST_BYTES + 1)
    if b"\0" in data:
        raise Failure(f"{name} has a byte 0, so it is no line text in UTF-8; a line file needs a name that does not end in .txt")
    if len(data) > MOST_BYTES:
        raise Failure(f"{name} has more than {MOST_BYTES} bytes, which no line text has")
    try:
        return linetext.read_text(linetext.decode(data))
    except linetext.Fault as fault:
        raise Failure(f"{name}: {fault}") from None


class Given(NamedTuple):
    """The line file that is asked about."""
    data: bytes
    line: linetext.Line | None = None   # what its text says, where it has one


def given(name, most):
    """The line file of this name, or the one that a line text describes, cut behind the byte that passes so many."""
    if not name.endswith(".txt"):
        return Given(read_line_file(name, most))
    line = read_line_text(name)
    return Given(linetext.to_bytes(line)[:most + 1], line)


def whole(name):
    """The same with all its bytes."""
    found = given(name, MOST_BYTES)
    if len(found.data) > MOST_BYTES:
        raise Failure(f"{spoken(name)} has more than {MOST_BYTES} bytes, which no accepted line file has")
    return found
