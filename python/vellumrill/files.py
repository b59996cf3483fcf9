"""Line files and line texts, for programs that use this package."""

import os

from . import inputs, linetext, refusals
from .messages import Failure


def read_file(path: str | bytes | os.PathLike[str]) -> bytes:
    """The bytes of a line file, or of the one that a line text describes, whose name ends in .txt; - is standard input. What cannot be read
    raises Failure."""
    return inputs.whole(os.fsdecode(path)).data


def explanation(file: bytes, number: int) -> str:
    """Why a file is refused by this number, in words: which entry of which train breaks the rule."""
    return refusals.explanation(number, file)


def pack_text(text: str) -> bytes:
    """The line file that a line text describes. A slip in the writing raises Failure with the line of the text."""
    try:
        return linetext.to_bytes(linetext.read_text(text))
    except linetext.Fault as fault:
        raise Failure(str(fault)) from None


def show_text(file: bytes) -> str:
    """A line text that packs to these bytes. A file that is cut short or has bytes left over raises Failure."""
    try:
        return linetext.write_text(linetext.from_bytes(file))
    except linetext.Fault as fault:
        raise Failure(str(fault)) from None
