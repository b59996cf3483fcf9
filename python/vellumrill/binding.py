"""The calls of the header include/vellumrill.h, declared for ctypes, and the shared object that has them."""

import ctypes
import os
from ctypes import POINTER, Structure, c_size_t, c_uint8, c_uint32, c_uint64
from functools import cache
from pathlib import Path

from .messages import Failure
from .version import VERSION

MOST_TRAINS, MOST_BLOCKS, MOST_TEXT = 64, 32, 2390      # as the header has them
POINT = "<dddB"                         # the bytes of a point in the diagram: position, speed, arrival, dot

SHARED_OBJECT = Path(__file__).with_name("libvellumrill.so")
OTHER_PLACE = "VELLUMRILL_LIBRARY"      # the variable that names another shared object
VERSION_SYMBOL = "vr_version"           # its value is the version of the header that the shared object was made with
make_ready = None                       # called before the shared object is loaded, if it is set


class HoldRecord(Structure):
    _fields_ = [("blocks", c_uint64), ("begins", c_uint64 * MOST_BLOCKS), ("ends", c_uint64 * MOST_BLOCKS)]


class Sheet(Structure):
    _fields_ = [("blocks", c_uint64), ("trains", c_uint64), ("free", c_uint64 * MOST_BLOCKS), ("first", c_uint64 * MOST_BLOCKS)]


class RecordAnswer(Structure):
    _fields_ = [("number", c_uint64), ("start", c_uint64), ("length", c_uint64)]


class SizesAnswer(Structure):
    _fields_ = [("number", c_uint64), ("points", c_uint64), ("step", c_uint64), ("blocks", c_uint64), ("trains", c_uint64)]


class HoldAnswer(Structure):
    _fields_ = [("number", c_uint64), ("hold", HoldRecord)]


class Added(Structure):
    _fields_ = [("number", c_uint64), ("start", c_uint64), ("block", c_uint64)]


class HeadwayAnswer(Structure):
    _fields_ = [("number", c_uint64), ("headway", c_uint64)]


class PeriodAnswer(Structure):
    _fields_ = [("number", c_uint64), ("period", c_uint64), ("percent", c_uint64)]


class PathAnswer(Structure):
    _fields_ = [("number", c_uint64), ("start", c_uint64), ("before", c_uint64)]


class RowsAnswer(Structure):
    _fields_ = [("number", c_uint64), ("trains", c_uint64)]


class Written(Structure):
    _fields_ = [("number", c_uint64), ("bytes", c_uint64)]


FILE = [POINTER(c_uint8), c_size_t]
BUFFERS = [POINTER(c_uint32), c_size_t, POINTER(c_uint64), c_size_t]
CALLS = {
    "vr_check_file": (c_uint64, FILE),
    "vr_check_train": (c_uint64, FILE + [c_uint64]),
    "vr_train_record": (RecordAnswer, FILE + [c_uint64]),
    "vr_sizes": (SizesAnswer, FILE),
    "vr_run": (c_uint64, FILE + [c_uint64] + BUFFERS),
    "vr_hold": (HoldAnswer, FILE + [c_uint64] + BUFFERS),
    "vr_diagram": (Written, FILE + [c_uint64, POINTER(c_uint8), c_size_t]),
    "vr_open": (c_uint64, [c_uint64, POINTER(Sheet)]),
    "vr_add": (Added, [POINTER(Sheet), POINTER(HoldRecord)]),
    "vr_headway": (HeadwayAnswer, [POINTER(HoldRecord), POINTER(HoldRecord)]),
    "vr_period": (PeriodAnswer, [POINTER(Sheet)]),
    "vr_path": (PathAnswer, [POINTER(HoldRecord)] + 3 * [POINTER(c_uint64), c_size_t] + 2 * [c_uint64]),
    "vr_rows": (RowsAnswer, FILE + 3 * [POINTER(c_uint64), c_size_t]),
    "vr_study": (Written, FILE + [POINTER(c_uint8), c_size_t]),
}


class NoLibrary(Failure):
    """The shared object is missing, not whole, or of another version."""


def declared(path):
    """The shared object at this path, each call with its types."""
    loaded = ctypes.CDLL(os.path.abspath(path))
    for name, (result, arguments) in CALLS.items():
        call = getattr(loaded, name)
        call.restype, call.argtypes = result, arguments
    return loaded


def version_of(loaded):
    return ctypes.cast(getattr(loaded, VERSION_SYMBOL), ctypes.c_void_p).value or 0


def checked(path):
    """The shared object at this path, known to have all calls and to be of this package's version."""
    if not os.path.exists(path):
        raise NoLibrary(f"the shared object {path} is not there")
    try:
        version = version_of(ctypes.CDLL(os.path.abspath(path)))
        if version != VERSION:
            raise NoLibrary(f"the shared object {path} is of version {version}, and this package is for version {VERSION}")
        return declared(path)
    except (OSError, AttributeError) as error:
        raise NoLibrary(f"{path} is no shared object of Vellumrill ({error})") from None


@cache
def library():
    """The shared object, loaded once."""
    if make_ready:
        make_ready()
    named = os.environ.get(OTHER_PLACE)
    try:
        return checked(named or SHARED_OBJECT)
    except NoLibrary as error:
        hint = f"the variable {OTHER_PLACE} names it" if named else "`tools/sharedlib`, at the top of Vellumrill's repository, makes it"
        raise NoLibrary(f"{error}: {hint}") from None
