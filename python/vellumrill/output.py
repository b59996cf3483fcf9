"""Writes what a command answers, whole or with a failure: to standard output, or to a file."""

import errno
import os
import tempfile

from .messages import Failure


class ClosedPipe(Failure):
    """Whoever read standard output has ended."""


def need_output():
    try:
        os.fstat(1)
    except OSError:
        raise Failure("standard output is closed, so nothing can be printed") from None


def write_all(place, data):
    while data:
        data = data[os.write(place, data):]


def write_out(data):
    try:
        write_all(1, data)
    except OSError as error:
        kind = ClosedPipe if isinstance(error, BrokenPipeError) else Failure
        raise kind(f"standard output was not written: {error.strerror}") from None


def usual_mode():
    """The access rights of a new file."""
    mask = os.umask(0)
    os.umask(mask)
    return 0o666 & ~mask


def replace_file(path, data):
    """Writes another file beside it, which then takes its place with its access rights."""
    mode = os.stat(path).st_mode & 0o7777 if os.path.exists(path) else usual_mode()
    place, beside = tempfile.mkstemp(dir=os.path.dirname(path))
    try:
        write_all(place, data)
        os.fchmod(place, mode)
        os.replace(beside, path)
    except BaseException:
        os.unlink(beside)
        raise
    finally:
        os.close(place)


def need_place_for(name):
    """Fails where a file of this name could not be written: before the work, not after it."""
    path = os.path.realpath(name)
    try:
        if os.path.isdir(path):
            raise IsADirectoryError(errno.EISDIR, os.strerror(errno.EISDIR))
        if os.path.isfile(path) or not os.path.exists(path):
            tempfile.TemporaryFile(dir=os.path.dirname(path)).close()
    except OSError as error:
        raise Failure(f"{name} was not written: {error.strerror}") from None


def write_device(path, data):
    place = os.open(path, os.O_WRONLY)
    try:
        write_all(place, data)
    finally:
        os.close(place)


def write_file(name, data):
    """Writes a file, which keeps what it had where this fails. A device, which is no plain file, is written as it is."""
    path = os.path.realpath(name)
    try:
        if os.path.exists(path) and not os.path.isfile(path):
            write_device(path, data)
        else:
            replace_file(path, data)
    except OSError as error:
        raise Failure(f"{name} was not written: {error.strerror}") from None
