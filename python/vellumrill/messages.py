"""What a command says on standard error, and the failure that ends it."""

import os


class Failure(Exception):
    """Why a command cannot do what it was asked to do, in words."""


def speaker(command):
    """The function that says something on standard error, with the command's name in front."""
    def say(text):
        try:
            os.write(2, f"{command}: {text}\n".encode("utf-8", "surrogateescape"))
        except OSError:
            pass                        # nobody is left to be told
    return say


def end_of(status):
    """How a process ended, in words."""
    return f"was ended by signal {-status}" if status < 0 else f"ended with status {status}"


def reason(error):
    """An error of the system in words."""
    words = error.strerror or str(error)
    return f"{os.fspath(error.filename)}: {words}" if isinstance(error.filename, (str, os.PathLike)) else words


def keep_place_of_error():
    """Where standard error is closed, the null device takes its place, so that no file gets what is said there."""
    try:
        os.fstat(2)
    except OSError:
        null = os.open(os.devnull, os.O_WRONLY)
        os.dup2(null, 2)
        if null != 2:
            os.close(null)
