"""Runs a command: what it says where it fails, its exit status, and the arguments that every command takes."""

import argparse
import os
import signal
import sys

from .messages import Failure, keep_place_of_error, reason, speaker
from .output import need_output, write_out
from .version import version_line

REFUSED, FAILED, INTERRUPTED = 1, 2, 130


class Parser(argparse.ArgumentParser):
    def print_help(self, file=None):
        write_out(self.format_help().encode())


class Version(argparse.Action):
    def __call__(self, parser, namespace, values, option_string=None):
        write_out(version_line().encode())
        parser.exit()


def parser_of(name, about, notes):
    """The parser of a command, with --help and --version."""
    parser = Parser(prog=name, description=about, epilog=notes, formatter_class=argparse.RawDescriptionHelpFormatter)
    parser.add_argument("--version", action=Version, nargs=0, help="print the version and the rules that are in force")
    return parser


def end_by(number, frame):
    """Ends the command, and what it has started, when it gets this signal."""
    sys.exit(128 + number)


def run(name, obey):
    """Calls `obey` with the function that says something on standard error, and gives the exit status."""
    for number in (signal.SIGTERM, signal.SIGHUP):
        if signal.getsignal(number) != signal.SIG_IGN:      # as behind nohup
            signal.signal(number, end_by)
    keep_place_of_error()
    say = speaker(name)
    try:
        need_output()
        return obey(say)
    except Failure as failure:
        say(failure)
    except OSError as error:
        say(reason(error))
    return FAILED


def is_terminal(place):
    try:
        return os.isatty(place)
    except OSError:
        return False
