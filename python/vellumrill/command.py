"""The command `vellumrill`, and its words."""

import argparse
import signal

from .commands import batch, check, figures, headway, period, plot, sheet
from .output import ClosedPipe
from .running import parser_of, run

NAME = "vellumrill"
NOT_READ = 128 + signal.SIGPIPE
ABOUT = """\
Running times, block holds and earliest starts of a line under ERTMS Level 2.
All figures come from a proved library."""
NOTES = """\
`vellumrill WORD --help` tells more of each. FILE is a line file, or a line text
whose name ends in .txt.

exit status:
  0    done
  1    a file is refused
  2    failed: wrong usage, input that cannot be read, a shared object that is
       missing or could not be made, or output that was not written
  3    of headway: the file has one train, so no headway
  130  interrupted by Ctrl-C
  141  whoever read the output has ended, as behind `head`
"""
WORDS = {"sheet": sheet, "headway": headway, "check": check, "figures": figures, "period": period, "plot": plot, "batch": batch}


def command_line():
    parser = parser_of(NAME, ABOUT, NOTES)
    words = parser.add_subparsers(dest="word", metavar="WORD", required=True)
    for name, module in WORDS.items():
        word = words.add_parser(name, help=module.HELP, description=module.__doc__, epilog=module.NOTES,
                                formatter_class=argparse.RawDescriptionHelpFormatter)
        module.add_arguments(word)
        word.set_defaults(run=module.run)
    return parser


def main(arguments):
    """Does what the arguments ask, and gives the exit status."""
    def obey(say):
        try:
            asked = command_line().parse_args(arguments)
            return asked.run(asked, say)
        except ClosedPipe:              # as behind `head`: it is meant so
            return NOT_READ
    return run(NAME, obey)
