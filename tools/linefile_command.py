"""Turns a readable description of a line and its trains into a line file, and back."""

import os

from vellumrill.inputs import MOST_BYTES, STANDARD_INPUT, read_bytes, spoken
from vellumrill.linetext import Fault, decode, from_bytes, read_text, to_bytes, write_text
from vellumrill.messages import Failure
from vellumrill.output import write_file, write_out
from vellumrill.running import parser_of, run

STANDARD_OUTPUT = "-"

HELP = """\
The text has one thing to a line. What follows a # is a comment; blank lines
and indents are free. First the line, its words in any order:

  points COUNT         number of points; they are numbered 0 to COUNT - 1
  step METRES          distance between two points, in m
  set-up TENTHS        set-up time of a block, in tenths of a second
  release TENTHS       release time of a block, in tenths of a second
  limit POINT KMH      speed limit in km/h, from this point to the next limit
  block START END      a block, from point to point
  balise POINT METRES  a balise, so many m past a point; a line may have none

then the trains in the order in which they run, each a section:

  train CLASS          intercity, stopping, goods, or the number of a class
  length METRES        length of the train, in m
  band TOP RATE        a traction band: up to TOP km/h at RATE cm/s2
  stop POINT DWELL     a stop at a point, with its dwell in seconds

Limits, blocks, balises, bands and stops keep the order in which they are
written. All numbers are whole numbers from 0 to 65535. How many limits, blocks,
balises, trains, bands and stops there are follows from the lines. Whether the
line makes sense is not judged here: a file that the calculator refuses can be
written as well.

example, in a file named sample.txt:

  points 7
  step 100
  set-up 10
  release 20
  limit 0 72
  block 0 2
  block 2 5
  train intercity         # the first train
    length 100
    band 72 50
    stop 0 0
    stop 6 0

  linefile pack sample.txt sample.line
  linefile show sample.line

exit status: 0 done; 1 the line file is cut short or has bytes left over;
2 failed: the text or the command is at fault, or something cannot be read or
written, and a FILE keeps what it had.
"""


def read_input(name):
    data = read_bytes(name, MOST_BYTES + 1)
    if len(data) > MOST_BYTES:
        raise Failure(f"{spoken(name)} has more than {MOST_BYTES} bytes, which no text of a line has, nor its line file")
    return data


def about(name, convert, data):
    """The converted data; a fault gets the name of the input in front."""
    try:
        return convert(data)
    except Fault as fault:
        raise type(fault)(f"{spoken(name)}: {fault}") from None


def is_input(name, source):
    """Whether a file is the one that the text was read from."""
    if not os.path.exists(name):
        return False
    return os.path.samestat(os.stat(name), os.fstat(0) if source == STANDARD_INPUT else os.stat(source))


def check_target(name, source):
    if name == STANDARD_OUTPUT:
        if os.isatty(1):
            raise Failure("standard output is a terminal; a line file is binary, so name a FILE or redirect the output")
    elif is_input(name, source):
        raise Failure(f"{name} is the text itself and would be overwritten")
    elif name.endswith(".txt"):
        raise Failure(f"{name} ends in .txt, as texts do; a line file needs another name")


def pack(asked):
    data = about(asked.text, lambda data: to_bytes(read_text(decode(data))), read_input(asked.text))
    check_target(asked.file, asked.text)
    if asked.file == STANDARD_OUTPUT:
        write_out(data)
    else:
        write_file(asked.file, data)


def show(asked):
    write_out(about(asked.file, lambda data: write_text(from_bytes(data)), read_input(asked.file)).encode())


def command_line():
    parser = parser_of("linefile", __doc__, HELP)
    commands = parser.add_subparsers(dest="command", metavar="pack|show", required=True)
    one = commands.add_parser("pack", help="text to line file: pack TEXT [FILE]",
                              description="Writes the line file that a text describes.")
    one.add_argument("text", metavar="TEXT", nargs="?", default="-",
                     help="the description (standard input if left out or -)")
    one.add_argument("file", metavar="FILE", nargs="?", default="-",
                     help="the line file (standard output if left out or -)")
    one.set_defaults(run=pack)
    two = commands.add_parser("show", help="line file to text: show [FILE]",
                              description="Prints a line file as a text that packs to the same bytes.")
    two.add_argument("file", metavar="FILE", nargs="?", default="-",
                     help="the line file (standard input if left out or -)")
    two.set_defaults(run=show)
    return parser


def main(arguments):
    def obey(say):
        asked = command_line().parse_args(arguments)
        try:
            asked.run(asked)
        except Fault as fault:
            say(fault)
            return fault.status
        return 0
    return run("linefile", obey)
