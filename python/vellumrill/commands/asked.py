"""What the words of the command have in common: the files that they are asked about, and refusals told to people."""

from .. import inputs, refusals
from ..messages import Failure
from ..output import write_out
from ..rules import Refusal
from ..running import FAILED, REFUSED


def add_file(parser):
    parser.add_argument("file", metavar="FILE", help="a line file, or a line text whose name ends in .txt; - is standard input")


def add_files(parser):
    parser.add_argument("files", metavar="FILE", nargs="+", help="a line file, or a line text whose name ends in .txt; - is standard input")


def print_lines(lines):
    write_out("".join(f"{line}\n" for line in lines).encode("utf-8", "surrogateescape"))


def answered(name, given, answer, say):
    """Has a file answered: `answer` takes its bytes. Of a refused file the number is printed, and why. The exit status."""
    try:
        return answer(given.data)
    except Refusal as refusal:
        print_lines([f"refused {refusal.number}"])
        say(f"{inputs.spoken(name)}: explanation of refused {refusal.number}: {refusals.explanation(refusal.number, *given)}")
        return REFUSED


def for_file(name, answer, say):
    return answered(name, inputs.whole(name), answer, say)


def for_each(names, about, say):
    """Calls `about` with each name and its file; one that cannot be read stops none. The greatest exit status."""
    statuses = []
    for name in names:
        try:
            given = inputs.whole(name)
        except Failure as failure:
            say(failure)
            statuses.append(FAILED)
        else:
            statuses.append(about(name, given))
    return max(statuses)
