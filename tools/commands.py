"""What the commands have in common that print something of a line file: arguments, refusals and exit status."""

import os
from typing import Callable, NamedTuple

from asking import ask, explanation, input_of, refusal_in
from building import PROGRAM, bring_up_to_date
from vellumrill import running
from vellumrill.inputs import STANDARD_INPUT
from vellumrill.messages import Failure
from vellumrill.output import write_out
from vellumrill.running import REFUSED
from vellumrill.version import version_line

ARGUMENTS = """\
  FILE       a line file, or a line text whose name ends in .txt
  -          a line file on standard input; the same without an argument
  --help     prints this
  --version  prints the version and the rules that are in force
"""

NOTES = """\
Of a file that breaks a rule, standard output gets `refused` and the number of
the rule, and standard error an explanation. `tools/linefile --help` says how a
line text is written.

All figures come from a proved program. The command rt proves and builds it the
first time, and when one of its sources has changed; the first time takes some
minutes.
"""

STATUS = """\
exit status:
  0    {printed}
  1    the file is refused
  2    failed: wrong usage, input that cannot be read, a build that failed, or
       output that was not written
{more}  130  interrupted by Ctrl-C
"""


class Command(NamedTuple):
    name: str
    about: str                          # what the help says of it
    printed: str                        # what status 0 says
    answer: Callable                    # from an accepted file and its sheet: what is printed, and the exit status
    more: str = ""                      # another exit status, a line of the help

    def usage(self):
        return f"usage: {self.name} [FILE | -]"

    def help(self):
        status = STATUS.format(printed=self.printed, more=self.more)
        return "\n".join([self.usage() + "\n", self.about, ARGUMENTS, NOTES, status])


def taken_apart(arguments):
    """The options and the names among the arguments; all behind -- are names."""
    end = arguments.index("--") if "--" in arguments else len(arguments)
    options = [word for word in arguments[:end] if word.startswith("-") and word != STANDARD_INPUT]
    return options, [word for word in arguments[:end] if word not in options] + arguments[end + 1:]


def input_name(command, names):
    if len(names) > 1:
        raise Failure(f"{len(names)} names are given, and one file is wanted\n{command.usage()}")
    if not names and os.isatty(0):
        raise Failure(f"no file is given\n{command.usage()}")
    return names[0] if names else STANDARD_INPUT


def answer_file(command, name, say):
    """Prints the answer about one file. What is wrong with the input is said before anything is built."""
    asked = input_of(name)
    bring_up_to_date(PROGRAM, say)
    sheet = ask(asked.data)
    number = refusal_in(sheet)
    if number:
        write_out(sheet)
        say(f"explanation of refused {number}: {explanation(number, asked)}")
        return REFUSED
    printed, status = command.answer(asked.data, sheet)
    write_out(printed)
    return status


def obey(command, arguments, say):
    options, names = taken_apart(arguments)
    if "--help" in options or "-h" in options:
        write_out(command.help().encode())
    elif "--version" in options:
        write_out(version_line().encode())
    elif options:
        raise Failure(f"there is no option {options[0]}; a file of that name is written ./{options[0]}\n{command.usage()}")
    else:
        return answer_file(command, input_name(command, names), say)
    return 0


def run(command, arguments):
    """Does what the arguments ask, and gives the exit status."""
    return running.run(command.name, lambda say: obey(command, arguments, say))
