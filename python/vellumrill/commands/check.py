"""Tells of each file whether it is accepted; of a refused one the number, the
rule in words, and the train and the entry that break it."""

from .. import calls, refusals
from ..inputs import spoken
from ..readable import counted
from ..rules import Refusal
from ..running import REFUSED
from .asked import add_files, for_each, print_lines

HELP = "accepted, or the broken rule and its place"
NOTES = """\
The verdict is the proved library's; the place is found in the file's bytes.
"""


def add_arguments(parser):
    add_files(parser)


def print_verdict(name, given):
    try:
        sizes = calls.sizes(given.data)
    except Refusal as refusal:
        print_lines([f"{spoken(name)}: refused {refusal.number}", f"  rule: {refusal.words}",
                     f"  here: {refusals.explanation(refusal.number, *given)}"])
        return REFUSED
    print_lines([f"{spoken(name)}: accepted ({sizes.points} points, {counted(sizes.blocks, 'block')}, {counted(sizes.trains, 'train')})"])
    return 0


def run(asked, say):
    return for_each(asked.files, print_verdict, say)
