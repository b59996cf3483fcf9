"""Makes the shared object of the library for C, which the Python package loads. It stands in the package's folder."""

from building import shown
from linking import bring_shared_object_up_to_date, replace_what_is_not_sound
from vellumrill.binding import SHARED_OBJECT
from vellumrill.output import write_out
from vellumrill.running import parser_of, run

NOTES = """\
The library is proved and built first, by `tools/staticlib`, where it is
older than its sources; the first time this takes some minutes. gcc links it.

exit status: 0 the shared object is there and up to date; 2 failed.
"""


def make(say):
    bring_shared_object_up_to_date(say)
    replace_what_is_not_sound(say)
    write_out(f"{shown(SHARED_OBJECT)} is up to date\n".encode())
    return 0


def main(arguments):
    def obey(say):
        parser_of("sharedlib", __doc__, NOTES).parse_args(arguments)
        return make(say)
    return run("sharedlib", obey)
