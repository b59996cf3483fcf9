"""Makes the archive of the calls for C, target/staticlib/libvellumrill.a."""

from building import LIBRARY, build_anew, shown
from vellumrill.output import write_out
from vellumrill.running import parser_of, run

NOTES = """\
The command rt proves the crate and what it stands on, and builds the archive;
the first time this takes some minutes.

exit status: 0 the archive is there; 2 failed.
"""


def main(arguments):
    def obey(say):
        parser_of("staticlib", __doc__, NOTES).parse_args(arguments)
        build_anew(LIBRARY, say)
        write_out(f"{shown(LIBRARY.path)} is made\n".encode())
        return 0
    return run("staticlib", obey)
