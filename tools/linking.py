"""Links the library for C into the shared object that the Python package loads."""

import os
import shutil
import subprocess

from building import LIBRARY, bring_up_to_date, changed, only_builder, out_of_date, shown
from header import HEADER, version
from vellumrill.binding import SHARED_OBJECT, VERSION_SYMBOL, NoLibrary, checked
from vellumrill.messages import Failure, end_of


def is_old():
    """Whether the shared object is missing, or older than something that it is made from."""
    return out_of_date(SHARED_OBJECT, LIBRARY.crate) or changed(HEADER) > changed(SHARED_OBJECT)


def linker():
    """The C compiler, which links."""
    for name in ("gcc", "cc"):
        if found := shutil.which(name):
            return found
    raise Failure(f"{shown(SHARED_OBJECT)} is linked by gcc, and no command `gcc` is on the PATH; on Debian the package has this name")


def check_linked(path):
    """An archive that was cut short links without an error."""
    try:
        checked(path)
    except NoLibrary as error:
        raise Failure(f"{shown(LIBRARY.path)} is not whole, `tools/staticlib` makes it anew: {error}") from None


def link():
    """Links the archive. The version goes along as the value of a symbol, since the archive does not have it."""
    beside = SHARED_OBJECT.with_suffix(".new")
    words = [linker(), "-shared", "-o", beside, "-Wl,--whole-archive", LIBRARY.path, "-Wl,--no-whole-archive",
             f"-Wl,--defsym={VERSION_SYMBOL}={version()}"]
    try:
        done = subprocess.run(words, stdin=subprocess.DEVNULL, capture_output=True, text=True)
        if done.returncode:
            raise Failure(f"{shown(SHARED_OBJECT)} was not linked: gcc {end_of(done.returncode)}: {done.stderr.strip()}")
        check_linked(beside)
        newest = max(changed(LIBRARY.path), changed(HEADER))
        os.utime(beside, ns=(newest, newest))
        os.replace(beside, SHARED_OBJECT)
    finally:
        beside.unlink(missing_ok=True)


def bring_shared_object_up_to_date(say):
    """Builds the library and links it, where the shared object is older than its sources."""
    if not is_old():
        return
    bring_up_to_date(LIBRARY, say)
    with only_builder(say):
        if is_old():
            link()


def replace_what_is_not_sound(say):
    """Links the shared object anew where it cannot be loaded or is of another version, whatever its date."""
    try:
        checked(SHARED_OBJECT)
    except NoLibrary as error:
        say(f"{error}, so it is linked anew")
        bring_up_to_date(LIBRARY, say)
        with only_builder(say):
            link()
