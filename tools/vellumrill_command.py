"""The command of the Python package. The shared object is made first, where it is older than its sources."""

import os
import site
import subprocess
import sys
from importlib.util import find_spec

from linking import bring_shared_object_up_to_date
from vellumrill import binding, command
from vellumrill.messages import speaker

DEBIAN_PYTHON = "/usr/bin/python3"      # which has what Debian's packages bring


def has_matplotlib(python):
    words = [python, "-E", "-c", "import sys, importlib.util; sys.exit(not importlib.util.find_spec('matplotlib'))"]
    return subprocess.run(words, stdin=subprocess.DEVNULL, capture_output=True).returncode == 0


def take_python_that_draws():
    """Where this Python has no matplotlib and Debian's has it, Debian's takes over with the same arguments."""
    site.main()                         # the folders of installed packages, which the command's start leaves out
    if find_spec("matplotlib") is None and os.path.exists(DEBIAN_PYTHON) and not os.path.samefile(DEBIAN_PYTHON, sys.executable):
        if has_matplotlib(DEBIAN_PYTHON):
            os.execv(DEBIAN_PYTHON, [DEBIAN_PYTHON, *sys.orig_argv[1:]])


def main(arguments):
    if arguments[:1] == ["plot"]:
        take_python_that_draws()
    if not os.environ.get(binding.OTHER_PLACE):
        binding.make_ready = lambda: bring_shared_object_up_to_date(speaker(command.NAME))
    return command.main(arguments)
