"""Starts a command: start.py NAME ARGUMENT.. Every Python 3 can read this file, so that one which is too old is told."""

import os
import sys

NEEDED = (3, 11)
FAILED, INTERRUPTED = 2, 130
TOP = os.path.dirname(os.path.dirname(os.path.abspath(__file__)))


def tell(text):
    try:
        os.write(2, text.encode())
    except OSError:
        pass                            # nobody is left to be told


def start(name, arguments):
    if sys.version_info < NEEDED:
        tell("%s: Python 3.11 or later is needed; python3 is %s\n" % (name, sys.version.split()[0]))
        return FAILED
    sys.dont_write_bytecode = True
    sys.path.append(os.path.join(TOP, "python"))
    try:
        return __import__(name + "_command").main(arguments)
    except KeyboardInterrupt:
        return INTERRUPTED


if __name__ == "__main__":
    sys.exit(start(sys.argv[1], sys.argv[2:]))
