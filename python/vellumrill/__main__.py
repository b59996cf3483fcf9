"""python3 -m vellumrill: the command."""

import sys

from . import command
from .running import INTERRUPTED


def main():
    try:
        return command.main(sys.argv[1:])
    except KeyboardInterrupt:
        return INTERRUPTED


if __name__ == "__main__":
    sys.exit(main())
