"""The header of the calls for C, which has the version."""

import re
from pathlib import Path

from vellumrill.messages import Failure

HEADER = Path(__file__).resolve().parent.parent / "include" / "vellumrill.h"


def version():
    """How many requests of document 02 are in force, from the first on."""
    found = re.search(r"^#define VR_VERSION ([0-9]+)$", HEADER.read_text(), re.MULTILINE)
    if not found:
        raise Failure(f"{HEADER} does not say VR_VERSION")
    return int(found[1])
