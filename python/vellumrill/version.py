"""The version that this package is written for."""

VERSION = 7                             # how many requests of document 02 are in force, from the first on; as VR_VERSION in the header


def version_line() -> str:
    return f"Vellumrill {VERSION}: document 01 with requests 01 to {VERSION:02} of document 02\n"
