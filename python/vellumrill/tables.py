"""Tables: aligned for people, or CSV for programs."""

import re


def aligned(header, rows):
    """The lines of a table. A column of words stands at its left side, one of numbers at its right."""
    cells = [header, *([str(cell) for cell in row] for row in rows)]
    widths = [max(map(len, column)) for column in zip(*cells)]
    words = [any(cell[:1].isalpha() for cell in column[1:]) for column in zip(*cells)]
    return ["  ".join(cell.ljust(width) if word else cell.rjust(width) for cell, width, word in zip(row, widths, words)).rstrip()
            for row in cells]


def csv_cell(cell):
    """In quotes where it has a comma, a quote or an end of a line."""
    text = str(cell)
    return '"' + text.replace('"', '""') + '"' if re.search('[,"\r\n]', text) else text


def as_csv(header, rows):
    """The bytes of a CSV file with a header line."""
    return "".join(",".join(map(csv_cell, row)) + "\n" for row in (header, *rows)).encode("utf-8", "surrogateescape")
