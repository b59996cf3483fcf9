"""The headway of the last two trains of a line file."""

from asking import ask, rows_in
from records import split_records, with_records
from vellumrill.messages import Failure


def last_headway(data):
    """The second's start on a sheet of the last two trains of an accepted file, in microseconds; None if it has one train."""
    track, records = split_records(data)
    if len(records) == 1:
        return None
    rows = rows_in(ask(with_records(track, records[-2:])))
    if len(rows) != 2:
        raise Failure("the program gave no sheet of the last two trains")
    _, start, _, _ = rows[1]
    return start
