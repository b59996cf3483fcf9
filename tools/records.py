"""The train records in the bytes of a line file that is neither cut short nor too long."""

import struct

from vellumrill import linetext


def split_records(data):
    """The bytes before the number of trains, and those of each train record."""
    source = linetext.Bytes(data)
    _, trains = linetext.take_track(source)
    places = [source.at]
    for number in range(1, trains + 1):
        linetext.take_train(source, f"train {number} of {trains}")
        places.append(source.at)
    return data[:places[0] - 2], [data[start:end] for start, end in zip(places, places[1:])]


def with_records(track, records):
    """The line file with these train records."""
    return track + struct.pack("<H", len(records)) + b"".join(records)
