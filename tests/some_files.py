"""Accepted line files that several tests ask about."""
from balises import with_some_balises
from places import EXAMPLES
from yardstick import VERSION, sample_line, write_line

from vectors import random_line
from vellumrill.linetext import decode, read_text, to_bytes


def packed(name):
    """The line file of an example."""
    return to_bytes(read_text(decode((EXAMPLES / name).read_bytes())))


def random_file(rng, fewest=2):
    """A line of few points with up to five trains."""
    line = random_line(rng, VERSION, 3, rng.choice([6, 12, 30]), rng.randint(fewest, 5))
    return write_line(with_some_balises(rng, line))


def with_trains(count):
    """The file of the sample line with so many of its trains."""
    line = sample_line()
    line.trains = (count * line.trains)[:count]
    return write_line(line)
