"""Accepted line files, and ways to damage them at random."""
import struct

from balises import last_place, with_some_balises
from yardstick import VERSION, Refused, parse, sample_line, write_line

from vectors import INTERESTING, one_of_each_line, random_line

MOST_POINTS = 4096
TOP = 2 ** 64 - 1


def points_about(line):
    return [0, 1, line.P - 2, line.P - 1, line.P]


def metres_about(line):
    return [0, 1, line.L - 1, line.L]


# The limits of each number and one beyond, or what gives them for a line.
LINE_LIMITS = {"P": [2, 3, 4096, 4097], "L": [0, 1, 100, 101], "setup": [0, 65535], "release": [0, 65535],
               "limit_points": points_about, "limits": [0, 1, 300, 301], "block_starts": points_about, "block_ends": points_about,
               "balise_points": points_about, "balise_metres": metres_about}
TRAIN_LIMITS = {"cls": [2, 3], "length": [0, 1, 1000, 1001], "tops": [0, 1, 300, 301], "rates": [0, 1, 200, 201],
                "stops": points_about, "dwells": [0, 3600, 3601]}


def base_file(rng):
    """An accepted file of few points and trains."""
    made = rng.random()
    if made < 0.1:
        return write_line(sample_line())
    if made < 0.3:
        return write_line(one_of_each_line(VERSION))
    line = random_line(rng, VERSION, 3, rng.choice([6, 12, 30]), rng.randint(1, 3))
    return write_line(with_some_balises(rng, line))


def words_of(data):
    return list(struct.unpack("<%dH" % (len(data) // 2), data[:len(data) // 2 * 2]))


def bytes_of(words):
    return struct.pack("<%dH" % len(words), *words)


# ---- ways: each takes the file and another one

def flip_bits(rng, data, other):
    damaged = bytearray(data)
    for _ in range(rng.randint(1, 3)):
        damaged[rng.randrange(len(data))] ^= 1 << rng.randrange(8)
    return bytes(damaged)


def set_words(rng, data, other):
    """Some words put to a limit of the rules, or one beyond."""
    words = words_of(data)
    points = words[0]
    for _ in range(rng.randint(1, 3)):
        value = rng.choice(INTERESTING + [points - 3, points - 2, points - 1, points, points + 1])
        words[rng.randrange(len(words))] = value % 65536
    return bytes_of(words)


def set_near_neighbour(rng, data, other):
    """A word put beside the one before it: rising, gaps and blocks depend on this."""
    words = words_of(data)
    at = rng.randrange(1, len(words))
    words[at] = (words[at - 1] + rng.choice([-1, 0, 1, 2])) % 65536
    return bytes_of(words)


def change_word(rng, data, other):
    """A word by one, two or three more or less."""
    words = words_of(data)
    at = rng.randrange(len(words))
    words[at] = (words[at] + rng.choice([-3, -2, -1, 1, 2, 3])) % 65536
    return bytes_of(words)


def swap_words(rng, data, other):
    words = words_of(data)
    a, b = rng.randrange(len(words)), rng.randrange(len(words))
    words[a], words[b] = words[b], words[a]
    return bytes_of(words)


def parsed(data):
    """The line, or None if the file is too short or too long for its sizes."""
    try:
        return parse(data)
    except Refused:
        return None


def pairs_of_lists(line):
    """The parallel lists of a line, with the least gap from entry to entry of the first."""
    yield line.limit_points, line.limits, 1
    yield line.block_starts, line.block_ends, 1
    yield line.balise_points, line.balise_metres, 1
    for train in line.trains:
        yield train.tops, train.rates, 1
        yield train.stops, train.dwells, 2


def change_entry(rng, data, other):
    """An entry of a list put near to what it was or to the one before it."""
    line = parsed(data)
    lists = [entries for pair in pairs_of_lists(line) for entries in pair[:2] if entries] if line else []
    if not lists:
        return change_word(rng, data, other)
    entries = rng.choice(lists)
    at = rng.randrange(len(entries))
    entries[at] = rng.choice([entries[at] - 1, entries[at] + 1, entries[at - 1] + rng.choice([-1, 0, 1, 2])]) % 65536
    return write_line(line)


def put_to_limit(rng, data, other):
    """A number put to a limit of its own rule or one beyond; the sizes of lists stay as they are."""
    line = parsed(data)
    if not line:
        return set_words(rng, data, other)
    holder, limits = rng.choice([(line, LINE_LIMITS)] + [(train, TRAIN_LIMITS) for train in line.trains])
    name = rng.choice(list(limits))
    about = limits[name]
    value = rng.choice(about(line) if callable(about) else about) % 65536
    present = getattr(holder, name)
    if isinstance(present, list):
        if present:
            present[rng.randrange(len(present))] = value
    else:
        setattr(holder, name, value)
    return write_line(line)


def change_count(rng, data, other):
    """A count of the line put to another number; the lists stay as they are."""
    line = parsed(data)
    if not line:
        return change_word(rng, data, other)
    return write_line(line, **{rng.choice("KBQT"): rng.choice([0, 1, 2, 32, 33, 64, 65, 65535])})


def fit_length(rng, data, other):
    """A train as long as rule 9 lets pass, or 1 m longer."""
    line = parsed(data)
    if not line or not line.trains or not line.block_ends:
        return change_word(rng, data, other)
    rng.choice(line.trains).length = max(0, line.L * (line.P - 1 - line.block_ends[-1]) + rng.randrange(2)) % 65536
    return write_line(line)


def move_balise(rng, data, other):
    """A balise put to the place of the one before it or to the last point, or 1 m to either side; now and then as metres past
    an earlier point."""
    line = parsed(data)
    if not line or not line.balise_points or line.L == 0:
        return change_word(rng, data, other)
    at = rng.randrange(len(line.balise_points))
    before = line.balise_points[at - 1] * line.L + line.balise_metres[at - 1]
    place = max(0, rng.choice([before, before, last_place(line)]) + rng.choice([-1, 0, 1]))
    point = max(0, place // line.L - rng.choice([0, 0, 0, 1]))
    line.balise_points[at], line.balise_metres[at] = point % 65536, (place - point * line.L) % 65536
    return write_line(line)


def grow(rng, data, other):
    """Lists made longer, up to a limit of their sizes or one beyond, with all that they announce there."""
    line = parsed(data)
    if not line:
        return put_in(rng, data, other)
    if line.trains and rng.random() < 0.2:
        line.trains += [rng.choice(line.trains)] * (rng.choice([64, 65]) - len(line.trains))
        return write_line(line)
    first, second, gap = rng.choice(list(pairs_of_lists(line)))
    size = rng.choice([len(first) + 1, 8, 9, 32, 33, 64, 65])
    while first and len(first) < size:
        first.append((first[-1] + gap) % 65536)
        second.append((second[-1] + rng.randrange(2)) % 65536)
    return write_line(line)


def cut_end(rng, data, other):
    return data[:rng.choice([len(data) - 1, len(data) - 2, rng.randrange(len(data))])]


def cut_out(rng, data, other):
    start = rng.randrange(len(data))
    return data[:start] + data[start + rng.choice([1, 2, 2, 4, 8]):]


def put_in(rng, data, other):
    start = rng.choice([len(data), rng.randrange(len(data) + 1)])
    return data[:start] + rng.randbytes(rng.choice([1, 2, 2, 4, 12])) + data[start:]


def join(rng, data, other):
    """The head of one file and the tail of another, cut between words; or both whole."""
    if rng.random() < 0.2:
        return data + other
    return data[:2 * rng.randrange(len(data) // 2 + 1)] + other[2 * rng.randrange(len(other) // 2 + 1):]


WAYS = [flip_bits, flip_bits, set_words, set_words, set_near_neighbour, change_word, swap_words, cut_end, cut_out, put_in, join,
        grow, grow, change_count, fit_length, move_balise, move_balise] + [change_entry] * 5 + [put_to_limit] * 8


def damaged_file(rng, data, other):
    damaged = rng.choice(WAYS)(rng, data, other)
    while len(damaged) >= 4 and rng.random() < 0.15:
        damaged = rng.choice(WAYS)(rng, damaged, other)
    return damaged


def question(rng, data):
    """A train number, and lengths of buffers about the number of points that the file announces."""
    points = min(words_of(data)[0], MOST_POINTS) if len(data) >= 2 else 5
    k = rng.choice([0] * 9 + [1] * 3 + [2] * 2 + [rng.choice([3, 63, 64, 2 ** 32, TOP])])
    lengths = [points] * 9 + [points + 1, points + 3, rng.choice([max(points - 1, 0), 0])]
    return k, rng.choice(lengths), rng.choice(lengths)


def questions(rng, count):
    """Damaged files, each with a question: (file, k, length for speeds, length for times)."""
    other = base_file(rng)
    while count > 0:
        data = base_file(rng)
        for _ in range(min(count, 20)):
            damaged = damaged_file(rng, data, other)
            yield damaged, *question(rng, damaged)
            count -= 1
        other = data
