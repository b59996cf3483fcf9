"""Finds the rule that a line file breaks, and says in words which train and which entry breaks it.

The verdict is that of the proved program or library alone; this explains it. Rules are tried in checking order: 1 to 6, 15, 7 to 9.
So a later rule meets only lines that keep all earlier ones: with a block, and with a step that is not 0.
"""

from itertools import count
from typing import NamedTuple

from . import linetext
from .rules import RULES


class Broken(NamedTuple):
    """A part of a rule that is broken, and where. Trains and entries are counted from 1."""
    part: str
    value: int                          # the number that breaks it
    words: str
    entry: int | None = None
    word: str | None = None             # that the entry has in a line text
    number: int | None = None           # of the rule
    train: int | None = None


def beside(pairs):
    """Each pair with its number and the pair before it, which the first has not."""
    return zip(count(1), [None, *pairs], pairs)


def beyond(part, value, least, greatest, unit="", word=None):
    """The size's part of rule 3, if it is broken."""
    if not least <= value <= greatest:
        yield Broken(part, value, f"the {part} is {value}{unit}, not {least} to {greatest}{unit}", word=word)


# ------------------------------------------------------------ rules of the line

def line_sizes(line):
    yield from beyond("number of points", line.sizes["points"], 3, 4096, word="points")
    yield from beyond("step", line.sizes["step"], 1, 100, " m", "step")
    yield from beyond("number of limits", len(line.pairs["limit"]), 1, 64)
    yield from beyond("number of blocks", len(line.pairs["block"]), 1, 32)
    yield from beyond("number of balises", len(line.pairs["balise"]), 0, 64)
    yield from beyond("number of trains", len(line.trains), 1, 64)


def limit_points(line):
    last_cell = line.sizes["points"] - 2
    for entry, before, (point, _) in beside(line.pairs["limit"]):
        if not before and point != 0:
            yield Broken("begin", point, f"point {point} is not point 0, where the limits begin", entry)
        if before and point <= before[0]:
            yield Broken("rise", point, f"point {point} is not beyond point {before[0]} of the limit before it", entry)
        if point > last_cell:
            yield Broken("last cell", point, f"point {point} is beyond the last cell, which begins at point {last_cell}", entry)


def limits(line):
    for entry, (_, limit) in enumerate(line.pairs["limit"], 1):
        if not 1 <= limit <= 300:
            yield Broken("limit", limit, f"{limit} km/h is not 1 to 300 km/h", entry)


def blocks(line):
    last = line.sizes["points"] - 1
    for entry, before, (start, end) in beside(line.pairs["block"]):
        if not before and start != 0:
            yield Broken("begin", start, f"its start at point {start} is not at point 0, where the first block starts", entry)
        if before and start < before[1]:
            yield Broken("overlap", start, f"its start at point {start} lies before point {before[1]},"
                                           " where the block before it ends", entry)
        if start >= end:
            yield Broken("start below end", start, f"its start at point {start} is not before its end at point {end}", entry)
        if end > last:
            yield Broken("last point", end, f"its end at point {end} is beyond the last point, {last}", entry)


def balises(line):
    step, last = line.sizes["step"], line.sizes["points"] - 1
    for entry, before, (point, metres) in beside(line.pairs["balise"]):
        place = point * step + metres
        place_before = before[0] * step + before[1] if before else -1
        where = f"{metres} m past point {point}"
        if metres >= step:
            yield Broken("metres", metres, f"{where}: the metres reach the step of {step} m", entry)
        if place <= place_before:
            yield Broken("rise", place, f"{where}: its place at {place} m is not beyond that of the balise before it"
                                        f" at {place_before} m", entry)
        if place > last * step:
            yield Broken("last point", place, f"{where}: its place at {place} m is beyond the last point at {last * step} m", entry)


# ------------------------------------------------------------ rules of a train

def train_sizes(line, train):
    yield from beyond("class", train.train_class, 0, 2, word="train")
    yield from beyond("length", train.sizes["length"], 1, 1000, " m", "length")
    yield from beyond("number of bands", len(train.pairs["band"]), 1, 8)
    yield from beyond("number of stops", len(train.pairs["stop"]), 0, 32)


def bands(line, train):
    for entry, before, (top, rate) in beside(train.pairs["band"]):
        if not 1 <= top <= 300:
            yield Broken("top", top, f"its top of {top} km/h is not 1 to 300 km/h", entry)
        if before and top <= before[0]:
            yield Broken("rise", top, f"its top of {top} km/h is not above the {before[0]} km/h of the band before it", entry)
        if not 1 <= rate <= 200:
            yield Broken("rate", rate, f"its rate of {rate} cm/s2 is not 1 to 200 cm/s2", entry)


def stops(line, train):
    last = line.sizes["points"] - 1
    for entry, before, (point, dwell) in beside(train.pairs["stop"]):
        if before and point < before[0] + 2:
            yield Broken("two points", point, f"point {point} is less than two points after the stop before it at point {before[0]}",
                         entry)
        if point > last:
            yield Broken("last point", point, f"point {point} is beyond the last point, {last}", entry)
        if dwell > 3600:
            yield Broken("dwell", dwell, f"its dwell of {dwell} s is longer than 3600 s", entry)


def room(line, train):
    step, last, end = line.sizes["step"], line.sizes["points"] - 1, line.pairs["block"][-1][1]
    length = train.sizes["length"]
    steps = -(-length // step)
    if end + steps > last:
        yield Broken("room", length, f"its length of {length} m takes {steps} steps of {step} m, which from the last block's end"
                                     f" at point {end} reach point {end + steps}, beyond the last point, {last}", word="length")


# ------------------------------------------------------------ the first broken rule

def of_line(number, rule, line, word=None):
    """The rule's broken parts, the place in front of the words."""
    for found in rule(line):
        place = f"{word} {found.entry} of {len(line.pairs[word])}: " if word else ""
        yield found._replace(number=number, words=place + found.words, word=word or found.word)


def of_trains(number, rule, line, word=None):
    """The same for the rule of each train."""
    for k, train in enumerate(line.trains, 1):
        for found in rule(line, train):
            place = f", {word} {found.entry} of {len(train.pairs[word])}" if word else ""
            yield found._replace(number=number, words=f"train {k}{place}: {found.words}", word=word or found.word, train=k)


def broken_from_3(line):
    """The broken parts of the rules from 3 on, in checking order."""
    yield from of_line(3, line_sizes, line)
    yield from of_trains(3, train_sizes, line)
    yield from of_line(4, limit_points, line, "limit")
    yield from of_line(5, limits, line, "limit")
    yield from of_line(6, blocks, line, "block")
    yield from of_line(15, balises, line, "balise")
    yield from of_trains(7, bands, line, "band")
    yield from of_trains(8, stops, line, "stop")
    yield from of_trains(9, room, line)


def left_over(line, end, size):
    left = size - end
    follow = "1 byte follows" if left == 1 else f"{left} bytes follow"
    last = "the last announced train" if line.trains else "the number of trains, which is 0"
    return Broken("left over", left, f"{follow} {last}: the file should end with byte {end - 1}, and has {size} bytes", number=2)


def first_broken(data):
    """The part of a rule that gives a line file its number of refusal, or None."""
    source = linetext.Bytes(data)
    try:
        line = linetext.take_line(source)
    except linetext.FileFault as fault:
        return Broken("cut short", len(data), f"the file is {fault}", number=1)
    if source.at < len(data):
        return left_over(line, source.at, len(data))
    return next(broken_from_3(line), None)


def place_in_text(found, line):
    """Where the text of the line has what was found, in words, if it stands in one place."""
    section = line.trains[found.train - 1] if found.train else line
    number = section.text_lines.get((found.word, found.entry))
    return f" (line {number} of the text)" if number else ""


def is_any_text(data):
    """Whether these bytes are printable text with letters in it, of whatever kind."""
    try:
        text = data.decode()
    except UnicodeDecodeError:
        return False
    return any(map(str.isalpha, text)) and all(letter.isprintable() or letter.isspace() for letter in text)


def explanation(number, data, line=None):
    """Why these bytes are refused by this number, in words; `line` is what their text says, where they have one."""
    found = first_broken(data)
    if not found or found.number != number:
        return f"{RULES.get(number, 'there is no such rule of a file')}; the place was not found"
    if line:
        return found.words + place_in_text(found, line)
    return found.words + ("; it looks like a text, and a line text needs a name that ends in .txt" if is_any_text(data) else "")
