"""A readable description of a line and its trains, the line, and its line file's bytes: each made from another."""

import re
import struct

from .readable import counted

GREATEST = 65535
SHOWN = 40                              # characters of a wrong word
CLASS_NAMES = ("intercity", "stopping", "goods")

LINE_SIZES = ("points", "step", "set-up", "release")
LINE_PAIRS = ("limit", "block", "balise")
TRAIN_SIZES = ("length",)
TRAIN_PAIRS = ("band", "stop")

VALUES = {
    "points": ("COUNT",),
    "step": ("METRES",),
    "set-up": ("TENTHS",),
    "release": ("TENTHS",),
    "limit": ("POINT", "KMH"),
    "block": ("START", "END"),
    "balise": ("POINT", "METRES"),
    "train": ("CLASS",),
    "length": ("METRES",),
    "band": ("TOP", "RATE"),
    "stop": ("POINT", "DWELL"),
}


class Fault(Exception):
    status = 2


class FileFault(Fault):
    status = 1


class Section:
    """The line or one train: sizes that stand once, and lists of pairs."""

    def __init__(self, sizes, pairs):
        self.sizes = dict.fromkeys(sizes)
        self.pairs = {word: [] for word in pairs}
        self.text_lines = {}            # where each size, and each entry of a list, counted from 1, stands in the text

    def missing(self):
        return [word for word, value in self.sizes.items() if value is None]


class Line(Section):
    def __init__(self):
        super().__init__(LINE_SIZES, LINE_PAIRS)
        self.trains = []


class Train(Section):
    def __init__(self, train_class, text_line=None):
        super().__init__(TRAIN_SIZES, TRAIN_PAIRS)
        self.train_class = train_class
        self.text_lines["train", None] = text_line


# ------------------------------------------------------------ text to line

def decode(data):
    try:
        return data.decode("utf-8-sig")
    except UnicodeDecodeError as error:
        number = error.object[:error.start].count(b"\n") + 1
        raise Fault(f"line {number}: this is not text in UTF-8") from None


def numbered_words(text):
    lines = text.replace("\r\n", "\n").replace("\r", "\n").split("\n")
    for number, written in enumerate(lines, 1):
        words = written.split("#")[0].split()
        if words:
            yield number, words


def cut(word):
    """A word as a message shows it."""
    return word if len(word) <= SHOWN else word[:SHOWN] + ".."


def whole_number(word):
    if not re.fullmatch("-?[0-9]+", word):
        raise Fault(f"{cut(word)!r} is not a whole number")
    digits = word.lstrip("-").lstrip("0") or "0"
    negative = word.startswith("-") and digits != "0"
    if negative or len(digits) > len(str(GREATEST)) or int(digits) > GREATEST:
        raise Fault(f"{cut(word)} does not fit 16 bits (0 to {GREATEST})")
    return int(digits)


def class_number(word):
    if word in CLASS_NAMES:
        return CLASS_NAMES.index(word)
    if word[0].isalpha():
        raise Fault(f"unknown class {cut(word)!r}; write {', '.join(CLASS_NAMES)} or a number")
    return whole_number(word)


def form(word):
    return " ".join((word,) + VALUES[word])


def check_count(word, values):
    wanted = len(VALUES[word])
    if len(values) < wanted:
        raise Fault(f"too few numbers; write: {form(word)}")
    if len(values) > wanted:
        raise Fault(f"too many numbers; write: {form(word)}")


def append(entries, entry, word):
    if len(entries) == GREATEST:
        raise Fault(f"more than {GREATEST} of {word!r} do not fit the file")
    entries.append(entry)


def section_for(word, line):
    """The section that a line with this word belongs to."""
    if word in LINE_SIZES + LINE_PAIRS:
        if line.trains:
            raise Fault(f"{word!r} belongs to the line and stands before the first train")
        return line
    if not line.trains:
        raise Fault(f"{word!r} outside a train; first open one: {form('train')}")
    return line.trains[-1]


def enter(section, word, numbers, text_line):
    entry = None
    if word in section.pairs:
        append(section.pairs[word], tuple(numbers), word)
        entry = len(section.pairs[word])
    elif section.sizes[word] is None:
        section.sizes[word] = numbers[0]
    else:
        raise Fault(f"{word!r} is given twice")
    section.text_lines[word, entry] = text_line


def open_train(line, values, number):
    check_count("train", values)
    append(line.trains, Train(class_number(values[0]), number), "train")


def take(line, words, number):
    word, values = words[0], words[1:]
    if word not in VALUES:
        raise Fault(f"unknown word {cut(word)!r}; known: {', '.join(VALUES)}")
    if word == "train":
        open_train(line, values, number)
        return
    section = section_for(word, line)
    check_count(word, values)
    enter(section, word, [whole_number(value) for value in values], number)


def check_complete(section, beginning):
    missing = " and ".join(map(repr, section.missing()))
    if missing:
        raise Fault(f"{beginning} without {missing}")


def at_line(number, call, *arguments):
    """Makes the call; a fault gets the number of the text's line in front."""
    try:
        call(*arguments)
    except Fault as fault:
        raise Fault(f"line {number}: {fault}") from None


def check_sizes(line, last):
    end = line.trains[0].text_lines["train", None] if line.trains else last
    at_line(end, check_complete, line, "the description of the line ends here")
    for train in line.trains:
        at_line(train.text_lines["train", None], check_complete, train, "this train is")


def read_text(text):
    line, number = Line(), 1
    for number, words in numbered_words(text):
        at_line(number, take, line, words, number)
    check_sizes(line, number)
    return line


# ------------------------------------------------------------ line to bytes

def columns(pairs):
    return [first for first, _ in pairs] + [second for _, second in pairs]


def train_numbers(train):
    bands, stops = train.pairs["band"], train.pairs["stop"]
    return [train.train_class, train.sizes["length"], len(bands), len(stops),
            *columns(bands), *columns(stops)]


def line_numbers(line):
    limits, blocks, balises = line.pairs["limit"], line.pairs["block"], line.pairs["balise"]
    numbers = [line.sizes["points"], line.sizes["step"], len(limits), len(blocks),
               line.sizes["set-up"], line.sizes["release"], len(balises),
               *columns(limits), *columns(blocks), *columns(balises), len(line.trains)]
    for train in line.trains:
        numbers += train_numbers(train)
    return numbers


def to_bytes(line):
    numbers = line_numbers(line)
    return struct.pack(f"<{len(numbers)}H", *numbers)


# ------------------------------------------------------------ bytes to line

class Bytes:
    """The file's bytes, taken from the front."""

    def __init__(self, data):
        self.data = data
        self.at = 0

    def numbers(self, count, name):
        end = self.at + 2 * count
        if end > len(self.data):
            raise FileFault(f"cut short: {name} should fill bytes {self.at} to {end - 1},"
                            f" but the file has {counted(len(self.data), 'byte')}")
        found = struct.unpack_from(f"<{count}H", self.data, self.at)
        self.at = end
        return found

    def pairs(self, count, first_name, second_name):
        firsts = self.numbers(count, first_name)
        seconds = self.numbers(count, second_name)
        return list(zip(firsts, seconds))

    def check_end(self):
        if self.at < len(self.data):
            raise FileFault(f"bytes left over: the last announced train ends with byte {self.at - 1},"
                            f" but the file has {len(self.data)} bytes")


def take_train(source, name):
    train_class, length, bands, stops = source.numbers(4, f"the sizes of {name}")
    train = Train(train_class)
    train.sizes["length"] = length
    train.pairs["band"] = source.pairs(bands, f"the band tops of {name}", f"the rates of {name}")
    train.pairs["stop"] = source.pairs(stops, f"the stop points of {name}", f"the dwells of {name}")
    return train


def take_track(source):
    """The line without its trains, and how many trains are announced."""
    line = Line()
    points, step, limits, blocks, set_up, release, balises = source.numbers(7, "the sizes")
    line.sizes = dict(zip(LINE_SIZES, (points, step, set_up, release)))
    line.pairs["limit"] = source.pairs(limits, "the limit points", "the limits")
    line.pairs["block"] = source.pairs(blocks, "the block starts", "the block ends")
    line.pairs["balise"] = source.pairs(balises, "the balise points", "the metres of the balises")
    return line, source.numbers(1, "the number of trains")[0]


def take_line(source):
    """The line with its trains; bytes may be left over."""
    line, trains = take_track(source)
    line.trains = [take_train(source, f"train {k} of {trains}") for k in range(1, trains + 1)]
    return line


def from_bytes(data):
    source = Bytes(data)
    line = take_line(source)
    source.check_end()
    return line


# ------------------------------------------------------------ line to text

def class_word(number):
    return CLASS_NAMES[number] if number < len(CLASS_NAMES) else str(number)


def noted(words, note):
    return f"{words:<20}# {note}"


def pair_lines(section, word):
    return [f"{word} {first} {second}" for first, second in section.pairs[word]]


def train_lines(train, number):
    inner = [f"length {train.sizes['length']}"]
    inner += pair_lines(train, "band") + pair_lines(train, "stop")
    head = noted(f"train {class_word(train.train_class)}", f"train {number}")
    return [head] + ["  " + words for words in inner]


def line_lines(line):
    sizes = line.sizes
    blocks = pair_lines(line, "block")
    return [
        f"points {sizes['points']}",
        noted(f"step {sizes['step']}", "m"),
        noted(f"set-up {sizes['set-up']}", "tenths of a second"),
        noted(f"release {sizes['release']}", "tenths of a second"),
        "",
        f"# {form('limit')}",
        *pair_lines(line, "limit"),
        "",
        f"# {form('block')}",
        *(noted(words, f"block {number}") for number, words in enumerate(blocks, 1)),
        "",
        f"# {form('balise')}",
        *pair_lines(line, "balise"),
        "",
        f"# length in m, {form('band')} in km/h and cm/s2, {form('stop')} in s",
    ]


def write_text(line):
    lines = line_lines(line)
    for number, train in enumerate(line.trains, 1):
        lines += ["", *train_lines(train, number)]
    return "\n".join(lines) + "\n"
