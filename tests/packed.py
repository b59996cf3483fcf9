"""What the scripts that pack cases have in common. Each writes below crates, or below the folder that it is given."""
import sys
from collections import Counter
from pathlib import Path

CRATES = Path(__file__).resolve().parent.parent / "crates"


def write_cases(program, packed, lines, tally):
    """Writes stdin and stdout of a test program, and prints how many cases of each kind there are."""
    folder = Path(*sys.argv[1:2] or [CRATES]) / program
    folder.mkdir(parents=True, exist_ok=True)
    (folder / "stdin").write_bytes(packed)
    answers = "".join(line + "\n" for line in lines)
    (folder / "stdout").write_text(answers)
    for what in sorted(tally):
        print("%6d %s" % (tally[what], what))
    print("%d bytes in, %d bytes out" % (len(packed), len(answers)))


class PackedFiles:
    """Packed files, the lines that answer what is asked of them, and how many there are of each kind."""

    def __init__(self):
        self.packed = bytearray()
        self.lines = []
        self.files = set()
        self.tally = Counter()

    def count(self, what):
        self.tally[what] += 1

    def write(self, program):
        self.tally["files"] = len(self.files)
        write_cases(program, self.packed, self.lines, self.tally)
