"""Running times, block holds and earliest starts for lines under ERTMS Level 2, from the proved library of Vellumrill.

    >>> import vellumrill
    >>> file = vellumrill.read_file("examples/sample.txt")
    >>> vellumrill.rows(file).starts
    [0, 57282976]

Times are whole microseconds. Each call of the library has a function here; a refusal is raised as Refusal, with its number and its rule
in words. `python3 -m vellumrill --help` lists the commands.
"""

from .answers import Added, DiagramPoint, Held, Hold, Path, Period, RecordPlace, Rows, Run, Sheet, Sizes
from .binding import NoLibrary
from .calls import add, check_file, check_train, diagram, headway, hold, open_sheet, path, period, rows, run, sizes, study, train_record
from .files import explanation, pack_text, read_file, show_text
from .messages import Failure
from .rules import RULES, Refusal
from .version import VERSION

__all__ = ["Added", "DiagramPoint", "Failure", "Held", "Hold", "NoLibrary", "Path", "Period", "RULES", "RecordPlace", "Refusal", "Rows",
           "Run", "Sheet", "Sizes", "VERSION", "add", "check_file", "check_train", "diagram", "explanation", "headway", "hold",
           "open_sheet", "pack_text", "path", "period", "read_file", "rows", "run", "show_text", "sizes", "study", "train_record"]
