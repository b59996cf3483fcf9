"""Where the tests find what they test. This puts the folders of the tools, the package and the calculator on the path, so their modules can
be imported after this one."""
import sys
from pathlib import Path

TOP_FOLDER = Path(__file__).resolve().parent.parent
EXAMPLES = TOP_FOLDER / "examples"
CALCULATOR = TOP_FOLDER / "tests" / "calculator"

sys.path[:0] = map(str, (CALCULATOR, TOP_FOLDER / "tools", TOP_FOLDER / "python"))
