#!/usr/bin/env python3
"""Tests that the stored cases of the test programs are those that the scripts make, to the byte."""
import subprocess
import sys
import tempfile
import unittest
from pathlib import Path

TESTS = Path(__file__).resolve().parent
CRATES = TESTS.parent / "crates"
SCRIPTS = sorted(set(TESTS.glob("*_cases.py")) - {Path(__file__).resolve()})


class StoredCases(unittest.TestCase):
    def test_every_test_program_has_a_script(self):
        programs = sorted(folder.name for folder in CRATES.glob("*_cases"))
        self.assertEqual([script.stem for script in SCRIPTS], programs)

    def test_cases_made_again(self):
        for script in SCRIPTS:
            with self.subTest(script.name), tempfile.TemporaryDirectory() as made:
                subprocess.run([sys.executable, "-B", script, made], check=True, stdout=subprocess.DEVNULL)
                for name in ("stdin", "stdout"):
                    again = Path(made, script.stem, name).read_bytes()
                    self.assertTrue(again == (CRATES / script.stem / name).read_bytes(), "%s of %s differs" % (name, script.stem))


if __name__ == "__main__":
    unittest.main()
