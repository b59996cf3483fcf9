#!/usr/bin/env python3
"""Tests that the plain program of the benchmark, built with the calls for C, gives the calculator's answers too."""
import subprocess
import sys
import unittest
from pathlib import Path

TOP_FOLDER = Path(__file__).resolve().parent.parent


def run(*words):
    return subprocess.run([sys.executable, "-B", *words], cwd=TOP_FOLDER, capture_output=True, text=True)


class PlainProgram(unittest.TestCase):
    def test_answers(self):
        built = run("bench/run", "--plain-library")
        self.assertEqual(built.returncode, 0, built.stderr)
        compared = run("tests/compare", "--seed", "1", "--library", built.stdout.strip())
        self.assertEqual(compared.returncode, 0, compared.stdout[-2000:])
        self.assertIn(", 0 differ", compared.stdout.splitlines()[-1])


if __name__ == "__main__":
    unittest.main()
