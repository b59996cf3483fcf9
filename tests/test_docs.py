#!/usr/bin/env python3
"""Tests the documents: every command in a `console` block prints what stands below it, every definition, law and wrong program that
docs/RULES.md names is there, every wrong program is named, and every file that is named is there."""
import re
import subprocess
import sys
import unittest

sys.dont_write_bytecode = True

from library import need_archive
from places import TOP_FOLDER
from yardstick import VERSION

CRATES = TOP_FOLDER / "crates"
PAGES = [TOP_FOLDER / "README.md", *sorted((TOP_FOLDER / "docs").glob("*.md"))]
RULES, CALLS = (TOP_FOLDER / "docs" / name for name in ("RULES.md", "CALLS.md"))
PLACES = ("crates", "docs", "examples", "include", "tests", "tools", "python", "bench", ".ci")


# ---- commands

def console_blocks(page):
    return re.findall(r"```console\n(.*?)```", page.read_text(), re.DOTALL)


def commands(block):
    """Each command of a block, with the lines that it is to print."""
    for part in re.split(r"(?m)^\$ ", block)[1:]:
        command, _, shown = part.partition("\n")
        yield command, shown


# ---- names

def declared():
    """For each crate and each of its folders specs and proofs, the names that are declared there."""
    names = set()
    for file in CRATES.glob("*/*/**/*.antt"):
        crate, folder = file.relative_to(CRATES).parts[:2]
        for line in file.read_text().splitlines():
            found = re.match(r"(?:pub )?(?:record|data) (\S+)|\s*(?:(?:unfoldable|abbrev|pub) )*(\S+) :(?:\s|$)", line)
            if found:
                names.add((crate, folder, found[1] or found[2]))
    return names


def edits():
    return {"%s/%s" % (file.parts[-3], file.stem) for file in CRATES.glob("*/must-fail/*.edit")}


def named_edits(page):
    return set(re.findall(r"`([a-z_]+/[a-z_0-9]+)`", page.read_text()))


def references():
    """The lines below the paragraphs of the rules, each with the number of its paragraph: pairs of a kind and its words."""
    paragraphs = re.findall(r"(?m)^\*\*(\d+\.\d+)[^\n]*\n(?:(?!>|\*\*).*\n)*((?:> .*\n)*)", RULES.read_text())
    for number, lines in paragraphs:
        yield number, [tuple(part.split(maxsplit=1)) for part in re.sub(r"\n?> ", " ", lines).strip().split(" · ")]


def names_in(words):
    """The names in some words, each with the crate that it stands in: the word before it, `marked` for a table, else `rules`."""
    for before, name in re.findall(r"(?:\b([a-z_]+) )?`([^`/]+)`", words):
        crate = "marked" if before == "table" else before if (CRATES / before).is_dir() and before else "rules"
        yield crate, name


class Documents(unittest.TestCase):
    def test_commands(self):
        for page in PAGES:
            for block in console_blocks(page):
                for command, shown in commands(block):
                    with self.subTest(page=page.name, command=command):
                        done = subprocess.run(["bash", "-c", command], cwd=TOP_FOLDER, capture_output=True, text=True)
                        self.assertIn(shown, (done.stdout, done.stdout + done.stderr))
                        self.assertEqual(done.returncode, 1 if re.match(r"(?:\S+: )?refused", shown) else 0)

    def test_every_paragraph_has_its_references(self):
        numbers = re.findall(r"(?m)^\*\*(\d+\.\d+)", RULES.read_text())
        self.assertEqual([number for number, _ in references()], numbers)
        for number, parts in references():
            with self.subTest(number):
                kinds = [kind for kind, _ in parts]
                self.assertIn(kinds, (["Definition", "law", "refused"], ["Refused"]))

    def test_definitions_and_laws(self):
        names = declared()
        for number, parts in references():
            for kind, words in parts:
                for crate, name in names_in(words) if kind in ("Definition", "law") else []:
                    with self.subTest(number, kind=kind, name=name):
                        folders = ["specs"] if kind == "Definition" else ["specs", "proofs"] if name[0].isupper() else ["proofs"]
                        self.assertTrue(any((crate, folder, name) in names for folder in folders))

    def test_wrong_programs(self):
        self.assertEqual(named_edits(RULES) - edits(), set())
        self.assertEqual(edits() - named_edits(RULES) - named_edits(CALLS), set())

    def test_counts(self):
        readme = (TOP_FOLDER / "README.md").read_text()
        self.assertEqual(re.findall(r"(\d+) wrong programs and wrong rules", readme), [str(len(edits()))])
        for page in (readme, RULES.read_text()):
            self.assertEqual(re.findall(r"requests 01 to\s(\d+)", page), ["%02d" % VERSION])

    def test_files_are_there(self):
        for page in PAGES:
            for path in re.findall(r"`((?:%s)/[^\s`*{}<>]*)`" % "|".join(map(re.escape, PLACES)), page.read_text()):
                with self.subTest(page=page.name, path=path):
                    self.assertTrue((TOP_FOLDER / path).exists())

    def test_pictures_are_there(self):
        shown = {page.parent / name for page in PAGES for name in re.findall(r"!\[[^]]*\]\(([^)]*)\)", page.read_text())}
        self.assertEqual(shown, set((TOP_FOLDER / "docs" / "pictures").iterdir()))


def setUpModule():
    need_archive()


if __name__ == "__main__":
    unittest.main()
