#!/usr/bin/env python3
"""Tests how ./sheet builds the sheet program, and what it makes of a program that gives no whole answer, in a copy of the commands with a
stand-in for rt: python3 tests/test_building.py"""
import os
import shutil
import signal
import subprocess
import sys
import tempfile
import unittest
from pathlib import Path

sys.dont_write_bytecode = True

from places import TOP_FOLDER
from processes import SECONDS, wait_until, with_interrupts

import building

STANDIN_RT = """\
import os, subprocess, sys, time
from pathlib import Path

crate = Path.cwd().name
os.chdir("../..")
mode = Path("rt.mode").read_text()
with open("rt.calls", "a") as calls:
    calls.write(" ".join([*sys.argv[1:], crate]) + "\\n")
if mode == "wait":
    while not Path("rt.go").exists():
        time.sleep(0.01)
if mode == "hang":
    Path("rt.process").write_text(str(subprocess.Popen(["/bin/sleep", "600"]).pid))
    time.sleep(600)
if mode == "change":
    time.sleep(0.1)
    Path("crates/low/src/lib.rt").touch()
if mode not in ("leave", "fail"):
    made = Path("crates", crate, "out", "sheet_program" if sys.argv[1] == "run" else f"lib{crate}.a")
    made.parent.mkdir(exist_ok=True)
    made.write_text("#!/bin/sh\\nprintf 'train start run block\\\\n1 0 5 0\\\\n'\\n")
    made.chmod(0o755)
print(Path("rt.failed" if mode.startswith("fail") else "rt.proved").read_text(), end="", flush=True)
sys.exit(1 if mode.startswith("fail") else 0)
"""


class Tree:
    """A copy of the commands with crates of its own and a stand-in for rt, which does what the file rt.mode says."""
    ANSWER = b"train start run block\n1 0 5 0\n"
    PROVED = ("fn low::one: proved\nlibrary std: modules loaded=2 checked=0\ncrate low: modules loaded=9 checked=0\nlogic=proved functions=1\n"
              "crate other: modules loaded=1 checked=3\nlogic=proved functions=2\ncrate middle: modules loaded=1 checked=3\n"
              "logic=proved functions=3\ncrate middle: modules loaded=4 checked=0\nlogic=proved functions=3\n"
              "crate sheet_program: modules loaded=1 checked=3\nlogic=proved functions=1\nrefused 1\n")
    FAILED = ("crate low: modules loaded=9 checked=0\nlogic=proved functions=1\nsrc/lib.rt:3:7: error[x]: wrong\n"
              "fn middle::three: not proved\nlogic=not-proved\nrt: the library middle did not build, so nothing above it was checked\n")
    CRATES = ("# a comment: none\nlow:\nother: low\nmiddle: low   # more\nsheet_program: middle io\n"
              "vellumrill_c staticlib: low io\n")
    FILES = ("crates/low/src/lib.rt", "crates/other/src/lib.rt", "crates/middle/src/lib.rt", "crates/middle/src/inner/deep.rt",
             "crates/middle/must-fail/wrong.edit", "crates/sheet_program/src/main.rt", "crates/sheet_program/stdin",
             "crates/vellumrill_c/src/lib.rt")

    def __init__(self, top):
        self.top = top
        self.environment = {"PATH": str(top / "bin")}
        for name in ("tools", "include", "python"):
            shutil.copytree(TOP_FOLDER / name, top / name, ignore=shutil.ignore_patterns("__pycache__", "*.so"))
        for name in ("sheet", "headway"):
            shutil.copy(TOP_FOLDER / name, top / name)
        texts = {"crates.txt": self.CRATES, "rt.proved": self.PROVED, "rt.failed": self.FAILED, "rt.mode": "",
                 "bin/rt": f"#!{sys.executable}\n{STANDIN_RT}", **dict.fromkeys(self.FILES, "source\n")}
        for name, text in texts.items():
            (top / name).parent.mkdir(parents=True, exist_ok=True)
            (top / name).write_text(text)
        (top / "bin" / "rt").chmod(0o755)
        (top / "bin" / "python3").symlink_to(sys.executable)
        for command in ("dirname", "readlink"):
            (top / "bin" / command).symlink_to(shutil.which(command))

    def set_mode(self, mode):
        (self.top / "rt.mode").write_text(mode)

    def touch(self, name):
        os.utime(self.top / name)

    def remove(self, command):
        (self.top / "bin" / command).unlink()

    def calls(self):
        """What the stand-in for rt was called with, so far."""
        calls = self.top / "rt.calls"
        return calls.read_text().splitlines() if calls.exists() else []

    def process(self):
        """The process that the stand-in for rt has started and waits for."""
        process = self.top / "rt.process"
        return process.read_text() if process.exists() else ""

    def write_program(self, script):
        (self.top / "target" / "bin" / "sheet_program").write_text(f"#!/bin/sh\n{script}\n")


def runs(process):
    try:
        return Path("/proc", process, "stat").read_text().rsplit(")", 1)[1].split()[0] not in "ZX"
    except FileNotFoundError:
        return False


class InTree(unittest.TestCase):
    """Tests in a copy of the commands, with a stand-in for rt. All sources are older than what is built."""

    def setUp(self):
        folder = tempfile.TemporaryDirectory()
        self.addCleanup(folder.cleanup)
        self.tree = Tree(Path(folder.name))

    def run_sheet(self, **options):
        return subprocess.run([self.tree.top / "sheet"], input=b"", capture_output=True, timeout=SECONDS,
                              env=self.tree.environment, **options)

    def check_answer(self, done):
        self.assertEqual((done.returncode, done.stdout), (0, Tree.ANSWER))

    def check_built(self, times):
        """The next run builds the program, so that it was built so many times in all; the one after it does not."""
        self.check_answer(self.run_sheet())
        self.assertEqual(self.tree.calls(), times * ["run sheet_program"])
        self.check_not_built(times)

    def check_not_built(self, times):
        done = self.run_sheet()
        self.check_answer(done)
        self.assertEqual((done.stderr, self.tree.calls()), (b"", times * ["run sheet_program"]))


class Building(InTree):
    def test_first_build(self):
        done = self.run_sheet()
        self.check_answer(done)
        self.assertEqual(done.stderr.decode().splitlines(), [
            "sheet: target/bin/sheet_program is not there yet, so it is proved and built now; the first time this takes some minutes,"
            " once. target/build-sheet_program.log has all that rt prints",
            "sheet:  1 of 3: low proved",
            "sheet:  2 of 3: middle proved",
            "sheet:  3 of 3: sheet_program proved"])
        self.assertEqual((self.tree.top / "target" / "build-sheet_program.log").read_text(), Tree.PROVED)
        self.check_not_built(1)
        self.assertEqual(list(self.tree.top.rglob("__pycache__")), [])

    def test_first_build_with_standard_error_closed(self):
        """What would be said gets into no file."""
        self.check_answer(self.run_sheet(preexec_fn=lambda: os.close(2)))
        self.assertEqual((self.tree.top / "target" / "build-sheet_program.log").read_text(), Tree.PROVED)
        self.assertEqual((self.tree.top / "target" / "build.lock").read_text(), "")

    def test_newer_sources(self):
        self.check_built(1)
        for times, name in enumerate(("crates.txt", "crates/low/src/lib.rt", "crates/low/src", "crates/middle/src/inner",
                                      "crates/sheet_program/stdin", "crates/middle/src/inner/deep.rt"), 2):
            with self.subTest(name):
                self.tree.touch(name)
                self.check_built(times)

    def test_added_and_deleted_sources(self):
        self.check_built(1)
        (self.tree.top / "crates/low/src/more.rt").write_text("")
        self.check_built(2)
        (self.tree.top / "crates/low/src/more.rt").unlink()
        self.check_built(3)

    def test_what_is_no_source_of_the_program(self):
        self.check_built(1)
        for name in ("crates/other/src/lib.rt", "crates/middle/must-fail/wrong.edit", "tools/building.py", "include/vellumrill.h",
                     "crates/low", "crates/sheet_program/out"):
            self.tree.touch(name)
        self.check_not_built(1)

    def test_missing_program(self):
        self.check_built(1)
        (self.tree.top / "target" / "bin" / "sheet_program").unlink()
        self.check_built(2)

    def test_program_that_rt_leaves_as_it_is(self):
        self.check_built(1)
        self.tree.touch("crates/low/src/lib.rt")
        self.tree.set_mode("leave")
        self.check_built(2)

    def test_source_that_changes_during_the_build(self):
        self.tree.set_mode("change")
        self.check_answer(self.run_sheet())
        self.tree.set_mode("")
        self.check_built(2)

    def test_failed_build(self):
        self.check_built(1)
        self.tree.touch("crates/low/src/lib.rt")
        for mode in ("fail", "fail late"):
            self.tree.set_mode(mode)
            done = self.run_sheet()
            self.assertEqual((done.returncode, done.stdout), (2, b""))
            for words in ("sheet: target/bin/sheet_program was not built", "ended with status 1",
                          "from target/build-sheet_program.log:\n",
                          "\n  src/lib.rt:3:7: error[x]: wrong\n", "\n  fn middle::three: not proved\n",
                          "\n  rt: the library middle did not build, so nothing above it was checked\n"):
                self.assertIn(words, done.stderr.decode())
        self.tree.set_mode("")
        self.check_built(4)

    def test_rt_that_builds_nothing(self):
        self.tree.set_mode("leave")
        done = self.run_sheet()
        self.assertEqual((done.returncode, done.stdout), (2, b""))
        self.assertIn(b"sheet: target/bin/sheet_program was not built", done.stderr)

    def test_no_rt(self):
        self.tree.remove("rt")
        done = self.run_sheet()
        self.assertEqual((done.returncode, done.stdout), (2, b""))
        self.assertIn(b"no command `rt` is on the PATH", done.stderr)

    def test_no_python(self):
        self.tree.remove("python3")
        done = self.run_sheet()
        self.assertEqual((done.returncode, done.stdout), (2, b""))
        self.assertIn(b"no command 'python3' is on the PATH", done.stderr)

    def test_old_python(self):
        """Every Python 3 can read what is started first; an old one is told there."""
        words = ("import sys; sys.version_info = (3, 10, 12); sys.path.insert(0, 'tools'); import start;"
                 " sys.exit(start.start('sheet', []))")
        done = subprocess.run([sys.executable, "-B", "-c", words], cwd=self.tree.top, capture_output=True, timeout=SECONDS)
        self.assertEqual((done.returncode, done.stdout), (2, b""))
        self.assertIn(b"sheet: Python 3.11 or later is needed; python3 is ", done.stderr)

    def test_settings_of_python_do_not_count(self):
        self.check_built(1)
        self.tree.environment.update(PYTHONHOME="/no/such", PYTHONIOENCODING="none")
        self.check_not_built(1)

    def test_target_that_cannot_be_written(self):
        (self.tree.top / "target").write_text("no directory")
        done = self.run_sheet()
        self.assertEqual((done.returncode, done.stdout, self.tree.calls()), (2, b"", []))
        self.assertIn(b"sheet: a build is due, and cannot write its files: ", done.stderr)

    def test_no_rt_and_nothing_to_build(self):
        self.check_built(1)
        self.tree.remove("rt")
        self.check_not_built(1)

    def test_bad_input_is_told_before_anything_is_built(self):
        done = subprocess.run([self.tree.top / "sheet", "/no/such"], capture_output=True, env=self.tree.environment)
        self.assertEqual((done.returncode, done.stdout, self.tree.calls()), (2, b"", []))

    def start(self):
        return subprocess.Popen([self.tree.top / "sheet", "/dev/null"], stdout=subprocess.PIPE,
                                stderr=subprocess.PIPE, env=self.tree.environment, preexec_fn=with_interrupts)

    def test_several_at_once(self):
        self.tree.set_mode("wait")
        first = self.start()
        wait_until(self.tree.calls, "rt does not start")
        others = [self.start(), self.start()]
        for other in others:
            self.assertEqual(other.stderr.readline(), b"sheet: another command is building; this one waits for it\n")
        (self.tree.top / "rt.go").touch()
        for running in (first, *others):
            out, _ = running.communicate(timeout=SECONDS)
            self.assertEqual((running.returncode, out), (0, Tree.ANSWER))
        self.assertEqual(self.tree.calls(), ["run sheet_program"])

    def check_ended(self, by, status):
        """The signal ends the command and rt with it; the next command builds."""
        self.tree.set_mode("hang")
        running = self.start()
        wait_until(self.tree.process, "rt does not start")
        running.send_signal(by)
        out, err = running.communicate(timeout=SECONDS)
        self.assertEqual((out, running.returncode), (b"", status))
        self.assertNotIn(b"Traceback", err)
        wait_until(lambda: not runs(self.tree.process()), "rt goes on")
        self.tree.set_mode("")
        self.check_built(2)

    def test_interrupt(self):
        self.check_ended(signal.SIGINT, 130)

    def test_other_signals(self):
        self.check_ended(signal.SIGTERM, 143)


class Archive(InTree):
    def make(self):
        return subprocess.run([self.tree.top / "tools" / "staticlib"], capture_output=True, text=True, timeout=SECONDS,
                              env=self.tree.environment)

    def test_made_anew_each_time(self):
        archive = self.tree.top / "target" / "staticlib" / "libvellumrill.a"
        for times in (1, 2):
            done = self.make()
            self.assertEqual((done.returncode, done.stdout), (0, "target/staticlib/libvellumrill.a is made\n"))
            self.assertEqual(self.tree.calls(), times * ["lib vellumrill_c"])
            self.assertTrue(archive.exists())

    def test_failed(self):
        self.tree.set_mode("fail")
        done = self.make()
        self.assertEqual((done.returncode, done.stdout), (2, ""))
        self.assertIn("staticlib: target/staticlib/libvellumrill.a was not built: `rt lib` in crates/vellumrill_c ended with status 1",
                      done.stderr)


class Closure(InTree):
    """The functions that other tests ask."""

    def ask(self, question):
        words = f"import sys; sys.dont_write_bytecode = True; sys.path.append('../python'); import building; print({question})"
        return subprocess.run([sys.executable, "-c", words], cwd=self.tree.top / "tools", check=True, capture_output=True,
                              text=True).stdout.strip()

    def test_closure(self):
        self.assertEqual(self.ask("sorted(building.closure('sheet_program'))"), "['low', 'middle', 'sheet_program']")
        self.assertEqual(self.ask("sorted(building.closure('other'))"), "['low', 'other']")
        self.assertEqual(self.ask("sorted(building.closure('vellumrill_c'))"), "['low', 'vellumrill_c']")
        self.assertIn("study_text", building.closure("vellumrill_c"))

    def test_newest_source(self):
        self.tree.touch("crates/other/src/lib.rt")
        self.assertTrue(self.ask("building.newest_source('other')").endswith("crates/other/src/lib.rt"))
        self.tree.touch("crates/low/src")
        self.assertTrue(self.ask("building.newest_source('other')").endswith("crates/low/src"))

    def test_out_of_date(self):
        product = self.tree.top / "target" / "some.a"
        question = f"building.out_of_date({str(product)!r}, 'other')"
        self.assertEqual(self.ask(question), "True")
        product.parent.mkdir()
        product.write_text("")
        self.assertEqual(self.ask(question), "False")
        self.tree.touch("crates/middle/src/lib.rt")
        self.assertEqual(self.ask(question), "False")
        self.tree.touch("crates/low/src/lib.rt")
        self.assertEqual(self.ask(question), "True")


class ProgramThatGivesNoWholeAnswer(InTree):
    def test_answers(self):
        self.check_built(1)
        for script in ("", "printf 'refused 1'", "printf 'refused\\n'", "printf 'refused x\\n'", "printf 'train start run block\\n'",
                       "printf 'train start run block\\n1 0 5'", "printf 'train start run block\\n1 0 5 0'",
                       "printf 'train start run block\\n1 0 5 0\\n2 0\\n'", "printf 'refused 1\\nrefused 1\\n'", "printf ' refused 1\\n'",
                       "printf 'refused 1\\n'; kill -9 $$", "printf 'refused 1\\n'; exit 3", "kill -11 $$"):
            with self.subTest(script):
                self.tree.write_program(script)
                done = self.run_sheet()
                self.assertEqual((done.returncode, done.stdout), (2, b""))
                self.assertIn(b"sheet: the program gave no whole answer: it ", done.stderr)
        self.tree.write_program("printf 'refused 7\\n'")
        done = self.run_sheet()
        self.assertEqual((done.returncode, done.stdout), (1, b"refused 7\n"))
        self.assertIn(b"sheet: explanation of refused 7: the band tops", done.stderr)
        self.assertIn(b"the place was not found", done.stderr)

    def test_program_that_cannot_be_run(self):
        self.check_built(1)
        (self.tree.top / "target" / "bin" / "sheet_program").write_bytes(b"\x7fELF")
        done = self.run_sheet()
        self.assertEqual((done.returncode, done.stdout), (2, b""))
        self.assertIn(b"sheet: the program cannot be run: ", done.stderr)


if __name__ == "__main__":
    unittest.main()
