"""What rt proves and builds here: whether a product is older than its sources, and its building with progress.

All paths are those of the repository that this file stands in.
"""

import contextlib
import fcntl
import os
import re
import shutil
import signal
import subprocess
from pathlib import Path
from typing import NamedTuple

from vellumrill.messages import Failure, end_of, reason

TOP = Path(__file__).resolve().parent.parent
TARGET = TOP / "target"
CHECKED = re.compile(r"crate (\w+): modules ")
SHOWN = 6                               # lines of the log that a failed build shows


class Product(NamedTuple):
    path: Path
    crate: str
    word: str                           # what rt is told in the crate's folder
    left: str                           # the name under which rt leaves it

    @property
    def folder(self):
        return TOP / "crates" / self.crate

    @property
    def made(self):
        return self.folder / "out" / self.left


PROGRAM = Product(TARGET / "bin" / "sheet_program", "sheet_program", "run", "sheet_program")
LIBRARY = Product(TARGET / "staticlib" / "libvellumrill.a", "vellumrill_c", "lib", "libvellumrill_c.a")


# ------------------------------------------------------------ sources

def listed_crates():
    """Each crate of crates.txt with the names that it stands on."""
    crates = {}
    for line in (TOP / "crates.txt").read_text().splitlines():
        name, colon, stands_on = line.split("#")[0].partition(":")
        if colon:
            crates[name.split()[0]] = stands_on.split()     # a word behind the name tells its kind
    return crates


def closure(crate):
    """The crate and all crates of this repository that it stands on; the kit's libraries are none of them."""
    crates, found, waiting = listed_crates(), set(), [crate]
    while waiting:
        name = waiting.pop()
        if name in crates and name not in found:
            found.add(name)
            waiting += crates[name]
    return found


def sources(crate):
    """crates.txt, and the files and folders of the crates that this one stands on. The folders tell when a file goes away; a crate's own
    folder does not, since rt makes the folder `out` in it anew."""
    yield TOP / "crates.txt"
    for name in sorted(closure(crate)):
        top = TOP / "crates" / name
        for folder, inner, files in os.walk(top):
            inner[:] = [name for name in inner if name not in ("must-fail", "out")]
            if Path(folder) != top:
                yield Path(folder)
            yield from (Path(folder, file) for file in files)


def changed(path):
    """When the path was last modified, in nanoseconds."""
    return path.lstat().st_mtime_ns


def newest_source(crate):
    """The path that was modified last of those that the crate is made from."""
    return max(sources(crate), key=changed)


def out_of_date(product, crate):
    """Whether the product at this path is missing, or older than something that its crate is made from."""
    product = Path(product)
    return not product.exists() or changed(newest_source(crate)) > changed(product)


# ------------------------------------------------------------ building

def log_of(crate):
    return TARGET / f"build-{crate}.log"


def shown(path):
    return path.relative_to(TOP)


def why(product):
    """Why the product is out of date, in words."""
    if not product.path.exists():
        return f"{shown(product.path)} is not there yet"
    if changed(product.path) == 0:
        return f"{shown(product.path)} is of a build that did not succeed"
    if not out_of_date(product.path, product.crate):
        return f"{shown(product.path)} is to be made anew"
    return f"{shown(product.path)} is older than {shown(newest_source(product.crate))}"


@contextlib.contextmanager
def only_builder(say):
    """Holds the lock of this repository's builds. rt gets it too, so that it is kept as long as rt runs."""
    try:
        TARGET.mkdir(exist_ok=True)
        lock = open(TARGET / "build.lock", "w")
    except OSError as error:
        raise Failure(f"a build is due, and cannot write its files: {reason(error)}") from None
    with lock:
        try:
            fcntl.flock(lock, fcntl.LOCK_EX | fcntl.LOCK_NB)
        except BlockingIOError:
            say("another command is building; this one waits for it")
            fcntl.flock(lock, fcntl.LOCK_EX)
        yield lock


def follow(output, log, crates, say):
    """Copies what rt prints to the log, and says which crates are proved. rt names a crate, and then tells that it is proved."""
    proved, named = set(), None
    for line in output:
        log.write(line)
        log.flush()
        line = line.decode(errors="replace")
        if found := CHECKED.match(line):
            named = found[1]
        elif line.startswith("logic=proved") and named in crates - proved:
            proved.add(named)
            say(f"{len(proved):2} of {len(crates)}: {named} proved")


def run_rt(rt, product, lock, say):
    """The exit status of rt. It is ended together with this command."""
    crates = closure(product.crate)
    with open(log_of(product.crate), "wb") as log, subprocess.Popen(
            [rt, product.word], cwd=product.folder, stdin=subprocess.DEVNULL, stdout=subprocess.PIPE,
            stderr=subprocess.STDOUT, process_group=0, pass_fds=[lock.fileno()]) as running:
        try:
            follow(running.stdout, log, crates, say)
        except BaseException:
            os.killpg(running.pid, signal.SIGTERM)
            raise
    return running.returncode


def telling_lines(log):
    """The last lines of a failed build that tell what went wrong."""
    lines = [line for line in log.read_text(errors="replace").splitlines() if line.strip()]
    telling = [line for line in lines if re.search(r"error|fail|not proved|did not build", line, re.IGNORECASE)]
    return "".join(f"\n  {line[:300]}" for line in (telling or lines)[-SHOWN:])


def make_old(product):
    """A product of no known state is older than every source."""
    if product.path.exists():
        os.utime(product.path, ns=(0, 0))


def check_built(product, status):
    if status or not product.made.exists():
        log = log_of(product.crate)
        raise Failure(f"{shown(product.path)} was not built: `rt {product.word}` in {shown(product.folder)} {end_of(status)};"
                      f" from {shown(log)}:{telling_lines(log)}")


def take(product):
    """Puts what rt made into its place. A command that runs meanwhile has the old one or the new one whole."""
    beside = product.path.with_name(product.path.name + ".new")
    product.path.parent.mkdir(parents=True, exist_ok=True)
    shutil.copy(product.made, beside)
    os.replace(beside, product.path)


def build(product, rt, lock, say):
    log = log_of(product.crate)
    say(f"{why(product)}, so it is proved and built now; the first time this takes some minutes, once."
        f" {shown(log)} has all that rt prints")
    log.touch()
    began = changed(log)
    try:
        check_built(product, run_rt(rt, product, lock, say))
        take(product)
    except BaseException:
        make_old(product)
        raise
    os.utime(product.path, ns=(began, began))       # what changes during the build is newer


def rt_for(product):
    rt = shutil.which("rt")
    if rt is None:
        raise Failure(f"{why(product)}, and building it needs the Rattle toolchain: no command `rt` is on the PATH")
    return rt


def bring_up_to_date(product, say):
    """Builds the product where it is out of date."""
    if not out_of_date(product.path, product.crate):
        return
    rt = rt_for(product)
    with only_builder(say) as lock:
        if out_of_date(product.path, product.crate):
            build(product, rt, lock, say)


def build_anew(product, say):
    """Builds the product whatever its date."""
    rt = rt_for(product)
    with only_builder(say) as lock:
        build(product, rt, lock, say)
