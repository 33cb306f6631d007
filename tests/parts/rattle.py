"""Compiles the tests and programs in Rattle that are not proved (unproved.txt), with all checks, and runs them.

    ./test rattle [NAME..]     those of these crates; a program of crates.txt can be named, too

Test functions run as they are. A program runs with the words of its file `args`, in a copy of its folder `data`, and
must print what its file `stdout` has. If the check of an index, a sum, a cast or the like fails, `rt try` runs it
again, and says where.

The last line is 'N passed, M failed', counted in test functions, in scenes (each prints a line), and in programs."""

import difflib
import os
import re
import shutil
import signal
import subprocess
import tempfile
import time
from concurrent.futures import ThreadPoolExecutor

from scripts import crates, machine, toolchain, unproved, usage
from tests import checks

# What `rattle-test` says of a test: its name, how it ended, and in lines of their own why. A check that fails is an
# illegal instruction, whose place it does not know.
RAN = re.compile(r"^test (\S+) \.\.\. (.*)\n((?: +.*\n)*)", re.M)
HAS_NO_PLACE = "signal 4"
# How long a test or a program may run, in seconds: many times what it needs on a busy machine.
SECONDS = 4 * checks.LONG
# The memory that compiling one of them takes at most, in bytes.
MEMORY_EACH = 2_500_000_000
SCENE = re.compile(r"^.*: ok$", re.M)
# What the player of scenes is given and cannot play, and what it prints then.
UNPLAYED = (
    ([], "test_scenes: no file of scenes is named"),
    (["none.scenes"], "test_scenes: cannot read none.scenes: "),
    (["none.tables", "client.scenes"], "test_scenes: cannot read none.tables: "),
    (["../no.scenes"], "# ../no.scenes\nline 2: unreadable: "),
)


def text_of(path, lacking=""):
    """The contents of a file; if it is not there, the given text."""
    if not os.path.exists(path):
        return lacking
    with open(path, encoding="utf-8") as file:
        return file.read()


def how_ended(status):
    """How a process with this status ended."""
    return f"ended with status {status}" if status >= 0 else f"ended by signal {-status}"


def has_tests(folder):
    """Whether a crate has test functions."""
    return any("#[test]" in text_of(it) for it in checks.files_below(f"{folder}/src"))


def is_program(folder):
    """Whether a crate is a program."""
    return any(os.path.isfile(f"{folder}/src/main.{ending}") for ending in ("rattle", "rt"))


class Run:
    """What is run of one crate: how much of it passed, and what failed."""

    def __init__(self, sources, name, is_known):
        self.sources, self.name, self.is_known = sources, name, is_known
        self.folder = f"{sources.top}/{sources.crates[name].folder}"
        self.passed, self.failed = 0, []

    def all(self):
        """Runs all that the crate has, and prints how it ended."""
        began = time.monotonic()
        try:
            if has_tests(self.folder):
                self.tests()
            if is_program(self.folder):
                self.program()
        except unproved.NotCompiled as why:
            self.failed.append(f"failed: {self.name} does not compile:\n{why}")
        except subprocess.TimeoutExpired as why:
            self.failed.append(f"failed: {self.name}: {why}")
        what = f"{self.passed} passed" + (f", {len(self.failed)} FAILED" if self.failed else "")
        print("\n".join([f"{self.name}: {what} ({time.monotonic() - began:.0f} s)", *self.failed]), flush=True)

    def compiled(self, way):
        return unproved.kept(self.sources, self.name, way, by_this_toolchain=True)

    def tests(self):
        """Runs the test functions."""
        if self.is_known:
            runner = [f"{toolchain.kit()}/bin/rattle-test", "--seconds", str(SECONDS), self.compiled("tests")]
            ran = subprocess.run(runner, capture_output=True, text=True, stdin=subprocess.DEVNULL, errors="replace",
                                 check=False)
        else:
            ran = self.tried(["--test"])
        found = RAN.findall(f"{ran.stdout}{ran.stderr}\n")
        lost = [name for name, _, why in found if HAS_NO_PLACE in why]
        place = self.place_of_failure(lost) if lost else ""
        for name, how, why in found:
            if how == "ok":
                self.passed += 1
            else:
                why = self.named(why) + (place if name in lost else "")
                self.failed.append(f"failed: test {self.name}::{name}: {how}\n{why}")
        if not self.passed or ran.returncode and not self.failed:
            said = f"{ran.stdout}{ran.stderr}"
            self.failed.append(f"failed: the tests of {self.name}: {how_ended(ran.returncode)}\n{said}")

    def program(self):
        """Runs the program, and compares what it prints."""
        wanted = text_of(f"{self.folder}/stdout")
        if not wanted:
            self.failed.append(f"failed: {self.name}: there is no file stdout")
            return
        with tempfile.TemporaryDirectory() as whole:
            room = f"{whole}/data"
            if os.path.isdir(f"{self.folder}/data"):
                shutil.copytree(f"{self.folder}/data", room)
            os.makedirs(room, exist_ok=True)
            words = text_of(f"{self.folder}/args").split()
            ran = self.played(words, room) if self.is_known else self.tried([], words, room)
            if ran.returncode or ran.stdout != wanted:
                self.failed.append(self.difference(ran, wanted))
                if ran.returncode == -signal.SIGILL:
                    self.failed[-1] += self.place_of_failure((), words, room)
            else:
                self.passed += len(SCENE.findall(ran.stdout)) or 1
            if self.name == "test_scenes" and self.is_known:
                self.unplayed(room)

    def played(self, words, room):
        return subprocess.run([self.compiled("program"), *words], cwd=room, input=text_of(f"{self.folder}/stdin"),
                              timeout=SECONDS, capture_output=True, text=True, errors="replace", check=False)

    def difference(self, ran, wanted):
        """How the program ended, and the lines that it is to print and does not (-), and those that it prints instead
        (+)."""
        head = f"failed: {self.name}: {how_ended(ran.returncode)}"
        lines = difflib.unified_diff(wanted.splitlines(), ran.stdout.splitlines(), lineterm="", n=0)
        return "\n".join([head, *[*lines][2:42], ran.stderr])

    def unplayed(self, room):
        """Gives the player of scenes what it cannot play. A file that it can read, and that has no scenes, lies beside
        the copy of its data."""
        shutil.copy(f"{self.folder}/stdout", f"{room}/../no.scenes")
        for words, said in UNPLAYED:
            ran = self.played(words, room)
            if ran.returncode == 1 and (ran.stdout + ran.stderr).startswith(said):
                self.passed += 1
            else:
                how = f"{how_ended(ran.returncode)}: {ran.stdout}{ran.stderr}"
                self.failed.append(f"failed: test_scenes {' '.join(words)}: {how}")

    def named(self, said):
        """What the toolchain says, with the files of this crate as they are named here."""
        ending = "rt" if self.name in crates.read(self.sources.top) else "rattle"
        return re.sub(r"\b(src/[\w/]+)\.rt:", rf"\1.{ending}:", said)

    def tried(self, flags, words=(), data=None, tests=()):
        """Runs the test functions, all or some, or the program, by `rt try`."""
        with tempfile.TemporaryDirectory() as room:
            self.sources.copy(room, self.name)
            folder = f"{room}/crates/{self.name}"
            if tests:
                leave_only(tests, folder)
            how = ["--seconds", str(SECONDS), *flags]
            for it in os.listdir(data) if data else []:
                how += ["--data", f"{it}={data}/{it}"]
            command = ["rt", "try", *how, *(["--", *words] if words else [])]
            ran = subprocess.run(command, cwd=folder, input=text_of(f"{self.folder}/stdin"), capture_output=True,
                                 text=True, errors="replace", check=False)
        ran.stderr = ran.stderr.replace(f"{room}/", "")
        return ran

    def place_of_failure(self, tests, words=(), data=None):
        """What `rt try` says of tests, or of the program."""
        ran = self.tried(["--test"] if tests else [], words, data, tests)
        return f"`rt try` says where:\n{self.named(checks.ends_of(ran.stdout + ran.stderr))}"


def leave_only(tests, folder):
    """Removes from the sources of a crate, which are in the layout of `rt fmt`, all test functions but those with the
    names of these tests."""
    names = "|".join(re.escape(it.split("::")[-1]) for it in tests)
    other = re.compile(rf"^( *)#\[test\]\n\1(pub )?fn (?!(?:{names})\b).*?^\1}}\n", re.M | re.S)
    for path in checks.files_below(f"{folder}/src"):
        text = text_of(path)
        with open(path, "w", encoding="utf-8") as file:
            file.write(other.sub(lambda it: "\n" * it[0].count("\n"), text))


def main():
    words, sources = usage.words(__doc__), unproved.read()
    for it in words:
        if it not in sources.crates:
            usage.refuse(f"there is no crate {it}")
    if not checks.is_installed("rt"):
        print("skipped: the tests in Rattle: rt is not installed")
        return checks.counted(0, 0)
    for number in (signal.SIGTERM, signal.SIGHUP, signal.SIGINT):
        signal.signal(number, toolchain.stop)
    is_known = unproved.is_known()
    runs = [Run(sources, it, is_known) for it in words or crates.read_unproved()]
    runs = [it for it in runs if has_tests(it.folder) or is_program(it.folder)]
    lanes = max(1, min(machine.processors(), machine.free() // MEMORY_EACH))
    with ThreadPoolExecutor(lanes) as pool:
        try:
            for it in [pool.submit(run.all) for run in runs]:
                it.result()
        except BaseException:
            pool.shutdown(wait=False, cancel_futures=True)
            raise
    return checks.counted(sum(it.passed for it in runs), sum(len(it.failed) for it in runs))
