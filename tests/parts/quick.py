"""The quick tests, which take minutes. They are not the gate: that is `./test all`.

    ./test                      the same as `./test quick --whole`
    ./test quick CRATE..

Without crates it proves nothing. It tests the working tree, several parts at once: the layout, the tests of the
tools, the tests in Rattle with `hello`, the stored runs and the commands of the pages. It also compares
the program with the reference. What is not proved and built already is compiled with checks from the sources
(scripts/unproved.py). If the library for C is not built, its tests are left to the gate. It prints what
was left out.

With crates, it checks the layout and the proof of each, and the proof of each crate above them, over
what earlier checks on this machine kept: after a change of a body whose contract stands, a crate above
takes seconds. Then it tries the mutants of the named crates, and runs the tests in Rattle that use one
of them, and the stored runs if the program does. A crate of unproved.txt can be named too: it is run,
and so is what uses it.

For each step it prints a line with the result; on a terminal, the last line says what runs. The last line is 'N passed, M failed'."""

import contextlib
import glob
import re
import subprocess
import sys
import threading
import time
from concurrent.futures import ThreadPoolExecutor
from functools import partial

from scripts import crates, usage
from tests import checks

TOP = checks.TOP
PROGRAM = "crates/waywire/out/waywire"
UNPROVED = "out/unproved/waywire"
ARCHIVE = "crates/waywire_c/out/libwaywire_c.a"
COUNTED = re.compile(r"^(\d+) passed, (\d+) failed$", re.M)
# How a command is run.
HOW = {"stdin": subprocess.DEVNULL, "stdout": subprocess.PIPE, "errors": "replace", "check": False}


class Count:
    """What passed, what failed and what was left out so far. Steps run in parallel, so each prints its whole line at
    once."""

    def __init__(self):
        self.passed = self.failed = 0
        self.left, self.running, self.began = [], [], time.monotonic()
        self.alone = threading.Lock()
        if sys.stdout.isatty():
            threading.Thread(target=self.show, daemon=True).start()

    def show(self):
        """On a terminal, the last line says what runs, and for how long."""
        while True:
            time.sleep(1)
            with self.alone:
                if self.running:
                    line = f"{time.monotonic() - self.began:.0f} s: {', '.join(self.running)}"
                    print(f"\r\33[K{line[:79]}", end="", flush=True)

    @contextlib.contextmanager
    def step(self, what):
        """While a step runs, it is among those that `show` names."""
        with self.alone:
            self.running.append(what)
        try:
            yield
        finally:
            with self.alone:
                self.running.remove(what)

    def leave(self, what):
        with self.alone:
            self.left.append(what)

    def add(self, what, passed, failed, began, said=""):
        with self.alone:
            self.passed += passed
            self.failed += failed
            start = "\r\33[K" if sys.stdout.isatty() else ""
            print(f"{start}{what} ({time.monotonic() - began:.0f} s)", flush=True)
            if failed:
                print(said.rstrip("\n"), flush=True)


def run(folder, *words):
    """Runs a command in a folder of the repository, and returns its status and its output."""
    ran = subprocess.run(words, cwd=f"{TOP}/{folder}", stderr=subprocess.STDOUT, **HOW)
    return ran.returncode, ran.stdout


def has_mutants(crate):
    return bool(glob.glob(f"{TOP}/crates/{crate}/must-fail/*.edit"))


def tool(count, what, *words):
    """Runs a tool whose last line counts what passed and what failed."""
    began = time.monotonic()
    with count.step(what):
        status, said = run(".", *words)
    numbers = COUNTED.findall(said)
    passed, failed = map(int, numbers[-1]) if numbers else (0, 1)
    skipped = re.findall("(?m)^skipped: .*\n", said)
    what = f"{''.join(skipped)}{what}: {passed} passed" + (f", {failed} FAILED" if failed else "")
    count.add(what, passed, failed or int(status != 0), began, said)


def layout(name, count):
    """Formats a copy of the crate: its files must not change."""
    began, changed = time.monotonic(), checks.out_of_layout(crates.read_all()[name])
    what = f"{name}: layout {f'FAILED: ./test layout --write {name}' if changed else 'ok'}"
    count.add(what, not changed, len(changed), began, "\n".join(changed))


def proof(name, count):
    """Proves the crate and returns whether it is proved."""
    began = time.monotonic()
    with count.step(f"{name}: its proof"):
        status, said = run(f"crates/{name}", "rt", "check")
    what = f"{name}: {'NOT PROVED' if status else 'proved'}"
    count.add(what, not status, bool(status), began, said)
    return not status


def stored_runs(count):
    """Runs the stored runs with the program that `./waywire` runs. Returns its path, or `None`, and how it was
    made."""
    began = time.monotonic()
    with count.step("compiling the program"):
        status, said = run(".", "./waywire", "--version")
    if status:
        count.add("stored runs: FAILED: no program", 0, 1, began, said)
        return None, ""
    path, how = (UNPROVED, ", unproved") if "not proved" in said else (PROGRAM, "")
    tool(count, f"stored runs{how}", "./test", "program", path)
    return path, how


def at_program(count):
    """The tests of the program, proved or not."""
    path, how = stored_runs(count)
    if path:
        tool(count, f"compared with the reference{how}", "./test", "compare", path)
    if path == PROGRAM:
        tool(count, "memory refused", "./test", "memory", path)
    else:
        count.leave("./test memory, for want of the proved program: ./waywire --build")
    if path:
        tool(count, f"what the pages show{how}", "./test", "pages", "AtOnce")


def at_library(count):
    """The tests of the library for C, if it is built and `make` would prove nothing."""
    if checks.is_installed("make") and not run(".", "make", "-q", ARCHIVE)[0]:
        is_proved = not run(".", "python3", "-m", "scripts.toolchain", "proved", "waywire")[0]
        tool(count, "the library for C", "./test", "c", *[PROGRAM] * is_proved)
        if not is_proved:
            count.leave("the traces of the session in C, for want of the proved program: ./waywire --build")
        tool(count, "the library for Rust", "./test", "rust")
        tool(count, "what stubs-from-xml makes", "./test", "stubs")
        tool(count, "the libwayland-client", "./test", "libwayland")
        tool(count, "pages of recordings", "./test", "picture")
        tool(count, "what the pages show of the library for C", "./test", "pages", "OverTheLibrary")
        return
    tool(count, "what stubs-from-xml makes of Rattle", "./test", "stubs", "Modules")
    count.leave("./test c, rust, libwayland, picture and stubs Headers, for want of the proved library for C: make "
                "(over one that is not proved: UNPROVED=1 ./test c)")


def whole(count):
    """Tests the working tree, several parts at once, beginning with those that take longest."""
    rattle = [*crates.read_unproved(), "hello"]
    parts = [partial(tool, count, "the tests in Rattle, unproved", "./test", "rattle", *rattle)]
    parts += [partial(at_program, count), partial(at_library, count)]
    parts.append(partial(tool, count, "the tools", "./test", "tools"))
    parts.append(partial(tool, count, "layout", "./test", "layout"))
    with ThreadPoolExecutor(len(parts)) as pool:
        for it in [pool.submit(it) for it in parts]:
            it.result()


def above(names, found):
    """Returns the crates that use one of these, lowest first."""
    under = crates.below(found)
    using = [it for it in found if {*names} & under[it]]
    return sorted(using, key=lambda it: len(under[it]))


def proofs(names, count):
    """Checks the proofs of these crates, and of those above them. A crate above one that is not proved is not
    checked. Returns the crates that are proved."""
    found = crates.read()
    under, lost, proved = crates.below(found), set(), []
    own = sorted({*names}, key=lambda it: len(under[it]))
    for name in [*own, *(it for it in above(names, found) if it not in names)]:
        if under[name] & lost:
            count.leave(f"the proof of {name}, which stands on what is not proved: ./test quick {name}")
        elif proof(name, count):
            proved.append(name)
        else:
            lost.add(name)
    return proved


def judged(names, count):
    """Tests a change to these crates."""
    found, known = crates.read_all(), crates.read()
    own, running = [it for it in names if it in known], {*names, *above(names, found)}
    for name in names:
        layout(name, count)
    proved = proofs(own, count)
    if with_edits := [it for it in own if it in proved and has_mutants(it)]:
        tool(count, "mutants", "python3", "-m", "scripts.mutants", *with_edits)
    if rattle := [it for it in crates.read_unproved() if it in running]:
        tool(count, "the tests in Rattle, unproved", "./test", "rattle", *rattle)
    if "waywire" in running:
        stored_runs(count)


def main():
    names, found, began, count = usage.words(__doc__, "--whole"), crates.read_all(), time.monotonic(), Count()
    lacking = [it for it in names if it not in found]
    if names == ["--whole"]:
        whole(count)
        count.leave("all proofs, and all mutants: ./test all")
    elif lacking:
        usage.refuse(f"there is no crate {lacking[0]}")
    elif not names:
        usage.refuse("a crate must be named")
    else:
        judged(names, count)
        count.leave("the proofs from nothing: ./test all")
    print(*(f"not run: {it}" for it in count.left), sep="\n")
    print(f"in {time.monotonic() - began:.0f} s")
    return checks.counted(count.passed, count.failed or int(not count.passed))
