"""The merge gate, and the tests outside it.

    ./test all

It first checks the layout, and stops if `rt fmt` would change a file. Then it runs the gate (every proof
that no earlier run has kept, and the programs), and the mutants that were not refused yet on this machine as
the crates are now. The tests that prove nothing run at once, as in `./test`; each part is printed when it has
ended. The last part moves files of the user's away for a while, so it runs alone.

At the end it lists what was skipped. For each part in which something failed, it says how that part ended,
with the lines that say why. The last lines are the times of the gate and of the whole run, and the count."""

import os
import re
import signal
import subprocess
import sys
import threading
from concurrent.futures import ThreadPoolExecutor

from scripts import usage
from tests import checks

PROGRAM = "crates/waywire/out/waywire"
# The name of each part, and its command.
PARTS = {
    "./test layout": ["./test", "layout"],
    "scripts.timed_gate": [sys.executable, "-m", "scripts.timed_gate"],
    "scripts.mutants": [sys.executable, "-m", "scripts.mutants"],
    "./test rattle": ["./test", "rattle"],
    "./test program": ["./test", "program", PROGRAM],
    "./test compare": ["./test", "compare", PROGRAM],
    "./test memory": ["./test", "memory", PROGRAM],
    "./test tools": ["./test", "tools"],
    "./test c": ["./test", "c", PROGRAM],
    "./test stubs": ["./test", "stubs"],
    "./test rust": ["./test", "rust"],
    "./test libwayland": ["./test", "libwayland"],
    "./test picture": ["./test", "picture", PROGRAM],
    "./test pages": ["./test", "pages"],
}
# The steps, in order. Each has one list of parts, or several that run at once. If the first step fails, the others are
# not run.
STEPS = (
    (("./test layout",),),
    (("scripts.timed_gate", "scripts.mutants"),),
    (
        ("./test rattle",),
        ("./test program", "./test compare", "./test memory"),
        ("./test tools",),
        ("./test c", "./test stubs", "./test rust", "./test libwayland", "./test picture"),
    ),
    (("./test pages",),),
)
GATE = "scripts.timed_gate"
COUNTED = re.compile(r"([0-9]+) passed, ([0-9]+) failed")
# How a part reports a failure: in the words of rt ci, of the prover or of Python's tests, or by `failed: `. The
# lines after `failed: ` may say why, as many as MORE.
FAILS = re.compile(
    r"NOT PROVED|NOT REFUSED|NOT TRIED|BAD EDIT|FAILED|is not in the layout|they differ first|ended with status"
    r"|was killed|stopped by signal|the disk is full|no answer|had not ended|was not run|^test .* \.\.\. [^oi]"
    r"|^[^ ]+:[0-9]+:[0-9]+: error|^(failed|FAIL|ERROR): "
)
MORE = 12


def ended(status):
    """How a part with this exit status ended."""
    number = -status if status < 0 else status - 128
    if number <= 0:
        return f"ended with status {status}"
    return f"ended by signal {number} ({signal.Signals(number).name.removeprefix('SIG')})"


def why(lines):
    """The lines of a part about failures; if none has these words, its last lines."""
    found, left = [], 0
    for line in lines:
        if FAILS.search(line):
            left = MORE if line.startswith("failed: ") else 0
            found.append(line)
            continue
        if re.match(r"skipped: |[0-9]+ passed, ", line):
            left = 0
        if left > 0:
            found.append(line)
        left -= 1
    return found or lines[-20:]


class Whole:
    """What all parts came to so far: the counts, what was skipped, what failed, and the gate's last line."""

    def __init__(self):
        self.passed = self.failed = 0
        self.skipped, self.wrong, self.gate = [], [], "the gate has not run"
        self.alone = threading.Lock()

    def lose(self, count, head, lines):
        """Counts failures, and keeps what the part said about them."""
        self.failed += count
        self.wrong += [f"{head}:", *why(lines)]
        if any(re.search(r"was killed|signal 9( |$)", it) for it in (*lines, head)):
            self.wrong.append("Signal 9 is mostly the system's, for lack of memory: free some, and run this again.")

    def run(self, names, is_alone=True):
        """Runs parts, one after another. What a part prints is shown as it comes, or, if other parts run at the same
        time, once it has ended."""
        for name in names:
            lines = []
            how = {"stdout": subprocess.PIPE, "stderr": subprocess.STDOUT, "text": True, "errors": "replace"}
            with subprocess.Popen(PARTS[name], cwd=checks.TOP, **how) as running:
                for line in running.stdout:
                    if is_alone:
                        print(line, end="", flush=True)
                    lines.append(line.rstrip("\n"))
            with self.alone:
                if not is_alone:
                    print(*lines, sep="\n", flush=True)
                self.add(name, running.returncode, lines)

    def step(self, lists):
        with ThreadPoolExecutor(len(lists)) as pool:
            for it in [pool.submit(self.run, names, len(lists) == 1) for names in lists]:
                it.result()

    def add(self, name, status, lines):
        """Counts what a part came to. Its last line `N passed, M failed` is its count."""
        self.skipped += [f"{name}: {it.removeprefix('skipped: ')}" for it in lines if it.startswith("skipped: ")]
        if name == GATE and lines:
            self.gate = lines[-1]
        counts = [it for it in map(COUNTED.fullmatch, lines) if it]
        if not counts:
            print(f"{name}: no count of what passed and failed")
            self.lose(1, f"{name}, which {ended(status)} and has no count of what passed and failed", lines)
            return
        passed, failed = map(int, counts[-1].groups())
        self.passed += passed
        if failed:
            self.lose(failed, f"{name}, {counts[-1][0]}", lines)
        elif status:
            self.lose(1, f"{name}, which {ended(status)} though nothing of its count failed", lines)

    def finish(self):
        """Says what all parts came to, and returns the exit status."""
        for head, lines in (("What was skipped:", self.skipped), ("What failed:", self.wrong)):
            if lines:
                print(head, *lines, sep="\n")
        print(self.gate)
        print(f"in all: {clock(os.times().children_user)} {clock(os.times().children_system)} (user and system time)")
        return checks.counted(self.passed, self.failed)


def clock(seconds):
    return f"{int(seconds // 60)}m{seconds % 60:.3f}s"


def main():
    usage.words(__doc__, most=0)
    whole, (first, *others) = Whole(), STEPS
    whole.step(first)
    if not whole.failed:
        for lists in others:
            whole.step(lists)
    return whole.finish()
