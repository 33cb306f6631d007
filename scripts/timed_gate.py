"""Runs the gate of proofs, `rt ci`, over a copy of the tree without mutants, or another command at the
top of the repository. Prints for each crate what its proofs and mutants cost, in processor minutes.

    python3 -m scripts.timed_gate [COMMAND..]
    python3 -m scripts.timed_gate --write

The figures count the prover's processes, read from /proc twice a second; a process that lives for
less than half a second may not be counted. The exit status is that of the command, or 128 plus the
signal's number if a signal ended it.

What the gate builds, the libraries and programs, is put in its place in this clone, as old as the
beginning of the run. `rt ci` tries each mutant by a check of its whole crate; scripts/mutants.py
needs less time for them (docs/GATE.md).

With --write, nothing is taken from earlier runs: it runs the gate (`rt ci --anew`, or `rt ci` if the
toolchain keeps nothing and does not know that option), then all mutants, and compiles and runs the
tests in Rattle anew. The table is written to docs/GATE.md, with the day, the commit and the machine's
processors, but only if all ended well and each crate has a figure; otherwise the exit status is 1."""

import contextlib
import datetime
import glob
import os
import shutil
import subprocess
import sys
import tempfile
import threading
import time
from collections.abc import Mapping
from typing import Any

from scripts import crates, machine, toolchain, usage

PAGE = f"{crates.TOP}/docs/GATE.md"
BEGINS, ENDS = "<!-- python3 -m scripts.timed_gate --write: from here -->\n", "<!-- to here -->\n"
# How many crates have a line of their own on the page.
ON_PAGE = 8
TICKS = os.sysconf("SC_CLK_TCK")
PARTS = ("proof", "mutants")
# What the copy of the tree leaves out: what was built, and the mutants.
LEFT_OUT = (".git", "out", "target", "__pycache__", "must-fail")
# The memory for each processor, in bytes, with which as many proofs at once have room.
MEMORY_EACH = 5_500_000_000


def part_of(process: str) -> tuple[str, str] | None:
    """Returns the crate and the part of the gate that a process of the prover works on."""
    words = machine.read(f"{process}/cmdline").decode(errors="replace").split("\0")
    if "--crate-name" not in words or os.path.basename(words[0]) != "rattle":
        return None
    crate = words[words.index("--crate-name") + 1]
    try:
        folder = os.readlink(f"{process}/cwd")
    except OSError:
        return None
    is_edited = "/rt-edit-" in folder or "/mutants-" in folder
    return crate, "mutants" if is_edited else "proof"


def seconds_of(process: str) -> tuple[bytes, float] | None:
    """Returns when a process began, which tells it from a later one, and its processor seconds."""
    fields = machine.read(f"{process}/stat").rpartition(b")")[2].split()
    if len(fields) < 20:
        return None
    return fields[19], (int(fields[11]) + int(fields[12])) / TICKS


def parent_of(process: str) -> str | None:
    fields = machine.read(f"{process}/stat").rpartition(b")")[2].split()
    return f"/proc/{int(fields[1])}" if len(fields) > 1 else None


def is_below(process: str, parents: dict[str, str | None]) -> bool:
    """Returns whether this script started the process, itself or through others."""
    at: str | None = process
    while at in parents:
        if at == f"/proc/{os.getpid()}":
            return True
        at = parents[at]
    return False


class Meter(threading.Thread):
    """Notes what each process of the prover has taken so far."""

    def __init__(self) -> None:
        super().__init__(daemon=True)
        # The part of the gate and the seconds of each process, by when it began too.
        self.taken: dict[tuple[str, bytes], tuple[tuple[str, str], float]] = {}
        self.is_over = threading.Event()

    def run(self) -> None:
        while not self.is_over.wait(0.5):
            self.look()

    def look(self) -> None:
        processes = glob.glob("/proc/[0-9]*")
        parents = {it: parent_of(it) for it in processes}
        for process in processes:
            part, found = part_of(process), seconds_of(process)
            if part and found and is_below(process, parents):
                began, seconds = found
                self.taken[process, began] = part, seconds

    def minutes(self) -> dict[str, dict[str, float]]:
        table: dict[str, dict[str, float]] = {}
        for (crate, part), seconds in self.taken.values():
            row = table.setdefault(crate, dict.fromkeys(PARTS, 0.0))
            row[part] += seconds / 60
        return table


def rows(table: Mapping[str, Mapping[str, float]], names: list[str], most: int | None = None) -> list[str]:
    """Returns the lines of the table, the crates in this order, with a line for all. With `most`, only so many crates
    have a line, those that took most, and one line sums up the others."""
    order = [it for it in names if it in table] + sorted(it for it in table if it not in names)
    shown = sorted(order, key=lambda it: -sum(table[it].values()))[:most]
    found = [(f"`{it}`", [it]) for it in order if it in shown]
    if len(shown) < len(order):
        found.append((f"the other {len(order) - len(shown)}", [it for it in order if it not in shown]))
    lines = ["| Crate | Proof | Mutants | In all |", "|---|---|---|---|"]
    for head, group in [*found, ("All", order)]:
        sums = [sum(table[it][part] for it in group) for part in PARTS]
        cells = [f"{it:.1f}" if it else "-" for it in sums]
        lines.append(f"| {head} | {' | '.join(cells)} | {sum(sums):.1f} |")
    return lines


def has(crate: str, part: str) -> bool:
    """Returns whether a crate has this part of the gate."""
    return part == "proof" or bool(glob.glob(f"{crates.TOP}/crates/{crate}/must-fail/*.edit"))


def lacking(table: Mapping[str, Mapping[str, float]], names: list[str]) -> list[str]:
    """Returns the parts of the gate that have no figure, each with its crate."""
    owed = [(it, part) for it in names for part in PARTS if has(it, part)]
    return [f"{it} ({part})" for it, part in owed if not table.get(it, {}).get(part)]


def write(text: str) -> None:
    """Puts the figures between the two marks of docs/GATE.md."""
    with open(PAGE, encoding="utf-8") as file:
        page = file.read()
    before, after = page.split(BEGINS)[0], page.split(ENDS)[1]
    with open(PAGE, "w", encoding="utf-8") as file:
        file.write(before + BEGINS + text + ENDS + after)


def commit() -> str:
    """Returns the commit that the tree was at, marked where a file differs from it."""
    words = ["git", "describe", "--always", "--dirty", "--match="]
    how: dict[str, Any] = {"cwd": crates.TOP, "stdout": subprocess.PIPE, "text": True, "check": False}
    return subprocess.run(words, **how).stdout.strip()


def takes_anew() -> bool:
    """Returns whether this toolchain's `rt ci` knows the word `--anew`. It is asked where there is
    no crate: what it does not know makes it print how it is used."""
    with tempfile.TemporaryDirectory() as room:
        ran = subprocess.run(["rt", "ci", "--anew"], cwd=room, check=False, stdin=subprocess.DEVNULL,
                             stdout=subprocess.PIPE, stderr=subprocess.STDOUT)
    return b"usage:" not in ran.stdout


def in_lanes() -> Mapping[str, str]:
    """Returns the environment in which `rt` proves each crate in one process, as many crates at
    once as there are processors. Left to itself it gives a crate more processes where processors
    are idle, which take more processor time in all (docs/DECISIONS.md). With RT_JOBS it does not
    ask whether memory suffices, so where that may be short it is left to itself."""
    number = machine.processors()
    if "RT_JOBS" in os.environ or machine.free() < number * MEMORY_EACH:
        return os.environ
    return {**os.environ, "RT_JOBS": str(number)}


class Measured:
    """What commands came to: the first status that is not 0, the table, and the minutes of the processor and of the
    clock of each."""

    def __init__(self) -> None:
        self.status = 0
        self.table: dict[str, dict[str, float]] = {}
        self.spent: list[tuple[float, float]] = []

    def run(self, command: list[str], folder: str = crates.TOP, env: Mapping[str, str] | None = None) -> None:
        """Runs a command, unless one before it failed."""
        if self.status:
            return
        began, before, meter = time.time(), sum(os.times()[2:4]), Meter()
        meter.start()
        ran = subprocess.run(command, cwd=folder, env=env, check=False)
        meter.is_over.set()
        meter.join()
        self.spent.append(((sum(os.times()[2:4]) - before) / 60, (time.time() - began) / 60))
        # A negative status is a signal's number.
        self.status = ran.returncode if ran.returncode >= 0 else 128 - ran.returncode
        for crate, row in meter.minutes().items():
            own = self.table.setdefault(crate, dict.fromkeys(PARTS, 0.0))
            for part, minutes in row.items():
                own[part] += minutes

    def told(self, number: int) -> str:
        """How long the command with this number took."""
        whole, wall = self.spent[number]
        return f"{whole:.1f} processor minutes in {wall:.1f} minutes"


def take_back(clone: toolchain.Clone, tree: str, began: str) -> None:
    """Puts what the gate built in a copy of the tree in its place in the clone, as old as the beginning of the run.
    A library there of another command of `rt` stays."""
    for name in clone.crates:
        library, program = toolchain.rlib(tree, name), f"{tree}/crates/{name}/out/{name}"
        if os.path.isdir(library) and not toolchain.is_of_another_command(clone.top, name):
            place = toolchain.rlib(clone.top, name)
            shutil.rmtree(place, ignore_errors=True)
            os.makedirs(os.path.dirname(place), exist_ok=True)
            shutil.move(library, place)
            toolchain.as_old_as(place, began)
        if os.path.isfile(program):
            os.makedirs(clone.out(name), exist_ok=True)
            toolchain.put(program, clone.proved(name), began)


def run_gate(run: Measured, env: Mapping[str, str] | None, anew: bool) -> None:
    """Runs `rt ci` over a copy of the tree without mutants. A program of an earlier tree is removed, so that no test
    takes it for that of this one."""
    clone = toolchain.Clone()
    with tempfile.TemporaryDirectory(prefix="waywire-gate-", ignore_cleanup_errors=True) as room:
        tree, began = f"{room}/tree", f"{room}/began"
        open(began, "w", encoding="utf-8").close()
        for name in clone.crates:
            if clone.is_old(clone.proved(name), name):
                with contextlib.suppress(FileNotFoundError):
                    os.unlink(clone.proved(name))
        shutil.copytree(clone.top, tree, symlinks=True, ignore=shutil.ignore_patterns(*LEFT_OUT))
        run.run(["rt", "ci", *["--anew"] * anew], tree, env)
        take_back(clone, tree, began)


def figures(run: Measured, env: Mapping[str, str], day: str, tree: str) -> str:
    """The text for the page: what all took, and the table."""
    gate, mutants, rattle = map(run.told, range(3))
    lanes = f" with RT_JOBS={env['RT_JOBS']}" if "RT_JOBS" in env else ""
    whole, wall = (sum(it) for it in zip(*run.spent))
    head = (f"On {day} at commit {tree}, on {machine.processors()} processors, with nothing kept: `rt ci`{lanes} over "
            f"the tree without mutants takes {gate}, `python3 -m scripts.mutants --all` {mutants}, `./test rattle` "
            f"{rattle}, in all {whole:.1f} processor minutes in {wall:.1f} minutes. In processor minutes:")
    return "\n".join([head, "", *rows(run.table, [*crates.read()], ON_PAGE), ""])


def write_figures(env: Mapping[str, str]) -> int:
    """Measures all with nothing kept, and writes the figures to docs/GATE.md. Returns the exit status."""
    day, tree, run = datetime.date.today().isoformat(), commit(), Measured()
    run_gate(run, env, takes_anew())
    run.run([sys.executable, "-m", "scripts.mutants", "--all"])
    shutil.rmtree(f"{crates.TOP}/out/unproved", ignore_errors=True)
    run.run(["./test", "rattle"])
    print("", *rows(run.table, [*crates.read()]), "", sep="\n")
    lost = lacking(run.table, [*crates.read()])
    if run.status or lost:
        why = f"status {run.status}" if run.status else f"no figure of {', '.join(lost)}"
        print(f"docs/GATE.md is as it was: {why}")
        return run.status or 1
    write(figures(run, env, day, tree))
    return 0


def main() -> int:
    command = usage.words(__doc__, "--write", most=None, is_command=True)
    env, run = in_lanes(), Measured()
    if command == ["--write"]:
        return write_figures(env)
    if command:
        run.run(command, env=env)
    else:
        run_gate(run, env, anew=False)
    print("", *rows(run.table, [*crates.read()]), "", sep="\n")
    print(f"{' '.join(command or ['rt', 'ci'])}: {run.told(0)}", flush=True)
    return run.status


if __name__ == "__main__":
    sys.exit(main())
