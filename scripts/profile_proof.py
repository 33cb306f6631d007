"""Proves crates from nothing, and prints what each function and each kind of goal took.

    python3 -m scripts.profile_proof CRATE..

Each crate is proved by itself, on a copy, in one process of the prover. The libraries below are taken
as `rt ci` keeps them, or proved first if it keeps none. Nothing in the repository changes.

The prover writes a module when a part of a proof is checked. The processor time that it used since the
module before it counts for that part, and is added up by function and by kind. So another process that
runs at the same time does not change the figures much. The kinds with most of the time are:

    Lts         the goals of the borrow checker, with one for each drop at each exit
    Proof       what the prover answers by itself: the clauses, and the `requires` of what is called
    Tie         the code as it runs, tied to the proof
    Code, Mir   the code
    lemmas      a file of proofs/ that several functions cite
    contracts   the crate's definitions and contracts

`below` is the time to read the libraries below, before the first module. A closure counts for its
function. At the end the output names each function that took more than a tenth of its crate;
CONTRIBUTING.md, "What a proof takes", says what makes a proof expensive.

The exit status is 1 if a crate is not proved, 70 if the libraries below it cannot be."""

import bisect
import collections
import contextlib
import os
import re
import subprocess
import sys
import tempfile
import time
from collections.abc import Mapping
from typing import NamedTuple

from scripts import toolchain, usage

TICKS = os.sysconf("SC_CLK_TCK")
MODULE = ".oantt"
# The words by which the prover names the parts of a function's proof, or of what a type has.
PARTS = (
    "Answers Author Borrows Carried Code Given Goals Headers Invariants Key Kinds Layout Lts Met Mir Named Pair"
    " Paired Proof Reads Statement Symbol TheImpl TheInside TheLaws TheLink TheReach TheSendSync Tie View"
).split()
# How many functions and kinds are printed, and the part of a crate from which one is named.
MOST, DEAR = 12, 0.1


class Part(NamedTuple):
    """A part of a proof: what was checked, when it was written, and the processor seconds it took."""

    function: str
    kind: str
    at: float
    seconds: float = 0.0


def part_of(crate: str, module: str, at: float = 0.0) -> Part:
    """Returns the part that a module of the prover is, by its name."""
    name = re.sub(rf"^Rattle-{crate}-|\.decls$", "", module)
    library, _, path = name.partition(".")
    if library != "proofs":
        return Part("", "contracts", at)
    words = path.split(".")
    if "TheLinks" in words:
        return Part("", "TheLinks", at)
    own = len(words)
    # A type may have such a word as its name: what follows it then is none.
    while own > 1 and words[own - 1].partition("-")[0] in PARTS:
        own -= 1
    is_file = words[-1][:1].isupper()
    kind = words[own].partition("-")[0] if own < len(words) else "lemmas" if is_file else "names"
    function = words[:own]
    if "fn" in function:
        # A closure is below the function's own name: MODULE.fn.FUNCTION.CLOSURE
        place = function.index("fn")
        function = function[:place] + function[place + 1 : place + 2]
    return Part("::".join(function), kind, at)


def used_by(session: int) -> float:
    """Returns the processor seconds of the processes of a session, with those that have ended below them."""
    seconds = 0.0
    for it in os.listdir("/proc"):
        fields = []
        if it.isdigit():
            with contextlib.suppress(OSError), open(f"/proc/{it}/stat", "rb") as file:
                fields = file.read().rpartition(b")")[2].split()
        if fields[3:4] == [b"%d" % session]:
            seconds += sum(map(int, fields[11:15])) / TICKS
    return seconds


class Clock:
    """What a process has used of a processor, by the time of day."""

    def __init__(self, began: float) -> None:
        self.times, self.used = [began], [0.0]

    def note(self, now: float, seconds: float) -> None:
        self.times.append(now)
        # A process that has ended just now gives no figure.
        self.used.append(max(seconds, self.used[-1]))

    def at(self, time_of_day: float) -> float:
        """Returns the seconds at this time, between those that were noted before and after it."""
        place = bisect.bisect_left(self.times, time_of_day)
        if place == 0:
            return self.used[0]
        if place == len(self.times):
            return self.used[-1]
        before, after = self.times[place - 1], self.times[place]
        first, second = self.used[place - 1], self.used[place]
        return first + (second - first) * (time_of_day - before) / (after - before)


def run(command: list[str], folder: str, log: str) -> tuple[int, Clock]:
    """Runs a command in a folder, and returns its status and the clock of its process."""
    clock = Clock(time.time())
    with open(log, "wb") as file:
        process = subprocess.Popen(command, cwd=folder, start_new_session=True, stdin=subprocess.DEVNULL,
                                   stdout=file, stderr=subprocess.STDOUT)
        try:
            while process.poll() is None:
                clock.note(time.time(), used_by(process.pid))
                time.sleep(0.2)
        finally:
            toolchain.end([process])
    return process.returncode, clock


def parts_in(folder: str, crate: str, clock: Clock) -> list[Part]:
    """Returns the parts of a proof, in the order in which they were written below a folder."""
    found = []
    for at, _, names in os.walk(folder):
        for name in names:
            if name.startswith(f"Rattle-{crate}-") and name.endswith(MODULE):
                written = os.stat(f"{at}/{name}").st_mtime
                found.append(part_of(crate, name[: -len(MODULE)], written))
    found.sort(key=lambda it: it.at)
    before = found[0].at if found else 0.0
    for place, it in enumerate(found):
        found[place] = it._replace(seconds=clock.at(it.at) - clock.at(before))
        before = it.at
    return found


def words_of(clone: toolchain.Clone, crate: str, below: str, folder: str) -> list[str]:
    """Returns the words with which the toolchain in this folder checks a crate over the libraries in a room."""
    found = clone.crates[crate]
    is_program = os.path.exists(f"{clone.top}/crates/{crate}/src/main.rt")
    words = ["--crate-name", crate, f"src/{'main' if is_program else 'lib'}.rt"]
    for name in dict.fromkeys(["std", *found.uses]):
        is_own = name in clone.crates
        place = toolchain.rlib(below, name) if is_own else f"{folder}/rlibs/{name}.rlib"
        words += ["--extern", f"{name}={place}"]
    words += ["-L", f"dependency={folder}/rlibs"]
    for name in clone.below(crate)[:-1]:
        words += ["-L", f"dependency={os.path.dirname(toolchain.rlib(below, name))}"]
    words += ["--antt-project", f"{folder}/rattle/logic/antt-project.json"]
    words += ["--logic-built", f"{folder}/logic_built", "--links", f"{crate}=", "--jobs", "1"]
    if found.line.partition(":")[0].split()[1:2] == ["staticlib"]:
        words += ["--crate-type", "staticlib"]
    return words


def rows(seconds: Mapping[str, float], whole: float, count: int) -> list[str]:
    """Returns lines for the dearest of some things, by their names."""
    order = sorted(seconds.items(), key=lambda it: -it[1])
    return [f"{took:8.1f} s {took / whole:5.0%}  {name}" for name, took in order[:count] if took >= 0.05]


def summary(crate: str, parts: list[Part], clock: Clock) -> tuple[list[str], list[str]]:
    """Returns the lines that say what a crate's proof took, and its functions that took more than a tenth."""
    whole = clock.used[-1] or 1.0
    functions, kinds = collections.defaultdict[str, float](float), collections.defaultdict[str, float](float)
    for it in parts:
        kinds[it.kind] += it.seconds
        if it.function:
            functions[it.function] += it.seconds
    if parts:
        kinds["below"] = clock.at(parts[0].at)
    dear = [it for it in sorted(functions, key=lambda it: -functions[it]) if functions[it] > DEAR * whole]
    head = f"{crate}: {whole:.1f} processor seconds, {len(parts)} modules"
    lines = [head, "  by function:", *rows(functions, whole, MOST), "  by kind:", *rows(kinds, whole, MOST)]
    return lines, [f"{crate}: {it} ({functions[it] / whole:.0%})" for it in dear]


def libraries(clone: toolchain.Clone, asked: list[str], room: str) -> bool:
    """Proves the libraries below some crates in a room, or takes what is kept of them. Returns whether
    they are there."""
    names = [it for crate in asked for it in clone.below(crate)[:-1]]
    if not names:
        return True
    clone.copy(room, [*dict.fromkeys(names)])
    with open(f"{room}/log", "wb") as log:
        status = subprocess.run(["rt", "ci"], cwd=room, stdin=subprocess.DEVNULL, stdout=log,
                                stderr=subprocess.STDOUT, check=False).returncode
    if status:
        sys.stderr.write(toolchain.last_lines(f"{room}/log"))
    return not status


def profile(clone: toolchain.Clone, crate: str, room: str, folder: str) -> list[str] | None:
    """Proves a crate, prints what that took, and returns its dear functions; None if it is not proved."""
    own, kept = f"{room}/{crate}", f"{room}/kept/{crate}"
    os.makedirs(kept)
    clone.copy(own, [crate])
    words = words_of(clone, crate, f"{room}/below", folder)
    command = [f"{folder}/bin/rattle", "check", *words, "--incremental", kept]
    status, clock = run(command, f"{own}/crates/{crate}", f"{own}/log")
    if status:
        sys.stderr.write(toolchain.last_lines(f"{own}/log"))
        print(f"{crate}: not proved (status {status})", flush=True)
        return None
    lines, dear = summary(crate, parts_in(kept, crate, clock), clock)
    print("\n".join(lines), flush=True)
    return dear


def main() -> int:
    asked, clone = usage.words(__doc__, least=1), toolchain.Clone()
    unknown = [it for it in asked if it not in clone.crates]
    if unknown:
        usage.refuse(f"there is no crate {unknown[0]}")
    if not toolchain.has_toolchain("profile_proof"):
        return toolchain.NOT_BUILT
    with tempfile.TemporaryDirectory(prefix="profile-", ignore_cleanup_errors=True) as room:
        if not libraries(clone, asked, f"{room}/below"):
            print("profile_proof: the libraries below are not proved", file=sys.stderr)
            return toolchain.NOT_BUILT
        folder = toolchain.kit()
        found = [profile(clone, it, room, folder) for it in asked]
    dear = [name for it in found for name in it or []]
    print("more than a tenth of its crate:", *dear or ["none"], sep="\n  ")
    return int(None in found)


if __name__ == "__main__":
    sys.exit(main())
