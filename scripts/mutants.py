"""Shows that the prover refuses each mutant.

    python3 -m scripts.mutants [--all] [--others] [--tree FOLDER] [CRATE..]

A mutant is an edit of the code that the prover must refuse. This tool tries those of the named crates, or of
all: the mutants named after a promise or a rule (crates/NAME/must-fail/), and with --others also those of
crates/NAME/mutants.edit. `rt ci` tries the first kind, too, each over a check of its own.

Mutants of different functions are tried at once, and only the functions that they edit are checked. Each must
be refused for its own sake, and its function must be proved without it (scripts/mutant_rounds.py).
What was refused is noted on this machine, in waywire/mutants in the user's folder of caches. It is
tried again once the crate, a crate below it, the mutant or the toolchain has changed, and with --all.

The libraries below each crate are those that `rt ci` left in crates/NAME/out/rlib, here or in the FOLDER, a
copy of this repository. If they are not there, or a source is newer, they are built in a copy, where what is
kept on this machine is not proved again. The mutants are always those of this repository.

It prints a line for each mutant, as `wl_server/announces-to-closed: refused (FUNCTION)`, and for each
crate how many rounds and processor minutes that took. The last line is 'N passed, M failed'. The exit
status is 1 if any failed, and 70 if the libraries cannot be built."""

import argparse
import os
import signal
import subprocess
import sys
import tempfile
import threading
from collections.abc import Iterable, Mapping
from concurrent.futures import ThreadPoolExecutor

from scripts import crates, machine, mutant_edits, mutant_notes, mutant_prover, mutant_rounds, toolchain

# The memory that a check may take, in bytes.
MEMORY_EACH = 3_000_000_000


def asked() -> argparse.Namespace:
    parser = argparse.ArgumentParser(
        prog="mutants", description=__doc__, formatter_class=argparse.RawDescriptionHelpFormatter
    )
    parser.add_argument("--all", action="store_true", help="try also what is noted as refused")
    parser.add_argument("--others", action="store_true", help="try also those of mutants.edit")
    parser.add_argument("--tree", metavar="FOLDER", default=crates.TOP, help="where the libraries are")
    parser.add_argument("crates", metavar="CRATE", nargs="*")
    words = parser.parse_args()
    lacking = [it for it in words.crates if not os.path.isdir(f"{crates.TOP}/crates/{it}/src")]
    if lacking:
        parser.error(f"there is no crate {lacking[0]}")
    return words


def mutants_by_crate(names: list[str], others: bool) -> dict[str, list[mutant_edits.Mutant]]:
    """Returns the mutants of these crates, or of all, by crate."""
    found = {}
    for name in names or sorted(os.listdir(f"{crates.TOP}/crates")):
        found[name] = mutant_edits.mutants_of(f"{crates.TOP}/crates/{name}", others)
    return {name: mutants for name, mutants in found.items() if mutants}


def has_libraries(clone: toolchain.Clone, names: list[str]) -> bool:
    """Whether `rt ci` left these libraries in a clone, and they are newer than what they are made of."""
    made = [toolchain.rlib(clone.top, it) for it in names]
    if not all(map(os.path.isdir, made)) or any(toolchain.is_of_another_command(clone.top, it) for it in names):
        return False
    if made and clone.is_older(min(made, key=lambda it: os.stat(it).st_mtime_ns), names):
        return False
    return clone.are_of_one_run(clone.top, toolchain.kit(), names)


def with_libraries(clone: toolchain.Clone, tried: Iterable[str], room: str) -> toolchain.Clone | None:
    """Returns a clone with the libraries below these crates: this one, or a copy in which they are built now;
    None if they cannot be built."""
    names = [*dict.fromkeys(it for crate in tried for it in clone.below(crate)[:-1])]
    if has_libraries(clone, names):
        return clone
    print(f"mutants: building the {len(names)} libraries below in a copy, by rt ci", flush=True)
    whole = [*dict.fromkeys(it for crate in tried for it in clone.below(crate))]
    clone.copy(f"{room}/copy", names)
    ran = subprocess.run(["rt", "ci"], cwd=f"{room}/copy", capture_output=True, text=True, check=False)
    if ran.returncode:
        print(*(ran.stdout + ran.stderr).splitlines()[-20:], sep="\n")
        return None
    return Copy(clone, f"{room}/copy", whole)


class Copy(toolchain.Clone):
    """A copy that has the libraries of a clone, and the lines of these crates."""

    def __init__(self, clone: toolchain.Clone, top: str, names: list[str]) -> None:
        super().__init__(top)
        self.crates = {it: clone.crates[it] for it in names}


class Results:
    """What the mutants came to."""

    def __init__(self, keys: mutant_notes.Keys, notes: mutant_notes.Notes) -> None:
        self.keys, self.notes = keys, notes
        self.passed = self.failed = 0
        self.lock = threading.Lock()

    def say(self, text: str) -> None:
        with self.lock:
            print(text, flush=True)

    def add(self, result: mutant_rounds.Result) -> None:
        with self.lock:
            print(result.line(), flush=True)
            self.passed += result.is_refused
            self.failed += not result.is_refused

    def not_noted(self, mutants: list[mutant_edits.Mutant], anew: bool) -> list[mutant_edits.Mutant]:
        """Returns the mutants that are not noted as refused, or all if they are tried anew. The others are
        counted."""
        left = []
        for it in mutants:
            said = self.notes.of(self.keys.of(it))
            if said and not anew:
                self.passed += 1
                where = said.partition(": ")[2]
                self.say(f"{it.label}: {where or 'refused'}")
            else:
                left.append(it)
        return left

    def is_unchanged(self, name: str) -> bool:
        """Whether the sources of a crate and of those below it are as they were."""
        now = mutant_notes.Keys(self.keys.clone, "")
        return all(now.of_crate(it) == self.keys.of_crate(it) for it in now.clone.below(name))


def try_crate(prover: mutant_prover.Prover, source: str, mutants: list[mutant_edits.Mutant], results: Results) -> float:
    """Tries the mutants of a crate, notes what is refused, and returns the processor seconds."""
    refused = []

    def say(result: mutant_rounds.Result) -> None:
        if result.is_refused:
            refused.append(result)
        results.add(result)

    with tempfile.TemporaryDirectory(prefix="mutants-", ignore_cleanup_errors=True) as room:
        trial = mutant_rounds.Trial(prover, source, room, say)
        trial.run(mutants)
    if results.is_unchanged(prover.crate):
        for it in refused:
            results.notes.write(results.keys.of(it.mutant), it.mutant.label, it.what)
    counted = f"mutants {len(mutants)}, rounds {trial.rounds}, processor minutes {trial.seconds / 60:.1f}"
    results.say(f"{prover.crate}: {counted}")
    return trial.seconds


def dearest_first(clone: toolchain.Clone, by_crate: Mapping[str, list[mutant_edits.Mutant]]) -> list[str]:
    """Returns the crates by what their mutants are likely to cost: their number, times the size of the code."""
    def cost(name: str) -> int:
        texts = mutant_edits.texts_of(f"{clone.top}/crates/{name}", mutant_edits.PARTS)
        return len(by_crate[name]) * sum(map(len, texts.values()))

    return sorted(by_crate, key=cost, reverse=True)


def try_all(clone: toolchain.Clone, over: toolchain.Clone, by_crate: Mapping[str, list[mutant_edits.Mutant]],
            results: Results) -> float:
    """Tries the mutants of several crates at once, and returns the processor seconds."""
    lanes = max(1, min(machine.processors(), machine.free() // MEMORY_EACH, len(by_crate)))
    kit, processes, tries = toolchain.kit(), mutant_prover.Processes(), []
    with ThreadPoolExecutor(lanes) as pool:
        try:
            for name in dearest_first(clone, by_crate):
                prover = mutant_prover.Prover(name, over, kit, processes)
                source = f"{clone.top}/crates/{name}"
                tries.append(pool.submit(try_crate, prover, source, by_crate[name], results))
            return sum(it.result() for it in tries)
        finally:
            if not all(it.done() for it in tries):
                pool.shutdown(wait=False, cancel_futures=True)
                processes.stop()


def main() -> int:
    words = asked()
    if not toolchain.has_toolchain("mutants"):
        return toolchain.NOT_BUILT
    for number in (signal.SIGTERM, signal.SIGHUP, signal.SIGINT):
        signal.signal(number, toolchain.stop)
    clone = toolchain.Clone(os.path.realpath(words.tree))
    version = subprocess.run(["rt", "version"], capture_output=True, text=True, check=True).stdout
    results = Results(mutant_notes.Keys(clone, version), mutant_notes.Notes(mutant_notes.default_folder()))
    by_crate = mutants_by_crate(words.crates, words.others)
    by_crate = {name: results.not_noted(mutants, words.all) for name, mutants in by_crate.items()}
    by_crate = {name: mutants for name, mutants in by_crate.items() if mutants}
    seconds = 0.0
    if by_crate:
        with tempfile.TemporaryDirectory(prefix="waywire-libraries-", ignore_cleanup_errors=True) as room:
            over = with_libraries(clone, by_crate, room)
            if not over:
                print("failed: the libraries below are not built\n0 passed, 1 failed")
                return toolchain.NOT_BUILT
            seconds = try_all(clone, over, by_crate, results)
    print(f"{sum(map(len, by_crate.values()))} mutants tried, {seconds / 60:.1f} processor minutes")
    print(f"{results.passed} passed, {results.failed} failed")
    return 1 if results.failed else 0


if __name__ == "__main__":
    sys.exit(main())
