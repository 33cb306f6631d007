"""Times the workloads of bench/workloads.txt over the libraries of two checkouts, alternately.

    bench/run OLD NEW [SEED [NAME..]]

A workload is a line NAME CRATE WORD..: the program of bench/CRATE is run with these words in the folder
bench/. A word SEED is replaced by the number, by default 1. A last word <FILE makes FILE the standard
input. With names, only these workloads are run. The programs and the workloads are those of the
checkout in which this file lies. They are compiled over the crates of OLD and of NEW, without a proof
and without the checks that a proof makes superfluous (scripts/unproved.py). A program that does not
compile over one of them, because calls have changed, is taken from that checkout.

Each workload is run in seven turns, once in each checkout; every second turn begins with NEW. If the
outputs differ, the run stops. For each workload it prints both medians in wall-clock seconds, the
quotient OLD/NEW of the medians, and as `turns` the median of the quotients OLD/NEW of the turns.

All runs are on one processor, the last one that this process may use (`taskset -c 2 bench/run` selects
one). On a shared machine processors differ in speed, and their speed changes. So trust `turns`: the
two runs of a turn follow each other directly."""

import os
import statistics
import subprocess
import sys
import time

from scripts import crates, unproved, usage
from scripts.crates import TOP

TURNS = 7


def workloads(seed):
    """Returns the lines of the workloads as (name, crate, words)."""
    found = []
    with open(f"{TOP}/bench/workloads.txt", encoding="utf-8") as file:
        for line in file:
            if line.split():
                name, crate, *words = line.split()
                found.append((name, crate, [seed if word == "SEED" else word for word in words]))
    return found


def compiled(checkout, crate):
    """Compiles a program over the crates of a checkout: that of this checkout, or, where calls have changed, the
    checkout's own. Returns its path."""
    over, name = crates.read_all(checkout), crate.name
    this = crate._replace(folder=f"{TOP}/{crate.folder}")
    try:
        return unproved.kept(unproved.Sources(checkout, {**over, name: this}), name, "fast")
    except unproved.NotCompiled as why:
        if name not in over:
            sys.exit(f"{name} does not compile over {checkout}:\n{why}")
    print(f"{name} of this checkout does not compile over {checkout}: its own is compiled", file=sys.stderr)
    try:
        return unproved.kept(unproved.Sources(checkout, over), name, "fast")
    except unproved.NotCompiled as why:
        sys.exit(f"{name} of {checkout} does not compile:\n{why}")


def programs(checkout, names):
    """Compiles programs over the crates of a checkout, and returns the paths by their names."""
    own = crates.read_unproved()
    return {name: compiled(checkout, own[name]) for name in names}


def run(program, words):
    """Runs a workload once. Returns its output and the seconds that it took."""
    entry = os.devnull
    if words and words[-1].startswith("<"):
        entry = f"{TOP}/bench/{words[-1][1:]}"
        words = words[:-1]
    with open(entry, "rb") as given:
        begin = time.perf_counter()
        ran = subprocess.run([program, *words], stdin=given, stdout=subprocess.PIPE, cwd=f"{TOP}/bench", check=True)
        seconds = time.perf_counter() - begin
    return ran.stdout, seconds


def turn(built, words, first):
    """Runs a workload once with each of both programs, first with this one. Returns outputs and seconds."""
    outputs, seconds = [b"", b""], [0.0, 0.0]
    for place in (first, 1 - first):
        outputs[place], seconds[place] = run(built[place], words)
    return outputs, seconds


def chosen(found, names):
    """Returns the workloads with these names, in the order of the names; without names, all workloads."""
    unknown = set(names) - {name for name, _, _ in found}
    if unknown:
        sys.exit(f"no workload is named {', '.join(sorted(unknown))}")
    return [workload for workload in found if not names or workload[0] in names]


def main():
    words = usage.words(__doc__, least=2)
    checkouts = [os.path.abspath(folder) for folder in words[:2]]
    seed = words[2] if len(words) > 2 else "1"
    jobs = chosen(workloads(seed), words[3:])
    built = [programs(it, {crate for _, crate, _ in jobs}) for it in checkouts]
    processor = max(os.sched_getaffinity(0))
    os.sched_setaffinity(0, {processor})
    print(f"medians of {TURNS} runs, in seconds, seed {seed}, on processor {processor}")
    print(f"{'workload':<12} {'old':>8} {'new':>8} {'old/new':>8} {'turns':>8}")
    for name, crate, words in jobs:
        taken = []
        for number in range(TURNS):
            said, seconds = turn([it[crate] for it in built], words, number % 2)
            if said[0] != said[1]:
                sys.exit(f"{name}: the outputs differ: {said[0]!r} and {said[1]!r}")
            taken.append(seconds)
        old, new = map(statistics.median, zip(*taken))
        turns = statistics.median(before / after for before, after in taken)
        print(f"{name:<12} {old:8.3f} {new:8.3f} {old / new:8.3f} {turns:8.3f}", flush=True)


if __name__ == "__main__":
    main()
