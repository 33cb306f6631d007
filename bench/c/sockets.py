"""Measures messages between a client and a server in two processes, over a socket pair: this library, libwayland and
wayland-rs, in one run.

    python3 -m bench.c.sockets [--time | --clients | --queues]

The table has, for both ends together, the instructions in user code, and the ratio of this library's to those of the
faster peer; and the system calls. The library must be built (`make`), and valgrind and strace installed. The columns
of the peers need what those of bench/rust/run.py need; a peer that is not there is named on standard error.

`--time` prints instead the nanoseconds of both ends' processor time with the kernel's, the medians of five turns, and
the median and the 99th percentile of a round trip. `--clients` prints what 1,000 clients cost a server that finds two
messages in each read, and the memory of a server's connection. `--queues` prints the system calls for the default
queues of a server's connection, for others, and for libwayland.

It only measures: it is no test."""

import datetime
import os
import re
import statistics
import subprocess
import tempfile

from bench.counting import build_c, processor, processor_time, under_valgrind
from bench.rust import run as rust
from scripts import usage
from scripts.crates import TOP

# How many messages a round has, how many rounds the shorter of two runs has and how many more the longer one, and what
# is counted.
CASES = {
    "damage": (100, 5, 20, "a damage, a hundred and a round trip at once"),
    "motion": (100, 5, 20, "a motion, a hundred at once"),
    "frame": (60, 10, 50, "a frame: its callback, damage, commit, and 60 motions"),
    "sync": (1, 100, 1000, "a round trip"),
}
# What is divided by the number of messages; the others count for a round.
OF_ONE = ("damage", "motion")
LIBRARIES = ("waywire", "libwayland", "wayland-rs")
QUEUES = (4096, 8192, 16384, 65536)
BURST = 700
TURNS = 5
CLIENTS = 1000


def of_round(measure, program, case, more=1):
    """What a measure says about one message or one round of a case."""
    count, few, times, _ = CASES[case]
    words = [*program, case, str(count)]
    low, high = (measure([*words, str(it)]) for it in (few, few + times * more))
    return (high - low) / (times * more) / (count if case in OF_ONE else 1)


def instructions(words):
    """The instructions of all processes of a run."""
    said = under_valgrind("callgrind", ["--trace-children=yes", "--callgrind-out-file=/dev/null", *words])
    return sum(int(it) for it in re.findall(r"Collected *: *(\d+)", said))


def system_calls(words):
    """The system calls of all processes of a run."""
    with tempfile.NamedTemporaryFile("r") as counts:
        subprocess.run(["strace", "-f", "-qq", "-c", "-o", counts.name, *words], check=True)
        total = counts.read().split("\n")[-2].split()
    return int(total[3])


def print_counts(programs):
    print(f"Measured on {datetime.date.today()}: instructions in user code, and system calls, of both ends.\n")
    print(f"| What | {' | '.join(LIBRARIES)} | Ratio | System calls |")
    print("|---|---|---|---|---|---|")
    for case, (*_, what) in CASES.items():
        counts = [it and of_round(instructions, it, case) for it in programs]
        calls = [f"{of_round(system_calls, it, case):.2f}" if it else "-" for it in programs]
        peers = [it for it in counts[1:] if it]
        ratio = f"{counts[0] / min(peers):.2f}" if peers else "-"
        shown = " | ".join(f"{it:,.0f}" if it else "-" for it in counts)
        print(f"| {what} | {shown} | {ratio} | {', '.join(calls)} |", flush=True)


def print_times(programs):
    print(f"Measured on {datetime.date.today()} on {processor()}: nanoseconds of both ends' processor time, with the "
          "kernel's.\n")
    print(f"| What | {' | '.join(LIBRARIES)} |")
    print("|---|---|---|---|")
    for case, (*_, what) in CASES.items():
        turns = [[it and of_round(lambda words: processor_time(words)[1], it, case, 100) for it in programs]
                 for _ in range(TURNS)]
        shown = [f"{statistics.median(it):,.0f}" if it[0] is not None else "-" for it in zip(*turns)]
        print(f"| {what} | {' | '.join(shown)} |", flush=True)
    turns = [[it and [int(number) for number in subprocess.check_output([*it, "latency", "1", "20000"]).split()]
              for it in programs] for _ in range(TURNS)]
    for place, what in enumerate(("median", "99th percentile")):
        shown = [f"{statistics.median(it[place] for it in each):,.0f}" if each[0] else "-" for each in zip(*turns)]
        print(f"| a round trip by the clock, {what} | {' | '.join(shown)} |")


def print_clients(programs):
    print(f"Measured on {datetime.date.today()}: {CLIENTS:,} clients at one server, two messages a read.\n")
    print("| Library | Nanoseconds a message | Resident memory of a connection | Allocated |")
    print("|---|---|---|---|")
    turns = [[[int(number) for number in subprocess.check_output([*it, "clients", str(CLIENTS), "100"]).split()]
              for it in programs] for _ in range(TURNS)]
    for name, each in zip(LIBRARIES, zip(*turns)):
        print(f"| {name} | {' | '.join(f'{statistics.median(it):,.0f}' for it in zip(*each))} |")


def calls_of_case(program, case, count):
    low, high = (system_calls([*program, case, str(count), str(it)]) for it in (10, 110))
    return (high - low) / 100


def print_queues(ours, theirs):
    print(f"Measured on {datetime.date.today()}: system calls of both ends.\n")
    print(f"| Queues of the server | a frame | {BURST} damages and a round trip | {BURST} motions | Allocated |")
    print("|---|---|---|---|---|")
    rows = [("default", ours), *((f"{it:,}", ["env", f"OUT_BYTES={it}", f"IN_BYTES={it}", *ours]) for it in QUEUES)]
    for name, program in [*rows, ("libwayland", theirs)]:
        if program:
            allocated = int(subprocess.check_output([*program, "clients", "10", "1"]).split()[2])
            shown = [calls_of_case(program, *it) for it in (("frame", 60), ("damage", BURST), ("motion", BURST))]
            print(f"| {name} | {' | '.join(f'{it:.1f}' for it in shown)} | {allocated:,} |", flush=True)


def build(folder):
    """The programs of this library, of libwayland and of wayland-rs; None for one that cannot be built."""
    ours, theirs = f"{folder}/sockets", f"{folder}/sockets_libwayland"
    build_c(f"{TOP}/bench/c/sockets.c", ours, ["-I", f"{TOP}/include", f"{TOP}/out/c/libwaywire.a"])
    if not build_c(f"{TOP}/bench/c/sockets_libwayland.c", theirs, packages=("wayland-client", "wayland-server")):
        theirs = None
    in_rust = rust.build_wayland_rs()
    return [ours], theirs and [theirs], in_rust and [os.path.join(os.path.dirname(in_rust[0]), "sockets")]


def main():
    words = usage.words(__doc__, "--time", "--clients", "--queues", most=0)
    with tempfile.TemporaryDirectory() as folder:
        programs = build(folder)
        if "--time" in words:
            print_times(programs)
        elif "--clients" in words:
            print_clients([it for it in programs[:2] if it])
        elif "--queues" in words:
            print_queues(*programs[:2])
        else:
            print_counts(programs)


if __name__ == "__main__":
    main()
