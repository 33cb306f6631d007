"""Counts the instructions per message of the libraries for C and for Rust, and those of libwayland and wayland-rs
for the same work, all in one run.

    python3 -m bench.rust.run [--peers] [--time]

The library for C must be built (`make`), and cargo and valgrind installed. `--peers` measures only the two peers,
without the library. `--time` prints nanoseconds of processor time per message instead of instructions, and messages
per second; all runs are on one processor, and each figure is the median of five turns.

libwayland's column needs libwayland-dev and pkg-config. It is for the dispatcher, which is faster than the listeners.
The column of wayland-rs needs librust-wayland-client-dev and librust-wayland-server-dev (0.29). It is for the
implementation in Rust, compiled with opt-level 3 and fat LTO, as wayland_rs/Cargo.toml says. A peer that is not
there is named on standard error and has no figures.

Each library writes the same messages, the same number at once, and reads them. This library carries the bytes from
one end to the other in memory. Both peers flush them over a socket pair; the kernel's time is not counted. The ratio
is that of the C calls to the faster peer. It only measures: it is no test."""

import datetime
import glob
import os
import shutil
import subprocess
import sys

from bench.counting import build_c, instructions, of_one, processor, time_of_one
from scripts import usage
from scripts.crates import TOP

OUT = os.path.join(TOP, "out", "rust")
# What a round of each case sends, in messages.
CASES = {"damage": 1, "motion": 1, "surface": 3, "title": 1}
BATCHES = (100, 1)
# As many rounds as libwayland's delete_ids need to flow.
SAMPLE = 1000
# As many rounds as take some tenths of a second.
TIMED = 300_000
PACKAGES = "/usr/share/cargo/registry/wayland-{}-0.29.*"


def build_rust(folder, words, **environment):
    """Compiles a package, and puts its output into a folder of its own."""
    subprocess.run(["cargo", "build", "--quiet", "--release", "--offline", *words], check=True, cwd=folder,
                   env={**os.environ, **environment})


def build_ours():
    """Returns the programs for the libraries for C and for Rust."""
    installed, in_c = os.path.join(OUT, "installed"), os.path.join(OUT, "calls")
    subprocess.run(["make", "-s", "install", f"PREFIX={installed}", "program=none"], cwd=TOP, check=True)
    build_c(f"{TOP}/bench/c/calls.c", in_c, ["-I", f"{TOP}/include", f"{TOP}/out/c/libwaywire.a"])
    build_rust(os.path.join(TOP, "rust", "waywire"), ["--example", "cost"], WAYWIRE_DIR=installed,
               CARGO_TARGET_DIR=OUT)
    return [in_c], [os.path.join(OUT, "release", "examples", "cost")]


def build_libwayland():
    program = os.path.join(OUT, "libwayland")
    if not build_c(f"{TOP}/bench/c/libwayland.c", program, packages=("wayland-client", "wayland-server")):
        print("libwayland is not counted: libwayland-dev is not installed", file=sys.stderr)
        return None
    return [program, "dispatcher"]


def build_wayland_rs():
    missing = [f"librust-wayland-{it}-dev" for it in ("client", "server") if not glob.glob(PACKAGES.format(it))]
    missing += [] if shutil.which("cargo") else ["cargo"]
    if missing:
        print(f"wayland-rs is not counted: not installed: {', '.join(missing)}", file=sys.stderr)
        return None
    made = os.path.join(OUT, "wayland_rs")
    build_rust(f"{TOP}/bench/rust/wayland_rs", [], CARGO_TARGET_DIR=made)
    return [os.path.join(made, "release", "wayland_rs")]


def each(program, case, batch):
    """The words of a program for a case, and the other arguments of the counting."""
    # The program over libwayland also takes how many objects are open.
    objects = ["10"] if "dispatcher" in program else []
    return [*program, case, *objects, str(batch)], batch, CASES[case]


def print_counts(programs):
    print(f"Measured on {datetime.date.today()}: instructions a message in user code.\n")
    print("| Message | At once | By C's calls | By Rust's calls | libwayland, dispatcher | wayland-rs | Ratio |")
    print("|---|---|---|---|---|---|---|")
    for batch in BATCHES:
        for case in CASES:
            counts = [it and of_one(instructions, *each(it, case, batch), SAMPLE) for it in programs]
            peers = [it for it in counts[2:] if it]
            ratio = f"{counts[0] / min(peers):.2f}" if counts[0] and peers else "-"
            cells = [f"{it:,.0f}" if it else "-" for it in counts]
            print(f"| {case} | {batch} | {' | '.join(cells)} | {ratio} |", flush=True)


def print_times(programs):
    """Nanoseconds per message, with all runs on one processor."""
    os.sched_setaffinity(0, {max(os.sched_getaffinity(0))})
    print(f"Measured on {datetime.date.today()}, on one processor {processor()}: nanoseconds a message, in user code / "
          "with the kernel's; last, millions of messages a second, with the kernel's.\n")
    print("| Message | At once | By C's calls | By Rust's calls | libwayland, dispatcher | wayland-rs | A second |")
    print("|---|---|---|---|---|---|---|")
    for batch in BATCHES:
        for case in CASES:
            times = [it and time_of_one(*each(it, case, batch), TIMED) for it in programs]
            cells = [f"{it[0]:,.0f} / {it[1]:,.0f}" if it else "-" for it in times]
            seconds = [f"{1000 / it[1]:.2f}" if it else "-" for it in times]
            print(f"| {case} | {batch} | {' | '.join(cells)} | {', '.join(seconds)} |", flush=True)


def main():
    words = usage.words(__doc__, "--peers", "--time", most=0)
    os.makedirs(OUT, exist_ok=True)
    ours = (None, None) if "--peers" in words else build_ours()
    programs = (*ours, build_libwayland(), build_wayland_rs())
    if "--time" in words:
        print_times(programs)
    else:
        print_counts(programs)


if __name__ == "__main__":
    main()
