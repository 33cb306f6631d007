"""Counts the instructions per message of the library for C, how many of them are spent at its boundary, and those
of libwayland's dispatcher for the same work in the same run.

    python3 -m bench.c.run [--profile | --memory | --libwayland[=FOLDER] | --growth[=FOLDER] | --server[=FOLDER]]

The boundary is c/ and the exports, which convert arguments and reports to those of C. Functions that the compiler
has inlined into the exports are counted there. The library must be built (`make`), and valgrind installed.
libwayland's column needs libwayland-dev and pkg-config.

`--profile` prints the instructions of each function instead of the table. `--memory` prints how many bytes a new
end with queues of 4 KB and 28 tokens allocates. `--libwayland` prints the instructions of four loops of a client,
with the system's libwayland-client and with that of FOLDER [default: out/c/wayland/client]. `--growth` prints the
microseconds of processor time that these two take to connect, with a round trip, and to bind interfaces that they do
not know, one after another; the medians of five turns. `--server` prints the instructions of five loops at a
compositor that does next to nothing, and the bytes that a client allocates there, with the system's libwayland-server
and with that of FOLDER [default: out/c/wayland/server].

It only measures: it is no test."""
import functools
import os
import re
import statistics
import subprocess
import tempfile

from bench.counting import build_c, instructions, of_one, under_valgrind
from scripts import usage
from scripts.crates import TOP

# What a round of each case sends, in messages.
CASES = {"damage": 1, "motion": 1, "surface": 3, "title": 1}
BATCHES = (1, 100)
# What is done each time is in loops.c.
LOOPS = ("roundtrip", "syncs", "damage", "region")
# The loops of server.c, and how many events more than the one `frame` answers `frames`.
OF_SERVER = {"damage, commit": "damage", "attach, damage, frame, commit; release, done, delete_id": "frame",
             "create_region, add, set_input_region, destroy; delete_id": "region", "a round trip": "roundtrip"}
MORE_EVENTS = 10
# How many interfaces are bound (growth.c).
INTERFACES = (1, 10, 100, 1000)
TURNS = 5
# As many rounds as libwayland's delete_ids need to flow.
SAMPLE = 1000


def by_function(words):
    """The instructions of each function in a run."""
    with tempfile.NamedTemporaryFile() as counts:
        under_valgrind("callgrind", [f"--callgrind-out-file={counts.name}", *words])
        shown = subprocess.run(["callgrind_annotate", "--threshold=100", counts.name], check=True,
                               capture_output=True).stdout.decode()
    found = {}
    for line in shown.splitlines():
        match = re.match(r"\s*([\d,]+) \([^)]*\)\s+\S*?:(\S.*?) \[", line)
        if match:
            found[match[2]] = found.get(match[2], 0) + int(match[1].replace(",", ""))
    return found


def spent_by_function(words, messages):
    """The instructions of each function for one message."""
    few, many = (by_function([*words, str(times)]) for times in (SAMPLE, 2 * SAMPLE))
    return {name: (many[name] - few.get(name, 0)) / SAMPLE / messages for name in many}


def at_boundary(spent):
    return sum(each for name, each in spent.items()
               if name.startswith("waywire_") or name in ("have_slices", "copy_args", "list_tokens"))


def profile(program):
    for case, messages in CASES.items():
        spent = spent_by_function([program, case, "1"], messages)
        print(f"{case}: {sum(spent.values()):,.0f} instructions a message, "
              f"{at_boundary(spent):,.0f} at the boundary")
        for name, each in sorted(spent.items(), key=lambda it: -it[1])[:14]:
            print(f"    {each:8,.0f}  {name}")


def memory(program):
    """The bytes that a new end allocates: two runs differ by one end."""
    for end in ("client", "server"):
        one, two = (bytes_asked_for([program, end, str(count)]) for count in (1, 2))
        print(f"a {end} asks for {two - one:,} bytes")


def bytes_asked_for(words):
    """All bytes that a run allocates."""
    said = under_valgrind("memcheck", words)
    return int(re.search(r"frees, ([\d,]+) bytes allocated", said)[1].replace(",", ""))


def table(program, theirs):
    print("| Message | Carried at once | By C's calls | At the boundary | libwayland, dispatcher | Ratio |")
    print("|---|---|---|---|---|---|")
    for case, messages in CASES.items():
        for batch in BATCHES:
            words = [program, case, str(batch)]
            ours = of_one(instructions, words, batch, messages, SAMPLE)
            boundary = f"{at_boundary(spent_by_function(words, messages)):,.0f}" if batch == 1 else "-"
            libwayland, ratio = "-", "-"
            if theirs:
                count = of_one(instructions, [theirs, "dispatcher", case, "10", str(batch)], batch, messages,
                               SAMPLE)
                libwayland, ratio = f"{count:,.0f}", f"{ours / count:.2f}"
            print(f"| {case} | {batch} | {ours:,.0f} | {boundary} | {libwayland} | {ratio} |", flush=True)


def loops(program, folder):
    """The instructions of one round of each loop, with the system's libwayland-client and with that of a folder."""
    print("| Loop | libwayland | waywire | Ratio |")
    print("|---|---|---|---|")
    for name in LOOPS:
        theirs, ours = (of_one(functools.partial(instructions, LD_LIBRARY_PATH=it), [program, name], 1, 1, SAMPLE)
                        for it in ("", folder))
        print(f"| {name} | {theirs:,.0f} | {ours:,.0f} | {ours / theirs:.2f} |", flush=True)


def loops_of_server(program, folder):
    """The instructions of a compositor for one round of each loop, with both libraries."""
    def counted(name):
        return [of_one(functools.partial(instructions, LD_LIBRARY_PATH=it), [program, name], 1, 1, SAMPLE)
                for it in ("", folder)]

    print("| Loop | libwayland | waywire | Ratio |")
    print("|---|---|---|---|")
    found = {said: counted(name) for said, name in OF_SERVER.items()}
    fewer, more = found[next(it for it in OF_SERVER if OF_SERVER[it] == "frame")], counted("frames")
    found["one event more"] = [(many - few) / MORE_EVENTS for few, many in zip(fewer, more)]
    for said, (theirs, ours) in found.items():
        print(f"| {said} | {theirs:,.0f} | {ours:,.0f} | {ours / theirs:.2f} |", flush=True)


def memory_of_server(program, folder):
    """The bytes that one more client allocates at a compositor, with both libraries."""
    print("| What | libwayland | waywire | Ratio |")
    print("|---|---|---|---|")
    for what in ("connected", "idle", "surfaces"):
        theirs, ours = (int(subprocess.run([program, what], check=True, capture_output=True,
                                           env={**os.environ, "LD_LIBRARY_PATH": it}).stdout) for it in ("", folder))
        print(f"| a client, {what} | {theirs:,} | {ours:,} | {ours / theirs:.2f} |", flush=True)


def growth_times(program, folder, count):
    """The nanoseconds to connect and to bind so many interfaces, with the libwayland-client of a folder."""
    said = subprocess.run([program, str(count)], check=True, capture_output=True,
                          env={**os.environ, "LD_LIBRARY_PATH": folder}).stdout
    return [int(it) for it in said.split()]


def growth(program, folder):
    """The time to connect, and to bind more and more interfaces, with both libraries in turns."""
    print("| What | libwayland | waywire |")
    print("|---|---|---|")
    for count in INTERFACES:
        turns = [[growth_times(program, it, count) for it in ("", folder)] for _ in range(TURNS)]
        theirs, ours = ([statistics.median(it) / 1000 for it in zip(*each)] for each in zip(*turns))
        if count == INTERFACES[0]:
            print(f"| a connection and a round trip | {theirs[0]:,.1f} | {ours[0]:,.1f} |")
        print(f"| binds of other interfaces: {count:,} | {theirs[1]:,.1f} | {ours[1]:,.1f} |", flush=True)


def beside_the_system(measure, source, folder, part="client"):
    """Measures a program with the system's libwayland-client, or -server, and with that of a folder."""
    if not os.path.exists(f"{folder}/libwayland-{part}.so.0"):
        raise SystemExit(f"{folder} has no libwayland-{part}.so.0")
    with tempfile.TemporaryDirectory() as room:
        program = f"{room}/program"
        if not build_c(f"{TOP}/bench/c/{source}", program, packages=("wayland-client", "wayland-server")):
            raise SystemExit("libwayland-dev is not installed")
        measure(program, os.path.abspath(folder))


def main():
    words = usage.words(__doc__, "--profile", "--memory", "--libwayland", "--libwayland=", "--growth", "--growth=",
                        "--server", "--server=", most=0)
    for word in words:
        option, _, folder = word.partition("=")
        if option == "--server":
            folder = folder or f"{TOP}/out/c/wayland/server"
            beside_the_system(loops_of_server, "server.c", folder, "server")
            beside_the_system(memory_of_server, "clients.c", folder, "server")
            return
        if option in ("--libwayland", "--growth"):
            of_option = {"--libwayland": (loops, "loops.c"), "--growth": (growth, "growth.c")}
            beside_the_system(*of_option[option], folder or f"{TOP}/out/c/wayland/client")
            return
    with tempfile.TemporaryDirectory() as folder:
        program, theirs = f"{folder}/calls", f"{folder}/libwayland"
        library = ["-I", f"{TOP}/include", f"{TOP}/out/c/libwaywire.a"]
        if "--memory" in words:
            build_c(f"{TOP}/bench/c/memory.c", program, library)
            memory(program)
            return
        build_c(f"{TOP}/bench/c/calls.c", program, library)
        if "--profile" in words:
            profile(program)
            return
        if not build_c(f"{TOP}/bench/c/libwayland.c", theirs, packages=("wayland-client", "wayland-server")):
            theirs = None
        table(program, theirs)


if __name__ == "__main__":
    main()
