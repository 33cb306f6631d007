"""Measures what waywire-inspect costs a long session of one client at weston: its processor time for a request
(wl_surface.damage), and its memory at each tenth of the session. Then it measures how much longer a round trip takes.

    python3 -m bench.inspect.long [COUNT [WORD..]]

The session has COUNT requests [default: 50000000]. The inspector gets the words; without any it prints no lines
(`--only wl_shm`). A round trip is the median of 20,000, first directly and then through the inspector, in seven turns;
it prints the median of the turns for both, and of their differences. The library must be built (`make`), and weston and
libwayland's headers installed.

It only measures: it is no test."""

import os
import statistics
import subprocess
import sys
import tempfile
import time

from bench.counting import build_c
from bench.inspect.run import CLIENT, INSPECT, started
from scripts import usage
from scripts.crates import TOP

COUNT = 50_000_000
ROUND_TRIPS = 20_000
TURNS = 7
NO_LINES = ("--only", "wl_shm")
TICKS = os.sysconf("SC_CLK_TCK")


def processor_seconds(pid):
    """The processor time of a process without its children, in user code and in the kernel."""
    with open(f"/proc/{pid}/stat", encoding="utf-8") as file:
        return sum(map(int, file.read().rpartition(")")[2].split()[11:13])) / TICKS


def resident(pid):
    """The memory of a process in kilobytes; none if it has ended."""
    with open(f"/proc/{pid}/status", encoding="utf-8") as file:
        return next((int(it.split()[1]) for it in file if it.startswith("VmRSS:")), None)


def session(words, count, env):
    """Runs the client through the inspector. Returns seconds, processor seconds, and the memory each second."""
    begin, memory = time.monotonic(), []
    inspector = subprocess.Popen([INSPECT, *words, CLIENT, str(count)], env=env, stdout=subprocess.DEVNULL)
    # The time of a process that has ended can be read until it is waited for.
    while not os.waitid(os.P_PID, inspector.pid, os.WEXITED | os.WNOWAIT | os.WNOHANG):
        time.sleep(1)
        memory.append(resident(inspector.pid))
    seconds, used = time.monotonic() - begin, processor_seconds(inspector.pid)
    if inspector.wait():
        sys.exit(f"waywire-inspect ended with status {inspector.returncode}")
    return seconds, used, [it for it in memory if it]


def round_trip(words, env):
    """The median of round trips in microseconds."""
    ran = subprocess.run([*words, CLIENT, str(ROUND_TRIPS), "round-trips"], env=env, check=True, text=True,
                         stdout=subprocess.DEVNULL, stderr=subprocess.PIPE)
    return float(ran.stderr.split()[-1])


def print_round_trips(words, env):
    turns = [(round_trip([], env), round_trip([INSPECT, *words], env)) for _ in range(TURNS)]
    least = min(through for _, through in turns) - min(directly for directly, _ in turns)
    directly, through = (statistics.median(it) for it in zip(*turns))
    more = statistics.median(through - directly for directly, through in turns)
    print(f"a round trip: {directly:.1f} µs directly, {through:.1f} µs through the inspector; {more:+.1f} µs in a turn,"
          f" {least:+.1f} µs between the least")


def main():
    given = usage.words(__doc__, is_command=True)
    count, words = int(given[0]) if given else COUNT, given[1:] or NO_LINES
    if not build_c(f"{TOP}/bench/inspect/requests.c", CLIENT, packages=("wayland-client",)):
        sys.exit("libwayland-dev is not installed")
    with tempfile.TemporaryDirectory() as folder:
        env = {**os.environ, "XDG_RUNTIME_DIR": folder, "WAYLAND_DISPLAY": "outer"}
        weston = started(folder, env)
        try:
            seconds, used, memory = session(words, count, env)
            tenths = [memory[len(memory) * it // 10] for it in range(10)] + memory[-1:]
            print(f"{count:,} requests in {seconds:.1f} s: {used / count * 1e6:.3f} µs of processor each, "
                  f"memory in kB: {', '.join(map(str, tenths))}", flush=True)
            print_round_trips(words, env)
        finally:
            weston.terminate()
            weston.wait()


if __name__ == "__main__":
    main()
