"""Measures the seconds until weston has read 100,000 requests of 24 bytes (wl_surface.damage) from one client:
directly, and through waywire-inspect, whose lines go to /dev/null, to a file, or to a file beside a recording.

    python3 -m bench.inspect.run [RELAY]..

Each RELAY is measured too: a command that takes the name of a recording and then the words of the client. The
library must be built (`make`), and weston and libwayland's headers installed. It prints the minimum and the
median of seven runs each, which alternate. It only measures: it is no test."""
import os
import shlex
import statistics
import subprocess
import sys
import tempfile

from bench.counting import build_c
from scripts import usage
from scripts.crates import TOP
from tests.checks import comes_to_listen

OUT = os.path.join(TOP, "out", "c")
CLIENT = os.path.join(OUT, "requests")
INSPECT = os.path.join(OUT, "waywire-inspect")
COUNT = 100_000
RUNS = 7


def started(folder, env):
    """Starts a compositor without a screen, and waits until it listens."""
    words = ["weston", "--backend=headless-backend.so", "--socket=outer", "--idle-time=0"]
    weston = subprocess.Popen(words, env=env, stdout=subprocess.DEVNULL, stderr=subprocess.DEVNULL)
    if not comes_to_listen(weston, os.path.join(folder, "outer")):
        weston.kill()
        sys.exit("weston does not listen")
    return weston


def seconds(words, output, env):
    """The seconds that the client reports, when it is run by these words."""
    with open(output, "wb") as file:
        ran = subprocess.run([*words, CLIENT, str(COUNT)], env=env, stdout=file, stderr=subprocess.PIPE,
                             check=True, timeout=300)
    return float(ran.stderr.split()[-1])


def main():
    relays = usage.words(__doc__)
    if not build_c(f"{TOP}/bench/inspect/requests.c", CLIENT, packages=("wayland-client",)):
        sys.exit("libwayland-dev is not installed")
    with tempfile.TemporaryDirectory() as folder:
        env = {**os.environ, "XDG_RUNTIME_DIR": folder, "WAYLAND_DISPLAY": "outer"}
        file, recording = os.path.join(folder, "lines"), os.path.join(folder, "recording")
        ways = {
            "directly": ([], os.devnull),
            "waywire-inspect": ([INSPECT], os.devnull),
            "waywire-inspect into a file": ([INSPECT], file),
            "waywire-inspect --record": ([INSPECT, "--record", recording], os.devnull),
            **{it: ([*shlex.split(it), recording], os.devnull) for it in relays},
        }
        took = {name: [] for name in ways}
        weston = started(folder, env)
        try:
            for _ in range(RUNS):
                for name, (words, output) in ways.items():
                    took[name].append(seconds(words, output, env))
        finally:
            weston.terminate()
            weston.wait()
    for name, each in took.items():
        least, median = min(each), statistics.median(each)
        print(f"{name}: {least:.3f} s, median {median:.3f} s, {COUNT / median:,.0f} requests a second")


if __name__ == "__main__":
    main()
