"""Measures the processor time of compositors with the system's libwayland-server and with ours, alternately.

    python3 -m bench.c.compositors [--turns=NUMBER] [--seconds=NUMBER] [--server=FOLDER] [NAME..]

NAME is sway or kwin [default: both]. Ours is the libwayland-server.so.0 of FOLDER [default: out/c/wayland/server].
A turn begins a compositor without a screen over each library, starts 20 programs there, waits until each has made a
request and then so many seconds [default: 10], and ends all of it. The first turn is not counted; every second one
begins with ours.

A line has the medians of the compositor's processor time in milliseconds, user and kernel, all threads, from its
start, and the median of the quotients, ours divided by the system's, with the quartiles. With a copy of the system's
library in FOLDER, the quotients show the noise. It only measures: it is no test."""

import argparse
import os
import statistics
import sys
import time

from scripts.crates import TOP
from tests.checks import Failed, Skipped, has_come
from tests.libwayland import desktops, kwin_and_mutter, programs
from tests.libwayland.libraries import SERVER_SONAME, SYSTEM, SYSTEM_SERVER, Library

COMPOSITORS = {"sway": desktops.sway, "kwin": kwin_and_mutter.kwin}
# Five of each of these are 20 programs: two draw all the time, two wait.
LINES = ("weston-simple-shm", "weston-presentation-shm", "weston-terminal", "zenity --info --text hello")
TIMES = 5


def processor_time(process):
    """The processor time of a process in milliseconds, by the kernel's clock of it."""
    return time.clock_gettime(~process.pid << 3 | 2) * 1000


def has_asked(program):
    return bool(program.kinds()) or program.has_ended()


class Logged(programs.Running):
    """A program beside others at a desktop, with a log of its own."""

    def __init__(self, desktop, number, line):
        self.log = f"{desktop.room}/{number}.log"
        self.desktop = desktop
        env = {"WAYLAND_DEBUG": "1", **desktops.own_home(desktop.room)}
        with open(self.log, "wb") as file:
            self.process = desktop.start(programs.words_of(line, desktop.room), SYSTEM, stderr=file, env=env)


def taken(begin, server, seconds):
    """The processor time of a compositor over a library, with all programs."""
    with begin(server=server) as desktop:
        if not server.is_loaded_by(desktop.process.pid):
            raise Failed(f"{desktop.name} has not loaded {server.name}")
        started = [Logged(desktop, number, LINES[number % len(LINES)]) for number in range(TIMES * len(LINES))]
        try:
            if not has_come(lambda: all(map(has_asked, started))):
                raise Skipped("not all programs have come up")
            time.sleep(seconds)
            return processor_time(desktop.process)
        finally:
            for it in started:
                desktops.end_group(it.process)


def compared(name, server, turns, seconds):
    """A line of the table."""
    both = SYSTEM_SERVER, server
    taken(COMPOSITORS[name], server, 0)
    found = []
    for number in range(turns):
        times = [None, None]
        for place in (number % 2, 1 - number % 2):
            times[place] = taken(COMPOSITORS[name], both[place], seconds)
        found.append(times)
    theirs, ours = zip(*found)
    quotients = [our / their for their, our in found]
    low, middle, high = statistics.quantiles(quotients, method="inclusive") if turns > 1 else quotients * 3
    return (f"| {name} | {statistics.median(theirs):,.0f} | {statistics.median(ours):,.0f} "
            f"| {middle:.2f} ({low:.2f} to {high:.2f}) |")


def arguments():
    parser = argparse.ArgumentParser(usage=__doc__.split("\n\n")[1].strip())
    parser.add_argument("--turns", type=int, default=5, metavar="NUMBER",
                        help="how many turns are counted [default: 5]")
    parser.add_argument("--seconds", type=float, default=10, metavar="NUMBER",
                        help="how long the programs run once all have come up [default: 10]")
    parser.add_argument("--server", default=f"{TOP}/out/c/wayland/server", metavar="FOLDER",
                        help="the folder of the libwayland-server.so.0 that is ours [default: out/c/wayland/server]")
    parser.add_argument("names", nargs="*", metavar="NAME", choices=[*COMPOSITORS, []],
                        help="sway or kwin [default: both]")
    return parser.parse_args()


def main():
    given = arguments()
    if not os.path.exists(f"{given.server}/{SERVER_SONAME}"):
        sys.exit(f"{given.server} has no {SERVER_SONAME}")
    print(f"{given.turns} turns; the machine's load was {os.getloadavg()[0]:.1f} before")
    print("| | libwayland | waywire | Quotient |")
    print("|---|---|---|---|", flush=True)
    for name in given.names or COMPOSITORS:
        try:
            print(compared(name, Library(given.server, SERVER_SONAME), given.turns, given.seconds), flush=True)
        except (Failed, Skipped) as why:
            print(f"{type(why).__name__.lower()}: {name}: {why}", flush=True)
    print(f"the machine's load was {os.getloadavg()[0]:.1f} at the end")


if __name__ == "__main__":
    main()
