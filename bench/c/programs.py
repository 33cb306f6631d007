"""Measures how fast programs run with the system's libwayland-client and with ours, alternately, at one headless sway.

    python3 -m bench.c.programs [--turns=NUMBER] [--hertz=NUMBER] [--library=FOLDER] [WORD..]

Ours is the libwayland-client.so.0 of FOLDER [default: out/c/wayland/client]. With a copy of the system's library in FOLDER,
the quotients show the noise. With words, only those rows are measured whose names contain one of them. A turn runs
the program once with each library; every second turn begins with ours. The first run with each library is not
counted. NUMBER of --hertz is how many frames per second the output shows [default: 1000], so many that the display
delays no program.

`start` is the time from exec to the first window. `print` is how long a terminal runs that prints numbers. `scroll`
is the time from the first frame to the last of a page that moves by 8 pixels per frame. Each line has the medians
for both libraries, and the median of the quotients, ours divided by the system's, with the quartiles in brackets:
first for wall-clock time, then for processor time, in milliseconds. The processor time is that of the program's main
process: user and system, all threads. It only measures: it is no test."""

import argparse
import collections
import contextlib
import json
import os
import re
import select
import socket
import statistics
import struct
import subprocess
import sys
import time

from scripts.crates import TOP
from tests.checks import COMES_UP, Failed, Skipped, need
from tests.libwayland import desktops, pasting
from tests.libwayland.libraries import SONAME, SYSTEM, Library

STARTS = """
weston-flower
weston-presentation-shm
foot
zenity --info --text hello
gtk4-widget-factory
gtk4-demo
featherpad
"""
NUMBERS = 2000000
FRAMES = 200
# How long a program has to come as far as it is measured, and to end when its window is closed, in seconds.
MOST, CLOSES = 120, 5
# A page says in its title that its first frame and its last have come.
FIRST, LAST = re.compile("first frame"), re.compile("last frame")
GTK_PAGE = """
import gi
gi.require_version("Gtk", "4.0")
from gi.repository import GLib, Gtk
loop = GLib.MainLoop()
text = "".join(f"{line} " + "the quick brown fox jumps over the lazy dog " * 3 + "\\n" for line in range(2000))
window = Gtk.Window(title="page", default_width=1000, default_height=700)
view = Gtk.ScrolledWindow(child=Gtk.Label(label=text, xalign=0))
window.set_child(view)
frames = 0
def on_frame(*_):
    global frames
    frames += 1
    if frames == 30:
        window.set_title("first frame")
    if frames == 30 + FRAMES:
        window.set_title("last frame")
    view.get_vadjustment().set_value(8 * frames)
    return True
window.connect("close-request", lambda *_: loop.quit())
window.add_tick_callback(on_frame)
window.present()
loop.run()
"""
HTML_PAGE = """<!DOCTYPE html><meta charset=utf-8><title>page</title><body><script>
for (let line = 0; line < 2000; line++)
    document.body.append(line + " " + "the quick brown fox jumps over the lazy dog ".repeat(3),
                         document.createElement("br"));
let frames = 0;
function frame() {
    frames++;
    if (frames == 30) document.title = "first frame";
    if (frames == 30 + FRAMES) document.title = "last frame";
    scrollTo(0, 8 * frames);
    requestAnimationFrame(frame);
}
requestAnimationFrame(frame);
</script>
"""

# What a run took, in seconds: by the clock, and of processor time.
Taken = collections.namedtuple("Taken", "clock processor")
# What is measured: the words of the program, and the function that runs it once.
Row = collections.namedtuple("Row", "name words measure")


class Events:
    """Sway's messages about windows, from its socket: the name of a change, and the window's title and process."""

    HEAD = struct.Struct("<6sII")
    SUBSCRIBE = 2

    def __init__(self, desktop):
        self.socket = socket.socket(socket.AF_UNIX)
        self.socket.connect(f"{desktop.room}/sway-ipc.{desktop.uid()}.{desktop.process.pid}.sock")
        what = b'["window"]'
        self.socket.sendall(self.HEAD.pack(b"i3-ipc", len(what), self.SUBSCRIBE) + what)
        self.next(COMES_UP)

    def read(self, count):
        data = b""
        while len(data) < count:
            more = self.socket.recv(count - len(data))
            if not more:
                raise Failed("sway has ended")
            data += more
        return data

    def next(self, seconds):
        """The next message; `None` if none comes within so many seconds."""
        if not select.select([self.socket], [], [], max(0, seconds))[0]:
            return None
        _, length, _ = self.HEAD.unpack(self.read(self.HEAD.size))
        return json.loads(self.read(length))

    def forget(self):
        """Drops the messages that have come so far."""
        while self.next(0):
            pass

    def wait_for(self, process, change, title=None):
        """Waits until a window of a program has this change, and a title that contains this text. Returns the times
        that the program has taken."""
        end = time.monotonic() + MOST
        while process.poll() is None and time.monotonic() < end:
            said = self.next(0.5)
            if not said or said["change"] != change:
                continue
            window = said["container"]
            if title and not title.search(window["name"] or ""):
                continue
            if desktops.group_of(window["pid"]) == process.pid:
                return now(process)
        how = "has come to nothing" if process.poll() is None else f"has ended with status {process.returncode}"
        raise Failed(how)


def now(process):
    """The time now, and the processor time of a process, which may be a zombie. It is read from the kernel's clock
    of that process, since /proc/PID/stat has it only in hundredths of a second."""
    return Taken(time.monotonic(), time.clock_gettime(~process.pid << 3 | 2))


def at_end(process):
    """The times that a program has taken, which ends by itself."""
    descriptor = os.pidfd_open(process.pid)
    try:
        if not select.select([descriptor], [], [], MOST)[0]:
            raise Failed(f"it has not ended within {MOST} s")
        return now(process)
    finally:
        os.close(descriptor)


def between(first, last):
    return Taken(*(after - before for before, after in zip(first, last)))


@contextlib.contextmanager
def started(bench, words, library):
    """Starts a program, and notes when. At the end it is closed."""
    bench.events.forget()
    begin = time.monotonic()
    process = bench.desktop.start(words, library)
    try:
        yield process, Taken(begin, 0)
    finally:
        with contextlib.suppress(subprocess.TimeoutExpired):
            if process.poll() is None and bench.desktop.close(process):
                process.wait(CLOSES)
        desktops.end_group(process)


def must_use(library, process, words):
    """Fails if the program runs with another library. If it has ended, the loader is asked."""
    if not library.is_loaded_by(process.pid) and not library.is_linked_by(words[0]):
        raise Failed(f"it has not loaded {library.name}")


def start(bench, words, library):
    """From exec to the first window."""
    with started(bench, words, library) as (process, begin):
        shown = bench.events.wait_for(process, "new")
        must_use(library, process, words)
        return between(begin, shown)


def print_numbers(bench, words, library):
    """A program that ends by itself."""
    with started(bench, words, library) as (process, begin):
        bench.events.wait_for(process, "new")
        must_use(library, process, words)
        ended = at_end(process)
        if process.wait():
            raise Failed(f"it has ended with status {process.returncode}")
        return between(begin, ended)


def scroll(bench, words, library):
    """From the first frame of a page to the last one."""
    with started(bench, words, library) as (process, _):
        first = bench.events.wait_for(process, "title", FIRST)
        must_use(library, process, words)
        return between(first, bench.events.wait_for(process, "title", LAST))


def written(path, text):
    with open(path, "w", encoding="utf-8") as file:
        file.write(text)
    return path


def in_python(room):
    need(pasting.PYTHON)
    ran = subprocess.run([pasting.PYTHON, "-c", pasting.MODULES["gtk4"]], capture_output=True, check=False)
    if ran.returncode:
        raise Skipped("Python's modules for gtk4 are not installed")
    return [pasting.PYTHON, written(f"{room}/page.py", GTK_PAGE.replace("FRAMES", str(FRAMES)))]


def in_firefox(room, page):
    """Firefox with a profile that all its runs share."""
    need("firefox-esr")
    profile = f"{room}/profile"
    os.makedirs(profile, exist_ok=True)
    never = 'user_pref("toolkit.startup.max_resumed_crashes", -1);\n'
    written(f"{profile}/user.js", pasting.PREFERENCES + never)
    page = written(f"{room}/page.html", HTML_PAGE.replace("FRAMES", str(FRAMES))) if page else "about:blank"
    return ["firefox-esr", "--no-remote", "--profile", profile, page]


def needed(words):
    need(words[0])
    return words


def rows():
    """The rows of the table. The words of a program are made right before it runs, in a folder of its own."""
    found = [Row(f"start: {it.split()[0]}", lambda _, it=it: needed(it.split()), start)
             for it in STARTS.strip().splitlines()]
    foot = ["foot", "--config=/dev/null", "sh", "-c", f"seq {NUMBERS}"]
    return [*found,
            Row("start: firefox-esr", lambda room: in_firefox(room, False), start),
            Row(f"print: foot, {NUMBERS:,} numbers", lambda _: needed(foot), print_numbers),
            Row(f"scroll: GTK 4, {FRAMES} frames", in_python, scroll),
            Row(f"scroll: firefox-esr, {FRAMES} frames", lambda room: in_firefox(room, True), scroll)]


class Bench:
    """A sway at which programs are measured, with the system's library and with ours."""

    def __init__(self, desktop, library, turns):
        self.desktop, self.libraries, self.turns = desktop, (SYSTEM, library), turns
        self.events = Events(desktop)

    def turn(self, row, words, first):
        """Runs a program once with each library, first with this one."""
        taken = [None, None]
        for place in (first, 1 - first):
            taken[place] = row.measure(self, words, self.libraries[place])
        return taken

    def measures(self, row):
        """Prints a row of the table."""
        words = row.words(self.desktop.room)
        self.turn(row, words, 0)
        turns = [self.turn(row, words, number % 2) for number in range(self.turns)]
        cells = [cell for what in Taken._fields for cell in compared(turns, what)]
        print(f"| {row.name} | {' | '.join(cells)} |", flush=True)


def compared(turns, what):
    """The medians in milliseconds, and the median of the quotients, with their quartiles."""
    theirs, ours = ([getattr(it[place], what) for it in turns] for place in (0, 1))
    quotients = [our / their for their, our in zip(theirs, ours)]
    low, middle, high = statistics.quantiles(quotients, method="inclusive") if len(turns) > 1 else quotients * 3
    return (f"{statistics.median(theirs) * 1000:,.1f}", f"{statistics.median(ours) * 1000:,.1f}",
            f"{middle:.2f} ({low:.2f} to {high:.2f})")


def arguments():
    parser = argparse.ArgumentParser(usage=__doc__.split("\n\n")[1].strip())
    parser.add_argument("--turns", type=int, default=7, metavar="NUMBER",
                        help="how often each program is run with each library [default: 7]")
    parser.add_argument("--hertz", type=int, default=1000, metavar="NUMBER",
                        help="how many frames per second the output shows [default: 1000]")
    parser.add_argument("--library", default=f"{TOP}/out/c/wayland/client", metavar="FOLDER",
                        help="the folder of the libwayland-client.so.0 that is ours [default: out/c/wayland/client]")
    parser.add_argument("words", nargs="*", metavar="WORD",
                        help="measures only the rows whose names contain one of the words")
    return parser.parse_args()


def main():
    given = arguments()
    if not os.path.exists(f"{given.library}/{SONAME}"):
        sys.exit(f"{given.library} has no {SONAME}")
    with desktops.sway() as desktop:
        desktop.message("--", "output", "*", "mode", "--custom", f"1280x720@{given.hertz}Hz")
        bench = Bench(desktop, Library(given.library), given.turns)
        print(f"{given.turns} turns; the machine's load was {os.getloadavg()[0]:.1f} before")
        print("| | libwayland | waywire | Quotient | Processor: libwayland | waywire | Quotient |")
        print("|---|---|---|---|---|---|---|", flush=True)
        for row in rows():
            if given.words and not any(word in row.name for word in given.words):
                continue
            try:
                bench.measures(row)
            except Skipped as why:
                print(f"skipped: {row.name}: {why}", flush=True)
            except Failed as why:
                print(f"failed: {row.name}: {why}", flush=True)
        print(f"the machine's load was {os.getloadavg()[0]:.1f} at the end")


if __name__ == "__main__":
    try:
        main()
    except Skipped as why:
        sys.exit(f"skipped: {why}")
