"""Runs each program of the distribution over the system's library and over the one under test. Over both it must
be shown, be closed and end in the same way, and make the same kinds of requests.

The kind of a request is its interface and its name, as the library prints them with WAYLAND_DEBUG. Each run starts
with an empty home, since some programs save the state of their window and ask for it in the next run.

Which kinds a program makes also depends on when it is closed, and so on how busy the machine is. If two runs
differ, the program is run again over both libraries, and is given more time. The test passes as soon as one run
over each library agree. If none agree, it fails only for what no busy machine explains: an end that never comes
over one of the libraries, or a kind that every run over one library has and no run over the other."""

import collections
import glob
import os
import re
import shlex
import signal
import subprocess
import time

from tests.checks import COMES_UP, TOP, Failed, Skipped, has_come, is_installed, need, run
from tests.libwayland import desktops
from tests.libwayland.libraries import SONAME, SOURCES, SYSTEM, checked_by_valgrind

AT_SWAY = """
wayland-info
weston-flower
weston-terminal
weston-smoke
weston-eventdemo
weston-subsurfaces
weston-presentation-shm
weston-simple-egl
foot -e sh -c 'ls /; sleep 100'
zenity --info --text hello
zenity --entry --text hello
gtk3-demo
gtk3-widget-factory
gtk4-demo
gtk4-widget-factory
qterminal
qt6ct
featherpad
mpv --vo=wlshm --no-config --length=2 av://lavfi:testsrc
glmark2-wayland -b build:duration=1
grim ROOM/shot.png
wtype hello
swaybg -c '#336699'
swaynag -m hello
alacritty -e sleep 100
kitty sh -c 'sleep 100'
imv-wayland ROOM/shot.png
waybar
wlr-randr
wev
fuzzel --dmenu
wofi --dmenu
slurp -d
kanshi -c /dev/null
wdisplays
wl-paste
wl-paste --watch cat
swayidle timeout 100 true
wlsunset -l 10 -L 10
wf-recorder -f ROOM/film.mp4
gedit
gnome-calculator
kate
konsole
mousepad
evince
bemenu-run
sh -c '(echo 50; sleep 100) | wob'
gnome-text-editor
tilix
l3afpad
sdl
weston --backend=wayland-backend.so --socket=nested --use-pixman
wl-copy -f x
swaylock -c 000000
"""
AT_WESTON = """
wayland-info
weston-simple-shm
weston-simple-damage
weston-flower
weston-terminal
weston-smoke
weston-eventdemo
weston-subsurfaces
weston-simple-egl
weston-presentation-shm
weston-fullscreen
weston-scaler
zenity --info --text hello
gtk3-demo
gtk4-demo
qterminal
qt6ct
featherpad
foot -e sh -c 'sleep 100'
mpv --vo=wlshm --no-config --length=1 av://lavfi:testsrc
glmark2-wayland -b build:duration=1
alacritty -e sleep 100
kate
gedit
sdl
"""
# What is run under valgrind at sway, too.
CHECKED = """
wayland-info
wlr-randr
wl-paste
wl-paste --watch cat
foot -e sh -c 'sleep 100'
slurp -d
weston-flower
zenity --info --text hello
wl-copy -f x
"""
REQUEST = re.compile(r"-> (?:\w+\.)?(\w+)[@#]\d+\.(\w+)\(")
DRAWN = re.compile(r"-> wl_surface[@#]\d+\.commit\(")
# For how long a program makes no new kind of request until it is closed, in seconds, in the first
# pair of runs and in later ones.
QUIET = (1.2, 2, 4, 8, 16, 16)
# How long a program may run that goes on making new kinds.
MOST = 60
# How long a program has to end whose window is closed, which may ask whether it should, or that is
# told to end. These are multiples of the time above, so later pairs of runs give more time.
CLOSES, ENDS = 4, 16

Ran = collections.namedtuple("Ran", "shown closed status kinds")


def sdl(room):
    """Compiles the program of ours that uses SDL into a folder, and returns its path."""
    need("pkg-config", "cc")
    found = subprocess.run(["pkg-config", "--cflags", "--libs", "sdl2"], capture_output=True, check=False)
    if found.returncode:
        raise Skipped("libsdl2-dev is not installed")
    path = f"{room}/sdl"
    run(["cc", "-O1", "-Wall", "-Wextra", "-Werror", f"{SOURCES}/sdl.c", "-o", path,
         *found.stdout.decode().split()])
    return path


def found_in(folders, name):
    """A program that a package keeps off the path."""
    return next((f"{it}/{name}" for it in folders if os.path.exists(f"{it}/{name}")), name)


def words_of(line, room):
    """The words of a program, which is installed."""
    words = [it.replace("ROOM", room) for it in shlex.split(line)]
    if words[0] == "sdl":
        return [sdl(room)]
    if words[0] == "sh":
        need(words[2].split()[-1])
    elif not is_installed(words[0]):
        words[0] = found_in(("/usr/libexec/imv", "/usr/lib/imv", "/usr/libexec"), words[0])
        need(words[0])
    return words


class Running:
    """A program at a desktop, with all messages that its library prints."""

    def __init__(self, desktop, words, library):
        self.desktop, self.library = desktop, library
        self.log = f"{desktop.room}/debug.log"
        env = {"WAYLAND_DEBUG": "1", **desktops.own_home(desktop.room)}
        with open(self.log, "wb") as file:
            self.process = desktop.start(words, library, stderr=file, env=env)
        self.has_loaded = False

    def has_ended(self):
        return self.process.poll() is not None

    def said(self):
        with open(self.log, encoding="utf-8", errors="replace") as file:
            return file.read()

    def kinds(self):
        return {f"{interface}.{name}" for interface, name in REQUEST.findall(self.said())}

    def looks_at_library(self):
        """Notes whether a process of the program has loaded the library."""
        if not self.has_loaded:
            self.has_loaded = any(map(self.library.is_loaded_by, desktops.members(self.process)))

    def settles(self, quiet):
        """Waits until it has ended, or has made requests and no new kind of them for a while."""
        kinds, since, began = set(), time.monotonic(), time.monotonic()
        while not self.has_ended():
            time.sleep(0.1)
            self.looks_at_library()
            now, more = time.monotonic(), self.kinds()
            if more != kinds:
                kinds, since = more, now
            if (kinds and now - since > quiet) or now - began > (MOST if kinds else COMES_UP):
                break

    def closes(self, quiet):
        """Ends the program as its user would, and says how it was ended."""
        if self.has_ended():
            return "by itself"
        has_windows = self.desktop.close(self.process)
        if has_windows and has_come(self.has_ended, quiet * CLOSES):
            return "by its window"
        desktops.signal_group(self.process, signal.SIGTERM)
        if has_come(self.has_ended, quiet * ENDS):
            return "by SIGTERM"
        return "by force"


def played(desktop, words, library, quiet, kind=Running):
    """Runs a program, and says how that went. Its kinds of messages are those that `kind` finds."""
    if desktop.has_clipboard and not desktop.offers_text():
        raise Skipped("wl-copy has not come up")
    running = kind(desktop, words, library)
    try:
        running.settles(quiet)
        is_shown = bool(DRAWN.search(running.said()))
        how = running.closes(quiet)
        status = running.process.poll()
    finally:
        desktops.end_group(running.process)
        if words[0] == "wtype" and desktop.is_there():
            desktop.renew_keyboard()
    if not desktop.is_there():
        raise Failed(f"{desktop.name} has ended, with status {desktop.process.returncode}")
    if not running.kinds():
        why = f"{words[0]} has made no request over {library.name}: {running.said()[-300:]!r}"
        raise Skipped(why) if library is SYSTEM else Failed(why)
    if not running.has_loaded and not library.is_linked_by(words[0]):
        raise Failed(f"{words[0]} has not loaded {library.name}")
    return Ran(is_shown, how, status, frozenset(running.kinds()))


def difference(theirs, ours):
    """What differs between two runs, in words."""
    said = [f"{name}: {getattr(ours, name)}, over the system's library {getattr(theirs, name)}"
            for name in ("shown", "closed", "status") if getattr(ours, name) != getattr(theirs, name)]
    for which, more in (("lacking", theirs.kinds - ours.kinds), ("more", ours.kinds - theirs.kinds)):
        if more:
            said.append(f"{which}: {' '.join(sorted(more))}")
    return "; ".join(said)


def always_made(runs, others):
    """The kinds of requests that each of some runs made, and none of the others."""
    return frozenset.intersection(*(it.kinds for it in runs)).difference(*(it.kinds for it in others))


def always_differ(theirs, ours):
    """Whether no two runs over the two libraries end in the same way, or a kind of request belongs to one library."""
    ends, other_ends = ({it[:3] for it in runs} for runs in (theirs, ours))
    return ends.isdisjoint(other_ends) or bool(always_made(theirs, ours) or always_made(ours, theirs))


def runs_alike(desktop, line, library):
    """Runs a program over both libraries, until one run over each agree."""
    words = words_of(line, desktop.room)
    theirs, ours = [], []
    for quiet in QUIET:
        theirs.append(played(desktop, words, SYSTEM, quiet))
        ours.append(played(desktop, words, library, quiet))
        if set(theirs) & set(ours):
            return
    if not always_differ(theirs, ours):
        return
    nearest = min((difference(their, our) for their in theirs for our in ours), key=len)
    raise Failed(f"{nearest} (in {len(QUIET)} pairs of runs)")


def has_no_error_of_memory(desktop, line, library):
    """Valgrind finds no error in which the library has a part. What a program leaves is its own."""
    words, log = words_of(line, desktop.room), f"{desktop.room}/valgrind.log"
    checked = checked_by_valgrind("--leak-check=no", "--num-callers=30", f"--log-file={log}")
    if not desktop.offers_text():
        raise Skipped("wl-copy has not come up")
    running = Running(desktop, [*checked, *words], library)
    try:
        running.settles(QUIET[1])
        running.closes(QUIET[1])
    finally:
        desktops.end_group(running.process)
    if not running.kinds():
        raise Failed(f"{words[0]} has made no request: {running.said()[-300:]!r}")
    with open(log, encoding="utf-8", errors="replace") as file:
        wrong = [it for it in re.split(r"\n==\d+== \n", file.read()) if is_of_library(it)]
    if wrong:
        raise Failed(f"{len(wrong)} errors of memory, first:\n{wrong[0]}")


def is_of_library(error):
    """Whether an error of valgrind has a call of the library in it: its name, or the name of one of its
    sources."""
    sources = "|".join(map(os.path.basename, glob.glob(f"{TOP}/c/libwayland/*/*.c")))
    return bool(re.search(rf"{re.escape(SONAME)}|\((?:{sources or 'none'}):\d+\)", error))


def checked_case(kept, line, library):
    def test():
        has_no_error_of_memory(kept(), line, library)
    test.__name__ = f"{line} under valgrind"
    return test


def checked_cases(kept, library):
    return [checked_case(kept, it, library) for it in CHECKED.strip().splitlines()]


def case(kept, where, line, library):
    """A program at a kept desktop, as a test."""
    def test():
        runs_alike(kept(), line, library)
    test.__name__ = f"{line} at {where}"
    return test


def cases(kept, where, lines, library):
    return [case(kept, where, it, library) for it in lines.strip().splitlines()]
