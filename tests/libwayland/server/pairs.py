"""Runs each program at two compositors of a kind at once, one over the system's libwayland-server and one over that
under test. At both it must be shown, be closed and end in the same way, and the same kinds of messages must pass: those
that its library prints with WAYLAND_DEBUG, requests and events.

As in programs.py, runs that differ are repeated with more time, and fail only for what no busy machine explains."""

import os
import re
import subprocess
from concurrent.futures import ThreadPoolExecutor
from typing import NamedTuple

from tests.checks import TOP, Failed, Skipped, end, ends_of, has_come, need
from tests.libwayland import desktops, kwin_and_mutter, pasting, programs
from tests.libwayland.libraries import SYSTEM, SYSTEM_SERVER, Library

INSPECT = f"{TOP}/out/c/waywire-inspect"
AT_SWAY = """
wayland-info
weston-flower
weston-terminal
foot -e sh -c 'ls /; sleep 100'
zenity --info --text hello
gtk4-demo
qterminal
mpv --vo=wlshm --no-config --length=1 av://lavfi:testsrc
swaybg -c '#336699'
wl-paste
grim ROOM/shot.png
wtype hello
"""
AT_WESTON = """
wayland-info
weston-simple-shm
weston-flower
weston-terminal
weston-subsurfaces
weston-presentation-shm
zenity --info --text hello
gtk3-demo
qterminal
mpv --vo=wlshm --no-config --length=1 av://lavfi:testsrc
"""
AT_KWIN = """
wayland-info
weston-simple-shm
weston-terminal
zenity --info --text hello
gtk4-demo
qterminal
mpv --vo=wlshm --no-config --length=1 av://lavfi:testsrc
alacritty -e sleep 100
swaybg -c '#336699'
wl-paste
"""
AT_MUTTER = """
wayland-info
weston-simple-shm
weston-terminal
foot -e sh -c 'sleep 100'
zenity --info --text hello
gtk4-demo
qterminal
mpv --vo=wlshm --no-config --length=1 av://lavfi:testsrc
alacritty -e sleep 100
featherpad
"""
AT_PHOC = """
wayland-info
weston-flower
weston-terminal
foot -e sh -c 'ls /; sleep 100'
zenity --info --text hello
gtk4-demo
qterminal
mpv --vo=wlshm --no-config --length=1 av://lavfi:testsrc
alacritty -e sleep 100
wl-paste
"""
# Programs over both libraries of ours, and such whose messages are judged, at each compositor.
OF_BOTH = ("wayland-info", "gtk4-demo", "qterminal")
JUDGED = ("weston-terminal", "zenity --info --text hello", "gtk4-demo", "qterminal")
MESSAGE = re.compile(r"(?m)^\[ *\d+\.\d+\] (?:discarded )?( -> )?(?:\w+\.)?(\w+)[@#]\d+\.(\w+)\(")
# A client has set the selection; by wl_data_device, and the compositor has read that.
SET = re.compile(r"-> \w+[@#]\d+\.set_selection\(")
SET_WITH_FOCUS = re.compile(r"(?s)-> wl_data_device[@#]\d+\.set_selection\(.*\.sync\(new id wl_callback[@#](\d+)\)"
                            r".*\.delete_id\(\1\)")
# Where a program needs a window with the focus to copy and paste: how a compositor with a keyboard begins.
WITH_FOCUS = {"weston": desktops.weston_in_sway, "mutter": kwin_and_mutter.mutter_with_keyboard}
# A line with which our library refuses an event.
REFUSED = re.compile(r"(?m)^.*\bis not sent: .*$")
# A line with the verdict on a client, with its number if there are several.
LAWFUL = r"^(?:#(\d+) )?lawful: "
CHANGED = ("--custom-mode", "800x600", "--scale", "2")
BACK = ("--custom-mode", "1280x720", "--scale", "1")
OUTPUT = "HEADLESS-1"


class Place(NamedTuple):
    """A kind of compositor: how it begins over a libwayland-server, and its programs, with --whole others too."""

    name: str
    begin: object
    lines: str
    more: str = ""


PLACES = (Place("sway", desktops.sway, AT_SWAY, programs.AT_SWAY),
          Place("weston", desktops.weston, AT_WESTON, programs.AT_WESTON),
          Place("phoc", desktops.phoc, AT_PHOC),
          Place("kwin", kwin_and_mutter.kwin, AT_KWIN, kwin_and_mutter.AT_KWIN),
          Place("mutter", kwin_and_mutter.mutter, AT_MUTTER, kwin_and_mutter.AT_MUTTER))


class WithEvents(programs.Running):
    """A program, with the kinds of its requests and of its events."""

    def kinds(self):
        return {f"{'-> ' if sent else ''}{interface}.{name}" for sent, interface, name in MESSAGE.findall(self.said())}


class Pair:
    """Two compositors of a kind, begun when a test first asks for them: one over the system's library, and one over
    that under test."""

    def __init__(self, place, server):
        self.place, self.server = place, server
        self.kept = [desktops.Kept(lambda it=it: place.begin(server=it)) for it in (SYSTEM_SERVER, server)]

    def __call__(self):
        """Both desktops. The second must have loaded the library under test."""
        theirs, ours = (it() for it in self.kept)
        if not self.server.is_loaded_by(ours.process.pid):
            raise Failed(f"{self.place.name} has not loaded {self.server.name}")
        return theirs, ours

    def end(self):
        for it in self.kept:
            it.end()


def played(desktop, line, library, quiet):
    return programs.played(desktop, programs.words_of(line, desktop.room), library, quiet, WithEvents)


def runs_alike(pair, line, library):
    """Runs a program at both compositors at once, over the system's library at theirs and this one at ours, until one
    run at each agree."""
    theirs, ours = [], []
    for quiet in programs.QUIET:
        desks = pair()
        with ThreadPoolExecutor(2) as pool:
            both = [pool.submit(played, desk, line, over, quiet) for desk, over in zip(desks, (SYSTEM, library))]
        theirs.append(both[0].result())
        ours.append(both[1].result())
        if set(theirs) & set(ours):
            return
    if not programs.always_differ(theirs, ours):
        return
    nearest = min((programs.difference(their, our) for their in theirs for our in ours), key=len)
    raise Failed(f"{nearest} (in {len(programs.QUIET)} pairs of runs)")


def judged(pair, line):
    """What passes between a program and the compositor is lawful."""
    desktop = pair()[1]
    if not os.path.exists(INSPECT):
        raise Failed("out/c/waywire-inspect is not built")
    path = f"{desktop.room}/judged"
    words = [INSPECT, "--output", path, *programs.words_of(line, desktop.room)]
    running = WithEvents(desktop, words, SYSTEM)
    try:
        has_come(lambda: running.has_ended() or programs.DRAWN.search(running.said()))
        running.settles(programs.QUIET[0])
        running.closes(programs.QUIET[2])
    finally:
        desktops.end_group(running.process)
    is_lawful(path)


def is_lawful(path):
    """By what waywire-inspect has written to a file, a client has drawn, and each is lawful."""
    with open(path, encoding="utf-8", errors="replace") as file:
        said = file.read()
    clients, lawful = ({it or "1" for it in re.findall(form, said, re.M)} for form in (r"^#(\d+) is ", LAWFUL))
    if not {"1", *clients} <= lawful or "broken" in said or not programs.DRAWN.search(said):
        raise Failed(f"it is not lawful:\n{ends_of(said[-1500:])}")


class JudgedFirefox(pasting.Firefox):
    """Firefox, and in a file what passes between it and the compositor."""

    def words(self):
        return [INSPECT, "--output", f"{self.said}.judged", *super().words()]


def firefox_shows_a_page(pair, client):
    if not os.path.exists(INSPECT):
        raise Failed("out/c/waywire-inspect is not built")
    firefox = JudgedFirefox(pair()[1], client, "firefox")
    try:
        pasting.shows_a_page_and_quits(firefox)
    finally:
        firefox.end()
    is_lawful(f"{firefox.said}.judged")


def pastes_at(desktop, clients, is_copied):
    """A text, and one that is larger than a pipe, are copied and pasted, and copied again, by clients over a library.
    What wl-copy writes of its messages says when it has copied."""
    need("wl-copy", "wl-paste")
    path = f"{desktop.room}/copied"

    def said():
        with open(path, encoding="utf-8", errors="replace") as file:
            return file.read()
    for text in (b"one text", b"long " * 40000, b"another text"):
        with open(path, "wb") as file:
            copying = desktop.start(["wl-copy", "--foreground"], clients, stdin=subprocess.PIPE, stderr=file,
                                    env={"WAYLAND_DEBUG": "1"})
        try:
            copying.stdin.write(text)
            copying.stdin.close()
            if not has_come(lambda: is_copied(said())):
                raise Failed(f"a text of {len(text)} bytes is not copied: {ends_of(said())}")
            if not has_come(lambda: desktop.output_of(["wl-paste", "--no-newline"], clients) == text):
                raise Failed(f"a text of {len(text)} bytes is not pasted: {ends_of(said())}")
        finally:
            desktops.end_group(copying)


def pastes_a_text(pair):
    for desktop in pair():
        pastes_at(desktop, SYSTEM, SET.search)


def pastes_with_focus(begin, server, client):
    """At a compositor without a protocol for programs that have no window, wl-copy and wl-paste open one, and copy and
    paste by wl_data_device once it has the focus. So wl-paste is started once the text is copied: its window would take
    the focus. If the test fails over the system's libraries, it says nothing."""
    for its, clients in ((SYSTEM_SERVER, (SYSTEM,)), (server, (SYSTEM, client))):
        with begin(server=its) as desktop:
            if not its.is_loaded_by(desktop.process.pid):
                raise Failed(f"{desktop.name} has not loaded {its.name}")
            try:
                for over in clients:
                    pastes_at(desktop, over, SET_WITH_FOCUS.search)
            except Failed as why:
                if its is SYSTEM_SERVER:
                    raise Skipped(f"over the system's libraries, too: {why}") from why
                raise


def output_of_desktop(desktop):
    """What wlr-randr and a client of wl_output say of the output."""
    of_client = desktop.output_of(["wayland-info", "-i", "wl_output"]).decode()
    facts = re.findall(r"(?:width|height|scale|refresh): [\d.]+", of_client)
    return desktop.output_of(["wlr-randr"]).decode(), facts


def changes_an_output(pair):
    """wlr-randr sets a mode and a scale. Clients are told the same of the output at both."""
    need("wlr-randr", "wayland-info")
    said = []
    for desktop in pair():
        try:
            desktop.output_of(["wlr-randr", "--output", OUTPUT, "--on", *CHANGED])
            said.append(output_of_desktop(desktop))
        finally:
            desktop.output_of(["wlr-randr", "--output", OUTPUT, "--on", *BACK])
    if not {"width: 800", "height: 600", "scale: 2"} <= set(said[0][1]):
        raise Skipped(f"wlr-randr changes nothing over the system's library: {said[0]}")
    if said[0] != said[1]:
        raise Failed(f"{said[1]}, and over the system's library {said[0]}")


def x_display(desktop):
    """What xdpyinfo says of the Xwayland of a sway."""
    path = f"{desktop.room}/xdpyinfo"
    desktop.message("exec", f"xdpyinfo > {path}.part 2>&1 && mv {path}.part {path}")
    if not has_come(lambda: os.path.exists(path)):
        return None
    with open(path, encoding="utf-8", errors="replace") as file:
        said = file.read()
    return [it for it in said.splitlines() if re.match("(version|vendor|maximum|dimensions|number of)", it.strip())]


def starts_xwayland(server):
    """The Xwayland that sway starts is a client of it, and says the same of its screen."""
    need("Xwayland", "xdpyinfo")
    said = []
    for library in (SYSTEM_SERVER, server):
        with desktops.sway(server=library, has_xwayland=True) as desktop:
            said.append(x_display(desktop))
            if library is SYSTEM_SERVER and not said[0]:
                raise Skipped("Xwayland does not come up over the system's library")
    if said[0] != said[1]:
        raise Failed(f"xdpyinfo says {said[1]}, and over the system's library {said[0]}")


def refuses_no_event(pair):
    """In all these runs the library has refused no event of the compositor's, and the compositor goes on."""
    desktop = pair()[1]
    with open(f"{desktop.room}/{desktop.name}.log", encoding="utf-8", errors="replace") as file:
        refused = REFUSED.findall(file.read())
    if refused:
        raise Failed(f"{len(refused)} events, such as {refused[0]}")


def ends_as_it_should(pair):
    """Both compositors end at SIGTERM, with the same status."""
    statuses = []
    for desktop in pair():
        end(desktop.process)
        statuses.append(desktop.process.returncode)
    if statuses[0] != statuses[1]:
        raise Failed(f"status {statuses[1]}, over the system's library {statuses[0]}")


def named(name, test, *given):
    def case():
        test(*given)
    case.__name__ = name
    return case


def lines_of(place, is_whole):
    lines = (place.lines + (place.more if is_whole else "")).splitlines()
    return list(dict.fromkeys(filter(None, lines)))


def cases_at(pair, client, is_whole):
    """The tests at a kind of compositor."""
    place = pair.place
    where = f"at {place.name} over our server"
    found = [named(f"{it} {where}", runs_alike, pair, it, SYSTEM) for it in lines_of(place, is_whole)]
    found += [named(f"{it} {where}, over both of ours", runs_alike, pair, it, client)
              for it in (lines_of(place, True) if is_whole else OF_BOTH)]
    found += [named(f"{it} {where} is lawful", judged, pair, it) for it in JUDGED]
    copies = f"a text is copied and pasted {where}"
    if place.name in WITH_FOCUS:
        found.append(named(copies, pastes_with_focus, WITH_FOCUS[place.name], pair.server, client))
    else:
        found.append(named(copies, pastes_a_text, pair))
    if place.name in ("sway", "phoc"):
        found.append(named(f"wlr-randr changes a mode and a scale {where}", changes_an_output, pair))
    if place.name == "sway":
        found.append(named(f"Xwayland {where}", starts_xwayland, pair.server))
    if place.name == "sway" and is_whole:
        found.append(named(f"firefox shows a page and is lawful {where}, over both of ours", firefox_shows_a_page,
                           pair, client))
    found.append(named(f"no event is refused {where}", refuses_no_event, pair))
    found.append(named(f"{place.name} ends over our server", ends_as_it_should, pair))
    return desktops.at(place.name, found)


class Pairs:
    """All compositors in pairs."""

    def __init__(self, server, folder_of_client):
        self.client = Library(folder_of_client)
        self.pairs = {it.name: Pair(it, server) for it in PLACES}

    def cases(self, is_whole, *names):
        return [it for name in names for it in cases_at(self.pairs[name], self.client, is_whole)]

    def end(self):
        for it in self.pairs.values():
            it.end()
