"""Tests of waywire-inspect --read-debug: the logs of programs and of compositors, beside what waywire-inspect prints
of the same sessions.

    python3 -m tests.inspector.debug_logs_of_programs [CLASS[.TEST]]..

The environment is that of inspecting.py. A program that is not installed is skipped, and so is one that makes no
connection."""
import collections
import contextlib
import os
import re
import signal
import subprocess
import tempfile
import unittest

from tests import compositors
from tests.checks import has_come, need
from tests.inspector import at_a_desktop, at_weston
from tests.inspector.debug_logs import CONTENTS
from tests.inspector.inspecting import INSPECT, LONG, main
from tests.inspector.real_clients import RealClients
from tests.libwayland import kwin_and_mutter

# The number of a descriptor counts those of events that nobody listens to, too.
NUMBERED = re.compile(r"\bfd \d+")
OF_MESSAGES = re.compile(r"(->|<-) (?:\w+)@(\d+)\.")
SHOWN = "lawful as far as the log shows: "
# So many lines are enough to compare, and so few are none.
ENOUGH, LEAST = 60, 20
# The programs that are compared at each compositor.
PROGRAMS = [["weston-simple-shm"], ["weston-terminal"], ["weston-flower"], ["zenity", "--info", "--text=hello"],
            ["gtk4-demo"], ["featherpad", "--standalone"], ["foot"]]


class OfPrograms(RealClients):
    """What is compared. A subclass starts a compositor."""

    def lines_of(self, said):
        """The messages of each direction, without what a log does not show."""
        parted = {"->": [], "<-": []}
        for line in said.splitlines():
            if found := OF_MESSAGES.match(line):
                parted[found[1]].append(NUMBERED.sub("fd", CONTENTS.sub(r"\1", line)))
        return parted["->"], parted["<-"]

    def agree(self, log, said, is_servers):
        """A log has the messages that the tool has printed, in their order. A client prints requests that it does not
        send any more, and no events that nobody listens to; it prints those of one queue before those of another.
        Returns the verdict, and how many messages the log has."""
        read, _ = self.ran("--read-debug", log, status=None)
        (requests, events), (sent, came) = self.lines_of(read), self.lines_of(said)
        if is_servers:
            for its in ((requests, sent), (events, came)):
                # What passed at the end may be on one side alone.
                shared = min(map(len, its))
                self.assertEqual(its[0][:shared], its[1][:shared])
        else:
            self.assertEqual(requests[:len(sent)], sent)
            self.assertFalse(collections.Counter(events) - collections.Counter(came))
            for one in {OF_MESSAGES.match(it)[2] for it in events} - {"1"}:
                its = [[it for it in those if OF_MESSAGES.match(it)[2] == one] for those in (events, came)]
                rest = iter(its[1])
                self.assertTrue(all(it in rest for it in its[0]), its)
        return read.splitlines()[-1], len(requests) + len(events)

    def play(self, command, log):
        """Runs a program until it has said enough or has ended, and returns what the tool has said."""
        need(command[0])
        said = f"{self.folder}/said"
        open(said, "wb").close()
        with open(log, "wb") as file:
            kept = {"stdin": subprocess.DEVNULL, "stdout": subprocess.DEVNULL, "stderr": file}
            self.start("--output", said, *command, **kept)
            has_come(lambda: len(self.read(said).splitlines()) > ENOUGH or self.tool.poll() is not None)
            with contextlib.suppress(subprocess.TimeoutExpired):
                self.tool.wait(1)
            self.tool.send_signal(signal.SIGINT)
            self.tool.wait(LONG)
        said = self.read(said)
        if len(said.splitlines()) < LEAST:
            self.skipTest(f"{command[0]} has not come up")
        if "#2 " in said:
            self.skipTest(f"{command[0]} has several connections")
        return said

    def agrees(self, command):
        """What is read of a program's log agrees with what the tool has said meanwhile."""
        self.env["WAYLAND_DEBUG"] = "1"
        log = f"{self.folder}/log"
        said = self.play(command, log)
        verdict, count = self.agree(log, said, False)
        print(f"{command[0]}: {count} messages; {verdict}")
        self.assertGreater(count, LEAST / 2, command[0])
        self.assertTrue(verdict.startswith(SHOWN), verdict)

    def all_agree(self, programs):
        skipped = []
        for command in programs:
            with self.subTest(command[0]):
                try:
                    self.agrees(command)
                except unittest.SkipTest as why:
                    skipped.append(str(why))
        if len(skipped) == len(programs):
            self.skipTest("; ".join(skipped))
        for why in skipped:
            print(f"\nskipped: {why}")

    def server_agrees(self, log, command):
        """What is read of the log of a compositor that has had one client agrees with what the tool has said of the
        client."""
        said = self.play(command, f"{self.folder}/error")
        has_come(lambda: "done" in self.read(log))
        verdict, count = self.agree(log, said, True)
        print(f"{command[0]}, by the compositor: {count} messages; {verdict}")
        self.assertGreater(count, LEAST / 2)
        self.assertTrue(verdict.startswith(SHOWN), verdict)


def without_tests(kind):
    """A class whose own tests run elsewhere."""
    tests = {it: None for it in dir(kind) if it.startswith("test_")}
    return type(kind.__name__, (kind,), tests)


class AtSway(OfPrograms, without_tests(at_a_desktop.Desktop)):
    """Programs at sway, with a keyboard and a text in the clipboard."""

    def test_programs(self):
        self.all_agree([*PROGRAMS, ["gtk3-widget-factory"], ["waybar"], ["weston-subsurfaces"], ["wl-paste"]])


class TheLogOfSway(OfPrograms):
    """The log of sway itself, which has one client."""

    def test_a_client(self):
        need("sway")
        room = self.enterContext(tempfile.TemporaryDirectory(prefix="sway-"))
        words, display, kept = compositors.sway(room, self.env)
        # Without a background sway starts no client of its own.
        with open(f"{room}/config", "w", encoding="ascii") as file:
            file.write("xwayland disable\n")
        kept["env"]["WAYLAND_DEBUG"] = "server"
        self.start_compositor(words, display, kept)
        self.env["WAYLAND_DISPLAY"] = display
        self.server_agrees(f"{self.folder}/sway.log", ["weston-simple-shm"])


class AtWeston(OfPrograms, without_tests(at_weston.Weston)):
    """Programs at weston."""

    def test_programs(self):
        self.all_agree(PROGRAMS)


    def test_our_library(self):
        """A program over waywire's libwayland-client, which uses ids again at other times."""
        command = f"{os.path.dirname(INSPECT[-1])}/waywire-run"
        if not os.path.exists(command):
            self.skipTest(f"{command} is not built")
        self.all_agree([[command, "weston-simple-shm"], [command, "zenity", "--info", "--text=hello"]])


class AtKWinAndMutter(OfPrograms):
    """Programs at KWin, and at mutter, whose log is read too."""

    def at(self, made):
        need("dbus-daemon")
        desktop = self.enterContext(made)
        self.env = {**desktop.env, "XDG_RUNTIME_DIR": self.env["XDG_RUNTIME_DIR"], "WAYLAND_DISPLAY": desktop.display}
        return desktop

    def test_kwin(self):
        self.at(kwin_and_mutter.kwin())
        self.all_agree(PROGRAMS)

    def test_mutter(self):
        self.at(kwin_and_mutter.mutter())
        self.all_agree(PROGRAMS)

    def test_the_log_of_mutter(self):
        desktop = self.at(kwin_and_mutter.mutter(WAYLAND_DEBUG="server"))
        self.server_agrees(f"{desktop.room}/mutter.log", ["weston-simple-shm"])


if __name__ == "__main__":
    main()
