"""Tests of waywire-inspect between programs of a desktop and sway, which has no screen, but a keyboard and a text in
the clipboard. With the installed tables each program is judged lawful to its end. The printed messages are those that
WAYLAND_DEBUG makes the program print, in the same order in each direction.

    python3 -m tests.inspector.at_a_desktop [CLASS[.TEST]]..

The environment is that of inspecting.py. A program that is not installed is skipped, and so
is one that makes no connection."""
import contextlib
import functools
import os
import re
import signal
import subprocess
import unittest

from tests.checks import COMES_UP, has_come, need
from tests.inspector import at_sway
from tests.inspector.inspecting import LONG, WAYWIRE, WHO, main

# How long a program that has drawn, and does not end by itself, runs on, in seconds. That it is
# lawful holds of whatever it does in that time.
A_WHILE = 4
DRAWN = r"-> wl_surface@\d+\.commit\("
# It has a window and has asked for the clipboard, and it is offered the text.
ASKS = r"(?s)\.get_data_device\(.*\.get_toplevel\("
OFFERS = r"\.set_(primary_)?selection\("
OFFERED = r"<- wl_data_device@\d+\.selection\(wl_data_offer@"
VERDICT = re.compile(rf"^(?:#\d+ )?((?:lawful|broken: |not judged from request|unjudged).*?)(?: \({WHO}\))?$", re.M)
# Those that have queues of their own, by which they act on events.
HAVE_QUEUES = {"gtk4-demo", "gtk4-widget-factory", "gtk4-icon-browser", "featherpad",
               "weston-subsurfaces"}
# The programs, by what draws them.
PROGRAMS = {
    "gtk3": (["zenity", "--info", "--text=grüße"], ["gtk3-demo"], ["gtk3-widget-factory"],
             ["gtk3-icon-browser"]),
    "gtk4": (["gtk4-demo"], ["gtk4-widget-factory"], ["gtk4-icon-browser"]),
    "qt": (["featherpad", "--standalone"],),
    "foot": (["foot"],),
    "swaybg": (["swaybg", "--color", "#336699"],),
    "wlr-randr": (["wlr-randr"],),
    "waybar": (["waybar"],),
    "mpv": (["mpv", "--vo=wlshm", "--no-config", "--idle", "--force-window=yes"],),
    "weston": (["weston-simple-shm"], ["weston-simple-damage"], ["weston-flower"], ["weston-smoke"],
               ["weston-clickdot"], ["weston-eventdemo"], ["weston-resizor"], ["weston-subsurfaces"],
               ["weston-transformed"], ["weston-stacking"], ["weston-cliptest"], ["weston-dnd"],
               ["weston-editor"], ["weston-terminal"], ["weston-presentation-shm"], ["weston-scaler"],
               ["weston-fullscreen"], ["weston-info"]),
}


def has_settled(said):
    """Whether a program has drawn, and one that gets the keyboard has got the clipboard, too."""
    return re.search(DRAWN, said) and (not re.search(ASKS, said) or re.search(OFFERED, said))


class Desktop(at_sway.Sway):
    """Programs as they are, each for a while."""

    # The base class's own tests run in inspecting_at_sway.py.
    test_gtk = test_wl_copy = test_wl_paste = None

    def setUp(self):
        super().setUp()
        need("wtype")
        self.copy("a text")
        if not has_come(lambda: self.pasted() == b"a text"):
            self.skipTest("wl-copy has not come up")
        # A keyboard, for as long as the test runs: so many milliseconds at most.
        other = subprocess.Popen(["wtype", "-s", "4000000", "x"], env=self.quiet())
        self.addCleanup(self.end_all, [other])
        self.env.update(GDK_BACKEND="wayland", QT_QPA_PLATFORM="wayland", NO_AT_BRIDGE="1",
                        GSK_RENDERER="cairo", WAYLAND_DEBUG="1", HOME=self.folder,
                        XDG_CACHE_HOME=self.folder, XDG_CONFIG_HOME=self.folder)

    def pasted(self):
        """The text in the clipboard."""
        words = ["wl-paste", "--no-newline"]
        how = {"env": self.quiet(), "capture_output": True, "timeout": LONG, "check": False}
        return subprocess.run(words, **how).stdout

    def played(self, *command, until):
        """Runs a program until this is so of what the tool has said of it, and then for a while.
        Returns that, and what the program has said."""
        paths = said, error = f"{self.folder}/said", f"{self.folder}/error"
        for path in paths:
            # A file of its own: a client of the program before may still write to that one's.
            with contextlib.suppress(FileNotFoundError):
                os.unlink(path)
            open(path, "wb").close()
        options = ["--output", said, "--record", self.recorded]
        with open(error, "wb") as file:
            kept = {"stdin": subprocess.DEVNULL, "stdout": subprocess.DEVNULL, "stderr": file}
            self.start(*options, *command, **kept)
        self.comes_up(paths, " ".join(command))
        has_come(lambda: until(self.read(said)) or self.tool.poll() is not None)
        # Not all that is lawful draws: what has not after so long is judged as it is.
        has_drawn = self.tool.poll() is None and re.search(DRAWN, self.read(said))
        if has_drawn and not until(self.read(said)):
            self.end(self.tool)
            self.skipTest(f"{command[0]} has not been offered the text within {COMES_UP} s")
        try:
            self.tool.wait(A_WHILE)
        except subprocess.TimeoutExpired:
            self.tool.send_signal(signal.SIGINT)
            self.tool.wait(LONG)
        return [self.read(it) for it in paths]

    def verdicts_of(self, *command, until=has_settled):
        """The verdict for each client that a program starts, and the last lines before it. The program
        `waywire` gives the same verdicts for the recordings, and a lawful session has the messages that the
        client prints itself."""
        said, error = self.played(*command, until=until)
        verdicts = VERDICT.findall(said)
        self.check_recorded(verdicts)
        if len(verdicts) > 1:
            # What a program tells does not say by which connection a message went.
            print(f"\nskipped: messages of {command[0]}: it has {len(verdicts)} connections")
        elif verdicts and verdicts[0].startswith("lawful"):
            compared = self.same_messages(error, said, command[0] in HAVE_QUEUES)
            self.assertGreater(compared, 0, command[0])
        return verdicts, "\n".join(said.splitlines()[-6:]) + error[-400:]

    def check_recorded(self, verdicts):
        checked = []
        for number in range(1, len(verdicts) + 1 if WAYWIRE else 1):
            path = f"{self.recorded}.{number}" if number > 1 else self.recorded
            words = [WAYWIRE, "check", "--tables", f"{self.recorded}.tables", path]
            checked.append(subprocess.run(words, capture_output=True, text=True, check=False).stdout.strip())
        if WAYWIRE:
            self.assertEqual(sorted(checked), sorted(verdicts))

    def programs(self, kind):
        """Runs all programs of a kind that are installed and start. Prints which are skipped; if all are, the
        test is skipped."""
        skipped = []
        for command in PROGRAMS[kind]:
            with self.subTest(command[0]):
                try:
                    need(command[0])
                    verdicts, last = self.verdicts_of(*command)
                except unittest.SkipTest as why:
                    skipped.append(str(why))
                    continue
                self.assertTrue(verdicts, last)
                for verdict in verdicts:
                    self.assertTrue(verdict.startswith("lawful: "), last)
        if len(skipped) == len(PROGRAMS[kind]):
            self.skipTest("; ".join(skipped))
        for why in skipped:
            print(f"\nskipped: {kind}: {why}")

    test_gtk3, test_gtk4, test_qt, test_foot, test_swaybg, test_wlr_randr, test_waybar, test_mpv, test_weston = map(
        functools.partial(functools.partialmethod, programs), PROGRAMS)

    def test_primary_selection(self):
        """A text is copied and pasted by the tool itself, also as primary selection."""
        for words in ([], ["--primary"]):
            copying, _ = self.verdicts_of("wl-copy", *words, "one", until=re.compile(OFFERS).search)
            pasting, last = self.verdicts_of("wl-paste", *words, "--no-newline")
            self.assertEqual([it.split(":")[0] for it in (*copying, *pasting)], ["lawful"] * 2, last)

    def test_wf_recorder(self):
        """sway sends wl_output.done to an output of version 1, which has no such event."""
        need("wf-recorder")
        command = ["wf-recorder", "-f", f"{self.folder}/film.mkv"]
        verdicts, last = self.verdicts_of(*command, until=re.compile("^broken: ", re.M).search)
        self.assertTrue(verdicts and verdicts[0].startswith("broken: < message "), last)
        self.assertTrue(verdicts[0].endswith("F3 unknown message"), last)


if __name__ == "__main__":
    main()
