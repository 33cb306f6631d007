"""Tests of --fault with programs of the distribution at sway without a screen. Programs differ: what is asserted is
what the fault makes certain. The lines of the session, its recording and its verdict say what was done, the tool ends,
and no process stays.

    python3 -m tests.inspector.faults_at_programs [CLASS[.TEST]]..

The environment is that of inspecting.py. A program that is not installed is skipped, and so is one that makes no
connection."""
import collections
import functools
import glob
import re
import signal
import subprocess
import unittest

from tests.checks import has_come, need
from tests.inspector import at_sway
from tests.inspector.inspecting import LONG, WAYWIRE, WHO, main

VERDICT = re.compile(rf"^(?:#\d+ )?((?:lawful|broken)\b.*?)(?: \({WHO}\))?$", re.M)
COMMITS = r"-> wl_surface@\d+\.commit"
# A program and a fault; what is waited for beside the fault, what never passes, and whether the program ends by itself.
Row = collections.namedtuple("Row", "command fault says never ends is_lawful", defaults=(None, None, False, True))
ROWS = {
    "weston": (
        Row("weston-simple-shm", "hold 300ms wl_display.delete_id"),
        Row("weston-flower", "duplicate wl_surface.commit"),
        Row("weston-eventdemo", "delay 300ms xdg_surface.configure", COMMITS),
        # The compositor does not know the new object, and refuses the next one, if there is one.
        Row("weston-smoke", "drop wl_surface.frame 1", is_lawful=False),
        Row("weston-presentation-shm", "drop wp_presentation_feedback.presented,wp_presentation_feedback.discarded",
            r"wp_presentation@\d+\.feedback .* has had no answer",
            r"<- wp_presentation_feedback@\d+\.(?:presented|discarded)"),
    ),
    "toolkits": (
        Row("zenity --info --text=waywire", "kill wl_surface.commit 1", never=COMMITS, ends=True),
        Row("gtk4-demo", "delay 100ms wl_callback.done 1-20", COMMITS),
        Row("featherpad --standalone", "duplicate event wl_callback.done 1"),
        Row("kitty sleep 100", "kill xdg_surface.ack_configure 1", never=r"-> xdg_surface@\d+\.ack_configure"),
        Row("foot", "drop xdg_surface.configure", "has had no configure", r"<- xdg_surface@\d+\.configure"),
    ),
    "wlroots": (
        Row("swaybg --color #336699", "drop zwlr_layer_surface_v1.configure", "has had no configure",
            r"<- zwlr_layer_surface_v1@\d+\.configure"),
        Row("grim FOLDER/shot.png", "drop zwlr_screencopy_frame_v1.buffer", "has had no buffer",
            r"<- zwlr_screencopy_frame_v1@\d+\.buffer\("),
        Row("wlr-randr", "delay 300ms zwlr_output_manager_v1.done", ends=True),
        # The descriptor of a message that is dropped is closed: whoever reads from the pipe is at its end.
        Row("wl-paste --no-newline", "drop zwlr_data_control_offer_v1.receive", never="^a text", ends=True),
        Row("wl-copy --foreground another", "drop zwlr_data_control_source_v1.send",
            never=r"<- zwlr_data_control_source_v1@\d+\.send"),
    ),
}


class Programs(at_sway.Sway):
    """A fault with each."""

    # The base class's own tests run in at_sway.py.
    test_gtk = test_wl_copy = test_wl_paste = None

    def setUp(self):
        super().setUp()
        self.copy("a text")
        # By the last of these, processes that the tool has started are found.
        self.env.update(GDK_BACKEND="wayland", QT_QPA_PLATFORM="wayland", NO_AT_BRIDGE="1", GSK_RENDERER="cairo",
                        HOME=self.folder, XDG_CACHE_HOME=self.folder, XDG_CONFIG_HOME=self.folder,
                        WAYWIRE_SESSION=self.folder)

    def quiet(self):
        """The environment of clients that are not inspected."""
        return {name: value for name, value in self.env.items() if name != "WAYWIRE_SESSION"}

    def staying(self):
        """The command lines of processes of the session that there still are."""
        mark, found = f"WAYWIRE_SESSION={self.folder}".encode(), []
        for path in glob.glob("/proc/[0-9]*/environ"):
            try:
                with open(path, "rb") as file:
                    environment = file.read().split(b"\0")
                if mark in environment:
                    with open(path.replace("environ", "cmdline"), "rb") as file:
                        found.append(file.read().replace(b"\0", b" ").decode(errors="replace"))
            except OSError:
                pass  # it has ended, or is another user's
        return found

    def pasted(self):
        """What another program gets of the clipboard."""
        return subprocess.run(["wl-paste", "--no-newline"], env=self.quiet(), capture_output=True, timeout=LONG,
                              check=False).stdout

    def runs(self, row):
        """Runs a program until its fault was done and what is waited for was said. Returns the tool's lines, and what it
        said on standard error."""
        words = [it.replace("FOLDER", self.folder) for it in row.command.split()]
        need(words[0])
        if words[0] == "wl-paste" and not has_come(lambda: self.pasted() == b"a text"):
            self.skipTest("wl-copy has not come up")

        def is_so_far(said):
            if words[0] == "wl-copy" and ".set_selection(" in said and "fault 1, " not in said:
                self.assertEqual(self.pasted(), b"")
            return "fault 1, " in said and (not row.says or re.search(row.says, said))
        paths = self.start_at_files("--late", "0.5", "--record", self.recorded, "--fault", row.fault, *words,
                                    until=is_so_far)
        if row.ends:
            self.tool.wait(LONG)
        self.finish(None if row.ends else signal.SIGINT, None)
        return [self.read(it) for it in paths]

    def holds(self, row):
        """What a fault makes certain."""
        said, error = self.runs(row)
        self.assertTrue(has_come(lambda: not self.staying(), LONG), self.staying())
        *done, counted = re.findall(r"^(?:#\d+ )?fault 1, (.*)", said, re.M)
        plural = "s" * (len(done) != 1)
        self.assertEqual(counted, f"{row.fault}: done {len(done)} time{plural}", said[-500:])
        verdict = VERDICT.findall(said)[-1]
        how = "after" if verdict.startswith("broken") else "with"
        self.assertTrue(verdict.endswith(f"; {how} {len(done)} fault{plural} on purpose"), verdict)
        self.assertTrue(not row.is_lawful or verdict.startswith("lawful: "), verdict)
        if row.never:
            passed = [it for it in said.splitlines() if "fault 1, " not in it]
            self.assertNotRegex("\n".join(passed), f"(?m){row.never}")
        if row.fault.startswith("kill"):
            self.assertIn("client 1 is closed: --fault kill", error)
        self.is_recorded([*done, counted], verdict)

    def is_recorded(self, done, verdict):
        """What is read of the recording says the same faults, and the program gives the same verdict."""
        again, _ = self.ran("--read", self.recorded, status=None)
        self.assertEqual(re.findall("^fault 1, (.*)", again, re.M), done)
        self.assertEqual(VERDICT.findall(again), [verdict])
        if WAYWIRE:
            ran = subprocess.run([WAYWIRE, "check", "--tables", f"{self.recorded}.tables", self.recorded], check=False,
                                 capture_output=True, text=True, timeout=LONG)
            self.assertEqual(ran.stdout.strip(), re.sub("; (?:with|after) \\d+ faults? on purpose$", "", verdict))

    def programs(self, kind):
        """Prints which programs are skipped; if all are, the test is."""
        skipped = []
        for row in ROWS[kind]:
            with self.subTest(row.command):
                try:
                    self.holds(row)
                except unittest.SkipTest as why:
                    skipped.append(f"{row.command}: {why}")
        if len(skipped) == len(ROWS[kind]):
            self.skipTest("; ".join(skipped))
        for why in skipped:
            print(f"\nskipped: {why}")

    test_weston, test_toolkits, test_wlroots = map(functools.partial(functools.partialmethod, programs), ROWS)


if __name__ == "__main__":
    main()
