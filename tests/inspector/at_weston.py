"""Tests of waywire-inspect between real clients and weston without a screen.

    python3 -m tests.inspector.at_weston [CLASS[.TEST]]..

The environment is that of inspecting.py."""
import re
import signal
import time

from tests import compositors
from tests.checks import need
from tests.inspector import real_clients
from tests.inspector.inspecting import GONE, LONG, main


class Weston(real_clients.RealClients):
    """Real clients at weston without a screen."""

    def setUp(self):
        super().setUp()
        need("weston", "weston-simple-shm")
        self.env["WAYLAND_DISPLAY"] = "weston"
        self.weston = self.start_compositor(*compositors.weston(self.folder, self.env))

    def test_simple_shm(self):
        self.inspected("weston-simple-shm")

    def test_flower(self):
        self.inspected("weston-flower")

    def test_gtk(self):
        self.env["GDK_BACKEND"] = "wayland"
        self.inspected("zenity", "--info", "--text=waywire")

    def test_the_compositor_hangs(self):
        """The frame that does not come is reported, and how long it was waited for."""
        paths = self.start_at_files("--record", self.recorded, "weston-simple-shm")
        self.addCleanup(self.weston.send_signal, signal.SIGCONT)
        self.weston.send_signal(signal.SIGSTOP)
        self.comes_true(lambda: self.state_of(self.weston) == "T" and self.waits_for_a_frame(paths[0]))
        # The tool reports what has waited for a second.
        time.sleep(1.5)
        self.finish(signal.SIGINT, None)
        lines = self.read(paths[0]).splitlines()
        self.assertRegex(lines[-2], r"\Awl_surface@\d+\.frame: 1 not answered, waiting \d+\.\d s\Z")
        again, _ = self.ran("--read", self.recorded)
        self.assertEqual(again.splitlines()[-2:], lines[-2:])

    def state_of(self, process):
        """What a process does: T if it is stopped, S if it waits."""
        with open(f"/proc/{process.pid}/stat", encoding="ascii", errors="replace") as file:
            return file.read().rpartition(")")[2].split()[0]

    def waits_for_a_frame(self, path):
        """Whether the tool has passed on all that came, and the last frame callback is not done."""
        if self.state_of(self.tool) != "S":
            return False
        _, frame, behind = self.read(path).rpartition(".frame(new id ")
        callback = behind.partition(")")[0]
        return bool(frame) and f"<- {callback}.done(" not in behind

    def faulty(self, until, *words):
        """The lines of a session with a fault, which is stopped once it is so far, and standard error."""
        paths = self.start_at_files("--late", "0.5", *words, until=until)
        self.finish(signal.SIGINT, None)
        said, error = (self.read(it) for it in paths)
        return said, said.splitlines()[-1], error

    def test_faults(self):
        """weston-simple-shm goes on with ids that come back late; while a callback waits it hangs, which is said."""
        said, verdict, _ = self.faulty(lambda it: it.count(".frame(") > 30, "--fault", "hold 300ms wl_display.delete_id",
                                       "weston-simple-shm")
        self.assertRegex(verdict, r"\Alawful: .*; with \d+ faults on purpose\Z")
        self.assertRegex(said, r"(?m)^fault 1, hold 300ms: <- wl_display@1\.delete_id\(\d+\)$")
        said, verdict, _ = self.faulty(lambda it: "waiting since" in it, "--fault", "delay 1000s wl_callback.done 5",
                                       "weston-simple-shm")
        self.assertRegex(said, r"(?m)^waiting since .*wl_surface@\d+\.frame \(message \d+\) has had no answer$")
        self.assertRegex(verdict, r"\Alawful: .*; with 1 fault on purpose\Z")

    def test_faults_of_gtk(self):
        """A dialog shows itself after a late configure, waits for a lost one, and ends with its connection."""
        self.env["GDK_BACKEND"] = "wayland"
        zenity = "zenity", "--info", "--text=waywire"
        shown = r"(?m)^-> wl_surface@\d+\.attach\(wl_buffer"
        said, verdict, _ = self.faulty(lambda it: re.search(shown, it), "--fault",
                                       "delay 300ms xdg_surface.configure", *zenity)
        self.assertRegex(said, shown)
        self.assertRegex(verdict, r"\Alawful: .*; with \d+ faults? on purpose\Z")
        said, verdict, _ = self.faulty(lambda it: "has had no configure" in it, "--fault", "drop xdg_surface.configure",
                                       *zenity)
        self.assertNotRegex(said, shown)
        self.assertRegex(verdict, r"\Alawful: .*; with \d+ faults? on purpose\Z")
        said, _, error = self.faulty(lambda it: "fault 1, kill: " in it, "--fault", "kill wl_surface.commit 1", *zenity)
        self.assertNotRegex(said, r"(?m)^-> wl_surface@\d+\.commit")
        self.assertIn("client 1 is closed: --fault kill", error)

    def test_the_compositor_is_killed(self):
        paths = self.start_at_files("weston-simple-shm")
        self.weston.kill()
        self.tool.wait(LONG)
        said, error = (self.read(it) for it in paths)
        self.assertTrue(said.splitlines()[-1].startswith("lawful: "), said[-300:])
        self.assertIn(GONE, error)


if __name__ == "__main__":
    main()
