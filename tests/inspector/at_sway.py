"""Tests of waywire-inspect between clients that copy and paste, and sway without a screen: the server makes
an object for each selection that it offers.

    python3 -m tests.inspector.at_sway [CLASS[.TEST]]..

The environment is that of inspecting.py. `wtype` is the keyboard."""
import functools
import re
import subprocess
import tempfile
import time

from tests import compositors
from tests.checks import has_come, need
from tests.inspector import real_clients
from tests.inspector.inspecting import LONG, main

# All of a text is selected, copied, and pasted twice.
COPY_AND_PASTE = ["wtype", *"-s 500 -M ctrl -k a -s 100 -k c -s 300 -k v -s 100 -k v -m ctrl -s 200".split()]


class Sway(real_clients.RealClients):
    """Real clients at sway without a screen."""

    def setUp(self):
        super().setUp()
        need("sway", "wl-copy", "wl-paste")
        self.room = self.enterContext(tempfile.TemporaryDirectory(prefix="sway-"))
        words, display, kept = compositors.sway(self.room, self.env)
        self.env["WAYLAND_DISPLAY"] = display
        self.start_compositor(words, display, kept)

    def quiet(self):
        """The environment of other clients: only the inspected client prints its messages."""
        return {**self.env, "WAYLAND_DEBUG": "0"}

    def copy(self, text):
        """Another client offers a text until a later client offers one."""
        other = subprocess.Popen(["wl-copy", "--foreground", text], env=self.quiet())
        self.addCleanup(self.end_all, [other])

    def again_until(self, path, does, *wanted):
        """Repeats an action until the tool has printed lines of all these forms."""
        def said_all():
            does()
            time.sleep(0.5)
            return all(re.search(it, self.read(path)) for it in wanted)
        if not has_come(said_all, LONG):
            self.fail(f"not all of {wanted} came: {self.read(path)[-1000:]}")

    def runs(self, *words):
        """Runs a command to its end."""
        return functools.partial(subprocess.run, words, env=self.quiet(), check=False, timeout=LONG,
                                 stdout=subprocess.DEVNULL)

    def test_wl_paste(self):
        """Each offer has the id of the offer before it, which the client has destroyed."""
        offer = "zwlr_data_control_offer_v1@4278190080"

        def ended(path):
            return self.read(path).count(f"-> {offer}.destroy()")

        def copies(path):
            for text in ("one", "two", "three", "four", "five"):
                before = ended(path)
                self.copy(text)
                self.comes_true(lambda: ended(path) > before)
            self.assertIn(f"-> {offer}.receive(", self.read(path))
        said = self.inspected("wl-paste", "--watch", "sh", "-c", "cat >/dev/null", meanwhile=copies, least=10)
        self.assertGreater(said.count(f"(new id {offer})"), 3)

    def test_wl_copy(self):
        def pastes(path):
            self.again_until(path, self.runs("wl-paste"), r"\.send\(")
        self.inspected("wl-copy", "--foreground", "waywire", meanwhile=pastes, least=10,
                       until=lambda said: ".set_selection(" in said)

    def test_gtk(self):
        """A client gets an offer of what another client has copied, and copies and pastes a text of its own."""
        need("zenity", "wtype")
        self.env["GDK_BACKEND"] = "wayland"
        self.copy("another")
        def types(path):
            self.again_until(path, self.runs(*COPY_AND_PASTE),
                             r"-> wl_data_device@\d+\.set_selection\(wl_data_source@",
                             r"<- wl_data_device@\d+\.selection\(wl_data_offer@42781900\d\d\)",
                             r"-> wl_data_offer@42781900\d\d\.destroy\(\)")
        self.inspected("zenity", "--entry", "--entry-text=waywire", meanwhile=types)


if __name__ == "__main__":
    main()
