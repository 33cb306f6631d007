"""Tests of waywire-replay with programs of the distribution: a program is recorded at a compositor without a screen,
and played to the same compositor.

    python3 -m tests.replay.at_compositors [CLASS[.TEST]]..

INSPECT and REPLAY in the environment are the tools [default: those of out/c]. `./test c` runs them."""
import os
import re
import signal
import subprocess
import unittest

from tests.checks import Failed, has_come, need
from tests.inspector.inspecting import INSPECT, LONG, main
from tests.libwayland import desktops, kwin_and_mutter
from tests.replay.replaying import REPLAY

FRAMES = r"<- wl_callback@\d+\.done\((?s:.*)-> wl_surface@\d+\.attach\("


def recorded(desktop, words, until):
    """Records a program up to a message, or up to its own end. Returns the path of the recording."""
    path, said = f"{desktop.room}/it.rec", f"{desktop.room}/said"
    ran = desktop.start([*INSPECT, "--record", path, "--output", said, *words], stderr=subprocess.PIPE)

    def has_shown():
        if ran.poll() is not None or not os.path.exists(said):
            return ran.poll() is not None
        with open(said, encoding="utf-8", errors="replace") as file:
            return bool(until and re.search(until, file.read()))
    try:
        has_come(has_shown)
        if ran.poll() is None:
            ran.send_signal(signal.SIGINT)
        error = ran.communicate(timeout=LONG)[1].decode(errors="replace")
    finally:
        desktops.end_group(ran)
    if not os.path.exists(path):
        raise Failed(f"{words[0]} is not recorded: {error[-400:]}")
    return path


class AtCompositors(unittest.TestCase):
    """What is recorded at a compositor is played there to its end."""

    def replayed(self, desktop, *words, until=None):
        path = recorded(desktop, words, until)
        ran = subprocess.run([*REPLAY, "--wait", "60", path], env=desktop.env, capture_output=True, text=True,
                             timeout=LONG, check=False)
        self.assertEqual((ran.returncode, ran.stderr), (0, ""), ran.stdout)
        lines = ran.stdout.splitlines()
        self.assertEqual(lines[0], "played to the end")
        sent, wanted = map(int, re.match(r"(\d+) of (\d+) requests sent, ", lines[1]).groups())
        pongs = re.search(r"^recorded pongs that were not sent: (\d+)$", ran.stdout, re.M)
        self.assertEqual(sent + (int(pongs[1]) if pongs else 0), wanted)
        return path

    def test_weston(self):
        need("weston-simple-shm", "weston-flower")
        with desktops.weston() as desktop:
            self.replayed(desktop, "weston-flower", until=FRAMES)
            path = self.replayed(desktop, "weston-simple-shm", until=f"{FRAMES}(?s:.*){FRAMES}")
            self.parts_at_an_older_global(desktop, path)

    def parts_at_an_older_global(self, desktop, path):
        """The same recording, with a version of xdg_wm_base that the compositor does not offer, from its announcement
        and its bind on."""
        with open(path, encoding="ascii") as file:
            text = file.read()
        name = b"xdg_wm_base\0".hex()
        newer, count = re.subn(rf"(?<=0c000000{name})..000000", "06000000", text)
        self.assertEqual(count, 2)
        with open(path, "w", encoding="ascii") as file:
            file.write(newer)
        ran = subprocess.run([*REPLAY, path], env=desktop.env, capture_output=True, text=True, timeout=LONG,
                             check=False)
        self.assertEqual(ran.returncode, 1, ran.stdout + ran.stderr)
        self.assertRegex(ran.stdout, r'(?m)\Aparted at request \d+ .*"xdg_wm_base", 6, .*\n'
                                     r"xdg_wm_base is offered up to version \d$")

    def test_sway(self):
        need("wlr-randr")
        with desktops.sway() as desktop:
            self.replayed(desktop, "wlr-randr")
            self.replayed(desktop, "wl-paste")

    def test_kwin(self):
        with kwin_and_mutter.kwin() as desktop:
            self.replayed(desktop, "wl-copy", "--foreground", "x", until=r"\.set_selection\(")

    def test_mutter(self):
        need("weston-info")
        with kwin_and_mutter.mutter() as desktop:
            self.replayed(desktop, "weston-info")


if __name__ == "__main__":
    main()
