"""A compositor without a screen, with a keyboard and a text in the clipboard. Programs of the distribution run
at it, over one library or the other."""

import contextlib
import json
import os
import signal
import subprocess
import tempfile

from tests import compositors
from tests.checks import COMES_UP, LONG, Skipped, end, has_come, is_installed, need
from tests.libwayland.libraries import SYSTEM, SYSTEM_SERVER

COPIED = b"a text that was copied"
# The distribution's Python has the modules of its packages.
PYTHON = "/usr/bin/python3"
# Programs choose Wayland, start no bus of their own, and draw without a graphics card.
ENV = {"GDK_BACKEND": "wayland", "QT_QPA_PLATFORM": "wayland", "SDL_VIDEODRIVER": "wayland",
       "MOZ_ENABLE_WAYLAND": "1", "NO_AT_BRIDGE": "1", "GSK_RENDERER": "cairo",
       "LIBGL_ALWAYS_SOFTWARE": "1", "GSETTINGS_BACKEND": "memory", "GIO_USE_VFS": "local"}
UNSET = ("DISPLAY", "DBUS_SESSION_BUS_ADDRESS", "WAYLAND_SOCKET", "WAYLAND_DEBUG", "SWAYSOCK")
# What a compositor is here, and what these tests say to it.
NEEDED = {"sway": ("sway", "swaymsg", "wtype", "wl-copy", "wl-paste"), "weston": ("weston",),
          "phoc": ("phoc", "wl-copy", "wl-paste"),
          "kwin": ("kwin_wayland", "dbus-daemon", "gdbus", "wl-copy", "wl-paste"),
          "mutter": ("mutter", "dbus-daemon")}
# How long a keyboard stays, in milliseconds.
STAYS = "4000000"
KEYS = "abcdefghijklmnopqrstuvwxyz"


class Desktop:
    """A compositor at which programs run. `room` is a folder for what they write."""

    # Whether programs without a window can copy and paste. If so, there is a text in the clipboard.
    has_clipboard = False

    def __init__(self, name, room, process, display, env):
        self.name, self.room, self.process, self.display, self.env = name, room, process, display, env
        self.beside = []

    def start(self, words, library=SYSTEM, **kept):
        """A program in a group of its own, so that all that it starts ends with it."""
        kept = {"stdin": subprocess.DEVNULL, "stdout": subprocess.DEVNULL,
                "stderr": subprocess.DEVNULL, **kept}
        more = kept.pop("env", {})
        return subprocess.Popen(words, env=library.env(self.env, **more), start_new_session=True, **kept)

    def start_beside(self, words, **kept):
        """A program that runs as long as the desktop."""
        process = self.start(words, **kept)
        self.beside.append(process)
        return process

    def output_of(self, words, library=SYSTEM):
        how = {"stdout": subprocess.PIPE, "stderr": subprocess.DEVNULL, "stdin": subprocess.DEVNULL}
        ran = subprocess.run(words, env=library.env(self.env), timeout=LONG, check=False, **how)
        return ran.stdout

    def offers_text(self):
        """Whether a text is in the clipboard. If not, it is copied again: a program that takes the clipboard
        and ends leaves no text."""
        def has_text():
            return self.output_of(["wl-paste", "--no-newline"]) == COPIED
        if not has_text():
            self.start_beside(["wl-copy", "--foreground", COPIED.decode()])
        return has_come(has_text)

    def close(self, _process):
        """Asks the windows of a program to close, if the compositor has a way to ask. Whether there
        are any."""
        return False

    def is_there(self):
        return self.process.poll() is None

    def end(self):
        for process in self.beside:
            end_group(process)
        end(self.process)


class Sway(Desktop):
    """Sway, which says what windows there are, and closes them."""

    has_clipboard = True
    keyboard = None

    def keyboards(self):
        """How many keyboards there are whose keys mean something."""
        try:
            return sum(bool(it.get("xkb_layout_names")) for it in json.loads(self.message("-t", "get_inputs", "-r")))
        except ValueError:
            return 0

    def renew_keyboard(self):
        """Brings a keyboard that stays. Another that has come since and is gone leaves none, and with
        that some programs crash, over any library."""
        before, old = self.keyboards(), self.keyboard
        self.keyboard = self.start_beside(["wtype", "-s", STAYS, KEYS])
        if not has_come(lambda: self.keyboards() > before):
            raise Skipped("wtype has not come up")
        if old:
            end_group(old)

    def message(self, *words):
        socket = f"{self.room}/sway-ipc.{self.uid()}.{self.process.pid}.sock"
        return self.output_of(["swaymsg", "-s", socket, *words])

    def uid(self):
        return os.stat(self.display).st_uid

    def windows(self):
        """The windows, from the tree of containers."""
        try:
            left = [json.loads(self.message("-t", "get_tree", "-r"))]
        except ValueError:
            return []
        found = []
        while left:
            it = left.pop()
            left += it.get("nodes", []) + it.get("floating_nodes", [])
            if it.get("pid"):
                found.append(it)
        return found

    def windows_of(self, process):
        """The windows of a program and of what it has started."""
        return [it for it in self.windows() if group_of(it["pid"]) == process.pid]

    def focus(self, window):
        self.message(f"[con_id={window['id']}]", "focus")

    def close(self, process):
        """Asks the windows of a program to close. Whether there are any."""
        windows = self.windows_of(process)
        for it in windows:
            self.message(f"[con_id={it['id']}]", "kill")
        return bool(windows)


class Phoc(Desktop):
    """Phoc, where a program without a window can copy and paste."""

    has_clipboard = True


def group_of(process):
    try:
        return os.getpgid(process)
    except OSError:
        return None


def members(process):
    """The processes of a program's group."""
    return [it for it in os.listdir("/proc") if it.isdigit() and group_of(int(it)) == process.pid]


def signal_group(process, number):
    with contextlib.suppress(OSError):
        os.killpg(process.pid, number)


def end_group(process):
    """Ends a program and all that it has started."""
    signal_group(process, signal.SIGTERM)
    with contextlib.suppress(subprocess.TimeoutExpired):
        process.wait(10)
    signal_group(process, signal.SIGKILL)
    process.wait()


def own_home(room):
    """The environment of a program that finds nothing kept by an earlier run, such as the state of its
    window. Only the cache is that of the other programs."""
    home = tempfile.mkdtemp(dir=f"{room}/home")
    os.mkdir(f"{home}/.config")
    return {"HOME": home, "XDG_CONFIG_HOME": f"{home}/.config", "XDG_DATA_HOME": f"{home}/.local"}


def environment(room):
    """The environment of programs, with folders of their own: Firefox accepts no folder of another user, as the
    compositor's may be."""
    env = {name: value for name, value in os.environ.items() if name not in UNSET}
    home, own = f"{room}/home", f"{room}/run"
    os.makedirs(f"{home}/.config")
    os.mkdir(own, 0o700)
    return {**env, **ENV, "XDG_RUNTIME_DIR": own, "HOME": home, "XDG_CONFIG_HOME": f"{home}/.config",
            "XDG_CACHE_HOME": f"{home}/.cache", "XDG_DATA_HOME": f"{home}/.local"}


def come_up(kind, name, room, words, path, its_env, **kept):
    """Starts a compositor. The test is skipped if it does not come up."""
    with open(f"{room}/{name}.log", "wb") as said:
        process, listens = compositors.started(words, path, said, **kept)
    found = kind(name, room, process, path, {**its_env, "WAYLAND_DISPLAY": path})
    if not listens:
        found.end()
        with open(f"{room}/{name}.log", encoding="utf-8", errors="replace") as said:
            raise Skipped(f"{name} has not come up within {COMES_UP} s: {said.read()[-300:]!r}")
    return found


@contextlib.contextmanager
def sway(server=SYSTEM_SERVER, has_xwayland=False):
    """Sway with a keyboard, and a text in the clipboard, over a libwayland-server."""
    need(*NEEDED["sway"])
    with tempfile.TemporaryDirectory(prefix="sway-") as room:
        env = environment(room)
        words, path, kept = compositors.sway(room, env, has_xwayland)
        kept["env"] = server.env(kept["env"])
        desktop = come_up(Sway, "sway", room, words, path, env, **kept)
        try:
            desktop.renew_keyboard()
            if not desktop.offers_text():
                raise Skipped("wl-copy has not come up")
            yield desktop
        finally:
            desktop.end()


@contextlib.contextmanager
def phoc(server=SYSTEM_SERVER):
    """Phoc with a text in the clipboard, over a libwayland-server."""
    need(*NEEDED["phoc"])
    with tempfile.TemporaryDirectory(prefix="phoc-") as room:
        env = environment(room)
        words, path, kept = compositors.phoc(room, env)
        kept["env"] = server.env(kept["env"])
        desktop = come_up(Phoc, "phoc", room, words, path, env, **kept)
        try:
            if not desktop.offers_text():
                raise Skipped("wl-copy has not come up")
            yield desktop
        finally:
            desktop.end()


@contextlib.contextmanager
def weston(server=SYSTEM_SERVER):
    need(*NEEDED["weston"])
    with tempfile.TemporaryDirectory(prefix="weston-") as room:
        os.chmod(room, 0o700)
        env = environment(room)
        words, path, kept = compositors.weston(room, env)
        kept["env"] = server.env(kept["env"])
        desktop = come_up(Desktop, "weston", room, words, path, env, **kept)
        try:
            yield desktop
        finally:
            desktop.end()


@contextlib.contextmanager
def weston_in_sway(server=SYSTEM_SERVER):
    """Weston in a window of a sway, so that it has a keyboard. Weston without a screen has none."""
    need(*NEEDED["weston"])
    with sway() as outer:
        words = ["weston", "--backend=wayland-backend.so", "--socket=weston", "--use-pixman", "--idle-time=0"]
        desktop = come_up(Desktop, "weston", outer.room, words, f"{outer.env['XDG_RUNTIME_DIR']}/weston", outer.env,
                          env=server.env(outer.env), start_new_session=True)
        try:
            if not has_come(lambda: outer.windows_of(desktop.process)):
                raise Skipped("weston has no window at sway")
            yield desktop
        finally:
            desktop.end()


def at(name, tests):
    """Tests at a compositor; one that is skipped in place of all, if it is not installed."""
    if all(map(is_installed, NEEDED[name])):
        return tests

    def skipped():
        need(*NEEDED[name])
    skipped.__name__, skipped.stands_for = f"{len(tests)} tests at {name}", tests
    return [skipped]


class Kept:
    """A desktop that is begun by the first test that asks for it, and serves all of them. If the
    compositor has ended, another is begun."""

    def __init__(self, begin):
        self.begin, self.stack, self.desktop, self.lacking = begin, contextlib.ExitStack(), None, None

    def __call__(self):
        if self.lacking:
            raise Skipped(self.lacking)
        if not self.desktop or not self.desktop.is_there():
            self.end()
            try:
                self.desktop = self.stack.enter_context(self.begin())
            except Skipped as why:
                self.lacking = str(why)
                raise
        return self.desktop

    def end(self):
        self.stack.close()
