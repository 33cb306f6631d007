"""KWin and mutter without a screen, at which programs run over one library or another."""

import contextlib
import re
import shutil
import subprocess
import tempfile

from tests import compositors
from tests.checks import COMES_UP, Skipped, copy_program, end, has_come, need
from tests.libwayland import desktops
from tests.libwayland.libraries import SOURCES, SYSTEM_SERVER

# foot is not here: it crashes at KWin's virtual output, over the system's library, too.
AT_KWIN = """
wayland-info
weston-simple-shm
weston-terminal
weston-simple-egl
zenity --info --text hello
gtk4-demo
featherpad
qterminal
mpv --vo=wlshm --no-config --length=1 av://lavfi:testsrc
glmark2-wayland -b build:duration=1
alacritty -e sleep 100
swaybg -c '#336699'
wl-paste
wl-copy -f x
sdl
"""
AT_MUTTER = """
wayland-info
weston-simple-shm
weston-terminal
weston-simple-egl
foot -e sh -c 'sleep 100'
zenity --info --text hello
gtk4-demo
featherpad
qterminal
mpv --vo=wlshm --no-config --length=1 av://lavfi:testsrc
glmark2-wayland -b build:duration=1
alacritty -e sleep 100
gedit
sdl
"""
# What makes a program a client. A compositor must not have it, or it would be one.
OF_CLIENTS = ("GDK_BACKEND", "QT_QPA_PLATFORM", "WAYLAND_DISPLAY")
# The configuration of a bus that starts no service.
BUS = """<busconfig>
<type>session</type>
<listen>unix:path={}</listen>
<policy context="default"><allow send_destination="*"/><allow receive_sender="*"/><allow own="*"/></policy>
</busconfig>
"""
# A script for KWin. It closes the windows of some processes, and writes a line to KWin's log for each.
CLOSES = "a test closes a window"
SCRIPT = """for (const it of workspace.clientList()) {
    if (processes.includes(it.pid)) {
        print("%s");
        it.closeWindow();
    }
}
""" % CLOSES


class KWin(desktops.Desktop):
    """KWin, where a program without a window can copy and paste."""

    has_clipboard = True

    def offers_text(self):
        """Copies a text before wl-paste asks for it: KWin does not announce that there is none, and
        wl-paste would wait."""
        self.start_beside(["wl-copy", "--foreground", desktops.COPIED.decode()])
        return super().offers_text()

    def close(self, process):
        """Asks the windows of a program to close, by a script. Whether there are any."""
        path = f"{self.room}/close.js"
        with open(path, "w", encoding="ascii") as file:
            file.write(f"const processes = [{','.join(desktops.members(process))}];\n{SCRIPT}")
        loaded = self.call("/Scripting", "org.kde.kwin.Scripting.loadScript", path, "close")
        number = re.search(rb"\((\d+),", loaded)
        if not number:
            return False
        before = self.closed()
        self.call(f"/{number[1].decode()}", "org.kde.kwin.Script.run")
        self.call("/Scripting", "org.kde.kwin.Scripting.unloadScript", "close")
        return self.closed() > before

    def closed(self):
        """How many windows the script has closed, by KWin's log."""
        with open(f"{self.room}/kwin.log", encoding="utf-8", errors="replace") as file:
            return file.read().count(CLOSES)

    def call(self, path, name, *words):
        """Calls a method of KWin's over the bus, and returns what gdbus prints."""
        return self.output_of(["gdbus", "call", f"--address=unix:path={self.room}/bus", "--dest=org.kde.KWin",
                               f"--object-path={path}", f"--method={name}", *words])


@contextlib.contextmanager
def bus(room):
    """A D-Bus session bus for one compositor; the value is its address."""
    path = f"{room}/bus"
    with open(f"{room}/bus.conf", "w", encoding="ascii") as file:
        file.write(BUS.format(path))
    words = ["dbus-daemon", "--nofork", f"--config-file={file.name}"]
    process, listens = compositors.started(words, path, subprocess.DEVNULL, stdin=subprocess.DEVNULL)
    try:
        if not listens:
            raise Skipped(f"dbus-daemon has not come up within {COMES_UP} s")
        yield f"unix:path={path}"
    finally:
        end(process)


@contextlib.contextmanager
def with_bus(kind, name, words_in, server, **more):
    """A compositor with a bus, over a libwayland-server. `words_in` returns the compositor's command for a room; `more`
    is of the compositor's environment alone."""
    need(*desktops.NEEDED[name])
    with tempfile.TemporaryDirectory(prefix=f"{name}-") as room, bus(room) as address:
        env = desktops.environment(room)
        own = {name: value for name, value in env.items() if name not in OF_CLIENTS}
        own |= {"XDG_RUNTIME_DIR": room, "DBUS_SESSION_BUS_ADDRESS": address, **more}
        desktop = desktops.come_up(kind, name, room, words_in(room), f"{room}/{name}", env,
                                   env=server.env(own))
        try:
            yield desktop
        finally:
            desktop.end()


def words_of_kwin(room):
    """Runs a copy of the program, because the installed one has a file capability: if the kernel does not grant
    it, the program does not start. A copy has no capability."""
    program = copy_program(shutil.which("kwin_wayland"), room)
    return [program, "--virtual", "--no-lockscreen", "--socket", "kwin"]


def words_of_mutter(_room):
    return ["mutter", "--headless", "--wayland", "--no-x11", "--wayland-display", "mutter",
            "--virtual-monitor", "1024x768"]


def kwin(server=SYSTEM_SERVER):
    return with_bus(KWin, "kwin", words_of_kwin, server)


def mutter(server=SYSTEM_SERVER, **more):
    return with_bus(desktops.Desktop, "mutter", words_of_mutter, server, **more)


@contextlib.contextmanager
def mutter_with_keyboard(server=SYSTEM_SERVER):
    """Mutter without a screen has no keyboard of its own."""
    with mutter(server) as desktop:
        path = f"{desktop.room}/keyboard"
        words = [desktops.PYTHON, f"{SOURCES}/keyboard_of_mutter.py", f"unix:path={desktop.room}/bus"]
        with open(path, "wb") as said:
            process = desktop.start_beside(words, stdout=said, stderr=said)

        def said_so_far():
            with open(path, encoding="utf-8", errors="replace") as said:
                return said.read()
        has_come(lambda: "a keyboard" in said_so_far() or process.poll() is not None)
        if process.poll() is not None or "a keyboard" not in said_so_far():
            raise Skipped(f"mutter gives no keyboard: {said_so_far()[-300:]!r}")
        yield desktop
