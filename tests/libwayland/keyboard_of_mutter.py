"""Gives a mutter without a screen a keyboard, as a program that controls it from afar does.

    keyboard_of_mutter.py ADDRESS

ADDRESS is that of mutter's bus. When there is a keyboard, a line says so. It stays until this program ends."""

import signal
import sys

from gi.repository import Gio, GLib

MUTTER = "org.gnome.Mutter.RemoteDesktop"
SPACE = 57
WITHIN = 60_000


def called(bus, path, interface, method, *given):
    """Calls a method of mutter's, and returns its results."""
    return bus.call_sync(MUTTER, path, interface, method, *given or (None,), None, Gio.DBusCallFlags.NONE, WITHIN, None)


def main():
    flags = Gio.DBusConnectionFlags.AUTHENTICATION_CLIENT | Gio.DBusConnectionFlags.MESSAGE_BUS_CONNECTION
    bus = Gio.DBusConnection.new_for_address_sync(sys.argv[1], flags, None, None)
    session = called(bus, "/org/gnome/Mutter/RemoteDesktop", MUTTER, "CreateSession").unpack()[0]
    called(bus, session, f"{MUTTER}.Session", "Start")
    # Its first key makes the keyboard.
    for is_down in (True, False):
        called(bus, session, f"{MUTTER}.Session", "NotifyKeyboardKeycode", GLib.Variant("(ub)", (SPACE, is_down)))
    print("a keyboard", flush=True)
    signal.pause()


main()
