"""Says in what the interfaces of one libwayland-client differ from those of an older one.

    python3 -m tests.libwayland.interfaces NEWER OLDER

Each is the path of a libwayland-client.so.0. What the older one has, the newer one must have: each interface with at
least its version, and its messages in front, each with the same name, signature and types. The exit status is 1 if
there is a difference, and 2 if the words are wrong."""

import ctypes
import sys

from scripts import usage

NAMES = """wl_buffer wl_callback wl_compositor wl_data_device wl_data_device_manager wl_data_offer wl_data_source
    wl_display wl_keyboard wl_output wl_pointer wl_region wl_registry wl_seat wl_shell wl_shell_surface wl_shm
    wl_shm_pool wl_subcompositor wl_subsurface wl_surface wl_touch""".split()
# The bytes of a signature that are no arguments.
NO_LETTERS = b"?0123456789"


class Interface(ctypes.Structure):
    """struct wl_interface."""


class Message(ctypes.Structure):
    """struct wl_message."""

    _fields_ = [("name", ctypes.c_char_p), ("signature", ctypes.c_char_p),
                ("types", ctypes.POINTER(ctypes.POINTER(Interface)))]

    def said(self):
        """The message as a text: its name, its signature, and the interfaces of its arguments."""
        count = sum(it not in NO_LETTERS for it in self.signature)
        types = (self.types[place] for place in range(count))
        named = " ".join(it.contents.name.decode() if it else "-" for it in types)
        return f"{self.name.decode()} {self.signature.decode()} {named}"


Interface._fields_ = [("name", ctypes.c_char_p), ("version", ctypes.c_int), ("method_count", ctypes.c_int),
                      ("methods", ctypes.POINTER(Message)), ("event_count", ctypes.c_int),
                      ("events", ctypes.POINTER(Message))]


def interface_of(library, name):
    """An interface that a library exports, or None."""
    try:
        return Interface.in_dll(library, f"{name}_interface")
    except ValueError:
        return None


def messages(interface):
    """The texts of an interface's requests and events, in order."""
    return ([interface.methods[place].said() for place in range(interface.method_count)],
            [interface.events[place].said() for place in range(interface.event_count)])


def differences(newer, older):
    """A line for each thing that the newer library lacks, or that differs in it."""
    for name in NAMES:
        ours, theirs = interface_of(newer, name), interface_of(older, name)
        if theirs is None:
            yield f"{name}: the older library has no such interface"
        elif ours is None or ours.name != theirs.name:
            yield f"{name}: not there, or by another name"
        else:
            if ours.version < theirs.version:
                yield f"{name}: version {ours.version} is below {theirs.version}"
            for side, our, their in zip(("request", "event"), messages(ours), messages(theirs)):
                for place, message in enumerate(their):
                    found = our[place] if place < len(our) else "none"
                    if found != message:
                        yield f"{name}: {side} {place} is {found}, not {message}"


def main(arguments):
    found = list(differences(*(ctypes.CDLL(it, ctypes.RTLD_LOCAL) for it in arguments)))
    print("\n".join(found), end="\n" if found else "")
    return 1 if found else 0


if __name__ == "__main__":
    sys.exit(main(usage.words(__doc__, least=2, most=2)))
