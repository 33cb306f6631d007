"""The names that a table text lacks: those of arguments, and of the values of enums.

A line for each message that has arguments, and for each enum:

    wl_shm_pool.request.create_buffer id offset width height stride format:wl_shm.format
    wl_shm.enum.format 0 argb8888 1 xrgb8888 ..
    wl_seat.enum.capability bitfield 1 pointer 2 keyboard 4 touch

An argument's name is followed by the enum of its values. For an array, that is the enum of the numbers in it, or
`uint` if these have no names."""

from collections.abc import Iterable, Iterator

from .protocol import Argument, Interface

# The arrays of 32-bit numbers. The XML does not say what an array holds: its descriptions do.
ARRAYS = {
    "org_kde_plasma_window_management.event.stacking_order_changed": "uint",
    "wl_keyboard.event.enter": "uint",
    "xdg_toplevel.event.configure": "xdg_toplevel.state",
    "xdg_toplevel.event.wm_capabilities": "xdg_toplevel.wm_capabilities",
    "zwlr_foreign_toplevel_handle_v1.event.state": "zwlr_foreign_toplevel_handle_v1.state",
    "zwp_tablet_pad_group_v2.event.buttons": "uint",
    "zxdg_toplevel_v6.event.configure": "zxdg_toplevel_v6.state",
}


def word(name: str) -> str:
    """A name without what separates words and parts here."""
    return "".join("_" if it.isspace() or it == ":" else it for it in name) or "_"


def argument(interface: Interface, message: str, it: Argument) -> str:
    """An argument with the enum of its values, if it has one."""
    enum = ARRAYS.get(message) if it.type == "array" else it.enum
    if enum and enum != "uint" and "." not in enum:
        enum = f"{interface.name}.{enum}"
    return f"{word(it.name)}:{word(enum)}" if enum else word(it.name)


def lines_of(interfaces: Iterable[Interface]) -> Iterator[str]:
    """The lines of interfaces."""
    for interface in interfaces:
        for side, it in interface.messages():
            message = f"{interface.name}.{side}.{it.name}"
            if it.args:
                yield " ".join([message, *(argument(interface, message, one) for one in it.args)])
        for enum in interface.enums:
            kind = ["bitfield"] if enum.bitfield else []
            entries = [f"{one.value} {one.name}" for one in enum.entries]
            yield " ".join([f"{interface.name}.enum.{enum.name}", *kind, *entries])
