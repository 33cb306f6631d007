"""Prints the interfaces of Wayland protocol files as data for libwayland: C that defines a struct wl_interface for each.

    python3 -m scripts.interfaces_from_xml FILE.. >FILE.c

Each FILE is a protocol in the XML form of wayland-scanner. The interface wl_surface becomes the exported symbol
wl_surface_interface, with the same signatures and types as in wayland-scanner's private code. If a message names
an interface, one of the files must have it. The C includes wayland-abi.h of c/libwayland/common.

The exit status is 1 if a file cannot be read or is no protocol, if an interface is missing or there twice, or if a
name is not valid in C.
"""

import argparse
import os
import sys
from collections.abc import Iterable, Iterator, Sequence

from tools.waywire import protocol
from tools.waywire.protocol import Argument, BadProtocol, Interface, Message

LETTERS = {"int": "i", "uint": "u", "fixed": "f", "string": "s", "object": "o", "new_id": "n", "array": "a", "fd": "h"}
# The most arguments that a message has.
MOST = 20


def slots(arg: Argument) -> Iterator[tuple[str, str | None]]:
    """An argument in the signature: pairs of letters and an interface. A new id of any interface comes after the
    name and the version of its interface."""
    if arg.type == "new_id" and not arg.interface:
        yield from (("s", None), ("u", None))
    yield "?" * arg.null + LETTERS[arg.type], arg.interface


def slots_of(message: Message) -> list[tuple[str, str | None]]:
    return [it for arg in message.args for it in slots(arg)]


def signature(message: Message) -> str:
    since = str(message.since) if message.since > 1 else ""
    return since + "".join(letter for letter, _ in slots_of(message))


def types_name(interface: Interface, side: str, message: Message) -> str:
    """The name of the array of a message's types. Messages that name no interface share one array."""
    if any(named for _, named in slots_of(message)):
        return f"{interface.name}_{side}_{message.name}_types"
    return "no_types"


def types_lines(interface: Interface, side: str, message: Message) -> Iterator[str]:
    name = types_name(interface, side, message)
    if name != "no_types":
        yield f"static const struct wl_interface *{name}[] = {{"
        yield from (f"\t&{it}_interface," if it else "\tNULL," for _, it in slots_of(message))
        yield "};"


def messages_lines(interface: Interface, side: str, messages: list[Message]) -> Iterator[str]:
    """The array of an interface's requests or events; nothing if it has none."""
    if messages:
        yield f"static const struct wl_message {interface.name}_{side}s[] = {{"
        for it in messages:
            yield f'\t{{ "{it.name}", "{signature(it)}", {types_name(interface, side, it)} }},'
        yield "};"


def interface_lines(interface: Interface) -> Iterator[str]:
    for side, message in interface.messages():
        yield from types_lines(interface, side, message)
    sides = (("request", interface.requests), ("event", interface.events))
    for side, messages in sides:
        yield from messages_lines(interface, side, messages)
    yield f"EXPORT const struct wl_interface {interface.name}_interface = {{"
    yield f'\t"{interface.name}", {interface.version},'
    for side, messages in sides:
        yield f"\t{len(messages)}, {f'{interface.name}_{side}s' if messages else 'NULL'},"
    yield "};"


def check(interfaces: list[Interface]) -> None:
    """Raises `BadProtocol` if the C would not compile, or if libwayland would refuse it."""
    names = [it.name for it in interfaces]
    for interface in interfaces:
        if names.count(interface.name) > 1:
            raise BadProtocol(f"{interface.name} is there twice")
        for side, message in interface.messages():
            if len(slots_of(message)) > MOST:
                raise BadProtocol(f"{interface.name}.{message.name} has more than {MOST} arguments")
            for _, named in slots_of(message):
                if named and named not in names:
                    raise BadProtocol(f"{interface.name}.{message.name} names {named}, which is in no file")


def text_of(paths: Iterable[str]) -> str:
    """The C for these files."""
    interfaces = [it for path in paths for it in protocol.read(path).interfaces]
    check(interfaces)
    files = ", ".join(os.path.basename(it) for it in paths)
    lines = [f"/* Made by scripts/interfaces_from_xml.py of {files}. */", '#include "wayland-abi.h"', ""]
    lines += [f"extern const struct wl_interface {it.name}_interface;" for it in interfaces]
    lines += ["", f"static const struct wl_interface *no_types[{MOST}];"]
    for it in interfaces:
        lines += ["", *interface_lines(it)]
    return "\n".join(lines) + "\n"


def main(arguments: Sequence[str] | None = None) -> int:
    parser = argparse.ArgumentParser(
        prog="interfaces-from-xml",
        description="Prints the interfaces of Wayland protocol files as C for libwayland: a struct wl_interface for each."
    )
    parser.add_argument("files", nargs="+", metavar="FILE", help="a protocol in the XML form of wayland-scanner")
    try:
        sys.stdout.write(text_of(parser.parse_args(arguments).files))
    except BadProtocol as error:
        print(f"interfaces-from-xml: {error}", file=sys.stderr)
        return 1
    return 0


if __name__ == "__main__":
    sys.exit(main())
