"""Makes from protocols/core/core.xml the files that name the messages of the core interfaces, and says which of
them had to change.

    python3 -m scripts.core_files [--check]

These files are the core as a table text, the names of its arguments and values, and in the crates
wl_rules and wl_sigs the opcodes and the lists of interfaces (core_lists.py). `make` makes the typed
calls for C and for Rust. With `--check` nothing is written, and the first file that differs is named.
The exit status is 1 if a file differed or cannot be made."""

import subprocess
import sys

from scripts import core_lists, crates, usage
from tools.waywire import files, protocol

SOURCE = f"{crates.TOP}/protocols/core/core.xml"
LAW = "constant is the opcode of the message with its name: the law `opcodes_are_of_their_names`."


def comments(*lines: str) -> list[str]:
    return [word for it in lines for word in ("--comment", it)]


def module(side: str, plural: str, writer: str, example: str) -> list[str]:
    return ["stubs-from-xml", "--rattle", side,
            *comments(f"The opcodes of the core interfaces' {plural}, which a {writer} writes.",
                      "", f"{example} in the core tables. Each", LAW)]


# The tables come first: the tools that make the others refuse an XML that changes their messages.
FILES = {
    "protocols/core/core.tables": [
        "tables-from-xml", "--as-it-is",
        *comments(
            "The core interfaces in the form of a table text, made by scripts/core_files.py.",
            "The library has them by itself: a text that is given to it must not declare them again.",
            "It states facts of the protocol of wayland.xml, whose file has the licence MIT.")],
    "protocols/core/core.names": [
        "tables-from-xml", "--names",
        *comments("The names of arguments and of the values of enums of the core interfaces, "
                  "made by scripts/core_files.py.")],
    "crates/wl_sigs/src/request.rt": module(
        "request", "requests", "client",
        "`request::wl_surface::COMMIT` is the opcode of wl_surface.commit"),
    "crates/wl_sigs/src/event.rt": module(
        "event", "events", "server",
        "`event::wl_callback::DONE` is the opcode of wl_callback.done"),
}
# Modules of opcodes say so in a line that is no part of their documentation.
FIRST_LINE = b"// Made by scripts/core_files.py.\n"


def text_of(name: str, before: bytes) -> bytes:
    """The text of a file, which has this text now. Raises `BadProtocol` if a list has no word for
    what the protocol has, and `CalledProcessError` if a tool has refused the protocol, and has said why."""
    if name in core_lists.PARTS:
        return core_lists.text_of(name, before.decode(), protocol.read(SOURCE).interfaces).encode()
    words = FILES[name]
    text = subprocess.run([f"{crates.TOP}/tools/{words[0]}", *words[1:], SOURCE], check=True,
                          stdout=subprocess.PIPE).stdout
    return FIRST_LINE + text if name.endswith(".rt") else text


def main() -> int:
    words, differ = usage.words(__doc__, "--check", most=0), 0
    for name in [*FILES, *core_lists.PARTS]:
        path = f"{crates.TOP}/{name}"
        with open(path, "rb") as file:
            before = file.read()
        text = text_of(name, before)
        if before != text:
            differ = 1
            print(f"{name} is not what scripts/core_files.py makes of protocols/core/core.xml")
            if "--check" in words:
                break
            files.write_whole(path, [text.decode()])
    return differ


if __name__ == "__main__":
    try:
        sys.exit(main())
    except protocol.BadProtocol as error:
        sys.exit(f"core_files: {error}")
    except subprocess.CalledProcessError:
        sys.exit(1)
