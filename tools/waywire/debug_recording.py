"""Writes a connection that a log of WAYLAND_DEBUG shows (debug_sessions.py) as a recording (docs/FORMATS.md). The
bytes of arrays, which no log has, are zeros. What a log does not tell of a message or of what came before it stands
in comments, which waywire-inspect reads."""

import struct
from collections.abc import Iterator
from dataclasses import dataclass

from .debug_lines import MOST_BYTES, Reading, Told, is_bound
from .debug_sessions import DISPLAY, FIRST_SERVER_ID, Entry, Session, as_they_passed, deleted_by
from .table_text import Interface, Kind


class NotTold(Exception):
    """The log does not tell a message."""


def in_a_line(text: str) -> str:
    return "".join(it if it.isprintable() else "?" for it in text)


def word(number: int) -> bytes:
    return struct.pack("<I", number % 2**32)


def padded(data: bytes) -> bytes:
    return word(len(data)) + data + bytes(-len(data) % 4)


def string(printed: bytes) -> bytes:
    return padded(printed + b"\0")


def bytes_of(kind: Kind, values: tuple[bytes, ...]) -> bytes:
    """An argument on the wire, from what was printed of it."""
    printed = values[-1]
    if is_bound(kind):
        return string(values[0]) + word(int(values[1])) + word(int(values[2]))
    if kind.letter == "h":
        return b""
    if kind.letter in "iu":
        return word(int(printed))
    if kind.letter == "f":
        return word(round(float(printed.replace(b",", b".")) * 256))
    if printed == b"nil":
        if kind.letter in "nN" or (kind.letter == "o" and not kind.null):
            raise NotTold
        return word(0)
    if kind.letter == "s":
        return string(printed[1:-1])
    if kind.letter == "a":
        if int(printed[6:-1]) > MOST_BYTES:
            raise NotTold
        return padded(bytes(int(printed[6:-1])))
    return word(int(printed.replace(b"#", b"@").rsplit(b"@", 1)[-1]))


def is_error(told: Told) -> bool:
    return (told.interface, told.name) == ("wl_display", "error")


def message_of(told: Told, reading: Reading) -> tuple[bytes, int]:
    """The bytes of a message, and how many descriptors go with it."""
    arguments = list(reading.arguments())
    if is_error(told):
        # It may name any object, even null.
        arguments[0] = Kind("o", null=True), arguments[0][1]
    body = b"".join(bytes_of(*it) for it in arguments)
    length = len(body) + 8
    if length > MOST_BYTES:
        raise NotTold
    header = word(told.id) + word(length << 16 | reading.spec.opcode)
    return header + body, sum(kind.letter == "h" for kind, _ in arguments)


@dataclass
class Held:
    """An object, and whether a message has destroyed it."""

    interface: str
    version: int
    is_ending: bool = False


class Recording:
    """The recording of a connection. From the message on where the log lacks something, it has a comment that says
    so; the objects whose beginning is not in the log stand at its head."""

    def __init__(self, session: Session, tables: list[Interface]) -> None:
        self.session = session
        self.versions = {it.name: it.version for it in tables}
        # The version from which on a request ends objects of an interface.
        self.ended_from = {it.name: min(own.since for own in it.request if own.destroys)
                           for it in tables if any(own.destroys for own in it.request)}
        self.objects = {DISPLAY: Held("wl_display", 1)}
        self.used: set[int] = {DISPLAY}
        self.earlier: dict[int, str] = {}
        self.next = {False: 2, True: FIRST_SERVER_ID}  # the next id, by whether it is the server's
        self.globals: dict[int, set[str]] = {}
        self.lacks = ""
        self.body: list[str] = []

    def lack(self, why: str) -> None:
        """Notes that the log does not have something, once."""
        if not self.lacks:
            self.lacks = why
            self.body.append(f"# lacks {in_a_line(why)}\n")

    def name_object(self, number: int, interface: str) -> None:
        """An object is named. If the log does not say what made it, it is one from before."""
        held = self.objects.get(number)
        if held and held.interface == interface:
            return
        self.lack(f"the log does not say what made {interface}@{number}")
        if number in self.used or interface not in self.versions:
            raise NotTold
        self.earlier[number] = interface
        self.used.add(number)
        self.objects[number] = Held(interface, self.versions[interface])

    def can_replace(self, held: Held) -> bool:
        """Whether the server may give the object's id to another: no request can end the object, or one has."""
        return held.is_ending or held.version < self.ended_from.get(held.interface, held.version + 1)

    def make_object(self, number: int, interface: str, version: int) -> None:
        is_servers = number >= FIRST_SERVER_ID
        expected = self.next[is_servers]
        held = self.objects.get(number)
        if number > expected:
            self.lack(f"the log does not say what made object {expected}")
        elif held and not (is_servers and self.can_replace(held)):
            self.lack(f"the log does not say what ended {held.interface}@{number}")
        self.next[is_servers] = max(expected, number + 1)
        self.objects[number] = Held(interface, version)
        self.used.add(number)

    def delete_object(self, number: int) -> None:
        if number not in self.objects:
            self.lack(f"the log does not say what made object {number}")
        self.objects.pop(number, None)

    def test_bind(self, reading: Reading) -> None:
        number, interface = int(reading.values[0]), reading.values[1].decode("utf-8", "replace")
        if interface not in self.globals.get(number, ()):
            self.lack(f"the log does not announce global {number} as {interface}")

    def follow(self, told: Told, reading: Reading) -> None:
        """Notes what a message changes. Raises NotTold if the log does not say what its objects are."""
        self.name_object(told.id, told.interface)
        version = self.objects[told.id].version
        for letter, interface, number in reading.objects:
            if letter == "o" and not is_error(told):
                self.name_object(number, interface)
        if (told.interface, told.name) == ("wl_registry", "global"):
            interface = reading.values[1][1:-1].decode("utf-8", "replace")
            self.globals.setdefault(int(reading.values[0]), set()).add(interface)
        if (told.interface, told.name) == ("wl_registry", "bind"):
            self.test_bind(reading)
            version = int(reading.values[2])
        for letter, interface, number in reading.objects:
            if letter in "nN":
                self.make_object(number, interface, version)
        if reading.spec.message.destroys:
            self.objects[told.id].is_ending = True
        if (deleted := deleted_by(told, reading)) is not None:
            self.delete_object(deleted)

    def put_line(self, told: Told, time: str) -> None:
        """Puts a line whose message the log does not tell, as it stands."""
        is_request = told.is_sent == self.session.is_client
        self.body.append(f"# line {time} {'->' if is_request else '<-'} {in_a_line(told.text)}\n")

    def put_message(self, told: Told, reading: Reading, time: str) -> None:
        data, descriptors = message_of(told, reading)
        self.follow(told, reading)
        tokens = f" +{descriptors}" if descriptors else ""
        self.body.append(f"# {time}\n{'>' if reading.spec.is_request else '<'} {data.hex()}{tokens}\n")

    def put(self, entry: Entry, start: int) -> None:
        told, reading = entry.told, entry.reading
        time = "{}.{:06}".format(*divmod(max(entry.time - start, 0), 1000000))
        if entry.lacks:
            self.lack(entry.lacks)
        if not told.interface:
            return
        if not reading and not told.interface.startswith("["):
            name = told.interface if told.interface not in self.versions else f"{told.interface}.{told.name}"
            self.lack(f"no table has {name}")
        try:
            if not reading:
                raise NotTold
            self.put_message(told, reading, time)
        except NotTold:
            self.put_line(told, time)

    def head(self) -> Iterator[str]:
        yield f"# log {'client' if self.session.is_client else 'server'}\n"
        if self.session.writer:
            yield f"# client {self.session.writer}\n"
        if not self.earlier:
            return
        first = {side: [it for it in self.used if (it >= FIRST_SERVER_ID) == side] for side in (False, True)}
        yield f"# ids {max(first[False]) + 1} {max(first[True], default=FIRST_SERVER_ID - 1) + 1 - FIRST_SERVER_ID}\n"
        for number, interface in sorted(self.earlier.items()):
            yield f"# object {number} {self.versions[interface]} {interface}\n"

    def text(self) -> str:
        entries = as_they_passed(self.session)
        for entry in entries:
            self.put(entry, entries[0].time)
        return "".join((*self.head(), *self.body))
