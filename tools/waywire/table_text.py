"""Reads table texts in Python, as docs/FORMATS.md describes them. It is for the tools and the tests: slow, and
without bounds on memory. It was written from that page alone, so that its results can be compared with those of
the program. protocols/core/core.tables has the core interfaces."""

import os
import re
from collections.abc import Iterable, Iterator
from dataclasses import dataclass, field, replace

LARGEST = 2**32 - 1


class BadLine(Exception):
    """The line, counted from 1, is of no form of a table text (TB1) or of a recording (RP1)."""

    def __init__(self, line: int) -> None:
        super().__init__(f"line {line}: bad line")
        self.line = line


class BadTable(Exception):
    """The line is the first that breaks a rule of valid tables, and the rule the least (TB2)."""

    def __init__(self, line: int, rule: int) -> None:
        super().__init__(f"line {line}: breaks V{rule}")
        self.line, self.rule = line, rule


@dataclass(frozen=True)
class Kind:
    """The kind of an argument: its letter, whether null is allowed, the interface's name."""

    letter: str
    null: bool = False
    interface: str | None = None

    def is_of(self, letter: str, interface: str | None) -> bool:
        return self.letter == letter and self.interface == interface

    def __str__(self) -> str:
        name = "" if self.interface is None else f"({self.interface})"
        return ("?" if self.null else "") + self.letter + name


@dataclass
class Message:
    name: str
    kinds: list[Kind]
    destroys: bool = False
    since: int = 1
    line: int = 0

    def __str__(self) -> str:
        parts = [self.name, *map(str, self.kinds)]
        if self.destroys:
            parts.append("D")
        if self.since != 1:
            parts.append(f"@{self.since}")
        return " ".join(parts)


@dataclass
class Interface:
    """An interface, or what an extension adds to one."""

    name: str
    version: int
    request: list[Message] = field(default_factory=list)
    event: list[Message] = field(default_factory=list)
    line: int = 0
    extends: bool = False

    def messages(self) -> list[tuple[str, Message]]:
        """Each message with its side, the sides apart."""
        return [("request", it) for it in self.request] + [("event", it) for it in self.event]

    def is_ended_by_event(self) -> bool:
        return any(it.destroys for it in self.event)


def lines_of(data: bytes) -> Iterator[tuple[int, bytes]]:
    """The lines of a text that are neither empty nor comments, with their numbers from 1."""
    parts = data.split(b"\n")
    rest = parts.pop()
    lines = [it[:-1] if it.endswith(b"\r") else it for it in parts] + ([rest] if rest else [])
    for number, line in enumerate(lines, 1):
        if line and not line.startswith(b"#"):
            yield number, line


NAME = r"[^ ()\n]+"
INTERFACE_LINE = re.compile(rf"(interface|extend) ({NAME}) ([0-9]{{1,10}})", re.DOTALL)
ARGUMENT = re.compile(rf"(\??)([iufsahonN])(?:\(({NAME})\))?", re.DOTALL)
MESSAGE_LINE = re.compile(
    rf"(request|event) ({NAME})((?: \??[iufsahonN](?:\({NAME}\))?)*?)( D)?(?: @([0-9]{{1,10}}))?",
    re.DOTALL,
)


def number_of(digits: str, line: int) -> int:
    if int(digits) > LARGEST:
        raise BadLine(line)
    return int(digits)


def kind_of(text: str, line: int) -> Kind:
    found = ARGUMENT.fullmatch(text)
    if not found:
        raise BadLine(line)
    null, letter, interface = found.groups()
    if (null and letter not in "so") or (interface is not None and letter not in "onN"):
        raise BadLine(line)
    if letter == "N" and interface is None:
        raise BadLine(line)
    return Kind(letter, bool(null), interface)


def parse_tables(data: bytes) -> list[Interface]:
    """What a text declares and extends, in order. Raises `BadLine`. Bytes above 0x7f are read as Latin-1
    letters."""
    interfaces: list[Interface] = []
    for number, data_ in lines_of(data):
        line = data_.decode("latin-1")
        if found := INTERFACE_LINE.fullmatch(line):
            form, name, version = found.groups()
            extends = form == "extend"
            version = number_of(version, number)
            interfaces.append(Interface(name, version, line=number, extends=extends))
        elif interfaces and (found := MESSAGE_LINE.fullmatch(line)):
            side, name, kinds, destroys, since = found.groups()
            kinds = [kind_of(it, number) for it in kinds.split(" ")[1:]]
            since = 1 if since is None else number_of(since, number)
            message = Message(name, kinds, bool(destroys), since, number)
            getattr(interfaces[-1], side).append(message)
        else:
            raise BadLine(number)
    return interfaces


def is_name(name: str) -> bool:
    return re.fullmatch("[a-z0-9_]{1,256}", name) is not None


def interface_breaks(place: int, interface: Interface, earlier: set[str]) -> Iterator[int]:
    """The rules that an interface's line breaks. `earlier` holds the names before it."""
    if not is_name(interface.name) or interface.name in earlier:
        yield 1
    if place >= 1024:
        yield 3
    if interface.version < 1:
        yield 8


# The interfaces that are the same in all tables.
FIXED = ("wl_display", "wl_registry", "wl_callback", "wl_fixes")


def is_made_by_server(name: str | None, by_name: dict[str | None, Interface]) -> bool:
    """Whether an event may make an object of the interface."""
    return name not in FIXED and not (name in by_name and by_name[name].is_ended_by_event())


def message_breaks(interface: Interface, side: str, place: int,
                   by_name: dict[str | None, Interface]) -> Iterator[int]:
    """The rules that the line of the message at this opcode breaks."""
    message = getattr(interface, side)[place]
    if not is_name(message.name) or message.name in (
        it.name for it in getattr(interface, side)[:place]
    ):
        yield 1
    if place >= 256 or len(message.kinds) > 20:
        yield 3
    made = [it for it in message.kinds if it.letter == "n"]
    if len(made) > (1 if side == "request" else 0):
        yield 4
    if any(it.interface is None for it in made):
        yield 5
    objects = [it.interface for it in message.kinds if it.letter == "o"]
    if side == "request" and None in objects:
        yield 6
    if side == "event":
        if message.destroys and interface.request:
            yield 7
    elif any(it in by_name and by_name[it].is_ended_by_event() for it in objects):
        yield 7
    if not 1 <= message.since <= interface.version:
        yield 8
    if any(it.interface not in by_name for it in message.kinds if it.interface is not None):
        yield 9
    by_server = [it.interface for it in message.kinds if it.letter == "N"]
    if len(by_server) > (1 if side == "event" else 0):
        yield 11
    elif not all(is_made_by_server(it, by_name) for it in by_server):
        yield 11


def clashes(core: list[Interface], old: Interface, side: str, message: Message) -> Iterator[int]:
    """The rules that a message breaks by what `core` has, added to its interface `old`."""
    if side == "request" and old.is_ended_by_event():
        yield 7
    if side == "event" and message.destroys:
        if any(it.is_of("o", old.name) for one in core for m in one.request for it in m.kinds):
            yield 7
        if any(it.is_of("N", old.name) for one in core for m in one.event for it in m.kinds):
            yield 11


class Joined:
    """Tables joined with what a text declares and extends: `whole`, and the origin of each message of the text
    in it. `wrong` has the extensions that break a rule by themselves, with the rule."""

    def __init__(self, core: Iterable[Interface], sections: Iterable[Interface]) -> None:
        self.whole: list[Interface] = []
        self.declared: dict[int, Interface] = {}  # the place of an interface, and what declared it
        # The place of an interface, a side and an opcode; and what said it at which index.
        self.said: dict[tuple[int, str, int], tuple[Interface, int]] = {}
        self.wrong: list[tuple[Interface, int]] = []
        places: dict[str, int] = {}  # of equal names the first
        for it in core:
            places.setdefault(it.name, len(self.whole))
            self.whole.append(replace(it, request=list(it.request), event=list(it.event)))
        for it in sections:
            place = places.get(it.name)
            if not it.extends:
                places.setdefault(it.name, len(self.whole))
                self.declared[len(self.whole)] = it
                self.whole.append(Interface(it.name, it.version, line=it.line))
                self.add(len(self.whole) - 1, it)
                continue
            if it.name in FIXED:
                self.wrong.append((it, 2))
            elif place is None:
                self.wrong.append((it, 9))
            elif it.version < self.whole[place].version:
                self.wrong.append((it, 8))
            if place is not None:
                self.whole[place].version = max(self.whole[place].version, it.version)
                self.add(place, it)

    def add(self, place: int, section: Interface) -> None:
        for side in ("request", "event"):
            messages = getattr(self.whole[place], side)
            for index, message in enumerate(getattr(section, side)):
                self.said[place, side, len(messages)] = section, index
                messages.append(message)


def breaks(core: list[Interface], sections: list[Interface]) -> Iterator[tuple[Interface, str | None, int, int]]:
    """Each rule that a line of these interfaces and extensions breaks, after the interfaces `core`: the
    interface or extension; for the line of a message its side and its index there, otherwise None and 0; and
    the rule."""
    joined = Joined(core, sections)
    yield from ((section, None, 0, rule) for section, rule in joined.wrong)
    by_name: dict[str | None, Interface] = {}
    for interface in joined.whole:
        by_name.setdefault(interface.name, interface)
    names = {it.name for it in core}
    for place, section in joined.declared.items():
        for rule in interface_breaks(place, joined.whole[place], names):
            yield section, None, 0, rule
        names.add(section.name)
    for (place, side, opcode), (section, index) in joined.said.items():
        interface = joined.whole[place]
        for rule in message_breaks(interface, side, opcode, by_name):
            yield section, side, index, rule
        if place < len(core):
            for rule in clashes(core, core[place], side, getattr(interface, side)[opcode]):
                yield section, side, index, rule


def core_tables() -> list[Interface]:
    """The core interfaces, whose text lies beside the folder of the tools."""
    folder = os.path.dirname(os.path.dirname(os.path.dirname(os.path.realpath(__file__))))
    with open(f"{folder}/protocols/core/core.tables", "rb") as file:
        return parse_tables(file.read())


def read_more(tables: list[Interface], data: bytes) -> list[Interface]:
    """`tables` extended by the text, and followed by those that it declares. Raises `BadLine` or
    `BadTable`."""
    more = parse_tables(data)
    broken = [
        ((interface if side is None else getattr(interface, side)[opcode]).line, rule)
        for interface, side, opcode, rule in breaks(tables, more)
    ]
    if broken:
        raise BadTable(*min(broken))
    return Joined(tables, more).whole
