"""Reads the lines that libwayland 1.21 to 1.24 prints with WAYLAND_DEBUG, of clients and of servers. Other lines may
stand between them. What an argument is, the tables say: a string is printed without escapes, so it may have quotes,
commas and line feeds."""

import functools
import re
from collections.abc import Iterator
from dataclasses import dataclass, field

from .table_text import Interface, Kind, Message

TIME = re.compile(rb"\[ *(\d{1,10})[.,](\d{3})\] ")
# What precedes the object: in any order a thread, the name of a queue, that the event is discarded, the arrow.
FRONT = re.compile(rb" *((?:(?:TID#\d+|\{[^}\n]*\}|discarded|->) +)*)(\w+|\[\w+\])[@#](-?\d+)\.(\w+|\[event \d+\])\(")
# What journald and syslog write in front of a line: a program and its process.
WRITER = re.compile(rb"([^\s\[\]]+)\[(\d+)\]: *\Z")
COLOURS = re.compile(rb"\x1b\[[0-9;]*m")
# The time is a 32-bit number of microseconds.
WRAPS = 2**32
# A string has at most so many lines, and a message so many bytes.
MOST_LINES = 256
MOST_BYTES = 65532

BOUND = rb'"(.*?)", (\d+), new id \[unknown\][@#](\d+)'
FORMS = {
    "i": rb"(-?\d+)",
    "u": rb"(\d+)",
    "f": rb"(-?\d+[.,]\d+)",
    "s": rb'(".*?"|nil)',
    "o": rb"(nil|(?:\w+|\[\w+\])[@#]\d+)",
    "n": rb"new id (?:\w+|\[\w+\])[@#](\d+|nil)",
    "N": rb"new id (?:\w+|\[\w+\])[@#](\d+|nil)",
    "a": rb"(array\[\d+\]|nil)",
    "h": rb"fd (-?\d+)",
}


@dataclass(frozen=True)
class Spec:
    """A message of the tables, and the form of its arguments in a log."""

    is_request: bool
    opcode: int
    message: Message
    form: re.Pattern[bytes]


@dataclass(frozen=True)
class Reading:
    """A line's message, and its arguments as they were printed; that of a bind has three values."""

    spec: Spec
    values: tuple[bytes, ...]

    def arguments(self) -> Iterator[tuple[Kind, tuple[bytes, ...]]]:
        """Each argument's kind, and what was printed of it."""
        at = 0
        for kind in self.spec.message.kinds:
            count = 3 if is_bound(kind) else 1
            yield kind, self.values[at : at + count]
            at += count

    @functools.cached_property
    def objects(self) -> tuple[tuple[str, str, int], ...]:
        """The objects that the message names or makes: the letter of the argument, the interface, and the id. Null is
        none of them."""
        found = []
        for kind, values in self.arguments():
            printed = values[-1].decode("utf-8", "replace")
            if is_bound(kind):
                found.append((kind.letter, values[0].decode("utf-8", "replace"), int(printed)))
            elif kind.letter in "nN" and printed != "nil":
                found.append((kind.letter, kind.interface or "", int(printed)))
            elif kind.letter == "o" and printed != "nil":
                interface, number = printed.replace("#", "@").rsplit("@", 1)
                found.append((kind.letter, interface, int(number)))
        return tuple(found)


@dataclass
class Told:
    """A line of the log. It has no reading if the tables do not have its message, or if it does not tell it, and no
    object if it begins with a time and could not be read at all."""

    line: int
    time: int  # in microseconds after the first line
    writer: str
    front: bytes = b""
    interface: str = ""
    id: int = 0
    name: str = ""
    text: str = ""
    readings: list[Reading] = field(default_factory=list)

    @property
    def is_sent(self) -> bool:
        return b"->" in self.front


def is_bound(kind: Kind) -> bool:
    """Whether it is a new id of any interface, as in wl_registry.bind."""
    return kind.letter == "n" and kind.interface is None


def form_of(message: Message) -> re.Pattern[bytes]:
    forms = (BOUND if is_bound(it) else FORMS[it.letter] for it in message.kinds)
    return re.compile(b", ".join(forms) + rb"\)\s*", re.DOTALL)


def specs_of(tables: list[Interface]) -> dict[tuple[str, str], list[Spec]]:
    """The messages by their interfaces and names. A request and an event may have the same name."""
    specs: dict[tuple[str, str], list[Spec]] = {}
    for interface in tables:
        for is_request, messages in ((True, interface.request), (False, interface.event)):
            for opcode, it in enumerate(messages):
                spec = Spec(is_request, opcode, it, form_of(it))
                specs.setdefault((interface.name, it.name), []).append(spec)
    return specs


def writer_of(line: bytes, time: re.Match[bytes]) -> str:
    """The program and the process in front of the time of a line; empty if there are none."""
    found = WRITER.search(line, 0, time.start())
    return " ".join(it.decode("utf-8", "replace") for it in found.groups()) if found else ""


class Log:
    """The lines of a log. `unread` has the numbers of those that begin with a time and could not be read."""

    def __init__(self, data: bytes, tables: list[Interface]) -> None:
        self.lines = [it.removesuffix(b"\r") for it in data.split(b"\n")]
        self.specs = specs_of(tables)
        self.unread: list[int] = []
        self.first: int | None = None
        self.latest = 0

    def time_of(self, found: re.Match[bytes]) -> int:
        """The time since the first line. It does not go back, except by a little where threads print."""
        stamp = (int(found[1]) * 1000 + int(found[2])) % WRAPS
        if self.first is None:
            self.first = stamp
        since = (stamp - self.first) % WRAPS
        turns = (self.latest - since + WRAPS // 2) // WRAPS
        self.latest = max(self.latest, since + turns * WRAPS)
        return self.latest

    def told(self) -> Iterator[Told]:
        """What each line says that begins with a time, or has one before a message."""
        at = 0
        while at < len(self.lines):
            line = self.lines[at]
            at += 1
            if b"\x1b" in line:
                line = COLOURS.sub(b"", line)
            for found in TIME.finditer(line):
                if front := FRONT.match(line, found.end()):
                    told, more = self.message(line, at, found, front)
                    at += more
                    yield told
                    break
            else:
                begin = TIME.search(line)
                if begin and (not begin.start() or writer_of(line, begin)):
                    self.unread.append(at)
                    yield Told(at, self.latest, writer_of(line, begin))

    def message(self, line: bytes, at: int, found: re.Match[bytes], front: re.Match[bytes]) -> tuple[Told, int]:
        """The message of a line, and how many of the lines after it belong to a string of its."""
        told = Told(at, self.time_of(found), writer_of(line, found), front[1], front[2].decode(),
                    int(front[3]) % 2**32, front[4].decode())
        told.text = line[front.start(2):].decode("utf-8", "replace")
        specs = self.specs.get((told.interface, told.name), [])
        rest = line[front.end():]
        for more in range(MOST_LINES):
            for spec in specs:
                if values := spec.form.fullmatch(rest):
                    told.readings.append(Reading(spec, values.groups()))
            behind = self.lines[at + more] if at + more < len(self.lines) else None
            if told.readings or not specs or behind is None or TIME.search(behind) or len(rest) > MOST_BYTES:
                break
            rest += b"\n" + behind
        if told.readings:
            return told, more
        if specs or not told.text.rstrip().endswith(")"):
            self.unread.append(at)
            told.interface = ""
        return told, 0
