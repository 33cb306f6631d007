"""Reads recordings in Python, and makes their traces and verdicts, as docs/FORMATS.md describes them.

This is the only reader of the wire beside the proved one. Tests compare the two. It was written from that page
alone, is slow, and has no bounds on memory. Tools decode messages with waywire_tables_decode, or read the output
of `waywire-inspect --json`. tools/waywire/table_text.py reads table texts."""

import re
from dataclasses import dataclass

from tools.waywire.table_text import BadLine, Interface, is_name, lines_of

MOST_IDS = 1_048_576
# The ids of the objects that the server makes.
FIRST_OF_SERVER, LAST_OF_SERVER = 0xFF000000, 0xFF0FFFFE
LIMIT = 4096

PIECE_LINE = re.compile(rb"([<>]) (-|(?:[0-9a-fA-F]{2})+)(?: \+([0-9]{1,5}))?")


def parse_recording(data):
    """The pieces of a recording: sign, bytes, tokens. Raises `BadLine`."""
    return list(pieces_of(data))


def pieces_of(data):
    """One piece after another. Raises `BadLine` behind the pieces before that line."""
    for number, line in lines_of(data):
        found = PIECE_LINE.fullmatch(line)
        count = int(found[3] or 0) if found else 0
        if not found or (found[3] and not 1 <= count <= 65535):
            raise BadLine(number)
        digits = b"" if found[2] == b"-" else found[2]
        yield found[1].decode(), bytes.fromhex(digits.decode()), count


class Fault(Exception):
    """The rule that a message breaks, as a verdict prints it, and what the command prints besides."""

    def __init__(self, rule, hint=""):
        super().__init__(rule)
        self.hint = hint


class Malformed(Exception):
    """What is wrong with the bytes of an argument, A1 to A4."""


@dataclass
class Made:
    """An object: what it is, and whether a message has destroyed it."""

    interface: Interface
    version: int
    is_ending: bool = False

    def is_ended_by_request(self):
        return any(it.destroys and it.since <= self.version for it in self.interface.request)


class Reader:
    """The body of a message, read value by value."""

    def __init__(self, body):
        self.body, self.place = body, 0

    def word(self):
        if len(self.body) - self.place < 4:
            raise Malformed("A1")
        self.place += 4
        return int.from_bytes(self.body[self.place - 4 : self.place], "little")

    def bytes(self):
        length = self.word()
        padded = length + -length % 4
        if len(self.body) - self.place < padded:
            raise Malformed("A1")
        self.place += padded
        return self.body[self.place - padded : self.place - padded + length]


def text_of(data, null, rest=lambda: ()):
    """The bytes of a string that was read as an array, and the bytes after it."""
    behind = rest()
    if not data and not null:
        raise Malformed("A2")
    if data and data[-1] != 0:
        raise Malformed("A3")
    if 0 in data[:-1]:
        raise Malformed("A4")
    return data[:-1] if data else None, *behind


def quoted(data):
    if data is None:
        return "nil"
    plain = (chr(it) if 0x20 <= it <= 0x7E and it not in b'"\\' else f"\\x{it:02x}" for it in data)
    return f'"{"".join(plain)}"'


def fixed(word):
    raw = word - 2**32 if word >= 2**31 else word
    return f"{'-' if raw < 0 else ''}{abs(raw) // 256}.{abs(raw) % 256 * 390625:08}"


class Session:
    """A recorded session, judged message by message (docs/FORMATS.md, Verdicts)."""

    def __init__(self, tables, limit=LIMIT):
        self.tables, self.limit = {}, limit
        for it in tables:
            self.tables.setdefault(it.name, it)
        self.held = {1: Made(self.tables["wl_display"], 1)}
        self.used, self.used_by_server = 1, 0
        self.globals = set()
        self.lines = []
        self.bytes = {">": b"", "<": b""}
        self.offset = {">": 0, "<": 0}
        self.count = {">": 0, "<": 0}
        self.tokens = {">": 0, "<": 0}
        self.taken = {">": 0, "<": 0}
        self.is_over = False
        self.broken = None
        self.hint = ""

    def add(self, sign, data, tokens):
        """A piece, and the messages that it completes."""
        self.bytes[sign] += data
        self.tokens[sign] += tokens
        while not self.is_over and (message := self.front(sign)):
            try:
                self.judge(sign, *message)
            except Fault as fault:
                number = self.count[sign] + 1
                where = f"{sign} message {number} at byte {self.offset[sign]}"
                self.broken = f"broken: {where}: {fault}"
                self.hint = fault.hint
                self.is_over = True

    def front(self, sign):
        """Target, opcode, size and body of the message in front, if it is whole or its size is bad."""
        data = self.bytes[sign]
        if len(data) < 8:
            return None
        target, second = (int.from_bytes(data[it : it + 4], "little") for it in (0, 4))
        size = second >> 16
        if self.is_size(size) and len(data) < size:
            return None
        return target, second & 0xFFFF, size, data[8:size]

    def is_size(self, size):
        return 8 <= size <= self.limit and size % 4 == 0

    def judge(self, sign, target, opcode, size, body):
        if not self.is_size(size):
            raise Fault("F1 bad message size")
        to = self.known(sign, target)
        if to is None:
            raise Fault("F2 unknown object")
        messages = to.interface.request if sign == ">" else to.interface.event
        if opcode >= len(messages) or messages[opcode].since > to.version:
            raise Fault("F3 unknown message")
        message = messages[opcode]
        values, made, numbers = self.arguments(sign, to, message, body)
        tokens = sum(it.letter == "h" for it in message.kinds)
        if tokens > self.tokens[sign] - self.taken[sign]:
            raise Fault("F8 missing descriptor")
        if (to.interface.name, message.name) == ("wl_registry", "bind"):
            made = self.bound(numbers)
        arrow = "->" if sign == ">" else "<-"
        values = [it if it != "fd" else self.take(sign) for it in values]
        name = f"{to.interface.name}@{target}.{message.name}"
        self.lines.append(f"{arrow} {name}({', '.join(values)})")
        self.count[sign] += 1
        self.offset[sign] += size
        self.bytes[sign] = self.bytes[sign][size:]
        self.follow(sign, target, to, message, made, numbers)

    def take(self, sign):
        self.taken[sign] += 1
        return f"fd {self.taken[sign]}"

    def known(self, sign, number):
        """The object that a message in this direction may name by the number."""
        found = self.held.get(number)
        return None if found is None or (sign == ">" and found.is_ending) else found

    def arguments(self, sign, to, message, body):
        """The arguments as they are printed, the new id with its object, and the plain values."""
        reader, made = Reader(body), None
        printed, values = [], []
        is_error = sign == "<" and (to.interface.name, message.name) == ("wl_display", "error")
        for place, kind in enumerate(message.kinds):
            try:
                value = self.value(reader, kind, is_error)
            except Malformed as cause:
                raise Fault(f"F4 malformed argument {place} ({cause})") from cause
            values.append(value)
            if kind.letter == "o":
                printed.append(self.object(sign, kind, value, place, is_error))
            elif kind.letter in "nN":
                number = value if kind.interface is not None else value[2]
                (self.fresh if kind.letter == "n" else self.fresh_of_server)(number, place)
                name = kind.interface or value[0].decode("latin-1")
                new = f"new id {name}@{number}"
                if kind.interface is None:
                    new = f"{quoted(value[0])}, {value[1]}, {new}"
                else:
                    made = (number, Made(self.tables[name], to.version))
                printed.append(new)
            else:
                printed.append(self.plain(kind, value))
        if reader.place != len(body):
            raise Fault("F7 trailing bytes")
        return printed, made, values

    def value(self, reader, kind, is_error):
        """The value in the bytes in front."""
        if kind.letter == "h":
            return None
        if kind.letter == "a":
            return reader.bytes()
        if kind.letter == "s":
            return text_of(reader.bytes(), kind.null)[0]
        if kind.letter == "n" and kind.interface is None:
            return text_of(reader.bytes(), False, lambda: (reader.word(), reader.word()))
        word = reader.word()
        if kind.letter == "o" and word == 0 and not kind.null and not is_error:
            raise Malformed("A2")
        return word

    def plain(self, kind, value):
        if kind.letter == "h":
            return "fd"
        if kind.letter == "s":
            return quoted(value)
        if kind.letter == "a":
            return f"array[{len(value)}]"
        if kind.letter == "f":
            return fixed(value)
        return str(value - 2**32 if kind.letter == "i" and value >= 2**31 else value)

    def object(self, sign, kind, number, place, is_error):
        if number == 0:
            return "nil"
        found = self.known(sign, number)
        if is_error and found is None:
            return f"unknown@{number}"
        if found is None or kind.interface not in (None, found.interface.name):
            raise Fault(f"F5 bad object, argument {place}")
        return f"{found.interface.name}@{number}"

    def fresh(self, number, place):
        """Judges a new id of a request. Ids from 1 to `used` were used."""
        if number == 0 or number in self.held or number > self.used + 1:
            raise Fault(f"F6 bad new id, argument {place}")
        if number > MOST_IDS:
            raise Fault("F10 too many objects")

    def fresh_of_server(self, number, place):
        """Judges a new id of an event. The new object may replace an object that is ending, or one that no request
        destroys: the server ends such an object on its own."""
        if not self.is_free_at_server(number):
            raise Fault(f"F6 bad new id, argument {place}")
        if number > LAST_OF_SERVER:
            raise Fault("F10 too many objects")

    def is_free_at_server(self, number):
        following = FIRST_OF_SERVER + self.used_by_server
        if not FIRST_OF_SERVER <= number < following:
            return number == following
        there = self.held[number]
        return there.is_ending or not there.is_ended_by_request()

    def bound(self, values):
        """The new object of a bind."""
        name, (interface, version, number) = values
        lawful = any(
            (name, interface) == it[:2] and 1 <= version <= it[2] for it in self.globals
        )
        interface = interface.decode("latin-1")
        found = self.tables.get(interface)
        if not lawful or found is None or version > found.version:
            raise Fault("F9 bad bind", hint(found, interface, version))
        return number, Made(found, version)

    def follow(self, sign, target, to, message, made, values):
        """Carries out the message."""
        if made is not None:
            number, new = made
            self.held[number] = new
            if number < FIRST_OF_SERVER:
                self.used = max(self.used, number)
            else:
                self.used_by_server = max(self.used_by_server, number - FIRST_OF_SERVER + 1)
        if message.destroys:
            to.is_ending = True
        if (to.interface.name, message.name) == ("wl_fixes", "destroy_registry"):
            self.held[values[0]].is_ending = True
        if sign == "<" and to.interface.name == "wl_display":
            if message.name == "delete_id" and 1 < values[0] < FIRST_OF_SERVER:
                self.held.pop(values[0], None)
            self.is_over = message.name == "error"
        if sign == "<" and (to.interface.name, message.name) == ("wl_registry", "global"):
            self.globals.add(tuple(values))

    def verdict(self):
        if self.broken is not None:
            return self.broken
        left = [len(self.bytes[it]) for it in "><"]
        counts = f"{self.count['>']} requests, {self.count['<']} events"
        return f"lawful: {counts}, {left[0]} and {left[1]} bytes left"


def hint(found, name, version):
    """What the command prints to standard error after the verdict on a bind that its tables do not know. `found` is
    the interface of this name in the tables, or None."""
    if found is None:
        return f"waywire: no table has {name}: see --tables\n" if is_name(name) else ""
    if version <= found.version:
        return ""
    known = f"the tables have {name} up to version {found.version}"
    return f"waywire: {known}, and it is bound at {version}: see --tables\n"


def session_of(tables, data, limit=LIMIT):
    """The session of a recording. Raises `BadLine`."""
    session = Session(tables, limit)
    for piece in parse_recording(data):
        session.add(*piece)
    return session


def streamed(tables, data, limit=LIMIT):
    """The session of a recording, up to its first bad line, and that line's `BadLine`, or None."""
    session = Session(tables, limit)
    try:
        for piece in pieces_of(data):
            session.add(*piece)
    except BadLine as error:
        return session, error
    return session, None


def judged(tables, data, limit=LIMIT):
    """The lines of the trace of a recording, and its verdict. Raises `BadLine`."""
    session = session_of(tables, data, limit)
    return session.lines, session.verdict()
