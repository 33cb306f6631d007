"""A lawful client and a lawful server that send random messages, as a recorder between them sees it.

`Play` makes a session with the tables of `everything()`: its recording, and for each message what it really is.
The same seed and the same number of steps make the same session; fewer steps make a shorter one. `part_of` makes
a text of a part of these tables: it lacks some interfaces, and has others in an older version."""

import random
import struct
from collections import deque
from dataclasses import dataclass, field

from tools.waywire import table_text

FIRST_OF_SERVER = 0xFF000000
# Client-made and server-made objects, each of interfaces that a request can end, that an event can end, and that
# no message of an older version can. The core's have newer versions too.
TEXT = """
interface t_manager 4
request make n(t_thing)
request destroy D
request wait n(t_once)
request deep n(t_deep) @2
request secret n(t_secret) @3
event offer N(t_offer)
event seen ?o(t_thing)
event head N(t_head) @2
event hidden N(t_hidden) @3
event word s u @4
interface t_thing 3
request destroy D
request link ?o(t_thing) u
request child n(t_thing)
request feed s h @2
request spawn n(t_secret) @3
event moved i f
event met o(t_thing) o(t_thing)
event given N(t_offer) @2
event found o @3
interface t_once 1
event done u D
interface t_offer 3
request destroy D
request accept u ?s
request shut D @2
request clone n(t_thing) @2
event type s
event part N(t_offer) @2
event piece h @3
interface t_head 3
request release D @3
event name s
event finished
event mode N(t_mode) @2
event lit o(t_mode) @2
interface t_mode 1
event size i i
event finished
interface t_deep 1
event beat a
event gone D
interface t_secret 2
request destroy D
request make n(t_thing)
request pass o(t_thing) h
request open n(t_secret) @2
event offer N(t_offer)
event hidden N(t_hidden)
event note s
event told o(t_thing) @2
interface t_hidden 1
request destroy D
event note s
event offer N(t_offer)
extend wl_compositor 99
extend wl_surface 99
request glow n(t_secret) @50
request shut D @60
event lit o(t_thing) @50
event lent N(t_offer) @70
"""
# The version of both of the core's interfaces that the text extends.
CORE_VERSION = 6
GLOBALS = ("t_manager", "t_thing", "t_secret", "wl_compositor", "wl_fixes")
# Messages that the two play by a rule of their own, or never.
OWN = {("wl_display", "event"), ("wl_registry", "request"), ("wl_registry", "event")}


def everything():
    """All interfaces by their names, as the client and the server know them."""
    return {it.name: it for it in table_text.read_more(table_text.core_tables(), TEXT.encode())}


def is_covered(interface, version, known, tables):
    """Whether what an interface names up to a version is known, and what it makes in no older version than a
    protocol's file would have it: an object has the version of what made it."""
    for _, message in interface.messages():
        for kind in message.kinds if message.since <= version else ():
            least = min(version, tables[kind.interface].version) if kind.letter in "nN" else 1
            if kind.interface in known and known[kind.interface] < least:
                return False
    return True


def part_of(tables, chance):
    """A part of the text: some interfaces, in some versions. None of them names an interface that is left out."""
    sections = table_text.parse_tables(TEXT.encode())
    least = {it.name: CORE_VERSION if it.extends else 0 for it in sections}
    known = {it.name: it.version for it in sections}
    for it in chance.sample(sections, chance.randint(0, 3)):
        known[it.name] = chance.choice((least[it.name], chance.randint(least[it.name], it.version)))
    before = None
    while before != known:
        before = dict(known)
        for it in known:
            while known[it] > least[it] and not is_covered(tables[it], known[it], known, tables):
                known[it] -= 1
    lines = []
    for it in sections:
        if known[it.name] > least[it.name]:
            lines.append(f"{'extend' if it.extends else 'interface'} {it.name} {known[it.name]}")
            lines += [f"{side} {one}" for side, one in it.messages() if one.since <= known[it.name]]
    return "".join(f"{it}\n" for it in lines)


@dataclass(eq=False)
class Thing:
    """An object, as it truly is: its birth is the number of the message that made it."""

    interface: table_text.Interface
    version: int
    id: int
    birth: int = 0
    ended_by: object = None  # the message that destroyed it, once that has passed

    def is_ended_by_request(self):
        return any(it.destroys and it.since <= self.version for it in self.interface.request)

    def named(self):
        return self.interface.name, self.id, self.birth


@dataclass(eq=False)
class Said:
    """A message, as it truly is. What is known once it has passed is written then."""

    sender: str  # as in a recording
    target: Thing
    opcode: int
    name: str
    kinds: list
    values: list  # an object's is a Thing, or None
    made: Thing | None = None
    destroyed: Thing | None = None
    freed: Thing | None = None
    data: bytes = b""
    number: int = 0
    index: int = 0
    offset: int = 0
    piece: int = 0
    descriptors: int = 0  # that came before its own
    was_ended: dict = field(default_factory=dict)  # of each object that it names, by which message

    def descriptor_count(self):
        return sum(it.letter == "h" for it in self.kinds)


def how_often(interface, message):
    """How often this message is written, relative to others."""
    if message.name in ("get_registry", "sync"):
        return 0.05
    if message.destroys:
        return 1 if interface in ("t_offer", "t_head") else 0.5
    if interface.startswith("wl_"):
        return 0.2
    return 2 if any(it.letter == "N" for it in message.kinds) else 1


def text_on_wire(words):
    if words is None:
        return bytes(4)
    data = words.encode() + b"\0"
    return struct.pack("<I", len(data)) + data + bytes(-len(data) % 4)


def on_wire(kind, value):
    """The bytes of an argument."""
    if kind.letter == "h":
        return b""
    if kind.letter == "s":
        return text_on_wire(value)
    if kind.letter == "a":
        return struct.pack("<I", len(value)) + value + bytes(-len(value) % 4)
    if kind.letter == "n" and kind.interface is None:
        return text_on_wire(value.interface.name) + struct.pack("<II", value.version, value.id)
    if kind.letter in "onN":
        return struct.pack("<I", value.id if value else 0)
    return struct.pack("<I", value % 2**32)


class Way:
    """What one side has said: queued, and then passed on its way to the other."""

    def __init__(self, sender):
        self.sender = sender
        self.queued = deque()
        self.passed = deque()
        self.bytes = 0  # of the first queued message, that have passed already
        self.count = self.offset = self.descriptors = 0


class Side:
    """What one side knows: its live objects by their ids, and what ids it may use."""

    def __init__(self, first, display):
        self.live = {1: display}
        self.free = []
        self.next = first

    def new_id(self, chance):
        if self.free and chance.random() < 0.7:
            return self.free.pop(chance.randrange(len(self.free)))
        self.next += 1
        return self.next - 1


class Play:
    """A session: `lines` is its recording, `said` its messages in the order in which they passed."""

    def __init__(self, tables, chance, steps):
        self.tables, self.chance = tables, chance
        display = Thing(tables["wl_display"], 1, 1)
        self.client, self.server = Side(2, display), Side(FIRST_OF_SERVER, display)
        self.ways = {">": Way(">"), "<": Way("<")}
        self.globals = [(1 + it, name, chance.randint(1, tables[name].version)) for it, name
                        in enumerate(GLOBALS)]
        self.announced, self.registries = [], []
        self.lines, self.said = [], []
        self.pieces = 0
        self.request(display, "get_registry")
        for _ in range(steps):
            self.step()
        while self.ways[">"].queued or self.ways["<"].queued:
            self.passes(chance.choice("><"))

    def step(self):
        does = self.chance.choices(("client", "server", ">", "<", "at server", "at client"),
                                   (5, 4, 3, 3, 4, 4))[0]
        if does == "client":
            self.client_speaks()
        elif does == "server":
            self.server_speaks()
        elif does in "><":
            self.passes(does)
        else:
            self.arrives(does)

    # ---- what is said

    def say(self, sender, target, opcode, values, **changes):
        side = "request" if sender == ">" else "event"
        message = getattr(target.interface, side)[opcode]
        said = Said(sender, target, opcode, message.name, message.kinds, values, **changes)
        body = b"".join(on_wire(kind, value) for kind, value in zip(message.kinds, values))
        said.data = struct.pack("<IHH", target.id, opcode, 8 + len(body)) + body
        self.ways[sender].queued.append(said)
        return said

    def opcode(self, target, side, name):
        return [it.name for it in getattr(target.interface, side)].index(name)

    def request(self, target, name):
        """A request with arguments at random, if it can be said."""
        self.speak(">", target, self.opcode(target, "request", name))

    def speak(self, sender, target, opcode):
        message = (target.interface.request if sender == ">" else target.interface.event)[opcode]
        mine = self.client if sender == ">" else self.server
        values, made = [], None
        for kind in message.kinds:
            if kind.letter in "nN":
                made = Thing(self.tables[kind.interface], target.version, 0)
                values.append(made)
                continue
            value = self.value(kind, mine)
            if value is None and not kind.null:
                return
            values.append(value)
        if made:
            made.id = mine.new_id(self.chance)
            mine.live[made.id] = made
        is_fixes = (target.interface.name, message.name) == ("wl_fixes", "destroy_registry")
        ended = values[0] if is_fixes else target if message.destroys else None
        self.say(sender, target, opcode, values, made=made, destroyed=ended)
        if ended:
            del mine.live[ended.id]
        if ended and sender == "<":
            self.delete(ended)
        if sender == "<" and message.name == "finished" and not target.is_ended_by_request():
            self.forget(target)

    def value(self, kind, mine):
        """A value at random; None for null, or if there is none."""
        if kind.null and self.chance.random() < 0.3:
            return None
        if kind.letter == "o":
            fit = [it for it in mine.live.values() if kind.interface in (None, it.interface.name)]
            return self.chance.choice(fit) if fit else None
        if kind.letter == "s":
            return "".join(self.chance.choices("abcxyz", k=self.chance.randint(0, 9)))
        if kind.letter == "a":
            return self.chance.randbytes(self.chance.randint(0, 9))
        if kind.letter == "h":
            return 0
        return self.chance.randint(-99 if kind.letter in "if" else 0, 99)

    def delete(self, ended):
        """The server's delete_id of a client's object."""
        self.say("<", self.server.live[1], 1, [ended.id], freed=ended)

    def forget(self, target):
        """The server ends an object of its own that no request can end."""
        del self.server.live[target.id]
        self.server.free.append(target.id)

    def client_speaks(self):
        registries = [it for it in self.client.live.values() if it.interface.name == "wl_registry"]
        often = 0.6 if len(self.client.live) < 8 else 0.1
        if registries and self.announced and self.chance.random() < often:
            self.bind(self.chance.choice(registries), *self.chance.choice(self.announced))
            return
        self.speaks_at_random(">", self.client)

    def bind(self, registry, name, interface, version):
        bound = Thing(self.tables[interface], self.chance.randint(1, version), self.client.new_id(self.chance))
        self.client.live[bound.id] = bound
        self.say(">", registry, 0, [name, bound], made=bound)

    def server_speaks(self):
        if self.registries and self.chance.random() < 0.03:
            self.say("<", self.chance.choice(self.registries), 1, [self.chance.choice(self.globals)[0]])
            return
        self.speaks_at_random("<", self.server)

    def speaks_at_random(self, sender, mine):
        side = "request" if sender == ">" else "event"
        can = [(target, opcode, how_often(target.interface.name, it)) for target in mine.live.values()
               if (target.interface.name, side) not in OWN
               for opcode, it in enumerate(getattr(target.interface, side)) if it.since <= target.version]
        can.append((None, 0, 0.5))
        target, opcode, _ = self.chance.choices(can, [it[2] for it in can])[0]
        if target:
            self.speak(sender, target, opcode)

    # ---- what passes

    def passes(self, sender):
        """A piece of what a side has said passes, cut anywhere."""
        way = self.ways[sender]
        waiting = sum(len(it.data) for it in way.queued) - way.bytes
        if not waiting:
            return
        length = self.chance.choice((waiting, self.chance.randint(1, waiting), min(waiting, 12)))
        self.pieces += 1
        data, tokens = b"", 0
        while length:
            it = way.queued[0]
            tokens += it.descriptor_count() if way.bytes == 0 else 0
            part = it.data[way.bytes : way.bytes + length]
            data += part
            length -= len(part)
            way.bytes += len(part)
            if way.bytes == len(it.data):
                self.note(way, way.queued.popleft())
                way.bytes = 0
        self.lines.append(f"{sender} {data.hex()}{f' +{tokens}' if tokens else ''}\n")

    def note(self, way, said):
        """A message has passed whole."""
        self.said.append(said)
        way.passed.append(said)
        way.count += 1
        said.number, said.index, said.offset = len(self.said), way.count, way.offset
        said.piece, said.descriptors = self.pieces, way.descriptors
        way.offset += len(said.data)
        way.descriptors += said.descriptor_count()
        if said.made:
            said.made.birth = said.number
        for it in (said.target, said.freed, said.destroyed, *said.values):
            if isinstance(it, Thing):
                said.was_ended[it] = it.ended_by
        if said.destroyed and not said.destroyed.ended_by:
            said.destroyed.ended_by = said

    # ---- what arrives

    def arrives(self, where):
        way = self.ways[">" if where == "at server" else "<"]
        for _ in range(self.chance.randint(1, 4)):
            if way.passed:
                said = way.passed.popleft()
                if way.sender == ">":
                    self.server_hears(said)
                else:
                    self.client_hears(said)

    def server_hears(self, said):
        if said.made:
            self.server.live[said.made.id] = said.made
            if said.made.interface.name == "wl_registry":
                self.announce(said.made)
        ended = said.destroyed
        if not ended:
            return
        del self.server.live[ended.id]
        if ended in self.registries:
            self.registries.remove(ended)
        if ended.id < FIRST_OF_SERVER:
            self.delete(ended)
        else:
            self.server.free.append(ended.id)

    def announce(self, registry):
        self.registries.append(registry)
        for name, interface, version in self.globals:
            self.say("<", registry, 0, [name, interface, version])

    def client_hears(self, said):
        if said.made:
            self.client.live[said.made.id] = said.made
        if said.destroyed:
            self.client.live.pop(said.destroyed.id, None)
        if said.freed:
            self.client.free.append(said.freed.id)
        if (said.target.interface.name, said.name) == ("wl_registry", "global"):
            self.announced.append(tuple(said.values))


def session(tables, seed, steps):
    """The session of a seed, and the table text that are known of it."""
    chance = random.Random(seed)
    part = part_of(tables, chance)
    return Play(tables, chance, steps), part
