"""Tells apart the connections in a log of WAYLAND_DEBUG (debug_lines.py). A line goes to the newest connection of its
process, and of its side of the connection. A log without processes may have several connections whose lines nothing
tells apart: there a line goes to the newest one that has its objects."""

import bisect
from collections.abc import Iterable, Iterator
from dataclasses import dataclass, field

from .debug_lines import Reading, Told

DISPLAY = 1
FIRST_SERVER_ID = 0xFF000000
# Among so many of the newest connections one is looked for that has a line's objects.
MOST_LOOKED_AT = 64


@dataclass
class Entry:
    """A line of a connection; `reading` is None if its message is not known."""

    told: Told
    reading: Reading | None
    time: int
    lacks: str = ""  # why nothing is judged from here on


@dataclass
class Session:
    """The lines of a connection. `held` has the interfaces of the objects, as far as they are known."""

    writer: str
    is_client: bool  # which side has printed them
    entries: list[Entry] = field(default_factory=list)
    held: dict[int, str] = field(default_factory=dict)
    freed: set[int] = field(default_factory=set)

    def fits(self, told: Told, reading: Reading | None) -> bool:
        """Whether the line names objects of this connection."""
        if told.id != DISPLAY and told.interface and not told.interface.startswith("["):
            if self.held.get(told.id) != told.interface:
                return False
        for letter, interface, number in reading.objects if reading else ():
            if letter == "o" and number != DISPLAY and self.held.get(number) != interface:
                return False
            if letter == "n" and number in self.held and number not in self.freed:
                return False
        deleted = deleted_by(told, reading)
        return deleted is None or deleted in self.held

    def add(self, told: Told, reading: Reading | None) -> Entry:
        entry = Entry(told, reading, told.time)
        self.entries.append(entry)
        for letter, interface, number in reading.objects if reading else ():
            if letter in "nN":
                self.held[number] = interface
                self.freed.discard(number)
        if (deleted := deleted_by(told, reading)) is not None:
            self.freed.add(deleted)
        return entry


def deleted_by(told: Told, reading: Reading | None) -> int | None:
    """The id that a wl_display.delete_id names; None if it is another message."""
    if reading and (told.interface, told.name) == ("wl_display", "delete_id"):
        return int(reading.values[0])
    return None


def begins(told: Told, reading: Reading | None) -> bool:
    """Whether a message may be the first of a connection: a request for wl_display that makes an object with id 2."""
    if reading is None or told.interface != "wl_display" or not reading.spec.is_request:
        return False
    return [number for _, _, number in reading.objects] == [2]


class Writer:
    """A process, or whatever writes to a log without saying which process it is."""

    def __init__(self, name: str) -> None:
        self.name = name
        self.sessions: dict[bool, list[Session]] = {}  # by whether the client's side has printed it

    def is_client(self, told: Told) -> tuple[bool, Reading | None]:
        """Which side has printed a line, and its message. A side prints an arrow before what it sends."""
        sides = [(it.spec.is_request == told.is_sent, it) for it in told.readings]
        if told.interface.startswith("["):
            return True, None
        if not sides:
            its = [side for side, its in self.sessions.items() if its[-1].fits(told, None)]
            return (its or [*self.sessions] or [True])[0], None
        if len(sides) == 1:
            return sides[0]
        fitting = [it for it in sides if self.sessions.get(it[0]) and self.sessions[it[0]][-1].fits(told, it[1])]
        return (fitting or sides)[0]

    def add(self, told: Told) -> Session | None:
        """Adds a line to a connection. Returns the connection that it begins, if it does."""
        if not told.interface:
            for its in self.sessions.values():
                its[-1].add(told, None).lacks = f"line {told.line} of the log cannot be read"
            return None
        side, reading = self.is_client(told)
        its = self.sessions.setdefault(side, [])
        if not its or (begins(told, reading) and 2 not in its[-1].freed):
            return self.begin(its, Session(self.name, side), told, reading)
        session = its[-1]
        if not session.fits(told, reading):
            session = next((it for it in its[:-MOST_LOOKED_AT:-1] if it.fits(told, reading)), session)
        session.add(told, reading)
        return None

    def begin(self, its: list[Session], begun: Session, told: Told, reading: Reading | None) -> Session:
        entry = begun.add(told, reading)
        mixed = "the log has several connections, and does not say which lines are whose"
        if its:
            entry.lacks = mixed
        if len(its) == 1:
            its[0].entries.append(Entry(Told(told.line, told.time, self.name), None, told.time, mixed))
        its.append(begun)
        if not entry.lacks and not begins(told, reading):
            entry.lacks = "the log does not have the beginning of the connection"
        return begun


def sessions_of(lines: Iterable[Told]) -> list[Session]:
    """The connections, in the order in which they begin."""
    writers: dict[str, Writer] = {}
    found: list[Session] = []
    for told in lines:
        # A line that cannot be read may be any process's.
        to = writers.values() if not told.interface and not told.writer else [
            writers.setdefault(told.writer, Writer(told.writer))]
        for writer in to:
            if begun := writer.add(told):
                found.append(begun)
    return found


@dataclass
class Uses:
    """Where an id occurs in a connection: where it is made, and of which interface; named; given back by delete_id; and
    the events for it, each with the interface that is printed."""

    made: list[int] = field(default_factory=list)
    interfaces: list[str] = field(default_factory=list)
    named: list[int] = field(default_factory=list)
    events: list[tuple[int, str]] = field(default_factory=list)
    deleted: list[int] = field(default_factory=list)


def uses_of(entries: list[Entry]) -> dict[int, Uses]:
    uses: dict[int, Uses] = {}
    for at, entry in enumerate(entries):
        told = entry.told
        if not told.interface:
            continue
        target = uses.setdefault(told.id, Uses())
        target.named.append(at)
        if entry.reading and not entry.reading.spec.is_request:
            target.events.append((at, told.interface))
        for letter, interface, number in entry.reading.objects if entry.reading else ():
            its = uses.setdefault(number, Uses())
            if letter == "o":
                its.named.append(at)
            else:
                its.made.append(at)
                its.interfaces.append(interface)
        if (deleted := deleted_by(told, entry.reading)) is not None:
            uses.setdefault(deleted, Uses()).deleted.append(at)
    return uses


def place_of(its: Uses, life: int, deleted: int) -> float:
    """Where a delete_id belongs that ends this life of its id: after all that names the object, and before the id is
    used again."""
    begin = its.made[life] if life < len(its.made) else deleted
    again = its.made[life + 1] if life + 1 < len(its.made) else float("inf")
    if deleted > again:
        return again - 0.5
    behind = bisect.bisect_left(its.named, again)
    last = its.named[behind - 1] if behind else -1
    return last + 0.5 if last > max(begin, deleted) else deleted


def late_events(its: Uses, life: int) -> Iterator[int]:
    """The events for the object of this life that are printed when its id is used again, for another interface."""
    if life + 1 >= len(its.made) or its.interfaces[life] == its.interfaces[life + 1]:
        return
    end = its.made[life + 2] if life + 2 < len(its.made) else float("inf")
    for index in range(bisect.bisect_left(its.events, (its.made[life + 1], "")), len(its.events)):
        at, interface = its.events[index]
        if at > end:
            return
        if interface == its.interfaces[life]:
            yield at


def places_of(entries: list[Entry]) -> list[float]:
    """Where each entry belongs among the others."""
    places: list[float] = list(range(len(entries)))
    for its in uses_of(entries).values():
        if its.deleted and (not its.made or its.deleted[0] < its.made[0]):
            its.made.insert(0, -1)
            its.interfaces.insert(0, "")
        life = 0
        for deleted in its.deleted:
            while life + 2 < len(its.made) and its.made[life + 2] < deleted:
                life += 1
            places[deleted] = place_of(its, life, deleted)
            for at in late_events(its, life):
                places[at] = places[deleted] - 0.25
            life += 1
    return places


def as_they_passed(session: Session) -> list[Entry]:
    """The entries in an order in which they may have passed. A client acts on each delete_id before it acts on events
    that came earlier, and prints both then. Waywire's own libwayland-client uses an id again once it has read the
    delete_id, so it may print that or earlier events later."""
    if not session.is_client:
        return session.entries
    places = places_of(session.entries)
    ordered, latest = [], 0
    for at in sorted(range(len(places)), key=places.__getitem__):
        entry = session.entries[at]
        entry.time = latest = max(latest, entry.time if places[at] == at else 0)
        ordered.append(entry)
    return ordered
