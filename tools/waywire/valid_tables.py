"""The interfaces of Wayland protocol files as valid tables: what a table text may have of them."""

from collections import defaultdict
from collections.abc import Iterable, Iterator, Sequence
from dataclasses import replace
from itertools import takewhile
from typing import NamedTuple

from . import protocol, table_text
from .table_text import Interface, Kind, Message

LETTERS = {
    "int": "i",
    "uint": "u",
    "fixed": "f",
    "string": "s",
    "object": "o",
    "new_id": "n",
    "array": "a",
    "fd": "h",
}


class LeftOut(NamedTuple):
    """What was left out and why: a message, or, if that is None, a whole interface."""

    interface: Interface
    side: str
    message: Message | None
    why: str

    def __str__(self) -> str:
        what = self.interface.name if self.message is None else f"{self.side} {self.message}"
        return f"{what}: left out, {self.why}"


class Undestroying(NamedTuple):
    """An event that the file has as a destructor, and the text as a plain event; and the rule why."""

    interface: Interface
    message: Message
    rule: int

    def __str__(self) -> str:
        return f"event {self.message}: kept without D, which breaks V{self.rule}"


class Break(NamedTuple):
    """A rule that an interface breaks, if the side is empty, or the message with this opcode of one side of it."""

    interface: Interface
    side: str
    opcode: int
    rule: int


def kind_of(side: str, argument: protocol.Argument) -> Kind:
    """The kind of an argument. The object that an event makes is `N`, if its interface is given."""
    if side == "event" and argument.type == "new_id" and argument.interface is not None:
        return Kind("N", interface=argument.interface)
    return Kind(LETTERS[argument.type], argument.null, argument.interface)


def message_of(side: str, message: protocol.Message) -> Message:
    kinds = [kind_of(side, it) for it in message.args]
    return Message(message.name, kinds, message.destroys, message.since, message.line)


def check_changes(path: str, old: Interface, new: Interface) -> None:
    """Raises `BadProtocol` if a message differs between two versions of an interface, or if the newer version
    lacks a message."""
    for side in ("request", "event"):
        olds, news = getattr(old, side), getattr(new, side)
        for was, now in zip(olds, news):
            if str(was) != str(now):
                raise protocol.BadProtocol(
                    f"{path}: line {now.line}: {new.name} {side} {now}: the core tables have {was}"
                )
        if len(news) < len(olds) and new.version > old.version:
            raise protocol.BadProtocol(f"{path}: line {new.line}: {new.name} has no {side} {olds[len(news)]}")


def interfaces_of(path: str, is_checked: bool = True) -> list[Interface]:
    """The interfaces of a file, as tables have them. Raises `BadProtocol`; with `is_checked`, also if the file
    changes an interface of the core tables."""
    core = {it.name: it for it in table_text.core_tables()}
    found = []
    for it in protocol.read(path).interfaces:
        interface = Interface(it.name, it.version, line=it.line)
        interface.request = [message_of("request", one) for one in it.requests]
        interface.event = [message_of("event", one) for one in it.events]
        if is_checked and it.name in core and it.name not in table_text.FIXED:
            check_changes(path, core[it.name], interface)
        found.append(interface)
    return found


def interfaces_named(path: str) -> list[Interface]:
    """The interfaces of a file that others may name: a protocol's XML, or a table text."""
    if not protocol.is_text_of_tables(path):
        return interfaces_of(path)
    with open(path, "rb") as file:
        try:
            return table_text.parse_tables(file.read())
        except table_text.BadLine as error:
            raise protocol.BadProtocol(f"{path}: {error}") from error


class Mending:
    """The interfaces that remain, and what was left out of them so that they break no rule. `others` come
    before them: interfaces of another text, which may be named."""

    def __init__(self, interfaces: Sequence[Interface], is_whole: bool, others: Sequence[Interface] = ()) -> None:
        self.others = {id(it) for it in others}
        self.interfaces = [*others, *interfaces]
        self.is_whole = is_whole
        self.left_out: list[LeftOut] = []
        # Of each interface, the least version that has a message which was left out.
        self.least: dict[int, int] = {}
        self.undestroying: list[Undestroying] = []
        self.core = table_text.core_tables()
        self.notes: list[LeftOut] = []

    def remove_all(self, removed: Iterable[tuple[Interface, str]]) -> None:
        reasons = {id(interface): (interface, why) for interface, why in removed}
        self.left_out += (LeftOut(interface, "", None, why) for interface, why in reasons.values())
        self.interfaces = [it for it in self.interfaces if id(it) not in reasons]

    def cut(self, interface: Interface, side: str, opcode: int, why: str) -> None:
        """Leaves out a message and all messages after it."""
        messages = getattr(interface, side)
        first = messages[opcode]
        for message in messages[opcode:]:
            self.left_out.append(LeftOut(interface, side, message, why))
            self.least[id(interface)] = min(message.since, self.least.get(id(interface), message.since))
            why = f"it comes after {first.name}"
        del messages[opcode:]

    def own_by_name(self) -> dict[str | None, list[Interface]]:
        """The interfaces of the files, but for those that are only named."""
        found: dict[str | None, list[Interface]] = defaultdict(list)
        for it in self.interfaces:
            if id(it) not in self.others:
                found[it.name].append(it)
        return found

    def ended_by_event(self, it: Break, own: dict[str | None, list[Interface]]) -> list[Interface]:
        """The interfaces of the files whose destroying events are why a message breaks V7 or V11."""
        if it.side == "event" and it.rule == 7:
            return [it.interface]
        names = dict.fromkeys(one.interface for one in getattr(it.interface, it.side)[it.opcode].kinds)
        return [one for name in names for one in own.get(name, ()) if one.is_ended_by_event()]

    def keep_without_destroying(self, interface: Interface, rule: int) -> None:
        """Turns destroying events into plain events: their objects end by the delete_id that follows."""
        for opcode, message in enumerate(interface.event):
            if message.destroys:
                self.undestroying.append(Undestroying(interface, message, rule))
                interface.event[opcode] = replace(message, destroys=False)

    def lower(self, interface: Interface) -> None:
        """Lowers the version until no message of it was left out."""
        while True:
            since = self.least.get(id(interface))
            if since is None or since > interface.version:
                return
            if since <= 1 + self.version_in_core(interface):
                self.remove_all([(interface, "no version of it is whole")])
                return
            interface.version = since - 1
            for side in ("request", "event"):
                for opcode, message in enumerate(getattr(interface, side)):
                    if message.since > interface.version:
                        why = f"the version is lowered to {interface.version}"
                        self.cut(interface, side, opcode, why)
                        break

    def next_breaks(self) -> list[Break]:
        """What to mend next: some that do not mend each other, or a run of breaks of V7 and V11, which `mend_ended`
        mends one after the other. An interface that is left out, or an event that destroys, may mend what others
        break: so requests, and events that make an object, come last. Of the interfaces, those beyond the greatest
        number come last."""
        def order(it: Break) -> tuple[int, bool]:
            return ["", "event", "request"].index(it.side), it.rule == (11 if it.side else 3)

        breaks = table_text.breaks(self.core, self.interfaces)
        found = sorted((Break(interface, side or "", opcode, rule) for interface, side, opcode, rule in breaks), key=order)
        if found and found[0].rule in (7, 11):
            run = list(takewhile(lambda it: it.rule in (7, 11) and not it.interface.extends, found))
            # A message that names no interface goes before others break V7 or V11.
            return run if run and not any(it.rule == 9 for it in found) else found[:1]
        return [it for it in found if order(it) == order(found[0]) and it.rule not in (7, 11)]

    def unnamed(self) -> list[Break]:
        """The messages that name an interface which is left out."""
        names = {it.name for it in (*self.core, *self.interfaces)}
        return [Break(interface, side, opcode, 9) for interface in self.interfaces for side in ("event", "request")
                for opcode, it in enumerate(getattr(interface, side))
                if any(one.interface is not None and one.interface not in names for one in it.kinds)]

    def version_in_core(self, interface: Interface) -> int:
        """The version that the core tables have of it, or 0."""
        return next((it.version for it in self.core if it.name == interface.name), 0)

    def extend(self, interface: Interface) -> str | None:
        """Makes of a newer interface of the core what it adds. If it is left out, returns why."""
        old = next(it for it in self.core if it.name == interface.name)
        if interface.version <= old.version:
            return "the core tables have it"
        if interface.name in table_text.FIXED:
            why = f"it is always the same; the file has version {interface.version}"
            self.notes.append(LeftOut(interface, "", None, why))
            return why
        interface.extends = True
        interface.request = interface.request[len(old.request) :]
        interface.event = interface.event[len(old.event) :]
        return None

    def mend(self) -> None:
        core, removed = {it.name for it in self.core}, []
        for interface in self.interfaces:
            if interface.name in core and (why := self.extend(interface)):
                removed.append((interface, why))
            elif interface.name == "wl_fixes" and interface.name not in core:
                removed.append((interface, "its destroy_registry destroys an argument"))
        self.remove_all(removed)
        while found := self.next_breaks():
            while found:
                self.mend_all(found)
                found = self.unnamed()

    def mend_all(self, found: Sequence[Break]) -> None:
        """Removes what breaks rules: interfaces, or messages of them that are still there."""
        if not found[0].side:
            first = {id(it.interface): it for it in reversed(found)}
            self.remove_all((it.interface, f"it breaks V{it.rule}") for it in reversed(first.values()))
            return
        if found[0].rule in (7, 11):
            self.mend_ended(found)
            return
        messages = [getattr(it.interface, it.side)[it.opcode] for it in found]
        for it, message in zip(found, messages):
            its = getattr(it.interface, it.side)
            if it.opcode < len(its) and its[it.opcode] is message:
                self.leave_out(it)

    def leave_out(self, it: Break) -> None:
        """Removes a message that breaks a rule."""
        self.cut(it.interface, it.side, it.opcode, f"it breaks V{it.rule}")
        if self.is_whole:
            self.lower(it.interface)

    def mend_ended(self, found: Sequence[Break]) -> None:
        """Mends the first of a run of breaks of V7 and V11, and then those that are still there. Ends at the first
        that takes more than an event that destroys no longer: that may mend others, or break rules."""
        own = self.own_by_name()
        joined = table_text.Joined(self.core, self.interfaces).whole[: len(self.core)]
        by_name: dict[str | None, Interface] = {it.name: it for it in reversed([*joined, *self.interfaces])}

        def is_there(it: Break) -> bool:
            return it.rule in table_text.message_breaks(it.interface, it.side, it.opcode, by_name)

        for it in found:
            if it is not found[0] and not is_there(it):
                continue
            ended = self.ended_by_event(it, own)
            for one in ended:
                self.keep_without_destroying(one, it.rule)
            if not ended:
                self.leave_out(it)
            if not ended or any(one.extends for one in ended) or is_there(it):
                return

    def changes(self) -> list[LeftOut | Undestroying]:
        """What was left out or changed."""
        return [*self.left_out, *self.undestroying]


def lines_of(interfaces: Iterable[Interface], changes: Sequence[LeftOut | Undestroying]) -> Iterator[str]:
    """The lines of the text, with comments on messages that were left out or changed."""
    of: dict[int, list[LeftOut | Undestroying]] = defaultdict(list)
    for it in changes:
        if it.message is not None:
            of[id(it.interface)].append(it)
    for interface in interfaces:
        head = "extend" if interface.extends else "interface"
        yield f"{head} {interface.name} {interface.version}"
        for side, message in interface.messages():
            yield f"{side} {message}"
        for it in of[id(interface)]:
            yield f"# {it}"


def named_elsewhere(interfaces: Iterable[Interface], others: Iterable[Interface]) -> list[str]:
    """The names in messages of `interfaces` that are interfaces of `others`."""
    kinds = [kind for it in interfaces for _, message in it.messages() for kind in message.kinds]
    return sorted({it.interface for it in kinds if it.interface is not None} & {it.name for it in others})
