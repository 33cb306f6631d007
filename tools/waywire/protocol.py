"""Reads Wayland protocol files in the XML form of wayland-scanner. What wayland-scanner refuses is refused. A
misplaced element is refused too; wayland-scanner would take it as part of the element before."""

import re
from collections.abc import Iterator
from dataclasses import dataclass, field
from xml.etree import ElementTree
from xml.etree.ElementTree import Element
from xml.parsers import expat

TYPES = ("int", "uint", "fixed", "string", "object", "new_id", "array", "fd")
NULLABLE = ("string", "object", "new_id", "array")
# As wayland-scanner reads a number.
LARGEST = 2_147_483_647
# The values of entries go with an int or a uint.
LEAST_VALUE, LARGEST_VALUE = -(2**31), 2**32 - 1
NUMBER = re.compile(r"[ \t\n\v\f\r]*\+?([0-9]+)", re.ASCII)
# The names of things, and the ends of names of constants.
NAME = re.compile("[A-Za-z_][A-Za-z0-9_]*")
END_OF_NAME = re.compile("[A-Za-z0-9_]+")
# Where an element may stand; a description may stand anywhere.
PARENTS = {
    "protocol": (),
    "copyright": ("protocol",),
    "interface": ("protocol",),
    "request": ("interface",),
    "event": ("interface",),
    "enum": ("interface",),
    "arg": ("request", "event"),
    "entry": ("enum",),
}
# The first line of a table text that says something.
TEXT_OF_TABLES = re.compile(rb"(?:[ \t]*(?:#.*)?\r?\n)*(?:interface|extend) \S+ [0-9]+\s")


class BadProtocol(Exception):
    """A file is no protocol in the XML form of wayland-scanner: what is wrong, in which line, and in which interface."""

    def __init__(self, what: str, line: int = 0, interface: str = "") -> None:
        super().__init__(what)
        self.what, self.line, self.interface = what, line, interface

    def __str__(self) -> str:
        where = f"line {self.line}: " if self.line else ""
        return f"{where}{self.interface}: {self.what}" if self.interface else f"{where}{self.what}"


class NotRead(BadProtocol):
    """A file that cannot be read: which one, and why."""


@dataclass
class Argument:
    name: str
    type: str
    interface: str | None
    null: bool
    summary: str
    enum: str | None = None


@dataclass
class Message:
    """A request or an event; its opcode is its place on its side of its interface."""

    name: str
    opcode: int
    args: list[Argument]
    destroys: bool
    since: int
    summary: str
    line: int

    def made(self) -> Argument | None:
        """The argument that is a new object, or None."""
        return next((it for it in self.args if it.type == "new_id"), None)


@dataclass
class Entry:
    name: str
    value: int
    since: int
    summary: str


@dataclass
class Enum:
    name: str
    entries: list[Entry]
    summary: str
    bitfield: bool = False


@dataclass
class Interface:
    name: str
    version: int
    requests: list[Message]
    events: list[Message]
    enums: list[Enum]
    summary: str
    line: int = 0

    def messages(self) -> Iterator[tuple[str, Message]]:
        """Each message with its side, "request" or "event"."""
        yield from (("request", it) for it in self.requests)
        yield from (("event", it) for it in self.events)


@dataclass
class Protocol:
    name: str
    copyright: list[str]
    interfaces: list[Interface] = field(default_factory=list)


def bad(element: Element, what: str) -> BadProtocol:
    return BadProtocol(what, int(element.get(LINE, "0")))


def short(text: str | None) -> str | None:
    """The front of a text that is said to be wrong."""
    return text if text is None or len(text) <= 60 else f"{text[:60]}.."


def number(element: Element, name: str, usual: str | None) -> int:
    text = element.get(name, usual)
    found = NUMBER.fullmatch(text or "")
    digits = found[1].lstrip("0") or "0" if found else ""
    if not digits or len(digits) > len(str(LARGEST)) or int(digits) > LARGEST:
        raise bad(element, f"{name} of {element.get('name')} is {short(text)}")
    return int(digits)


def since_of(element: Element, version: int) -> int:
    """The version of the interface from which on it has what an element is."""
    since = number(element, "since", "1")
    if since > version:
        raise bad(element, f"since of {element.get('name')} is {since}, and the version is {version}")
    return since


def name_of(element: Element, form: re.Pattern[str] = NAME) -> str:
    name = element.get("name")
    if not name or not form.fullmatch(name):
        raise bad(element, f"the name of {element.tag} is {short(name)!r}")
    return name


def summary_of(element: Element) -> str:
    """The summary of an element, in one line; empty if the file has none."""
    description = element.find("description")
    text = element.get("summary") or (description is not None and description.get("summary")) or ""
    return " ".join(text.split())


def is_true(element: Element, name: str) -> bool:
    """Whether an attribute says so, false if it is not given."""
    text = element.get(name, "false")
    if text not in ("true", "false"):
        raise bad(element, f"{name} of {element.get('name')} is {short(text)!r}, not true or false")
    return text == "true"


def argument(element: Element) -> Argument:
    """An argument. A text has no null mark for an array or a new id: a null array goes as an empty one."""
    name, kind, interface = name_of(element), element.get("type"), element.get("interface")
    if kind not in TYPES:
        raise bad(element, f"argument {name} has the type {short(kind)}")
    if interface is not None and kind not in ("object", "new_id"):
        raise bad(element, f"argument {name} of type {kind} has an interface")
    if interface is not None and not NAME.fullmatch(interface):
        raise bad(element, f"argument {name} has the interface {short(interface)!r}")
    if element.get("allow-null") is not None and kind not in NULLABLE:
        raise bad(element, f"argument {name} of type {kind} has allow-null")
    null = is_true(element, "allow-null") and kind in ("string", "object")
    return Argument(name, kind, interface, null, summary_of(element), element.get("enum"))


def message(opcode: int, element: Element, version: int) -> Message:
    name, destroys = name_of(element), element.get("type") == "destructor"
    if name == "destroy" and not destroys:
        raise bad(element, f"{element.tag} destroy is no destructor")
    return Message(name, opcode, [argument(it) for it in element.findall("arg")], destroys,
                   since_of(element, version), summary_of(element), int(element.get(LINE, "0")))


def value_of(element: Element) -> int:
    """The value of an entry: a number as C has it, or one shifted to the left, as `1 << 4`."""
    text = element.get("value", "")
    first, is_shifted, places = text.partition("<<")
    try:
        value, shift = int(first, 0), int(places, 0) if is_shifted else 0
    except ValueError:
        value, shift = 0, -1
    if not 0 <= shift < 32 or not LEAST_VALUE <= value << shift <= LARGEST_VALUE:
        raise bad(element, f"value of {element.get('name')} is {short(text)!r}")
    return value << shift


def entry(element: Element, version: int) -> Entry:
    name = name_of(element, END_OF_NAME)
    return Entry(name, value_of(element), since_of(element, version), summary_of(element))


def enum(element: Element, version: int) -> Enum:
    name, entries = name_of(element, END_OF_NAME), [entry(it, version) for it in element.findall("entry")]
    if not entries:
        raise bad(element, f"enum {name} has no entry")
    return Enum(name, entries, summary_of(element), is_true(element, "bitfield"))


def interface(element: Element) -> Interface:
    name, version = name_of(element), number(element, "version", None)
    if version == 0:
        raise bad(element, f"version of {name} is 0")
    try:
        return Interface(
            name,
            version,
            [message(*it, version) for it in enumerate(element.findall("request"))],
            [message(*it, version) for it in enumerate(element.findall("event"))],
            [enum(it, version) for it in element.findall("enum")],
            summary_of(element),
            int(element.get(LINE, "0")),
        )
    except BadProtocol as error:
        error.interface = name
        raise


def check_places(root: Element) -> None:
    """Raises `BadProtocol` if an element is misplaced."""
    left: list[tuple[Element | None, Element]] = [(None, root)]
    while left:
        parent, element = left.pop()
        if element.tag == "description" and element.get("summary") is None:
            raise bad(element, "a description has no summary")
        if parent is not None and parent.tag not in PARENTS.get(element.tag, (parent.tag,)):
            raise bad(element, f"{short(element.tag)} stands in {short(parent.tag)}")
        left += [(element, it) for it in element]


def check_enums(interfaces: list[Interface]) -> None:
    """Raises `BadProtocol` if an argument with an enum does not have the type of the enum's values."""
    bitfields = {f"{it.name}.{one.name}" for it in interfaces for one in it.enums if one.bitfield}
    for interface_ in interfaces:
        for _, message_ in interface_.messages():
            for it in message_.args:
                if not it.enum:
                    continue
                if it.type not in ("int", "uint"):
                    what = f"argument {it.name} of {message_.name}, of type {it.type}, has an enum"
                    raise BadProtocol(what, message_.line, interface_.name)
                name = it.enum if "." in it.enum else f"{interface_.name}.{it.enum}"
                if it.type == "int" and name in bitfields:
                    what = f"argument {it.name} of {message_.name}, of type int, has the bitfield {it.enum}"
                    raise BadProtocol(what, message_.line, interface_.name)


def with_tables(interface_: Interface, messages: list[Message]) -> list[Message]:
    """The messages that tables can have: the new object of a message is of the interface that it names, but for that
    of wl_registry.bind."""
    return [it for it in messages
            if interface_.name == "wl_registry" or all(one.interface for one in it.args if one.type == "new_id")]


def named(read: Protocol) -> Iterator[tuple[str, list[tuple[str, int]], str]]:
    """What may not have equal names in code: what it is, the names with their lines, and the interface."""
    yield "interface", [(it.name, it.line) for it in read.interfaces], ""
    for it in read.interfaces:
        yield "request", [(one.name, one.line) for one in it.requests], it.name
        yield "event", [(one.name, one.line) for one in it.events], it.name
        yield "enum", [(one.name, it.line) for one in it.enums], it.name
        for enum_ in it.enums:
            yield f"entry of {enum_.name}", [(one.name, it.line) for one in enum_.entries], it.name
        for _, one in it.messages():
            yield f"argument of {one.name}", [(arg.name, one.line) for arg in one.args], it.name


def check_names(path: str, read: Protocol, is_folded: bool) -> None:
    """Raises `BadProtocol` if two things that code has side by side have one name; with `is_folded`, also if these
    differ in capitals alone, which constants of C do not have."""
    for kind, names, interface_ in named(read):
        seen: set[str] = set()
        for name, line in names:
            its = name.upper() if is_folded else name
            if its in seen:
                where = f"line {line}: {interface_}: " if interface_ else f"line {line}: "
                raise BadProtocol(f"{path}: {where}another {kind} has the name {name}")
            seen.add(its)


# The attribute that an element is given for the number of its line; no attribute of a file has a space.
LINE = "the line"


def root_of(path: str) -> Element:
    """The root of a file, each element with its line."""
    builder, parser = ElementTree.TreeBuilder(), expat.ParserCreate()

    def start(tag: str, attributes: dict[str, str]) -> None:
        builder.start(tag, attributes | {LINE: str(parser.CurrentLineNumber)})

    parser.StartElementHandler, parser.EndElementHandler = start, builder.end
    parser.CharacterDataHandler = builder.data
    with open(path, "rb") as file:
        try:
            parser.ParseFile(file)
        except (LookupError, ValueError) as error:
            # Of an encoding that Python does not know, or that has characters of several bytes.
            raise BadProtocol(f"the encoding of the file cannot be read: {error}", parser.CurrentLineNumber) from error
    return builder.close()


def status_of(error: Exception) -> int:
    """The exit status of a tool that ends with an error: a file cannot be read, or is wrong."""
    return 3 if isinstance(error, NotRead) else 1


def is_text_of_tables(path: str) -> bool:
    """Whether a file is a table text, by its first lines; false if it cannot be read."""
    try:
        with open(path, "rb") as file:
            return TEXT_OF_TABLES.match(file.read(65536)) is not None
    except OSError:
        return False


def protocol_of(root: Element) -> Protocol:
    """The protocol that the root of a file has."""
    if root.tag != "protocol":
        raise BadProtocol(f"no protocol, but {root.tag}")
    name = name_of(root)
    check_places(root)
    said = (root.findtext("copyright") or "").strip().splitlines()
    interfaces = [interface(it) for it in root.findall("interface")]
    check_enums(interfaces)
    return Protocol(name, [it.strip() for it in said], interfaces)


def read(path: str) -> Protocol:
    """The protocol of a file. Raises `BadProtocol`."""
    try:
        return protocol_of(root_of(path))
    except expat.ExpatError as error:
        if is_text_of_tables(path):
            raise BadProtocol(f"{path} is a table text, not the XML of a protocol") from error
        where = BadProtocol(expat.ErrorString(error.code), error.lineno)
        raise BadProtocol(f"{path}: {where}") from error
    except OSError as error:
        raise NotRead(f"cannot read {path}: {error.strerror}") from error
    except BadProtocol as error:
        raise BadProtocol(f"{path}: {error}") from error
