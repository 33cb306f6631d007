"""The lists of the core interfaces in the crates wl_rules and wl_sigs, which core_files.py makes from
protocols/core/core.xml: the interfaces as definitions and as code, and the opcodes with the names of their messages."""

import dataclasses
import itertools
from collections.abc import Iterable, Iterator

from tools.waywire.protocol import Argument, BadProtocol, Interface, Message

# What every valid table has, in specs/Fixed.antt of wl_rules; the other interfaces are in
# specs/Core.antt of wl_sigs.
FIXED = ("wl_display", "wl_registry", "wl_callback", "wl_fixes")
# What the XML cannot say: a message that destroys an argument, and the place of that argument.
DESTROYS_ARGUMENT = {("wl_fixes", "destroy_registry"): 0}
# The word for an argument in a definition and in the code, by its type, by whether it may be null,
# and by whether it names an interface, which is put in the place of `{}`.
KINDS = {
    ("int", False, False): ("int", "Int"),
    ("uint", False, False): ("uint", "Uint"),
    ("fixed", False, False): ("fixed", "Fixed"),
    ("string", False, False): ("string", "STRING"),
    ("array", False, False): ("array", "Array"),
    ("fd", False, False): ("fd", "Fd"),
    ("object", False, True): ("(object {})", "object!({})"),
    ("object", True, True): ("(object_or_null {})", "object_or_null!({})"),
    ("object", False, False): ("any_object", "ANY_OBJECT"),
    ("new_id", False, True): ("(new (Some {}))", "new!({})"),
    ("new_id", False, False): ("(new None)", "New(None)"),
}
# `rt fmt` makes no line wider, and puts the arguments of a call, or the items of an array, in one
# line if they are no wider. An array that is wider has a line for each item, or, if its items are
# names as short as this, as many in a line as there is room for.
WIDEST, WIDEST_LIST, SHORT = 100, 60, 10
# The comments around a part of a file that is made.
BEGINS = "Made by scripts/core_files.py from core.xml, down to the next mark."
ENDS = "End of what is generated."


DESTROYS = "Rattle.wl_sigs.specs.Destroys.TheVariants"


def is_fixed(interface: Interface) -> bool:
    return interface.name in FIXED


def unended(interface: Interface) -> Interface:
    """The interface where no request destroys and every event is there from version 1 on. The fixed
    ones stay as they are."""
    if is_fixed(interface):
        return interface
    return dataclasses.replace(
        interface,
        requests=[dataclasses.replace(it, destroys=False) for it in interface.requests],
        events=[dataclasses.replace(it, since=1) for it in interface.events])


def place_word(name: str) -> str:
    """The name that the definitions have for an interface's place."""
    return name.removeprefix("wl_")


def kind(interface: Interface, message: Message, arg: Argument, language: int) -> str:
    """The word for an argument: in a definition if `language` is 0, in the code if it is 1."""
    words = KINDS.get((arg.type, arg.null, arg.interface is not None))
    if words is None:
        what = f"{arg.type} that may be null" if arg.null else arg.type
        where = f"{interface.name}.{message.name}"
        raise BadProtocol(f"{where}: scripts/core_lists.py has no word for this {what}")
    name = arg.interface or ""
    return words[language].format(name.upper() if language else place_word(name))


def kinds(interface: Interface, message: Message, language: int) -> list[str]:
    return [kind(interface, message, it, language) for it in message.args]


def filled(head: str, words: Iterable[str], tail: str, widest: int = WIDEST) -> Iterator[str]:
    """Lines with as many of the words as each has room for between `head` and `tail`."""
    line: list[str] = []
    for word in words:
        if line and len(f"{head}{', '.join([*line, word])}{tail}") > widest:
            yield f"{head}{', '.join(line)}{tail}"
            line = []
        line.append(word)
    if line:
        yield f"{head}{', '.join(line)}{tail}"


# Definitions.


def destroyed(interface: Interface, message: Message) -> str:
    """What a message destroys, as a definition has it."""
    place = DESTROYS_ARGUMENT.get((interface.name, message.name))
    if place is not None:
        return f"(Arg {place})"
    return "Target" if message.destroys else "Nothing"


def message_definition(interface: Interface, message: Message) -> list[str]:
    head = f'      message (codes "{message.name}") {message.since}'
    listed = " ∷ ".join([*kinds(interface, message, 0), "[]"])
    tail = f"({listed}) {destroyed(interface, message)} ∷"
    line = f"{head} {tail}"
    return [line] if len(line) <= WIDEST else [head, f"      {tail}"]


def side_definition(interface: Interface, name: str, messages: list[Message]) -> list[str]:
    if not messages:
        return [f"  {name} = [];"]
    lines = [line for it in messages for line in message_definition(interface, it)]
    return [f"  {name} =", *lines, "      [];"]


def definition(interface: Interface) -> list[str]:
    head = "abbrev pub" if is_fixed(interface) else "abbrev"
    return [
        f"{head} {interface.name} : Interface",
        f"{interface.name} = record {{",
        f'  name = codes "{interface.name}";',
        f"  version = {interface.version};",
        *side_definition(interface, "requests", interface.requests),
        *side_definition(interface, "events", interface.events),
        "}",
        "",
    ]


def place_definition(interface: Interface, place: int) -> list[str]:
    head, word = "abbrev pub" if is_fixed(interface) else "abbrev", place_word(interface.name)
    return [f"{head} {word} : Iface", f"{word} = record {{ 0 = {place} }}", ""]


def fixed_definitions(interfaces: list[Interface]) -> list[str]:
    """The part of specs/Fixed.antt: of fixed interfaces that follow each other first the places."""
    lines = []
    for fixed, places in itertools.groupby(enumerate(interfaces), lambda it: is_fixed(it[1])):
        if not fixed:
            continue
        group = [(it, place) for place, it in places]
        *names, last = (it.name for it, _ in group)
        what = f"indices of {', '.join(names)} and" if names else "index of"
        lines.append(f"-- the {what} {last}")
        lines += [line for it in group for line in place_definition(*it)]
        lines += [line for it, _ in group for line in definition(it)]
    return lines[:-1]


UNENDED = (
    "-- ---- for a server whose caller ends objects itself, and sends events of any version",
    "",
    "abbrev unended_request : MessageSignature → MessageSignature",
    "unended_request request = record request { destroys = Nothing }",
    "",
    "abbrev first_event : MessageSignature → MessageSignature",
    "first_event event = record event { since = 1 }",
    "",
    "-- no request destroys an object, and every event is there from version 1 on",
    "abbrev unended : Interface → Interface",
    "unended i = record i {",
    "  requests = map unended_request i.requests;",
    "  events = map first_event i.events;",
    "}",
    "",
    "-- The same interfaces in this form, except the four that all tables have.",
    "unfoldable pub unended_tables : List Interface",
    "unended_tables =",
)


def words_in(texts: Iterable[str]) -> set[str]:
    return {word for text in texts for word in text.replace("(", " ").replace(")", " ").split()}


def core_definitions(interfaces: list[Interface]) -> list[str]:
    """The text of specs/Core.antt."""
    others = [(it, place) for place, it in enumerate(interfaces) if not is_fixed(it)]
    said = [(it, message) for it, _ in others for _, message in it.messages()]
    words = words_in(" ".join([*kinds(*it, 0), destroyed(*it)]) for it in said)
    of_fixed = [it[0].strip("()").split()[0] for it in KINDS.values()] + [*map(place_word, FIXED)]
    used = ["message", *(it for it in dict.fromkeys(of_fixed) if it in words), *FIXED]
    destroys = [it for it in ("Nothing", "Target", "Arg") if it in words]
    options = [it for it in ("Some", "None") if it in words]
    lines = [
        "-- Made by scripts/core_files.py. The core interfaces of wayland.xml, at these versions, in",
        "-- this order, without the data transfer interfaces. For each message: its name, the version",
        "-- of its interface that introduced it, the kinds of its arguments, and what it destroys.",
        f"use Rattle.std.specs.Prelude.{{List, [], ◌∷◌, {', '.join(['codes', 'map', *options])}}}",
        "use Rattle.wl_wire.specs.declared.kind.Iface.{Iface}",
        f"use {DESTROYS}.{{{', '.join(destroys)}}}",
        "use Rattle.wl_sigs.specs.Tables.{Interface, MessageSignature}",
        *filled("use Rattle.wl_sigs.specs.Fixed.{", used, "}"),
        "",
        "-- the indices of the further interfaces",
    ]
    lines += [line for it in others for line in place_definition(*it)]
    lines += [line for it, _ in others for line in definition(it)]
    return [
        *lines,
        "-- The interfaces in order. Proofs about tables use the rules of valid tables, and do not",
        "-- unfold this list.",
        "unfoldable pub core_tables : List Interface",
        "core_tables =",
        *(f"    {it.name} ∷" for it in interfaces),
        "    []",
        "",
        *UNENDED,
        *(f"    {it.name} ∷" if is_fixed(it) else f"    unended {it.name} ∷" for it in interfaces),
        "    []",
    ]


# The opcodes beside the names.

SIDES = ("request", "event")


def messages_of(interface: Interface, side: str) -> list[Message]:
    return interface.requests if side == "request" else interface.events


def opcode_modules(interfaces: list[Interface]) -> list[str]:
    """The first part of specs/Opcodes.antt: the modules of constants that it reads."""
    return [
        f"use Rattle.wl_sigs.specs.declared.{side}.{it.name}.TheConstants as {side}_{it.name}"
        for side in SIDES
        for it in interfaces
        if messages_of(it, side)
    ]


def opcodes_by_name(interfaces: list[Interface]) -> list[str]:
    """Its second part: each constant with the name of its message."""
    lines = [
        "-- each constant, by its module's name and its own, both in lower case",
        "abbrev pub opcodes : Side → List Opcodes",
    ]
    for side in SIDES:
        lines.append(f"opcodes {side.capitalize()} =")
        for it in interfaces:
            head, messages = f'    in_interface (codes "{it.name}")', messages_of(it, side)
            if not messages:
                lines.append(f"{head} [] ∷")
                continue
            lines.append(f"{head} (")
            for one in messages:
                constant = f"{side}_{it.name}.{one.name.upper()}"
                lines.append(f'    at_opcode {constant} (codes "{one.name}") ∷')
            lines.append("    []) ∷")
        lines.append("    []")
    return lines


# The code.


def laid_out(opens: str, items: list[list[str]], closes: str, depth: int, ends: str = "") -> list[str]:
    """Items between brackets, indented by `depth` spaces and laid out as by `rt fmt`: on one line if there is
    room, otherwise one item per line, with `ends` after the last one. An item is a list of lines, and so is the
    result."""
    line = opens + ", ".join(it[0] for it in items) + closes
    is_narrow = len(line) - len(opens + closes) <= WIDEST_LIST and depth + len(line) < WIDEST
    if is_narrow and all(len(it) == 1 for it in items):
        return [line]
    lines = [f"    {line}" for it in items for line in [*it[:-1], f"{it[-1]},"]]
    lines[-1] = lines[-1][:-1] + ends
    return [opens, *lines, closes]


def message_code(interface: Interface, message: Message, depth: int) -> list[str]:
    """The lines of a message, indented by `depth` spaces."""
    words = kinds(interface, message, 1)
    if all(it.isidentifier() and len(it) <= SHORT for it in words):
        # As many of them in a line as it has room for.
        words = [*filled("", words, "", WIDEST - depth - 9)]
    array = laid_out("[", [[it] for it in words], "]", depth + 4)
    items = [[f'b"{message.name}"'], [str(message.since)], array]
    place = DESTROYS_ARGUMENT.get((interface.name, message.name))
    if place is not None:
        # No expression of Rust, so `rt fmt` leaves it as it is.
        return [f"message!({', '.join(it[0] for it in items)}, destroys {place})"]
    return laid_out("message!(", items + [["destroys"]] * message.destroys, ")", depth)


def side_code(interface: Interface, name: str, messages: list[Message]) -> list[str]:
    """The lines of one side of an interface, which is a field of a record."""
    head, depth = f"{name}: &[", 8
    if len(messages) == 1:
        lines = message_code(interface, messages[0], depth)
        lines[0] = head + lines[0]
        return [*lines[:-1], f"{lines[-1]}],"]
    found = [message_code(interface, it, depth + 4) for it in messages]
    lines = laid_out(head, found, "]", depth, ",")
    return [*lines[:-1], f"{lines[-1]},"]


def interface_code(interface: Interface) -> list[str]:
    return [
        "    CoreInterface {",
        f'        name: b"{interface.name}",',
        f"        version: {interface.version},",
        *(f"        {it}" for it in side_code(interface, "requests", interface.requests)),
        *(f"        {it}" for it in side_code(interface, "events", interface.events)),
        "    },",
    ]


def constant_code(name: str, interfaces: list[Interface]) -> list[str]:
    return [
        f"pub(crate) const {name}: [CoreInterface; {len(interfaces)}] = [",
        *(line for it in interfaces for line in interface_code(it)),
        "];",
    ]


def core_code(interfaces: list[Interface]) -> list[str]:
    """The part of src/core_interfaces.rt."""
    messages = [message for it in interfaces for _, message in it.messages()]
    named = {arg.interface for it in messages for arg in it.args}
    lines = []
    for place, it in enumerate(interfaces):
        if it.name in named:
            lines += [f"const {it.name.upper()}: Iface = Iface({place});", ""]
    return [
        *lines,
        "/// The core interfaces in order.",
        *constant_code("CORE", interfaces),
        "",
        "/// The same where no request destroys and every event is there from version 1 on, except the",
        "/// four that all tables have.",
        *constant_code("UNENDED", [unended(it) for it in interfaces]),
    ]


SIGS, RULES = "crates/wl_sigs", "crates/wl_rules"
# Each file of lists with the functions that make its parts, between marks.
PARTS = {
    f"{RULES}/specs/Fixed.antt": [fixed_definitions],
    f"{SIGS}/specs/Core.antt": [core_definitions],
    f"{SIGS}/specs/Opcodes.antt": [opcode_modules, opcodes_by_name],
    f"{SIGS}/src/core_interfaces.rt": [core_code],
}
# The one function makes all of the file.
WHOLE = (f"{SIGS}/specs/Core.antt",)


def with_parts(name: str, text: str, parts: list[list[str]]) -> str:
    """A file's text with the lines of these parts between its marks. Raises `BadProtocol` if it
    lacks a mark."""
    comment = "//" if name.endswith(".rt") else "--"
    begins, ends = f"{comment} {BEGINS}\n", f"{comment} {ENDS}\n"
    pieces = text.split(begins)
    if len(pieces) != len(parts) + 1 or any(it.count(ends) != 1 for it in pieces[1:]):
        raise BadProtocol(f"{name} lacks a line {begins.strip()!r} or {ends.strip()!r}")
    made = [pieces[0]]
    for piece, part in zip(pieces[1:], parts):
        body, _, after = piece.partition(ends)
        gap = "\n" if body.startswith("\n") else ""
        made += [begins, gap, *(f"{it}\n" for it in part), gap, ends, after]
    return "".join(made)


def text_of(name: str, before: str, interfaces: list[Interface]) -> str:
    """The text of a file of lists, which has this text now."""
    parts = [make(interfaces) for make in PARTS[name]]
    if name in WHOLE:
        return "\n".join(parts[0]) + "\n"
    return with_parts(name, before, parts)
