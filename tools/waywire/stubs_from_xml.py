"""Prints typed calls for the messages of a Wayland protocol: a C header that uses waywire.h, or a module of Rust.

    tools/stubs-from-xml [--prefix PREFIX] [--with FILE].. FILE >HEADER
    tools/stubs-from-xml --rust [--with FILE].. [--comment LINE].. FILE >MODULE
    tools/stubs-from-xml --rattle SIDE [--comment LINE].. FILE >MODULE

FILE is a protocol in the XML form of wayland-scanner. For each of its interfaces, here xdg_toplevel, the header has
the following, here with the prefix `ww_`:

- WW_XDG_TOPLEVEL_NAME and _VERSION; the opcode WW_XDG_TOPLEVEL_REQUEST_SET_TITLE, and .._SINCE, the first version
  that has it; the same for events; the enums, such as WW_XDG_TOPLEVEL_STATE_MAXIMIZED;
- the type of its objects, waywire_xdg_toplevel whatever the prefix: a struct of one waywire_object, `object`, which
  waywire_xdg_toplevel_of(object) makes. So an object of another interface does not compile in its place;
- for a client a function for each request: ww_xdg_toplevel_set_title(client, toplevel, ".."). If no message of the
  file makes an object of the interface, as with xdg_wm_base, also
  ww_xdg_wm_base_bind(client, registry, name, version, &base);
- for a server a function for each event: ww_xdg_toplevel_send_configure(server, toplevel, 0, 0, ..);
- struct ww_xdg_toplevel_events and _requests, of callbacks. ww_xdg_toplevel_dispatch_event and _dispatch_request call
  the callback that a report names, with its arguments in order, and return whether there is one.
  ww_xdg_toplevel_event_dispatcher and _request_dispatcher do the same and have one type for all interfaces, so that a
  map of objects can keep one for each object.

WW_XDG_SHELL_TABLES is the protocol's table text, for waywire_tables_read. `--with FILE` gives a protocol whose
interfaces it may name; the table text of that protocol must be read first.

A message whose new object may be of any interface has no function, but for wl_registry.bind: no tables have it.

A function returns the status of the call. If the message makes an object, it is written to a last argument, which
may be null; a refused call writes nothing. Arguments have these types:

- an int is int32_t, a uint is uint32_t, a fixed number is int32_t in 256ths;
- a string is const char *, and may be null if the protocol allows it;
- an object has the type of its interface, or is a waywire_object if it may be of any interface. It is null if its id
  is 0;
- an array is an address and a length in bytes;
- a descriptor is an int: the token for it.

`--rust` prints a module for the Rust package waywire. It has a module for each interface, here xdg_toplevel, with:

- NAME, VERSION, and the opcodes with the first versions that have them: request::SET_TITLE,
  request::SET_TITLE_SINCE;
- the type XdgToplevel, an object of the interface. It has a method for each request, which a client calls:
  toplevel.set_title(&mut client, ".."), and one for each event, which a server calls:
  toplevel.send_configure(&mut server, ..). A method whose message makes an object returns it, typed;
- a type for each enum: State::MAXIMIZED; values of a bitfield are joined by `|`;
- the traits Events and Requests, with a method for each message, and dispatch_event and dispatch_request. These call
  the method for a message that was read, with its arguments, and return whether there is one.

TABLES is the protocol's table text, for Tables::read. The module of the core is waywire::wayland: its interfaces are
left out if a file has more than these. The modules of protocols are siblings, each named after its protocol, such as
xdg_shell, and a module finds there the interfaces of a protocol that `--with FILE` gives. An object of an interface
that is in none of them is a plain Object. A string or an array is anything with bytes when it is sent, and a slice of
bytes when it is received. A descriptor is anything with one (`AsFd`) when it is sent, since a duplicate is sent, and
an OwnedFd when it is received. The macros `event_handler!` and `request_handler!` of the package call
`dispatch_event` and `dispatch_request` for a list of interfaces. The events of wl_display are not dispatched: they
are kinds of Incoming.

`--rattle request` or `--rattle event` prints a module that both Rattle and Rust can read: the opcodes of that side,
with a module for each interface. `--rattle both` prints both sides, and the protocol's table text as TABLES. Each
LINE is part of its documentation.

The header has no function for what other calls write: the events of wl_display and wl_registry. Those of wl_display
are dispatched from the reports that the library makes of them. The exit status is 1 if the file is no protocol,
or gives one name to two things that a header has side by side; 2 if an option is wrong; 3 if a file cannot be read.
"""

import argparse
import sys
import textwrap
from collections.abc import Container, Iterable, Iterator, Sequence

from . import files, protocol, rust_stubs, valid_tables
from .protocol import Argument, Entry, Enum, Interface, Message, Protocol

# Words that C or C++ keeps for itself, or that compilers define.
RESERVED = set(
    """alignas alignof and and_eq asm auto bitand bitor bool break case catch char char8_t char16_t char32_t class
    co_await co_return co_yield compl concept const consteval constexpr constinit const_cast continue decltype default delete do double dynamic_cast else enum explicit export
    extern false float for friend goto if inline int linux long mutable namespace new noexcept not not_eq nullptr
    operator or or_eq private protected public register reinterpret_cast requires restrict return short signed sizeof
    static static_assert static_cast struct switch template this thread_local throw true try typedef typeid
    typename typeof typeof_unqual union unix unsigned using virtual void volatile wchar_t while xor xor_eq""".split()
)
# Names that the functions have for themselves.
OWN = {"client", "server", "args", "data", "report", "calls", "made"}
# The words that follow `waywire_` in the names of waywire.h and waywire-socket.h.
LIBRARY = set(
    """arg client connection dispatch end fixed inspector is listening new no object recording report server socket
    tables""".split()
)
# Interfaces that the server never announces as a global.
UNBOUND = ("wl_display", "wl_registry")
# Interfaces whose events the server writes by calls of its own.
UNSENT = ("wl_display", "wl_registry")
# The events of wl_display, which a client's reports say in words of their own.
DISPLAY_EVENTS = """\
\tconst waywire_wl_display display = { { 0, 1 } };
\tif (report->kind == WAYWIRE_ERROR && calls->error)
\t\tcalls->error(data, display, report->target, report->code, report->text);
\telse if (report->kind == WAYWIRE_DELETED && calls->delete_id)
\t\tcalls->delete_id(data, display, report->target.id);
\telse if (report->kind == WAYWIRE_STRAY && calls->delete_id)
\t\tcalls->delete_id(data, display, report->id);
\telse
\t\treturn false;
\treturn true;""".splitlines()
# What a header says of itself.
HEAD = """\
/* Typed calls for the protocol {name}, over waywire.h. Made by stubs-from-xml.
 *
 * Calls.  For each interface: the type of its objects, waywire_INTERFACE, a struct with the one
 * member `object`; for a client {prefix}INTERFACE_REQUEST, for a server
 * {prefix}INTERFACE_send_EVENT; opcodes, and the versions that have them; enums. A call returns its
 * status. An object that the message makes is written to the last argument, which may be null; a
 * refused call writes nothing. A descriptor is given as its token, an int. Once the call has
 * returned WAYWIRE_OK the end has it: waywire_socket_flush closes it when it has gone, and `take`
 * gives it back. After any other status it is still the caller's.
 *
 * Callbacks.  struct {prefix}INTERFACE_events and _requests have one for each message, or null.
 * A dispatcher calls the one for a report, with `data`, the target, and the arguments in order:
 *
 *     int, fixed   int32_t; a fixed number is in 256ths
 *     uint         uint32_t
 *     string       const char *, which ends with a NUL; null for the null string
 *     array        const void *, and size_t, its length in bytes
 *     object       the type of its interface, or waywire_object; its id is 0 for null. An object
 *                  that the client has destroyed meanwhile comes too, and every call refuses it
 *     new_id       the same type: the object that the message has made, which is live
 *     fd           int: the token, cast. Over waywire-socket.h it is an open descriptor, which is
 *                  the callback's to close or to keep; over other transports what was fed
 *
 * Pointers point into the end. They are valid until the end reads again or takes bytes in, also if
 * the callback sends: waywire_report says until when. Copy what is kept longer.
 * A dispatcher returns false if there is no callback for a report, as for WAYWIRE_DISCARDED. The
 * descriptors of the report's `tokens` are then the caller's; a waywire_connection closes them.
"""
PARAMETERS = {
    "int": ["int32_t {}"],
    "uint": ["uint32_t {}"],
    "fixed": ["int32_t {}"],
    "string": ["const char *{}"],
    "array": ["const void *{}", "size_t {}_length"],
    "fd": ["int {}"],
}
GIVEN = {
    "int": "waywire_int({})",
    "uint": "waywire_uint({})",
    "fixed": "waywire_fixed({})",
    "string": "waywire_string({})",
    "array": "waywire_array({0}, {0}_length)",
    "fd": "waywire_fd((uint32_t){})",
    "new_id": "waywire_new()",
}
# The word of a number.
WORDS = {"int": "(uint32_t){}", "uint": "{}", "fixed": "(uint32_t){}"}
READ = {
    "int": ["{}.i"],
    "uint": ["{}.u"],
    "fixed": ["{}.i"],
    "string": ["(const char *){}.bytes"],
    "array": ["{}.bytes", "{}.length"],
    "fd": ["(int){}.u"],
}


def word(name: str, taken: Container[str] = ()) -> str:
    """A name that C and C++ accept, and that is none of `taken`."""
    while name in RESERVED or name in taken:
        name += "_"
    return name


def type_of(interface: str | None) -> str:
    """The type of an object of this interface; of any object if there is none. It is no name of the library's,
    nor that of the function which makes an object of another type."""
    if not interface:
        return "waywire_object"
    first, _, rest = interface.partition("_")
    is_taken = not rest or first in LIBRARY or interface.endswith("_of")
    return f"waywire_{interface}_" if is_taken else f"waywire_{interface}"


def comment(text: str, indent: str = "", args: Iterable[Argument] = ()) -> list[str]:
    """A comment of one or more lines, and one for each argument of which something is said; or none."""
    lines = textwrap.wrap(text.replace("*/", "* /"), 92 - len(indent))
    for it in args:
        if it.summary:
            said = f"{it.name}: {it.summary.replace('*/', '* /')}"
            lines += textwrap.wrap(said, 92 - len(indent), initial_indent="- ", subsequent_indent="  ")
    if not lines:
        return []
    if len(lines) == 1:
        return [f"{indent}/* {lines[0]} */"]
    return [f"{indent}/* {lines[0]}", *(f"{indent} * {it}" for it in lines[1:-1]),
            f"{indent} * {lines[-1]} */"]


def wrapped(head: str, parts: list[str], end: str) -> list[str]:
    """A call or a declaration whose parts are broken over lines of at most 100 columns."""
    line, lines = head + "(", []
    for place, part in enumerate(parts):
        part += ")" + end if place + 1 == len(parts) else ", "
        if len(line.expandtabs(8)) + len(part.rstrip()) > 100:
            lines.append(line.rstrip())
            line = "\t" * (len(head) - len(head.lstrip("\t")) + 1) + part
        else:
            line += part
    return [*lines, line]


class Stubs:
    """The header of one protocol."""

    def __init__(self, read: Protocol, prefix: str, tables: Sequence[str] = ()) -> None:
        self.protocol = read
        self.prefix = prefix
        self.tables = tables
        self.lines: list[str] = []
        self.made = {it.interface for other in read.interfaces for _, message in other.messages()
                     for it in message.args if it.type == "new_id"}
        self.functions = {name for it in self.typed() for name in (type_of(it), f"{type_of(it)}_of")}

    def say(self, *lines: str) -> None:
        self.lines += lines

    def typed(self) -> list[str]:
        """The interfaces whose objects have a type: the protocol's, and those that its messages name."""
        named = [it.interface for interface in self.protocol.interfaces for _, message in interface.messages()
                 for it in message.args if it.interface]
        registry = ["wl_registry"] if any(map(self.is_bound, self.protocol.interfaces)) else []
        return list(dict.fromkeys([it.name for it in self.protocol.interfaces] + registry + named))

    def is_bound(self, interface: Interface) -> bool:
        """Whether the interface can be a global: no message of the protocol makes an object of it."""
        return interface.name not in UNBOUND and interface.name not in self.made

    def constant(self, *parts: str) -> str:
        return "_".join([self.prefix.rstrip("_"), *parts]).upper()

    def opcode(self, interface: Interface, side: str, message: Message) -> str:
        return self.constant(interface.name, side, message.name)

    def target(self, interface: Interface, message: Message | None = None) -> str:
        names = {word(it.name) for it in message.args} if message else set()
        return word(interface.name, OWN | names)

    def parameters(self, message: Message, has_made: bool) -> Iterator[str]:
        """The parameters of a message's arguments, without the new object where it is returned."""
        for it in message.args:
            if it.type == "new_id" and it.interface is None:
                yield "const char *interface"
                yield "uint32_t version"
            if it.type == "new_id" and not has_made:
                continue
            for form in PARAMETERS.get(it.type, [type_of(it.interface) + " {}"]):
                yield form.format(self.name(it))

    def name(self, arg: Argument) -> str:
        return word(arg.name, OWN)

    def enums(self, interface: Interface) -> None:
        """Enums, and what no enum of C can hold as numbers of their own."""
        for enum in interface.enums:
            name = word(f"{self.prefix}{interface.name}_{enum.name}")
            held = [it for it in enum.entries if it.value <= 0x7FFFFFFF]
            if held:
                self.say("", *comment(enum.summary), f"enum {name} {{")
                self.say(*(self.entry(interface, enum, it) for it in held), "};")
            for it in enum.entries:
                value = self.constant(interface.name, enum.name, it.name)
                if it.value > 0x7FFFFFFF:
                    self.say(f"#define {value} {it.value}u")
                if it.since > 1:
                    self.say(f"#define {value}_SINCE {it.since}")

    def entry(self, interface: Interface, enum: Enum, it: Entry) -> str:
        said = f" /* {it.summary.replace('*/', '* /')} */" if it.summary else ""
        return f"\t{self.constant(interface.name, enum.name, it.name)} = {it.value},{said}"

    def opcodes(self, interface: Interface) -> None:
        for side, message in interface.messages():
            name = self.opcode(interface, side, message)
            self.say(f"#define {name} {message.opcode}", f"#define {name}_SINCE {message.since}")

    def function(self, name: str) -> str:
        """A function's name, with an underline behind it where the header has it already."""
        while name in self.functions:
            name += "_"
        self.functions.add(name)
        return name

    def sends(self, interface: Interface, message: Message, end: str, name: str) -> None:
        """A function that writes a message at an end."""
        name = self.function(name)
        target = self.target(interface, message)
        made = message.made()
        head = f"static inline waywire_status {name}"
        parameters = [f"waywire_{end} {end}", f"{type_of(interface.name)} {target}",
                      *self.parameters(message, False)]
        if made:
            parameters.append(f"{type_of(made.interface)} *made")
        self.say("", *comment(message.summary, args=message.args))
        self.say(*wrapped(head, parameters, ""), "{")
        side = "request" if end == "client" else "event"
        opcode = self.opcode(interface, side, message)
        if made and made.interface is None:
            self.binds(message, target)
        else:
            self.calls(message, end, target, opcode)
        self.say("}")

    def calls(self, message: Message, end: str, target: str, opcode: str) -> None:
        """The body of a function that writes a message: its arguments, and the call."""
        if all(it.type in WORDS for it in message.args):
            self.calls_with_words(message, end, target, opcode)
            return
        given = "NULL"
        if message.args:
            given = "args"
            self.say(f"\twaywire_arg args[{len(message.args)}];")
        for place, it in enumerate(message.args):
            form = GIVEN.get(it.type, "")
            if it.type == "object":
                object_ = "{0}.object" if it.interface else "{0}"
                form = f"{object_}.id ? waywire_of({object_}) : waywire_no_object()"
            self.say(f"\targs[{place}] = {form.format(self.name(it))};")
        made = "made ? &made->object : NULL" if message.made() else "NULL"
        call = [f"{end}.end", f"{target}.object", opcode, given, str(len(message.args)), made, "NULL"]
        self.say(*wrapped("\treturn waywire_end_send", call, ";"))

    def calls_with_words(self, message: Message, end: str, target: str, opcode: str) -> None:
        """The same for a message whose arguments are numbers alone."""
        if message.args:
            self.say(f"\tuint32_t args[{len(message.args)}];")
        for place, it in enumerate(message.args):
            self.say(f"\targs[{place}] = {WORDS[it.type].format(self.name(it))};")
        given = "args" if message.args else "NULL"
        call = [f"{end}.end", f"{target}.object", opcode, given, str(len(message.args)), "NULL"]
        self.say(*wrapped("\treturn waywire_end_send_words", call, ";"))

    def binds(self, message: Message, target: str) -> None:
        """The body of the one function whose new object has the interface that the caller names."""
        others = [self.name(it) for it in message.args if it.type != "new_id"]
        call = ["client", f"{target}.object", *others, "interface", "version", "made"]
        self.say(*wrapped("\treturn waywire_client_bind", call, ";"))

    def bind(self, interface: Interface) -> None:
        """A function that binds a global of an interface."""
        name = self.function(f"{self.prefix}{interface.name}_bind")
        parameters = ["waywire_client client", "waywire_wl_registry registry", "uint32_t name", "uint32_t version",
                      f"{type_of(interface.name)} *made"]
        self.say("", *wrapped(f"static inline waywire_status {name}", parameters, ""), "{")
        call = ["client", "registry.object", "name", self.constant(interface.name, "name"), "version",
                "made ? &made->object : NULL"]
        self.say(*wrapped("\treturn waywire_client_bind", call, ";"), "}")

    def callbacks(self, interface: Interface, side: str, messages: list[Message]) -> None:
        """The struct of callbacks for a side of an interface, and the function that calls them."""
        kind = f"{self.prefix}{interface.name}_{side}s"
        self.say("", f"struct {kind} {{")
        for it in messages:
            target = self.target(interface, it)
            parameters = ["void *data", f"{type_of(interface.name)} {target}", *self.parameters(it, True)]
            self.say(*comment(it.summary, "\t", it.args))
            self.say(*wrapped(f"\tvoid (*{word(it.name)})", parameters, ";"))
        self.say("};")
        name = self.function(f"{self.prefix}{interface.name}_dispatch_{side}")
        self.dispatcher(interface, side, messages, kind, name)
        self.dispatcher_of_all(interface, side, kind, name)

    def dispatcher(self, interface: Interface, side: str, messages: list[Message], kind: str, name: str) -> None:
        parameters = [f"const struct {kind} *calls", "void *data", "const waywire_report *report"]
        self.say("", *wrapped(f"static inline bool {name}", parameters, ""), "{")
        if interface.name == "wl_display" and side == "event":
            self.say(*DISPLAY_EVENTS, "}")
            return
        if any(it.args for it in messages):
            self.say("\tconst waywire_arg *args = report->args;")
        self.say("\tif (report->kind != WAYWIRE_MESSAGE)", "\t\treturn false;",
                 "\tswitch (report->opcode) {")
        for it in messages:
            self.dispatches(interface, side, it)
        self.say("\tdefault:", "\t\treturn false;", "\t}", "}")

    def dispatcher_of_all(self, interface: Interface, side: str, kind: str, dispatcher: str) -> None:
        """The same function for callbacks of any type."""
        name = self.function(f"{self.prefix}{interface.name}_{side}_dispatcher")
        parameters = ["const void *calls", "void *data", "const waywire_report *report"]
        self.say("", *wrapped(f"static inline bool {name}", parameters, ""), "{")
        given = [f"(const struct {kind} *)calls", "data", "report"]
        self.say(*wrapped(f"\treturn {dispatcher}", given, ";"), "}")

    def dispatches(self, interface: Interface, side: str, message: Message) -> None:
        call = word(message.name)
        given = ["data", f"{type_of(interface.name)}_of(report->target)"]
        for place, it in enumerate(message.args):
            arg = f"args[{place}]"
            if it.type == "new_id" and it.interface is None:
                given += [f"(const char *){arg}.bytes", f"{arg}.u"]
            if it.type in READ:
                given += [form.format(arg) for form in READ[it.type]]
            else:
                given.append(f"{type_of(it.interface)}_of({arg}.object)" if it.interface else f"{arg}.object")
        self.say(f"\tcase {self.opcode(interface, side, message)}:", f"\t\tif (!calls->{call})",
                 "\t\t\treturn false;")
        self.say(*wrapped(f"\t\tcalls->{call}", given, ";"), "\t\treturn true;")

    def interface(self, interface: Interface) -> None:
        self.say("", f"/* ---- {interface.name} */")
        if interface.summary:
            self.say("", *comment(interface.summary))
        name = self.constant(interface.name, "name")
        version = self.constant(interface.name, "version")
        self.say("", f'#define {name} "{interface.name}"', f"#define {version} {interface.version}")
        self.opcodes(interface)
        self.enums(interface)
        requests = protocol.with_tables(interface, interface.requests)
        for it in requests:
            self.sends(interface, it, "client", f"{self.prefix}{interface.name}_{it.name}")
        if self.is_bound(interface):
            self.bind(interface)
        events = protocol.with_tables(interface, interface.events)
        for it in events if interface.name not in UNSENT else []:
            self.sends(interface, it, "server", f"{self.prefix}{interface.name}_send_{it.name}")
        for side, messages in (("event", events), ("request", requests)):
            if messages:
                self.callbacks(interface, side, messages)

    def object_type(self, interface: str) -> None:
        """The type of an interface's objects, and the function that makes one of an object."""
        name = type_of(interface)
        guard = f"{name}_is_known".upper()
        self.say("", f"#ifndef {guard}", f"#define {guard}", f"typedef struct {name} {{", "\twaywire_object object;",
                 f"}} {name};", "", f"static inline {name} {name}_of(waywire_object object)", "{",
                 f"\t{name} typed;", "\ttyped.object = object;", "\treturn typed;", "}", "#endif")

    def header(self) -> str:
        guard = self.constant(self.protocol.name.replace("-", "_"), "h")
        self.say(*HEAD.format(name=self.protocol.name, prefix=self.prefix).splitlines())
        if self.protocol.copyright:
            self.say(" *", *(f" * {it}".rstrip().replace("*/", "* /") for it in self.protocol.copyright))
        self.say(" */", f"#ifndef {guard}", f"#define {guard}", "", "#include <waywire.h>", "",
                 "#ifdef __cplusplus", 'extern "C" {', "#endif")
        if self.tables:
            name = self.constant(self.protocol.name.replace("-", "_"), "tables")
            lines = [f'\t"{it}\\n"' for it in self.tables]
            width = max(map(len, lines)) + 1
            self.say("", "/* The protocol's table text. */", f"#define {name} \\")
            self.say(*(f"{it:{width}}\\" for it in lines[:-1]), lines[-1])
        self.say("", "/* Objects of each interface. Two headers may name the same. */")
        for name in self.typed():
            self.object_type(name)
        for it in self.protocol.interfaces:
            self.interface(it)
        self.say("", "#ifdef __cplusplus", "}", "#endif", "", "#endif")
        return "\n".join(self.lines) + "\n"


def opcodes_of(read: Protocol, side: str, indent: str = "") -> Iterator[str]:
    """The opcodes of a side of a protocol's interfaces, a module an interface."""
    for interface in read.interfaces:
        messages = [it for its, it in interface.messages() if its == side]
        if not messages:
            continue
        constants = [f"{indent}    pub const {it.name.upper()}: u16 = {it.opcode};" for it in messages]
        yield from ["", f"{indent}pub mod {interface.name} {{", *"\n\n".join(constants).splitlines(), f"{indent}}}"]


def rattle_module(read: Protocol, words: argparse.Namespace, tables: Sequence[str]) -> str:
    """A module of Rattle: one side of a protocol, or both with its table text."""
    lines = [f"//! {it}".rstrip() for it in words.comments]
    if words.rattle != "both":
        return "\n".join([*lines, *opcodes_of(read, words.rattle)]).lstrip() + "\n"
    text = "".join(f"{it}\\n\\\n    " for it in tables)
    lines += ["", "/// The protocol's table text.", 'pub const TABLES: &[u8] = b"\\', f"    {text.rstrip()}"]
    lines[-1] = lines[-1].removesuffix("\\") + '";'
    for side, writer in (("request", "a client"), ("event", "a server")):
        inside = list(opcodes_of(read, side, "    "))
        lines += ["", f"/// The opcodes of what {writer} writes.", f"pub mod {side} {{", *inside[1:], "}"]
    return "\n".join(lines).lstrip() + "\n"


def tables_of(path: str, others: Iterable[str]) -> list[str]:
    """The lines of the text of a protocol's tables, none if the core has its interfaces."""
    given = valid_tables.interfaces_of(path)
    named = [it for other in others for it in valid_tables.interfaces_of(other)]
    mending = valid_tables.Mending(given, False, named)
    mending.mend()
    own = {id(it) for it in given}
    own_left = [it for it in mending.interfaces if id(it) in own]
    return list(valid_tables.lines_of(own_left, []))


def main(arguments: Sequence[str] | None = None) -> int:
    program = files.program("stubs-from-xml")
    parser = argparse.ArgumentParser(
        prog=program, description="Prints typed calls for a Wayland protocol: a C header, or a module for Rust."
    )
    parser.add_argument("file", metavar="FILE", help="a protocol in the XML form of wayland-scanner")
    parser.add_argument("--prefix", default="ww_", help="the prefix of the names in the header [default: ww_]")
    parser.add_argument("--with", dest="others", action="append", default=[], metavar="FILE",
                        help="a protocol whose interfaces FILE may name; may be given several times")
    forms = parser.add_mutually_exclusive_group()
    forms.add_argument("--rust", action="store_true", help="prints a module for the Rust package waywire instead of a header")
    forms.add_argument("--rattle", choices=("request", "event", "both"), metavar="SIDE",
                        help="prints a module for Rattle or Rust with the opcodes of one side instead of a header; SIDE "
                        "is request, event, or both, which also prints the table text")
    parser.add_argument("--comment", dest="comments", action="append", default=[], metavar="LINE",
                        help="puts LINE into the documentation of the module (with --rust or --rattle); may be given "
                        "several times")
    words = parser.parse_args(arguments)
    if words.prefix and not protocol.NAME.fullmatch(words.prefix):
        parser.error(f"--prefix {words.prefix}: a name in C cannot begin so")
    if refused := files.why_not_printed([words.file, *words.others]):
        print(f"{program}: {refused}", file=sys.stderr)
        return 1
    try:
        read = protocol.read(words.file)
        protocol.check_names(words.file, read, not words.rust)
        tables = tables_of(words.file, words.others)
    except protocol.BadProtocol as error:
        print(f"{program}: {error}", file=sys.stderr)
        return protocol.status_of(error)
    if words.rust:
        others = [protocol.read(it) for it in words.others]
        sys.stdout.write(rust_stubs.Module(read, tables, others).text(words.comments))
    elif words.rattle:
        sys.stdout.write(rattle_module(read, words, tables))
    else:
        sys.stdout.write(Stubs(read, words.prefix, tables).header())
    return 0
