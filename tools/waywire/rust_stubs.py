"""Typed calls for Rust: a module of a Wayland protocol, over the package waywire."""

import re
import textwrap
from collections.abc import Container, Iterable, Iterator, Sequence

from . import table_text
from .protocol import Argument, Enum, Interface, Message, Protocol, with_tables

# Words that Rust keeps for itself.
RESERVED = set(
    """abstract as async await become box break const continue crate do dyn else enum extern false final fn
    for gen if impl in let loop macro match mod move mut override priv pub ref return self Self static struct
    super trait true try type typeof unsafe unsized use virtual where while yield""".split()
)
# Types that the modules name without a path.
TYPES = set("AsRef Clone Copy Debug Eq Events Hash None Option PartialEq Requests Result Self Some".split())
# Names that the functions have for themselves.
OWN = {"args", "client", "fields", "handler", "message", "server"}
# Interfaces whose events the server writes by calls of its own.
UNSENT = ("wl_display", "wl_registry")
# Interfaces for which the package has typed calls, and the core tables have nothing.
DATA_DEVICE = ("wl_data_device", "wl_data_device_manager", "wl_data_offer", "wl_data_source")
# Who writes the messages of a side, and who reads them.
WRITER = {"request": "client", "event": "server"}
READER = {"request": "server", "event": "client"}
WIDTH = 100
SENT = {
    "int": "waywire::Arg::Int({})",
    "uint": "waywire::Arg::Uint({})",
    "fixed": "waywire::Arg::Fixed({})",
    "array": "waywire::Arg::Array({}.as_ref())",
    "fd": "waywire::Arg::Fd(std::os::fd::AsFd::as_fd(&{}))",
    "new_id": "waywire::Arg::NewId",
}
# The word of a number.
WORDS = {"int": "{} as u32", "uint": "{}", "fixed": "{}.raw() as u32"}
# What a parameter of a function that sends is, and what a method of a handler is given.
GIVEN = {"int": "i32", "uint": "u32", "fixed": "waywire::Fixed", "array": "impl AsRef<[u8]>",
         "fd": "impl std::os::fd::AsFd"}
CAME = {**GIVEN, "array": "&[u8]", "fd": "std::os::fd::OwnedFd"}
READ = {"int": "int", "uint": "uint", "fixed": "fixed", "array": "array", "fd": "fd"}


def word(name: str, taken: Container[str] = ()) -> str:
    """A name that Rust accepts, and that is none of `taken`."""
    name = re.sub(r"(?<=[a-z0-9])(?=[A-Z])", "_", name).lower().replace("-", "_")
    name = f"_{name}" if name[:1].isdigit() else name
    while name in RESERVED or name in taken:
        name += "_"
    return name


def constant(name: str) -> str:
    name = re.sub(r"(?<=[a-z0-9])(?=[A-Z])", "_", name).upper().replace("-", "_")
    return f"_{name}" if name[:1].isdigit() else name


def type_name(name: str) -> str:
    """The name of a type: XdgToplevel for xdg_toplevel."""
    found = "".join(it[:1].upper() + it[1:] for it in re.split("[_-]", name))
    found = f"N{found}" if found[:1].isdigit() else found
    return f"{found}Value" if found in TYPES else found


def plain(text: str) -> str:
    """A text of the file, in the form of documentation."""
    return re.sub(r"([\[\]<>*`_\\])", r"\\\1", text)


def sentence(summary: str) -> list[str]:
    """A summary of the file as a sentence, or none."""
    text = plain(summary).rstrip(".")
    return [f"{text[:1].upper()}{text[1:]}."] if text else []


def documented(texts: Iterable[str], indent: str = "") -> list[str]:
    """Lines of documentation: paragraphs, and items that begin with `- `."""
    lines: list[str] = []
    for text in texts:
        is_item = text.startswith("- ")
        if lines and not (is_item and lines[-1].lstrip("/ ").startswith(("- ", "  "))):
            lines.append(f"{indent}///")
        more = "  " if is_item else ""
        lines += [f"{indent}/// {it}" for it in textwrap.wrap(
            text, WIDTH - 4 - len(indent), subsequent_indent=more, break_long_words=False,
            break_on_hyphens=False)]
    return lines


def end(name: str) -> str:
    """The parameter that writes the messages of an end."""
    return f"{name}: &waywire::{name.title()}Writer"


def wrapped(indent: str, head: str, parts: list[str], end: str) -> list[str]:
    """A call or a declaration: on one line if it fits, otherwise with a line for each part."""
    line = f"{indent}{head}({', '.join(parts)}){end}"
    if len(line) <= WIDTH:
        return [line]
    return [f"{indent}{head}(", *(f"{indent}    {it}," for it in parts), f"{indent}){end}"]


class Module:
    """The module of one protocol, with a module for each of its interfaces."""

    def __init__(self, read: Protocol, tables: Sequence[str], others: Iterable[Protocol]) -> None:
        self.protocol = read
        self.tables = tables
        self.lines: list[str] = []
        core = {it.name for it in table_text.core_tables()}
        # The core's own module has all its interfaces. Elsewhere those are the ones of the package.
        self.interfaces = [it for it in read.interfaces if not tables or it.name not in core]
        self.places = {it: f"waywire::wayland::{word(it)}" for it in core}
        self.places |= {it: f"waywire::data_device::{word(it)}" for it in DATA_DEVICE}
        for other in others:
            name = word(other.name)
            self.places |= {it.name: f"super::super::{name}::{word(it.name)}" for it in other.interfaces
                            if it.name not in core}
        self.places |= {it.name: f"super::{word(it.name)}" for it in self.interfaces}
        self.enums = {}
        for it in read.interfaces:
            taken = {type_name(it.name)}
            for one in it.enums:
                name = type_name(one.name)
                while name in taken:
                    name += "Value"
                taken.add(name)
                self.enums[it.name, one.name] = name

    def say(self, *lines: str) -> None:
        self.lines += lines

    def handle(self, interface: Interface, named: str | None) -> str:
        """The type of an object of an interface, as the module of another interface names it."""
        if named is None or named not in self.places:
            return "waywire::Object"
        if named == interface.name:
            return type_name(named)
        return f"{self.places[named]}::{type_name(named)}"

    def enum(self, interface: Interface, arg: Argument) -> str | None:
        """The type of an enum that an argument names, if it is there."""
        if arg.enum is None:
            return None
        named, _, name = arg.enum.rpartition(".")
        named = named or interface.name
        if (named, name) not in self.enums or named not in self.places:
            return None
        found = self.enums[named, name]
        return found if named == interface.name else f"{self.places[named]}::{found}"

    def name(self, arg: Argument) -> str:
        return word(arg.name, OWN)

    def target(self, interface: Interface, message: Message) -> str:
        return word(interface.name, OWN | {self.name(it) for it in message.args})

    def form(self, interface: Interface, arg: Argument, forms: dict[str, str]) -> str:
        """The type of an argument that is no new object."""
        if arg.type == "object":
            found = self.handle(interface, arg.interface)
            return f"Option<{found}>" if arg.null else found
        if arg.type == "string":
            if forms is CAME:
                return "Option<&std::ffi::CStr>" if arg.null else "&std::ffi::CStr"
            return "Option<&[u8]>" if arg.null else "impl AsRef<[u8]>"
        return self.enum(interface, arg) or forms[arg.type]

    def word_of(self, interface: Interface, arg: Argument) -> str:
        """The word of an argument that is a number."""
        return f"{self.name(arg)}.0" if self.enum(interface, arg) else WORDS[arg.type].format(self.name(arg))

    def sent(self, interface: Interface, arg: Argument) -> str:
        """An argument of a call."""
        name = self.name(arg)
        if arg.type == "string":
            return f"waywire::Arg::Str({name})" if arg.null else f"waywire::Arg::Str(Some({name}.as_ref()))"
        if arg.type == "object":
            is_typed = self.handle(interface, arg.interface) != "waywire::Object"
            if arg.null:
                return f"waywire::Arg::Object({name}.map(|it| it.0))" if is_typed else f"waywire::Arg::Object({name})"
            return f"waywire::Arg::Object(Some({name}{'.0' if is_typed else ''}))"
        if self.enum(interface, arg):
            name = f"{name}.0 as i32" if arg.type == "int" else f"{name}.0"
        return SENT[arg.type].format(name)

    def read(self, interface: Interface, arg: Argument) -> str:
        """An argument of a message that was read."""
        if arg.type in ("object", "new_id"):
            found = self.handle(interface, arg.interface)
            is_typed = found != "waywire::Object"
            if arg.null:
                return f"fields.nullable_object()?.map({found})" if is_typed else "fields.nullable_object()?"
            call = "new_object" if arg.type == "new_id" else "object"
            return f"{found}(fields.{call}()?)" if is_typed else f"fields.{call}()?"
        if arg.type == "string":
            return "fields.nullable_string()?" if arg.null else "fields.string()?"
        enum = self.enum(interface, arg)
        if enum:
            return f"{enum}(fields.{READ[arg.type]}()?{' as u32' if arg.type == 'int' else ''})"
        return f"fields.{READ[arg.type]}()?"

    def said(self, message: Message, *more: str) -> list[str]:
        """The documentation of a message."""
        items = [f"- `{self.name(it)}`: {plain(it.summary)}" for it in message.args if it.summary]
        since = [f"Since version {message.since}."] if message.since > 1 else []
        ends = ["It destroys the object."] if message.destroys else []
        texts = sentence(message.summary) or [f"The message {plain(message.name)}."]
        return [*texts, *items, *([" ".join([*more, *ends, *since])] if more or ends or since else [])]

    def constants(self, interface: Interface) -> None:
        for side, messages in (("request", interface.requests), ("event", interface.events)):
            if not messages:
                continue
            self.say("", f"    /// The opcodes of the {side}s, and the versions that have them.",
                     f"    pub mod {side} {{")
            for it in messages:
                name = constant(it.name)
                self.say(f"        /// The opcode of {plain(it.name)}.",
                         f"        pub const {name}: u16 = {it.opcode};",
                         f"        /// The first version that has {plain(it.name)}.",
                         f"        pub const {name}_SINCE: u32 = {it.since};")
            self.say("    }")

    def type_of_enum(self, interface: Interface, enum: Enum) -> None:
        name = self.enums[interface.name, enum.name]
        what = "Bits that can be joined by `|`." if enum.bitfield else "A number that has no name here may come."
        self.say("", *documented([*sentence(enum.summary), what], "    "),
                 "    #[derive(Clone, Copy, PartialEq, Eq, Hash)]",
                 f"    pub struct {name}(#[doc = \"The number.\"] pub u32);", "",
                 f"    impl {name} {{")
        taken = {}
        for it in enum.entries:
            entry = constant(it.name)
            while entry in taken:
                entry += "_"
            taken[entry] = it.value
            since = [f"Since version {it.since}."] if it.since > 1 else []
            summary = sentence(it.summary) or [f"The value {plain(it.name)}."]
            self.say(*documented([" ".join([*summary, *since])], "        "),
                     f"        pub const {entry}: {name} = {name}({it.value});")
        if enum.bitfield:
            self.say("", "        /// Whether it has all bits of the other.",
                     f"        pub fn contains(self, other: {name}) -> bool {{",
                     "            self.0 & other.0 == other.0", "        }")
        self.say("    }")
        if enum.bitfield:
            self.say("", f"    impl std::ops::BitOr for {name} {{", f"        type Output = {name};", "",
                     f"        fn bitor(self, other: {name}) -> {name} {{",
                     f"            {name}(self.0 | other.0)", "        }", "    }")
        self.prints(name, "bits" if enum.bitfield else "value", taken)

    def prints(self, name: str, kind: str, values: dict[str, int]) -> None:
        """How a value of an enum is printed for a programmer: by the names of its constants."""
        pairs = [f'("{it}", {value})' for it, value in values.items()]
        line = f"            let names = [{', '.join(pairs)}];"
        lines = [line] if len(line) <= WIDTH else [
            "            let names = [", *(f"                {it}," for it in pairs), "            ];"]
        self.say("", f"    impl std::fmt::Debug for {name} {{",
                 "        fn fmt(&self, f: &mut std::fmt::Formatter<'_>) -> std::fmt::Result {", *lines,
                 f'            waywire::typed::write_{kind}(f, "{name}", self.0, &names)', "        }", "    }")

    def sends(self, interface: Interface, side: str, message: Message, name: str) -> None:
        """A method that writes a message at an end."""
        made = message.made()
        parameters = ["self", end(WRITER[side])]
        parameters += [f"{self.name(it)}: {self.form(interface, it, GIVEN)}" for it in message.args
                       if it.type != "new_id"]
        result = "()"
        if made:
            result = self.handle(interface, made.interface)
        self.say("", *documented(self.said(message), "        "))
        if made and made.interface is None and side == "request":
            self.binds(message)
            return
        self.say("        #[inline]",
                 *wrapped("        ", f"pub fn {name}", parameters, f" -> Result<{result}, waywire::SendError> {{"))
        has_words = all(it.type in WORDS for it in message.args)
        given = [(self.word_of if has_words else self.sent)(interface, it) for it in message.args]
        args = f"&[{', '.join(given)}]"
        if len(args) > 40 and given:
            line = f"            let args = [{', '.join(given)}];"
            if len(line) > WIDTH:
                self.say("            let args = [", *(f"                {it}," for it in given), "            ];")
            else:
                self.say(line)
            args = "&args"
        opcode = f"{side}::{constant(message.name)}"
        call = "make" if made else "send_words" if has_words else "send"
        self.say(*wrapped("            ", f"waywire::typed::{call}", [WRITER[side], "self.0", opcode, args], ""),
                 "        }")

    def binds(self, message: Message) -> None:
        """The one request whose new object is of the interface that the caller wants."""
        others = [self.name(it) for it in message.args if it.type != "new_id"]
        parameters = ["self", end("client"), *(f"{it}: u32" for it in others), "version: u32"]
        self.say(*wrapped("        ", f"pub fn {word(message.name)}<T: waywire::Handle>", parameters,
                          " -> Result<T, waywire::SendError> {"),
                 f"            client.bind(self.0, {', '.join(others)}, T::NAME, version).map(T::of)", "        }")

    def parameters(self, interface: Interface, message: Message) -> Iterator[tuple[str, str]]:
        """The parameters of a handler's method, after the target."""
        for it in message.args:
            if it.type != "new_id":
                yield self.name(it), self.form(interface, it, CAME)
            elif it.interface is None:
                yield from (("interface", "&std::ffi::CStr"), ("version", "u32"), (self.name(it), "waywire::Object"))
            else:
                yield self.name(it), self.handle(interface, it.interface)

    def handlers(self, interface: Interface, side: str, messages: list[Message]) -> None:
        """The trait of the messages of a side, and the functions that call its methods."""
        self.trait(interface, side, messages)
        article = "an" if side == "event" else "a"
        self.say("", *documented([
            f"Calls the method of {article} {side}. False if the message is for another interface, or the interface "
            f"has no such {side} with these arguments: nothing is called then."], "    "))
        parameters = [f"handler: &mut impl {side.title()}s", end(READER[side]),
                      "message: &mut impl waywire::Readable"]
        self.say(*wrapped("    ", f"pub fn dispatch_{side}", parameters, " -> bool {"),
                 f"        waywire::typed::is_for({READER[side]}.tables(), message, NAME)",
                 f"            && handle_{side}(handler, {READER[side]}, message)", "    }", "",
                 f"    /// The same, for {article} {side} to an object that has this interface.")
        self.say(*wrapped("    ", f"pub fn handle_{side}", parameters, " -> bool {"),
                 f"        {side}_of(handler, {READER[side]}, message).is_some()", "    }", "")
        self.say(*wrapped("    ", f"fn {side}_of", parameters, " -> Option<()> {"))
        self.say(f"        let (target, opcode) = ({type_name(interface.name)}(message.target()), message.opcode());",
                 "        let mut fields = waywire::typed::fields(message);", "        match opcode {")
        for it in messages:
            self.call(interface, side, it)
        self.say("            _ => return None,", "        }", "        Some(())", "    }")

    def trait(self, interface: Interface, side: str, messages: list[Message]) -> None:
        """The trait of the messages of a side."""
        handle = type_name(interface.name)
        self.say("", f"    /// What becomes of the {side}s. A method that is not written does nothing.",
                 f"    pub trait {side.title()}s {{")
        for place, it in enumerate(messages):
            target = self.target(interface, it)
            pairs = [(target, handle), *self.parameters(interface, it)]
            names = [READER[side], *(name for name, _ in pairs)]
            parameters = ["&mut self", end(READER[side]), *(f"{a}: {b}" for a, b in pairs)]
            self.say(*([""] if place else []), *documented(self.said(it), "        "))
            self.say(*wrapped("        ", f"fn {word(it.name)}", parameters, " {"))
            self.say(*wrapped("            ", "let _ = ", names, ";"), "        }")
        self.say("    }")

    def call(self, interface: Interface, side: str, message: Message) -> None:
        """The arm that reads the arguments of a message, requires that there are no more, and calls its method."""
        self.say(f"            {side}::{constant(message.name)} => {{")
        given = [READER[side], "target"]
        for it in message.args:
            if side == "request" and it.type == "new_id" and it.interface is None:
                names, value = ["interface", "version", "object"], "fields.bound()?"
            else:
                names, value = [word(it.name, OWN | {"target"})], self.read(interface, it)
            pattern = names[0] if len(names) == 1 else f"({', '.join(names)})"
            line = f"                let {pattern} = {value};"
            self.say(*([line] if len(line) <= WIDTH else
                       [f"                let {pattern} =", f"                    {value};"]))
            given += names
        self.say("                fields.none_left()?;",
                 *wrapped("                ", f"handler.{word(message.name)}", given, ";"), "            }")

    def interface(self, interface: Interface) -> None:
        name = type_name(interface.name)
        said = sentence(interface.summary) or [f"The interface {plain(interface.name)}."]
        self.say("", *documented(said), f"pub mod {word(interface.name)} {{",
                 "    /// The name of the interface.", f'    pub const NAME: &str = "{interface.name}";', "",
                 "    /// Its newest version.", f"    pub const VERSION: u32 = {interface.version};", "",
                 *documented(said, "    "),
                 "    #[derive(Clone, Copy, Debug, PartialEq, Eq, Hash)]",
                 f"    pub struct {name}(#[doc = \"The object.\"] pub waywire::Object);", "",
                 f"    impl waywire::Handle for {name} {{", "        const NAME: &'static str = NAME;",
                 "        const VERSION: u32 = VERSION;", "",
                 "        fn of(object: waywire::Object) -> Self {", f"            {name}(object)", "        }", "",
                 "        fn object(self) -> waywire::Object {", "            self.0", "        }", "    }")
        self.constants(interface)
        for it in interface.enums:
            self.type_of_enum(interface, it)
        requests, read = (with_tables(interface, it) for it in (interface.requests, interface.events))
        events = read if interface.name not in UNSENT else []
        if requests or events:
            self.say("", f"    impl {name} {{")
            start, names = len(self.lines), set[str]()
            for side, messages, prefix in (("request", requests, ""), ("event", events, "send_")):
                for message in messages:
                    method = word(prefix + message.name, names)
                    names.add(method)
                    self.sends(interface, side, message, method)
            del self.lines[start]  # the empty line before the first
            self.say("    }")
        # A client's reports have words of their own for the events of wl_display.
        heard = read if interface.name != "wl_display" else []
        for side, messages in (("event", heard), ("request", requests)):
            if messages:
                self.handlers(interface, side, messages)
        self.say("}")

    def text(self, comments: Sequence[str] = ()) -> str:
        usual = [f"Typed calls for the protocol {self.protocol.name}, over the package waywire."]
        self.say("// Made by stubs-from-xml --rust, which says what each item is.",
                 *(f"//! {it}".rstrip() for it in comments or usual))
        if self.protocol.copyright:
            self.say("//!", "//! ```text", *(f"//! {it}".rstrip() for it in self.protocol.copyright), "//! ```")
        self.say("", "#![allow(dead_code)]",
                 "#![allow(clippy::module_inception, clippy::new_ret_no_self, clippy::too_many_arguments)]",
                 "#![allow(clippy::wrong_self_convention)]")
        if self.tables:
            self.say("", "/// The protocol's table text, for [`waywire::Tables::read`].",
                     'pub const TABLES: &[u8] = b"\\', *(f"    {it}\\n\\" for it in self.tables))
            self.lines[-1] = self.lines[-1].removesuffix("\\") + '";'
        for it in self.interfaces:
            self.interface(it)
        return "\n".join(self.lines) + "\n"
