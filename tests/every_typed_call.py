"""Writes a package that sends each message of protocols through its typed call and its dispatch.

    python3 -m tests.every_typed_call FOLDER

The modules are those that tools/stubs-from-xml --rust makes from the installed protocol files, and that of the
core, which the package waywire has. Each message that the tables have is sent with arguments at the limits of
their types. What the handler gets is compared with what was sent."""

import os
import shutil

from scripts import protocol_files, usage
from tests import checks
from tools.waywire import protocol, rust_stubs, stubs_from_xml, table_text
from tools.waywire.rust_stubs import type_name, word

MANIFEST = """[package]
name = "typed"
version = "0.0.0"
edition = "2021"
publish = false

[dependencies]
waywire = {{ path = "{path}" }}

[workspace]
"""
LENT = {"string": "TEXTS[corner]", "array": "TEXTS[corner].to_bytes()", "fixed": "fixed(corner)", "fd": "numbered(corner)"}


def lent(name, arg):
    """An argument as a call takes it."""
    if arg.type == "string":
        return f"{name}.map(CStr::to_bytes)" if arg.null else f"{name}.to_bytes()"
    return f"&{name}" if arg.type == "fd" else name


def said(name, arg):
    """What is compared of an argument: of a descriptor the number that its file says."""
    return f"number_of(&{name})" if arg.type == "fd" else name


class Calls(rust_stubs.Module):
    """The tests of one protocol: its types are named by their whole paths."""

    def __init__(self, read, tables, others, at, known):
        super().__init__(read, tables, others)
        own = {it.name for it in self.interfaces}
        for name, place in self.places.items():
            if name in own:
                self.places[name] = f"{at}::{word(name)}"
            else:
                self.places[name] = place.replace("super::super::", "typed::")
        self.known_tables = known
        self.tests = []

    def handle(self, interface, named):
        if named is None or named not in self.places:
            return "waywire::Object"
        return f"{self.places[named]}::{type_name(named)}"

    def enum(self, interface, arg):
        found = super().enum(interface, arg)
        return f"{self.places[interface.name]}::{found}" if found and "::" not in found else found

    def known(self, interface, side, message):
        """Whether the tables have the message as the file has it, and typed calls write it."""
        it = self.known_tables.get(interface.name)
        if it is None or (side == "event" and interface.name in rust_stubs.UNSENT):
            return False
        found = getattr(it, side)
        return message.opcode < len(found) and found[message.opcode].name == message.name and \
            len(found[message.opcode].kinds) == len(message.args) and \
            not any(arg.type == "new_id" and arg.interface is None for arg in message.args)

    def value(self, interface, arg):
        """What is sent of an argument."""
        if arg.type == "object":
            kind = self.handle(interface, arg.interface)
            made = 'pair.object("wl_compositor")' if kind == "waywire::Object" else f"pair.handle::<{kind}>()"
            return f"(corner != 2).then(|| {made})" if arg.null else made
        if arg.type == "string" and arg.null:
            return "NULLABLE_TEXTS[corner]"
        enum = self.enum(interface, arg)
        if enum:
            return f"{enum}(UINTS[corner])"
        return LENT.get(arg.type) or ("INTS[corner]" if arg.type == "int" else "UINTS[corner]")

    def test(self, interface, side, message, method):
        module = self.places[interface.name]
        name = "_".join([self.protocol.name, interface.name, side, message.name])
        name = word(name.replace("__", "_"))
        end, reader = rust_stubs.WRITER[side], rust_stubs.READER[side]
        self.say("", f"fn {name}(corner: usize) {{", "    let mut pair = Pair::new(TEXTS_OF_TABLES);")
        given, came = [], ["target"]
        for place, it in enumerate(message.args):
            if it.type == "new_id":
                came.append("made")
                continue
            self.say(f"    let arg{place} = {self.value(interface, it)};")
            given.append(lent(f"arg{place}", it))
            came.append(said(f"arg{place}", it))
        self.say(f"    let target: {module}::{type_name(interface.name)} = pair.handle();")
        call = f"target.{method}({', '.join([f'&pair.{end}', *given])})"
        self.tests.append(name)
        self.say(f"    let made = {call}.unwrap();" if message.made() else f"    {call}.unwrap();")
        self.say(f"    let mut message = pair.{side}();", f"    let wanted = said!({', '.join(came)});",
                 "    let mut seen = Seen(String::new());",
                 f"    assert!({module}::dispatch_{side}(&mut seen, &pair.{reader}, &mut message));",
                 f'    assert_eq!(seen.0, format!("{message.name}: {{wanted}}"));', "}")

    def handlers_of(self, interface, side, messages):
        module, handle = self.places[interface.name], type_name(interface.name)
        self.say("", f"impl {module}::{side.title()}s for Seen {{")
        for it in messages:
            target = self.target(interface, it)
            pairs = [(target, f"{module}::{handle}"), *self.parameters(interface, it)]
            parameters = ", ".join([rust_stubs.end(rust_stubs.READER[side]), *(f"{name}: {form}" for name, form in pairs)])
            kinds = {self.name(arg): arg for arg in it.args}
            names = [said(name, kinds[name]) if name in kinds else name for name, _ in pairs]
            self.say(f"    fn {word(it.name)}(&mut self, {parameters}) {{",
                     f'        self.0 = format!("{it.name}: {{}}", said!({", ".join(names)}));', "    }")
        self.say("}")

    def all(self):
        for interface in self.interfaces:
            names = set()
            for side, messages in (("request", interface.requests), ("event", interface.events)):
                if messages and not (side == "event" and interface.name == "wl_display"):
                    self.handlers_of(interface, side, messages)
                for it in messages:
                    if side == "event" and interface.name in rust_stubs.UNSENT:
                        continue
                    method = word(("" if side == "request" else "send_") + it.name, names)
                    names.add(method)
                    if self.known(interface, side, it):
                        self.test(interface, side, it, method)
        return self.lines


def write(path, text):
    os.makedirs(os.path.dirname(path), exist_ok=True)
    with open(path, "w", encoding="utf-8") as file:
        file.write(text)


def main(folder):
    files = protocol_files.found()
    named = {name: text.names for name, text in protocol_files.PROTOCOLS.items()}
    order = sorted(files, key=lambda it: (bool(named[it]), it))
    modules, texts, calls = [], [], []
    tables = {it.name: it for it in table_text.core_tables()}
    read = [("waywire::wayland", protocol.read(f"{checks.TOP}/protocols/core/core.xml"), [], [])]
    for name in order:
        lines = stubs_from_xml.tables_of(files[name], [files[it] for it in named[name]])
        tables |= {it.name: it for it in table_text.parse_tables("".join(f"{it}\n" for it in lines).encode())}
        one, others = protocol.read(files[name]), [protocol.read(files[it]) for it in named[name]]
        module = word(one.name)
        write(f"{folder}/src/{module}.rs", rust_stubs.Module(one, lines, others).text())
        modules.append(f"pub mod {module};\n")
        texts.append(f"    typed::{module}::TABLES,\n")
        read.append((f"typed::{module}", one, lines, others))
    tests = []
    for at, one, lines, others in read:
        protocol_calls = Calls(one, lines, others, at, tables)
        calls += protocol_calls.all()
        tests += protocol_calls.tests
    write(f"{folder}/Cargo.toml", MANIFEST.format(path=f"{checks.TOP}/rust/waywire"))
    write(f"{folder}/src/lib.rs", "//! Typed calls of the protocols at hand.\n\n" + "".join(sorted(modules)))
    head = ["//! Made by tests/every_typed_call.py.", "", "#![allow(unused_variables)]", "", "mod pair;", "", "use pair::*;", "",
            f"const TEXTS_OF_TABLES: &[&[u8]] = &[\n{''.join(texts)}];", "",
            "/// The name of a test, and what it does with values at one of the corners.",
            "type Test = (&'static str, fn(usize));", "",
            "/// What a handler was called with.", "struct Seen(String);"]
    foot = ["", "#[test]", "fn every_message() {", "    let tests: &[Test] = &[",
            *(f'        ("{it}", {it}),' for it in tests), "    ];", "    for (name, test) in tests {",
            '        println!("{name}");', "        (0..3).for_each(test);", "    }",
            f'    assert_eq!(tests.len(), {len(tests)});', "}"]
    write(f"{folder}/tests/every.rs", "\n".join([*head, *calls, *foot]) + "\n")
    shutil.copy(f"{checks.TOP}/tests/rust/pair.rs", f"{folder}/tests/pair.rs")
    print(f"{len(tests)} messages of {len(read)} protocols")


if __name__ == "__main__":
    main(*usage.words(__doc__, least=1, most=1))
