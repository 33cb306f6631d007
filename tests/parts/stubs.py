"""Tests the output of tools/stubs-from-xml: the headers for C, with the library that `make` has built, the typed calls
for Rust, and the modules of names for Rattle and Rust. The last line is 'N passed, M failed'.

    ./test stubs [TEST..]
"""

import os
import re
import subprocess
import sys
import tempfile
import unittest

from scripts import protocol_files, usage
from tests.checks import (COMPILERS, STRICT, TOOLS, TOP, VALGRIND, Failed, count_cases, is_installed, make, need,
                          suite_of, tried)
from tools.waywire import protocol, stubs_from_xml, table_text

FILES = protocol_files.found()
# The other protocols whose interfaces a protocol names.
NAMED = {name: text.names for name, text in protocol_files.PROTOCOLS.items()}


def stubs(*words, status=0):
    """The output of the tool for a file."""
    ran = subprocess.run([f"{TOOLS}/stubs-from-xml", *words], capture_output=True, text=True, check=False)
    if ran.returncode != status:
        raise AssertionError(f"status {ran.returncode}: {ran.stderr}")
    return ran.stdout


def words_of(name):
    """The arguments for a protocol's file, with those for the protocols that it names."""
    return [*(f"--with={FILES[it]}" for it in NAMED[name]), FILES[name]]


# Names that C, C++ or the header itself has, a value above 2,147,483,647, and a comment's end in a summary.
AWKWARD = """<protocol name="awkward_names">
  <copyright>Nobody */ holds it.</copyright>
  <interface name="class" version="3">
    <description summary="ends */ no comment"/>
    <enum name="int" bitfield="true">
      <entry name="long" value="0x80000000" summary="the highest */ bit"/>
      <entry name="1x" value="1" since="2"/>
    </enum>
    <enum name="high"><entry name="most" value="0xffffffff"/></enum>
    <request name="delete" type="destructor"/>
    <request name="new" since="2">
      <arg name="client" type="new_id" interface="class"/>
      <arg name="status" type="object" interface="class" allow-null="true"/>
      <arg name="args" type="array"/>
      <arg name="args_length" type="uint"/>
      <arg name="class" type="string" allow-null="true"/>
    </request>
    <request name="dispatch_event"><arg name="data" type="fd"/></request>
    <event name="register"><arg name="report" type="fixed"/></event>
    <event name="this" since="3"><arg name="server" type="int"/><arg name="calls" type="uint"/></event>
  </interface>
</protocol>
"""


class Headers(unittest.TestCase):
    @classmethod
    def setUpClass(cls):
        """The header of the version is made by `make`."""
        need("cc", "make")
        if not make("include/waywire-version.h"):
            raise Failed("waywire-version.h is not made")

    def awkward(self, room, *words):
        """The header of a protocol with awkward names, in a folder."""
        with open(f"{room}/awkward.xml", "w", encoding="utf-8") as file:
            file.write(AWKWARD)
        header = stubs(*words, f"{room}/awkward.xml")
        with open(f"{room}/awkward.h", "w", encoding="utf-8") as file:
            file.write(header)
        return header.splitlines()

    def test_awkward_names(self):
        with tempfile.TemporaryDirectory() as room:
            self.awkward(room, "--prefix", "my_")
            text = b'#include "awkward.h"\nint main(void) { return 0; }\n'
            for words in COMPILERS:
                if is_installed(words[0]):
                    ran = subprocess.run([*words, *STRICT, "-I", f"{TOP}/include", "-I", room, "-"], input=text,
                                         capture_output=True, check=False)
                    self.assertEqual((ran.returncode, ran.stderr.decode()), (0, ""), words)

    def test_types_are_no_names_of_the_library(self):
        """Whatever a protocol calls its interfaces."""
        for header in ("waywire.h", "waywire-socket.h"):
            with open(f"{TOP}/include/{header}", encoding="utf-8") as file:
                for name in set(re.findall(r"\bwaywire_([a-z_]+)", file.read())):
                    self.assertNotEqual(stubs_from_xml.type_of(name), f"waywire_{name}")
        self.assertEqual(stubs_from_xml.type_of("wl_surface"), "waywire_wl_surface")

    def test_constants(self):
        with tempfile.TemporaryDirectory() as room:
            lines = self.awkward(room)
        for line in ('#define WW_CLASS_NAME "class"', "#define WW_CLASS_VERSION 3",
                     "#define WW_CLASS_REQUEST_NEW 1", "#define WW_CLASS_REQUEST_NEW_SINCE 2",
                     "#define WW_CLASS_EVENT_THIS 1", "#define WW_CLASS_EVENT_THIS_SINCE 3",
                     "#define WW_CLASS_INT_LONG 2147483648u", "\tWW_CLASS_INT_1X = 1,",
                     "#define WW_CLASS_INT_1X_SINCE 2"):
            self.assertIn(line, lines)

    def dispatched(self, *checked):
        """Runs a program that a command checks."""
        with tempfile.TemporaryDirectory() as room:
            built = f"{room}/dispatch"
            self.assertTrue(make())
            for words in (["cc", "-std=c99", "-g", *STRICT[:-1], "-Iinclude", "-Itests/c", "tests/c/dispatch.c",
                           "out/c/libwaywire.a", "-o", built],
                          [*checked, built]):
                ran = subprocess.run(words, cwd=TOP, capture_output=True, text=True, check=False)
                self.assertEqual(ran.returncode, 0, ran.stdout + ran.stderr)

    def test_reports_are_dispatched(self):
        """Reports that are no messages, and messages that no typed call writes."""
        self.dispatched()

    def test_reports_are_dispatched_under_valgrind(self):
        need("valgrind")
        self.dispatched(*VALGRIND)

    @unittest.skipUnless(FILES and is_installed("wayland-scanner"),
                         "libwayland-dev is not installed")
    def test_beside_the_headers_of_wayland_scanner(self):
        """A program has a header of each for the same protocols."""
        with tempfile.TemporaryDirectory() as room:
            for name in FILES:
                with open(f"{room}/{name}-stubs.h", "w", encoding="utf-8") as file:
                    file.write(stubs(*words_of(name)))
            for end in ("client", "server"):
                text = "".join(f'#include "{it}-stubs.h"\n#include "{it}-{end}.h"\n' for it in FILES)
                for name, path in FILES.items():
                    subprocess.run(["wayland-scanner", f"{end}-header", path, f"{room}/{name}-{end}.h"], check=True)
                for words in COMPILERS[::2]:
                    if is_installed(words[0]):
                        ran = subprocess.run([*words, *STRICT, "-I", f"{TOP}/include", "-isystem", room, "-"],
                                             input=text.encode(), capture_output=True, check=False)
                        self.assertEqual((ran.returncode, ran.stderr.decode()), (0, ""), words)

    def test_no_protocol(self):
        for file, status in ((f"{TOP}/crates.txt", 1), (f"{TOP}/no such file", 3)):
            self.assertEqual(stubs(file, status=status), "")


# Names that Rust or the modules have, and an argument of an interface that is nowhere.
AWKWARD_OF_RUST = """<protocol name="type">
  <interface name="self" version="2">
    <description summary="it [is] a `code` with *stars*, \\ and &lt;angles&gt;."/>
    <enum name="option" bitfield="true"><entry name="180" value="0x80000000"/><entry name="None" value="0"/></enum>
    <enum name="self"><entry name="move" value="1" since="2"/><entry name="MOVE" value="2"/></enum>
    <request name="move" type="destructor"/>
    <request name="new" since="2">
      <arg name="client" type="new_id" interface="self"/>
      <arg name="fields" type="object" interface="nowhere" allow-null="true"/>
      <arg name="handler" type="uint" enum="option"/>
      <arg name="match" type="int" enum="self.self"/>
      <arg name="self" type="string" allow-null="true"/>
      <arg name="message" type="object"/>
    </request>
    <request name="send_ref"/>
    <event name="ref"><arg name="aB" type="array"/><arg name="fn" type="uint" enum="nowhere.none"/></event>
    <event name="of"><arg name="made" type="new_id" interface="self"/></event>
  </interface>
</protocol>
"""


class Rust(unittest.TestCase):
    """The modules of typed calls. ./test rust runs them with the library for C."""

    @unittest.skipUnless(is_installed("cargo"), "cargo is not installed")
    def test_awkward_names(self):
        need("make")
        self.assertTrue(make("rust/waywire/src/wayland.rs", "rust/waywire/src/data_device.rs"))
        with tempfile.TemporaryDirectory() as room:
            os.mkdir(f"{room}/src")
            for name, text in {
                "type.xml": AWKWARD_OF_RUST, "src/lib.rs": "//! Two protocols.\n\npub mod awkward;\npub mod type_;\n",
                "Cargo.toml": f'[package]\nname = "names"\nedition = "2021"\n[dependencies]\n'
                              f'waywire.path = "{TOP}/rust/waywire"\n[workspace]\n', "awkward.xml": AWKWARD,
            }.items():
                with open(f"{room}/{name}", "w", encoding="utf-8") as file:
                    file.write(text)
            for module, name in (("type_", "type"), ("awkward", "awkward")):
                with open(f"{room}/src/{module}.rs", "w", encoding="utf-8") as file:
                    file.write(stubs("--rust", f"{room}/{name}.xml"))
            words = ["clippy"] if is_installed("cargo-clippy") else ["check"]
            env = {**os.environ, "WAYWIRE_DIR": "/nowhere", "CARGO_TARGET_DIR": f"{TOP}/out/names",
                   "RUSTFLAGS": "-Dwarnings"}
            ran = subprocess.run(["cargo", *words, "--offline", "--all-targets"], cwd=room, env=env,
                                 capture_output=True, text=True, check=False)
            self.assertEqual(ran.returncode, 0, ran.stderr)


PROGRAM = """//! Prints the opcodes of modules, each beside that of the tables that their texts make.
#![tactic(auto)]

{mods}
use std::io;
use wl_sigs::{{Side, Tables}};

fn read(tables: Tables, text: &[u8]) -> io::Result<Tables> {{
    match tables.read_more(text) {{
        Ok(more) => Ok(more),
        Err(_) => Err(io::Error::from(io::ErrorKind::InvalidData)),
    }}
}}

fn opcode_of(tables: &Tables, iface: &str, side: Side, name: &str) -> Option<u16> {{
    tables.opcode(tables.interface(iface.as_bytes())?, side, name.as_bytes())
}}

fn say(rt: &HostRuntime, name: &str, opcode: u16, found: Option<u16>) -> io::Result<()> {{
    match found {{
        Some(found) => println!(rt; "{{name}} {{opcode}} {{found}}"),
        None => println!(rt; "{{name}} {{opcode}} none"),
    }}
}}
{functions}
fn main(rt: HostRuntime) -> io::Result<()> {{
    let tables = Tables::core(rt.alloc())?;
{calls}    Ok(())
}}
"""


def module(name):
    return name.replace("-", "_")


def function(name, messages):
    """A function of the program, which prints each opcode of a module."""
    lines = [f"\nfn say_{module(name)}(rt: &HostRuntime, tables: &Tables) -> io::Result<()> {{"]
    for interface, side, message in messages:
        constant = f"{module(name)}::{side}::{interface}::{message.upper()}"
        lines += [f'    let found = opcode_of(tables, "{interface}", Side::{side.title()}, "{message}");',
                  f'    say(rt, "{interface} {side} {message}", {constant}, found)?;']
    return "\n".join([*lines, "    Ok(())", "}"]) + "\n"


@unittest.skipUnless(FILES, "wayland-protocols is not installed")
class Modules(unittest.TestCase):
    """The modules of the protocols in protocols/."""

    # A text that must be read first comes first.
    NAMES = sorted(FILES, key=lambda it: (bool(NAMED[it]), it))

    def messages(self, name):
        """Each message of a protocol's file: its interface, its side and its name."""
        read = protocol.read(FILES[name])
        return [(one.name, side, it.name) for one in read.interfaces for side, it in one.messages()]

    def held(self, name):
        """The messages that its table text has."""
        lines = stubs_from_xml.tables_of(FILES[name], [FILES[it] for it in NAMED[name]])
        read = table_text.parse_tables("".join(f"{it}\n" for it in lines).encode())
        return [(one.name, side, it.name) for one in read for side in ("request", "event")
                for it in getattr(one, side)]

    def sources(self):
        """The modules by their names, and the program that prints what they have."""
        modules = {it: stubs("--rattle", "both", "--comment", it, *words_of(it)) for it in self.NAMES}
        calls = [f"    let tables = read(tables, {module(it)}::TABLES)?;\n"
                 f"    say_{module(it)}(&rt, &tables)?;\n" for it in self.NAMES]
        program = PROGRAM.format(mods="".join(f"mod {module(it)};\n" for it in self.NAMES), calls="".join(calls),
                                 functions="".join(function(it, self.messages(it)) for it in self.NAMES))
        return modules, program

    @unittest.skipUnless(is_installed("rt"), "the toolchain is not installed")
    def test_opcodes_are_those_of_the_tables(self):
        """Each opcode is the one that `Tables::opcode` returns, if the module's text has the message; and each message
        of the text has one."""
        modules, program = self.sources()
        sources = {**{module(name): text for name, text in modules.items()}, "main": program}
        lines = [it.split() for it in tried("names", "wl_sigs", sources).splitlines()]
        said = {tuple(it[:3]): it[3:] for it in lines if len(it) == 5}
        named = {one for it in self.NAMES for one in self.messages(it)}
        self.assertLessEqual(named, {*said})
        held = {it for name in self.NAMES for it in self.held(name)}
        self.assertLessEqual(held, named)
        for message, (opcode, found) in said.items():
            if message in held:
                self.assertEqual(opcode, found, message)
            elif message in named:
                self.assertIn(found, ("none", opcode), message)
        self.assertGreater(len(held), 100)

    @unittest.skipUnless(is_installed("rustc"), "Rust is not installed")
    def test_rust_reads_them(self):
        for name in self.NAMES:
            text = stubs("--rattle", "both", "--comment", name, *words_of(name))
            with tempfile.TemporaryDirectory() as room:
                words = ["rustc", "--crate-type=lib", "--emit=metadata", f"--out-dir={room}", "-D", "warnings",
                         "--crate-name", module(name), "-"]
                ran = subprocess.run(words, input=text.encode(), capture_output=True, check=False)
            self.assertEqual(ran.returncode, 0, ran.stderr.decode())


def main():
    names = usage.words(__doc__) or ["Headers", "Rust", "Modules"]
    return count_cases(suite_of(names, sys.modules[__name__]))
