"""Writes a C program that sends each message of a protocol through its typed call and its dispatcher.

    python3 -m tests.every_stub [--tables FILE] [--prefix PREFIX] HEADER XML

HEADER is the header that tools/stubs-from-xml made from XML. FILE is a table text with its interfaces
[default: those of the core]. Each message that the tables have is sent with arguments at the limits of
their types. What its callback gets is compared with what was sent, and its name with the name that an
inspector prints."""

import argparse
import sys

from tools.waywire import protocol, stubs_from_xml, table_text

PRELUDE = """\
#include "{header}"
#include "every_stub.h"
"""
# The three values of each type that are sent in turn.
CORNERS = {
    "int": ["INT32_MIN", "INT32_MAX", "0"],
    "uint": ["0", "UINT32_MAX", "1"],
    "fixed": ["INT32_MIN", "INT32_MAX", "-1"],
    "string": ['""', "long_text", '"\\x01\\xff\\""'],
    "array": ["NULL, 0", "long_text, sizeof long_text", "\"\\0\\1\\2\", 3"],
    "fd": ["0", "INT_MAX", "7"],
}


class Program:
    def __init__(self, words):
        self.stubs = stubs_from_xml.Stubs(protocol.read(words.xml), words.prefix)
        self.prefix = words.prefix
        self.header = words.header
        tables = table_text.core_tables()
        if words.tables:
            with open(words.tables, "rb") as file:
                tables = tables + table_text.parse_tables(file.read())
        self.tables = {it.name: it for it in tables}
        self.lines = []
        self.tests = []

    def known(self, interface, side, message):
        """Whether the tables have the message as the file has it, and the ends write it."""
        it = self.tables.get(interface.name)
        if it is None or (side == "event" and interface.name in stubs_from_xml.UNSENT):
            return False
        found = getattr(it, side)
        return message.opcode < len(found) and found[message.opcode].name == message.name and \
            len(found[message.opcode].kinds) == len(message.args)

    def checks(self, message, has_made):
        """The statements of a callback: each argument is the one that was sent."""
        for place, it in enumerate(message.args):
            name, want = self.stubs.name(it), f"want[{place}]"
            if it.type == "new_id":
                if it.interface is None:
                    yield "MUST(!strcmp(interface, want_interface) && version == want_version);"
                yield f"made_there = {name}{'.object' if it.interface else ''};"
            elif it.type in ("int", "uint", "fixed", "fd"):
                yield f"MUST({name} == {want}.number);"
            elif it.type == "object":
                yield f"MUST(waywire_object_equal({name}{'.object' if it.interface else ''}, {want}.object));"
            elif it.type == "string":
                yield f"must_be_text({name}, {want}.text);"
            else:
                yield f"must_be_bytes({name}, {name}_length, &{want});"

    def callback(self, number, interface, message):
        target = self.stubs.target(interface, message)
        parameters = ["void *data", f"{stubs_from_xml.type_of(interface.name)} {target}",
                      *self.stubs.parameters(message, True)]
        self.lines += ["", f"static void called_{number}({', '.join(parameters)})", "{",
                       f"\tmust_be_target(data, {target}.object);"]
        self.lines += [f"\t{it}" for it in self.checks(message, True)]
        self.lines += ["}"]

    def wanted(self, interface, message, corner):
        """The statements that set what is to come, and the arguments of the stub."""
        given = []
        for place, it in enumerate(message.args):
            want = f"want[{place}]"
            if it.type == "new_id":
                if it.interface is None:
                    given += ["want_interface", "want_version"]
                continue
            if it.type == "object":
                null = it.null and corner == 1
                kind = it.interface or "wl_compositor"
                value = "no_object" if null else f'object_of("{kind}")'
                yield f"{want}.object = {value};"
                made = f"{stubs_from_xml.type_of(it.interface)}_of" if it.interface else ""
                given.append(f"{made}({want}.object)" if made else f"{want}.object")
            elif it.type == "string":
                value = "NULL" if it.null and corner == 2 else CORNERS["string"][corner]
                yield f"{want}.text = {value};"
                given.append(f"{want}.text")
            elif it.type == "array":
                bytes_, length = CORNERS["array"][corner].split(", ")
                yield f"{want}.text = {bytes_};"
                yield f"{want}.length = {length};"
                given += [f"{want}.text", f"{want}.length"]
            else:
                value = CORNERS[it.type][(corner + place) % 3]
                if interface.name == "wl_registry":
                    value = "1"  # the name of the one global
                yield f"{want}.number = {value};"
                cast = {"int": "(int32_t)", "fixed": "(int32_t)", "uint": "(uint32_t)", "fd": "(int)"}
                given.append(f"{cast[it.type]}{want}.number")
        self.given = given

    def test(self, interface, side, message):
        number = len(self.tests)
        self.tests.append(number)
        self.callback(number, interface, message)
        end, arrow = ("client", "->") if side == "request" else ("server", "<-")
        send = "" if end == "client" else "send_"
        name = f"{self.prefix}{interface.name}"
        struct = f"struct {name}_{side}s"
        dispatchers = [f"{name}_dispatch_{side}", f"{name}_{side}_dispatcher"]
        self.lines += ["", f"static void test_{number}(void)", "{", f"\t{struct} calls = {{ 0 }};",
                       f"\tcalls.{stubs_from_xml.word(message.name)} = called_{number};"]
        if message.made():
            self.lines += [f"\t{stubs_from_xml.type_of(message.made().interface)} made;"]
        for corner in range(3):
            self.lines += ["\topen_pair();"]
            if interface.name == "wl_registry":
                self.lines += ["\tbind_next();"]
            self.lines += [f"\t{it}" for it in self.wanted(interface, message, corner)]
            self.lines += [f'\ttarget = object_of("{interface.name}");']
            given = [end, f"{stubs_from_xml.type_of(interface.name)}_of(target)", *self.given]
            made = message.made()
            if made:
                given.append("&made")
            self.lines += [f"\tMUST(!{name}_{send}{message.name}({', '.join(given)}));"]
            if made:
                self.lines += [f"\tmade_here = made{'.object' if made.interface else ''};"]
            self.lines += [f"\tcarry_and_read_at_{'server' if end == 'client' else 'client'}();",
                           f'\tmust_be_called("{arrow}", "{interface.name}", "{message.name}");',
                           f"\tMUST({dispatchers[corner % 2]}(&calls, &mark, &report));", "\tmust_have_come();",
                           "\tclose_pair();"]
        self.lines += ["}"]

    def text(self):
        for interface in self.stubs.protocol.interfaces:
            for side, message in interface.messages():
                if self.known(interface, side, message):
                    self.test(interface, side, message)
        calls = "\n".join(f"\ttest_{it}();" for it in self.tests)
        return (PRELUDE.format(header=self.header) + "\n".join(self.lines) + "\n\n"
                "int main(int count, char **words)\n{\n"
                "\tread_tables(count > 1 ? words[1] : NULL);\n" + calls +
                f'\n\tprintf("{len(self.tests)} messages\\n");\n\treturn 0;\n}}\n')


def main():
    parser = argparse.ArgumentParser(prog="every-stub")
    parser.add_argument("--tables", metavar="FILE",
                        help="a table text with the interfaces of XML [default: those of the core]")
    parser.add_argument("--prefix", default="ww_", help="the prefix of the names in HEADER [default: ww_]")
    parser.add_argument("header", metavar="HEADER", help="the header that tools/stubs-from-xml made from XML")
    parser.add_argument("xml", metavar="XML", help="the protocol")
    sys.stdout.write(Program(parser.parse_args()).text())


if __name__ == "__main__":
    main()
