"""Protocol files that are refused, compared with what wayland-scanner refuses."""

import contextlib
import io
import os
import shutil
import subprocess
import tempfile
import unittest
import unittest.mock

from tests.checks import TOP, is_installed, run
from tools.waywire import protocol, table_text, tables_from_xml

HEAD = '<?xml version="1.0"?>'
ENUM = '<enum name="e"{}><entry name="z" value="0"/></enum>'
TOOLS = ("tables-from-xml", "stubs-from-xml")
TYPES = ("int", "uint", "fixed", "string", "object", "new_id", "array", "fd")


def of_protocol(inside, attributes='name="p"'):
    return f"{HEAD}<protocol {attributes}>{inside}</protocol>"


def of_interface(inside, attributes='name="a" version="2"'):
    return of_protocol(f"<interface {attributes}>{inside}</interface>")


def of_request(inside, attributes='name="r"'):
    return of_interface(f"<request {attributes}>{inside}</request>")


def of_arg(attributes):
    return of_request(f"<arg {attributes}/>")


def of_enum(inside, attributes='name="e"'):
    return of_interface(f"<enum {attributes}>{inside}</enum>")


def of_entry(attributes):
    return of_enum(f"<entry {attributes}/>")


# What both refuse.
REFUSED = [
    "",
    "interface a 1\n",
    f'{HEAD}<protocol name="p"><interface name="a" version="1">',
    of_protocol("") + '<protocol name="q"/>',
    of_protocol("") + "x",
    of_interface("&entity;"),
    of_interface("", 'name="a" name="b" version="1"'),
    # Names.
    *(of_protocol("", it) for it in ("", 'name=""', 'name="p-q"', 'name="1p"')),
    *(of_interface("", it) for it in (
        'version="1"', *(f'name="{one}" version="1"' for one in ("", "1a", "a-b", "a.b", "a b", "\u00e9")))),
    *(of_request("", it) for it in ("", 'name=""', 'name="1r"', 'name="r-s"', 'name="r s"')),
    *(of_arg(f'{it} type="int"') for it in ("", 'name=""', 'name="1x"', 'name="x-y"', 'name="x y"')),
    *(of_enum('<entry name="z" value="0"/>', it) for it in ("", 'name=""', 'name="e-f"')),
    *(of_entry(f'{it} value="0"') for it in ("", 'name=""', 'name="y-z"')),
    # Numbers.
    *(of_interface("", f'name="a" {it}') for it in (
        "", *(f'version="{one}"' for one in ("", "x", "0", "-1", "1 ", "1.5", "0x1", "2147483648", "4294967296")))),
    *(of_request("", f'name="r" since="{it}"') for it in ("", "x", "-1", "3")),
    of_interface('<event name="r" since="3"/>'),
    *(of_entry(f'name="z" value="0" since="{it}"') for it in ("x", "3")),
    of_entry('name="z"'),
    # Types of arguments.
    *(of_arg(f'name="x" {it}') for it in ("", 'type=""', 'type="long"', 'type="Int"')),
    *(of_arg(f'name="x" type="{it}" interface="a"') for it in TYPES if it not in ("object", "new_id")),
    *(of_arg(f'name="x" type="object" interface="{it}"') for it in ("", "1a", "a-b", "a b")),
    *(of_arg(f'name="x" type="{it}" allow-null="true"') for it in ("int", "uint", "fixed", "fd")),
    *(of_arg(f'name="x" type="{it}" allow-null="false"') for it in ("int", "fd")),
    *(of_arg(f'name="x" type="string" allow-null="{it}"') for it in ("", "yes", "TRUE")),
    # Enums.
    *(of_interface(f'{ENUM.format("")}<request name="r"><arg name="x" type="{it}" enum="e"/></request>')
      for it in TYPES if it not in ("int", "uint")),
    of_arg('name="x" type="string" enum="unknown"'),
    of_interface(ENUM.format(' bitfield="true"') + '<request name="r"><arg name="x" type="int" enum="e"/></request>'),
    of_interface(ENUM.format(' bitfield="true"') + '<request name="r"><arg name="x" type="int" enum="a.e"/></request>'),
    of_enum(""),
    *(of_enum('<entry name="z" value="0"/>', f'name="e" bitfield="{it}"') for it in ("", "x")),
    # Others.
    of_request("", 'name="destroy"'),
    of_interface('<event name="destroy"/>'),
    of_interface("<description>x</description>"),
    of_protocol("<description>x</description>"),
    *(of_protocol(it) for it in ('<request name="r"/>', ENUM.format(""), '<arg name="x" type="int"/>')),
    *(of_interface(it) for it in ('<arg name="x" type="int"/>', '<entry name="z" value="0"/>')),
    of_request('<entry name="z" value="0"/>'),
]
# What wayland-scanner takes: it ends with 0, and reads an element out of its place as one of what stood before, or
# has no numbers of entries.
REFUSED_HERE = [
    f'{HEAD}<interface name="a" version="1"/>',
    of_interface('<interface name="b" version="1"/>'),
    of_request('<request name="s"/>'),
    of_request('<event name="s"/>'),
    of_enum('<entry name="z" value="0"/><request name="r"/>'),
    of_interface('<other><request name="r"/></other>'),
    of_protocol('<protocol name="q"/>'),
    of_entry('name="z" value="x"'),
]
# What both take.
TAKEN = [
    of_protocol(""),
    of_interface('<other/><description summary=""/>'),
    *(of_interface("", f'name="a" version="{it}"') for it in ("+1", " 1", "010", "2147483647")),
    *(of_request("", f'name="r" {it}') for it in ('since="0"', 'since="+2"', 'type="other"', 'deprecated-since="x"')),
    of_request("", 'name="destroy" type="destructor"'),
    *(of_arg(f'name="x" type="{it}" allow-null="true"') for it in ("string", "object", "new_id", "array")),
    *(of_arg(f'name="x" type="{it}" enum="unknown"') for it in ("int", "uint")),
    of_arg('name="x" type="string" enum=""'),
    of_enum('<entry name="1z" value="0"/>', 'name="1e" since="3"'),
    of_interface(ENUM.format(' bitfield="true"') + '<request name="r"><arg name="x" type="uint" enum="e"/></request>'),
]


class Malformed(unittest.TestCase):
    """Protocol files that are none."""

    def setUp(self):
        room = tempfile.TemporaryDirectory()
        self.addCleanup(room.cleanup)
        self.path = os.path.join(room.name, "it.xml")

    def write(self, text):
        with open(self.path, "w", encoding="utf-8") as file:
            file.write(text)

    def refusal(self, text):
        """The error for a file; None if it is accepted."""
        self.write(text)
        try:
            protocol.read(self.path)
        except protocol.BadProtocol as error:
            return str(error)
        return None

    def test_refused(self):
        for text in REFUSED + REFUSED_HERE:
            said = self.refusal(text)
            self.assertIsNotNone(said, text)
            self.assertNotIn("\n", said, text)
        self.assertGreater(len(REFUSED), 40)

    def test_taken(self):
        for text in TAKEN:
            self.assertIsNone(self.refusal(text), text)

    def test_as_wayland_scanner(self):
        """wayland-scanner refuses the same; it may end by a signal."""
        if not is_installed("wayland-scanner"):
            self.skipTest("wayland-scanner is not installed")
        for texts, is_refused in ((REFUSED, True), (REFUSED_HERE + TAKEN, False)):
            for text in texts:
                self.write(text)
                words = ["wayland-scanner", "private-code", self.path, os.devnull]
                ran = subprocess.run(words, capture_output=True, check=False)
                self.assertEqual(ran.returncode != 0, is_refused, text)

    def test_printed_into_itself(self):
        """A tool whose standard output is its protocol prints nothing."""
        text = of_interface("")
        self.write(text)
        for tool in TOOLS:
            with open(self.path, "a", encoding="utf-8") as file:
                ran = subprocess.run([f"{TOP}/tools/{tool}", self.path], stdout=file, stderr=subprocess.PIPE, text=True,
                                     check=False)
            said = f"{tool}: {self.path} is read, and standard output writes to it\n"
            self.assertEqual((ran.returncode, ran.stderr), (1, said))
            with open(self.path, encoding="utf-8") as file:
                self.assertEqual(file.read(), text)

    def test_numbers_of_many_digits(self):
        """They are refused in a short line."""
        many = "1" * 5000
        for text in (of_interface("", f'name="a" version="{many}"'), of_request("", f'name="r" since="{many}"'),
                     *(of_entry(f'name="z" value="{it}"') for it in (many, f"0x{many}", f"1 << {many}", "0x100000000",
                                                                     "-2147483649", "2 << 31"))):
            said = self.refusal(text)
            self.assertIsNotNone(said, text[:200])
            self.assertLess(len(said), len(self.path) + 200)
        self.assertIsNone(self.refusal(of_interface("", f'name="a" version="{"0" * 5000}2"')))

    def test_encodings(self):
        """Those that Python does not know, or that have characters of several bytes."""
        for name in "unknown", "UTF-7", "shift_jis":
            said = self.refusal(of_interface("").replace("?>", f' encoding="{name}"?>'))
            self.assertIn(f"{self.path}: line 1: the encoding of the file cannot be read: ", said or "")
        self.assertIsNone(self.refusal(of_interface("").replace("?>", ' encoding="iso-8859-1"?>')))

    def test_where(self):
        """What is wrong, in which file, line and interface."""
        for inside, line, what in (
            ('<request name="r">\n<arg name="x" type="long"/></request>', 2, "argument x has the type long"),
            ('\n\n<event name="e" since="9"/>', 3, "since of e is 9, and the version is 2"),
            ('\n<enum name="e"/>', 2, "enum e has no entry"),
            (ENUM.format("") + '\n<request name="r"><arg name="x" type="fd" enum="e"/></request>', 2,
             "argument x of r, of type fd, has an enum"),
        ):
            self.assertEqual(self.refusal(of_interface(inside)), f"{self.path}: line {line}: a: {what}")
        self.write(of_interface('\n<request name="Capital"/>'))
        said = run([f"{TOP}/tools/tables-from-xml", self.path], with_error=True)
        self.assertIn(f"tables-from-xml: {self.path}: line 2: a request Capital: left out, it breaks V1\n", said)

    def looked_at(self, *interfaces):
        """Converts a protocol of these interfaces. Returns how often the rules were looked at, the text, and what was
        said."""
        self.write(of_protocol("".join(interfaces)))
        with (unittest.mock.patch.object(table_text, "breaks", wraps=table_text.breaks) as looks,
              contextlib.redirect_stdout(io.StringIO()) as printed, contextlib.redirect_stderr(io.StringIO()) as said):
            self.assertEqual(tables_from_xml.main([self.path]), 0)
        return looks.call_count, printed.getvalue(), said.getvalue()

    def test_many_interfaces(self):
        """The rules are looked at a few times, however many interfaces there are too many."""
        looks, printed, said = self.looked_at(*(f'<interface name="it_{at}" version="1"/>' for at in range(5000)))
        held = 1024 - len(table_text.core_tables())
        self.assertEqual((printed.count("interface it_"), said.count("breaks V3")), (held, 5000 - held))
        self.assertLess(looks, 10)

    def test_many_events_that_destroy(self):
        """The same if all interfaces have one that may not, and if others name them or make their objects."""
        destroys = '<event name="done" type="destructor"/>'
        names = '<arg name="a" type="{}" interface="it_{}"/>'
        for message in ("<request name='r'/>", '<request name="r">{}</request>'.format(names.format("object", "{}")),
                        '<event name="e">{}</event>'.format(names.format("new_id", "{}"))):
            looks, printed, said = self.looked_at(*(
                f'<interface name="it_{at}" version="1">{message.format(at // 2)}{destroys}</interface>'
                for at in range(500)))
            self.assertEqual(printed.count("\nevent done D\n") + said.count("kept without D"), 500)
            self.assertGreaterEqual(said.count("kept without D"), 250)
            self.assertLess(looks, 10)

    def test_messages_that_are_mended_in_order(self):
        """An event that destroys no longer mends others; what a message that is left out named, breaks no rule."""
        destroys = '<event name="done" type="destructor"/>'
        looks, printed, _ = self.looked_at(
            f'<interface name="a_a" version="1">{destroys}</interface>',
            '<interface name="a_b" version="1">'
            '<request name="r"><arg name="o" type="object" interface="a_a"/></request>'
            '<request name="s"><arg name="o" type="object" interface="a_a"/></request>'
            '<request name="t"><arg name="o" type="object" interface="wl_callback"/></request>'
            '<request name="u"><arg name="o" type="object" interface="a_c"/></request></interface>',
            f'<interface name="a_c" version="1">{destroys}</interface>')
        self.assertIn("interface a_a 1\nevent done\n", printed)
        self.assertIn("interface a_b 1\nrequest r o(a_a)\nrequest s o(a_a)\n#", printed)
        self.assertIn("interface a_c 1\nevent done D\n", printed)
        self.assertLess(looks, 10)

    def test_equal_names_in_code(self):
        """stubs-from-xml refuses two of one name."""
        one, arg = '<request name="r"/>', '<arg name="x" type="int"/>'
        for text, what in (
            (of_protocol('<interface name="a" version="1"/>' * 2), "another interface has the name a"),
            (of_interface(one * 2), "a: another request has the name r"),
            (of_interface(one.replace("request", "event") * 2), "a: another event has the name r"),
            (of_request(arg * 2), "a: another argument of r has the name x"),
            (of_interface(ENUM.format("") * 2), "a: another enum has the name e"),
            (of_enum('<entry name="z" value="0"/>' * 2), "a: another entry of e has the name z"),
        ):
            self.write(text)
            said = run([f"{TOP}/tools/stubs-from-xml", self.path], status=1, with_error=True)
            self.assertEqual(said, f"stubs-from-xml: {self.path}: line 1: {what}\n")

    def test_code_that_compiles(self):
        """Words of C++20, and a request whose new object may be of any interface. A prefix begins a name."""
        words = "char8_t co_await co_return co_yield concept consteval constinit requires typeof linux unix"
        self.write(of_interface("".join(f'<request name="{it}"><arg name="{it}" type="int"/></request>'
                                        for it in words.split()) + '<request name="any"><arg name="x" type="new_id"/></request>'))
        said = run([f"{TOP}/tools/stubs-from-xml", "--prefix", "1x", self.path], status=2, with_error=True)
        self.assertIn("--prefix 1x: a name in C cannot begin so", said)
        header = run([f"{TOP}/tools/stubs-from-xml", self.path])
        if not os.path.exists(f"{TOP}/include/waywire-version.h"):
            self.skipTest("make include/waywire-version.h")
        for compiler in (["cc", "-std=gnu99", "-x", "c"], ["c++", "-std=gnu++20", "-x", "c++"]):
            if is_installed(compiler[0]):
                flags = ["-Wall", "-Wextra", "-Werror", "-Wno-missing-field-initializers", "-fsyntax-only", f"-I{TOP}/include"]
                run([*compiler, *flags, "-"], input=header.encode())

    def test_deep(self):
        self.assertIsNone(self.refusal(of_interface("<other>" * 100_000 + "</other>" * 100_000)))

    def test_files_that_are_not_there(self):
        """The status says so, and the words name the file once; a tool has the name by which it was called."""
        installed = f"{self.path}-tools"
        os.mkdir(installed)
        self.addCleanup(shutil.rmtree, installed)
        for tool in TOOLS:
            called = f"{installed}/waywire-{tool}"
            os.symlink(f"{TOP}/tools/{tool}", called)
            for program, name in ((f"{TOP}/tools/{tool}", tool), (called, f"waywire-{tool}")):
                for path, why in (("/none/it.xml", "No such file or directory"), (installed, "Is a directory")):
                    said = run([program, path], status=3, with_error=True)
                    self.assertEqual(said, f"{name}: cannot read {path}: {why}\n")
        self.write("")
        self.assertEqual(self.refusal(""), f"{self.path}: line 1: no element found")

    def test_two_forms_at_once(self):
        words = [f"{TOP}/tools/stubs-from-xml", "--rust", "--rattle", "both", f"{TOP}/protocols/core/core.xml"]
        self.assertIn("argument --rattle: not allowed with argument --rust", run(words, status=2, with_error=True))

    def test_a_text_of_tables(self):
        """A table text that is given as XML is called one."""
        said = f"{self.path} is a table text, not the XML of a protocol"
        for text in ("interface a 1\n", "# from a\r\n\n#\nextend wl_seat 10\nrequest r\n"):
            self.assertEqual(self.refusal(text), said)
        self.assertIn("not well-formed", self.refusal("# Waywire\n"))
        for tool in TOOLS:
            words = [f"{TOP}/tools/{tool}", f"{TOP}/protocols/viewporter.tables"]
            wanted = f"{tool}: {words[1]} is a table text, not the XML of a protocol\n"
            self.assertEqual(run(words, status=1, with_error=True), wanted)
