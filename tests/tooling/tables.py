"""Texts of tables: their grammar and rules, and those that are made of protocol files."""

import contextlib
import io
import re
import tempfile
import unittest
import xml.etree.ElementTree as ElementTree

from tests.checks import TOP
from tools.waywire import protocol, table_text, tables_from_xml, valid_tables

MANY_EVENTS = " / ".join(f"event e{place}" for place in range(257))
# Texts of tables, with the line and the rule that each breaks. `/` ends a line.
BROKEN = (
    ("interface note 1 / event gone D / request poke", 2, 7),
    ("interface x 1 / event made n(x)", 2, 4),
    ("interface wl_seat 9", 1, 1),
    ("interface a 1 / request r o(b)", 2, 9),
    ("interface a 1 / request r @2", 2, 8),
    ("interface a 1 / request r n", 2, 5),
    ("interface a 1 / request r o", 2, 6),
    ("interface A 1", 1, 1),
    (f"interface {'a' * 257} 1", 1, 1),
    ("interface a 1 / interface a 1", 2, 1),
    ("interface a 1 / event r / request r / request r", 4, 1),
    ("interface a 1 / request D", 2, 1),
    ("interface a 1 / request x\r", 2, 1),
    (f"interface a 1 / request r{' i' * 21}", 2, 3),
    (f"interface a 1 / {MANY_EVENTS}", 258, 3),
    ("interface a 1 / request r n(a) n(a)", 2, 4),
    ("interface a 1 / event e n", 2, 4),
    ("interface a 1 / request r o(wl_callback)", 2, 7),
    ("interface a 1 / event e o(wl_callback) / request r ?o(b) / interface b 1 / event e D", 3, 7),
    ("interface a 0", 1, 8),
    ("interface a 0 / request r", 1, 8),
    ("interface a 1 / request r @0", 2, 8),
    ("interface a 1 / request r n(any)", 2, 9),
    ("interface a 1 / request r n(b) o @2", 2, 6),
    ("extend wl_display 2", 1, 2),
    ("extend wl_registry 0", 1, 2),
    ("extend wl_callback 1", 1, 2),
    ("extend wl_fixes 2", 1, 2),
    ("extend wl_seat 8", 1, 8),
    ("extend wl_seat 10 / extend wl_seat 9", 2, 8),
    ("interface a 2 / request r @2 / extend a 1", 3, 8),
    ("extend a 2", 1, 9),
    ("extend a 2 / interface a 1", 1, 9),
    ("extend wl_seat 10 / request release D @10", 2, 1),
    ("interface a 1 / event e / extend a 2 / event e @2", 4, 1),
    (f"extend wl_seat 10 / {MANY_EVENTS}", 256, 3),
    ("extend wl_seat 10 / request r n(wl_seat) n(wl_seat)", 2, 4),
    ("extend wl_seat 10 / request r o", 2, 6),
    ("extend wl_seat 10 / request r o(wl_callback)", 2, 7),
    # An event that destroys, where a request stands above or is an argument of it.
    ("extend wl_seat 10 / event gone D", 2, 7),
    ("interface a 1 / request r / extend a 2 / event gone D @2", 4, 7),
    ("interface a 1 / event gone D / extend a 2 / request r @2", 2, 7),
    ("extend wl_seat 10 / request r @11", 2, 8),
    ("extend wl_seat 10 / request r o(b)", 2, 9),
    ("extend wl_seat 10 / request r N(wl_seat)", 2, 11),
    ("interface a 1 / event e N(b) / interface b 1 / extend b 2 / event gone D", 2, 11),
    ("interface a 1 / request r N(a)", 2, 11),
    ("interface a 1 / event e N(a) N(a)", 2, 11),
    ("interface a 1 / event e N(b) / interface b 1 / event gone D", 2, 11),
    ("interface b 1 / event gone D / interface a 1 / event f / event e u N(b)", 5, 11),
    ("interface a 1 / event e N(a) D", 2, 11),
    *((f"interface a 1 / event e N(wl_{it})", 2, 11) for it in ("display", "registry", "callback", "fixes")),
    # The least of the rules that a line breaks.
    ("interface a 1 / event e N(no_such)", 2, 9),
    ("interface a 1 / event e N(wl_fixes) o(no_such)", 2, 9),
    ("interface a 1 / event e N(a) n(a)", 2, 4),
    ("interface a 1 / event e N(wl_callback) @2", 2, 8),
    # V7 and V11 may stand at two lines of one interface.
    ("interface a 1 / event gone D / request r / event e N(a)", 2, 7),
    ("interface a 1 / event e N(a) / event gone D / request r", 2, 11),
)


class TextOfTables(unittest.TestCase):
    """The grammar of a table text and the rules of valid tables, as `table_text` has them."""

    def verdict(self, text):
        """The number of interfaces of an accepted text, or what is wrong with it. `/` ends a line."""
        data = text.replace(" / ", "\n").encode("latin-1")
        core = table_text.core_tables()
        try:
            return len(table_text.read_more(core, data)) - len(core)
        except (table_text.BadLine, table_text.BadTable) as error:
            return str(error)

    def test_accepted(self):
        viewporter = (
            "interface wp_viewporter 1 / request destroy D / "
            "request get_viewport n(wp_viewport) o(wl_surface) / interface wp_viewport 1 / "
            "request destroy D / request set_source f f f f / request set_destination i i"
        )
        self.assertEqual(self.verdict(viewporter), 2)
        self.assertEqual(self.verdict(""), 0)
        self.assertEqual(self.verdict("# of no use\n\ninterface a 0001\n\r\n"), 1)
        self.assertEqual(self.verdict("interface a 1\r / request i i i ?s a h ?o(a) f u D @1"), 1)
        self.assertEqual(self.verdict("interface a 1 / event x ?o o D @1"), 1)
        # An argument may name what stands further down.
        self.assertEqual(self.verdict("interface a 1 / request r n(b) / interface b 1"), 2)
        # An extension counts as no interface, and may name one that stands further down.
        self.assertEqual(self.verdict("extend wl_seat 9"), 0)
        self.assertEqual(self.verdict("extend wl_seat 10 / request r n(b) @10 / interface b 1 / extend b 1"), 1)
        # An event may make an object and destroy its target, and a request may make such an object too.
        for text, count in (
            ("interface a 1 / event e N(b) / interface b 1 / request r D", 2),
            ("interface a 2 / event e u N(b) ?o(b) h @2 / interface b 1", 2),
            ("interface a 1 / event e N(wl_buffer)", 1),
            ("interface a 1 / event e N(a)", 1),
            ("interface a 1 / event e N(b) D / interface b 1 / request r n(b) o(b)", 2),
        ):
            self.assertEqual(self.verdict(text), count, text)

    def test_as_a_text(self):
        text = "interface a 2\nevent e u N(b) @2\ninterface b 1\n"
        found = table_text.parse_tables(text.encode())
        self.assertEqual("".join(f"{it}\n" for it in valid_tables.lines_of(found, [])), text)

    def test_extended(self):
        text = b"""extend wl_seat 10\nrequest pad n(pad) @10\nevent mode u @10\ninterface pad 1
request destroy D\nextend wl_seat 12\nrequest more @11\nextend pad 2\nevent told i @2\n"""
        core = table_text.core_tables()
        whole = table_text.read_more(core, text)
        self.assertEqual([it.name for it in whole], [it.name for it in core] + ["pad"])
        for old, new in zip(core, whole):
            if old.name != "wl_seat":
                self.assertEqual(old, new)
        seat, pad = whole[9], whole[-1]
        self.assertEqual((seat.name, seat.version, pad.version), ("wl_seat", 12, 2))
        self.assertEqual([it.name for it in seat.request[4:]], ["pad", "more"])
        self.assertEqual([it.name for it in seat.event], ["capabilities", "name", "mode"])
        self.assertEqual([str(it) for _, it in pad.messages()], ["destroy D", "told i @2"])

    def test_bad_lines(self):
        for message in (
            "request x  i",
            "request x i ",
            "request x ?i",
            "request x ?n(a)",
            "request x o()",
            "request x i(a)",
            "request x @2 D",
            "request x D D",
            "request x @",
            "request x @4294967296",
            "request",
            "interface b",
            "interface b 4294967296",
            "interface b 00000000001",
            "interface b -1",
            " interface b 1",
            "extend b",
            "extend b ",
            "extend b 4294967296",
            "extend  b 1",
            "event e N",
            "event e ?N(a)",
            "event e N()",
            "event e N(a",
            "request r N",
            "event e NN(a)",
        ):
            self.assertEqual(self.verdict(f"interface a 1 / {message}"), "line 2: bad line", message)
        self.assertEqual(self.verdict("request poke"), "line 1: bad line")
        self.assertEqual(self.verdict("interface wl_seat 9 / # / x"), "line 3: bad line")
        self.assertEqual(self.verdict("interface a 1\r"), "line 1: bad line")

    def test_broken_rules(self):
        for text, line, rule in BROKEN:
            self.assertEqual(self.verdict(text), f"line {line}: breaks V{rule}", text)

    def test_too_many_interfaces(self):
        room = 1024 - len(table_text.core_tables())
        text = " / ".join(f"interface a{place} 1" for place in range(room + 1))
        self.assertEqual(self.verdict(text), f"line {room + 1}: breaks V3")

    def test_what_an_earlier_text_has(self):
        """An added message that does not go with those of tables that were read before."""
        text = "interface a 1 / event e N(b) / request r ?o(d) / interface b 1 / "
        text += "interface c 1 / event gone D / interface d 1"
        tables = table_text.read_more(table_text.core_tables(), text.replace(" / ", "\n").encode())
        for more, rule in (
            ("extend b 2 / event gone D", 11),
            ("extend c 2 / request r", 7),
            ("extend d 2 / event gone D", 7),
        ):
            with self.assertRaises(table_text.BadTable) as caught:
                table_text.read_more(tables, more.replace(" / ", "\n").encode())
            self.assertEqual((caught.exception.line, caught.exception.rule), (2, rule), more)

    def test_core_tables_are_those_of_the_library(self):
        with open(f"{TOP}/crates/wl_sigs/src/core_interfaces.rt", encoding="utf-8") as file:
            code = file.read()
        code = code[code.index("pub(crate) const CORE") : code.index("pub(crate) const UNENDED")]
        code = re.sub(r"\s+", " ", code)
        words = {"Int": "i", "Uint": "u", "Fixed": "f", "STRING": "s", "Array": "a", "Fd": "h"}
        words |= {"ANY_OBJECT": "o", "New(None)": "n"}
        calls = {"object": "o", "object_or_null": "?o", "new": "n"}

        def kind(text):
            if call := re.fullmatch(r"(\w+)!\((\w+)\)", text):
                return f"{calls[call[1]]}({call[2].lower()})"
            return words[text]

        lines = []
        for name, version, requests, events in re.findall(
            r'name: b"(\w+)", version: (\d+), requests: &\[(.*?)\], events: &\[(.*?)\], \}', code
        ):
            lines.append(f"interface {name} {version}")
            for side, text in (("request", requests), ("event", events)):
                for message, since, kinds, destroys in re.findall(
                    r'message!\( ?b"(\w+)", (\d+), \[(.*?)\](, destroys(?: \d+)?)? ?\)', text
                ):
                    line = [side, message, *(kind(it.strip()) for it in kinds.split(",") if it.strip())]
                    line += ["D"] * (destroys == ", destroys") + [f"@{since}"] * (since != "1")
                    lines.append(" ".join(line))
        found = [
            text
            for interface in table_text.core_tables()
            for text in (
                f"interface {interface.name} {interface.version}",
                *(f"{side} {message}" for side, message in interface.messages()),
            )
        ]
        self.assertEqual(lines, found)


class TablesFromXml(unittest.TestCase):
    tool = tables_from_xml

    def made(self, *protocols, words=(), status=0):
        """The output for protocols with these texts between their tags, and the errors."""
        with tempfile.TemporaryDirectory() as folder:
            files = []
            for place, text in enumerate(protocols):
                files.append(f"{folder}/{place}.xml")
                with open(files[-1], "w", encoding="utf-8") as file:
                    file.write(f'<?xml version="1.0"?><protocol name="p">{text}</protocol>')
            words = [it.format(*files) for it in words] or files
            output, error = io.StringIO(), io.StringIO()
            with contextlib.redirect_stdout(output), contextlib.redirect_stderr(error):
                self.assertEqual(self.tool.main(words), status)
        # Where something is left out of is looked at in malformed.py.
        where = re.compile(r"\Atables-from-xml: (\S+/\d+\.xml: line \d+: (?=.*(left out|kept without)))?")
        said = [where.sub("", it) for it in error.getvalue().splitlines()]
        return output.getvalue().splitlines(), said

    # An interface that has a message of each sort; its event `made` makes an object of any interface.
    ALL = """
        <copyright>none</copyright>
        <interface name="a" version="3"><description summary="x">y</description>
          <request name="destroy" type="destructor"/>
          <request name="all" since="2">
            <description summary="x"/>
            <arg name="x" type="new_id" interface="a"/><arg name="x" type="int"/>
            <arg name="x" type="uint" enum="e"/><arg name="x" type="fixed"/>
            <arg name="x" type="string"/><arg name="x" type="string" allow-null="true"/>
            <arg name="x" type="array"/><arg name="x" type="fd"/>
            <arg name="x" type="object" interface="wl_surface" allow-null="true"/>
          </request>
          <event name="any"><arg name="x" type="object"/></event>
          <event name="made" since="3"><arg name="x" type="new_id"/></event>
          <event name="late" since="3"/>
          <enum name="e"><entry name="z" value="0"/></enum>
        </interface>"""
    KEPT = [
        "interface a 3",
        "request destroy D",
        "request all n(a) i u f s ?s a h ?o(wl_surface) @2",
        "event any o",
    ]

    def test_a_message_takes_those_behind_it(self):
        printed, said = self.made(self.ALL)
        left_out = [
            "event made n @3: left out, it breaks V4",
            "event late @3: left out, it comes after made",
        ]
        self.assertEqual(printed, self.KEPT + [f"# {it}" for it in left_out])
        self.assertEqual(said, [f"a {it}" for it in left_out])

    def test_whole_versions(self):
        printed, said = self.made(self.ALL, words=("--whole", "{0}"))
        self.assertEqual([it for it in printed if it[0] != "#"], ["interface a 2", *self.KEPT[1:]])
        self.assertEqual(len(said), 2)
        naming = """<interface name="b" version="2"><request name="r"/>
            <request name="s" since="2"><arg name="x" type="object" interface="a"/></request>
            </interface>"""
        gone = """<interface name="a" version="1"><request name="r"><arg name="x" type="object"/></request>
            </interface>"""
        printed, said = self.made(naming + gone, words=("--whole", "{0}"))
        self.assertEqual([it for it in printed if it[0] != "#"], ["interface b 1", "request r"])
        self.assertIn("a: left out, no version of it is whole", said)

    def test_names_of_arguments(self):
        given = """<interface name="a" version="1"><request name="r"><arg name="x" type="int"/>
            <arg name="y" type="object"/></request><request name="s"/>
            <event name="e"><arg name="z" type="new_id" interface="a"/></event></interface>"""
        self.assertEqual(self.made(given, words=("--names", "{0}")), (["a.request.r x y", "a.event.e z"], []))

    def test_names_of_values(self):
        """Each enum has a line, and an argument names its enum, also one of another interface."""
        given = """<interface name="a" version="1"><request name="r"><arg name="x" type="int" enum="e"/>
            <arg name="y" type="uint" enum="b.f"/></request>
            <enum name="e"><entry name="one" value="1"/><entry name="two" value="0x2"/></enum></interface>
            <interface name="b" version="1"><enum name="f" bitfield="true"><entry name="1" value="1 &lt;&lt; 4"/></enum>
            </interface>"""
        self.assertEqual(self.made(given, words=("--names", "--comment", "it", "{0}")), ([
            "# it", "a.request.r x:a.e y:b.f", "a.enum.e 1 one 2 two", "b.enum.f bitfield 16 1"], []))

    def test_a_lowered_version_keeps_places(self):
        """Messages that are not in the order of their versions: if one is left out, so are all after it."""
        text = """<interface name="a" version="3"><request name="r" since="3"/><request name="s" since="2"/>
            <event name="e"/><event name="made" since="3"><arg name="x" type="new_id"/></event>
            </interface>"""
        printed, _ = self.made(text, words=("--whole", "{0}"))
        self.assertEqual([it for it in printed if it[0] != "#"], ["interface a 1", "event e"])

    def test_what_the_server_makes(self):
        """Its event is kept, and the event that destroys is a plain one then."""
        text = """<interface name="a" version="1">
            <event name="made"><arg name="x" type="new_id" interface="b"/></event><event name="late"/></interface>
            <interface name="b" version="1">{}<event name="gone" type="destructor"/></interface>"""
        for requests, rule in (("", 11), ('<request name="r" type="destructor"/>', 7)):
            printed, said = self.made(text.format(requests))
            self.assertEqual(printed[:3], ["interface a 1", "event made N(b)", "event late"])
            kept = f"event gone D: kept without D, which breaks V{rule}"
            self.assertEqual(printed[-2:], ["event gone", f"# {kept}"])
            self.assertEqual(said, [f"b {kept}"])
            self.assertEqual(self.made(text.format(requests), words=("--whole", "{0}")), (printed, said))

    def test_entries_that_are_shifted(self):
        for value, wanted in (("1 << 4", 16), ("0x1<<31", 2**31), ("7", 7), ("0x10", 16)):
            self.assertEqual(self.entry(value), wanted)
        for value in ("", "1 <<", "<< 1", "1 << 32", "1 << -1", "1 << 1 << 1", "one"):
            self.assertRaises(protocol.BadProtocol, self.entry, value)

    def entry(self, value):
        text = f'<entry name="e" value="{value.replace("<", "&lt;")}"/>'
        return protocol.entry(ElementTree.fromstring(text), 1).value

    def test_what_core_has(self):
        text = '<interface name="wl_seat" version="1"/><interface name="wl_fixes" version="1"/>'
        text += """<interface name="b" version="1"><request name="r">
            <arg name="x" type="object" interface="wl_seat"/></request></interface>"""
        printed, said = self.made(text)
        self.assertEqual(printed, ["interface b 1", "request r o(wl_seat)"])
        self.assertEqual(said[0], "wl_seat: left out, the core tables have it")
        self.assertEqual(len(said), 2)

    # A newer wl_shm_pool than that of the core, with the messages of the core in front.
    NEWER = """<interface name="wl_shm_pool" version="{}">
        <request name="create_buffer"><arg name="x" type="new_id" interface="wl_buffer"/><arg name="x" type="int"/>
          <arg name="x" type="int"/><arg name="x" type="int"/><arg name="x" type="int"/>
          <arg name="x" type="{}"/></request>
        <request name="destroy" type="destructor"/>
        {}
        <request name="seal" since="3"><arg name="x" type="new_id" interface="seal"/></request>
        <event name="sealed" since="3"/></interface><interface name="seal" version="1"/>"""
    RESIZE = '<request name="resize"><arg name="x" type="int"/></request>'

    def test_what_is_newer_than_core(self):
        printed, said = self.made(self.NEWER.format(3, "uint", self.RESIZE))
        self.assertEqual(
            printed,
            [
                "extend wl_shm_pool 3",
                "request seal n(seal) @3",
                "event sealed @3",
                "interface seal 1",
            ],
        )
        self.assertEqual(said, [])
        whole = table_text.read_more(table_text.core_tables(), "\n".join(printed).encode())
        self.assertEqual(whole[5].version, 3)
        printed, said = self.made('<interface name="wl_display" version="2"/>')
        self.assertEqual(said, ["wl_display: left out, it is always the same; the file has version 2"])
        self.assertEqual(printed, [f"# {said[0]}"])

    def test_what_changes_core(self):
        older = self.NEWER.replace('since="3"', 'since="2"')
        for text, error in (
            (self.NEWER.format(3, "int", self.RESIZE), "line 2: wl_shm_pool request create_buffer n(wl_buffer)"),
            (older.format(2, "int", self.RESIZE), "line 2: wl_shm_pool request create_buffer n(wl_buffer)"),
            (self.NEWER.format(3, "uint", ""), "line 7: wl_shm_pool request seal n(seal) @3: the core"),
        ):
            printed, said = self.made(text, status=1)
            self.assertEqual((printed, len(said)), ([], 1))
            self.assertIn(error, said[0])

    def test_an_event_goes_before_a_request(self):
        text = """<interface name="b" version="1"><request name="r">
            <arg name="x" type="object" interface="a"/></request></interface>
            <interface name="a" version="1"><request name="r"/>
            <event name="gone" type="destructor"/></interface>"""
        printed, said = self.made(text)
        kept = "event gone D: kept without D, which breaks V7"
        self.assertEqual(
            printed,
            ["interface b 1", "request r o(a)", "interface a 1", "request r", "event gone", f"# {kept}"],
        )
        self.assertEqual(said, [f"a {kept}"])

    def test_an_event_of_another_text_destroys(self):
        """It stays in that text, so a request that names its interface goes."""
        naming = """<interface name="b" version="1"><request name="r">
            <arg name="x" type="object" interface="a"/></request></interface>"""
        named = '<interface name="a" version="1"><event name="gone" type="destructor"/></interface>'
        printed, said = self.made(naming, named, words=("{0}", "--with", "{1}"))
        self.assertEqual(said, ["b request r o(a): left out, it breaks V7"])
        printed, said = self.made(naming, named)
        self.assertEqual(printed[:2], ["interface b 1", "request r o(a)"])
        self.assertEqual(said, ["a event gone D: kept without D, which breaks V7"])

    def test_with(self):
        naming = """<interface name="b" version="1"><request name="r">
            <arg name="x" type="object" interface="a"/></request></interface>"""
        printed, said = self.made(naming, self.ALL, words=("{0}", "--with", "{1}", "--comment", "x"))
        self.assertEqual(
            printed,
            ["# x", "# It names interfaces of other texts: a.", "interface b 1", "request r o(a)"],
        )
        self.assertEqual(said, [])
        printed, said = self.made(naming)
        self.assertEqual(said, ["b request r o(a): left out, it breaks V9"])
        # Of equal names the one that is only named is kept.
        printed, said = self.made(self.ALL, self.ALL, words=("{0}", "--with", "{1}"))
        self.assertEqual((printed, said), ([], ["a: left out, it breaks V1"]))

    def test_with_a_text(self):
        """A table text has interfaces to name, too."""
        naming = """<interface name="b" version="1"><request name="r">
            <arg name="x" type="object" interface="xdg_popup"/></request></interface>"""
        text = f"{TOP}/protocols/xdg-shell.tables"
        printed, said = self.made(naming, words=("{0}", "--with", text))
        self.assertEqual(printed[1:], ["interface b 1", "request r o(xdg_popup)"])
        self.assertEqual(said, [])
        printed, said = self.made(naming, words=("{0}", "--with", f"{TOP}/README.md"), status=1)
        self.assertIn("README.md: line 1: not well-formed", said[0])

    def test_pass_over(self):
        """A file that is refused is reported, and the others are printed."""
        printed, said = self.made('<interface name="a"/>', '<interface name="b" version="1"/>',
                                  words=("--pass-over", "{0}", "/no/such/file", "{1}"))
        self.assertEqual(printed, ["interface b 1"])
        self.assertRegex(said[0], "passed over: .*/0.xml: line 1: version of a is None")
        self.assertRegex(said[1], "passed over: cannot read /no/such/file: ")

    def test_no_protocol(self):
        printed, said = self.made('<interface name="a"/>', status=1)
        self.assertEqual((printed, len(said)), ([], 1))
