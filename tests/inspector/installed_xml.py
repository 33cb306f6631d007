"""Tests of the XML of protocols that waywire-inspect reads: what is installed on the system, and what no XML is.

    python3 -m tests.inspector.installed_xml [CLASS[.TEST]]..

The environment is that of inspecting.py."""
import os

from tests.inspector.inspecting import main, message
from tests.inspector.words import REGISTRY, Talking, announced, bind


class Protocols(Talking):
    """What no table text has is read from the XML in the folders of XDG_DATA_DIRS."""

    # A protocol of one interface, in a version.
    OWN = """<?xml version="1.0"?><protocol name="own"><interface
        version="{}" name = '{}'><request name="pull"><arg name="how" type="{}"/></request></interface></protocol>"""

    def install(self, name, text):
        """Installs an XML in place of those of the system."""
        self.env["XDG_DATA_DIRS"] = f"{self.folder}/data"
        path = f"{self.folder}/data/wayland-protocols/staging/{name}"
        os.makedirs(os.path.dirname(path), exist_ok=True)
        with open(path, "w", encoding="utf-8") as file:
            file.write(text)
        return path

    def test_installed_xml(self):
        """What no table has is read from the XML that the system has installed, and what cannot be read is
        passed over."""
        given = (REGISTRY, (announced(1, "own_thing", 1),), bind(1, "own_thing", 1, 3), message(3, 0, 5))
        own = self.install("own/own-v1.xml", self.OWN.format(1, "own_thing", "int"))
        bad = self.install("bad.xml", self.OWN.format(1, "bad_thing", "long"))
        capital = self.install("capital.xml", self.OWN.format(1, "Capital", "int"))
        older = self.install("older.xml", self.OWN.format(1, "xdg_wm_base", "int"))
        self.install("notes.txt", self.OWN.format(1, "no_thing", "int"))
        lines = self.lines(*given, options=["--record", self.recorded])
        self.assertEqual(lines[-2:], ["-> own_thing@3.pull(5)", "lawful: 3 requests, 1 events, 0 and 0 bytes left"])
        self.checked(self.recorded, lines, "--tables", f"{self.recorded}.tables")
        _, said = self.talk(*given, options=["--verbose"])
        for it in (f"{own} is read: it has what no table has\n",
                   f"passed over: {bad}: line 2: bad_thing: argument how has the type long\n",
                   f"{capital} is passed over: it has a name that no table can have\n"):
            self.assertIn(it, said)
        self.assertNotIn(older, said)
        self.assertIn("no table has own_thing", self.lines(*given, options=["--no-tables"])[-1])

    def test_installed_xml_that_names_others(self):
        """Its messages may name interfaces of other XML and of the texts."""
        self.install("one.xml", """<protocol name="one"><interface name="one_thing" version="1"><request name="use">
            <arg name="a" type="new_id" interface="two_thing"/><arg name="b" type="object" interface="xdg_toplevel"
            allow-null="true"/></request></interface></protocol>""")
        self.install("two.xml", self.OWN.format(1, "two_thing", "int"))
        lines = self.lines(REGISTRY, (announced(1, "one_thing", 1),), bind(1, "one_thing", 1, 3), message(3, 0, 4, 0),
                           message(4, 0, 5))
        self.assertEqual(lines[-3:-1], ["-> one_thing@3.use(new id two_thing@4, nil)", "-> two_thing@4.pull(5)"])

    def test_installed_xml_that_is_newer(self):
        """A newer version replaces the one of an installed text, but not one that is given by --tables."""
        newer = self.OWN.format(9, "xdg_wm_base", "int")
        self.install("newer.xml", newer)
        self.install("oldest.xml", self.OWN.format(1, "xdg_wm_base", "string"))
        given = (REGISTRY, (announced(1, "xdg_wm_base", 9),), bind(1, "xdg_wm_base", 9, 3), message(3, 0, 5))
        self.assertEqual(self.lines(*given)[-2], "-> xdg_wm_base@3.pull(5)")
        own = self.written("own.tables", "interface xdg_wm_base 1\nrequest own D\n")
        self.assertEqual(self.lines(*given[:-1], options=["--tables", own])[-1].partition("; ")[2],
                         "the tables have xdg_wm_base up to version 1, and it is bound at 9")

    def is_read(self, head, interface, tail=""):
        """Installs a protocol of one interface, whose text is given. Fails unless its message is decoded."""
        own = self.install("own.xml", f'{head}<protocol name="own">{interface}</protocol>{tail}')
        given = (REGISTRY, (announced(1, "own_thing", 2),), bind(1, "own_thing", 2, 3), message(3, 0, 5))
        lines, said = self.talk(*given, options=["--verbose"])
        self.assertEqual(lines[-2], "-> own_thing@3.pull(5)", (lines, said))
        self.assertIn(f"{own} is read: it has what no table has\n", said)

    # A message, in an interface of version 2.
    PULL = '<request name="pull"><arg name="how" type="int"/></request>'
    OPEN = '<interface name="own_thing" version="2">'
    # What is no interface and no request, though it looks so.
    NONE = """<interface name="Other" version='9'> <request name="Capital"> " > ' """

    def test_tags_that_are_none(self):
        """What stands in a comment, a CDATA section, an instruction or a document type is no tag."""
        kinds = '<!ELEMENT protocol (#PCDATA)><!ENTITY own "<interface name=\'Other\' version=\'9\'>">'
        for head, before, within, tail in (
            (f"<!--{self.NONE}-->", f"<!--{self.NONE}-->", f"<!-- - {self.NONE}-->", f"<!--{self.NONE}-->"),
            (f'<?xml version="1.0"?><?own {self.NONE}?>', f"<?own {self.NONE}?>", f"<?own {self.NONE}?>", ""),
            ('<!DOCTYPE protocol SYSTEM "wayland.dtd">', "", f"<![CDATA[{self.NONE}]] >]]>", ""),
            (f"<!DOCTYPE protocol [ <!-- ' > --> {kinds} <?own ' > ?> ]>", "",
             f"<![CDATA[]]]]><![CDATA[{self.NONE}]]>", ""),
        ):
            self.is_read(head, f"{before}{self.OPEN}<description summary=\"own\">{within}</description>{self.PULL}"
                               "</interface>", tail)

    def test_attributes(self):
        """They stand in any order, in either quotes, with spaces around. Their values may have a `>` or references."""
        for tag in (
            "<interface version = '2'\n\tname\n=\n'own_thing'>",
            """<interface summary="name='Other' version='9' >" version=" +02" name="own_thing" >""",
            """<interface summary='a > b, name="Other"' xname="Other" name="own_thing" version="2">""",
            """<interface name="&#111;wn&#x5f;th&#x69;n&#103;" version="&#50;">""",
        ):
            self.is_read("", f"{tag}{self.PULL}</interface>")
        self.is_read("", f"{self.OPEN}<request summary='>' name='pull'><arg type='int' name='how'/></request>"
                         "</interface>")

    def test_a_version_in_a_comment(self):
        """It makes no XML older than another."""
        self.install("other.xml", '<protocol name="o"><!-- <interface name="own_thing" version="3"> -->'
                                  f"{self.OPEN.replace('own', 'other')}</interface></protocol>")
        self.is_read("", f"{self.OPEN}{self.PULL}</interface>")

    def test_what_is_refused(self):
        """A version that is no number is none, and an XML that does not end is read as far as it goes."""
        for bad in ('<interface name="own_thing" version="3x">', '<interface name="own_thing" version="-1">',
                    '<interface name="own_thing" version="2147483648">', '<interface name="own_thing" version="3',
                    "<interface", "<!-- ", "<![CDATA[", "<!DOCTYPE [", "<", ""):
            self.install("bad.xml", bad)
            self.is_read("", f"{self.OPEN}{self.PULL}</interface>")
            os.unlink(f"{self.folder}/data/wayland-protocols/staging/bad.xml")

    def test_xml_as_a_text(self):
        """XML whose name does not say so is called XML, and a text whose name says XML is called a text."""
        xml = self.written("own.tables", self.OWN.format(1, "own_thing", "int"))
        said = f"{xml} is XML, not a table text; the name of a protocol's XML ends with .xml"
        self.assertEqual(self.ran("--tables", xml, "true", status=125), ("", f"waywire-inspect: {said}\n"))
        text = self.written("own.xml", "interface own_thing 1\n")
        self.assertIn(f"{text} is a table text, not the XML of a protocol\n",
                      self.ran("--tables", text, "true", status=125)[1])


if __name__ == "__main__":
    main()
