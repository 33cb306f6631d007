"""The table texts in protocols/, compared with their page and with the files that they are made from."""

import contextlib
import glob
import io
import os
import re
import unittest

from scripts import make_tables, protocol_files
from tests.checks import TOP, joined_tables, read
from tests.tooling.in_programs import Program
from tools.waywire import protocol, table_text


class Texts(unittest.TestCase):
    """The texts in protocols/."""

    missing = "the package is not there (scripts/install-packages, scripts/fetch_protocols.py)"

    def texts(self):
        """Each text by its name."""
        paths = sorted(glob.glob("protocols/*.tables", root_dir=TOP))
        return {os.path.basename(it).removesuffix(".tables"): read(it) for it in paths}

    def test_valid(self):
        """Each with those whose interfaces it names, and all together, in any order."""
        texts, core = self.texts(), table_text.core_tables()
        for name, its in texts.items():
            its += "".join(texts[it] for it in protocol_files.names_of(name))
            self.assertNotEqual(table_text.read_more(core, its.encode()), core, name)
        joined = table_text.read_more(core, joined_tables())
        others = table_text.read_more(core, "".join(reversed(texts.values())).encode())
        self.assertEqual(len(joined), len(others))
        made = [it for one in joined for it in one.event if any(kind.letter == "N" for kind in it.kinds)]
        self.assertEqual(len(made), 26)

    def test_page(self):
        """The page has a row for each text, with the versions that the text has, and those to join it with."""
        rows = dict(re.findall(r"(?m)^\| `([a-z0-9-]+)\.tables` \| (.*) \|$", read("protocols/README.md")))
        texts = self.texts()
        self.assertEqual(sorted(rows), sorted(texts))
        self.assertEqual(sorted(texts), sorted([*protocol_files.PROTOCOLS, *protocol_files.BY_HAND]))
        for name, row in rows.items():
            versions = {*map(int, re.findall(r"(?m)^(?:interface|extend) \S+ ([0-9]+)$", texts[name]))}
            said = re.search(r", ([0-9]+(?:(?:, | and )[0-9]+)*) \|", f"{row} |")[1]
            self.assertEqual({*map(int, re.findall("[0-9]+", said))}, versions, name)
            named = re.findall(r"`([a-z0-9-]+)\.tables`", row)
            self.assertEqual(named, [*protocol_files.names_of(name)], name)

    # Programs that have interfaces of texts for which there is no file, or only an older one.
    PROGRAMS = {
        "libgdk-3.so.0": ("gtk-shell", "gtk-primary-selection"),
        "libgtk-4.so.1": ("gtk-shell",),
        "libwlroots.so.10": ("virtual-keyboard", "input-method-v2", "drm"),
    }

    def test_as_programs_have_them(self):
        """What no file of a protocol is there for is what libraries have."""
        compared = 0
        for library, names in self.PROGRAMS.items():
            paths = glob.glob(f"/usr/lib/x86_64-linux-gnu/{library}")
            wanted = {it.name: it for name in names for it in table_text.parse_tables(self.texts()[name].encode())}
            found = Program(paths[0]).interfaces(wanted) if paths else {}
            for name, (version, requests, events) in found.items():
                self.assertLessEqual(version, wanted[name].version, name)
                for there, ours in ((requests, wanted[name].request), (events, wanted[name].event)):
                    said = [re.sub(r" D\b", "", str(it)).replace("N(", "n(") for it in ours]
                    self.assertEqual(there, said, f"{library}: {name}")
                compared += 1
            self.assertEqual(len(found), len(wanted) if paths else 0, library)
        if not compared:
            self.skipTest(f"none of {', '.join(self.PROGRAMS)} is installed")

    def test_made_of_the_files(self):
        """Each text is what the tool makes from its file, if that version of the package is installed."""
        files, tool, others = protocol_files.sources(), make_tables, []
        for name, stored in self.texts().items():
            if name in protocol_files.BY_HAND:
                continue
            if name not in files or stored.splitlines()[0] != f"# {tool.first_line(name)}":
                others.append(name)
                continue
            with contextlib.redirect_stderr(io.StringIO()):
                made = tool.text_of(name, files)
            self.assertEqual(made, stored, f"run scripts/make_tables.py {name}")
            # Names are no part of a text: one can stand without.
            if os.path.exists(f"{TOP}/protocols/{name}.names"):
                self.assertEqual(tool.names_of(name, files), read(f"protocols/{name}.names"),
                                 f"run scripts/make_tables.py {name}")
        if others:
            self.skipTest(f"{', '.join(others)}: {self.missing} in that version")

    def test_each_file_is_read(self):
        """Each file of a package has a text, or the page says why it has none."""
        if not protocol_files.found():
            self.skipTest(self.missing)
        page = read("protocols/README.md")
        for package, path in protocol_files.without_text():
            self.assertIn(path, protocol_files.WITHOUT_TEXT.get(package, []))
            self.assertIn(f"`{os.path.basename(path)}`", page)
            protocol.read(os.path.join(protocol_files.folder(package), path))
