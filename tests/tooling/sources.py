"""The crates as crates.txt lists them, their contracts and their definitions."""

import glob
import modulefinder
import os
import re
import shutil
import subprocess
import sys
import tempfile
import textwrap
import unittest

from scripts import contracts, core_files, core_lists, crates, draw_crates, protocol_files
from tests.checks import TOP, make, need, read, run
from tools.waywire import protocol


class Crates(unittest.TestCase):
    """crates.txt, and the picture that is drawn of it."""

    def test_each_kind_has_a_heading(self):
        found = crates.read()
        self.assertEqual({it.kind for it in found.values()}, {"library", "theory", "program", "example"})
        self.assertEqual(sorted(found), sorted(os.listdir(f"{TOP}/crates")))

    def test_lowest_first(self):
        """In crates.txt a crate comes after those of its kind that it uses."""
        found = crates.read()
        order = [*found]
        for name, under in crates.below(found).items():
            for low in under:
                if found[low].kind == found[name].kind:
                    self.assertLess(order.index(low), order.index(name), f"{name} stands on {low}")

    def test_picture(self):
        found = crates.read()
        drawn = "\n".join(draw_crates.drawn(found)) + "\n"
        self.assertEqual(read("docs/crates.svg"), drawn, "run python3 -m scripts.draw_crates >docs/crates.svg")
        for name in found:
            self.assertIn(f">{name}</text>", drawn)

    def test_nearest(self):
        found = {it.name: it for it in (crates.Crate("a", "", []), crates.Crate("b", "", ["a"]))}
        found["c"] = crates.Crate("c", "", ["a", "b", "std"])
        self.assertEqual(crates.nearest(found), {"a": [], "b": ["a"], "c": ["b"]})

    def test_orders(self):
        """Lowest first, a crate comes after those below it. Longest chain first, the crate with the longest chain of
        crates above it comes first."""
        uses = {"d": [], "a": [], "b": ["a"], "c": ["b", "d", "std"], "other": ["a"]}
        found = {name: crates.Crate(name, "", below) for name, below in uses.items()}
        self.assertEqual(crates.lowest_first(found, "c"), ["a", "b", "d", "c"])
        self.assertEqual(crates.longest_chain_first(found, "c"), ["a", "b", "d", "c"])

    def test_asked_by_shell(self):
        def said(*words):
            return subprocess.run([sys.executable, "-m", "scripts.crates", *words], cwd=TOP, capture_output=True, text=True)

        self.assertEqual(said("below", "wl_sigs").stdout.split()[-1], "wl_sigs")
        line = said("lines", "waywire_c", "wl_wire").stdout.splitlines()[0]
        self.assertTrue(line.startswith("waywire_c staticlib: ") and line in read("crates.txt").splitlines())
        self.assertEqual(said("below", "no_crate").returncode, 2)


class Made(unittest.TestCase):
    """The files of the repository that a tool made say so in their first line. Other tests compare those of the
    protocols (Texts) and of the crates (Crates.test_picture), and `./test c` what the program session prints."""

    TOOL = [sys.executable, "-m", "scripts.core_files"]
    CORE = core_files.FILES
    OTHERS = {"docs/crates.svg": "draw_crates.py", "tests/c/session.out": "session.c"}
    # What `make` makes of the core, and git ignores.
    TYPED = ("include/waywire-core.h", "rust/waywire/src/wayland.rs", "rust/waywire/src/data_device.rs")

    def test_of_the_core(self):
        ran = subprocess.run([*self.TOOL, "--check"], cwd=TOP, capture_output=True, text=True)
        self.assertEqual((ran.stdout + ran.stderr, ran.returncode), ("", 0))

    def test_of_a_bad_core(self):
        """What the tool says that refuses it is shown, and no file is written."""
        with tempfile.TemporaryDirectory() as room:
            for folder in ("scripts", "tools", "protocols/core"):
                shutil.copytree(f"{TOP}/{folder}", f"{room}/{folder}", ignore=shutil.ignore_patterns("__pycache__"))
            with open(f"{room}/protocols/core/core.xml", "w", encoding="utf-8") as file:
                file.write("<protocol name='core'>")
            ran = subprocess.run(self.TOOL, cwd=room, capture_output=True, text=True)
            with open(f"{room}/protocols/core/core.tables", encoding="utf-8") as file:
                self.assertEqual(file.read(), read("protocols/core/core.tables"))
        self.assertEqual((ran.stdout, ran.returncode), ("", 1))
        self.assertRegex(ran.stderr, r"\Atables-from-xml: .*core\.xml.*\n\Z")

    def test_typed_calls(self):
        """`make` makes those of the core, and makes them anew if the core or a file of the tool changes."""
        need("make")
        self.assertTrue(make(*self.TYPED))
        finder = modulefinder.ModuleFinder([f"{TOP}/tools", *sys.path])
        finder.run_script(f"{TOP}/tools/stubs-from-xml")
        files = [os.path.relpath(it.__file__, TOP) for it in finder.modules.values() if it.__file__]
        changes = [it for it in files if it.startswith("tools/")]
        self.assertIn("tools/waywire/rust_stubs.py", changes)
        for target in self.TYPED:
            for changed in ("README.md", "protocols/core/core.xml", "protocols/core/core.tables", *changes):
                ran = subprocess.run(["make", "-q", "-W", changed, target], cwd=TOP, check=False)
                self.assertEqual(ran.returncode, int(changed != "README.md"), f"{target}, {changed}")

    def test_first_lines(self):
        made = dict.fromkeys((*self.CORE, *core_lists.WHOLE), "core.files|stubs-from-xml")
        made.update(self.OTHERS)
        texts = glob.glob("protocols/*.tables", root_dir=TOP)
        by_hand = {f"protocols/{it}.tables" for it in protocol_files.BY_HAND}
        made.update(dict.fromkeys({*texts} - by_hand, "tools/tables-from-xml"))
        for name in by_hand:
            self.assertTrue(read(name).startswith("# Written by hand, "), name)
        for name, tool in made.items():
            self.assertRegex(read(name).split("\n")[0], rf"(?i)\bmade by \S*({tool})", name)


class CoreLists(unittest.TestCase):
    """The lists of interfaces that scripts/core_files.py makes in the crates wl_rules and wl_sigs."""

    def changed(self, old, new):
        """The lists that differ from those of the repository if a line of protocols/core/core.xml is
        another, with the lines that each of them has more."""
        xml = read("protocols/core/core.xml")
        self.assertEqual(xml.count(old), 1, old)
        with tempfile.TemporaryDirectory() as room:
            with open(f"{room}/core.xml", "w", encoding="utf-8") as file:
                file.write(xml.replace(old, new))
            interfaces = protocol.read(f"{room}/core.xml").interfaces
        found = {}
        for name in core_lists.PARTS:
            before = read(name)
            made = core_lists.text_of(name, before, interfaces)
            more = {*made.splitlines()} - {*before.splitlines()}
            if more:
                found[os.path.basename(name)] = sorted(it.strip() for it in more)
        return found

    def test_a_message_more(self):
        last = '    <event name="popup_done">\n'
        more = '<event name="gone" type="destructor"><arg name="x" type="array"/></event>\n'
        self.assertEqual(self.changed(last, more + last), {
            "Core.antt": ['message (codes "gone") 1 (array ∷ []) Target ∷'],
            "Opcodes.antt": ['at_opcode event_wl_shell_surface.GONE (codes "gone") ∷'],
            "core_interfaces.rt": ['message!(b"gone", 1, [Array], destroys),'],
        })

    def test_a_fixed_interface(self):
        data = '<arg name="callback_data" type="uint"/>'
        found = self.changed(data, data.replace("uint", "int"))
        self.assertEqual(found, {
            "Fixed.antt": ['message (codes "done") 1 (int ∷ []) Target ∷'],
            "core_interfaces.rt": ['events: &[message!(b"done", 1, [Int], destroys)],'],
        })

    def test_an_interface_more(self):
        """Each list has it, and its place where a message names it."""
        last = '  <interface name="wl_fixes" version="1">\n'
        more = """<interface name="wl_ball" version="2"><request name="throw">
        <arg name="x" type="new_id" interface="wl_ball"/></request></interface>\n"""
        found = self.changed(last, more + last)
        lists = ["Fixed.antt", "Core.antt", "Opcodes.antt", "core_interfaces.rt"]
        self.assertEqual([*found], lists)
        self.assertEqual(found["Fixed.antt"], ["fixes = record { 0 = 19 }"])
        self.assertLess({"ball = record { 0 = 18 }", "wl_ball ∷"}, {*found["Core.antt"]})
        self.assertIn("const WL_BALL: Iface = Iface(18);", found["core_interfaces.rt"])
        self.assertIn('in_interface (codes "wl_ball") [] ∷', found["Opcodes.antt"])

    def test_what_has_no_word(self):
        title = '<arg name="title" type="string"/>'
        why = "set_title: .* no word for this string that may be null"
        with self.assertRaisesRegex(protocol.BadProtocol, why):
            self.changed(title, title.replace("/>", ' allow-null="true"/>'))

    def test_marks(self):
        text = f"a\n-- {core_lists.BEGINS}\n\nb\n\n-- {core_lists.ENDS}\nc\n"
        made = core_lists.with_parts("x.antt", text, [["d", "e"]])
        self.assertEqual(made, text.replace("\nb\n", "\nd\ne\n"))
        for lacking in (core_lists.BEGINS, core_lists.ENDS):
            with self.assertRaisesRegex(protocol.BadProtocol, f"x.antt lacks a line .*{lacking}"):
                core_lists.with_parts("x.antt", text.replace(lacking, ""), [["d"]])

    def test_layout(self):
        """Code with messages of all widths is as `rt fmt` lays it out."""
        need("rt")
        words, interfaces = [*core_lists.KINDS], []

        def argument(place, name):
            kind, null, named = words[place % len(words)]
            return protocol.Argument("x", kind, name if named else None, null, "")

        for name in ("wl_a", "wl_sixteen_letters", "wl_callback"):
            for count in (*range(8), 12, 16, 20):
                args = [argument((count + it) * it, name) for it in range(count)]
                one, *two = (
                    protocol.Message("m" * width, 0, args, width == 12, count + 1, "", 0)
                    for width in (count % 3 * 12 + 1, 1, 12)
                )
                interfaces.append(protocol.Interface(name, 1, [one], two, [], ""))
        code = "\n".join(["//! Lists.", "", *core_lists.core_code(interfaces), ""])
        with tempfile.TemporaryDirectory() as room:
            os.mkdir(f"{room}/src")
            with open(f"{room}/src/lib.rt", "w", encoding="utf-8") as file:
                file.write(code)
            subprocess.run(["rt", "fmt"], cwd=room, capture_output=True, check=True)
            with open(f"{room}/src/lib.rt", encoding="utf-8") as file:
                self.assertEqual(file.read(), code)


class Contracts(unittest.TestCase):
    """The list of clauses that scripts/contracts.py prints."""

    # Each sort of line, of a crate that has them all.
    SOURCE = """
    pub trait Box {
        /// Its size. Never 0.
        fn size(&self) -> u32
            requires { IsOpen self }
            ensures some { (a : Row)
                → Fits a };

        /// Whether it has none.
        final fn is_empty(&self) -> bool {
            false
        }
    }

    impl<'a, T: Drop> Box for Tin<'a, T> {
        fn size(&self) -> u32 {
            4
        }
    }

    impl fmt::Display for Tin<'_> {
        ghost output = { Some tin_text };

        fn fmt(&self) {}
    }

    impl Error for Tin<'_> {}

    /// Opens it
    /// by hand.
    ///
    /// Slowly.
    #[inline]
    pub fn open()
        ensures* state { let {x = tin_row} Closed }
        ensures { true }
    {}

    pub fn hidden() {}

    fn private() {}
    """
    LISTED = [
        "- `Box::size`: Its size. Requires *unnamed* (IsOpen); ensures `some` (Fits)",
        "- `Box::is_empty`: Whether it has none.",
        "- `Tin: Display`: Ensures `output` (tin_text)",
        "- **law** `open`: Opens it by hand. Ensures `state` (HasLid), *unnamed*",
    ]

    def test_page(self):
        """The list has each crate with public functions, each export for C, and a call with its clauses."""
        page = run([sys.executable, "-m", "scripts.contracts"])
        kinds = {it.name for it in crates.read().values() if it.kind != "example"}
        self.assertEqual({*re.findall("(?m)^### `(.*)`$", page)}, kinds - {"wl", "waywire"})
        sources = "".join(map(read, glob.glob("crates/waywire_c/src/*.rt", root_dir=TOP)))
        exports = re.findall(r'pub extern "C" fn (\w+)', sources)
        self.assertGreater(len(exports), 50)
        self.assertLessEqual({*exports}, {*re.findall("(?m)^- `(.*?)`", page)})
        clauses = r"Ensures `answer` \(AnswersOrMemory\), `ok` \(after_bind\), `err`"
        self.assertRegex(page, rf"(?m)^- `Client::bind`: Binds .*\. {clauses}$")

    def test_functions(self):
        self.assertEqual(self.lines(self.SOURCE), self.LISTED)

    def lines(self, source):
        """Returns the lines of a crate whose laws.rt has this source."""
        with tempfile.TemporaryDirectory() as top:
            for folder in ("src", "specs"):
                os.makedirs(f"{top}/crates/tins/{folder}")
            uses = "ghost use Rattle.tins.specs.Lids.{IsOpen, Row, Fits, tin_row, tin_text, HasLid as Closed};\n"
            for name, text in (
                ("src/laws.rt", uses + textwrap.dedent(source)),
                ("src/lib.rt", "mod laws;\n\npub use laws::{\n    Box, Tin, open,\n};\n"),
                ("specs/Lids.antt", "pub record Row : Type 0 where\nabbrev pub Fits : Row → Type 0\n"),
            ):
                with open(f"{top}/crates/tins/{name}", "w", encoding="utf-8") as file:
                    file.write(text)
            found = contracts.modules(top, "tins", {"tins": None}, contracts.value_types(top))
        return [contracts.written(it) for listed in found.values() for it in listed]


class Definitions(unittest.TestCase):
    """The names of the definitions in specs/."""

    defines = re.compile(r"(?:(?:abbrev|unfoldable|pub|record|data) )+(?!use |mod )([^\s:({]+)")
    ends = ["wl_client", "wl_server"]
    # What the objects of both ranges of ids have of one table's.
    of_both_ranges = {f"wl_object_map/specs/{it}.antt" for it in ("Objects", "ObjectsLaws")}

    def test_one_name_for_one_thing(self):
        """If both ends have the same thing, it has the same name in both; the same holds for a table of objects
        and its two ranges. No other name occurs twice."""
        places = {}
        for path in sorted(glob.glob(f"{TOP}/crates/*/specs/*.antt")):
            with open(path, encoding="utf-8") as file:
                names = {m.group(1) for m in map(self.defines.match, file) if m}
            for name in names:
                places.setdefault(name, []).append(os.path.relpath(path, f"{TOP}/crates"))
        twice = {}
        for name, files in places.items():
            homes = [file.split("/")[0] for file in files]
            of_a_table = set(homes) == {"wl_object_map"} and self.of_both_ranges & set(files)
            if len(files) > 1 and homes != self.ends and not of_a_table:
                twice[name] = files
        self.assertEqual(twice, {})


class Columns(unittest.TestCase):
    """The lines in src/ and specs/ of the crates have at most 100 columns."""

    # What cannot be broken: one string; the import of one name; what `rt fmt` makes one line of; a
    # line of a recording in a text. The page of `wl` has an import behind `//! `, laid out as it is
    # in a program (FrontPage).
    whole = re.compile(
        r'\s*b?".*"[,;)]*|(ghost )?use \S+\.\{[^,]*\};?|#\[tactic\(.*\)\]|[<>] [0-9a-f]+'
    )

    PAGE = "crates/wl/src/lib.rt"

    def test_width(self):
        paths = [
            it
            for crate in crates.read_all().values()
            for pattern in ("src/**/*.rt", "src/**/*.rattle", "specs/**/*.antt")
            for it in glob.glob(f"{crate.folder}/{pattern}", root_dir=TOP, recursive=True)
        ]
        found = [
            f"{path}:{number}"
            for path in sorted(paths)
            for number, line in enumerate(read(path).splitlines(), 1)
            if len(line) > 100 + 4 * (path == self.PAGE) and not self.whole.fullmatch(line)
        ]
        self.assertGreater(len(paths), 300)
        self.assertEqual(found, [], "\n".join(found))


class Imports(unittest.TestCase):
    """The names that the definitions, the proofs and the contracts import."""

    line = re.compile(r"(?m)^ *(?:ghost )?use [^\s{]+\.\{([^}]*)\};?$")
    word = re.compile(r"[\w-]+'?")

    def unused(self, text):
        """The names that a file imports and does not use, a name with `◌` if one of its parts does
        not occur."""
        rest = self.line.sub("", text)
        words = {*self.word.findall(rest)}
        names = [name for it in self.line.findall(text) for name in it.split(",") if name.strip()]
        for name in names:
            own = name.split(" as ")[-1].strip()
            parts = own.replace("◌", " ").split()
            if not all(it in words if self.word.fullmatch(it) else it in rest for it in parts):
                yield own

    def test_each_is_used(self):
        paths = [
            it
            for pattern in ("src/**/*.rt", "specs/**/*.antt", "proofs/**/*.antt")
            for it in glob.glob(f"crates/*/{pattern}", root_dir=TOP, recursive=True)
        ]
        found = [f"{it}: {name}" for it in sorted(paths) for name in self.unused(read(it))]
        self.assertGreater(len(paths), 1000)
        self.assertEqual(found, [], "\n".join(found))

    def test_what_is_unused_is_found(self):
        text = "use A.{◌+◌, ◌∷◌, one, two as both, if◌then◌else◌}\nx = if one then 1 + 1 else 0\n"
        self.assertEqual([*self.unused(text)], ["◌∷◌", "both"])


class Functions(unittest.TestCase):
    """The functions in src/ of the crates."""

    begins = re.compile(r"(?m)^ *(?:[\w()]+ |\"C\" )*fn (\w+)")
    # Beside `self`, which is no parameter here.
    most = 6
    # Exports that c/ calls, each from the function of that name in include/waywire.h, whose
    # parameters it passes on one by one: for a record it would have to write them to memory first.
    of_c = {"waywire_c_tables_decode", "waywire_c_tables_message"}

    def parameters(self, text):
        """The parameters of each function of a source, without `self`."""
        text = re.sub(r"//.*", "", text).replace("->", "")
        return [(it[1], [*self.listed(text[it.end() :])]) for it in self.begins.finditer(text)]

    @staticmethod
    def listed(text):
        """The parameters in the first parentheses that are not inside other brackets."""
        depth, starts, found = 0, False, [""]
        for letter in text:
            depth -= letter in ")]}>"
            if starts and not depth:
                break
            if starts and letter == "," and depth == 1:
                found.append("")
            elif starts:
                found[-1] += letter
            starts = starts or (letter == "(" and not depth)
            depth += letter in "([{<"
        return [it.strip() for it in found if not re.fullmatch(r"\s*|(.*\W)?self(: .*)?", it)]

    def test_parameters(self):
        """None has more than six: what belongs together is a record."""
        found = {
            name: given
            for crate in crates.read_all().values()
            for path in glob.glob(f"{crate.folder}/src/*.r*t*", root_dir=TOP)
            for name, given in self.parameters(read(path))
            if len(given) > self.most
        }
        others = {name: given for name, given in found.items() if name not in self.of_c}
        self.assertEqual(others, {})
        self.assertEqual({*found}, self.of_c, "an exception that is none any more")
        for name in self.of_c:
            self.assertIn(f" = {name}(", read("c/lib/tables.c"))
            self.assertIn(f" {name.replace('_c_', '_')}(", read("include/waywire.h"))

    def test_listed(self):
        source = """
            fn none(&self) -> (u8, u8) {}
            pub(crate) const fn one<'a, F: Fn(&str, u8) -> Result<u8, ()>>(&'a mut self, call: &F) {
                fn two(
                    // Not, this.
                    pair: (u8, Vec<u8, A>),
                    mut rows: [u8; 2],
                ) {}
            }
            pub extern "C" fn three(a: u8, b: fn(u8, u8) -> u8, itself: &mut u8) -> u32 {}
        """
        found = {name: len(given) for name, given in self.parameters(source)}
        self.assertEqual(found, {"none": 0, "one": 1, "two": 2, "three": 3})
