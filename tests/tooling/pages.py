"""What the pages link to, name and show, and what the linters say about the programs."""

import glob
import os
import re
import subprocess
import sys
import tempfile
import unittest

from scripts import contracts, crates, installed_pages, man_page
from tests.checks import TOP, need, read, run
from tests.parts import pages


class Pages(unittest.TestCase):
    """What the pages link to and name is there."""

    FOLDERS = ("", "crates", "docs", "tests/rattle", "tools")
    # Files that a command makes, and words in the place of a name.
    MADE = re.compile(r"(^|/)out/|^(include/)?waywire-(core|version)\.h$|(^|/)src/(wayland|data_device)\.rs$")
    STANDS_FOR = re.compile(r"[A-Z]{3,}")
    PATH = re.compile(r"(\./)?\.?[a-z][\w.*+-]*(/[\w.*+-]+)+/?", re.ASCII)
    FILE = re.compile(r"[\w-]+\.(antt|c|edit|h|md|py|rattle|rec|rt|run|scenes|svg|tables|txt)", re.ASCII)

    def pages(self):
        found = []
        for folder in ("", "docs", "examples/*", "protocols", "rust/*", "tests/rattle/*"):
            found += glob.glob(f"{TOP}/{folder}/*.md")
        return sorted(os.path.relpath(it, TOP) for it in found)

    def test_links(self):
        for page in self.pages():
            for to in re.findall(r"\]\(([^)\s]+)\)", read(page)):
                path = to.partition("#")[0]
                if path and not re.match(r"\w+:", to):
                    self.assertTrue(os.path.exists(f"{TOP}/{os.path.dirname(page)}/{path}"), f"{page}: {to}")

    def test_anchors(self):
        """A link into a page leads to a heading of it."""
        for page in self.pages():
            for to in re.findall(r"\]\(([^)\s]+)\)", read(page)):
                path, _, anchor = to.partition("#")
                if anchor and not re.match(r"\w+:", to):
                    target = os.path.relpath(f"{TOP}/{os.path.dirname(page)}/{path}", TOP) if path else page
                    self.assertIn(anchor, self.anchors(read(target)), f"{page}: {to}")

    @staticmethod
    def anchors(text):
        """The anchors of a page's headings, as the hosts of repositories make them."""
        headings = re.findall(r"(?m)^#+ (.*)", re.sub(r"(?ms)^```.*?^```$", "", text))
        return [re.sub(r"[^\w -]", "", it.lower()).replace(" ", "-") for it in headings]

    def test_installed_pages(self):
        """An installed page has the links to what is installed, and of the others only the text."""
        places = installed_pages.Places("/doc", "/include", "/data")
        said = installed_pages.installed("[a](../include/waywire.h) [b `c`](PERF.md#d) [e](#f) [g](FORMATS.md#words)\n"
                                         "```c\nf[1](x)\n```\n[`h`](../rust/waywire/README.md)", "docs/GUIDE.md", places)
        self.assertEqual(said, "[a](../include/waywire.h) b `c` [e](#f) [g](FORMATS.md#words)\n"
                               "```c\nf[1](x)\n```\n[`h`](../data/rust/waywire/README.md)")

    def test_file_names(self):
        names = set()
        for at, folders, files in os.walk(TOP):
            folders[:] = [it for it in folders if it not in ("out", ".git")]
            names.update(files)
        places = [*self.FOLDERS, *(it.folder for it in crates.read_all().values())]
        for page in self.pages():
            text = re.sub(r"(?s)```.*?```", "", read(page))
            near = [*places, os.path.dirname(page)]
            for word in " ".join(re.findall(r"`([^`\n]+)`", text)).split():
                if self.MADE.search(word) or self.STANDS_FOR.search(word):
                    continue
                if self.PATH.fullmatch(word):
                    word = word.removeprefix("./").rstrip("/")
                    found = [glob.glob(f"{TOP}/{it}/{word}{end}") for it in near for end in ("", ".antt")]
                    self.assertTrue(any(found), f"{page}: {word}")
                elif self.FILE.fullmatch(word):
                    self.assertIn(word, names, page)


class Lint(unittest.TestCase):
    """The programs in Python and shell have nothing that their linters speak of."""

    def scripts(self, language, ending):
        """The files whose first line names this language, or that end as its modules do."""
        found = []
        for folder in (".", ".ci", "bench", "bench/*", "c/*", "scripts", "tests", "tests/*", "tools", "tools/*"):
            for path in glob.glob(f"{TOP}/{folder}/*"):
                if os.path.isfile(path):
                    with open(path, "rb") as file:
                        first = file.readline()
                    if first.startswith(b"#!") and language in first or path.endswith(ending):
                        found.append(path)
        self.assertTrue(found)
        return found

    def lint(self, words, language, ending):
        need(words[0])
        command = [*words, *self.scripts(language, ending)]
        ran = subprocess.run(command, capture_output=True, text=True, cwd=TOP, check=False)
        self.assertEqual((ran.stdout + ran.stderr, ran.returncode), ("", 0))

    def test_python(self):
        self.lint(["pyflakes3"], b"python", ".py")

    def test_tools_need_no_tests(self):
        """What users run imports the standard library and its own package: `make install` installs no more."""
        imports = re.compile(r"(?m)^\s*(?:import|from) (\w+)")
        for path in self.scripts(b"python", ".py"):
            if path.startswith(f"{TOP}/tools/"):
                with open(path, encoding="utf-8") as file:
                    self.assertEqual({*imports.findall(file.read())} - {*sys.stdlib_module_names, "waywire"}, set(), path)

    def test_shell(self):
        self.lint(["shellcheck", "-x"], b"sh", ".sh")


class Mypy(unittest.TestCase):
    """The functions of the tools and of scripts/ have types (mypy.ini), and these fit."""

    def test_types(self):
        need("mypy")
        ran = subprocess.run(["mypy", "--cache-dir=/dev/null"], capture_output=True, text=True, cwd=TOP, check=False)
        self.assertEqual(ran.returncode, 0, ran.stdout + ran.stderr)


class FrontPage(unittest.TestCase):
    """The page of the crate `wl` lists its calls and has the import of the program `hello`, and the README shows
    what programs print."""

    def test_import_is_that_of_the_program(self):
        self.assertIn(self.page().split("```\n")[1], read("crates/hello/src/main.rt"))

    @staticmethod
    def page():
        """Returns the comment at the top of the crate `wl`."""
        lines = read("crates/wl/src/lib.rt").split("\n")
        return "\n".join(it[len("//!") :].removeprefix(" ") for it in lines if it.startswith("//!"))

    # What the library's own crates call, which the page leaves out.
    INNER = {("Args", "new"), ("End", "core"), ("Header", "at_front_of"), ("Header", "from_bytes"),
             ("Header", "to_bytes"), ("Header", "write"), ("Passed", "append_to"), ("Recording", "fill_last"),
             ("Recording", "prepare")}

    def test_calls(self):
        """The page lists each call of the types that `wl` exports, once: behind the name of its type, outside
        parentheses."""
        calls = self.page().split("# The calls")[1].split("\n- ", 1)[1].split("\n\n")[0]
        listed, owner = [], ""
        for kind, call in re.findall(r"\[`(\w+)`\]|Functions(?=:)|`(\w+)`", re.sub(r"\([^)]*\)", "", calls)):
            owner = owner if call else kind
            listed += [(owner, call)] * bool(call)
        exported = contracts.exports(f"{TOP}/crates/wl/src/lib.rt")[1]
        paths = glob.glob(f"{TOP}/crates/wl_*/src/*.rt")
        self.maxDiff = None
        self.assertEqual(sorted(listed), sorted(it for path in paths for it in self.calls(path, exported)))

    def calls(self, path, exported):
        """Yields the calls of a file that are public and of these types, or of these names: type and name."""
        owner = None
        with open(path, encoding="utf-8") as file:
            lines = file.read().split("\n")
        for line in lines:
            if contracts.OWNER.match(line):
                owner = None if line.endswith("{}") else contracts.owner_of(line)
            elif line == "}":
                owner = None
            start = contracts.START.match(line)
            if not start or not contracts.is_listed(start, owner, []):
                continue
            name = owner.name if owner else "", start[3]
            if (name[0] or name[1]) in exported and name not in self.INNER:
                yield name

    def test_readme_shows_what_is_stored(self):
        with open(f"{TOP}/README.md", encoding="utf-8") as file:
            readme = file.read()
        # Without its samples it is a page that is read at once.
        self.assertLessEqual(len(re.sub("(?ms)^```.*?^```\n", "", readme).encode()), 7_000)
        for case in ("trace_surface", "check_bad_new_id"):
            with open(f"{TOP}/tests/runs/{case}.run", encoding="utf-8") as file:
                run = file.read()
            words = re.search("(?m)^words: (.*)$", run)[1]
            output = re.sub("(?m)^  ", "", run.split("output:\n")[1])
            shown = readme.split(f"$ ./waywire {words}\n")[1].split("\n", 1)[1]
            if shown.split("\n")[2] == "..":
                shown, output = (it.split("\n")[:2] for it in (shown, output))
            self.assertEqual(shown[: len(output)], output, case)


class PutAside(unittest.TestCase):
    def test_files(self):
        """While the commands of README.md run, the files are away that a user has made by them."""
        with tempfile.TemporaryDirectory() as room:
            def write(name, text):
                with open(f"{room}/{name}", "w", encoding="utf-8") as file:
                    file.write(text)

            write("kept", "before")
            with pages.put_aside(room, ["kept", "made", "none"]):
                self.assertFalse(os.path.exists(f"{room}/kept"))
                write("kept", "after")
                write("made", "after")
            self.assertEqual(os.listdir(room), ["kept"])
            with open(f"{room}/kept", encoding="utf-8") as file:
                self.assertEqual(file.read(), "before")


class ManPage(unittest.TestCase):
    def test_options(self):
        """The help of a tool for XML says what each option does, and the page has the same options."""
        for tool in ("tables-from-xml", "stubs-from-xml"):
            said = run([f"{TOP}/tools/{tool}", "--help"], env={**os.environ, "COLUMNS": "200"})
            options = re.findall(r"(?m)^  (?:-h, )?(--[a-z-]+)(?: [A-Z]+)? {2,}\S", said)
            self.assertEqual(sorted(options), sorted({*re.findall(r"--[a-z-]+", said)}), tool)
            page = read(f"tools/{tool}.1.in").replace("\\-", "-")
            listed = re.findall(r"(?m)^\.TP\n(.*)", page[page.index(".SH OPTIONS") : page.index(".SH EXIT STATUS")])
            self.assertEqual(sorted(it for line in listed for it in re.findall(r"--[a-z-]+", line)), sorted(options))

    def test_other_tools(self):
        """Their pages have each option. `./test c` looks for errors in all pages."""
        for tool in ("tools/waywire-picture", "c/libwayland/waywire-run"):
            page = read(f"{tool}.1.in").replace("\\-", "-")
            for option in {*re.findall(r"--[a-z]+", run([f"{TOP}/{tool}", "--help"]))} - {"--help"}:
                self.assertIn(option, page, tool)

    def test_statuses(self):
        """The table of docs/FORMATS.md names each exit status, in order, and when it comes."""
        found = man_page.statuses()
        self.assertEqual(list(found), ["0", "1", "2", "3", "4"])
        self.assertEqual(found["4"], ["waywire: out of memory: memory ran out"])
