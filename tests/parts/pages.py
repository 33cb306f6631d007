"""Tests what the pages show: each command of README.md, in the order of the page, and the programs of docs/GUIDE.md,
examples/c/loop.c and examples/loop.rattle.

    ./test pages [AtOnce | OverTheLibrary][.TEST]

Each command is run at the top of the repository, and must print what the page shows after it. On the page, a line `..`
stands for any lines, and in a line that begins with a time each number stands for any other. OverTheLibrary has the
commands of the section that begins with `make`, and the programs in C and Rust. They are run at the compositor of
examples/c; if the library for C is not built, they are skipped. The last line is 'N passed, M failed'."""

import contextlib
import os
import re
import subprocess
import sys
import tempfile
import unittest

from scripts import protocol_files, usage
from tests import checks, clipboards
from tests.checks import LONG, TOP, Skipped, is_installed, need, read, run

ARCHIVE = "crates/waywire_c/out/libwaywire_c.a"
# The commands that are not run here: those that run this program, and those that build the library.
NOT_RUN = ("./test", "make UNPROVED=1")
# The section whose commands need the library for C, and a compositor, and what these commands write into out/.
AT_A_COMPOSITOR = "## Debug a program"
MADE = ("session.rec", "session.rec.tables", "session.html")
UNPROVED = "waywire: this run is not proved (./waywire --build proves and builds the program)"
TIME = re.compile(r"^ +\d+\.\d{6} ")
# The two compilers, with strict warnings. C++ does not warn about members that are left out.
STRICT = (["cc", "-std=c99", "-x", "c"],
          ["c++", "-std=c++20", "-x", "c++", "-Wno-missing-field-initializers"])


def need_library():
    """Skips the test if the library for C is not built, or if `make` would prove it again."""
    need("cc", "make")
    made = subprocess.run(["make", "-q", ARCHIVE], cwd=TOP, capture_output=True, check=False)
    if made.returncode or not os.path.exists(f"{TOP}/out/c/libwaywire.a"):
        raise Skipped("the library for C is not built: make")
    checks.make("include/waywire-core.h", "rust/waywire/src/wayland.rs", "rust/waywire/src/data_device.rs",
                "rust/waywire-sys/lib/libwaywire.a")


@contextlib.contextmanager
def compositor():
    """The environment of clients of the example compositor in C, which has a keyboard and a clipboard."""
    need_library()
    checks.need_protocols()
    with tempfile.TemporaryDirectory() as room:
        run(["make", "-s", "-C", "examples/c", f"OUT={room}", f"library={TOP}/out/c/libwaywire.a", f"{room}/server"])
        with clipboards.compositor([f"{room}/server", "--stay"]) as board:
            yield board


@contextlib.contextmanager
def put_aside(folder, names):
    """Files of a folder are elsewhere for a while. What is written in their place is removed."""
    paths = [f"{folder}/{it}" for it in names]
    with tempfile.TemporaryDirectory(dir=folder) as room:
        kept = {it: f"{room}/{os.path.basename(it)}" for it in paths if os.path.exists(it)}
        for path, elsewhere in kept.items():
            os.rename(path, elsewhere)
        try:
            yield
        finally:
            for it in filter(os.path.exists, paths):
                os.remove(it)
            for path, elsewhere in kept.items():
                os.rename(elsewhere, path)


def blocks(text, language=""):
    """The fenced blocks of a text in this language."""
    found = re.findall(r"(?ms)^```([a-z]*)\n(.*?)^```$", text)
    return [block for named, block in found if named == language]


def section(page, heading):
    """The text of a page below a heading, up to the next heading of the same or a higher rank."""
    text = read(page)
    rank = heading.partition(" ")[0]
    below = text[text.index(f"\n{heading}\n") + 1 :].split("\n", 1)[1]
    return re.split(rf"(?m)^#{{1,{len(rank)}}} ", re.sub(r"(?ms)^```.*?^```$", kept_fence, below))[0].replace("\0", "#")


def kept_fence(match):
    """A fenced block, in which no line begins as a heading does."""
    return re.sub("(?m)^#", "\0", match[0])


def commands(text):
    """The commands in the blocks of a text, each with the lines that are shown after it."""
    found = []
    for block in blocks(text):
        for line in block.splitlines():
            if line.startswith("$ "):
                found.append((line[2:], []))
            elif found:
                found[-1][1].append(line)
    return found


def plain(line):
    """A line. If it begins with a time, its numbers, which depend on the compositor, are left out."""
    return re.sub(r"[0-9]+", "0", line.lstrip()) if TIME.match(line) else line


def is_shown(shown, said):
    """Whether a page shows this output: `..` stands for any lines."""
    parts = [[plain(it) for it in part] for part in split(shown)]
    said = [plain(it) for it in said]
    if said[: len(parts[0])] != parts[0]:
        return False
    at = len(parts[0])
    for part in parts[1:-1]:
        at = next((it for it in range(at, len(said)) if said[it : it + len(part)] == part), None)
        if at is None:
            return False
        at += len(part)
    if len(parts) == 1:
        return at == len(said)
    return len(said) - at >= len(parts[-1]) and said[len(said) - len(parts[-1]) :] == parts[-1]


def split(lines):
    """Splits lines into lists, at each line `..`."""
    parts = [[]]
    for line in lines:
        if line == "..":
            parts.append([])
        else:
            parts[-1].append(line)
    return parts


class OfPages(unittest.TestCase):
    """The base of both kinds of tests."""

    def said(self, command, env):
        """The output of a command, and its status. A process that the command leaves behind may go on writing, so the
        output goes to a file."""
        with tempfile.TemporaryFile() as file:
            ran = subprocess.run(["bash", "-c", command], cwd=TOP, env=env, stdin=subprocess.DEVNULL, stdout=file,
                                 stderr=subprocess.STDOUT, timeout=4 * LONG, check=False)
            file.seek(0)
            return file.read().decode(errors="replace").splitlines(), ran.returncode

    def try_all(self, text, env):
        """Runs the commands of a part of README.md."""
        tried = [it for it in commands(text) if it[0] not in NOT_RUN]
        self.assertTrue(tried)
        for command, shown in tried:
            said, status = self.said(command, env)
            said, shown = ([it for it in lines if it != UNPROVED] for lines in (said, shown))
            # The page also shows a broken session.
            wanted = int(any(it.startswith("broken: ") for it in shown))
            with self.subTest(command):
                self.assertEqual(status, wanted, "\n".join(said[-20:]))
                self.assertTrue(not shown or is_shown(shown, said), "\n".join(said[-20:]))

    def parts(self):
        """README.md before the section that needs the library, that section, and what follows."""
        before, rest = read("README.md").split(f"\n{AT_A_COMPOSITOR}\n")
        return before, *re.split(r"\n(?=## )", rest, maxsplit=1)


class AtOnce(OfPages):
    """Commands and programs that run without a proof."""

    @unittest.skipUnless(is_installed("rt"), "the toolchain is not installed")
    def test_commands(self):
        before, _, after = self.parts()
        self.try_all(before + after, {**os.environ})

    def test_c_compiles(self):
        need("cc", "c++", "make")
        self.assertTrue(checks.make("include/waywire-core.h", "include/waywire-version.h"))
        for words in STRICT:
            for program in (read("examples/c/loop.c"), *blocks(read("README.md"), "c")):
                # Callbacks do not use all that they get.
                run([*words, "-Wall", "-Wextra", "-Werror", "-Wno-unused-parameter", "-fsyntax-only", "-I", "include",
                     "-"], input=program.encode())

    @unittest.skipUnless(is_installed("rt"), "the toolchain is not installed")
    def test_rattle(self):
        """The guide's program over a compositor in the same process, with a copy of the crates below it."""
        program = f"#![tactic(auto)]\n\n{read('examples/loop.rattle')}{read('tests/guide_compositor.rattle')}"
        said = checks.tried("guide", "wl anyhow", {"main": program})
        # The memory that was sent, and the keymap that was received.
        self.assertEqual(said.splitlines()[:2], ["closed 3", "closed 7"], said)


class OverTheLibrary(OfPages):
    """Commands and programs that need the library for C."""

    def test_commands(self):
        need("wl-copy", "wl-paste")
        if "data-control" not in protocol_files.found():
            raise Skipped("wlr-data-control is not installed")
        with compositor() as board, put_aside(f"{TOP}/out", MADE):
            self.try_all(self.parts()[1], board.env)

    def test_c(self):
        """The commands of the page, in a folder with the library at the same place as in the repository."""
        with compositor() as board, tempfile.TemporaryDirectory() as room:
            for name in ("examples", "include", "out"):
                os.symlink(f"{TOP}/{name}", f"{room}/{name}")
            (build, _), (client, shown) = commands(section("docs/GUIDE.md", "### The loop in C"))
            run(build.split(), cwd=room)
            checked = checks.VALGRIND if is_installed("valgrind") else []
            self.assertEqual(run([*checked, client], cwd=room, env=board.env).splitlines(), shown)

    def test_rust(self):
        """A package of its own, with the lines of rust/waywire/README.md, which links the archive that `make` built."""
        need("cargo")
        [manifest] = blocks(read("rust/waywire/README.md"), "toml")
        manifest = manifest.replace("../waywire/rust/waywire", f"{TOP}/rust/waywire")
        with compositor() as board, tempfile.TemporaryDirectory() as room:
            os.mkdir(f"{room}/src")
            with open(f"{room}/Cargo.toml", "w", encoding="utf-8") as file:
                file.write(f'[package]\nname = "client"\nversion = "0.0.0"\nedition = "2021"\n\n{manifest}')
            env = {**os.environ, **{it: board.env[it] for it in ("XDG_RUNTIME_DIR", "WAYLAND_DISPLAY")},
                   "CARGO_NET_OFFLINE": "true", "CARGO_TARGET_DIR": f"{TOP}/out/pages", "RUSTFLAGS": "-D warnings"}
            [readme], [guide] = (blocks(read(it), "rust") for it in ("README.md", "docs/GUIDE.md"))
            for program, shown in ((guide, "a keymap of 0 bytes\n"), (readme, "wl_compositor, version ")):
                with open(f"{room}/src/main.rs", "w", encoding="utf-8") as file:
                    file.write(program)
                self.assertIn(shown, run(["cargo", "run", "--quiet"], cwd=room, env=env))


def main():
    names = usage.words(__doc__) or ["AtOnce", "OverTheLibrary"]
    return checks.count_cases(checks.suite_of(names, sys.modules[__name__]))
