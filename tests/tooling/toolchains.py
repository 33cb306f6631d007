"""scripts/toolchain.py in generated clones, with stand-ins for the toolchain's command."""

import contextlib
import hashlib
import io
import os
import signal
import subprocess
import sys
import tempfile
import unittest
import unittest.mock

from scripts import toolchain, unproved
from tests import checks
from tests.checks import LONG, TOP

CRATES = """# library: what others stand on

low: std
middle: core low
waywire_c staticlib: core middle

# program: what is run

waywire: middle
"""
# The program that is proved, and the one that is compiled with checks.
PROVED, UNPROVED = "crates/waywire/out/waywire", "out/unproved/waywire"
PARTS = ("src/lib.rt", "specs/A.antt", "proofs/deep/B.antt", "args")
MADE = """#!/bin/sh
echo made
"""


def write(path, text="", mode=0o644):
    os.makedirs(os.path.dirname(path), exist_ok=True)
    if mode & 0o111:
        checks.write_program(path, text)
    else:
        with open(path, "w", encoding="utf-8") as file:
            file.write(text)
    os.chmod(path, mode)


def read(path):
    with open(path, encoding="utf-8") as file:
        return file.read()


class MadeUp(unittest.TestCase):
    """A room with a clone of four crates, whose sources are of second 1,000."""

    MODULES = ("__init__.py", "toolchain.py", "crates.py", "proved_archive.py", "unproved.py")

    def setUp(self):
        folder = tempfile.TemporaryDirectory()
        self.addCleanup(folder.cleanup)
        self.room = folder.name
        self.top = f"{self.room}/clone"
        write(f"{self.top}/crates.txt", CRATES)
        write(f"{self.top}/HANDLES", "none")
        for name in ("low", "middle", "waywire_c", "waywire"):
            for path in (*PARTS, "must-fail/a.edit"):
                write(f"{self.top}/crates/{name}/{path}", name)
        self.age(f"{self.top}/crates", 1000)
        self.clone = toolchain.Clone(self.top)

    @staticmethod
    def age(path, second):
        """Gives a file, or a folder with all below it, a time."""
        for at, folders, files in os.walk(path):
            for it in (*folders, *files):
                os.utime(f"{at}/{it}", (second, second))
        os.utime(path, (second, second))

    def file(self, name, second, mode=0o755):
        write(f"{self.room}/{name}", MADE, mode)
        self.age(f"{self.room}/{name}", second)
        return f"{self.room}/{name}"


class Ages(MadeUp):
    """What is older than its sources."""

    def test_programs(self):
        is_old = self.clone.is_old
        self.assertTrue(is_old(f"{self.room}/none", "waywire"))
        self.assertTrue(is_old(self.file("it", 2000, 0o644), "waywire"))
        self.assertFalse(is_old(self.file("it", 1000), "waywire"))
        self.assertTrue(is_old(self.file("it", 999), "waywire"))

    def test_which_sources_count(self):
        """A file or a folder of the crates below, in the parts that a proof reads."""
        made = self.file("it", 2000)
        for path, counts in (
            ("low/src/lib.rt", True),
            ("low/src", True),
            ("low/proofs/deep", True),
            ("middle/specs/A.antt", True),
            ("low/must-fail/a.edit", False),
            ("low/args", False),
            ("waywire_c/src/lib.rt", False),
        ):
            os.utime(f"{self.top}/crates/{path}", (3000, 3000))
            self.assertEqual(self.clone.is_old(made, "waywire"), counts, path)
            self.age(f"{self.top}/crates", 1000)

    def test_put(self):
        """It is as old as the beginning of its making, and can be run."""
        toolchain.put(self.file("made", 5, 0o600), f"{self.room}/it", self.file("began", 77))
        self.assertEqual(os.stat(f"{self.room}/it").st_mtime, 77)
        self.assertEqual(subprocess.check_output([f"{self.room}/it"]), b"made\n")


class Copies(MadeUp):
    def test_copy(self):
        write(f"{self.top}/crates/low/out/low")
        copy = f"{self.room}/copy"
        self.clone.copy(copy, ["low", "waywire_c"])
        found = {os.path.relpath(it, copy) for it in checks.files_below(copy)}
        wanted = {f"crates/{name}/{it}" for name in ("low", "waywire_c") for it in PARTS}
        self.assertEqual(found, wanted | {"crates.txt", "HANDLES", "began"})
        lines = "low: std\nwaywire_c staticlib: core middle\n"
        self.assertEqual(read(f"{copy}/crates.txt"), lines)


class Libraries(MadeUp):
    """The libraries below waywire_c that one run left."""

    def leave(self, top, compiler="a", over=None, second=2000):
        """A run that leaves both libraries. The upper one names the lower one."""
        low, middle = (f"{toolchain.rlib(top, it)}/format" for it in ("low", "middle"))
        write(low, f"rattle-build {compiler}\ncrate low\n")
        over = over or hashlib.sha256(read(low).encode()).hexdigest()
        write(middle, f"rattle-build {compiler}\ncrate middle\nover low {over}\nover std 1\nover\n")
        for it in (low, middle):
            self.age(os.path.dirname(it), second)

    def taken(self):
        """Where libraries were taken from, with what was then in the room."""
        taken = f"{self.room}/taken"
        place = self.clone.take_libraries(taken, f"{self.room}/kit")
        there = [it for it in ("low", "middle") if os.path.isdir(toolchain.rlib(taken, it))]
        self.assertEqual(there, ["low", "middle"] if place else [])
        return place

    def test_none(self):
        self.assertEqual(self.clone.libraries(), ["low", "middle"])
        self.assertIsNone(self.taken())

    def test_of_the_gate(self):
        self.leave(self.top)
        self.assertEqual(self.taken(), "crates/NAME/out/rlib")
        # The oldest counts.
        os.utime(toolchain.rlib(self.top, "low"), (999, 999))
        self.assertIsNone(self.taken())

    def test_not_of_the_gate(self):
        def another_command():
            write(f"{self.top}/crates/low/out/rlib/stamp")

        def one_lacks():
            os.rename(toolchain.rlib(self.top, "low"), f"{self.room}/away")

        def a_newer_proof():
            os.utime(f"{self.top}/crates/middle/proofs", (3000, 3000))

        for change in (another_command, one_lacks, a_newer_proof):
            self.leave(self.top)
            change()
            self.assertIsNone(self.taken(), change.__name__)
            self.setUp()

    def test_of_two_runs(self):
        self.leave(self.top, over="0" * 64)
        self.assertIsNone(self.taken())

    def test_of_another_compiler(self):
        self.leave(self.top)
        for compiler, place in (("b", None), ("a", "crates/NAME/out/rlib")):
            write(f"{self.room}/kit/rlibs/std.rlib/format", f"rattle-build {compiler}\n")
            self.assertEqual(self.taken(), place)

    def test_packed(self):
        """They are as old as the run's beginning, and taken if the gate's do not serve."""
        copy = f"{self.room}/copy"
        self.leave(copy)
        self.assertTrue(self.clone.pack_libraries(f"{self.room}/none"))
        self.assertFalse(os.path.exists(self.clone.packed))
        for began, place in ((1000, "out/libraries.tar"), (999, None)):
            self.file("copy/began", began)
            self.assertTrue(self.clone.pack_libraries(copy))
            self.assertEqual(self.taken(), place)
        self.leave(self.top)
        self.assertEqual(self.taken(), "crates/NAME/out/rlib")

    def test_packed_where_nothing_can_be_written(self):
        write(f"{self.top}/out")
        self.leave(f"{self.room}/copy")
        self.file("copy/began", 1)
        self.assertFalse(self.clone.pack_libraries(f"{self.room}/copy"))


class Words(MadeUp):
    """What the script `waywire` prints in addition to the program that it runs."""

    PROGRAM = """#!/bin/sh
    echo "$@"
    exit "$STATUS"
    """

    def ran(self, *words, status=0):
        """What a run says whose program, a stand-in, prints its words and has this status."""
        for name in (*(f"scripts/{it}" for it in self.MODULES), "waywire"):
            write(f"{self.top}/{name}", read(f"{TOP}/{name}"), 0o755)
        write(f"{self.top}/{self.name}", self.PROGRAM, 0o755)
        write(f"{self.top}/{UNPROVED}.sum", unproved.read(self.top).sum("waywire", "program"))
        env = {"PATH": "/usr/bin:/bin", "STATUS": str(status)}
        how = {"capture_output": True, "text": True, "env": env, "timeout": LONG, "cwd": self.room}
        ran = subprocess.run([f"{self.top}/waywire", *words], check=False, **how)
        self.assertEqual(ran.returncode, 99 if status == 132 else status)
        return ran.stdout, ran.stderr

    def test_help(self):
        """It has a line more than the program's own."""
        for self.name in (PROVED, UNPROVED):
            for words in (["--help"], ["-h"], ["help"]):
                output, error = self.ran(*words)
                more = f"{words[0]}\n\nThis script:\n  ./waywire --build  Prove"
                self.assertTrue(output.startswith(more), output)
                self.assertEqual(error, "")
            self.assertEqual(self.ran("help", "check"), ("help check\n", ""))
            self.assertEqual(self.ran("help", status=70), ("help\n", ""))
            os.unlink(f"{self.top}/{self.name}")

    def test_a_terminal(self):
        """There, and only there, it says that a run is not proved."""
        for self.name, wanted in ((PROVED, b""), (UNPROVED, b"waywire: this run is not proved (./waywire --build ")):
            self.ran("check")
            terminal, other = os.openpty()
            try:
                words = [f"{self.top}/waywire", "check"]
                env = {"PATH": "/usr/bin:/bin", "STATUS": "0"}
                subprocess.run(words, stdout=subprocess.DEVNULL, stderr=other, env=env, timeout=LONG, check=True)
                os.write(other, b"end\n")
                said = os.read(terminal, 1000)
            finally:
                os.close(terminal)
                os.close(other)
            self.assertTrue(said.startswith(wanted or b"end"), said)
            os.unlink(f"{self.top}/{self.name}")

    def test_status(self):
        """It is that of the program. If the program is not proved and a check fails, which ends it by an illegal
        instruction, the status is 99, and a message says so."""
        failed = "waywire: a check of the unproved program failed, or a signal ended it: status 99\n"
        for self.name, status, said in (
            (PROVED, 99, ""),
            (UNPROVED, 1, ""),
            (UNPROVED, 99, failed),
            (UNPROVED, 132, failed),
        ):
            self.assertEqual(self.ran("check", status=status), ("check\n", said))
            os.unlink(f"{self.top}/{self.name}")

    def test_tables_that_are_xml(self):
        """The script says so, before the program says which line is bad."""
        self.name = PROVED
        xml, text = f"{self.room}/a.xml", f"{self.room}/a.tables"
        write(xml, '<?xml version="1.0"?>\n')
        write(text, "interface a 1\n")
        said = f"waywire: {xml} is XML: tools/tables-from-xml makes a table text from it\n"
        for words, error in (
            (["--tables", xml, text], said),
            ([f"--tables={xml}"], said),
            (["--tables", text, "--tables", xml], said),
            (["--tables", text, f"--tables={self.room}/none", f"--tables={self.room}"], ""),
            (["--limit", xml, xml], ""),
            (["--tables"], ""),
        ):
            wanted = f"{' '.join(['check', *words])}\n", error
            self.assertEqual(self.ran("check", *words, status=2), wanted)


class Runs(MadeUp):
    """Runs of a stand-in for `rt`."""

    def ran(self, rt, *words):
        """The module run in the clone, with this `rt` before others."""
        for name in self.MODULES:
            write(f"{self.top}/scripts/{name}", read(f"{TOP}/scripts/{name}"))
        write(f"{self.room}/bin/rt", f"#!/bin/sh\n{rt}\n", 0o755)
        os.makedirs(f"{self.room}/tmp", exist_ok=True)
        path = f"{self.room}/bin:/usr/bin:/bin"
        env = {"PATH": path, "ROOM": self.room, "TMPDIR": f"{self.room}/tmp"}
        how = {"stdout": subprocess.PIPE, "stderr": subprocess.PIPE, "text": True, "env": env}
        command = [sys.executable, "-m", "scripts.toolchain", *words]
        return subprocess.Popen(command, cwd=self.top, **how)

    def said(self, rt, *words):
        """The status, the output and the error of such a run, which leaves no folder behind."""
        with self.ran(rt, *words) as process:
            output, error = process.communicate(timeout=LONG)
        self.assertEqual(os.listdir(f"{self.room}/tmp"), [])
        return process.returncode, output, error

    def test_words(self):
        for words in ([], ["build"], ["build", "none"], ["make", "low"]):
            status, output, error = self.said("exit 1", *words)
            self.assertEqual((status, output), (2, ""))
            self.assertIn("scripts.toolchain build CRATE", error)

    def test_proved(self):
        place = f"{self.top}/crates/waywire/out/waywire"
        self.assertEqual(self.said("exit 1", "proved", "waywire"), (1, "", ""))
        write(place, MADE, 0o755)
        self.assertEqual(self.said("exit 1", "proved", "waywire"), (0, f"{place}\n", ""))

    def test_without_a_toolchain(self):
        nowhere = unittest.mock.patch.dict(os.environ, {"PATH": "/nowhere"})
        with nowhere, contextlib.redirect_stderr(io.StringIO()) as error:
            self.assertFalse(toolchain.has_toolchain("waywire"))
            self.assertEqual(toolchain.main(["build", "waywire"]), toolchain.NOT_BUILT)
        said = "{}: the toolchain's command rt is not on this machine\n"
        self.assertEqual(error.getvalue(), "".join(map(said.format, ("waywire", "waywire"))))

    def test_a_signal(self):
        """What is being proved ends with a run, and its folder goes."""
        rt = 'echo $$ >>"$ROOM/pids"; exec sleep 1000'
        with self.ran(rt, "build", "waywire") as process:
            self.assertTrue(checks.has_come(lambda: os.path.exists(f"{self.room}/pids")))
            self.assertTrue(checks.has_come(lambda: read(f"{self.room}/pids").endswith("\n")))
            process.send_signal(signal.SIGTERM)
            process.communicate(timeout=LONG)
        self.assertEqual(process.returncode, 128 + signal.SIGTERM)
        self.assertEqual(os.listdir(f"{self.room}/tmp"), [])
        for pid in read(f"{self.room}/pids").split():
            self.assertFalse(os.path.exists(f"/proc/{pid}"))

    def test_archive(self):
        """The command that makes waywire_c has each library by its place."""
        run = toolchain.Build(self.clone, "waywire_c")
        words = run.archive("/a/it.a", "/below", "/kit", "/a/kept")
        given = {it for name, it in zip(words, words[1:]) if name == "--extern"}
        low, middle = (toolchain.rlib("/below", it) for it in ("low", "middle"))
        std, core = (f"/kit/rlibs/{it}.rlib" for it in ("std", "core"))
        self.assertEqual(given, {f"std={std}", f"core={core}", f"middle={middle}"})
        given = {it for name, it in zip(words, words[1:]) if name == "-L"}
        folders = ("/kit/rlibs", os.path.dirname(low), os.path.dirname(middle))
        self.assertEqual(given, {f"dependency={it}" for it in folders})
        self.assertEqual(words[-2:], ["-o", "/a/it.a"])
        self.assertEqual(words[words.index("--incremental") + 1], "/a/kept")
