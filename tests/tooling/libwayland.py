"""What c/libwayland has beside its proxies and displays: the types and the interfaces that programs are compiled
against, lists and arrays, and `waywire-run`. None of it needs the library that `make` builds.
"""

import ctypes.util
import os
import re
import shutil
import subprocess
import sys
import tempfile
import unittest
import unittest.mock

from scripts import interfaces_from_xml
from tests import checks
from tests.checks import LONG, TOP, Failed, Skipped, need, read, run
from tests.libwayland import pasting, programs
from tools.waywire import protocol, table_text

OURS = f"{TOP}/c/libwayland"
TESTS = f"{TOP}/tests/libwayland"
SONAME = "libwayland-client.so.0"
INCLUDES = [f"-I{OURS}/common", f"-I{OURS}/client"]
WARNINGS = ["-std=c99", "-Wall", "-Wextra", "-Wpedantic", "-Werror"]


def need_headers():
    """Skips the test if programs cannot be compiled against libwayland."""
    need("cc")
    if subprocess.run(["cc", "-E", "-"], input=b"#include <wayland-client-core.h>", capture_output=True).returncode:
        raise Skipped("libwayland-dev is not installed")


def compiled(room, name, *words):
    """Compiles a program of tests/libwayland into a folder, and returns its path."""
    path = os.path.join(room, name)
    run(["cc", *WARNINGS, f"{TESTS}/{name.partition('-')[0]}.c", *words, "-o", path])
    return path


def part_of_library(room):
    """Makes a library of what needs nothing but C, in a folder of its own, and returns the folder."""
    need("cc")
    folder = os.path.join(room, "library")
    os.mkdir(folder)
    data = os.path.join(room, "interfaces.c")
    with open(data, "w", encoding="utf-8") as file:
        file.write(interfaces_from_xml.text_of([f"{TOP}/protocols/core/{it}.xml" for it in XML]))
    run(["cc", *WARNINGS, "-shared", "-fPIC", "-fvisibility=hidden", *INCLUDES, data, f"{OURS}/common/util.c",
         f"-Wl,-soname,{SONAME}", "-o", os.path.join(folder, SONAME)])
    return folder


XML = ("core", "data-device")


class Types(unittest.TestCase):
    """wayland-abi.h and wayland-client-abi.h beside the headers of libwayland."""

    def test_layout(self):
        need_headers()
        said = []
        with tempfile.TemporaryDirectory() as room:
            for name, header in (("layout-ours", '"wayland-client-abi.h"'), ("layout-theirs", "<wayland-client-core.h>")):
                said.append(run([compiled(room, name, f"-DHEADER={header}", *INCLUDES)]))
        self.assertEqual(*said)
        self.assertGreater(said[0].count("\n"), 30)

    def declared_in_both(self, header, *paths):
        """A compiler accepts our declarations and those of libwayland in one file, and refuses others."""
        ours = re.sub(r"(?s)/\*.*?\*/", "", "".join(map(read, paths)))
        functions = re.findall(r"(?m)^(?!typedef)[a-z][\w* ]*?\bwl_\w+\([^{};]*\)(?=;|\n\t__attribute__)", ours)
        self.assertGreater(len(functions), 60)
        types = "struct timespec;\ntypedef void (*wl_user_data_destroy_func_t)(void *);\n"
        text = f"#define WL_HIDE_DEPRECATED\n#include <{header}>\n" + types + "".join(f"{it};\n" for it in functions)
        words = ["cc", *WARNINGS, "-fsyntax-only", "-x", "c", "-"]
        run(words, input=text.encode())
        self.assertRaises(Failed, run, words, input=text.replace("uint32_t opcode", "uint64_t opcode").encode())

    def test_functions(self):
        """A compiler accepts both declarations in one file."""
        ours = "common/wayland-abi.h", "client/wayland-client-abi.h"
        self.accepts("wayland-client-core.h", "struct timespec;", ours, "uint32_t opcode", 60)

    def test_functions_of_server(self):
        """As above; also the structs that compositors keep themselves, and the values of the enums."""
        later = "typedef void (*wl_user_data_destroy_func_t)(void *data);"
        self.accepts("wayland-server-core.h", later, ("server/wayland-server-abi.h",), "uint32_t opcode", 90)
        need_headers()
        with tempfile.TemporaryDirectory() as room:
            said = [run([compiled(room, name, f"-DSERVER_HEADER={header}", *INCLUDES, f"-I{OURS}/server")])
                    for name, header in (("server_layout-ours", '"wayland-server-abi.h"'),
                                         ("server_layout-theirs", "<wayland-server-core.h>"))]
        self.assertEqual(*said)
        self.assertGreater(said[0].count("\n"), 11)

    def accepts(self, header, before, ours, part, least):
        """A compiler accepts the functions of our headers behind the system's, unless a part of one is changed."""
        need_headers()
        both = re.sub(r"(?s)/\*.*?\*/", "", "".join(read(f"c/libwayland/{it}") for it in ours))
        functions = re.findall(r"(?m)^(?!typedef)[a-z][\w* ]*?\bwl_\w+\([^{};]*\);", both)
        self.assertGreater(len(functions), least)
        text = f"#include <{header}>\n{before}\n" + "\n".join(functions)
        words = ["cc", *WARNINGS, "-fsyntax-only", "-x", "c", "-"]
        run(words, input=text.encode())
        self.assertIn(part, text)
        self.assertRaises(Failed, run, words, input=text.replace(part, part.replace("32", "64")).encode())


class Interfaces(unittest.TestCase):
    """What scripts/interfaces_from_xml.py makes."""

    def test_as_the_systems(self):
        """Each interface of libwayland is there, with its messages in front."""
        system = ctypes.util.find_library("wayland-client")
        if not system:
            raise Skipped("libwayland-client0 is not installed")
        with tempfile.TemporaryDirectory() as room:
            ours = os.path.join(part_of_library(room), SONAME)
            run([sys.executable, "-m", "tests.libwayland.interfaces", ours, system])

    def test_data_device(self):
        """Its messages are those of the table text, which has newer ones behind them, and of libwayland's own file."""
        path = f"{TOP}/protocols/core/data-device.xml"
        made = table_text.parse_tables(run([f"{TOP}/tools/tables-from-xml", path]).encode())
        stored = {it.name: it for it in table_text.parse_tables(read("protocols/data-device.tables").encode())}
        self.assertEqual(sorted(it.name for it in made), sorted(stored))
        for its in made:
            for older, newer in ((its.request, stored[its.name].request), (its.event, stored[its.name].event)):
                self.assertEqual([str(it) for it in older], [str(it) for it in newer[:len(older)]], its.name)
        system = "/usr/share/wayland/wayland.xml"
        if not os.path.exists(system):
            raise Skipped("libwayland-dev is not installed")
        theirs = {it.name: it for it in protocol.read(system).interfaces}
        for interface in protocol.read(path).interfaces:
            both = interface, theirs[interface.name]
            self.assertEqual(*([self.facts(side, it) for side, it in one.messages()] for one in both))

    def facts(self, side, message):
        args = [(it.name, it.type, it.interface, it.null) for it in message.args]
        return side, message.name, message.destroys, message.since, args

    def text_of(self, *interfaces):
        with tempfile.TemporaryDirectory() as room:
            path = os.path.join(room, "it.xml")
            with open(path, "w", encoding="utf-8") as file:
                file.write(f"<protocol name='it'>{''.join(interfaces)}</protocol>")
            return interfaces_from_xml.text_of([path])

    def test_signatures(self):
        args = "".join(f"<arg name='x' type='{it}'/>" for it in ("int", "uint", "fixed", "array", "fd", "new_id"))
        args += "<arg name='x' type='string' allow-null='true'/><arg name='x' type='object' interface='a'/>"
        text = self.text_of(f"<interface name='a' version='3'><event name='e' since='2'>{args}</event></interface>")
        self.assertIn('{ "e", "2iufahsun?so", a_event_e_types }', text)
        types = re.search(r"(?s)a_event_e_types\[\] = \{(.*?)\}", text)[1].split()
        self.assertEqual(types, ["NULL,"] * 9 + ["&a_interface,"])
        self.assertIn('"a", 3,\n\t0, NULL,\n\t1, a_events,\n', text)

    def test_refused(self):
        message = "<interface name='a' version='1'><event name='{}'>{}</event></interface>"
        a_new = "<arg name='x' type='new_id'/>"
        for wanted, *interfaces in (
            ("is there twice", message.format("e", ""), message.format("e", "")),
            ("the name of event is 'a-b'", message.format("a-b", "")),
            ("names b, which is in no file", message.format("e", "<arg name='x' type='object' interface='b'/>")),
            ("more than 20", message.format("e", a_new * 7)),
        ):
            with self.assertRaisesRegex(protocol.BadProtocol, wanted):
                self.text_of(*interfaces)
        self.text_of(message.format("e", a_new * 6 + "<arg name='x' type='int'/>" * 2))


class Lists(unittest.TestCase):
    """wl_list and wl_array, beside those of the system's library."""

    def test_lists_and_arrays(self):
        need_headers()
        with tempfile.TemporaryDirectory() as room:
            tried = compiled(room, "lists", "-lwayland-client")
            env = {**os.environ, "LD_LIBRARY_PATH": part_of_library(room)}
            self.assertEqual(run([tried], env=env), run([tried]))
            run([tried, "overflow"], env=env)


class Programs(unittest.TestCase):
    """When runs of a program over two libraries count as different."""

    def differ(self, theirs, ours):
        return programs.always_differ(*([programs.Ran(True, how, 0, frozenset(kinds)) for how, kinds in runs]
                                        for runs in (theirs, ours)))

    def test_what_only_some_runs_have(self):
        """Runs of one library may differ from each other."""
        closed, stopped = "by its window", "by SIGTERM"
        self.assertFalse(self.differ([(closed, "ab"), (closed, "abc")], [(closed, "abd"), (closed, "ab")]))
        self.assertFalse(self.differ([(closed, "a"), (stopped, "ab")], [(closed, "ab"), (closed, "ab")]))

    def test_what_one_library_alone_has(self):
        closed, stopped = "by its window", "by SIGTERM"
        for ours in ([(closed, "a"), (closed, "a")], [(closed, "abd"), (closed, "abcd")],
                     [(stopped, "ab"), (stopped, "abc")]):
            self.assertTrue(self.differ([(closed, "ab"), (closed, "abc")], ours))


class Pasting(unittest.TestCase):
    """The programs that copy and paste, with stand-ins for them."""

    def test_one_that_does_not_start(self):
        """It is not started again, and each of its tests ends as the first one."""
        for ends in (Failed, Skipped):
            with self.subTest(ends):
                start = unittest.mock.Mock(side_effect=ends("no window"))
                with unittest.mock.patch.dict(pasting.CLASSES, {"foot": start}):
                    kept = pasting.Programs(lambda: None, None)
                    for _ in range(2):
                        with self.assertRaisesRegex(ends, "no window"):
                            kept("foot")
                    kept.end()
                self.assertEqual(start.call_count, 1)

    def test_one_without_a_window(self):
        """It is ended."""
        started = subprocess.Popen(["sleep", str(LONG)], start_new_session=True)
        self.addCleanup(started.wait)
        self.addCleanup(started.kill)
        with (
            tempfile.TemporaryDirectory() as room,
            unittest.mock.patch.object(pasting, "has_come", lambda _: False),
            unittest.mock.patch.object(pasting.Program, "words"),
            self.assertRaisesRegex(Failed, "no window"),
        ):
            desktop = unittest.mock.Mock(room=room)
            desktop.start.return_value = started
            pasting.Program(desktop, unittest.mock.Mock(), "gtk3")
        self.assertIsNotNone(started.returncode)


class Run(unittest.TestCase):
    """`waywire-run`, in a tree with stand-ins for what is built."""

    TOLD = 'printf "%s\\n" "$LD_LIBRARY_PATH" "$@"'

    def setUp(self):
        room = tempfile.TemporaryDirectory()
        self.addCleanup(room.cleanup)
        self.top = os.path.join(os.path.realpath(room.name), "a tree")
        self.client, self.server = folders = [f"{self.top}/out/c/wayland/{it}" for it in ("client", "server")]
        self.both = ":".join(folders)
        for folder in (*folders, f"{self.top}/c/libwayland"):
            os.makedirs(folder)
        self.tool = checks.copy_program(f"{OURS}/waywire-run", f"{self.top}/c/libwayland")
        for folder in folders:
            open(f"{folder}/libwayland-{os.path.basename(folder)}.so.0", "w", encoding="utf-8").close()
        self.inspector = f"{self.top}/out/c/waywire-inspect"
        checks.write_program(self.inspector, f"#!/bin/sh\necho inspected\n{self.TOLD}\nexit 3\n")

    def ran(self, *words, path=None):
        """What a run prints, its status, and the number of lines on standard error."""
        env = {it: said for it, said in os.environ.items() if it != "LD_LIBRARY_PATH"}
        if path is not None:
            env["LD_LIBRARY_PATH"] = path
        done = subprocess.run([self.tool, *words], env=env, capture_output=True, text=True, timeout=LONG, check=False)
        return done.stdout.splitlines(), done.returncode, len(done.stderr.splitlines())

    def test_command(self):
        """It gets its words as they are, and the folders in front of others; its status is that of the run."""
        command = ["sh", "-c", self.TOLD + "; exit 7", "sh", "a  word", "", "--inspect", "*"]
        for before, after in ((None, ""), ("", ""), ("/one:/two", ":/one:/two")):
            wanted = [self.both + after, *command[4:]], 7, 0
            self.assertEqual(self.ran(*command, path=before), wanted)
            self.assertEqual(self.ran("--", *command, path=before), wanted)

    def test_one_side(self):
        for side, folder, other in (("--client", self.client, self.server), ("--server", self.server, self.client)):
            os.rename(other, f"{other}.away")
            for words in ((side,), (side, "--")):
                self.assertEqual(self.ran(*words, "sh", "-c", self.TOLD), ([folder], 0, 0))
            self.assertEqual(self.ran(side, "--inspect", "a"), (["inspected", folder, "a"], 3, 0))
            self.assertEqual(self.ran("true"), ([], 125, 1))
            os.rename(f"{other}.away", other)

    def test_a_file_with_privileges(self):
        """The dynamic linker ignores the folders, which the tool says; the file is run all the same."""
        program = f"{self.top}/program"
        for name, mode, said in (("sh", 0o4755, 1), ("sh", 0o2755, 1), ("sh", 0o755, 0)):
            checks.copy_program(shutil.which(name), program)
            os.chmod(program, mode)
            self.assertEqual(self.ran(program, "-c", "exit 7")[1:], (7, said), oct(mode))
        folder = os.path.join(os.path.dirname(self.top), "commands")
        os.mkdir(folder)
        checks.write_program(f"{folder}/getcap", '#!/bin/sh\necho "$2 cap_sys_nice=ep"\n')
        with unittest.mock.patch.dict(os.environ, {"PATH": f"{folder}:{os.environ['PATH']}"}):
            self.assertEqual(self.ran(program, "-c", "exit 7")[1:], (7, 1))

    def test_inspect(self):
        words = ["--time", "--only", "wl_surface", "a command", "--help"]
        self.assertEqual(self.ran("--inspect", *words), (["inspected", self.both, *words], 3, 0))

    def test_by_a_link(self):
        link = f"{self.top}/link"
        os.symlink(self.tool, link)
        self.tool = link
        self.assertEqual(self.ran("sh", "-c", self.TOLD), ([self.both], 0, 0))

    def test_refused(self):
        """Without a command, with an unknown option; without the inspector, and without a library."""
        for words in ([], ["--"], ["--server"], ["--inspect"], ["--inspec", "true"], ["--client", "-x"]):
            self.assertEqual(self.ran(*words), ([], 125, 1), words)
        self.assertEqual(self.ran("no-such-command")[:2], ([], 127))
        self.assertEqual(self.ran(f"{self.client}/{SONAME}")[:2], ([], 126))
        os.remove(self.inspector)
        self.assertEqual(self.ran("--inspect", "true"), ([], 125, 1))
        os.remove(f"{self.client}/{SONAME}")
        self.assertEqual(self.ran("true"), ([], 125, 1))

    def test_a_folder_that_no_list_can_have(self):
        """For the dynamic linker a colon or a semicolon ends the name of a folder, and `$` begins a variable."""
        for mark in ":;$":
            folder = os.path.join(os.path.dirname(self.top), f"a{mark}tree")
            os.rename(self.top, folder)
            self.top, self.tool = folder, f"{folder}/c/libwayland/waywire-run"
            self.assertEqual(self.ran("true"), ([], 125, 1), mark)

    def test_version(self):
        """In the tree it is read of the program's source; `make` writes it into its copy."""
        numbered = re.search('VERSION: &str = "(.*)"', read("crates/program_arguments/src/job.rt"))[1]
        need("make")
        self.assertTrue(checks.make("out/c/waywire-run"))
        for path in (f"{OURS}/waywire-run", f"{TOP}/out/c/waywire-run"):
            self.assertEqual(run([path, "--version"]), f"waywire-run {numbered}\n")
