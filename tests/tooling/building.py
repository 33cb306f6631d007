"""Programs compiled unproved: reports that are lent, and `waywire`; and the installation and the
waits of tests."""

import contextlib
import io
import os
import select
import shutil
import socket
import subprocess
import sys
import tempfile
import unittest
import unittest.mock
from concurrent.futures import ThreadPoolExecutor

from tests import checks, clipboards
from tests.checks import LONG, TOP, Failed, Skipped


def copy_sources(room):
    """Copies into a folder what the programs are made of, and nothing that was built."""
    os.mkdir(f"{room}/scripts")
    modules = (f"scripts/{it}.py" for it in ("__init__", "crates", "toolchain", "proved_archive", "unproved"))
    for name in ("crates", "crates.txt", "HANDLES", "waywire", *modules):
        whole = shutil.copytree if os.path.isdir(f"{TOP}/{name}") else shutil.copy
        hide = {"ignore": shutil.ignore_patterns("out")} if name == "crates" else {}
        whole(f"{TOP}/{name}", f"{room}/{name}", **hide)


class LentReports(unittest.TestCase):
    """Keeping a lent report beyond the end's next `next` does not compile, at either end. The program is
    compiled unproved, so this takes no proof."""

    PROGRAM = """#![tactic(auto)]

use wl::{Client, NextError, Server, SlotTable};

fn keep_event(client: &mut Client<'_, SlotTable>) -> Result<bool, NextError> {
    let first = client.next()?;
    let second = client.next()?;
    Ok(first.is_some() && second.is_some())
}

fn keep_request(server: &mut Server<'_, SlotTable>) -> Result<bool, NextError> {
    let first = server.next()?;
    let second = server.next()?;
    Ok(first.is_some() && second.is_some())
}

fn main(_rt: HostRuntime) {}
"""

    def errors(self, program):
        """What the compiler says against a program that stands on `wl`."""
        with tempfile.TemporaryDirectory() as room:
            copy_sources(room)
            with open(f"{room}/crates.txt", "a", encoding="utf-8") as file:
                file.write("keeper: wl\n")
            os.makedirs(f"{room}/crates/keeper/src")
            with open(f"{room}/crates/keeper/src/main.rt", "w", encoding="utf-8") as file:
                file.write(program)
            ran = subprocess.run(
                ["rt", "try"], capture_output=True, text=True, cwd=f"{room}/crates/keeper"
            )
        said = (ran.stdout + ran.stderr).splitlines()
        return [line.split(": note")[0] for line in said if "error" in line]

    def test_kept_over_next(self):
        twice = "error[borrow-e0499]: cannot borrow `*{}` as mutable more than once at a time"
        wanted = [f"src/main.rt:7:18: {twice}", f"src/main.rt:13:18: {twice}"]
        wanted = [line.format(end) for line, end in zip(wanted, ("client", "server"))]
        self.assertEqual(self.errors(self.PROGRAM), wanted)


class Script(unittest.TestCase):
    """The script `waywire` if nothing is built: the words are run unproved."""

    def ran(self, room, file, **kept):
        tables = f"--tables={TOP}/protocols/viewporter.tables"
        words = [f"{room}/waywire", "check", tables, file]
        return subprocess.run(words, capture_output=True, text=True, cwd=room, check=False, **kept)

    def test_first_and_second_run(self):
        with tempfile.TemporaryDirectory() as room:
            copy_sources(room)
            file = f"{room}/a session.rec"
            shutil.copy(f"{TOP}/tests/runs/viewporter.rec", file)
            with open(file, "a", encoding="ascii") as recording:
                recording.write("> 0900000000000800\n")
            wanted = "broken: > message 3 at byte 52: F2 unknown object\n"
            # The second run has what the first one compiled, and needs no toolchain.
            for kept in ({}, {"env": {"PATH": "/usr/bin:/bin"}}):
                ran = self.ran(room, os.path.basename(file), **kept)
                self.assertEqual((ran.stdout, ran.returncode), (wanted, 1), ran.stderr)
                # On a terminal it says that the run is not proved.
                self.assertEqual(ran.stderr, "")
            # A source that changed is compiled again.
            with open(f"{room}/crates/wl_wire/src/lib.rt", "a", encoding="utf-8") as source:
                source.write("\n")
            ran = self.ran(room, file, env={"PATH": "/usr/bin:/bin"})
            self.assertEqual((ran.stdout, ran.returncode), ("", 70))


class Sockets(unittest.TestCase):
    def test_what_a_server_has(self):
        """It listens, then a client waits, and then a client is connected."""
        with tempfile.TemporaryDirectory() as room, socket.socket(socket.AF_UNIX) as server:
            def found():
                tests = (checks.is_listening, checks.has_waiting_client, checks.has_client)
                return tuple(it(f"{room}/it") for it in tests)

            def comes(*wanted):
                self.assertTrue(checks.has_come(lambda: found() == wanted), found())

            server.bind(f"{room}/it")
            comes(False, False, False)
            server.listen()
            with socket.socket(socket.AF_UNIX) as client:
                client.connect(f"{room}/it")
                comes(True, True, False)
                with server.accept()[0]:
                    comes(True, False, True)
            comes(True, False, False)
            self.assertFalse(checks.has_come(lambda: False, 0))


class Runs(unittest.TestCase):
    """How a test runs a command."""

    def test_what_it_takes(self):
        env = {**os.environ, "TOLD": "one "}
        words = ["sh", "-c", 'printf "%s" "$TOLD"; pwd; cat; echo two >&2; exit 3']
        with tempfile.TemporaryDirectory() as room:
            said = checks.run(words, 3, with_error=True, cwd=room, env=env, input=b"three ")
            self.assertEqual(said, f"one {os.path.realpath(room)}\nthree two\n")
        self.assertEqual(checks.run(["pwd"]), f"{TOP}\n")

    def test_one_that_takes_too_long(self):
        """What it has started is killed too: it would keep a pipe open."""
        ours, its = os.pipe()
        with self.assertRaises(subprocess.TimeoutExpired):
            checks.run(["sh", "-c", f"sleep {LONG} & wait"], timeout=0.5, pass_fds=[its])
        os.close(its)
        self.assertTrue(select.select([ours], [], [], LONG / 2)[0])
        self.assertEqual(os.read(ours, 1), b"")
        os.close(ours)


class Compositors(unittest.TestCase):
    """What a test at an example compositor comes to, with a stand-in for the compositor."""

    # The signal is blocked, so that one which comes before the wait is not lost.
    PROGRAM = """import os, signal, socket, sys
how, path = sys.argv[1], sys.argv[-1]
signal.pthread_sigmask(signal.SIG_BLOCK, [signal.SIGTERM])
listening = socket.socket(socket.AF_UNIX)
listening.bind(path)
listening.listen()
kept = listening.accept()
if how != "early":
    signal.sigwait([signal.SIGTERM])
os.remove(path)
print(how, "compositor")
sys.exit(how == "bad")
"""

    def outcome(self, how, why):
        """How a test ends that raises `why`, if that is something."""
        try:
            with clipboards.compositor([sys.executable, "-c", self.PROGRAM, how, "--stay"]) as board:
                if how == "early":
                    board.process.wait(LONG)
                if why:
                    raise why
        except (Failed, Skipped) as error:
            return type(error), str(error)
        return None

    def test_at_one_that_is_well(self):
        self.assertIsNone(self.outcome("good", None))
        self.assertEqual(self.outcome("good", Skipped("no foot")), (Skipped, "no foot"))
        wanted = "no text\nstatus 0 of the compositor\ngood compositor\n"
        for why in (Failed, OSError):
            self.assertEqual(self.outcome("good", why("no text")), (Failed, wanted))

    def test_at_one_that_is_not(self):
        """A test that would be skipped fails."""
        status = "status 1 of the compositor\nbad compositor\n"
        self.assertEqual(self.outcome("bad", None), (Failed, status))
        self.assertEqual(self.outcome("bad", Skipped("no foot")), (Failed, f"no foot\n{status}"))
        wanted = "no foot\nstatus 0 of the compositor, it ended before its clients\nearly compositor\n"
        self.assertEqual(self.outcome("early", Skipped("no foot")), (Failed, wanted))


class CommandLines(unittest.TestCase):
    """How the programs of the repository read their words."""

    # What only `make` and `./waywire` run.
    OTHERS = {"scripts/deb-package", *(f"scripts/{it}.py" for it in (
        "crates", "man_page", "proved_archive", "toolchain", "unproved", "unproved_archive"))}

    def programs(self):
        """The commands that start each program: of a file that can be run, of a module, or of a part of the tests."""
        yield from ([f"{TOP}/test", it.removesuffix(".py")] for it in os.listdir(f"{TOP}/tests/parts") if it[0] != "_")
        for folder in ("bench", "scripts", "tests", "tools"):
            for path in (os.path.relpath(it, TOP) for it in checks.files_below(f"{TOP}/{folder}")):
                if path in self.OTHERS:
                    continue
                if os.access(f"{TOP}/{path}", os.X_OK):
                    yield [f"{TOP}/{path}"]
                elif path.endswith(".py") and "\nif __name__ ==" in checks.read(path):
                    yield [sys.executable, "-m", path.removesuffix(".py").replace("/", ".")]

    def test_help_and_wrong_options(self):
        """They print their help, or refuse the option, and write no file."""
        with tempfile.TemporaryDirectory() as room, ThreadPoolExecutor(os.cpu_count()) as pool:
            def outcome(words, word):
                how = {"env": {**os.environ, "PYTHONPATH": TOP}, "capture_output": True, "stdin": subprocess.DEVNULL}
                ran = subprocess.run([*words, word], cwd=room, timeout=LONG, check=False, **how)
                return ran.returncode, bool(ran.stdout), bool(ran.stderr)

            wanted = {"-h": (0, True, False), "--no-such-option": (2, False, True)}
            asked = [(words, word) for words in self.programs() for word in wanted]
            for (words, word), found in zip(asked, pool.map(outcome, *zip(*asked))):
                self.assertEqual(found, wanted[word], f"{words} {word}")
            self.assertEqual(os.listdir(room), [])

    def test_words(self):
        """Names of tests that do not exist, and words too many or too few, are refused."""
        for words, why in (
            ([sys.executable, "-m", "tests.inspector.names", "Nams"], "no tests have the name Nams"),
            (["./test", "c", "sesion"], "sesion is neither a test nor a file"),
            (["./test", "c", "Makefile", "LICENSE"], "LICENSE is a second program"),
            (["./test", "rust", "lints"], "lints is a word too many"),
            ([sys.executable, "-m", "bench.recording", "nothing"], "there is no kind nothing"),
            (["./test", "program"], "./test program PROGRAM [NAME..]"),
            ([sys.executable, "-m", "scripts.core_files", "--chekc"], "there is no option --chekc"),
        ):
            ran = subprocess.run(words, cwd=TOP, capture_output=True, text=True, timeout=LONG, check=False)
            self.assertEqual((ran.returncode, ran.stdout), (2, ""), words)
            self.assertIn(why, ran.stderr)

    def test_names_of_tests(self):
        """The tests with a word in their names; a stand-in has the names of those for which it stands."""
        def one_test():
            """A test."""

        def stand_in():
            """A test that is skipped in place of another."""
        stand_in.stands_for = [one_test]
        lists = [[one_test], [stand_in]]
        self.assertEqual(checks.chosen(lists, []), lists)
        self.assertEqual(checks.chosen(lists, ["one t"]), lists)
        self.assertEqual(checks.chosen(lists, ["stand"]), [[], [stand_in]])
        self.refused("no test has a name with 'two' in it", lambda: checks.chosen(lists, ["one", "two"]))

    def test_names_of_cases(self):
        """Classes of tests, and their tests."""
        module = sys.modules[__name__]
        for names, count in ((["CommandLines.test_words"], 1), (["CommandLines.test_words", "Script"], 2)):
            self.assertEqual(checks.suite_of(names, checks, module).countTestCases(), count)
        self.assertGreater(checks.suite_of([], checks, module).countTestCases(), 10)
        for it in ("NoTests", "CommandLines.test_nothing", "unittest", "copy_sources"):
            self.refused(f"no tests have the name {it}", lambda: checks.suite_of(["Script", it], checks, module))

    def refused(self, why, call):
        """A call ends the program with status 2, and says why."""
        with contextlib.redirect_stderr(io.StringIO()) as said, self.assertRaises(SystemExit) as ended:
            call()
        self.assertEqual(ended.exception.code, 2)
        self.assertIn(why, said.getvalue())


class Packages(unittest.TestCase):
    """`install-packages`, with stand-ins for apt-get and dpkg. Their state is a folder with a file for each
    completely installed package, and a folder with the source of wayland."""

    APT = """#!/bin/sh
echo "apt $*" >>"$ROOM/notes"
case "$* " in
*"$FAILS "*) exit 100 ;;
*download-only*) ;;
*" source wayland "*) mkdir wayland-1 && : >wayland-1/meson.build ;;
*" install "*) for it; do [ -e "$ROOM/whole/$it" ] || : >"$ROOM/whole/$it"; done ;;
esac
"""
    DPKG = """#!/bin/sh
echo "dpkg $*" >>"$ROOM/notes"
"""
    DPKG_QUERY = """#!/bin/sh
for it; do :; done
if [ -e "$ROOM/whole/$it" ]; then printf 'ii '; else printf 'iU '; fi
"""

    def installed(self, *words, fails="nothing", whole=()):
        """The status and the last line of an installation, and the commands that were run."""
        with tempfile.TemporaryDirectory() as room:
            for folder in ("bin", "whole"):
                os.mkdir(f"{room}/{folder}")
            texts = {"apt-get": self.APT, "dpkg": self.DPKG, "dpkg-query": self.DPKG_QUERY}
            for name, text in texts.items():
                checks.write_program(f"{room}/bin/{name}", text)
            for name in whole:
                open(f"{room}/whole/{name}", "w", encoding="utf-8").close()
            env = {"PATH": f"{room}/bin:/usr/bin:/bin", "ROOM": room, "FAILS": fails,
                   "WAYWIRE_SOURCES": f"{room}/sources"}
            command = [f"{TOP}/scripts/install-packages", *words]
            how = {"capture_output": True, "text": True, "timeout": LONG, "check": False}
            ran = subprocess.run(command, env=env, **how)
            with open(f"{room}/notes", encoding="utf-8") as file:
                return ran.returncode, ran.stdout.splitlines()[-1:], file.read().splitlines()

    def test_groups_in_order(self):
        """What was ended half way is mended first. Each group is fetched, and then unpacked."""
        status, last, notes = self.installed()
        self.assertEqual((status, last, notes[0]), (0, [], "dpkg --configure -a"))
        self.assertIn(" update", notes[1])
        self.assertEqual(sum(it.endswith(" update") for it in notes), 2)
        for fetched, unpacked in zip(notes[2:-2:2], notes[3:-2:2]):
            self.assertEqual(fetched.replace(" --download-only", ""), unpacked)
        self.assertIn(" install gcc g++ ", notes[3])
        # The source comes by lists of packages that are not the system's.
        for it, how in zip(notes[-2:], (" update", " source wayland")):
            self.assertRegex(it, rf" -o Dir::State::Lists=\S*/lists .*{how}$")

    def test_a_source_that_cannot_be_fetched(self):
        status, last, notes = self.installed(fails="source wayland")
        self.assertEqual((status, last), (1, ["not installed: wayland's source "]))

    def test_nothing_is_begun_too_late(self):
        status, last, notes = self.installed("0", whole=("gcc", "weston"))
        self.assertEqual((status, notes), (1, ["dpkg --configure -a"]))
        self.assertTrue(last[0].startswith("not installed: g++ binutils "), last)
        self.assertNotIn("weston", last[0])

    def test_a_group_that_fails(self):
        status, last, notes = self.installed(fails="zenity", whole=("foot",))
        self.assertEqual((status, last), (1, ["not installed: zenity wlr-randr "]))
        self.assertTrue(any(it.endswith(" install groff-base nodejs jq debootstrap") for it in notes), notes)

    def test_what_is_there(self):
        """A half-installed package counts as not installed; so does its program."""
        states = {"ii ": True, "hi ": True, "iU ": False, "iF ": False, "iHR": False}
        for state, is_there in states.items():
            said = {"-S": ["diversion by dash from: /bin/sh", "dash: /bin/sh"], "-W": [state]}
            checks.is_whole.cache_clear()
            asked = unittest.mock.patch.object(checks, "asked_of_dpkg", lambda way, *_: said[way])
            with asked:
                found = checks.is_installed.__wrapped__("sh"), checks.is_whole("dash")
            self.assertEqual(found, (is_there, is_there), state)
        checks.is_whole.cache_clear()
        self.assertFalse(checks.is_installed("no-such-command"))
