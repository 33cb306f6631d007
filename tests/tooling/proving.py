"""`waywire --build`, `make` and the gate before it, with stand-ins for toolchains of both kinds."""

import contextlib
import os
import shutil
import subprocess
import tempfile
import unittest

from scripts import crates
from tests.checks import LONG, TOP, need, write_program
from tests.tooling.building import copy_sources

ARCHIVE = "crates/waywire_c/out/libwaywire_c.a"
PROGRAM = "crates/waywire/out/waywire"
# It keeps a file in the folder that follows --incremental, and leaves an archive of one line.
RATTLE = """#!/usr/bin/env bash
echo "$3" >>"$ROOM/notes"
for it; do
    [ "$before" != --incremental ] || { mkdir -p "$it" && : >"$it/kept"; }
    before=$it
done
[ "$3" != "$FAILS" ] && date +%N >"${!#}"
"""


class Rooms(unittest.TestCase):
    """What the tests of a stand-in for `rt` share. That notes each crate that it proves."""

    RT = ""

    def setUp(self):
        need("make")

    @contextlib.contextmanager
    def room(self):
        with tempfile.TemporaryDirectory() as room:
            copy_sources(room)
            for name in ("Makefile", *(f"scripts/{it}.py" for it in ("timed_gate", "machine", "usage"))):
                shutil.copy(f"{TOP}/{name}", f"{room}/{name}")
            files = ("bin/rt", self.RT), ("kit/bin/rattle", RATTLE), ("kit/c/liblibc_c.a", "memory")
            for name, text in files:
                os.makedirs(os.path.dirname(f"{room}/{name}"))
                write_program(f"{room}/{name}", text)
            for name in ("kept", ".git"):
                os.mkdir(f"{room}/{name}")
            yield room

    def built(self, room, *words, **more):
        """What a build says, and the crates that were proved, in order."""
        open(f"{room}/notes", "w", encoding="utf-8").close()
        env = {"PATH": f"{room}/bin:/usr/bin:/bin", "ROOM": room, "FAILS": "", "CI": "", **more}
        how = {"capture_output": True, "text": True, "cwd": room, "timeout": LONG, "check": False}
        ran = subprocess.run(words, env=env, **how)
        with open(f"{room}/notes", encoding="utf-8") as file:
            return ran, file.read().split()

    def proves(self, room, *words, **more):
        """The crates that were proved by a build that ends well, and what it says."""
        ran, proved = self.built(room, *words, **more)
        self.assertEqual(ran.returncode, 0, ran.stderr)
        return proved, ran.stderr

    def made(self, room, places=(), **more):
        """What `make` proved of the library, with proved archives in these places alone."""
        return self.proves(room, "make", "-s", ARCHIVE, f"proved_places={' '.join(places)}", **more)

    def how(self, room):
        """How the archive was made."""
        with open(f"{room}/crates/waywire_c/out/libwaywire_c.sums", encoding="utf-8") as file:
            return file.readline().strip()

    def changes(self, room, path):
        """A file changes."""
        with open(f"{room}/{path}", "a", encoding="utf-8") as file:
            file.write("\n")

    def is_lowest_first(self, proved, last):
        """Each crate that the last one needs was proved once, after the crates that it uses."""
        there = crates.read()
        for place, crate in enumerate(proved):
            below = [it for it in there[crate].uses if it in there]
            self.assertLessEqual(set(below), set(proved[:place]), crate)
        self.assertEqual(sorted(proved), sorted({last, *crates.below(there)[last]}))
        self.assertEqual(proved[-1], last)

    def builds_a_program(self, room):
        """A build proves each crate, prints a line for it, and leaves the program."""
        proved, said = self.proves(room, "./waywire", "--build")
        self.is_lowest_first(proved, "waywire")
        for crate in proved:
            self.assertIn(f"waywire: {crate} is proved (", said)
        ran = subprocess.run([f"{room}/waywire"], capture_output=True, text=True, check=False)
        self.assertEqual(ran.stdout, "built\n")

    def builds_a_library(self, room):
        """So does `make`, which has nothing to do afterwards."""
        proved, said = self.made(room)
        self.is_lowest_first(proved, "waywire_c")
        for crate in proved:
            self.assertIn(f"make: {crate} is proved (", said)
        self.assertEqual(self.made(room), ([], ""))
        return proved

    def stops_where_a_proof_fails(self):
        """Crates above it are not tried, and nothing is built."""
        for words, status, made in (
            (["./waywire", "--build"], 70, PROGRAM),
            (["make", "-s", ARCHIVE, "proved_places="], 2, ARCHIVE),
        ):
            with self.room() as room:
                ran, proved = self.built(room, *words, FAILS="wl_objects")
                self.assertEqual(ran.returncode, status)
                self.assertIn("not built", ran.stderr)
                self.assertNotIn("wl_connection", proved)
                self.assertFalse(os.path.exists(f"{room}/{made}"))


class BuildByNames(Rooms):
    """With a toolchain whose `rt ci` takes the names of crates, and keeps what it proved; in CI the
    latter alone."""

    RT = """#!/usr/bin/env bash
case $* in
doc) echo "$ROOM/kit/START-HERE.md" ;;
version) echo "rattle-kit-1" ;;
ci)
    while [ "$CI" = true ] && read -r name _; do "$0" of "${name%:}"; done <crates.txt
    [ -d crates/waywire ] || exit 0
    mkdir -p crates/waywire/out
    printf '#!/bin/sh\\necho built\\n' >crates/waywire/out/waywire
    chmod +x crates/waywire/out/waywire
    ;;
ci\\ *)
    [ "$CI" != true ] || { echo "rt: rt ci with names is not the gate" && exit 2; }
    exec "$0" of "$2"
    ;;
*)
    [ "$2" != "$FAILS" ] || exit
    [ ! -e "$ROOM/kept/$2" ] || { echo "rt: $2 is kept: as it was" && exit; }
    echo "$2" >>"$ROOM/notes"
    : >"$ROOM/kept/$2"
    echo "rt: $2 proved"
    ;;
esac
"""

    def test_program(self):
        with self.room() as room:
            self.builds_a_program(room)
            # A second build says how long the first one took.
            proved, said = self.proves(room, "./waywire", "--build")
            self.assertIn("; last time, from nothing: ", said)
            self.assertEqual(proved, [])
            # The library stands on what was proved for the program.
            self.assertEqual(self.made(room)[0], ["waywire_c"])

    def test_library(self):
        with self.room() as room:
            library = self.builds_a_library(room)
            # The program stands on what was proved for the library.
            program = self.proves(room, "./waywire", "--build")[0]
            self.is_lowest_first([*library[:-1], *program], "waywire")

    def test_kept_work(self):
        """After a change, what was kept of waywire_c is used. For a package, it is not."""
        whole = ("python3", "-m", "scripts.toolchain", "build", "waywire_c", "whole")
        with self.room() as room:
            self.builds_a_library(room)
            self.assertEqual(self.how(room), "whole rattle-kit-1")
            self.assertFalse(self.proves_for_a_package(room))
            self.changes(room, "crates/waywire_c/src/lib.rt")
            proved, said = self.made(room)
            self.assertEqual((proved, self.how(room)), (["waywire_c"], "kept rattle-kit-1"))
            self.assertIn("proves what has changed since earlier runs", said)
            self.assertTrue(self.proves_for_a_package(room))
            self.assertEqual(self.proves(room, *whole)[0], ["waywire_c"])
            self.assertEqual(self.how(room), "whole rattle-kit-1")
            self.assertFalse(self.proves_for_a_package(room))
            # Nor is a proof that changed taken for the one that passed.
            self.changes(room, "crates/wl_wire/proofs/Lib.antt")
            self.assertTrue(self.proves_for_a_package(room))

    def proves_for_a_package(self, room):
        """Whether the library would be proved for a package."""
        words = ("make", "-n", "dist", f"--old-file={room}/none", "--keep-going", "proved_places=")
        said = self.built(room, *words)[0].stdout
        return "scripts.toolchain build waywire_c whole" in said

    def test_not_proved(self):
        """It is installed with UNPROVED=1 alone, and proved by `make`."""
        with self.room() as room:
            self.builds_a_library(room)
            sums = f"{room}/crates/waywire_c/out/libwaywire_c.sums"
            with open(sums, "w", encoding="utf-8") as file:
                file.write("unproved rattle-kit-1\n")
            for goal in ("install", "dist", "deb"):
                ran, proved = self.built(room, "make", goal)
                self.assertEqual((ran.returncode, proved), (2, []))
                self.assertIn("the library is not proved", ran.stderr)
                self.assertIn(f"make {goal} UNPROVED=1", ran.stderr)
            for word, status in (("UNPROVED=1", 0), ("UNPROVED=", 1)):
                ran = self.built(room, "make", "-q", word, ARCHIVE)[0]
                self.assertEqual(ran.returncode, status)
            self.assertEqual(self.made(room)[0], ["waywire_c"])
            self.assertEqual(self.how(room), "kept rattle-kit-1")

    def test_names_are_not_taken(self):
        with self.room() as room:
            library = self.made(room, CI="true")[0]
            self.is_lowest_first(library, "waywire_c")
            program = self.proves(room, "./waywire", "--build", CI="true")[0]
            self.is_lowest_first([*library[:-1], *program], "waywire")

    def test_a_proof_that_fails(self):
        self.stops_where_a_proof_fails()


class BuildAtOnce(Rooms):
    """With a toolchain whose `rt ci` takes no names, and keeps only what it leaves in out/. It puts back what
    was in out/rlib before."""

    RT = """#!/usr/bin/env python3
import glob, hashlib, os, shutil, sys, time

words, room = sys.argv[1:], os.environ["ROOM"]
if words == ["doc"]:
    print(f"{room}/kit/START-HERE.md")
    sys.exit()
if words == ["version"]:
    print("rattle-kit-1")
    sys.exit()
if words != ["ci"]:
    print("usage: rt", file=sys.stderr)
    sys.exit(2)
aside, sums, status = f"{room}/kept/{os.getpid()}", {}, 0
for out in glob.glob("crates/*/out"):
    shutil.move(out, f"{aside}/{out}")
with open("crates.txt") as file:
    lines = [it.partition("#")[0].partition(":") for it in file]
for name, uses in ((it[0].split()[0], it[2].split()) for it in lines if it[1]):
    if name == os.environ["FAILS"]:
        print(f"rt: {name} NOT PROVED")
        status = 1
        break
    with open(f"{room}/notes", "a") as file:
        file.write(f"{name}\\n")
    if name != "waywire_c":
        os.makedirs(f"crates/{name}/out/rlib/{name}.rlib")
        over = "".join(f"over {it} {sums[it]}\\n" for it in uses if it in sums)
        text = f"rattle-build a\\ncrate {name}\\n{over}sum {time.time_ns()}\\n"
        with open(f"crates/{name}/out/rlib/{name}.rlib/format", "w") as file:
            file.write(text)
        sums[name] = hashlib.sha256(text.encode()).hexdigest()
    print(f"rt: {name} proved", flush=True)
if name == "waywire":
    with open("crates/waywire/out/waywire", "w", opener=lambda *it: os.open(*it, 0o755)) as file:
        file.write("#!/bin/sh\\necho built\\n")
for rlib in glob.glob(f"{aside}/crates/*/out/rlib"):
    to = os.path.relpath(rlib, aside)
    shutil.rmtree(to, ignore_errors=True)
    shutil.move(rlib, to)
print(f"{len(sums)} passed, {status} failed")
sys.exit(status)
"""
    GATE = ("python3", "-m", "scripts.timed_gate")

    def formats(self, room):
        """What the libraries of the gate are, by their crates."""
        found = {}
        for name in crates.lowest_first(crates.read(), "waywire_c")[:-1]:
            with open(f"{room}/crates/{name}/out/rlib/{name}.rlib/format", "rb") as file:
                found[name] = file.read()
        return found

    def test_program_and_library(self):
        """Each crate is proved once for both. After a change to one below, all are proved, but by
        the library alone; after a change to waywire_c, that alone."""
        with self.room() as room:
            self.builds_a_program(room)
            self.assertIn("; last time, from nothing: ", self.proves(room, "./waywire", "--build")[1])
            proved, said = self.made(room)
            self.assertEqual(proved, ["waywire_c"])
            self.assertIn("(out/libraries.tar)\n", said)
            self.changes(room, "crates/wl_objects/src/lib.rt")
            self.builds_a_library(room)
            self.changes(room, "crates/waywire_c/src/lib.rt")
            self.assertEqual(self.made(room)[0], ["waywire_c"])

    def test_gate(self):
        """What the gate left is taken, each time that it runs, and stays as it is."""
        with self.room() as room:
            self.proves(room, *self.GATE)
            before = self.formats(room)
            proved, said = self.made(room)
            self.assertEqual(proved, ["waywire_c"])
            self.assertIn("(crates/NAME/out/rlib)\n", said)
            self.assertEqual(self.formats(room), before)
            self.changes(room, "crates/wl_objects/src/lib.rt")
            self.proves(room, *self.GATE)
            self.assertEqual(self.made(room)[0], ["waywire_c"])
            self.assertFalse({*before.values()} & {*self.formats(room).values()})

    def test_a_gate_that_failed(self):
        """It leaves no libraries for the crates above. The next run leaves all."""
        with self.room() as room:
            self.built(room, *self.GATE, FAILS="wl_objects")
            self.proves(room, *self.GATE)
            self.assertEqual(self.made(room)[0], ["waywire_c"])

    def test_a_proof_that_fails(self):
        self.stops_where_a_proof_fails()
