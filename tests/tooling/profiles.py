"""scripts/profile_proof.py, with stand-ins for the toolchain."""

import contextlib
import io
import os
import sys
import tempfile
import unittest
import unittest.mock

from scripts import crates, profile_proof, toolchain
from tests.tooling.toolchains import write

CRATES = """# library: what others stand on

low: memchr
middle: low
top staticlib: std_heap middle
"""
# It leaves the libraries of a copy, as `rt ci` does.
RT = """#!/bin/sh
if [ "$1" = doc ]; then echo "$ROOM/kit/doc"; exit; fi
[ "$FAILS" != libraries ] || exit 1
for it in crates/*; do mkdir -p "$it/out/rlib/${it##*/}.rlib"; done
ls crates >>"$ROOM/notes"
"""
# It writes modules as the prover does, and uses a processor for most of a second before one of them.
RATTLE = f"""#!{sys.executable}
import os, sys
words = sys.argv[1:]
with open(os.environ["ROOM"] + "/notes", "a") as file:
    file.write(" ".join(words) + "\\n")
crate, folder = (words[words.index(it) + 1] for it in ("--crate-name", "--incremental"))
os.mkdir(folder + "/deep")
for name in ("specs.One", "proofs.work.easy.Lts", "proofs.work.hard.Lts.decls", "proofs.work.hard.Proof"):
    if "hard.Lts" in name:
        while sum(os.times()[:2]) < 0.8:
            pass
    open(f"{{folder}}/deep/Rattle-{{crate}}-{{name}}.oantt", "w").close()
print("error: no")
sys.exit(os.environ["FAILS"] == crate)
"""


class ProfileProof(unittest.TestCase):
    tool = profile_proof

    def part(self, module):
        return self.tool.part_of("low", f"Rattle-low-{module}")[:2]

    def test_what_a_module_is(self):
        for module, part in (
            ("proofs.work.hard.Lts", ("work::hard", "Lts")),
            ("proofs.work.hard.Lts.Given", ("work::hard", "Lts")),
            ("proofs.work.Job.hard.Proof.decls", ("work::Job::hard", "Proof")),
            ("proofs.work.fn.hard.all+FnMut.call_mut.Code.Mir", ("work::hard", "Code")),
            ("proofs.work.hard.Carried-2-0-1-4", ("work::hard", "Carried")),
            ("proofs.work.Pair.hard.Lts.Given", ("work::Pair::hard", "Lts")),
            ("proofs.work.hard", ("work::hard", "names")),
            ("proofs.work.TheLinks.low-work-hard", ("", "TheLinks")),
            ("proofs", ("", "names")),
            ("proofs.Reads", ("Reads", "lemmas")),
            ("proofs.Lemmas", ("Lemmas", "lemmas")),
            ("specs.contracts.work.hard", ("", "contracts")),
        ):
            self.assertEqual(self.part(module), part, module)

    def test_the_clock(self):
        clock = self.tool.Clock(10.0)
        clock.note(12.0, 1.0)
        clock.note(14.0, 3.0)
        clock.note(15.0, 0.0)
        times = (9.0, 10.0, 11.0, 13.0, 14.0, 15.0, 99.0)
        self.assertEqual([clock.at(it) for it in times], [0.0, 0.0, 0.5, 2.0, 3.0, 3.0, 3.0])

    def test_what_takes_more_than_a_tenth_is_named(self):
        clock = self.tool.Clock(0.0)
        clock.note(100.0, 100.0)
        rows = (("a", "Lts", 80.0), ("a", "Tie", 5.0), ("b", "Lts", 10.0), ("", "contracts", 2.0))
        parts = [self.tool.Part(name, kind, 3.0, seconds) for name, kind, seconds in rows]
        lines, dear = self.tool.summary("low", parts, clock)
        self.assertEqual(dear, ["low: a (85%)"])
        self.assertEqual(lines[0], "low: 100.0 processor seconds, 4 modules")
        self.assertEqual([it.split()[-1] for it in lines[2:4]], ["a", "b"])
        self.assertEqual([it.split() for it in lines[5:]][0], ["90.0", "s", "90%", "Lts"])
        self.assertIn(["3.0", "s", "3%", "below"], [it.split() for it in lines[5:]])

    @contextlib.contextmanager
    def room(self, fails):
        """A room with a clone of three crates, and stand-ins for the toolchain."""
        with tempfile.TemporaryDirectory() as room:
            files = {"clone/crates.txt": CRATES, "clone/HANDLES": "", "bin/rt": RT, "kit/bin/rattle": RATTLE}
            files |= {f"clone/crates/{it}/src/lib.rt": "" for it in ("low", "middle", "top")}
            for path, text in files.items():
                write(f"{room}/{path}", text, 0o755)
            path = f"{room}/bin:{os.environ['PATH']}"
            env = {"PATH": path, "ROOM": room, "FAILS": fails}
            clone = toolchain.Clone(f"{room}/clone")
            with (
                unittest.mock.patch.dict(os.environ, env),
                unittest.mock.patch.object(self.tool.toolchain, "Clone", lambda: clone),
            ):
                yield room

    def ran(self, *names, fails=""):
        """The status, what is printed, and what the stand-ins noted."""
        with (
            self.room(fails) as room,
            unittest.mock.patch.object(sys, "argv", ["profile-proof", *names]),
            contextlib.redirect_stdout(io.StringIO()) as output,
            contextlib.redirect_stderr(io.StringIO()),
        ):
            status, notes = self.tool.main(), ""
            with contextlib.suppress(OSError), open(f"{room}/notes", encoding="utf-8") as file:
                notes = file.read().replace(room, "ROOM")
        return status, output.getvalue(), notes

    def test_a_profile(self):
        status, said, notes = self.ran("low", "top")
        self.assertEqual(status, 0, said)
        self.assertEqual(said.splitlines()[-3:], [
            "more than a tenth of its crate:",
            *(next(it for it in said.splitlines() if it.startswith(f"  {name}: work::hard ("))
              for name in ("low", "top")),
        ])
        self.assertNotIn("easy (", said)
        libraries, low, top = notes.splitlines()[:2], *notes.splitlines()[2:]
        self.assertEqual(libraries, ["low", "middle"])
        self.assertIn("--crate-name low src/lib.rt --extern std=ROOM/kit/rlibs/std.rlib"
                      " --extern memchr=ROOM/kit/rlibs/memchr.rlib -L", low)
        self.assertNotIn("staticlib", low)
        self.assertRegex(top, r"--extern middle=\S*/below/crates/middle/out/rlib/middle.rlib -L")
        self.assertRegex(top, r"-L dependency=\S*/below/crates/low/out/rlib -L")
        self.assertIn("--jobs 1 --crate-type staticlib --incremental", top)

    def test_what_is_not_proved(self):
        status, said, _ = self.ran("low", "middle", fails="low")
        self.assertEqual(status, 1)
        self.assertIn("low: not proved (status 1)\nmiddle: ", said)
        status, said, notes = self.ran("middle", fails="libraries")
        self.assertEqual((status, said, notes), (toolchain.NOT_BUILT, "", ""))

    def test_all_crates_have_words(self):
        """For each crate of the repository, the words name its root and the libraries that it uses."""
        clone = toolchain.Clone()
        for name, crate in crates.read().items():
            words = self.tool.words_of(clone, name, "ROOM", "KIT")
            self.assertTrue(os.path.exists(f"{clone.top}/crates/{name}/{words[2]}"), words)
            self.assertLessEqual({*crate.uses}, {it.partition("=")[0] for it in words})

