"""scripts/mutants.py, with stand-ins for the prover and for `rt`."""

import glob
import os
import shutil
import subprocess
import sys
import tempfile
import unittest
import unittest.mock

from scripts import mutant_edits, mutant_prover, mutant_rounds
from tests.checks import LONG, TOP, write_program

RT = """#!/usr/bin/env bash
case $1 in
doc) echo "$ROOM/kit/START-HERE.md" ;;
version) echo "stand-in $VERSION" ;;
ci)
    [ -z "$FAILS" ] || { echo "low NOT PROVED" && exit 1; }
    echo "ci" $(ls crates) >>"$ROOM/notes"
    for it in crates/*; do mkdir -p "$it/out/rlib/${it#crates/}.rlib"; done
    ;;
esac
"""

# A function is proved unless `wrong` stands in it, in a const that it names, or in a function that it calls.
RATTLE = '''#!/usr/bin/env python3
import os, re, sys

words, crate = sys.argv[1:], sys.argv[sys.argv.index("--crate-name") + 1]
text = open("src/lib.rt").read()
asked = [words[at + 1] for at, it in enumerate(words) if it == "--only"]
kept = words[words.index("--incremental") + 1]
with open(os.environ["ROOM"] + "/notes", "a") as file:
    file.write(f"{crate} {','.join(asked) or 'whole'}{' over it' if os.listdir(kept) else ''}\\n")
open(f"{kept}/judged", "w").close()
bodies = dict(re.findall(r"^ *fn (\\w+).*?\\n(.*?)^ *}$", text, re.M | re.S))
kind = re.findall(r"^impl (\\w+) for (\\w+) {\\n *fn (\\w+)", text, re.M)
names = {it: f"{crate}::{it}" for it in bodies}
names.update({name: f"{crate}::{of}{trait}::{name}" for trait, of, name in kind})
if "no_compiler" in text or "cut" in text:
    why = "error[unknown-name]: cannot find it" if "no_compiler" in text else "error: `x` is not in scope"
    print(f"src/lib.rt:1:1: {why}")
    print("logic=not-proved" if "cut" in text else "")
    sys.exit(1)
if "of_no_end" in text:
    print("rattle: no verdict: antt ran out of stack")
    sys.exit(3)
found = {}
for it in asked:
    fits = [name for name in names.values() if f"::{name}".endswith(f"::{it}")]
    if len(fits) != 1:
        several = ", ".join(f"`{one}`" for one in fits)
        print(f"rattle: error: several functions are named `{it}`: help: write one of {several}" if fits else
              f"rattle: error: `{crate}` has no function `{it}`: help: write another")
        sys.exit(2)
    found[fits[0]] = None
by_name = {whole: it for it, whole in names.items()}
wrong_consts = re.findall(r"^const (\\w+).*wrong", text, re.M)
said = {}

def judge(whole):
    if whole in said:
        return said[whole][0] == "proved"
    body, said[whole] = bodies[by_name[whole]], ("proved", "")
    called = [names[it] for it in re.findall(r"(\\w+)\\(\\)", body) if it in names]
    lost = [it for it in called if not judge(it)]
    if lost:
        named = " and ".join(f"`{it}`" for it in lost)
        said[whole] = "no proof", f": it calls {named}, which is not proved"
    elif "wrong" in body or any(it in body for it in wrong_consts):
        said[whole] = "not proved", ""
    return said[whole][0] == "proved"

is_well = all([judge(it) for it in found or by_name])
for whole, (word, why) in said.items():
    print(f"fn {whole}: {word}{why}")
print(f"only={len(said)}" if asked else "logic=proved" if is_well else "logic=not-proved")
sys.exit(0 if is_well else 1)
'''

LIB = """const MOST: u8 = 7;

fn one() -> u8 {
    1
}

fn two() -> u8 {
    one() + 1
}

fn three() -> u8 {
    3
}

fn at_most() -> u8 {
    MOST
}

impl Shown for Thing {
    fn shown(&self) -> u8 {
        4
    }
}

fn bad() -> u8 {
    wrong as it stands
}
"""


class Rounds(unittest.TestCase):
    """A crate `high` over a crate `low`, and mutants of `high`."""

    def setUp(self):
        room = tempfile.TemporaryDirectory()
        self.addCleanup(room.cleanup)
        self.room = room.name
        os.mkdir(f"{self.room}/scripts")
        for name in glob.glob("scripts/*.py", root_dir=TOP):
            shutil.copy(f"{TOP}/{name}", f"{self.room}/{name}")
        for name, text in (("bin/rt", RT), ("kit/bin/rattle", RATTLE)):
            os.makedirs(os.path.dirname(f"{self.room}/{name}"), exist_ok=True)
            write_program(f"{self.room}/{name}", text)
        self.write("HANDLES", "Handles allowed: none.\n")
        self.write("crates.txt", "low:\nhigh: low\n")
        self.write("crates/low/src/lib.rt", "fn zero() -> u8 {\n    0\n}\n")
        self.write("crates/high/src/lib.rt", LIB)

    def write(self, name, text):
        os.makedirs(os.path.dirname(f"{self.room}/{name}"), exist_ok=True)
        with open(f"{self.room}/{name}", "w", encoding="utf-8") as file:
            file.write(text)

    def edit(self, name, *pairs):
        lines = [f"old: {old}\nnew: {new}\n" for old, new in pairs]
        self.write(f"crates/high/must-fail/{name}.edit", "file: src/lib.rt\n" + "".join(lines))

    def says(self, *words, **more):
        """The status, the lines for mutants, and the checks that were made."""
        self.write("notes", "")
        env = {"PATH": f"{self.room}/bin:/usr/bin:/bin", "ROOM": self.room, "VERSION": "1", "FAILS": "",
               "XDG_CACHE_HOME": f"{self.room}/cache", **more}
        command = [sys.executable, "-m", "scripts.mutants", *words]
        how = {"cwd": self.room, "capture_output": True, "text": True, "timeout": LONG, "check": False}
        ran = subprocess.run(command, env=env, **how)
        self.assertEqual(ran.stderr, "")
        with open(f"{self.room}/notes", encoding="utf-8") as file:
            notes = file.read().splitlines()
        lines = ran.stdout.splitlines()
        told = {it.partition(": ")[0]: it.partition(": ")[2] for it in lines if it.startswith("high/")}
        passed = sum(it.startswith("refused") for it in told.values())
        if told:
            self.assertEqual(lines[-1], f"{passed} passed, {len(told) - passed} failed")
            self.assertEqual(ran.returncode, int(passed < len(told)))
        return told, notes, ran

    def test_different_functions_at_once(self):
        """One of a function in a round, over a copy of what the control kept."""
        self.edit("a", ("    1", "    wrong"))
        self.edit("b", ("    3", "    wrong"))
        self.edit("c", ("    3", "    wrong, too"))
        told, notes, _ = self.says()
        self.assertEqual(told, {"high/a": "refused (one)", "high/b": "refused (three)",
                                "high/c": "refused (three)"})
        self.assertEqual(notes, ["ci low", "high one,three", "high one,three over it", "high three over it"])

    def test_refused_for_the_sake_of_a_callee(self):
        """It waits for a round without any mutant of that function."""
        self.edit("a", ("    1", "    wrong"))
        self.edit("b", ("one() + 1", "one() + wrong"))
        self.edit("c", ("    1", "    wrong, too"))
        told, notes, _ = self.says()
        self.assertEqual({*told.values()}, {"refused (one)", "refused (two)"})
        rounds = [it.split()[1] for it in notes[2:]]
        self.assertEqual(rounds, ["one,two", "two", "one"])

    def test_what_does_not_compile(self):
        """That is no refusal, also where the prover cannot read the edited text. The others are tried."""
        self.edit("a", ("    1", "    wrong"))
        for text in ("no_compiler", "cut"):
            self.edit("b", ("    3", f"    {text}"))
            told, _, _ = self.says("--all")
            self.assertEqual(told["high/a"], "refused (one)")
            self.assertRegex(told["high/b"], r"\ABAD EDIT: src/lib.rt:1:1: error")

    def test_what_cannot_be_applied(self):
        self.edit("absent", ("    8", "    wrong"))
        self.edit("twice", ("-> u8", "-> u16"))
        self.edit("same", ("    1", "    1"))
        self.edit("none")
        self.edit("in-turn", ("    3", "    5"), ("    5", "    wrong"))
        told, _, _ = self.says()
        self.assertEqual(told.pop("high/in-turn"), "refused (three)")
        self.assertEqual([it.partition(": ")[0] for it in told.values()], ["BAD EDIT"] * 4)
        self.assertIn("6 times", told["high/twice"])

    def test_control(self):
        """What is not proved without a mutant shows nothing."""
        self.edit("a", ("wrong as it stands", "wrong otherwise"))
        self.edit("b", ("    1", "    wrong"))
        told, _, _ = self.says()
        self.assertEqual(told["high/a"], "NOT TRIED: bad is not proved without it")
        self.assertEqual(told["high/b"], "refused (one)")

    def test_not_refused(self):
        """It is tried by itself, and then by a check of the whole crate."""
        self.write("crates/high/src/lib.rt", LIB.partition("fn bad")[0])
        self.edit("a", ("    1", "    0 + 1"))
        self.edit("b", ("    3", "    wrong"))
        told, notes, _ = self.says()
        self.assertEqual(told["high/a"], "NOT REFUSED: the crate is still proved with it")
        self.assertEqual(notes[2:], [f"high {it} over it" for it in ("one,three", "one", "whole")])
        self.assertEqual(self.says()[0], {**told, "high/b": self.says()[0]["high/b"]})

    def test_outside_functions(self):
        """A mutant of a const is tried over the whole crate, and must be refused in a function that is proved
        without it."""
        self.edit("a", ("u8 = 7", "u8 = wrong"))
        self.write("crates/high/src/lib.rt", LIB.partition("fn bad")[0])
        told, notes, _ = self.says()
        self.assertEqual(told["high/a"], "refused (at_most, by a check of the whole crate)")
        self.assertEqual(notes[1:], ["high whole", "high at_most"])
        # Of several, each goes over a check of the crate as it stands.
        self.edit("b", ("u8 = 7", "u8 = wrong, too"))
        told, notes, _ = self.says("--all")
        self.assertEqual(told["high/b"], "refused (at_most, by a check of the whole crate)")
        self.assertEqual(notes[1:], ["high whole", "high whole over it", "high whole over it"])

    def test_names(self):
        """A method of a trait has the type and the trait in its name; a name that fits several functions is
        settled by the module."""
        self.edit("a", ("    4", "    wrong"))
        told, notes, _ = self.says()
        self.assertEqual(told["high/a"], "refused (ThingShown::shown)")
        self.assertEqual(notes[1], "high ThingShown::shown")

    def test_a_function_without_a_name(self):
        """What the prover does not know by name is tried over the whole crate."""
        self.write("crates/high/src/lib.rt", LIB.partition("fn bad")[0] + "pub fn hidden() {\n    8\n}\n")
        self.edit("a", ("    8", "    9"))
        told, notes, _ = self.says()
        self.assertTrue(told["high/a"].startswith("NOT REFUSED"))
        self.assertEqual(notes[1:], ["high hidden", "high whole over it"])

    def test_a_limit_of_the_prover(self):
        self.edit("a", ("    3", "    of_no_end"))
        self.assertEqual(self.says()[0]["high/a"], "refused (three, only by a limit of the prover)")

    def test_what_is_noted(self):
        """What was refused is tried again once something that it was tried over has changed; what was not, each
        time."""
        self.edit("a", ("    1", "    wrong"))
        self.edit("b", ("    3", "    no_compiler"))
        self.says()
        for change, again in ((None, False), ("low", True), ("high", True), ("crates.txt", True), ("edit", True),
                              (None, False)):
            if change == "edit":
                self.edit("a", ("    1", "    wrong, too"))
            elif change == "crates.txt":
                self.write(change, "low:\nhigh: low std\n")
            elif change:
                with open(f"{self.room}/crates/{change}/src/lib.rt", "a", encoding="utf-8") as file:
                    file.write("// \n")
            told, notes, _ = self.says()
            self.assertTrue(told["high/a"].startswith("refused (one)"), told)
            self.assertEqual(any("one" in it for it in notes), again, (change, notes))
            self.assertTrue(any("three" in it for it in notes))
        self.assertTrue(any("one" in it for it in self.says(VERSION="2")[1]))
        self.assertTrue(any("one" in it for it in self.says("--all")[1]))

    def test_libraries(self):
        """Those of the tree that is given are taken, unless a source is newer. Nothing is tried without them."""
        self.edit("a", ("    1", "    wrong"))
        tree = f"{self.room}/tree"
        for it in ("crates", "crates.txt", "HANDLES"):
            copy = shutil.copytree if it == "crates" else shutil.copy
            os.makedirs(tree, exist_ok=True)
            copy(f"{self.room}/{it}", f"{tree}/{it}")
        os.makedirs(f"{tree}/crates/low/out/rlib/low.rlib")
        self.assertEqual(self.says("--all", "--tree", tree)[1][0], "high one")
        newer = os.stat(f"{tree}/crates/low/out/rlib/low.rlib").st_mtime_ns + 10**9
        os.utime(f"{tree}/crates/low/src/lib.rt", ns=(newer, newer))
        self.assertEqual(self.says("--all", "--tree", tree)[1][0], "ci low")
        _, notes, ran = self.says("--all", FAILS="1")
        self.assertEqual((notes, ran.returncode, ran.stdout.splitlines()[-1]), ([], 70, "0 passed, 1 failed"))
        self.assertIn("low NOT PROVED", ran.stdout)

    def test_crates_that_are_asked_for(self):
        self.edit("a", ("    1", "    wrong"))
        self.write("crates/high/mutants.edit", "name: b\nfile: src/lib.rt\nold:     3\nnew:     wrong\n")
        self.assertEqual([*self.says()[0]], ["high/a"])
        self.assertEqual(sorted(self.says("--others", "high")[0]), ["high/a", "high/b"])
        self.assertEqual(self.says("low")[2].stdout.splitlines()[-1], "0 passed, 0 failed")


class Answers(unittest.TestCase):
    """What is read in the prover's output."""

    SAID = """./proofs/reading/text_at/Answers.antt:5:13: error: `returns`: `search`: no proof of `a`
fn wl_wire::reading::text_at: not proved
fn wl_wire::reading::string_at: no proof: it calls `wl_wire::reading::text_at`, which is not proved
fn wl_wire::reading::fn::string_at::any+FnMut::call_mut: proved
fn wl_wire::reading::named_at: no proof: it calls `wl_wire::reading::text_at`, which is not proved
fn wl_wire::reading::read_ref: no proof: it calls `wl_wire::reading::string_at` and `wl_wire::reading::named_at`, \
which are not proved
fn wl_wire::writing::write_padded: proved
only=5 proved=2
"""

    def test_functions(self):
        said = mutant_prover.Answer(1, self.SAID)
        text_at = "wl_wire::reading::text_at"
        self.assertTrue(said.has_ended())
        self.assertEqual(said.refused(), [text_at])
        self.assertEqual(said.culprits("wl_wire::reading::read_ref"), {text_at})
        self.assertEqual(said.culprits("wl_wire::writing::write_padded"), set())
        self.assertEqual(len(said.of("wl_wire::reading::string_at")), 2)
        self.assertEqual(said.unread({"src/reading.rt"}), "")

    def test_what_cannot_be_read(self):
        for line, is_unread in (
            ("src/a.rt:1:2: error[unknown-name]: cannot find value `lenn` in this scope", True),
            ("src/a.rt:1:2: error: expected the end", True),
            ("src/a.rt:1:2: error: `ensures`: `lenn` is not in scope", True),
            ("src/a.rt:1:2: error: `ensures`: no proof of it", False),
            ("proofs/a/Answers.antt:1:2: error: `lenn` is not in scope", False),
        ):
            for last in ("logic=not-proved", "only=1 proved=0"):
                if "[" not in line:
                    found = mutant_prover.Answer(1, f"{line}\n{last}\n").unread({"src/a.rt"})
                    self.assertEqual(found, line if is_unread else "")
            if "[" in line:
                self.assertEqual(mutant_prover.Answer(1, f"{line}\n").unread({"src/a.rt"}), line)

    def test_names_that_do_not_fit(self):
        answer, fitting = mutant_prover.Answer, ["a::b::CDebug::fmt", "a::b::D::fmt"]
        said = "rattle: error: `a` has no function `nosuch`: help: write the name that a check prints after `fn`"
        self.assertEqual(answer(2, said).unfit(), ("nosuch", []))
        said = "rattle: error: several functions are named `fmt`: help: write one of "
        said += ", ".join(f"`{it}`" for it in fitting)
        self.assertEqual(answer(2, said).unfit(), ("fmt", fitting))
        trial = unittest.mock.Mock(spec=mutant_rounds.Trial, prover=unittest.mock.Mock(crate="a"))
        trial.below_crate = lambda name: name.removeprefix("a::")
        for module, some, names in (("b", fitting, []), ("b", fitting[1:], ["b::D::fmt"]), ("c", fitting, [])):
            function = mutant_edits.Function(module, ("F::fmt", "fmt"))
            self.assertEqual(mutant_rounds.Trial.other_names(trial, function, ["fmt"], some), names)
            self.assertEqual(mutant_rounds.Trial.other_names(trial, function, ["F::fmt", "fmt"], []), ["fmt"])


class Edits(unittest.TestCase):
    """The mutants of this repository."""

    def test_each_text_of_a_mutant_stands_once(self):
        """`rt ci` does not fail if one of them cannot be applied."""
        found = []
        for folder in glob.glob(f"{TOP}/crates/*"):
            texts = mutant_edits.texts_of(folder)
            for mutant in mutant_edits.mutants_of(folder, others=True):
                found.append(mutant.label)
                with self.subTest(mutant.label):
                    mutant.looks_at(texts)
        self.assertIn("wl_server/announces-to-closed", found)

    def test_how_a_function_is_named(self):
        text = ("impl<A: Allocator, F: Fn(u8) -> u8> From<Fault<A>> for Other<'_, A, F>\nwhere\n    A: Copy,\n{\n"
                "    pub fn from(it: A) -> A\n        ensures { result ≡ it }\n    {\n        it\n    }\n}\n\n"
                "impl<T: Table> fmt::Display for Other<T::Alloc> {\n    fn fmt(&self) {\n        let x = 1;\n    }\n}\n\n"
                "const MOST: u8 = 7;\n\npub extern \"C\" fn called() {\n    2\n}\n\n"
                "mod inner {\n    pub(crate) fn low() -> u8 {\n        3\n    }\n}\n")
        for word, names in (
            ("        it", ("OtherFromFault::from", "OtherFrom::from", "from")),
            ("x = 1", ("OtherAllocDisplay::fmt", "OtherDisplay::fmt", "fmt")),
            ("= 7", ()),
            ("  2", ("a::b::called", "called")),
            ("  3", ("a::b::inner::low", "low")),
            ("mod inner", ()),
        ):
            found = mutant_edits.function_at("src/a/b.rt", text, text.index(word) + len(word))
            self.assertEqual(found.names if found else (), names)
        found = mutant_edits.function_at("src/lib.rt", text, text.index("  3") + 3)
        self.assertEqual(found, ("inner", ("inner::low", "low")))
