"""scripts/proved_archive.py in generated clones, and what scripts/unproved_archive.py makes of sources."""

import contextlib
import io
import os
import shutil
import subprocess
import sys

from scripts import proved_archive, unproved, unproved_archive
from scripts.proved_archive import ARCHIVE, KEPT, MEMORY, SUMS, TAKEN, UNPROVED, WHOLE, Record
from tests.checks import LONG, TOP
from tests.tooling.toolchains import MadeUp, read, write


class Archives(MadeUp):
    """An archive with its checksums, in the clone and in the folder of a package."""

    def setUp(self):
        super().setUp()
        self.packed = f"{self.room}/packed"
        self.place = proved_archive.place(self.top)
        for name in (ARCHIVE, MEMORY):
            write(f"{self.room}/made/{name}", name)

    def leave(self, how=WHOLE):
        """A run that makes the archive."""
        made = [f"{self.room}/made/{it}" for it in (ARCHIVE, MEMORY)]
        record = Record(how, "a kit", proved_archive.of_tree(self.top))
        proved_archive.leave(self.place, record, *made, 77 * 10**9)

    def said(self, function, *words):
        """What a function answers, and what is said."""
        with contextlib.redirect_stderr(io.StringIO()) as said:
            return function(*words, self.top), said.getvalue()

    def packs(self):
        self.leave()
        self.assertEqual(self.said(proved_archive.pack, self.packed), (0, ""))

    def test_what_is_left(self):
        self.leave(KEPT)
        self.assertEqual(os.stat(f"{self.place}/{ARCHIVE}").st_mtime, 77)
        record = proved_archive.read(self.place)
        self.assertEqual((record.how, record.toolchain), (KEPT, "a kit"))
        parts = ("src/lib.rt", "specs/A.antt", "proofs/deep/B.antt")
        wanted = {ARCHIVE, MEMORY}
        for crate in ("low", "middle", "waywire_c"):
            wanted |= {f"crates.txt: {crate}", *(f"crates/{crate}/{it}" for it in parts)}
        self.assertEqual({*record.sums}, wanted)

    def test_what_goes_into_a_package(self):
        self.assertEqual(proved_archive.why_not(self.place, self.top), f"there is no {SUMS}")
        for how, why in ((WHOLE, None), (TAKEN, None), (KEPT, f"it is not proved from nothing, but {KEPT}"),
                         (UNPROVED, f"it is not proved from nothing, but {UNPROVED}")):
            self.leave(how)
            self.assertEqual(proved_archive.why_not(self.place, self.top), why)
            status, said = self.said(proved_archive.pack, self.packed)
            self.assertEqual((status, (why or "") in said), (int(bool(why)), True))
        # What was taken is in the next package what it was in the first.
        self.assertEqual(proved_archive.read(self.packed).how, WHOLE)

    def test_taken(self):
        self.packs()
        shutil.rmtree(self.place)
        status, said = self.said(proved_archive.take, [f"{self.room}/none", self.packed])
        self.assertEqual(status, 0)
        self.assertEqual(said, f"make: {self.packed} has an archive that was proved from these sources, "
                               "with a kit\nmake: took it: nothing is proved now\n")
        for name in (ARCHIVE, MEMORY):
            self.assertEqual(read(f"{self.place}/{name}"), name)
        before, after = (proved_archive.read(it) for it in (self.packed, self.place))
        self.assertEqual(after, before._replace(how=TAKEN))

    def test_not_taken(self):
        """The first file that differs is named."""
        def new_proof():
            write(f"{self.top}/crates/middle/proofs/C.antt")

        def no_proof():
            os.remove(f"{self.top}/crates/low/proofs/deep/B.antt")

        def line():
            text = read(f"{self.top}/crates.txt").replace("core low", "low core")
            write(f"{self.top}/crates.txt", text)

        def archive():
            write(f"{self.packed}/{ARCHIVE}", "another")

        def no_memory():
            os.remove(f"{self.packed}/{MEMORY}")

        for change, name in (
            (new_proof, "crates/middle/proofs/C.antt"),
            (no_proof, "crates/low/proofs/deep/B.antt"),
            (line, "crates.txt: middle"),
            (archive, ARCHIVE),
            (no_memory, MEMORY),
        ):
            self.packs()
            change()
            wanted = f"make: the archive of {self.packed} is not taken: it was proved with another {name}\n"
            self.assertEqual(self.said(proved_archive.take, [self.packed]), (1, wanted))
            self.assertEqual(proved_archive.read(self.place).how, WHOLE)
            self.setUp()

    def test_what_changes_nothing(self):
        """Another crate, and files that no proof reads."""
        self.packs()
        for path in ("waywire/src/lib.rt", "low/must-fail/a.edit", "low/args"):
            write(f"{self.top}/crates/{path}", "other")
        self.assertEqual(self.said(proved_archive.check, self.packed)[0], 0)

    def test_places(self):
        """A folder that has no archive is not mentioned; one that has another is passed over."""
        self.packs()
        write(f"{self.room}/old/{SUMS}", f"{WHOLE} a kit\n0  {ARCHIVE}\n")
        status, said = self.said(proved_archive.take, [f"{self.room}/none", f"{self.room}/old", self.packed])
        self.assertEqual((status, len(said.splitlines())), (0, 3))
        self.assertEqual(self.said(proved_archive.take, [f"{self.room}/none"]), (1, ""))


class WithoutAProof(MadeUp):
    """A program that reaches each export, and the exports in what is compiled from it."""

    ONE = """//! Calls.
use crate::it::Handle;

#[unsafe(no_mangle)]
pub extern "C" fn waywire_c_put(
    handle: &mut Handle<u8, u16>,
    bytes: &[u8],
    many: [u32; 2],
) -> u32
    ensures { result ≡ 7 }
{
    7
}

pub fn put() {}
"""
    TWO = """#[unsafe(no_mangle)]
pub extern "C" fn waywire_c_free(handle: Handle) {
    drop(handle);
}
"""
    REACHING = """
pub fn reach_waywire_c_put() {
    let a0: &mut Handle<u8, u16> = unsafe { any_value() };
    let a1: &[u8] = unsafe { any_value() };
    let a2: [u32; 2] = unsafe { any_value() };
    let _ = waywire_c_put(a0, a1, a2);
}
"""

    def test_exports(self):
        kinds = ["&mut Handle<u8, u16>", "&[u8]", "[u32; 2]"]
        self.assertEqual(unproved_archive.exports_of(self.ONE), [("waywire_c_put", kinds)])
        self.assertEqual(unproved_archive.exports_of(self.TWO), [("waywire_c_free", ["Handle"])])
        self.assertEqual(unproved_archive.reaching("waywire_c_put", kinds), self.REACHING)

    def test_an_export_of_another_form(self):
        for other in (self.TWO.replace("pub", "pub(crate)"), self.ONE.replace("&[u8]", "fn(u8)")):
            with self.assertRaises(unproved.NotCompiled):
                unproved_archive.exports_of(other)

    def test_program(self):
        """It has a `main`, in which each export is reached once."""
        folder = f"{self.room}/src"
        for name, text in (("lib", "mod one;\nmod two;\nmod it;\n"), ("one", self.ONE), ("two", self.TWO), ("it", "")):
            write(f"{folder}/{name}.rt", text)
        self.assertEqual(unproved_archive.make_a_program(folder), ["waywire_c_put", "waywire_c_free"])
        self.assertEqual(sorted(os.listdir(folder)), ["it.rt", "main.rt", "one.rt", "two.rt"])
        calls = "    one::reach_waywire_c_put();\n    two::reach_waywire_c_free();\n"
        self.assertEqual(read(f"{folder}/main.rt"), f"mod one;\nmod two;\nmod it;\n\nfn main() {{\n{calls}}}\n")
        self.assertEqual(read(f"{folder}/one.rt"), self.ONE + unproved_archive.ANY_VALUE + self.REACHING)
        self.assertEqual(read(f"{folder}/it.rt"), "")

    MODULE = [
        'define internal i32 @"waywire_c::one::waywire_c_put"(ptr %0) #0 {\n',
        'define internal void @"waywire_c::one::reach_waywire_c_put"() #0 {\n',
        'define internal void @"low::one::waywire_c_put"() #0 {\n',
        "define i32 @main() #0 {\n",
    ]

    def test_names(self):
        """An export has its own name, and `main` is hidden."""
        made = [*unproved_archive.exporting(self.MODULE, ["waywire_c_put"])]
        alias = '@waywire_c_put = alias i8, ptr @"waywire_c::one::waywire_c_put"\n'
        self.assertEqual(made, [alias, *self.MODULE[:3], "define internal i32 @not_main() #0 {\n"])
        with self.assertRaisesRegex(unproved.NotCompiled, "the module lacks waywire_c_free\n"):
            [*unproved_archive.exporting(self.MODULE, ["waywire_c_put", "waywire_c_free"])]

    def test_where_it_cannot_be_compiled(self):
        """Without a toolchain, or with one that is not known, it says so."""
        other = "rattle-kit-0 logic 1"
        for rt, said in (
            (None, "make: the toolchain's command rt is not on this machine\n"),
            (f"echo {other}", f"make: UNPROVED=1 takes the toolchain {' or '.join(unproved.KNOWN)}, and here is "
                              f"{other}: without it, make proves the library\n"),
        ):
            if rt:
                write(f"{self.room}/bin/rt", f"#!/bin/sh\n{rt}\n", 0o755)
            env = {"PATH": f"{self.room}/bin:/usr/bin:/bin"}
            words = [sys.executable, "-m", "scripts.unproved_archive"]
            how = {"cwd": TOP, "capture_output": True, "text": True, "timeout": LONG, "check": False}
            ran = subprocess.run(words, env=env, **how)
            self.assertEqual((ran.returncode, ran.stdout, ran.stderr), (70, "", said))
