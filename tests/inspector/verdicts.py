"""Tests that `waywire check --inspect` gives the verdict of waywire-inspect on recordings, with all tables and without
any, and on recordings that were changed.

    python3 -m tests.inspector.verdicts [CLASS[.TEST]]..

The environment is that of inspecting.py."""
import glob
import random
import subprocess

from tests import reference
from tests.checks import TOP
from tests.inspector.inspecting import LONG, TAKEN_BACK, WAYWIRE, Inspected, main
from tests.parts import compare

TEXTS = sorted(glob.glob(f"{TOP}/protocols/*.tables"))
BAD_LINE = 3
# What is said of a bind whose version the tables lack.
NEWER = " up to version "


class Verdicts(Inspected):
    def setUp(self):
        if not WAYWIRE:
            self.skipTest("there is no program")
        super().setUp()

    def compare(self, path, texts):
        """Fails if the program and the tool differ about a recording. Returns the verdict, or None for a bad line."""
        words = [it for text in texts for it in ("--tables", text)]
        ran = subprocess.run([WAYWIRE, "check", "--inspect", *words, path], timeout=LONG, **self.how({}))
        if ran.returncode == BAD_LINE:
            return None
        if NEWER in ran.stdout:
            # The tool goes on until a message comes that the tables lack.
            return ran.stdout
        said, _ = self.ran("--no-tables", *words, "--read", path, status=ran.returncode)
        verdict = [it for it in said.splitlines() if it.startswith(("lawful", "broken: ", "not judged from request"))][-1]
        self.assertEqual((ran.stdout, ran.stderr), (TAKEN_BACK.sub("", verdict) + "\n", ""))
        return ran.stdout

    def test_recordings(self):
        """Without any text, and with all of them."""
        kinds = set()
        for path in sorted(glob.glob(f"{TOP}/examples/*.rec") + glob.glob(f"{TOP}/tests/runs/*.rec")):
            for texts in ([], [self.all_tables()]):
                with self.subTest(path, texts=texts):
                    verdict = self.compare(path, texts)
                    kinds.add(verdict and verdict.split(":")[0].split(" from")[0])
        self.assertEqual(kinds, {None, "lawful", "lawful up to wl_display.error", "broken", "not judged"})

    def test_changed_recordings(self):
        unjudged = 0
        recordings = [reference.parse_recording(it) for it in compare.examples()]
        path = f"{self.folder}/changed.rec"
        for number in range(60):
            chance = random.Random(f"verdicts {number}")
            lines = "".join(compare.cut_anew(chance, compare.changed(chance, chance.choice(recordings))))
            with open(path, "w", encoding="ascii") as file:
                file.write(lines)
            with self.subTest(number):
                verdict = self.compare(path, chance.choice(([], [self.all_tables()])))
                unjudged += verdict.startswith("not judged")
        self.assertGreater(unjudged, 0)


if __name__ == "__main__":
    main()
