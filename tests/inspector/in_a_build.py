"""Tests of the script of docs/BUILDS.md, with programs that are lawful, broken or hang.

    python3 -m tests.inspector.in_a_build [CLASS[.TEST]]..

The environment is that of inspecting.py."""
import os
import re
import subprocess
import sys

from tests.checks import TOP
from tests.inspector.inspecting import INSPECT, LONG, STAYING, Inspected, main, message
from tests.inspector.words import REGISTRY, bind

# A client that sends its first word, reads the globals, sends its second word with the name of wl_compositor, and stays
# for so many seconds.
BINDS = STAYING + """
import struct, time
display.sendall(bytes.fromhex(sys.argv[1]))
said = b""
while b"wl_compositor" not in said:
    said += display.recv(65536)
at = said.index(b"wl_compositor") - 16
name = struct.unpack_from("<I", said, at + 8)[0]
display.sendall(bytes.fromhex(sys.argv[2].replace("NAME", struct.pack("<I", name).hex())))
time.sleep(float(sys.argv[3]))
"""


class Builds(Inspected):
    def setUp(self):
        super().setUp()
        with open(f"{TOP}/docs/BUILDS.md", encoding="utf-8") as file:
            self.page = file.read()
        with open(f"{self.folder}/judged", "w", encoding="utf-8") as file:
            file.write(re.search(r"(?ms)^```sh\n(.*?)^```", self.page)[1])

    def judged(self, *command, **env):
        """Runs the script. Returns its status, what it printed, and the files that it left."""
        tool = os.path.dirname(os.path.realpath(INSPECT[-1]))
        ran = subprocess.run(["sh", "judged", *command], cwd=self.folder, capture_output=True, text=True, timeout=LONG,
                             env={**self.env, "PATH": f"{tool}:{os.environ['PATH']}", **env}, check=False)
        left = sorted(it for it in os.listdir(self.folder) if it.startswith("session"))
        return ran.returncode, ran.stdout + ran.stderr, left

    def kept(self, left):
        """The artifacts are there, and the page is of this session."""
        self.assertEqual(left, ["session.html", "session.rec", "session.rec.tables", "session.txt"])
        with open(f"{self.folder}/session.html", encoding="utf-8") as file:
            self.assertIn("</html>", file.read())
        for it in left:
            self.assertRegex(self.page, it.replace(".", r"\."))

    def ended(self, has_come, *command, **env):
        """Runs the script, which ends the program; if it was not yet so far, once more, with more time."""
        for seconds in ("8", "60"):
            ran = self.judged(*command, SECONDS_TO_RUN=seconds, **env)
            if re.search(has_come, ran[1]):
                break
        return ran

    def plays(self, requests, seconds):
        """The words of a client that sends these once it has bound wl_compositor as 3."""
        bound = bind(0, "wl_compositor", 1, 3)
        data = bound[:8].hex() + "NAME" + bound[12:].hex() + requests.hex()
        return [sys.executable, "-c", BINDS, REGISTRY.hex(), data, str(seconds)]

    def test_a_program_that_is_lawful(self):
        status, said, left = self.judged(*self.plays(message(3, 0, 4), 0.5), LATE="60")
        self.assertEqual(status, 0, said)
        self.assertIn("lawful: ", said)
        self.kept(left)

    def test_a_program_that_has_to_be_ended(self):
        """It draws until then."""
        status, said, left = self.ended("lawful: ", "weston-simple-shm", LATE="60")
        self.assertEqual(status, 124, said)
        self.kept(left)

    def test_a_program_that_breaks_a_rule(self):
        status, said, left = self.judged(*self.plays(message(9, 0), 0.5))
        self.assertEqual(status, 1, said)
        self.assertIn("broken: > message 3 at byte", said)
        self.kept(left)

    def test_a_program_that_hangs(self):
        """It waits for a frame that no commit asks for, longer than the build waits."""
        frame = message(3, 0, 4) + message(4, 3, 5)
        late = r"not strict: the client's wl_surface@4\.frame \(message \d+\) had no answer for \d+\.\d s"
        status, said, left = self.ended(late, *self.plays(frame, 3600), LATE="1")
        self.assertEqual(status, 123, said)
        self.assertRegex(said, late)
        self.kept(left)

    def test_a_program_that_makes_no_connection(self):
        self.assertEqual(self.judged("true")[0], 125)


if __name__ == "__main__":
    main()
