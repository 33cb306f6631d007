"""Tests of --strict, and of what waywire-inspect refuses at once.

    python3 -m tests.inspector.strict [CLASS[.TEST]]..

The environment is that of inspecting.py."""
import json
import os
import sys

from tests.inspector.inspecting import STAYING, done, main, message, sync
from tests.inspector.questions import BASE, COMMIT, Timed, frame
from tests.inspector.words import LAWFUL, REGISTRY, Talking, announced, bind, error

NOT_STRICT, BROKEN, REFUSED = 123, 1, 125
UNJUDGED = "not strict: not all was judged"
LATE = "not strict: the client's wl_surface@10.frame (message 18) had no answer for 3.0 s"
# A client that binds what no table has.
OWN = REGISTRY, (announced(1, "own_shell1", 1),), bind(1, "own_shell1", 1, 3)
HEAD = "# client foot 4711\n# started 2026-12-01T08:00:00.000Z\n# tables core xdg-shell\n"


class Read(Timed):
    """Recordings, with --strict."""

    def strict(self, *said, status=NOT_STRICT, options=(), **how):
        """What --strict says of a recording; without it the status is 0."""
        self.record(*said, **how)
        self.read(*options)
        return [it for it in self.read("--strict", *options, status=status) if it.startswith("not strict")]

    def test_a_lawful_session(self):
        self.assertEqual(self.strict((1, frame(12) + COMMIT), (1.016, (done(12),)), status=0), [])

    def test_a_late_answer(self):
        """The limit is that of --late. The question that waited longest is named."""
        late = (1, frame(12) + COMMIT), (4, (done(12),)), (5, frame(12) + COMMIT), (7.5, (done(12),))
        self.assertEqual(self.strict(*late), [LATE])
        for limit, status in ("3", NOT_STRICT), ("3.1", 0), ("0", 0):
            self.assertEqual(self.strict(*late, status=status, options=("--late", limit)), [LATE] if status else [])

    def test_no_answer(self):
        self.assertEqual(self.strict((6, frame(12) + COMMIT)), [LATE])
        self.assertEqual(self.strict((8, frame(12) + COMMIT), status=0), [])
        self.assertEqual(self.strict((1, (message(BASE, 0, 7),))),
                         ["not strict: the compositor's xdg_wm_base@6.ping (message 18) had no answer for 8.0 s"])

    def test_no_answer_is_needed(self):
        """The surface has ended, but only after the frame was late."""
        self.assertEqual(self.strict((1, frame(12) + COMMIT), (4, message(10, 0))), [LATE])
        self.assertEqual(self.strict((1, frame(12) + COMMIT), (1.5, message(10, 0)), status=0), [])

    def test_a_frame_that_no_commit_takes(self):
        self.assertEqual(self.strict((1, frame(12)), (4, COMMIT), (4.1, (done(12),))), [LATE])

    def test_what_is_not_judged(self):
        with open(self.recorded, "w", encoding="ascii") as file:
            for data in OWN:
                file.write(f"< {data[0].hex()}\n" if isinstance(data, tuple) else f"> {data.hex()}\n")
        self.assertIn("not judged from request 2 on: no table has own_shell1", self.read()[-1])
        self.assertEqual(self.read("--strict", status=NOT_STRICT)[-1], UNJUDGED)

    def test_what_is_missing(self):
        """What comes before a part, what comes after a cut, and all of it."""
        for text, why in (
            (f"# from 3.5\n> {sync(2).hex()}\n", "not all was judged"),
            (f"> {sync(2).hex()}\n# cut 4.0\n", "the recording ends before its session"),
            ("# ended 4.0\n", "the recording has no message"), ("", "the recording has no message"),
        ):
            with open(self.recorded, "w", encoding="ascii") as file:
                file.write(text)
            said, _ = self.ran("--read", self.recorded, "--strict", status=NOT_STRICT)
            self.assertEqual(said.splitlines()[-1], f"not strict: {why}")

    def test_what_is_broken(self):
        """It is that alone."""
        for data in (message(9, 0),), (sync(2), (error(1, 0, "no"),)):
            with open(self.recorded, "w", encoding="ascii") as file:
                file.writelines(f"< {it[0].hex()}\n" if isinstance(it, tuple) else f"> {it.hex()}\n" for it in data)
            self.assertNotIn("not strict", self.ran("--read", self.recorded, "--strict", status=BROKEN)[0])

    def test_json(self):
        self.record((1, frame(12) + COMMIT), (4, (done(12),)))
        told = json.loads(self.read("--strict", "--json", status=NOT_STRICT)[-1])
        self.assertEqual(told, {"type": "strict", "client": 1, "reason": "late", "words": LATE[len("not strict: "):]})


class Live(Talking):
    """Sessions, with --strict."""

    def test_what_is_not_judged(self):
        self.assertEqual(self.lines(*OWN, options=["--strict"], status=NOT_STRICT)[-1], UNJUDGED)
        self.assertEqual(self.lines(sync(2), (done(2),), options=["--strict"])[-1], LAWFUL.format(1, 2))

    def test_a_side_that_does_not_read(self):
        self.start("--strict", "--late", "0.3")
        client, compositor = self.client()
        client.sendall(sync(2))
        while "has read nothing" not in self.tool.stdout.readline():
            pass
        self.comes(compositor, sync(2))
        compositor.sendall(done(2))
        self.comes(client, done(2))
        said, _ = self.finish(status=NOT_STRICT)
        self.assertRegex(said, r"(?m)^not strict: the compositor read nothing for \d+\.\d s$")

    def test_no_message(self):
        self.start("--strict")
        self.client()[0].close()
        said, told = self.finish(status=NOT_STRICT)
        self.assertEqual(said.splitlines()[-1], LAWFUL.format(0, 0))
        self.assertIn("waywire-inspect: not strict: no message has passed\n", told)

    def test_the_status_of_a_command(self):
        """What the sessions were comes first."""
        for data, status in ((sync(2).hex(), 5), (message(9, 0).hex(), BROKEN), ("", NOT_STRICT)):
            words = f"{STAYING}\ndisplay.sendall(bytes.fromhex('{data}'))\ndisplay.close()\nsys.exit(5)\n"
            self.ran("--strict", sys.executable, "-c", "import sys\n" + words, status=status)
            self.ran(sys.executable, "-c", "import sys\n" + words, status=5)


class Refused(Talking):
    """What ends the tool before anything is inspected."""

    def refused(self, said, *words):
        self.assertEqual(self.ran(*words, status=REFUSED), ("", f"waywire-inspect: {said}\n"))

    def test_a_recording_that_is_cut_off_in_its_head(self):
        for length in range(1, len(HEAD)):
            with open(self.recorded, "w", encoding="ascii") as file:
                file.write(HEAD[:length])
            self.refused(f"{self.recorded} is cut off in its head", "--read", self.recorded)
        for more in "# from 3.500000\n", "# from 3.500000\n# ids 8 0\n# object 2 1 wl_registry\n":
            with open(self.recorded, "w", encoding="ascii") as file:
                file.write(HEAD + more)
            self.refused(f"{self.recorded} is cut off in its head", "--read", self.recorded)
        for whole in "", HEAD, f"{HEAD}# ended 1.000000\n", "# a comment":
            with open(self.recorded, "w", encoding="ascii") as file:
                file.write(whole)
            self.assertEqual(self.ran("--read", self.recorded), (f"{LAWFUL.format(0, 0)}\n", ""))

    def test_a_recording_that_cannot_be_written(self):
        """The command is not started."""
        made = f"{self.folder}/made"
        command = "touch", made
        self.refused(f"cannot write {self.folder}: Is a directory", "--record", self.folder, *command)
        self.refused(f"cannot write {self.folder}/no/a: No such file or directory", "--record", f"{self.folder}/no/a", *command)
        os.mkdir(f"{self.recorded}.tables")
        self.refused(f"cannot write {self.recorded}.tables: Is a directory", "--record", self.recorded, *command)
        self.assertFalse(os.path.exists(made))

    def test_a_folder_of_tables(self):
        """Its texts are read, in the order of their names; it has one."""
        texts = f"{self.folder}/texts"
        os.mkdir(texts)
        self.refused(f"--tables {texts}: the folder has no table text NAME.tables", "--tables", texts, "true")
        for name, line in ("b.tables", "extend own_a 2\n"), ("a.tables", "interface own_a 1\n"), ("c.text", "no table\n"):
            with open(f"{texts}/{name}", "w", encoding="ascii") as file:
                file.write(line)
        said = REGISTRY, (announced(1, "own_a", 2),), bind(1, "own_a", 2, 3)
        self.assertEqual(self.lines(*said, options=["--tables", texts])[-1], LAWFUL.format(2, 1))


if __name__ == "__main__":
    main()
