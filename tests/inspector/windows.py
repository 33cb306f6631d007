"""Tests of the messages that waywire-inspect prints: those of --from, --to and --last.

    python3 -m tests.inspector.windows [CLASS[.TEST]]..

The environment is that of inspecting.py."""
import json
import re
import struct

from tests.inspector.inspecting import SYNC, done, main, message, sync
from tests.inspector.words import REGISTRY, Talking, bind, error

VERDICT = "lawful: 9 requests, 0 events, 0 and 0 bytes left"


class Windows(Talking):
    def record(self, *pieces, front="", last=""):
        """Writes a recording with a piece at each second."""
        with open(self.recorded, "w", encoding="ascii") as file:
            file.write(front)
            for second, data in enumerate(pieces):
                sign, data = ("<", data[0]) if isinstance(data, tuple) else (">", data)
                file.write(f"# {second}.0\n{sign} {data.hex()}\n")
            file.write(last)

    def read(self, *options, status=0):
        said, told = self.ran("--read", self.recorded, *options, status=status)
        self.assertEqual(told, "")
        return said.splitlines()

    def numbers(self, *options, **how):
        """The numbers of the messages that --json prints."""
        told = [json.loads(it) for it in self.read("--json", *options, **how)]
        return [it["number"] for it in told if it["type"] == "message"]

    def test_windows(self):
        """Nine messages, three in each piece: at 0, 1 and 2 seconds."""
        self.record(*(b"".join(sync(it) for it in range(first, first + 3)) for first in (2, 5, 8)))
        every = list(range(1, 10))
        for options, wanted in (
            ([], every), (["--from", "4"], every[3:]), (["--to", "4"], every[:4]), (["--from=3", "--to=5"], [3, 4, 5]),
            (["--from", "1s"], every[3:]), (["--from", "0.5s", "--to", "1.5s"], [4, 5, 6]), (["--to", "1s"], every[:6]),
            (["--from", "5", "--to", "1s"], [5, 6]), (["--from", "10"], []), (["--from", "9s"], []),
            (["--last", "2"], [8, 9]), (["--last", "9"], every), (["--last", "10"], every),
            (["--last", "2", "--to", "5"], [4, 5]), (["--last", "1", "--to", "0s"], [3]),
            (["--last", "4", "--from", "8"], [8, 9]), (["--last", "3", "--only", "wl_callback"], [7, 8, 9]),
        ):
            with self.subTest(options):
                self.assertEqual(self.numbers(*options), wanted)
                lines = [it for it in self.read(*options) if "answered" not in it]
                self.assertEqual(lines, [*(SYNC.format(it + 1)[:-1] for it in wanted), VERDICT])

    def test_a_live_session(self):
        lines = self.lines(sync(2), sync(3), sync(4), options=["--from", "2", "--to", "2"])
        self.assertEqual(lines[0] + "\n", SYNC.format(3))
        self.assertEqual(len(lines), 2)

    def test_what_is_said_in_any_case(self):
        """A message that breaks a rule, and an error of the compositor; and the verdict is that of the whole session."""
        self.record(sync(2), message(9, 0), sync(3), (error(1, 0, "no"),))
        for options, wanted in ((["--from", "3", "--to", "3"], [3, 4]), (["--last", "1"], [4])):
            self.assertEqual(self.numbers(*options, status=1), wanted)
            lines = self.read(*options, status=1)
            self.assertIn("F2: no object has the id 9", lines)
            self.assertNotIn(SYNC.format(2)[:-1], lines)
        self.record(sync(2), (error(1, 0, "no"),), sync(3))
        self.assertEqual(self.numbers("--last", "1", status=1), [2])

    def test_what_is_not_judged(self):
        """The counts stay; what is said of a message is said if it is printed."""
        bound = bind(1, "own_shell1", 5, 3)
        said = (REGISTRY, (struct.pack("<IHHI", 2, 0, 32, 1) + struct.pack("<I", 11) + b"own_shell1\0\0"
                           + struct.pack("<I", 5),), bound, sync(4), (done(4),))
        self.record(*said)
        whole, part = self.read(), self.read("--last", "2")
        self.assertEqual(part, whole[-3:])
        self.assertEqual(sum("not judged from here" in it for it in whole), 1)

    def test_a_part_of_a_session(self):
        """A recording that begins in the middle has numbers from there on."""
        self.record(*(sync(it) for it in (4, 5, 6)), front="# from 100.0\n# object 3 6 wl_compositor\n")
        self.assertEqual(self.numbers("--last", "2"), [2, 3])

    def test_refused(self):
        self.record(sync(2))
        for word in ("0", "", "x", "-1", "1.5", "s", "1.s", ".5s", "1e3", "1e3s", "99999999999999999999999"):
            for option in ("--from", "--to"):
                said, told = self.ran("--read", self.recorded, f"{option}={word}", status=125)
                self.assertEqual((said, told), ("", f"waywire-inspect: {option} {word}: neither the number of a message "
                                                    "nor a time in seconds, such as 2.5s\n"))
        for word in ("0", "", "x", "1s"):
            said, told = self.ran("--read", self.recorded, f"--last={word}", status=125)
            self.assertTrue(re.match(rf"waywire-inspect: --last {word}: not a number of messages\n", told), told)
        _, error = self.ran("--last", "1", "true", status=125)
        self.assertEqual(error, "waywire-inspect: --last needs --read or --read-debug\n")


if __name__ == "__main__":
    main()
