"""Attacks on waywire-inspect: recordings that would take very much time or memory if it stored them badly.

    python3 -m tests.inspector.attacks [CLASS[.TEST]]..

The cost is counted under valgrind, in instructions and in bytes of heap, for some number of messages and for twice as
many: it must be linear in the number. The environment is that of inspecting.py."""
import re
import subprocess
import tempfile
import unittest

from tests.checks import need
from tests.inspector.inspecting import INSPECT, LONG, main, message, sync
from tests.inspector.words import REGISTRY, announced, bind

COUNT = 2000
# Twice as many messages take at most so many times as much. Memory that grows is asked for in steps, each twice the
# one before.
LINEAR = {"instructions": 2.3, "bytes": 4.2}
# How much more memory a message with a high id may take, in bytes.
FEW_BYTES = 16 * 2**20
MOST_BYTES_OF_PIECE = 60_000
HIGH_ID = 1_048_576


def pieces(sign, messages):
    """The lines of a recording, each with as many messages as a long piece has."""
    lines, data = [], b""
    for it in messages:
        data += it
        if len(data) > MOST_BYTES_OF_PIECE:
            lines.append(f"{sign} {data.hex()}\n")
            data = b""
    return "".join(lines) + (f"{sign} {data.hex()}\n" if data else "")


OPENED = pieces(">", [REGISTRY])
UNKNOWN = OPENED + pieces("<", [announced(1, "zz_a", 1)]) + pieces(">", [bind(1, "zz_a", 1, 3)])


class Attack(unittest.TestCase):
    def setUp(self):
        need("valgrind")
        folder = tempfile.TemporaryDirectory(prefix="attacks-")
        self.addCleanup(folder.cleanup)
        self.folder = folder.name

    def measured(self, recording, tool, *options):
        """Has the tool read a recording under a tool of valgrind, and returns what that says."""
        path, out = f"{self.folder}/a.rec", f"{self.folder}/measured"
        with open(path, "w", encoding="ascii") as file:
            file.write(recording)
        words = ["valgrind", f"--tool={tool}", f"--{tool}-out-file={out}", *INSPECT, "--no-tables", "--read", path]
        ran = subprocess.run([*words, *options], stdout=subprocess.DEVNULL, stderr=subprocess.PIPE, text=True,
                             timeout=LONG, check=False)
        self.assertIn(ran.returncode, (0, 1), ran.stderr)
        with open(out, encoding="utf-8") as file:
            return ran.stderr + file.read()

    def instructions(self, recording, *options):
        said = self.measured(recording, "callgrind", *options)
        return int(re.search(r"Collected *: *(\d+)", said)[1])

    def bytes(self, recording, *options):
        """The most bytes of heap at one time."""
        said = self.measured(recording, "massif", *options)
        return max(int(it) for it in re.findall(r"^mem_heap_B=(\d+)$", said, re.M))

    def is_linear(self, make, *options):
        """The cost of this many messages beyond that of an empty recording, and the cost of twice as many."""
        for measure in (self.instructions, self.bytes):
            none, some, more = (measure(it, *options) for it in (OPENED, make(COUNT), make(2 * COUNT)))
            with self.subTest(measure.__name__):
                self.assertLess(more - none, LINEAR[measure.__name__] * max(some - none, 4096), (none, some, more))


class Many(Attack):
    """Many of something take as much as they are."""

    def test_globals(self):
        self.is_linear(lambda count: OPENED + pieces("<", (announced(it, "wl_shm", 1) for it in range(count))))

    def test_globals_of_unknown_interfaces(self):
        self.is_linear(lambda count: OPENED + pieces("<", (announced(it, f"zz_{it:06}", 1) for it in range(count))))

    def test_binds_of_unknown_interfaces(self):
        self.is_linear(lambda count: UNKNOWN + pieces(">", (bind(1, f"zz_{it:06}", 1, 4 + it)
                                                             for it in range(count))), "--json")

    def test_messages_of_unknown_objects(self):
        self.is_linear(lambda count: UNKNOWN + pieces(">", (message(3, 0, it) for it in range(count))))

    def test_a_piece_of_many_messages(self):
        self.is_linear(lambda count: f"{UNKNOWN}< {b''.join(message(3, 0, it) for it in range(count)).hex()}\n")

    def test_many_pieces(self):
        """A message in pieces of one byte."""
        self.is_linear(lambda count: UNKNOWN + "".join(f"> {byte:02x}\n" for it in range(count // 8)
                                                        for byte in message(3, 0)))

    def test_syncs(self):
        """They are answered the last first."""
        self.is_linear(self.syncs)

    def test_stats_of_syncs(self):
        self.is_linear(self.syncs, "--stats")

    def syncs(self, count):
        numbers = range(3, 3 + count)
        return OPENED + pieces(">", map(sync, numbers)) + pieces("<", (message(it, 0, 1) for it in reversed(numbers)))


class High(Attack):
    """A message with a high new id takes little memory."""

    def test_high_ids(self):
        none = self.bytes(OPENED)
        for front in (OPENED, UNKNOWN):
            for it in (sync(HIGH_ID), bind(1, "wl_shm", 1, HIGH_ID), sync(HIGH_ID - 2)):
                for options in ((), ("--json",), ("--stats",)):
                    with self.subTest(it.hex(), front=front, options=options):
                        self.assertLess(self.bytes(front + pieces(">", [it]), *options), none + FEW_BYTES)


if __name__ == "__main__":
    main()
