"""Tests of recordings of any length, and of those that grow while they are read.

    python3 -m tests.inspector.long_recordings [CLASS[.TEST]]..

The environment is that of inspecting.py."""
import contextlib
import json
import os
import pty
import signal
import subprocess
import sys
import threading

from tests.checks import TOP, has_come
from tests.inspector.inspecting import INSPECT, LONG, Inspected, done, main, message, sync
from tests.inspector.words import LAWFUL, Talking

HEAD = "# client foot 4711\n# started 2026-12-01T08:00:00.000Z\n# tables core\n"
# No message of these is printed.
NO_LINES = ("--no-tables", "--only", "wl_shm")
ONE = f"> {sync(2).hex()}\n", f"< {done(2).hex()}\n"
# The limit that recordings had, and what `waywire` reads of a file.
LIMIT = 16777216
# What the tool may have in memory, in kilobytes: a third of the limit.
MEMORY = 6000


class Long(Inspected):
    """A recording that is longer than the limit was."""

    def setUp(self):
        super().setUp()
        self.count = 250000
        with open(self.recorded, "w", encoding="ascii") as file:
            file.write(HEAD)
            for at in range(self.count):
                file.write(f"# {at}.000000\n{ONE[0]}{ONE[1]}")
            file.write(f"# ended {self.count}.000000\n")
        self.assertGreater(os.path.getsize(self.recorded), LIMIT)
        self.verdict = LAWFUL.format(self.count, 2 * self.count)

    def printed(self, *words, **kept):
        said, error = self.ran("--read", *words, "--no-tables", **kept)
        self.assertEqual(error, "")
        return said.splitlines()

    def memory(self):
        """How much memory the tool has had at most, in kilobytes."""
        with open(f"/proc/{self.tool.pid}/status", encoding="ascii") as file:
            return next(int(it.split()[1]) for it in file if it.startswith("VmHWM:"))

    def stays_small(self):
        if len(INSPECT) == 1:
            self.assertLess(self.memory(), MEMORY)

    def test_memory(self):
        """It does not grow with the file: here the last message is read, and more is waited for."""
        with open(self.recorded, "rb+") as file:
            file.truncate(os.path.getsize(self.recorded) - len(f"# ended {self.count}.000000\n"))
        self.start("--read", self.recorded, "--no-tables", "--follow", "--from", f"{3 * self.count}", stdout=subprocess.PIPE)
        self.assertEqual(self.tool.stdout.readline(), "<- wl_display@1.delete_id(2)\n")
        self.stays_small()
        self.assertEqual(self.finish()[0], f"{self.verdict}\n")

    def test_memory_with_a_pipe(self):
        with open(self.recorded, encoding="ascii") as file:
            whole = file.read()
        self.start("--read", "-", *NO_LINES, stdin=subprocess.PIPE)
        self.tool.stdin.write(whole)
        self.tool.stdin.flush()
        self.stays_small()
        self.assertEqual(self.tool.communicate(timeout=LONG)[0], f"{self.verdict}\n")

    def test_the_last_of_a_pipe(self):
        with subprocess.Popen(["cat", self.recorded], stdout=subprocess.PIPE) as whole:
            lines = self.printed("-", "--last", "2", stdin=whole.stdout)
        self.assertEqual(lines, ["<- wl_callback@2.done(7)", "<- wl_display@1.delete_id(2)", self.verdict])

    def test_a_window(self):
        lines = self.printed(self.recorded, "--from", f"{3 * self.count - 2}", "--to", f"{3 * self.count - 2}", "--time")
        self.assertEqual(lines, [f"{self.count - 1}.000000 -> wl_display@1.sync(new id wl_callback@2)".rjust(11),
                                 f"{self.count}.000000 {self.verdict}"])

    def test_a_bad_line(self):
        with open(self.recorded, "a", encoding="ascii") as file:
            file.write("no piece")
        _, error = self.ran("--read", self.recorded, *NO_LINES, status=125)
        self.assertEqual(error, f"waywire-inspect: line {3 * self.count + 5}: bad line\n")

    def test_progress(self):
        """It is shown on a terminal while more comes, and removed."""
        mine, its = pty.openpty()
        self.addCleanup(os.close, mine)
        seen = b""
        with subprocess.Popen([*INSPECT, "--read", "-", *NO_LINES], env=self.env, stdin=subprocess.PIPE,
                              stdout=subprocess.PIPE, stderr=its) as tool:
            os.close(its)
            writer = threading.Thread(target=self.writes_slowly, args=(tool.stdin,), daemon=True)
            writer.start()
            while b"MB" not in seen:
                seen += os.read(mine, 4096)
            self.is_seen.set()
            writer.join(LONG)
            self.assertEqual(tool.stdout.read().decode(), f"{self.verdict}\n")
        with contextlib.suppress(OSError):  # EIO: all of it was read
            while part := os.read(mine, 4096):
                seen += part
        self.assertRegex(seen, rb"\A\r\x1b\[K-: \d+\.\d MB")
        self.assertTrue(seen.endswith(b"\r\x1b[K"), seen)

    def writes_slowly(self, pipe):
        """Writes the recording, whose last half comes when the progress was seen."""
        self.is_seen = threading.Event()
        with open(self.recorded, "rb") as file, pipe:
            while part := file.read(100000):
                pipe.write(part)
                pipe.flush()
                if not self.is_seen.is_set() and file.tell() > LIMIT / 2:
                    self.is_seen.wait(0.1)

    def test_a_line_without_end(self):
        with subprocess.Popen(["head", "-c", f"{2 * LIMIT}", "/dev/zero"], stdout=subprocess.PIPE) as zeros:
            _, error = self.ran("--read", "-", status=125, stdin=zeros.stdout)
            zeros.stdout.close()
        self.assertEqual(error, "waywire-inspect: -: line 1 is too long\n")

    def test_its_page(self):
        """A page is made of the end of a session, however long the recording is."""
        big = message(2, 0, 1, 2048, *[0x41414141] * 511, 0, 1)  # no more than a client may say
        with open(self.recorded, "w", encoding="ascii") as file:
            file.write(HEAD + f"> {message(1, 1, 2).hex()}\n" + f"> {big.hex()}\n" * 4200)
        self.assertGreater(os.path.getsize(self.recorded), LIMIT)
        page = f"{self.folder}/page.html"
        subprocess.run([sys.executable, f"{TOP}/tools/waywire-picture", "--inspector", INSPECT[-1], "-o", page, self.recorded],
                       env=self.env, check=True, timeout=LONG)
        self.assertGreater(os.path.getsize(page), 1000)


class Recording(Talking):
    def test_it_is_not_cut(self):
        """What is recorded has no limit, and is read as it passed."""
        self.start("--no-tables", "--record", self.recorded, "--output", "/dev/null")
        client, compositor = self.client()
        for _ in range(150):
            self.passes(client, compositor, sync(2) * 5000)
        self.finish(status=1)
        self.assertGreater(os.path.getsize(self.recorded), LIMIT)
        with open(self.recorded, "rb") as file:
            self.assertRegex(file.read().splitlines()[-1], rb"\A# ended \d")

    def test_options(self):
        for words, why in ((("--record-limit", "16M"), "--record-limit needs --record"),
                           (("--record-limit", "5"), "--record-limit 5: not a number of bytes from 4M on, such as 64M"),
                           (("--record-limit", "16X"), "--record-limit 16X: not a number of bytes from 4M on, such as 64M"),
                           (("--follow",), "--follow needs --read"),
                           (("--read", "-", "--follow"), "--follow needs a file: what comes through standard input is "
                            "read as it comes")):
            command = () if "--read" in words else ("true",)
            self.assertEqual(self.ran(*words, *command, status=125)[1], f"waywire-inspect: {why}\n")


class Following(Inspected):
    """A file that grows."""

    def begin(self, *options, first=HEAD):
        self.file = self.enterContext(open(self.recorded, "w", encoding="ascii"))
        self.writes(first)
        self.said = f"{self.folder}/said"
        with open(self.said, "wb") as said:
            self.tool = subprocess.Popen([*INSPECT, "--read", self.recorded, "--no-tables", "--follow", *options],
                                         env=self.env, stdout=said, stderr=said)
        self.addCleanup(self.end, self.tool)

    def writes(self, words):
        self.file.write(words)
        self.file.flush()

    def lines(self):
        with open(self.said, encoding="utf-8") as file:
            return file.read().splitlines()

    def have_come(self, count):
        self.assertTrue(has_come(lambda: len(self.lines()) >= count, LONG), self.lines())

    def test_until_its_session_ends(self):
        self.begin()
        self.writes(ONE[0])
        self.have_come(1)
        self.writes(ONE[1][:20])
        self.writes(ONE[1][20:])
        self.have_come(3)
        self.writes("# ended 5.000000\n")
        self.assertEqual(self.tool.wait(LONG), 0)
        self.assertEqual(self.lines()[3:], [LAWFUL.format(1, 2)])

    def test_until_a_signal(self):
        """The last line is not whole, and does not count."""
        for number in (signal.SIGINT, signal.SIGTERM):
            self.begin(first=HEAD + "".join(ONE))
            self.writes(ONE[0][:14])
            self.have_come(3)
            self.tool.send_signal(number)
            self.assertEqual(self.tool.wait(LONG), 0)
            self.assertEqual(self.lines()[3:], [LAWFUL.format(1, 2)])

    def test_the_last_ones_and_later_ones(self):
        self.begin("--last", "1", "--output", f"{self.folder}/lines", first=HEAD + "".join(ONE) * 40)
        self.said = f"{self.folder}/lines"
        self.assertTrue(has_come(lambda: os.path.exists(self.said), LONG))
        self.have_come(1)
        self.writes(ONE[0])
        self.have_come(2)
        self.assertEqual(self.lines(), ["<- wl_display@1.delete_id(2)", "-> wl_display@1.sync(new id wl_callback@2)"])

    def test_a_session(self):
        """A session that is recorded at the same time, in JSON."""
        self.start("--record", self.recorded)
        client, compositor = self.client()
        self.assertTrue(has_come(lambda: os.path.exists(self.recorded), LONG))
        with subprocess.Popen([*INSPECT, "--read", self.recorded, "--follow", "--json"], env=self.env, text=True,
                              stdout=subprocess.PIPE) as reader:
            self.passes(client, compositor, sync(2))
            kinds = [json.loads(reader.stdout.readline())["type"] for _ in range(3)]
            self.assertEqual(kinds, ["head", "client", "message"])
            self.passes(compositor, client, done(2))
            self.assertEqual(json.loads(reader.stdout.readline())["message"], "done")
            self.finish()
            lines = [json.loads(it) for it in reader.stdout.read().splitlines()]
            self.assertEqual((lines[-1]["type"], lines[-1]["verdict"]), ("verdict", "lawful"))
        self.assertEqual(reader.returncode, 0)

    def test_a_file_that_becomes_shorter(self):
        self.begin(first=HEAD + "".join(ONE))
        self.have_come(3)
        self.file.truncate(10)
        self.assertEqual(self.tool.wait(LONG), 0)
        self.assertEqual(self.lines()[3:], [f"waywire-inspect: {self.recorded} has become shorter, and is not read further",
                                            LAWFUL.format(1, 2)])


if __name__ == "__main__":
    main()
