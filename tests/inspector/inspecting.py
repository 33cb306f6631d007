"""Tests of waywire-inspect: clients and compositors that these tests play.

    python3 -m tests.inspector.inspecting [CLASS[.TEST]]..

INSPECT in the environment is the tool [default: out/c/waywire-inspect]. WAYWIRE is a
built `waywire`, which judges what was recorded, and may be missing. `./test c` runs them."""
import contextlib
import os
import random
import re
import resource
import signal
import socket
import struct
import subprocess
import sys
import tempfile
import threading
import time
import unittest

from scripts import usage
from tests.checks import TOP, count_cases, has_come, is_listening, joined_tables, suite_of

INSPECT = os.environ.get("INSPECT", f"{TOP}/out/c/waywire-inspect").split()
WAYWIRE = os.environ.get("WAYWIRE")
# How long anything may take that ends, in seconds: many times what it takes.
LONG = 300
# How long the tool waits for its command behind a signal, in seconds, until it ends the session.
GRACE = 2
SYNC = "-> wl_display@1.sync(new id wl_callback@{})\n"
# What is printed of a message for an object that never was, behind a sync.
BROKEN = """-> unknown@9: opcode 0, 8 bytes, bytes 0900000000000800
F2: no object has the id 9
broken: > message 2 at byte 12: F2 unknown object
"""
# What is printed of the answer to that sync, which comes behind it.
BEHIND = "? <- wl_callback@2.done(7)\n? <- wl_display@1.delete_id(2)\n"
# What is said of a question that has waited for a second or longer.
WAITING = re.compile(r"^.*(?:: \d+ not answered|: none of \d+ answered).*\n", re.M)
# What is said while a session stands still.
STANDING = re.compile(r"^.*(?:waiting since [\d.]+ s: |(?:answered|any more|reads again) after [\d.]+ s"
                      r'|^{"type":"(?:waiting|waited|not_reading|reads_again)").*\n', re.M)
# What is said of a delete_id that nothing asked for: a line behind it, and the end of the verdict.
TAKEN_BACK = re.compile(r"(?:^|; )the compositor took back id \d+, which nobody had given up$")
# Who a client is, in words; a string, or what stands behind a number or an array to explain it.
WHO = r"(?:[^()\"]*, )?process \d+"
NAMED = re.compile(r'("[^"]*")|(?<=\d) \w+(?:\|\w+)*(?=[,)])|(?<=\]) \{[^}]*\}')
GONE = "waywire-inspect: the compositor has closed the connection of client 1\n"


def message(target, opcode, *words):
    return struct.pack(f"<IHH{len(words)}I", target, opcode, 8 + 4 * len(words), *words)


def sync(number):
    return message(1, 0, number)


def done(number):
    """A callback's end: its event, and its delete_id."""
    return message(number, 0, 7) + message(1, 1, number)


def closed(descriptors):
    for it in descriptors:
        os.close(it)


def written_at_random(target, chance):
    """Writes pieces of any size with any descriptors, and ends the writing. Returns the bytes, and for each descriptor
    its place among them and its file."""
    data, numbers = bytearray(), []
    for _ in range(400):
        part = chance.randbytes(chance.randint(1, 9000))
        files = [os.memfd_create("it") for _ in range(chance.choice((0, 0, 0, 0, 0, 1, 2, 28)))]
        numbers += [(len(data), os.fstat(it).st_ino) for it in files]
        sent = socket.send_fds(target, [part], files)
        target.sendall(part[sent:])
        data += part
        closed(files)
    target.shutdown(socket.SHUT_WR)
    return bytes(data), numbers


def read_at_random(source, chance):
    """Reads pieces of any size to the end. Returns the bytes, and for each descriptor the place of the piece with which
    it came, and its file."""
    data, numbers = bytearray(), []
    while True:
        part, files, _, _ = socket.recv_fds(source, chance.randint(1, 20000), 253)
        numbers += [(len(data), os.fstat(it).st_ino) for it in files]
        closed(files)
        data += part
        if not part:
            return bytes(data), numbers


def main():
    """Runs the tests that the words name, or all. Says which are skipped, and counts them."""
    program = sys.modules["__main__"]
    sys.exit(count_cases(suite_of(usage.words(program.__doc__), program)))


class Inspected(unittest.TestCase):
    """A folder with a compositor's socket, and the tool."""

    COMMAND = INSPECT

    def setUp(self):
        self.folder = self.enterContext(tempfile.TemporaryDirectory(prefix="inspect-"))
        self.recorded = f"{self.folder}/a.rec"
        self.listener = self.enterContext(socket.socket(socket.AF_UNIX))
        self.listener.bind(f"{self.folder}/display")
        self.listener.listen(64)
        self.listener.settimeout(LONG)
        self.env = {**os.environ, "XDG_RUNTIME_DIR": self.folder, "WAYLAND_DISPLAY": "display"}
        self.env.pop("WAYLAND_SOCKET", None)

    def enterContext(self, context):
        made = context.__enter__()
        self.addCleanup(context.__exit__, None, None, None)
        return made

    def start(self, *words, **kept):
        """Starts the tool, and notes the path of its socket if there is no command."""
        self.tool = subprocess.Popen([*self.COMMAND, *words], **self.how(kept))
        self.addCleanup(self.end, self.tool)
        if not kept and sys.executable not in words:
            its = self.tool.stderr if "--json" in words else self.tool.stdout
            name = its.readline().rstrip("\n").removeprefix("WAYLAND_DISPLAY=")
            self.path = f"{self.folder}/{name}"

    def how(self, kept):
        """How the tool is run."""
        piped = {"stdout": subprocess.PIPE, "stderr": subprocess.PIPE}
        return {**piped, "env": self.env, "text": True, **kept}

    def end(self, tool):
        tool.kill()
        tool.wait()
        for it in (tool.stdout, tool.stderr):
            if it:
                it.close()

    def client(self):
        """A client, and the compositor's end of its connection."""
        client = self.enterContext(socket.socket(socket.AF_UNIX))
        client.settimeout(LONG)
        client.connect(self.path)
        peer = self.enterContext(self.listener.accept()[0])
        peer.settimeout(LONG)
        return client, peer

    def comes(self, target, data):
        got = b""
        while len(got) < len(data) and (part := target.recv(len(data) - len(got))):
            got += part
        self.assertEqual(got, data)

    def passes(self, source, target, data):
        source.sendall(data)
        self.comes(target, data)

    def finish(self, number=signal.SIGTERM, status=0):
        """Stops the tool by a signal, and returns what it said."""
        if number:
            self.tool.send_signal(number)
        said, error = self.tool.communicate(timeout=LONG)
        if status is not None:
            self.assertEqual(self.tool.returncode, status, (said, error))
        return self.of_one(self.at_once(said)), error

    def at_once(self, said):
        """What was said, without what has waited on a slow machine. --stats lists that in any case."""
        said = said and STANDING.sub("", said)
        return said if said is None or "objects left open" in said else WAITING.sub("", said)

    def of_one(self, said):
        """What was said of a client that is the only one, without its number and without who it is."""
        if said is None or re.search(r"^(?: *[\d.:]+ )?#2 ", said, re.M):
            return said
        said = re.sub(r"^( *[\d.:]+ )?#1 is .*\n", "", said, flags=re.M)
        said = re.sub(rf" \({WHO}\)(?=(?:\x1b\[0m)?$)", "", said, flags=re.M)
        return re.sub(r"^( *[\d.:]+ )?#1 ", r"\1", said, flags=re.M)

    def who(self):
        """Who the clients are that the test itself plays."""
        with open("/proc/self/comm", encoding="ascii") as file:
            return f"{file.read().strip()}, process {os.getpid()}"

    def pieces(self, path):
        """The pieces of a recording, each a line, without the comments."""
        with open(path, encoding="utf-8") as file:
            return "".join(it for it in file if not it.startswith("#"))

    def ran(self, *words, status=0, **kept):
        """Runs the tool to its end, and returns what it said."""
        it = subprocess.run([*INSPECT, *words], timeout=LONG, **self.how(kept))
        if status is not None:
            self.assertEqual(it.returncode, status, (it.stdout, it.stderr))
        return it.stdout, it.stderr

    def all_tables(self):
        """The installed texts, joined: the path of a file."""
        path = f"{self.folder}/all.tables"
        with open(path, "wb") as file:
            file.write(joined_tables())
        return path

    def checked(self, path, lines, *words):
        """What the program prints of a recording is what the tool printed, the verdict last."""
        if WAYWIRE:
            ran = [subprocess.run([WAYWIRE, job, *words, path], timeout=5 * LONG, **self.how({}))
                   for job in ("trace", "check")]
            lines = [it for it in lines if not WAITING.match(f"{it}\n") and not STANDING.match(f"{it}\n")]
            lines = [TAKEN_BACK.sub("", it) for it in lines if not TAKEN_BACK.match(it)]
            is_broken = lines[-1].startswith("broken: ")
            self.assertEqual([it.returncode for it in ran], [is_broken] * 2)
            lines = [self.escaped(self.without_names(it)) for it in lines]
            self.assertEqual(ran[0].stdout.splitlines(), lines[:-1] + lines[-1:] * is_broken)
            self.assertEqual(ran[1].stdout.splitlines(), lines[-1:])

    def without_names(self, line):
        """The line of a message without the names of values and what arrays hold."""
        return NAMED.sub(lambda it: it[1] or "", line) if re.match("(?:->|<-) ", line) else line

    def escaped(self, line):
        """A line as the program prints it, which knows no characters but those of ASCII."""
        return "".join(it if it.isascii() else "".join(f"\\x{byte:02x}" for byte in it.encode()) for it in line)

    def answering(self, *answers):
        """A compositor that reads once before each answer, and then until its client has gone."""
        def answer():
            with self.listener.accept()[0] as peer:
                for it in answers:
                    peer.recv(4096)
                    peer.sendall(it)
                while peer.recv(4096):
                    pass
        thread = threading.Thread(target=answer, daemon=True)
        thread.start()
        self.addCleanup(thread.join, LONG)


# A client that is connected.
STAYING = """
import os, signal, socket, sys
display = socket.socket(socket.AF_UNIX)
display.connect(os.environ["XDG_RUNTIME_DIR"] + "/" + os.environ["WAYLAND_DISPLAY"])
"""
# One that sends what it is given in hexadecimal digits, reads so many bytes, and ends so.
CLIENT = STAYING + """
display.sendall(bytes.fromhex(sys.argv[1]))
display.recv(int(sys.argv[2]), socket.MSG_WAITALL)
if len(sys.argv) > 4:
    os.kill(os.getpid(), signal.SIGKILL)
sys.exit(int(sys.argv[3]))
"""


def client(data, length, *status):
    return [sys.executable, "-c", CLIENT, data.hex(), str(length), *(str(it) for it in status)]


class Passing(Inspected):
    """What passes is what was sent."""

    def test_bytes_and_descriptors(self):
        self.start("--record", self.recorded)
        client, compositor = self.client()
        ways = ((client, compositor, b"request"), (compositor, client, b"event"))
        for source, target, word in ways:
            readers, writers = zip(os.pipe(), os.pipe())
            socket.send_fds(source, [word], writers)
            closed(writers)
            data, numbers, _, _ = socket.recv_fds(target, 100, 10)
            self.assertEqual((data, len(numbers)), (word, 2))
            for reader, number in zip(readers, numbers):
                os.write(number, word)
                os.close(number)
                # All copies of the writing end are closed: the tool has kept none.
                self.assertEqual((os.read(reader, 100), os.read(reader, 100)), (word, b""))
                os.close(reader)
            self.passes(target, source, b"x")
        client.close()
        self.assertEqual(compositor.recv(100), b"")
        self.finish(status=1)
        request, event = b"request".hex(), b"event".hex()
        wanted = f"> {request} +2\n< 78\n< {event} +2\n> 78\n"
        self.assertEqual(self.pieces(self.recorded), wanted)

    def test_descriptors_are_not_kept(self):
        self.start()
        client, compositor = self.client()
        counts = []
        with open(os.devnull, "rb") as null:
            for number in range(40):
                socket.send_fds(client, [sync(2 + number)], [null.fileno()] * (1 + number * 6))
                _, numbers, _, _ = socket.recv_fds(compositor, 100, 253)
                self.assertEqual(len(numbers), 1 + number * 6)
                closed(numbers)
                self.passes(compositor, client, b"xxxx")
                counts.append(len(os.listdir(f"/proc/{self.tool.pid}/fd")))
        self.assertEqual(len(set(counts)), 1, counts)
        client.close()
        self.assertEqual(compositor.recv(100), b"")
        self.finish(status=1)

    def test_a_slow_compositor(self):
        """The compositor takes a part at a time, and the client has to wait. The descriptor comes first."""
        self.start("--record", self.recorded)
        client, compositor = self.client()
        data = bytes(range(256)) * 16384
        with open(os.devnull, "rb") as null:
            sent = socket.send_fds(client, [data], [null.fileno()])
        client.settimeout(1)
        with contextlib.suppress(TimeoutError):
            while sent < len(data):
                sent += client.send(data[sent:])
        self.assertLess(sent, 2_000_000)
        writer = threading.Thread(target=client.sendall, args=(data[sent:],), daemon=True)
        client.settimeout(LONG)
        writer.start()
        got, numbers = bytearray(), []
        while len(got) < len(data):
            part, more, _, _ = socket.recv_fds(compositor, 30000, 10)
            numbers += [len(got)] * len(more)
            closed(more)
            got.extend(part)
        writer.join(LONG)
        self.assertEqual((bytes(got) == data, numbers), (True, [0]))
        self.finish(status=1)
        words = [it.split() for it in self.pieces(self.recorded).splitlines()]
        self.assertEqual("".join(it[1] for it in words), data.hex())
        self.assertEqual([it[2:] for it in words if it[2:]], [["+1"]])

    def test_the_last_words_of_a_compositor(self):
        """What it wrote before it closed arrives, though what the client wrote cannot go on."""
        self.start()
        client, compositor = self.client()
        self.passes(client, compositor, b"one")
        compositor.send(b"error")
        compositor.close()
        with contextlib.suppress(BrokenPipeError, ConnectionResetError):
            for _ in range(100):
                client.send(b"request")
        self.assertEqual(client.recv(100), b"error")
        with contextlib.suppress(ConnectionResetError):
            self.assertEqual(client.recv(100), b"")
        self.tool.send_signal(signal.SIGTERM)
        _, error = self.tool.communicate(timeout=LONG)
        self.assertIn(GONE, error)

    def test_the_last_words_of_a_client(self):
        self.start("--output", f"{self.recorded}.lines")
        client, compositor = self.client()
        data = sync(2) * 20_000
        def write():
            client.sendall(data)
            client.close()
        threading.Thread(target=write, daemon=True).start()
        time.sleep(0.3)
        got = b""
        while part := compositor.recv(65536):
            got += part
        self.assertEqual(len(got), len(data))
        self.finish(status=1)

    def test_a_client_that_ends_its_writing(self):
        """It still reads what the compositor answers."""
        self.start()
        client, compositor = self.client()
        client.sendall(sync(2))
        client.shutdown(socket.SHUT_WR)
        self.comes(compositor, sync(2))
        self.passes(compositor, client, done(2))
        compositor.close()
        self.assertEqual(client.recv(100), b"")
        said, error = self.finish()
        self.assertEqual(said.splitlines()[-1], "lawful: 1 requests, 2 events, 0 and 0 bytes left")
        self.assertEqual(error.count("\n"), 1)

    def test_both_ways_at_once(self):
        """Pieces of any size with any descriptors, cut anywhere when they are read: the descriptors come in
        order, and none after its byte."""
        self.start()
        ends = self.client()
        written, got = {}, {}

        def write(end):
            written[end] = written_at_random(ends[end], random.Random(end))

        def read(end):
            got[1 - end] = read_at_random(ends[end], random.Random(end))

        threads = [threading.Thread(target=does, args=(end,), daemon=True)
                   for does in (write, read) for end in (0, 1)]
        for it in threads:
            it.start()
        for it in threads:
            it.join(LONG)
        for way in (0, 1):
            self.assertEqual(got[way][0], written[way][0])
            (came, files), (went, sent) = (zip(*it[way][1]) for it in (got, written))
            self.assertEqual(files, sent)
            self.assertTrue(all(one <= other for one, other in zip(came, went)))
        self.finish(status=1)

    def test_memory_does_not_grow(self):
        self.start()
        client, compositor = self.client()
        part, used = bytes(2**20), []
        reader = threading.Thread(target=self.read_all, args=(compositor,), daemon=True)
        reader.start()
        for _ in range(4):
            for _ in range(64):
                client.sendall(part)
            # Not what is resident, of which the system takes some away and gives it back.
            with open(f"/proc/{self.tool.pid}/status", encoding="ascii") as file:
                used.append(int(re.search(r"VmData:\s*(\d+) kB", file.read())[1]))
        self.assertLess(used[-1], used[0] + 1000, used)
        client.close()
        reader.join(LONG)
        self.finish(status=1)

    def read_all(self, end):
        while end.recv(2**20):
            pass

    def test_many_small_requests(self):
        self.start("--record", self.recorded)
        client, compositor = self.client()
        count, numbers = 10_000, range(2, 102)
        part = b"".join(sync(it) for it in numbers)
        answer = b"".join(done(it) for it in numbers)
        self.lines = []
        reader = threading.Thread(target=self.drain, args=(self.tool.stdout,), daemon=True)
        reader.start()
        for _ in range(count // len(numbers)):
            for it in numbers:
                client.sendall(sync(it))
            self.comes(compositor, part)
            self.passes(compositor, client, answer)
        client.close()
        self.assertEqual(compositor.recv(100), b"")
        verdict = f"lawful: {count} requests, {2 * count} events, 0 and 0 bytes left"
        # Once it is told to stop, the tool waits for its reader only a second.
        self.assertTrue(has_come(lambda: self.lines and verdict in self.lines[-1], LONG), self.lines[-1:])
        self.tool.send_signal(signal.SIGTERM)
        self.assertEqual(self.tool.wait(LONG), 0)
        reader.join(LONG)
        lines = self.of_one("".join(self.lines)).splitlines()
        self.assertEqual(sum(it.startswith("-> wl_display@1.sync(") for it in lines), count)
        self.assertEqual(lines[-1], verdict)
        self.checked(self.recorded, lines)

    def drain(self, file):
        self.lines.extend(file)


class Sockets(Inspected):
    """The tool's socket, and how it finds the compositor's."""

    def test_its_socket_and_its_lock(self):
        """Both are there as long as the tool, however it is stopped."""
        for number in (signal.SIGINT, signal.SIGTERM, signal.SIGHUP):
            with self.subTest(number):
                self.start()
                name = f"waywire-{self.tool.pid}"
                self.assertEqual(sorted(os.listdir(self.folder)), ["display", name, f"{name}.lock"])
                self.client()
                self.finish(number)
                self.assertEqual(os.listdir(self.folder), ["display"])

    def test_a_name_that_is_taken(self):
        def take():
            with open(f"{self.folder}/waywire-{os.getpid()}", "x", encoding="ascii"):
                pass
        self.start(preexec_fn=take)
        name = f"waywire-{self.tool.pid}"
        self.assertEqual(self.tool.stdout.readline(), f"WAYLAND_DISPLAY={name}-1\n")
        self.finish(status=125)
        self.assertEqual(sorted(os.listdir(self.folder)), ["display", name])

    def test_a_socket_that_was_left(self):
        """One of an earlier process with the same number is replaced."""
        def leave():
            with socket.socket(socket.AF_UNIX) as left:
                left.bind(f"{self.folder}/waywire-{os.getpid()}")
        self.start(preexec_fn=leave)
        name = f"waywire-{self.tool.pid}"
        self.assertEqual(self.tool.stdout.readline(), f"WAYLAND_DISPLAY={name}\n")
        self.path = f"{self.folder}/{name}"
        self.client()
        self.finish()
        self.assertEqual(os.listdir(self.folder), ["display"])

    def test_a_socket_that_is_connected(self):
        """WAYLAND_SOCKET is not looked at, and the command does not get it."""
        own, other = (self.enterContext(it) for it in socket.socketpair())
        self.env["WAYLAND_SOCKET"] = str(other.fileno())
        says = STAYING + 'print(os.environ.get("WAYLAND_SOCKET"), flush=True)'
        self.answering()
        said, error = self.ran(sys.executable, "-c", says, pass_fds=[other.fileno()])
        self.assertEqual((said.splitlines()[0], error), ("None", ""))
        own.setblocking(False)
        with self.assertRaises(BlockingIOError):
            own.recv(1)

    def test_the_compositor_s_name(self):
        """A path, a name, and wayland-0."""
        os.symlink("display", f"{self.folder}/wayland-0")
        for name in (f"{self.folder}/display", "display", "", None):
            with self.subTest(name):
                self.env.pop("WAYLAND_DISPLAY", None)
                if name is not None:
                    self.env["WAYLAND_DISPLAY"] = name
                self.start()
                self.passes(*self.client(), sync(2))
                self.finish()

    def test_no_compositor(self):
        name = "x" * 100
        for folder, display, said in (
            (self.folder, "none", f"no compositor at {self.folder}/none: No such file or directory"),
            (self.folder, name, f"the path of the compositor's socket {name} is too long"),
            (None, "display", "XDG_RUNTIME_DIR is not set"),
            ("", "display", "XDG_RUNTIME_DIR is not set"),
            ("run", "display", "XDG_RUNTIME_DIR is not an absolute path: run"),
            (None, f"{self.folder}/display", "XDG_RUNTIME_DIR is not set"),
            ("/none", f"{self.folder}/display", "cannot bind /none/waywire-PID: No such file or directory"),
            (f"/{name}", f"{self.folder}/display", "XDG_RUNTIME_DIR is too long for the path of a socket"),
        ):
            with self.subTest(folder=folder, display=display):
                self.env.pop("XDG_RUNTIME_DIR", None)
                if folder is not None:
                    self.env["XDG_RUNTIME_DIR"] = folder
                self.env["WAYLAND_DISPLAY"] = display
                nothing, error = self.ran("true", status=125)
                error = re.sub(r"waywire-\d+:", "waywire-PID:", error)
                self.assertEqual((nothing, error), ("", f"waywire-inspect: {said}\n"))

    def test_a_compositor_without_room(self):
        """It is waited for five seconds."""
        self.listener.listen(0)
        waiting = self.enterContext(socket.socket(socket.AF_UNIX))
        waiting.connect(f"{self.folder}/display")
        began = time.monotonic()
        _, error = self.ran("true", status=125)
        self.assertGreaterEqual(time.monotonic() - began, 5)
        self.assertEqual(error, f"waywire-inspect: no compositor at {self.folder}/display: "
                                "Resource temporarily unavailable\n")


class Judging(Inspected):
    """What is printed, and the exit status."""

    def test_a_command(self):
        self.answering(done(2))
        said = self.ran("--record", self.recorded, *client(sync(2), 24, 7), status=7)
        lines = SYNC.format(2) + "<- wl_callback@2.done(7)\n<- wl_display@1.delete_id(2)\n"
        verdict = "lawful: 1 requests, 2 events, 0 and 0 bytes left"
        self.assertEqual(said, (lines + verdict + "\n", ""))
        self.assertEqual(self.pieces(self.recorded), f"> {sync(2).hex()}\n< {done(2).hex()}\n")
        self.checked(self.recorded, said[0].splitlines())
        self.assertEqual(sorted(os.listdir(self.folder)), ["a.rec", "a.rec.tables", "display"])

    def test_a_broken_message(self):
        """It is named at its place. What follows is passed on, and printed as not judged."""
        self.answering(done(2))
        data = sync(2) + message(9, 0) + sync(3)
        said, error = self.ran("--record", self.recorded, *client(data, 24, 0), status=1)
        self.assertEqual((said, error), (SYNC.format(2) + BROKEN + f"? {SYNC.format(3)}" + BEHIND, ""))
        self.checked(self.recorded, [said.splitlines()[0], BROKEN.splitlines()[-1]])
        self.assertEqual(self.pieces(self.recorded), f"> {data.hex()}\n< {done(2).hex()}\n")

    def test_a_broken_message_and_a_status(self):
        self.answering(b"x")
        self.ran(*client(message(9, 0), 1, 3), status=3)

    def test_what_is_broken_is_red(self):
        self.answering(done(2))
        said, _ = self.ran("--color=always", *client(sync(2) + message(9, 0), 24, 0), status=1)
        lines = said.splitlines()
        self.assertEqual(lines[1:4], [f"\x1b[31m{it}\x1b[0m" for it in BROKEN.splitlines()])
        self.assertEqual([re.sub(r"\x1b\[\d+m", "", it) for it in lines[4:]], BEHIND.splitlines())
        # The arrow and the interface have colours, and no other word.
        coloured = r"\x1b\[32m-> \x1b\[\d\dmwl_display\x1b\[0m@1\.sync\(new id wl_callback@2\)"
        self.assertRegex(lines[0], rf"\A{coloured}\Z")

    def test_stop_when_broken(self):
        self.start("--stop-when-broken")
        client, compositor = self.client()
        other, other_compositor = self.client()
        client.sendall(sync(2) + message(9, 0))
        with contextlib.suppress(ConnectionResetError):
            self.assertEqual(client.recv(100), b"")
        with contextlib.suppress(ConnectionResetError):
            while compositor.recv(100):
                pass
        self.passes(other, other_compositor, sync(2))
        said, error = self.finish(status=1)
        broken = "".join(f"#1 {it}\n" for it in BROKEN.splitlines())
        who = self.who()
        self.assertEqual(said, f"#1 is {who}\n#2 is {who}\n#1 " + SYNC.format(2) + broken.rstrip() + f" ({who})\n#2 "
                         + SYNC.format(2) + f"#2 lawful: 1 requests, 0 events, 0 and 0 bytes left ({who})\n")
        self.assertEqual(error, "waywire-inspect: client 1 is closed: a message broke a rule\n")

    def test_several_clients(self):
        self.start("--record", self.recorded)
        (one, at_one), (two, at_two) = self.client(), self.client()
        self.passes(one, at_one, sync(2))
        self.passes(two, at_two, sync(2))
        self.passes(at_two, two, done(2))
        self.passes(two, at_two, message(9, 0))
        self.passes(at_one, one, done(2))
        said, error = self.finish(signal.SIGINT, status=1)
        lawful = "lawful: 1 requests, 2 events, 0 and 0 bytes left"
        lines = [SYNC.format(2).strip(), "<- wl_callback@2.done(7)", "<- wl_display@1.delete_id(2)"]
        wanted = {1: [*lines, lawful], 2: [*lines, *BROKEN.splitlines()]}
        said = said.replace(f" ({self.who()})\n", "\n")
        for number, its_lines in wanted.items():
            its = [it for it in said.splitlines() if it.startswith(f"#{number} ")]
            self.assertEqual(its, [f"#{number} {it}" for it in (f"is {self.who()}", *its_lines)])
        self.assertEqual(error, "")
        for it in (one, at_one, two, at_two):
            self.assertEqual(it.recv(100), b"")
        self.checked(self.recorded, wanted[1])
        self.checked(self.recorded + ".2", [*lines, wanted[2][-1]])
        self.assertEqual(sorted(os.listdir(self.folder)),
                         ["a.rec", "a.rec.2", "a.rec.tables", "display"])

    def test_only_and_time(self):
        self.start("--only", "wl_callback,wl_registry", "--time")
        client, compositor = self.client()
        self.passes(client, compositor, message(1, 1, 2) + sync(3))
        self.passes(compositor, client, done(3))
        said, _ = self.finish()
        lines = ["-> wl_display@1.get_registry(new id wl_registry@2)",
                 "-> wl_display@1.sync(new id wl_callback@3)", "<- wl_callback@3.done(7)",
                 "lawful: 2 requests, 2 events, 0 and 0 bytes left"]
        time_and = r" *\d+\.\d{6} "
        self.assertRegex(said, "".join(rf"(?m:^){time_and}{re.escape(it)}\n" for it in lines))

    def test_the_installed_tables(self):
        """All are known if none is named."""
        event = message(2, 0, 1, 12, *struct.unpack("<3I", b"xdg_wm_base\0"), 5)
        bind = message(2, 0, 1, 12, *struct.unpack("<3I", b"xdg_wm_base\0"), 1, 3)
        for words, verdict, status in (
            ([], "lawful: 2 requests, 1 events, 0 and 0 bytes left", 0),
            (["--no-tables", "--tables", f"{TOP}/protocols/viewporter.tables"],
             "not judged from request 2 on: no table has xdg_wm_base; lawful until then; "
             "2 requests, 1 events", 0),
            (["--no-tables", "--tables", f"{TOP}/protocols/layer-shell.tables", "--tables",
              f"{TOP}/protocols/xdg-shell.tables"],
             "lawful: 2 requests, 1 events, 0 and 0 bytes left", 0),
            (["--tables", f"{TOP}/protocols/xdg-shell.tables"],
             "lawful: 2 requests, 1 events, 0 and 0 bytes left", 0),
        ):
            with self.subTest(words):
                self.start(*words)
                client, compositor = self.client()
                self.passes(client, compositor, message(1, 1, 2))
                self.passes(compositor, client, event)
                self.passes(client, compositor, bind)
                said, error = self.finish(status=status)
                self.assertEqual((said.splitlines()[-1], error), (verdict, ""))

    def test_nothing_to_inspect(self):
        bad = f"{self.folder}/bad.tables"
        with open(bad, "w", encoding="ascii") as file:
            file.write("interface one 1\n\nno form\n")
        for words, said in (
            (["true"], "true made no connection"),
            ([f"{self.folder}/none"], f"{self.folder}/none: No such file or directory"),
            (["--limit", "7", "true"], "--limit 7: not a multiple of 4 from 4096 to 65532"),
            (["--limit", "0", "true"], "--limit 0: not a multiple of 4 from 4096 to 65532"),
            (["--color=red", "true"], "--color red: not auto, always or never"),
            (["--time=ago", "true"], "--time=ago: not delta or clock"),
            (["--only", "wl_nothing", "true"], "--only wl_nothing: no tables have that interface"),
            (["--except", "wl_display,", "true"], "--except : no tables have that interface"),
            (["--only", "wl_surface.draw", "true"],
             "--only wl_surface.draw: wl_surface has no such message"),
            (["--read", "a", "--record", "b"],
             "--read cannot be used with COMMAND, --record or --picture"),
            (["--tables", bad, "true"], f"{bad} line 3: bad line"),
            (["--tables", self.folder, "true"], f"{bad} line 3: bad line"),
            (["--record", f"{self.folder}/none/a", "true"],
             f"cannot write {self.folder}/none/a: No such file or directory"),
        ):
            with self.subTest(words):
                said = f"waywire-inspect: {said}\n"
                self.assertEqual(self.ran(*words, status=125), ("", said))
        self.assertIn("unrecognized option '--nonesuch'", self.ran("--nonesuch", status=125)[1])
        self.env["WAYLAND_DISPLAY"] = "none"
        self.assertIn(f"no compositor at {self.folder}/none", self.ran("true", status=125)[1])

    def test_help(self):
        said, error = self.ran("--help")
        self.assertEqual((error, self.ran("--version")[0].split()[0]), ("", "waywire-inspect"))
        with open(f"{TOP}/c/inspect/waywire-inspect.1.in", encoding="utf-8") as file:
            page = file.read().replace("\\-", "-")
        for option in re.findall(r"^  (--[a-z-]+)", said, re.M):
            self.assertIn(option, page)


class Failing(Inspected):
    """If something goes wrong, one line says so, and messages are still passed on."""

    def passes_on(self, count=3):
        client, compositor = self.client()
        for number in range(2, 2 + count):
            self.passes(client, compositor, sync(number))
            self.passes(compositor, client, done(number))

    def test_a_full_disk(self):
        self.start("--record", "/dev/full")
        self.passes_on()
        said, error = self.finish()
        self.assertEqual(error, "waywire-inspect: cannot write /dev/full: No space left on device; "
                                "the recording ends there\n")
        self.assertEqual(said.splitlines()[-1], "lawful: 3 requests, 6 events, 0 and 0 bytes left")

    def test_a_file_that_may_not_grow(self):
        """The recording ends with a whole line."""
        def small():
            resource.setrlimit(resource.RLIMIT_FSIZE, (200, 200))
            signal.signal(signal.SIGXFSZ, signal.SIG_IGN)
        self.start("--no-tables", "--record", self.recorded, preexec_fn=small)
        name = self.tool.stdout.readline().rstrip("\n").removeprefix("WAYLAND_DISPLAY=")
        self.path = f"{self.folder}/{name}"
        self.passes_on()
        _, error = self.finish()
        self.assertEqual(error.count("\n"), 1)
        self.assertEqual(self.pieces(self.recorded), f"> {sync(2).hex()}\n< {done(2).hex()}\n")

    def test_a_closed_output(self):
        for how in ("full", "reader", "closed"):
            with self.subTest(how):
                output = self.output(how)
                close = (lambda: os.close(1)) if how == "closed" else None
                self.start(stdout=output, preexec_fn=close)
                if output is not None:
                    os.close(output)
                self.path = self.found()
                self.passes_on(100)
                _, error = self.finish()
                self.assertRegex(
                    error, r"\Awaywire-inspect: cannot write to standard output: [^\n]*; "
                           r"messages are judged and not printed\n\Z")

    def output(self, how):
        if how == "full":
            return os.open("/dev/full", os.O_WRONLY)
        if how == "closed":
            return None
        reader, writer = os.pipe()
        os.close(reader)
        return writer

    def found(self):
        """The socket of a tool that cannot print its name."""
        path = f"{self.folder}/waywire-{self.tool.pid}"
        self.assertTrue(has_come(lambda: is_listening(path), LONG), "it does not listen")
        return path

    def test_an_output_that_nobody_reads(self):
        """It stops what passes, and a signal stops the tool."""
        self.start()
        client, compositor = self.client()
        self.passes(client, compositor, message(1, 1, 2))
        event = message(2, 1, 0) * 100
        threading.Thread(target=self.drain, args=(client,), daemon=True).start()
        compositor.settimeout(2)
        with self.assertRaises(TimeoutError):
            for _ in range(10_000):
                compositor.sendall(event)
        self.tool.send_signal(signal.SIGTERM)
        self.assertEqual(self.tool.wait(LONG), 0)

    def drain(self, client):
        with contextlib.suppress(OSError):
            while client.recv(65536):
                pass

    def test_a_killed_client(self):
        self.answering(done(2))
        said, error = self.ran(*client(sync(2), 24, 0, "kill"), status=137)
        self.assertEqual(said.splitlines()[-1], "lawful: 1 requests, 2 events, 0 and 0 bytes left")
        wanted = f"waywire-inspect: {sys.executable} was ended by signal 9 (Killed)\n"
        self.assertEqual(error, wanted)

    def test_a_client_that_goes(self):
        self.start()
        client, compositor = self.client()
        self.passes(client, compositor, sync(2) + b"half")
        client.close()
        self.assertEqual(compositor.recv(100), b"")
        said, error = self.finish()
        self.assertEqual(said.splitlines()[-1], "lawful: 1 requests, 0 events, 4 and 0 bytes left")
        self.assertEqual(error, f"waywire-inspect: client 1 (process {os.getpid()}) has closed its "
                                "connection\n")

    def test_a_compositor_that_goes(self):
        self.start()
        client, compositor = self.client()
        self.passes(client, compositor, sync(2))
        compositor.sendall(done(2))
        compositor.close()
        self.listener.close()
        self.comes(client, done(2))
        self.assertEqual(client.recv(100), b"")
        with socket.socket(socket.AF_UNIX) as late:
            late.settimeout(LONG)
            late.connect(self.path)
            self.assertEqual(late.recv(100), b"")
        _, error = self.finish()
        refused = f"waywire-inspect: no compositor at {self.folder}/display: Connection refused\n"
        self.assertEqual(error, GONE + refused)

    def test_a_command_that_is_stopped(self):
        """It gets the signal, and what it sends then is passed on."""
        words = STAYING + f"""
signal.pthread_sigmask(signal.SIG_BLOCK, [signal.SIGTERM])
display.sendall(bytes.fromhex("{sync(2).hex()}"))
signal.sigwait([signal.SIGTERM])
display.sendall(bytes.fromhex("{sync(3).hex()}"))
sys.exit({{}})
"""
        for status in (0, 5):
            with self.subTest(status):
                self.start(sys.executable, "-c", words.format(status))
                with self.listener.accept()[0] as peer:
                    self.comes(peer, sync(2))
                    began = time.monotonic()
                    self.tool.send_signal(signal.SIGTERM)
                    got = peer.recv(len(sync(3)), socket.MSG_WAITALL)
                    said, _ = self.finish(None, None)
                found = got, self.tool.returncode, said.splitlines()[-1]
                wanted = sync(3), status, "lawful: 2 requests, 0 events, 0 and 0 bytes left"
                if found != wanted and time.monotonic() - began > GRACE:
                    self.skipTest(f"the command has not ended within {GRACE} s")
                self.assertEqual(found, wanted)

    def test_a_command_that_does_not_stop(self):
        words = STAYING + f"""
for it in (signal.SIGTERM, signal.SIGINT):
    signal.signal(it, signal.SIG_IGN)
display.sendall(bytes.fromhex("{sync(2).hex()}"))
while True: signal.pause()
"""
        self.start(sys.executable, "-c", words)
        with self.listener.accept()[0] as peer:
            self.comes(peer, sync(2))
            said, error = self.finish(signal.SIGINT, 137)
            self.assertEqual(peer.recv(12), b"")
        self.assertEqual((said.splitlines()[-1], error),
                         ("lawful: 1 requests, 0 events, 0 and 0 bytes left", ""))

    def test_no_numbers_for_descriptors(self):
        """A client whose descriptors cannot be taken is closed, and the others are not."""
        def few():
            resource.setrlimit(resource.RLIMIT_NOFILE, (600, 600))
        self.start(preexec_fn=few)
        name = self.tool.stdout.readline().rstrip("\n").removeprefix("WAYLAND_DISPLAY=")
        self.path = f"{self.folder}/{name}"
        made = [self.enterContext(socket.socket(socket.AF_UNIX)) for _ in range(60)]
        for it in made:
            it.settimeout(LONG)
            it.connect(self.path)
        peer = self.enterContext(self.listener.accept()[0])
        self.passes(made[0], peer, sync(2))
        self.assertEqual(made[-1].recv(10), b"")
        self.passes(made[0], peer, sync(3))
        _, error = self.finish()
        self.assertRegex(error, r"a client is refused: \d+ descriptors are open, at most 600 may be "
                                r"\(ulimit -Hn\), and 506 are kept free\n")

    def test_too_few_numbers_for_any_client(self):
        """A limit that is too low is reported before anything is started."""
        def few():
            resource.setrlimit(resource.RLIMIT_NOFILE, (256, 256))
        said = self.ran("true", status=125, preexec_fn=few)
        self.assertEqual(said, ("", "waywire-inspect: at most 256 descriptors may be open here "
                                    "(ulimit -Hn), and a client may need 522\n"))


if __name__ == "__main__":
    main()
