"""Tests of --fault and --stop-at: clients and compositors that these tests play.

    python3 -m tests.inspector.faults [CLASS[.TEST]]..

The environment is that of inspecting.py."""
import fcntl
import json
import os
import pty
import re
import signal
import socket
import struct
import subprocess
import sys
import termios
import time

from tests.checks import has_come
from tests.inspector.hangs import BASE, BOUND, COMMIT, NEW, NUMBERS, SURFACE
from tests.inspector.inspecting import INSPECT, LONG, done, main, message, sync
from tests.inspector.words import Talking, announced, bind

SHM = NUMBERS["wl_shm"]
# What the tool prints so that nobody needs to read it at once.
FEW_LINES = ("--only", "wl_callback")
# Runs a command in the background of its terminal, and in the foreground from SIGUSR1 on.
BACKGROUND = """
import os, signal, sys
terminal = os.open("/dev/tty", os.O_RDWR)
signal.signal(signal.SIGUSR1, lambda *_: os.tcsetpgrp(terminal, tool))
signal.signal(signal.SIGTERM, lambda *_: os.kill(tool, signal.SIGTERM))
tool = os.fork()
if not tool:
    os.setpgid(0, 0)
    os.execvp(sys.argv[1], sys.argv[1:])
sys.exit(os.waitstatus_to_exitcode(os.waitpid(tool, 0)[1]))
"""
# A line and the words that refuse it.
BAD_LINES = (
    ("", "does not begin with drop, duplicate, delay, hold or kill"),
    ("lose wl_surface.commit", "does not begin with drop, duplicate, delay, hold or kill"),
    ("drop", "names no message"),
    ("drop wl_surface", "wl_surface is neither INTERFACE.MESSAGE nor a number such as 3, 3- or 3-5"),
    ("drop wl_surface.committ", "wl_surface has no such message"),
    ("drop wl_surfaces.commit", "no tables have that interface"),
    ("drop wl_surface@.commit", "there is no id behind @"),
    ("drop wl_surface@4294967296.commit", "there is no id behind @"),
    ("drop wl_surface.commit 0", "0 is neither INTERFACE.MESSAGE nor a number such as 3, 3- or 3-5"),
    ("drop wl_surface.commit 5-3", "5-3 is neither INTERFACE.MESSAGE nor a number such as 3, 3- or 3-5"),
    ("drop wl_surface.commit 1 2", "2 is too much"),
    ("delay wl_surface.commit", "no time such as 200ms or 1.5s"),
    ("delay 200 wl_surface.commit", "no time such as 200ms or 1.5s"),
    ("hold 1.5.2s wl_surface.commit", "no time such as 200ms or 1.5s"),
)


class Faulty(Talking):
    """A session with faults."""

    def begin(self, *faults, options=(), said=BOUND):
        """Starts a session with these faults, in which these messages pass as they are."""
        words = [it for fault in faults for it in ("--fault", fault)]
        self.start("--record", self.recorded, *words, *options)
        self.near, self.far = self.client()
        for it in said:
            self.says(it)

    def says(self, data):
        if isinstance(data, tuple):
            self.passes(self.far, self.near, *data)
        else:
            self.passes(self.near, self.far, data)

    def sends(self, data, files=()):
        """A client's requests with descriptors."""
        socket.send_fds(self.near, [data], [it.fileno() for it in files])

    def arrives(self, length):
        """Bytes at the compositor, and which files came with them."""
        data, files = b"", []
        while len(data) < length:
            part, more, _, _ = socket.recv_fds(self.far, length - len(data), 28)
            self.assertTrue(part)
            data += part
            files += [os.fstat(it).st_ino for it in more]
            for it in more:
                os.close(it)
        return data, files

    def ends(self, status=0, number=signal.SIGTERM):
        """Ends the session. What was printed of it, which the recording repeats."""
        said, error = self.finish(number, status)
        again, _ = self.ran("--read", self.recorded, *FEW_LINES, status=None)
        lines = said.splitlines()
        self.assertEqual(self.at_once(again).splitlines(), lines)
        return lines, error


class Verbs(Faulty):
    """What each fault does."""

    def test_drop(self):
        self.begin("drop wl_display.sync 2", options=FEW_LINES)
        self.near.sendall(sync(NEW) + sync(NEW + 1) + COMMIT)
        self.comes(self.far, sync(NEW) + COMMIT)
        lines, error = self.ends()
        self.assertEqual(lines[-3:], [
            f"fault 1, drop: -> wl_display@1.sync(new id wl_callback@{NEW + 1}); "
            f"the compositor does not know wl_callback@{NEW + 1}",
            "fault 1, drop wl_display.sync 2: done 1 time",
            "lawful: 22 requests, 12 events, 0 and 0 bytes left; with 1 fault on purpose"])
        self.assertEqual(error, "")

    def test_what_follows_from_a_drop(self):
        """The compositor does not know an object, and what the client says of it breaks a rule: the verdict says that
        there was a fault."""
        self.begin("drop wl_compositor.create_surface 3", options=FEW_LINES)
        self.near.sendall(message(3, 0, NEW) + message(NEW, 6))
        self.comes(self.far, message(NEW, 6))
        lines, _ = self.ends(status=1)
        self.assertIn("broken: > message 21 at byte 736: F2 unknown object; after 1 fault on purpose", lines)

    def test_duplicate(self):
        self.begin("duplicate event wl_callback.done", options=FEW_LINES, said=[*BOUND, sync(NEW)])
        self.far.sendall(message(NEW, 0, 7) + message(1, 1, NEW))
        self.comes(self.near, message(NEW, 0, 7) * 2 + message(1, 1, NEW))
        lines, _ = self.ends()
        self.assertIn(f"fault 1, duplicate: <- wl_callback@{NEW}.done(7); "
                      f"the client has ended wl_callback@{NEW} already", lines)

    def test_delay(self):
        """What is behind a message on its side waits too; the other side does not."""
        self.begin("delay 500ms wl_callback.done", options=FEW_LINES, said=[*BOUND, sync(NEW)])
        before = time.monotonic()
        self.far.sendall(done(NEW) + message(BASE, 0, 7))
        self.says(COMMIT)
        self.comes(self.near, done(NEW) + message(BASE, 0, 7))
        self.assertGreaterEqual(time.monotonic() - before, 0.5)
        lines, _ = self.ends()
        self.assertIn(f"fault 1, delay 500ms: <- wl_callback@{NEW}.done(7)", lines)

    def test_delay_and_hold_together(self):
        """A message that is held is overtaken by those behind it; its fault is of the order."""
        self.begin("hold 500ms wl_display.delete_id", "delay 1s xdg_wm_base.ping", options=FEW_LINES,
                   said=[*BOUND, sync(NEW), sync(NEW + 1)])
        self.far.sendall(done(NEW) + done(NEW + 1) + message(BASE, 0, 7))
        self.comes(self.near, message(NEW, 0, 7) + message(NEW + 1, 0, 7))
        self.comes(self.near, message(1, 1, NEW) + message(1, 1, NEW + 1))
        self.comes(self.near, message(BASE, 0, 7))
        lines, _ = self.ends()
        self.assertEqual([it for it in lines if it.startswith("fault")], [
            f"fault 1, hold 500ms: <- wl_display@1.delete_id({NEW})",
            f"fault 1, hold 500ms: <- wl_display@1.delete_id({NEW + 1})",
            "fault 2, delay 1s: <- xdg_wm_base@5.ping(7)",
            "fault 1, hold 500ms wl_display.delete_id: done 2 times",
            "fault 2, delay 1s xdg_wm_base.ping: done 1 time"])
        self.assertTrue(lines[-1].startswith("lawful: "), lines[-1])

    def test_a_ping_that_is_never_answered(self):
        self.begin("drop xdg_wm_base.pong", options=FEW_LINES, said=[*BOUND, (message(BASE, 0, 7),)])
        self.near.sendall(message(BASE, 3, 7) + COMMIT)
        self.comes(self.far, COMMIT)
        lines, _ = self.ends()
        self.assertIn("fault 1, drop: -> xdg_wm_base@5.pong(7)", lines)

    def test_kill(self):
        """Both sides see the end of the connection behind the message before."""
        requests = len(BOUND) - 1
        for fault in ("kill wl_surface.commit 2", f"kill {requests + 12 + 3}", f"kill request {requests + 3}"):
            with self.subTest(fault):
                self.begin(fault, options=FEW_LINES)
                self.near.sendall(COMMIT + message(SURFACE, 9, 0, 0, 1, 1) + COMMIT * 2)
                self.comes(self.far, COMMIT + message(SURFACE, 9, 0, 0, 1, 1))
                self.assertEqual(self.far.recv(1), b"")
                try:
                    self.assertEqual(self.near.recv(1), b"")
                except ConnectionResetError:
                    pass  # it had sent more
                lines, error = self.ends()
                self.assertEqual(lines[-3:-1], [f"fault 1, kill: -> wl_surface@{SURFACE}.commit()", f"fault 1, {fault}: done 1 time"])
                self.assertIn("client 1 is closed: --fault kill", error)

    def test_lines(self):
        """The first line that is about a message counts. A line may name an id, a side, or several messages."""
        path = f"{self.folder}/lines"
        with open(path, "w", encoding="ascii") as file:
            file.write(f"# a file\n\ndrop wl_surface@{SURFACE}.commit 2-3\nduplicate request wl_*.commit,wl_surface.damage 3-\r\n")
        self.begin(options=["--faults", path, *FEW_LINES])
        other, damage = message(SURFACE + 1, 6), message(SURFACE, 2, 0, 0, 1, 1)
        self.near.sendall(COMMIT + other + COMMIT + COMMIT + COMMIT + damage + other)
        self.comes(self.far, COMMIT + other + COMMIT * 2 + damage * 2 + other * 2)
        lines, _ = self.ends()
        self.assertEqual(lines[-3:], [f"fault 1, drop wl_surface@{SURFACE}.commit 2-3: done 2 times",
                                      "fault 2, duplicate request wl_*.commit,wl_surface.damage 3-: done 3 times",
                                      "lawful: 28 requests, 12 events, 0 and 0 bytes left; with 5 faults on purpose"])

    def test_bad_lines(self):
        for line, why in BAD_LINES:
            with self.subTest(line):
                said, error = self.ran("--fault", line, "true", status=125)
                self.assertEqual(said, "")
                self.assertIn(why, error)
        _, error = self.ran("--fault", "kill 3", "--read", self.recorded, status=125)
        self.assertIn("--read cannot be used with --fault, --faults or --stop-at", error)

    def test_in_json(self):
        self.begin("drop wl_surface.commit", options=["--json", *FEW_LINES])
        self.near.sendall(COMMIT + message(BASE, 0))
        self.comes(self.far, message(BASE, 0))
        said, _ = self.finish()
        again, _ = self.ran("--read", self.recorded, "--json", *FEW_LINES)
        for told in (said, again):
            lines = [json.loads(it) for it in told.splitlines()]
            fault = next(it for it in lines if it["type"] == "fault")
            self.assertGreaterEqual(fault.pop("time"), 0)
            self.assertEqual(fault, {"type": "fault", "client": 1, "line": 1, "fault": "drop wl_surface.commit",
                                     "words": f"-> wl_surface@{SURFACE}.commit()"})
            self.assertEqual(lines[-1]["faults"], [{"fault": "drop wl_surface.commit", "done": 1}])


class Stopped(Faulty):
    """--stop-at: nothing passes from a message on."""

    def begin(self, *options, **how):
        super().begin(options=["--stop-at", f"wl_surface@{SURFACE}.commit", *options], **how)

    def stopped(self):
        """The line that says so."""
        words = f"-> wl_surface@{SURFACE}.commit()"
        while words not in (line := self.tool.stdout.readline()) or "stopped" not in line:
            self.assertTrue(line)
        return line

    def nothing_comes(self, *targets):
        for it in targets:
            it.settimeout(0.3)
            self.assertRaises(TimeoutError, it.recv, 1)
            it.settimeout(LONG)

    def goes_on(self):
        self.tool.send_signal(signal.SIGUSR1)


class Stopping(Stopped):
    """Until a signal comes."""

    def how(self, kept):
        """The tool has no terminal."""
        return {**super().how(kept), "start_new_session": True}

    def test_both_sides(self):
        self.begin()
        other = message(SURFACE + 1, 6)
        self.near.sendall(message(SURFACE, 3, NEW) + COMMIT + other + COMMIT)
        self.comes(self.far, message(SURFACE, 3, NEW))
        self.assertIn(f"; kill -USR1 {self.tool.pid} goes on\n", self.stopped())
        self.assertRegex(self.tool.stdout.readline(), rf"#1 wl_surface@{SURFACE}\.frame: 1 not answered, waiting \d+\.\d+ s")
        self.far.sendall(message(BASE, 0, 7))
        self.nothing_comes(self.near, self.far)
        self.goes_on()
        self.comes(self.far, COMMIT + other)
        self.stopped()
        self.nothing_comes(self.far)
        self.goes_on()
        self.comes(self.far, COMMIT)
        self.comes(self.near, message(BASE, 0, 7))
        lines, _ = self.finish()
        self.assertTrue(lines.endswith("lawful: 24 requests, 13 events, 0 and 0 bytes left\n"), lines)

    def test_a_client_that_goes(self):
        self.begin()
        self.near.sendall(COMMIT)
        self.stopped()
        self.near.close()
        self.comes(self.far, COMMIT)
        self.assertEqual(self.far.recv(1), b"")
        self.finish()

    def test_a_signal_that_ends(self):
        self.begin()
        self.near.sendall(COMMIT)
        self.stopped()
        self.finish()

    def test_in_json(self):
        self.begin("--json")
        self.near.sendall(COMMIT)
        line = json.loads(self.stopped())
        self.assertGreaterEqual(line.pop("time"), 0)
        self.assertEqual(line, {"type": "stopped", "client": 1, "words": f"-> wl_surface@{SURFACE}.commit()"})
        self.goes_on()
        self.comes(self.far, COMMIT)
        self.finish()


class Keys(Stopped):
    """Until Enter is typed at the tool's terminal."""

    def how(self, kept):
        """The tool leads the session of a terminal of its own."""
        try:
            self.keys, terminal = pty.openpty()
        except OSError as error:
            self.skipTest(f"there is no terminal: {error}")
        self.terminal = terminal
        for it in (self.keys, self.terminal):
            self.addCleanup(os.close, it)
        return {**super().how(kept), "stdin": subprocess.DEVNULL, "start_new_session": True,
                "preexec_fn": lambda: fcntl.ioctl(terminal, termios.TIOCSCTTY, 0)}

    def holds(self, words="Enter or kill"):
        """A commit does not pass; the tool says how it goes on."""
        self.near.sendall(COMMIT)
        self.assertIn(f"commit(); {words} -USR1 ", line := self.stopped())
        self.nothing_comes(self.far)
        return int(re.search(r"-USR1 (\d+) goes on", line)[1])

    def types(self, typed):
        """Types at the terminal, and waits until all of it can be read there: the kernel passes it on a little later."""
        os.write(self.keys, typed)

        def has_passed():
            length = struct.unpack("i", fcntl.ioctl(self.terminal, termios.FIONREAD, bytes(4)))[0]
            return length >= len(typed)
        self.assertTrue(has_come(has_passed, LONG))

    def test_enter(self):
        """What was typed before it stopped does not count."""
        self.begin()
        for typed in (b"before\n", b""):
            self.types(typed)
            self.holds()
            os.write(self.keys, b"\n")
            self.comes(self.far, COMMIT)
        self.finish()

    def test_single_keys(self):
        """They belong to the program that reads them, such as a pager."""
        self.begin()
        modes = termios.tcgetattr(self.terminal)
        modes[3] &= ~termios.ICANON
        termios.tcsetattr(self.terminal, termios.TCSANOW, modes)
        self.holds("kill")
        os.write(self.keys, b"q")
        self.nothing_comes(self.far)
        self.assertEqual(os.read(self.terminal, 2), b"q")
        self.goes_on()
        self.comes(self.far, COMMIT)
        self.finish()

    def test_in_the_background(self):
        """What is typed there is not for the tool, which is not stopped by a look at it."""
        self.COMMAND = [sys.executable, "-c", BACKGROUND, *INSPECT]
        self.begin()
        for _ in range(2):
            process = self.holds("kill")
            os.write(self.keys, b"for another\n")
            self.nothing_comes(self.far)
            self.assertEqual(os.read(self.terminal, 20), b"for another\n")
            os.kill(process, signal.SIGUSR1)
            self.comes(self.far, COMMIT)
        self.holds("kill")
        self.goes_on()  # it is put into the foreground
        os.write(self.keys, b"\n")
        self.comes(self.far, COMMIT)
        self.finish()


class Bytes(Faulty):
    """What passes are whole messages with their own descriptors."""

    def files(self, count):
        made = [self.enterContext(open(os.memfd_create(f"{at}"), "rb")) for at in range(count)]
        return made, [os.fstat(it.fileno()).st_ino for it in made]

    def pool(self, new):
        return message(SHM, 0, new, 4096)

    def test_descriptors(self):
        """Each pool keeps its own descriptor, although all of them come with the first byte."""
        self.begin("drop wl_shm.create_pool 2", "duplicate wl_shm.create_pool 4", "hold 300ms wl_shm.create_pool 1",
                   options=FEW_LINES)
        files, numbers = self.files(5)
        requests = [self.pool(NEW + at) for at in range(5)]
        self.sends(b"".join(requests) + COMMIT, files)
        order = [2, 3, 3, 4]
        data, came = self.arrives(sum(len(requests[it]) for it in order) + len(COMMIT))
        self.assertEqual((data, came), (b"".join(requests[it] for it in order) + COMMIT, [numbers[it] for it in order]))
        self.assertEqual(self.arrives(len(requests[0])), (requests[0], [numbers[0]]))
        self.ends(status=1)

    def test_no_descriptor_is_kept(self):
        self.begin("drop wl_shm.create_pool 1-20", "duplicate wl_shm.create_pool 21-", options=FEW_LINES)
        files, _ = self.files(1)
        open_before = len(os.listdir(f"/proc/{self.tool.pid}/fd"))
        for at in range(25):
            self.sends(self.pool(NEW + at), files)
        data = b"".join(self.pool(NEW + at) * 2 for at in range(20, 25))
        self.assertEqual(self.arrives(len(data))[0], data)
        self.assertTrue(has_come(lambda: len(os.listdir(f"/proc/{self.tool.pid}/fd")) == open_before, LONG))
        self.ends(status=1)

    def test_many_descriptors(self):
        """No more pass at once than libwayland reads."""
        self.begin("drop wl_surface.commit", options=FEW_LINES)
        files, numbers = self.files(28)
        count = 90
        for at in range(0, count, 15):
            self.sends(b"".join(self.pool(NEW + it) for it in range(at, at + 15)), files[:15])
        data, came = self.arrives(len(self.pool(NEW)) * count)
        self.assertEqual((len(data), came), (len(self.pool(NEW)) * count, numbers[:15] * 6))
        self.ends()

    def test_a_message_in_parts(self):
        """It passes once it is whole; what is not whole at the end passes then."""
        self.begin("drop wl_surface.damage", options=FEW_LINES)
        damage = message(SURFACE, 2, 0, 0, 1, 1)
        self.near.sendall(damage[:9])
        self.near.sendall(damage[9:] + COMMIT[:3])
        self.near.sendall(COMMIT[3:] + COMMIT[:5])
        self.comes(self.far, COMMIT)
        self.near.shutdown(socket.SHUT_WR)
        self.comes(self.far, COMMIT[:5])
        self.assertEqual(self.far.recv(1), b"")
        self.ends()

    def test_unknown_interfaces(self):
        """Behind a message that the tables lack it is not known which descriptors are whose: they pass in order, and a
        fault is not done to a message with descriptors."""
        own = (announced(20, "own_shell1", 1),)
        self.begin("drop wl_shm.create_pool", options=FEW_LINES, said=[*BOUND, own, bind(20, "own_shell1", 1, NEW)])
        files, numbers = self.files(3)
        data = message(NEW, 3, 5) + self.pool(NEW + 1) + COMMIT
        self.sends(data, files)
        self.assertEqual(self.arrives(len(data)), (data, numbers))
        lines, _ = self.finish()
        self.assertIn("is not done, since it is not known which descriptors are the message's", lines)

    def test_what_cannot_be_cut(self):
        """Bytes that are no messages pass as they are."""
        self.begin("drop wl_surface.commit", options=FEW_LINES)
        files, numbers = self.files(2)
        data = message(SURFACE, 6)[:6] + b"\1\0" + bytes(range(200)) * 1000
        self.sends(data[:1000], files)
        self.near.sendall(data[1000:])
        self.assertEqual(self.arrives(len(data)), (data, numbers))
        self.finish(status=1)


class Ends(Faulty):
    """How a session ends while messages wait."""

    def test_a_client_that_closes(self):
        """What it wrote passes at once."""
        self.begin("delay 1000s wl_surface.commit", "hold 1000s wl_surface.damage", options=FEW_LINES)
        damage = message(SURFACE, 2, 0, 0, 1, 1)
        self.near.sendall(damage + COMMIT + COMMIT)
        self.near.close()
        self.comes(self.far, COMMIT * 2 + damage)
        self.assertEqual(self.far.recv(1), b"")
        self.ends()

    def test_a_compositor_that_closes(self):
        self.begin("delay 1000s wl_callback.done", options=FEW_LINES, said=[*BOUND, sync(NEW)])
        self.far.sendall(done(NEW))
        self.far.close()
        self.comes(self.near, done(NEW))
        self.assertEqual(self.near.recv(1), b"")
        self.ends()

    def test_a_client_that_is_killed(self):
        """What it should have read is not waited for."""
        self.begin("delay 1000s wl_callback.done", options=FEW_LINES, said=[*BOUND, sync(NEW)])
        self.far.sendall(done(NEW))
        self.assertTrue(has_come(lambda: b"# did" in open(self.recorded, "rb").read(), LONG))
        self.near.close()
        self.assertEqual(self.far.recv(1), b"")
        self.ends()

    def test_a_signal(self):
        self.begin("delay 1000s wl_callback.done", options=FEW_LINES, said=[*BOUND, sync(NEW)])
        self.far.sendall(done(NEW))
        self.assertTrue(has_come(lambda: b"# did" in open(self.recorded, "rb").read(), LONG))
        lines, _ = self.ends(number=signal.SIGINT)
        self.assertTrue(lines[-1].startswith("lawful: "), lines[-1])

    def test_a_full_side(self):
        """While much waits, nothing more is read; once the client has gone, all of it passes."""
        self.begin("delay 1000s wl_surface.commit", options=FEW_LINES)
        damage, sent = message(SURFACE, 2, 0, 0, 1, 1) * 1000, 0
        self.near.sendall(COMMIT)
        self.near.settimeout(1)
        try:
            while sent < 100:
                self.near.sendall(damage)
                sent += 1
        except TimeoutError:
            pass
        self.assertLess(sent, 100)
        self.near.close()
        self.far.settimeout(LONG)
        came = 0
        while part := self.far.recv(65536):
            came += len(part)
        self.assertGreaterEqual(came, len(COMMIT) + sent * len(damage))
        self.ends()


if __name__ == "__main__":
    main()
