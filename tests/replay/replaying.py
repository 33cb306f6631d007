"""Tests of waywire-replay at compositors that these tests play.

    python3 -m tests.replay.replaying [CLASS[.TEST]]..

REPLAY in the environment is the tool [default: out/c/waywire-replay]. `./test c` runs them."""
import contextlib
import functools
import os
import re
import socket
import struct
import subprocess
import tempfile
import threading
import unittest

from tests.checks import TOP
from tests.inspector.inspecting import LONG, closed, done, main, message, sync

REPLAY = os.environ.get("REPLAY", f"{TOP}/out/c/waywire-replay").split()
# How long the tool waits where an answer never comes, in seconds: longer each time, because what does come may come
# later on a busy machine.
WAITS = ("0.3", "3", "30")
REGISTRY = message(1, 1, 2)
SERVER_ID = 0xff000000


def wire(target, opcode, *args):
    """A message of numbers, strings and bytes."""
    def text(word):
        data = word.encode() + b"\0"
        return struct.pack("<I", len(data)) + data + bytes(-len(data) % 4)
    kinds = {str: text, bytes: bytes, int: lambda it: struct.pack("<I", it)}
    body = b"".join(kinds[type(it)](it) for it in args)
    return struct.pack("<IHH", target, opcode, 8 + len(body)) + body


def announced(*announced_globals):
    return b"".join(wire(2, 0, *it) for it in announced_globals)


def bound(*args):
    return wire(2, 0, *args)


def waiting(test):
    """A test of a session in which an answer never comes. It is given how long the tool waits, and is run again with a
    longer time if it has failed."""
    @functools.wraps(test)
    def runs(self):
        for soon in WAITS[:-1]:
            with contextlib.suppress(AssertionError):
                return test(self, soon)
        return test(self, WAITS[-1])
    return runs


class Compositor:
    """A compositor with one client: it answers each request by what a function of the request says, and reads pieces
    of so many bytes."""

    def __init__(self, listener, announces, answers, piece):
        self.announces = announces
        self.piece = piece
        self.answers = answers
        self.requests, self.files = [], []
        self.listener = listener
        self.thread = threading.Thread(target=self.run, daemon=True)
        self.thread.start()

    def answer(self, request):
        """The answer that the test wishes, or the usual one; None closes the connection."""
        target, opcode, words = request
        for it in self.answers:
            if it[:2] == (target, opcode):
                self.answers.remove(it)
                return it[2](*words) if callable(it[2]) else it[2]
        if (target, opcode) == (1, 1):
            return announced(*self.announces)
        return done(words[0]) if (target, opcode) == (1, 0) else b""

    def run(self):
        with self.listener.accept()[0] as peer:
            data = b""
            while part := self.read(peer):
                data += part
                while len(data) >= 8 and len(data) >= (size := struct.unpack("<H", data[6:8])[0]):
                    self.requests.append(data[:size])
                    target, opcode = struct.unpack("<IH", data[:6])
                    answer = self.answer((target, opcode, struct.unpack(f"<{size // 4 - 2}I", data[8:size])))
                    if answer is None:
                        return
                    peer.sendall(answer)
                    data = data[size:]

    def read(self, peer):
        try:
            part, files, _, _ = socket.recv_fds(peer, self.piece, 28)
        except ConnectionResetError:
            return b""
        self.files += files
        return part

    def end(self):
        self.thread.join(LONG)
        closed(self.files)


class Replayed(unittest.TestCase):
    """A folder with a compositor's socket, and a recording."""

    def setUp(self):
        folder = tempfile.TemporaryDirectory(prefix="replay-")
        self.addCleanup(folder.cleanup)
        self.folder = folder.name
        self.recorded = f"{self.folder}/a.rec"
        self.listener = socket.socket(socket.AF_UNIX)
        self.addCleanup(self.listener.close)
        self.listener.bind(f"{self.folder}/display")
        self.listener.listen(4)
        self.env = {**os.environ, "XDG_RUNTIME_DIR": self.folder, "WAYLAND_DISPLAY": "display"}
        self.env.pop("WAYLAND_SOCKET", None)

    def record(self, *pieces):
        """Writes a recording of pieces: an arrow, bytes, and the number of descriptors if there are some."""
        with open(self.recorded, "w", encoding="ascii") as file:
            for arrow, data, *count in pieces:
                file.write(f"{arrow} {data.hex()}{f' +{count[0]}' if count else ''}\n")

    def compositor(self, *answers, announces=(), piece=65536):
        made = Compositor(self.listener, announces, list(answers), piece)
        self.addCleanup(made.end)
        return made

    def ran(self, *words, status=0, **kept):
        it = subprocess.run([*REPLAY, *words], capture_output=True, text=True, env=self.env, timeout=LONG, check=False,
                            **kept)
        self.assertEqual(it.returncode, status, (it.stdout, it.stderr))
        return it.stdout, it.stderr

    def replayed(self, *words, status=0):
        """Replays the recording, and returns the lines of the outcome."""
        said, error = self.ran(*words, self.recorded, status=status)
        self.assertEqual(error, "")
        return said.splitlines()


WITH_SURFACE = (
    (">", REGISTRY),
    ("<", announced((5, "wl_compositor", 4))),
    (">", bound(5, "wl_compositor", 4, 3) + wire(3, 0, 4)),
)
COMPOSITOR = [(70, "wl_shm", 1), (77, "wl_compositor", 6)]


class Playing(Replayed):
    """What is sent, and that it is played to the end."""

    def test_globals(self):
        """A global is found by its interface, and by how many of it come before."""
        outputs = announced((1, "wl_output", 3), (2, "wl_compositor", 4), (3, "wl_output", 2))
        self.record((">", REGISTRY), ("<", outputs),
                    (">", bound(3, "wl_output", 2, 3) + bound(2, "wl_compositor", 4, 4)))
        there = self.compositor(announces=[(9, "wl_compositor", 6), (8, "wl_output", 4), (7, "wl_output", 4)])
        said = self.replayed()
        self.assertEqual(said[:2], ["played to the end",
                                    "3 of 3 requests sent, 3 events came, 3 in the recording"])
        self.assertEqual(there.requests[:3], [REGISTRY, bound(7, "wl_output", 2, 3), bound(9, "wl_compositor", 4, 4)])

    def test_ids(self):
        """The recorded client uses an id again that is not free yet in this session."""
        self.record((">", sync(2)), ("<", done(2)), (">", sync(2)), ("<", done(2)), (">", message(1, 1, 2)))
        there = self.compositor((1, 0, lambda it: message(it, 0, 7)))
        self.replayed()
        self.assertEqual(there.requests[:2], [sync(2), sync(3)])

    def test_an_answer_is_waited_for(self):
        """The surface is not made before the callback is done."""
        self.record(*WITH_SURFACE[:2], (">", sync(3)), ("<", done(3)), (">", bound(5, "wl_compositor", 4, 3)))
        at = []
        there = self.compositor((1, 0, lambda it: (at.append(len(there.requests)), done(it))[1]), announces=COMPOSITOR)
        self.replayed()
        self.assertEqual(there.requests[:3], [REGISTRY, sync(3), bound(77, "wl_compositor", 4, 3)])
        self.assertEqual(at, [2])

    def test_a_serial(self):
        """A configure is acknowledged with the serial of this session's."""
        window = bound(6, "xdg_wm_base", 2, 5) + wire(5, 2, 6, 4) + wire(6, 1, 7) + wire(4, 6)
        self.record((">", REGISTRY), ("<", announced((5, "wl_compositor", 4), (6, "xdg_wm_base", 2))),
                    (">", bound(5, "wl_compositor", 4, 3) + wire(3, 0, 4) + window),
                    ("<", wire(7, 0, 0, 0, 0) + wire(6, 0, 11)), (">", wire(6, 4, 11)))
        there = self.compositor((4, 6, wire(7, 0, 0, 0, 0) + wire(6, 0, 99)),
                                announces=[*COMPOSITOR, (78, "xdg_wm_base", 2)])
        self.replayed()
        self.assertEqual(there.requests[-2], wire(6, 4, 99))

    def test_a_string_of_the_compositor(self):
        """A token of xdg-activation is that of this session."""
        asked = bound(6, "xdg_activation_v1", 1, 5) + wire(5, 1, 6) + wire(6, 3)
        self.record(*WITH_SURFACE[:1], ("<", announced((5, "wl_compositor", 4), (6, "xdg_activation_v1", 1))),
                    (">", bound(5, "wl_compositor", 4, 3) + wire(3, 0, 4) + asked), ("<", wire(6, 0, "theirs")),
                    (">", wire(5, 2, "theirs", 4)))
        there = self.compositor((6, 3, wire(6, 0, "ours")), announces=[*COMPOSITOR, (78, "xdg_activation_v1", 1)])
        self.replayed()
        self.assertEqual(there.requests[-2], wire(5, 2, "ours", 4))

    def test_pings(self):
        """Pings of this session are answered, and recorded answers are not sent."""
        self.record((">", REGISTRY), ("<", announced((6, "xdg_wm_base", 2))), (">", bound(6, "xdg_wm_base", 2, 3)),
                    ("<", wire(3, 0, 5)), (">", wire(3, 3, 5) + sync(4)), ("<", done(4)))
        there = self.compositor((1, 0, lambda it: wire(3, 0, 41) + done(it)), announces=[(1, "xdg_wm_base", 2)])
        said = self.replayed()
        self.assertIn(wire(3, 3, 41), there.requests)
        self.assertNotIn(wire(3, 3, 5), there.requests)
        self.assertIn("recorded pongs that were not sent: 1", said)

    def test_a_client_that_answered_no_ping(self):
        self.record((">", REGISTRY), ("<", announced((6, "xdg_wm_base", 2))), (">", bound(6, "xdg_wm_base", 2, 3)),
                    ("<", wire(3, 0, 5)), (">", sync(4)), ("<", done(4)))
        there = self.compositor((1, 0, lambda it: wire(3, 0, 41) + done(it)), announces=[(1, "xdg_wm_base", 2)])
        self.replayed()
        self.assertNotIn(wire(3, 3, 41), there.requests)

    def test_objects_of_the_compositor(self):
        """A text is asked for from the offer that this session's compositor made, through an empty file."""
        named = announced((1, "wl_seat", 7), (2, "wl_data_device_manager", 3))
        device = bound(1, "wl_seat", 7, 3) + bound(2, "wl_data_device_manager", 3, 4) + wire(4, 1, 5, 3)
        self.record((">", REGISTRY), ("<", named), (">", device),
                    ("<", wire(5, 0, SERVER_ID) + wire(SERVER_ID, 0, "text/plain")),
                    (">", wire(SERVER_ID, 1, "text/plain"), 1))
        there = self.compositor((4, 1, wire(5, 0, SERVER_ID) + wire(SERVER_ID, 0, "text/plain")),
                                announces=[(1, "wl_seat", 7), (2, "wl_data_device_manager", 3)])
        said = self.replayed()
        self.assertEqual(there.requests[-2], wire(SERVER_ID, 1, "text/plain"))
        self.assertIn("empty files: 1", said)
        self.assertEqual([os.fstat(it).st_size for it in there.files], [0])

    def test_files(self):
        """A pool has a file of the recorded size with a pattern, which grows when it is resized."""
        self.record((">", REGISTRY), ("<", announced((1, "wl_shm", 1))),
                    (">", bound(1, "wl_shm", 1, 3) + wire(3, 0, 4, 100_000), 1), (">", wire(4, 2, 200_000)))
        there = self.compositor(announces=COMPOSITOR)
        said = self.replayed()
        self.assertIn("files with a pattern, of the recorded size: 1", said)
        self.assertEqual(there.requests[2:4], [wire(3, 0, 4, 100_000), wire(4, 2, 200_000)])
        content = os.pread(there.files[0], 300_000, 0)
        pixels = b"".join(bytes([it, it, it, 255]) for it in range(256))
        self.assertTrue(content == (pixels * 196)[:200_000])

    @waiting
    def test_a_buffer_is_shown_again_once_it_was_released(self, soon):
        picture = bound(1, "wl_shm", 1, 5) + wire(5, 0, 6, 64) + wire(6, 0, 7, 0, 4, 4, 16, 0)
        self.record((">", REGISTRY), ("<", announced((5, "wl_compositor", 4), (1, "wl_shm", 1))),
                    (">", bound(5, "wl_compositor", 4, 3) + wire(3, 0, 4) + picture, 1),
                    (">", wire(4, 1, 7, 0, 0) + wire(4, 6)), ("<", wire(7, 0)), (">", wire(4, 1, 7, 0, 0)))
        self.compositor(announces=COMPOSITOR)
        said = self.replayed("--wait", soon, status=1)
        self.assertEqual(said[1], f"wl_buffer@7.release did not come within {soon} s: event 1 of its kind at that "
                                  "object, and 0 came")

    def test_up_to_a_message(self):
        self.record(*WITH_SURFACE)
        there = self.compositor(announces=COMPOSITOR)
        self.replayed("--to", "3")
        self.assertEqual(there.requests, [REGISTRY, bound(77, "wl_compositor", 4, 3), sync(4)])


class Parting(Replayed):
    """Where the sessions part, and how."""

    @waiting
    def test_a_global_that_is_not_there(self, soon):
        self.record(*WITH_SURFACE)
        self.compositor(announces=[(1, "wl_shm", 1)])
        said = self.replayed("--wait", soon, status=1)
        self.assertEqual(said, [
            'parted at request 2 (message 3): -> wl_registry@2.bind(5, "wl_compositor", 4, new id wl_compositor@3)',
            f"no wl_compositor in its place was announced within {soon} s",
            "1 of 2 requests sent, 1 events came, 1 in the recording until there"])

    def test_an_older_global(self):
        self.record(*WITH_SURFACE)
        self.compositor(announces=[(1, "wl_compositor", 3)])
        self.assertEqual(self.replayed(status=1)[1], "wl_compositor is offered up to version 3")

    @waiting
    def test_an_answer_that_never_comes(self, soon):
        self.record((">", sync(2)), ("<", done(2)), (">", REGISTRY[:8] + struct.pack("<I", 2)))
        self.compositor((1, 0, b""))
        self.assertEqual(self.replayed("--wait", soon, status=1), [
            "parted at event 1 (message 2): <- wl_callback@2.done(7)",
            f"this answer did not come within {soon} s: event 1 of its kind at that object, and 0 came",
            "1 of 1 requests sent, 0 events came, 1 in the recording until there",
            "other events:", "wl_callback.done: 0 here, 1 in the recording"])

    @waiting
    def test_an_object_that_never_comes(self, soon):
        named = announced((1, "wl_seat", 7), (2, "wl_data_device_manager", 3))
        device = bound(1, "wl_seat", 7, 3) + bound(2, "wl_data_device_manager", 3, 4) + wire(4, 1, 5, 3)
        self.record((">", REGISTRY), ("<", named), (">", device), ("<", wire(5, 0, SERVER_ID)),
                    (">", wire(SERVER_ID, 2)))
        self.compositor(announces=[(1, "wl_seat", 7), (2, "wl_data_device_manager", 3)])
        said = self.replayed("--wait", soon, status=1)
        self.assertEqual(said[:2], ["parted at request 5 (message 8): -> wl_data_offer@4278190080.destroy()",
                                    f"its target was not made within {soon} s"])

    def test_an_error(self):
        self.record(*WITH_SURFACE, (">", sync(5)), ("<", done(5)))
        error = wire(1, 0, 4, 3, "no")
        self.compositor((3, 0, error), announces=COMPOSITOR)
        said = self.replayed(status=1)
        self.assertIn(said[1], ['wl_display.error: wl_surface@4, in the recording wl_surface@4: error 3: "no"'])
        self.assertEqual(said[2], "an earlier request may be at fault: --step says which")

    def test_an_error_by_steps(self):
        self.record(*WITH_SURFACE, (">", sync(5)), ("<", done(5)))
        self.compositor((3, 0, wire(1, 0, 4, 3, "no")), announces=COMPOSITOR)
        self.assertEqual(self.replayed("--step", status=1)[:2], [
            "parted at request 3 (message 4): -> wl_compositor@3.create_surface(new id wl_surface@4)",
            'wl_display.error: wl_surface@4, in the recording wl_surface@4: error 3: "no"'])

    def test_the_recorded_error(self):
        """The error comes before the recorded client's last requests are sent, or after: it is the same."""
        self.record(*WITH_SURFACE, (">", sync(5)), ("<", wire(1, 0, 4, 3, "no")))
        for step in ([], ["--step"]):
            self.compositor((3, 0, wire(1, 0, 4, 3, "never")), announces=COMPOSITOR)
            self.assertEqual(self.replayed(*step)[:2], ["played to the end", "the same error came"])

    def test_another_error(self):
        self.record(*WITH_SURFACE, (">", sync(5)), ("<", wire(1, 0, 4, 3, "no")))
        self.compositor((3, 0, wire(1, 0, 4, 2, "no")), announces=COMPOSITOR)
        said = self.replayed(status=1)
        self.assertTrue(said[0].startswith("parted at event 2 (message 6): <- wl_display@1.error("), said)
        self.assertTrue(said[1].endswith('error 2: "no"'), said)

    @waiting
    def test_an_error_that_never_comes(self, soon):
        self.record(*WITH_SURFACE, ("<", wire(1, 0, 4, 3, "no")))
        self.compositor(announces=COMPOSITOR)
        said = self.replayed("--wait", soon, status=1)
        self.assertEqual(said[1], f"this error did not come within {soon} s")

    def test_a_compositor_that_goes(self):
        """It has read all that was sent, or not: then the socket is reset."""
        for piece in (4, 65536):
            self.record(*WITH_SURFACE)
            self.compositor((3, 0, None), announces=COMPOSITOR, piece=piece)
            said = self.replayed(status=1)
            self.assertEqual(said[1], "the compositor has closed the connection")

    def test_a_compositor_that_breaks_a_rule(self):
        self.record(*WITH_SURFACE)
        self.compositor((3, 0, wire(9, 0)), announces=COMPOSITOR)
        said = self.replayed(status=1)
        self.assertTrue(said[1].startswith("an event of the compositor cannot be read: "), said)

    @waiting
    def test_a_compositor_that_stops(self, soon):
        """Nothing is missing but an answer to the sync behind the last request."""
        self.record(*WITH_SURFACE)
        self.compositor((1, 0, b""), announces=COMPOSITOR)
        said = self.replayed("--wait", soon, status=1)
        self.assertEqual(said[1], f"after it, the compositor does not answer within {soon} s")

    @waiting
    def test_going_on(self, soon):
        """What depends on a missing global is left out, and an older global is bound at its own version."""
        self.record((">", REGISTRY), ("<", announced((5, "wl_compositor", 4), (6, "xdg_wm_base", 2), (7, "wl_shm", 1))),
                    (">", bound(6, "xdg_wm_base", 2, 3) + bound(5, "wl_compositor", 4, 4) + wire(4, 0, 5)),
                    (">", wire(3, 2, 6, 5) + wire(6, 1, 7) + bound(7, "wl_shm", 1, 8) + wire(5, 6)))
        there = self.compositor(announces=[(1, "wl_shm", 1), (2, "wl_compositor", 3)])
        said = self.replayed("--go-on", "--wait", soon, status=1)
        self.assertEqual(said[1], f"no xdg_wm_base in its place was announced within {soon} s")
        self.assertEqual(said[3], "wl_compositor is offered up to version 3")
        self.assertEqual(said[4:6], ["5 of 8 requests sent, 2 events came, 3 in the recording",
                                     "requests left out, because they need what was not made: 2"])
        self.assertEqual(there.requests, [REGISTRY, bound(2, "wl_compositor", 3, 3), wire(3, 0, 4),
                                          bound(1, "wl_shm", 1, 5), wire(4, 6), sync(6)])

    def test_other_events(self):
        """They are listed, and only --strict refuses events that do not come."""
        self.record((">", REGISTRY), ("<", announced((5, "wl_compositor", 6))),
                    (">", bound(5, "wl_compositor", 6, 3) + wire(3, 0, 4)), ("<", wire(4, 2, 2)), (">", wire(4, 6)))
        for words, status in ([], 0), (["--strict"], 1):
            self.compositor(announces=COMPOSITOR)
            said = self.replayed(*words, status=status)
            self.assertEqual(said[2:5], ["other events:", "wl_registry.global: 2 here, 1 in the recording",
                                         "wl_surface.preferred_buffer_scale: 0 here, 1 in the recording"])
            self.assertEqual(said[5:], ["refused by --strict: some events of the recording did not come"][:status])


class Long(Replayed):
    """Recordings of any length: in memory is what the rest of the session may need."""

    # The longest recording that there was once, in bytes.
    LIMIT = 16777216
    # By how many kilobytes the tool's memory may differ.
    SLACK = 2000

    def memory(self):
        """Replays the recording, whose last request makes a registry. Returns the lines of the outcome, and how much
        memory the tool has had at most by then, in kilobytes."""
        started, much = threading.Event(), []

        def look(_):
            started.wait(LONG)
            with open(f"/proc/{tool.pid}/status", encoding="ascii") as file:
                much.append(next(int(it.split()[1]) for it in file if it.startswith("VmHWM:")))
            return b""
        self.compositor((1, 1, look))
        with subprocess.Popen([*REPLAY, "--no-tables", self.recorded], env=self.env, stdout=subprocess.PIPE,
                              text=True) as tool:
            started.set()
            said, _ = tool.communicate(timeout=LONG)
        self.assertEqual(tool.returncode, 0, said)
        return said.splitlines(), much[0]

    def is_no_larger(self, than, how_much):
        if len(REPLAY) == 1:
            self.assertLess(how_much, than + self.SLACK)

    def test_a_long_file(self):
        """It is read piece by piece, both times."""
        pieces = (">", sync(2)), ("<", done(2)), (">", REGISTRY)
        self.record(*pieces)
        said, little = self.memory()
        with open(self.recorded, "w", encoding="ascii") as file:
            for arrow, data in pieces:
                file.write(f"# {'1' * 998}\n" * 6000)
                file.write(f"{arrow} {data.hex()}\n")
        self.assertGreater(os.path.getsize(self.recorded), self.LIMIT)
        again, much = self.memory()
        self.assertEqual(again, said)
        self.is_no_larger(little, much)
        with open(self.recorded, "a", encoding="ascii") as file:
            file.write("a bad line\n")
        said, error = self.ran(self.recorded, status=125)
        self.assertEqual((said, error), ("", f"waywire-replay: {self.recorded} line 18004: bad line\n"))

    def test_objects_that_are_gone(self):
        """They are forgotten, and their events are still counted."""
        much = []
        turn = (">", b"".join(sync(at) for at in range(2, 102))), ("<", b"".join(done(at) for at in range(2, 102)))
        for count in (200, 30_000):
            self.record(*turn * (count // 100), (">", REGISTRY))
            said, memory = self.memory()
            self.assertEqual(said, [
                "played to the end", f"{count + 1} of {count + 1} requests sent, {count} events came, {count} in the recording"])
            much.append(memory)
        self.is_no_larger(*much)

    def test_standard_input(self):
        self.record((">", sync(2)), ("<", done(2)))
        self.compositor()
        with open(self.recorded, "rb") as file, subprocess.Popen(["cat"], stdin=file, stdout=subprocess.PIPE) as cat:
            said, _ = self.ran("-", stdin=cat.stdout)
        self.assertEqual(said.splitlines()[0], "played to the end")


class Refusing(Replayed):
    """Recordings that are not played: nothing is sent."""

    def refused(self, *words):
        said, error = self.ran(*words, self.recorded, status=125)
        self.assertEqual(said, "")
        return error.replace(f"{self.recorded}", "FILE").splitlines()

    def write(self, text):
        with open(self.recorded, "w", encoding="ascii") as file:
            file.write(text)

    def test_a_bad_line(self):
        self.write("> 0100000000000c00\nwhat\n")
        self.assertEqual(self.refused(), ["waywire-replay: FILE line 2: bad line"])

    def test_a_part_of_a_session(self):
        self.write("# client it 1\n# from 5.000000\n# ids 3 0\n> 0100000000000c0002000000\n")
        self.assertEqual(self.refused(),
                         ["waywire-replay: FILE begins in the middle of its session, and is not played"])

    def test_no_message(self):
        self.write("# client it 1\n")
        self.assertEqual(self.refused(), ["waywire-replay: FILE has no message"])

    def test_no_file(self):
        self.assertEqual(self.refused(), ["waywire-replay: cannot read FILE: No such file or directory"])

    def test_a_request_that_breaks_a_rule(self):
        self.record((">", sync(2)), (">", wire(9, 0)))
        self.assertEqual(self.refused(), [
            "waywire-replay: message 2: broken: > message 2 at byte 12: F2 unknown object",
            "waywire-replay: FILE: it breaks a rule, so no client sends it; --to 1 plays what comes before it"])

    def test_an_interface_that_no_table_has(self):
        self.record((">", REGISTRY), ("<", announced((1, "wl_nothing", 1))), (">", bound(1, "wl_nothing", 1, 3)))
        self.assertEqual(self.refused()[0], 'waywire-replay: no table has "wl_nothing": see --tables')

    def test_a_dmabuf(self):
        self.record((">", REGISTRY), ("<", announced((1, "zwp_linux_dmabuf_v1", 3))),
                    (">", bound(1, "zwp_linux_dmabuf_v1", 3, 3) + wire(3, 1, 4)),
                    (">", wire(4, 1, 0, 0, 256, 0, 0), 1))
        said = self.refused()
        self.assertIn("message 5: -> zwp_linux_buffer_params_v1@4.add(fd 1, ", said[0])
        self.assertEqual(said[1], "waywire-replay: FILE: no file stands for its descriptor, such as that of a dmabuf; "
                                  "--to 4 plays what comes before it")

    def test_no_compositor(self):
        self.record((">", REGISTRY))
        self.env["WAYLAND_DISPLAY"] = "nobody"
        self.assertEqual(self.refused(),
                         ["waywire-replay: cannot connect to a compositor: No such file or directory"])

    def test_an_event_that_breaks_a_rule(self):
        """What comes before it is played."""
        self.record((">", sync(2)), ("<", done(2)), ("<", wire(9, 0)), (">", REGISTRY))
        self.compositor()
        said, error = self.ran(self.recorded)
        self.assertEqual(said.splitlines()[:2],
                         ["played to the end", "1 of 1 requests sent, 1 events came, 1 in the recording"])
        self.assertIn("is played up to message 4, an event: broken: < message 3 at byte 24: F2", error)

    def test_options(self):
        self.record((">", REGISTRY))
        for words, said in (
                ([], "one recording is played; --help says how"),
                (["--wait", "soon", self.recorded], "--wait soon: not a number of seconds"),
                (["--to", "0", self.recorded], "--to 0: not the number of a message"),
                (["--limit", "5000x", self.recorded], "--limit 5000x: not a multiple of 4 from 4096 to 65532"),
                ([self.recorded, self.recorded], "one recording is played; --help says how")):
            self.assertEqual(self.ran(*words, status=2), ("", f"waywire-replay: {said}\n"))
        said, _ = self.ran("--version")
        self.assertTrue(re.fullmatch(r"waywire-replay \d+\.\d+\.\d+(?: \(not proved\))?\n", said), said)
        self.assertTrue(self.ran("--help")[0].startswith("Plays the requests of a recorded"))


if __name__ == "__main__":
    main()
