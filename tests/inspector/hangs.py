"""Tests of what waywire-inspect says of a hang while it lasts: clients and compositors that these tests play.

    python3 -m tests.inspector.hangs [CLASS[.TEST]]..

The environment is that of inspecting.py."""
import os
import re
import signal
import socket
import struct
import sys
import threading
import time

from tests.checks import has_come
from tests.inspector.inspecting import LONG, STAYING, done, main, message, sync
from tests.inspector.words import REGISTRY, Talking, announced, bind, raw, text

# A client that has bound these, from wl_compositor@3 on, and has made wl_surface@20 and wl_surface@21.
GLOBALS = (("wl_compositor", 6), ("wl_shm", 1), ("xdg_wm_base", 5), ("wl_data_device_manager", 3), ("wl_output", 4),
           ("zwlr_screencopy_manager_v1", 3), ("ext_session_lock_manager_v1", 1), ("zwlr_layer_shell_v1", 4),
           ("wp_presentation", 1), ("xdg_activation_v1", 1), ("wl_subcompositor", 1), ("wl_seat", 5))
NUMBERS = {name: number for number, (name, _) in enumerate(GLOBALS, 3)}
BASE, PRESENTATION = NUMBERS["xdg_wm_base"], NUMBERS["wp_presentation"]
SURFACE, SECOND, NEW = 20, 21, 22
BOUND = [REGISTRY, (b"".join(announced(at, *it) for at, it in enumerate(GLOBALS, 1)),),
         *(bind(at, *it, at + 2) for at, it in enumerate(GLOBALS, 1)),
         *(bind(1, "wl_compositor", 6, at) for at in range(15, SURFACE)), message(3, 0, SURFACE), message(3, 0, SECOND)]
COMMIT, FRAME = message(SURFACE, 6), message(SURFACE, 3, NEW)
WINDOW = [message(BASE, 2, NEW, SURFACE), message(NEW, 1, NEW + 1), COMMIT]
LOCK = message(NUMBERS["ext_session_lock_manager_v1"], 1, NEW)
GRAB = message(NUMBERS["zwlr_screencopy_manager_v1"], 0, NEW, 0, NUMBERS["wl_output"])
LAYER = raw(NUMBERS["zwlr_layer_shell_v1"], 0, struct.pack("<IIII", NEW, SURFACE, 0, 2) + text("a bar"))

# The tool prints so little that nobody needs to read it at once.
FEW_LINES = ("--only", "wl_callback")


def attach(buffer):
    return message(SURFACE, 1, buffer, 0, 0) + COMMIT


# What hangs, what it is waiting for, what is said before, and the answer.
HANGS = (
    ("a frame", "the client's wl_surface@20.frame has had no answer", [FRAME + COMMIT], (done(NEW),)),
    ("a configure", "the compositor's xdg_surface@22.configure has had no answer", [*WINDOW, (message(NEW, 0, 7),)],
     message(NEW, 4, 7)),
    ("a ping", "the compositor's xdg_wm_base@5.ping has had no answer", [(message(BASE, 0, 7),)], message(BASE, 3, 7)),
    ("a sync", "the client's wl_display@1.sync has had no answer", [sync(NEW)], (done(NEW),)),
    ("no first configure", "the client's wl_surface@20.commit has had no configure", WINDOW, (message(NEW, 0, 7),)),
    ("a screen copy", "the client's zwlr_screencopy_manager_v1@8.capture_output has had no buffer", [GRAB],
     (message(NEW, 0, 1, 8, 8, 32),)),
    ("a session lock", "the client's ext_session_lock_manager_v1@9.lock has had no locked", [LOCK],
     (message(NEW, 0),)),
    # Made otherwise.
    ("a lock without a configure", "the client's ext_session_lock_v1@22.get_lock_surface has had no configure",
     [LOCK, message(NEW, 1, NEW + 1, SURFACE, NUMBERS["wl_output"])], (message(NEW + 1, 0, 7, 8, 8),)),
    ("a bar without a configure", "the client's wl_surface@20.commit has had no configure", [LAYER, COMMIT],
     (message(NEW, 0, 7, 8, 8),)),
    ("a presentation", "the client's wp_presentation@11.feedback has had no answer",
     [message(PRESENTATION, 1, SURFACE, NEW), COMMIT], (message(NEW, 2),)),
    ("an activation", "the client's xdg_activation_token_v1@22.commit has had no answer",
     [message(NUMBERS["xdg_activation_v1"], 1, NEW), message(NEW, 3)], (raw(NEW, 0, text("a token")),)),
    ("a frame that no commit takes", "the client's wl_surface@20.frame has had no answer", [FRAME], (done(NEW),)),
    ("a frame of a subsurface", "the client's wl_surface@21.frame has had no answer",
     [message(NUMBERS["wl_subcompositor"], 1, NEW, SECOND, SURFACE), message(SECOND, 3, NEW + 1), message(SECOND, 6),
      COMMIT], (done(NEW + 1),)),
    ("a ping of one serial", "the compositor's xdg_wm_base@5.ping has had no answer", [(message(BASE, 0, 7) * 3,)],
     message(BASE, 3, 7) * 3),
)


class Hanging(Talking):
    """A session that stands still, and is said to do so before it ends."""

    LATE = ("--late", "0.5")

    def begin(self, *said, options=()):
        """Starts a session in which all of this passes."""
        self.start(*self.LATE, *options)
        self.printed = ""
        os.set_blocking(self.tool.stdout.fileno(), False)
        self.ends = self.client()
        for it in (*BOUND, *said):
            self.says(it)

    def says(self, data):
        client, compositor = self.ends
        if isinstance(data, tuple):
            self.passes(compositor, client, *data)
        else:
            self.passes(client, compositor, data)

    def has(self, pattern):
        """Whether the tool has printed a line so far, with the numbers of messages left out."""
        try:
            while part := os.read(self.tool.stdout.fileno(), 65536):
                self.printed += part.decode()
        except BlockingIOError:
            pass
        return re.search(pattern, re.sub(r" \(message \d+\)", "", self.printed), re.M)

    def comes(self, *words):
        """Waits for a line of the tool; or for bytes, as every test does."""
        if len(words) == 2:
            return super().comes(*words)
        self.assertTrue(has_come(lambda: self.has(*words), LONG), (words, self.printed))
        return None

    def waits_for(self, what):
        self.comes(rf"^#1 waiting since \d+\.\d{{3}} s: for \d+\.\d s, {re.escape(what)}$")

    def ended(self, number=signal.SIGTERM):
        """What the tool says at the end."""
        os.set_blocking(self.tool.stdout.fileno(), True)
        return self.finish(number)[0]

    def test_what_hangs(self):
        """It is said while it lasts, and so is the answer."""
        for name, words, said, answer in HANGS:
            with self.subTest(name):
                self.begin(*said)
                self.waits_for(words)
                self.says(answer)
                asked = words[: words.index(" has ")]
                self.comes(rf"^#1 answered after \d+\.\d s: {re.escape(asked)}$")
                self.ended()

    def test_a_flood_of_pings(self):
        """The first is named while they go on, and no other."""
        self.begin()
        client, compositor = self.ends
        is_over = threading.Event()

        def ping():
            serial = 0
            while not is_over.wait(0.01):
                serial += 1
                compositor.sendall(message(BASE, 0, serial))
        thread = threading.Thread(target=ping, daemon=True)
        thread.start()
        reading = threading.Thread(target=lambda: any(not client.recv(4096) for _ in iter(int, 1)), daemon=True)
        reading.start()
        self.waits_for("the compositor's xdg_wm_base@5.ping has had no answer")
        is_over.set()
        thread.join(LONG)
        self.assertEqual(len(re.findall(r"waiting since .*\.ping", self.printed)), 1)
        self.ended()
        reading.join(LONG)

    def test_a_buffer(self):
        """It needs its release once another is shown in its place, or none. The compositor may hold the one that it
        shows, also if it is the only one."""
        pool, released = raw(NUMBERS["wl_shm"], 0, struct.pack("<Ii", NEW, 64)), (message(NEW + 1, 0),)
        for shown in (NEW + 2, 0):
            with self.subTest(shown):
                self.begin()
                client, compositor = self.ends
                with open("/dev/null", "rb") as file:
                    socket.send_fds(client, [pool], [file.fileno()])
                data, files, _, _ = socket.recv_fds(compositor, 4096, 1)
                self.assertEqual(data, pool)
                os.close(files[0])
                self.says(b"".join(message(NEW, 0, at, 0, 2, 2, 8, 0) for at in (NEW + 1, NEW + 2)) + attach(NEW + 1))
                self.says(message(SURFACE, 1, shown, 0, 0) + message(SURFACE, 3, NEW + 3))
                self.waits_for("the client's wl_surface@20.frame has had no answer")
                self.assertFalse(self.has("has had no release"))
                self.says(COMMIT)
                self.waits_for("the client's wl_surface@20.attach has had no release")
                self.says(released)
                self.comes(r"^#1 answered after \d+\.\d s: the client's wl_surface@20.attach$")
                self.ended()

    def transfer(self, source, target, data):
        """Passes a message with the end of a pipe for writing. Returns the ends, the last as it came."""
        read, write = os.pipe()
        self.addCleanup(os.close, read)
        socket.send_fds(source, [data], [write])
        os.close(write)
        got, files, _, _ = socket.recv_fds(target, 4096, 1)
        self.assertEqual(got, data)
        return read, files[0]

    def test_a_selection(self):
        """Its pipe stays open, after a request and after an event."""
        device, offer = message(NUMBERS["wl_data_device_manager"], 1, NEW, NUMBERS["wl_seat"]), 0xff000000
        source = message(NUMBERS["wl_data_device_manager"], 0, NEW + 1)
        self.begin(device, source, (message(NEW, 0, offer),))
        client, compositor = self.ends
        for way, data, asked in (((client, compositor), raw(offer, 1, text("a/b")), "client's wl_data_offer@4278190080.receive"),
                                 ((compositor, client), raw(NEW + 1, 1, text("a/b")), "compositor's wl_data_source@23.send")):
            _, write = self.transfer(*way, data)
            self.waits_for(f"the {asked} has had no end of its pipe")
            os.close(write)
            self.comes(rf"^#1 answered after \d+\.\d s: the {asked}$")
        self.ended()

    def test_a_side_that_does_not_read(self):
        """Neither much nor little is read. It may read again."""
        for at, name, data in ((0, "compositor", sync(NEW)), (1, "client", message(BASE, 0, 7)),
                               (1, "client", message(BASE, 0, 7) * 100_000)):
            with self.subTest(f"{name}, {len(data)}"):
                self.begin(options=FEW_LINES)
                source, target = self.ends[at], self.ends[not at]
                writing = threading.Thread(target=source.sendall, args=(data,), daemon=True)
                writing.start()
                self.waits_for(f"the {name} has read nothing")
                self.comes(target, data)
                writing.join(LONG)
                self.comes(rf"^#1 the {name} reads again after \d+\.\d s$")
                self.ended()

    def test_a_side_that_reads_little(self):
        """Who reads some of what waits is not said to read nothing."""
        self.begin(options=FEW_LINES)
        _, compositor = self.ends
        data = message(BASE, 0, 7) * 50_000
        writing = threading.Thread(target=compositor.sendall, args=(data,), daemon=True)
        writing.start()
        left, before, longest = len(data), time.monotonic(), 0
        while left:
            left -= len(self.ends[0].recv(8192))
            now = time.monotonic()
            longest, before = max(longest, now - before), now
        writing.join(LONG)
        self.waits_for("the compositor's xdg_wm_base@5.ping has had no answer")
        # On a slow machine it may have read nothing for so long.
        self.assertTrue("has read nothing" not in self.printed or longest > 0.4)
        self.ended()

    def test_how_it_ends(self):
        """A signal, and the end of the client, end with what is open."""
        for number in (signal.SIGTERM, signal.SIGINT, None):
            self.begin(FRAME + COMMIT, options=("--late", "1.1"))
            self.waits_for("the client's wl_surface@20.frame has had no answer")
            if number is None:
                self.ends[0].close()
                self.comes(r"^#1 lawful")
            os.set_blocking(self.tool.stdout.fileno(), True)
            self.tool.send_signal(number or signal.SIGTERM)
            self.printed += self.tool.communicate(timeout=LONG)[0]
            self.assertRegex(self.printed, r"\n#1 wl_surface@20\.frame: 1 not answered, waiting \d+\.\d s\n#1 lawful")

    def test_a_killed_client(self):
        """It is a process of its own, and the side that does not read is named at the end."""
        script = STAYING + f"display.sendall(bytes.fromhex('{sync(2).hex()}'))\nsignal.pause()\n"
        self.start("--late", "1.1", sys.executable, "-c", script)
        self.printed = ""
        os.set_blocking(self.tool.stdout.fileno(), False)
        compositor = self.enterContext(self.listener.accept()[0])
        self.comes(r"^waiting since .*: for .* s, the client's wl_display@1.sync has had no answer$")
        self.comes(r"^waiting since .*: for .* s, the compositor has read nothing$")
        os.set_blocking(self.tool.stdout.fileno(), True)
        with open(f"/proc/{self.tool.pid}/task/{self.tool.pid}/children", encoding="ascii") as file:
            os.kill(int(file.read().split()[0]), signal.SIGKILL)
        said, _ = self.tool.communicate(timeout=LONG)
        self.assertRegex(said, r"(?m)^waiting since .*, the compositor has read nothing$")
        self.assertRegex(said, r"(?m)^wl_display@1.sync: 1 not answered, waiting \d+\.\d s$")
        compositor.close()

    def test_json(self):
        """The same as objects, of a session that goes on."""
        self.begin(FRAME + COMMIT, options=("--json",))
        self.comes(r'^{"type":"waiting","client":1,"number":\d+,"since":\d+,"time":')
        self.says((done(NEW),))
        self.comes(r'^{"type":"waited","client":1,"number":\d+,"time":[\d.]+,"answered":true,"waited":')
        self.ends[0].sendall(sync(NEW))
        self.comes(r'^{"type":"not_reading","client":1,"side":"compositor","time":[\d.]+,"waiting":')
        self.ends[1].recv(4096)
        self.comes(r'^{"type":"reads_again","client":1,"side":"compositor","time":[\d.]+,"waited":')
        self.ended()

    def test_never(self):
        """--late 0 says nothing of it."""
        self.begin(FRAME + COMMIT, sync(NEW + 1), options=("--late", "0"))
        self.assertFalse(has_come(lambda: self.has("waiting since"), 1))
        self.ended()


if __name__ == "__main__":
    main()
