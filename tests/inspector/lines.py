"""Tests of what waywire-inspect says beside messages: the time of day, which program a client is, and what led to an
error.

    python3 -m tests.inspector.lines [CLASS[.TEST]]..

The environment is that of inspecting.py."""
import re
import sys
import threading
import time

from tests.inspector.inspecting import done, main, message, sync
from tests.inspector.words import LAWFUL, REGISTRY, Talking, announced, bind, error

# A compositor's global that is bound: wl_compositor@3.
BOUND = (REGISTRY, (announced(1, "wl_compositor", 6),), bind(1, "wl_compositor", 6, 3))


class Clock(Talking):
    """The local time in front of a line."""

    def test_a_session_and_its_recording(self):
        self.env["TZ"] = "UTC-5"
        before = time.time()
        lines = self.lines(sync(2), (done(2),), options=["--time=clock", "--record", self.recorded])
        after = time.time()
        hours = {time.strftime("%H:%M:%S", time.gmtime(it + 5 * 3600)) for it in
                 [before + each for each in range(int(after - before) + 2)]}
        for it in lines:
            self.assertRegex(it, r"\A\d\d:\d\d:\d\d\.\d{3} (->|<-|lawful)")
            self.assertIn(it[:8], hours)
        again, _ = self.ran("--read", self.recorded, "--time=clock")
        day = 24 * 3600
        for one, other in zip(lines[:3], again.splitlines()):
            self.assertEqual(one[12:], other[12:])
            apart = abs(self.seconds(one) - self.seconds(other))
            self.assertLess(min(apart, day - apart), after - before + 0.1)

    def seconds(self, line):
        hours, minutes, seconds = line[:12].split(":")
        return int(hours) * 3600 + int(minutes) * 60 + float(seconds)

    def test_a_recording(self):
        """Counted from the start of the recording; a dash if that, or the time of a piece, is not known."""
        self.env["TZ"] = "UTC+1"
        pieces = f"# 0.5\n> {sync(2).hex()}\n# 3600\n< {done(2).hex()}\n< {message(1, 1, 2).hex()}\n"
        dash = " " * 11 + "-"
        for started, wanted in (("# started 2026-11-26T00:59:59.25Z\n", ["23:59:59.750", "00:59:59.250"]),
                                ("# started 2026-11-26T00:59:59Z\n", ["23:59:59.500", "00:59:59.000"]),
                                ("# started yesterday\n", [dash, dash]), ("", [dash, dash])):
            with open(self.recorded, "w", encoding="ascii") as file:
                file.write(started + pieces)
            said, _ = self.ran("--read", self.recorded, "--time=clock", status=None)
            self.assertEqual([it[:12] for it in said.splitlines()][:3], [*wanted, wanted[1]])


class Programs(Talking):
    """Which program a client is."""

    def answering_two(self):
        """A compositor of two clients, which answers each request."""
        def talk(peer):
            with peer:
                while peer.recv(4096):
                    peer.sendall(done(2))

        def serve():
            for _ in range(2):
                threading.Thread(target=talk, args=(self.listener.accept()[0],), daemon=True).start()
        threading.Thread(target=serve, daemon=True).start()

    def test_the_second_client_of_a_command(self):
        """Both are named once, as soon as lines have numbers: the second client when it connects."""
        words = f"""
import os, socket, subprocess, sys
path = os.environ["XDG_RUNTIME_DIR"] + "/" + os.environ["WAYLAND_DISPLAY"]
first = socket.socket(socket.AF_UNIX)
first.connect(path)
first.sendall(bytes.fromhex("{sync(2).hex()}"))
first.recv(24, socket.MSG_WAITALL)
other = subprocess.Popen([sys.executable, "-c", '''
import socket, sys
with open("/proc/self/comm", "w") as file:
    file.write("other one")
second = socket.socket(socket.AF_UNIX)
second.connect(sys.argv[1])
second.sendall(bytes.fromhex(sys.argv[2]))
second.recv(24, socket.MSG_WAITALL)
''', path, "{sync(2).hex()}"])
print(other.pid, file=sys.stderr, flush=True)
other.wait()
first.sendall(bytes.fromhex("{sync(2).hex()}"))
first.recv(24, socket.MSG_WAITALL)
"""
        self.answering_two()
        said, error = self.ran(sys.executable, "-c", words)
        lines, other = said.splitlines(), f"other one, process {int(error.splitlines()[0])}"
        self.assertEqual([it for it in lines if " is " in it][0], f"#2 is {other}")
        first = re.search(r"^#1 is (.*)$", said, re.M)[1]
        self.assertRegex(first, r"\A\S+, process \d+\Z")
        self.assertEqual(lines[:3], ["-> wl_display@1.sync(new id wl_callback@2)", "<- wl_callback@2.done(7)",
                                     "<- wl_display@1.delete_id(2)"])
        self.assertEqual(sorted(it for it in lines if "lawful" in it),
                         [f"#1 {LAWFUL.format(2, 4)} ({first})", f"#2 {LAWFUL.format(1, 2)} ({other})"])
        self.assertEqual(said.count(" is "), 2)

    def test_a_broken_verdict(self):
        lines = self.talk(message(9, 0), numbered=True, status=1)[0]
        self.assertEqual(lines[-1], f"#1 broken: > message 1 at byte 0: F2 unknown object ({self.who()})")


class Before(Talking):
    """What led to an error."""

    def before(self, *said):
        """What is printed after the error's line, without the verdict."""
        lines = self.lines(*BOUND, *said, status=1)
        return lines[next(at for at, it in enumerate(lines) if ".error(" in it) + 1:-1]

    def test_the_last_five(self):
        said = (message(3, 0, 4), message(4, 6) * 3, message(3, 1, 5), message(4, 4, 5), message(4, 7, 3), message(4, 6))
        self.assertEqual(self.before(*said, (error(4, 1, "no"),)), [
            "the last messages about wl_surface@4:", "  > message 5: -> wl_surface@4.commit()",
            "  > message 6: -> wl_surface@4.commit()", "  > message 8: -> wl_surface@4.set_opaque_region(wl_region@5)",
            "  > message 9: -> wl_surface@4.set_buffer_transform(3)", "  > message 10: -> wl_surface@4.commit()"])

    def test_what_names_it(self):
        """Also the request that made it; not what concerned an earlier object of this id."""
        said = (message(3, 0, 4), message(4, 6), message(4, 0), (message(1, 1, 4),), message(3, 1, 4))
        self.assertEqual(self.before(*said, (error(4, 1, "no"),)), [
            "the last messages about wl_region@4:", "  > message 6: -> wl_compositor@3.create_region(new id wl_region@4)"])

    def test_it_is_bounded(self):
        """What was said 64 messages before is forgotten."""
        for count, is_kept in ((62, True), (63, False)):
            said = (message(3, 0, 4), message(3, 1, 5), message(5, 1, 0, 0, 1, 1) * count)
            self.assertEqual(len(self.before(*said, (error(4, 1, "no"),))), 2 * is_kept, count)

    def test_of_the_display(self):
        """The last requests, whatever they concern."""
        lines = self.before(message(3, 0, 4), sync(5), (done(5),), (error(1, 1, "no"),))
        self.assertEqual((lines[0], lines[-1]), ("the last requests before it:",
                                                 "  > message 4: -> wl_display@1.sync(new id wl_callback@5)"))
        self.assertEqual([it for it in lines if "<-" in it], [])


if __name__ == "__main__":
    main()
