"""Tests of what waywire-inspect prints, records and reads: clients and compositors that these tests play.

    python3 -m tests.inspector.words [CLASS[.TEST]]..

The environment is that of inspecting.py."""
import glob
import json
import os
import re
import signal
import struct
import subprocess
import sys

from tests.inspector.inspecting import INSPECT, LONG, STAYING, SYNC, TOP, Inspected, client, done, main, message, sync

REGISTRY = message(1, 1, 2)
LAWFUL = "lawful: {} requests, {} events, 0 and 0 bytes left"


def text(words):
    """A string on the wire."""
    data = words if isinstance(words, bytes) else words.encode()
    data += b"\0"
    return struct.pack("<I", len(data)) + data + bytes(-len(data) % 4)


def raw(target, opcode, data):
    return struct.pack("<IHH", target, opcode, 8 + len(data)) + data


def announced(name, interface, version, registry=2):
    return raw(registry, 0, struct.pack("<I", name) + text(interface) + struct.pack("<I", version))


def bind(name, interface, version, new, registry=2):
    return raw(registry, 0, struct.pack("<I", name) + text(interface) + struct.pack("<II", version, new))


def error(target, code, words):
    return raw(1, 0, struct.pack("<II", target, code) + text(words))


class Talking(Inspected):
    """A client and a compositor that say what a test has listed."""

    def written(self, name, lines):
        """Writes a file, and returns its path."""
        path = f"{self.folder}/{name}"
        with open(path, "w", encoding="ascii") as file:
            file.write(lines)
        return path

    def talk(self, *said, options=(), status=0, numbered=False):
        """Passes bytes: a request, or in a tuple an event. Returns the lines that were printed, and what was said
        on standard error."""
        self.start(*options)
        client, compositor = self.client()
        for it in said:
            if isinstance(it, tuple):
                self.passes(compositor, client, *it)
            else:
                self.passes(client, compositor, it)
        self.tool.send_signal(signal.SIGTERM)
        out, err = self.tool.communicate(timeout=LONG)
        self.assertEqual(self.tool.returncode, status, (out, err))
        out = self.at_once(out)
        return (out if numbered else self.of_one(out)).splitlines(), err

    def lines(self, *said, **how):
        lines, err = self.talk(*said, **how)
        self.assertEqual(err, "")
        return lines

    def told(self, *said, options=(), **how):
        """The objects that --json prints."""
        return [json.loads(it) for it in self.lines(*said, options=["--json", *options], **how)]


class Unjudged(Talking):
    """Not judged is not broken."""

    GIVEN = (REGISTRY, (announced(1, "own_shell1", 5) + announced(2, "wl_compositor", 6),),
             bind(1, "own_shell1", 5, 3))

    def test_a_bind_of_what_no_table_has(self):
        lines = self.lines(*self.GIVEN, message(3, 1, 77), bind(2, "wl_compositor", 6, 4), message(4, 0, 5),
                           (message(3, 0, 1),), message(9, 3, 0))
        self.assertEqual(lines[3:], [
            '-> wl_registry@2.bind(1, "own_shell1", 5, new id own_shell1@3)',
            "not judged from here: no table has own_shell1",
            "? -> unknown@3: opcode 1, 12 bytes",
            '? -> wl_registry@2.bind(2, "wl_compositor", 6, new id wl_compositor@4)',
            "? -> wl_compositor@4.create_surface(new id wl_surface@5)",
            "? <- unknown@3: opcode 0, 12 bytes",
            "? -> unknown@9: opcode 3, 12 bytes",
            "not judged from request 2 on: no table has own_shell1; lawful until then; "
            "6 requests, 3 events"])

    def test_nothing_is_called_broken(self):
        """A new id that is no next one, one that is held, a message that cannot be read, a dead target."""
        lines = self.lines(*self.GIVEN, sync(70), sync(70), message(1, 0), raw(1, 1, b"1234" * 3), message(1, 7))
        self.assertEqual(lines[5:-1], [
            "? -> wl_display@1.sync(new id wl_callback@70)", "? -> wl_display@1.sync(new id wl_callback@70)",
            "? -> wl_display@1.sync(..)",
            "? -> wl_display@1.get_registry(new id wl_registry@875770417, ..)",
            "? -> wl_display@1: opcode 7, 8 bytes"])

    def test_a_version_that_the_tables_lack(self):
        """What they have is judged. What they lack, and its objects' too, is not."""
        given = REGISTRY, (announced(1, "wl_compositor", 99),), bind(1, "wl_compositor", 99, 3), message(3, 0, 4)
        newer = "the tables have wl_compositor up to version 7, and it is bound at 99"
        lines = self.lines(*given, message(4, 6))
        self.assertEqual(lines[2:], [
            '-> wl_registry@2.bind(1, "wl_compositor", 99, new id wl_compositor@3)',
            f"{newer}; judged until a message comes that they lack",
            "-> wl_compositor@3.create_surface(new id wl_surface@4)", "-> wl_surface@4.commit()",
            f"{LAWFUL.format(4, 1)}; {newer}"])
        why = "the tables have wl_surface up to version 7, and wl_surface@4 has version 99"
        for lacked, line in ((message(4, 40, 5), "-> wl_surface@4: opcode 40, 12 bytes"),
                             ((message(4, 40, 5),), "<- wl_surface@4: opcode 40, 12 bytes")):
            lines = self.lines(*given, lacked, message(4, 6))
            front = "event 2" if isinstance(lacked, tuple) else "request 4"
            self.assertEqual(lines[-4:-1], [line, f"not judged from here: {why}", "? -> wl_surface@4.commit()"])
            self.assertTrue(lines[-1].startswith(f"not judged from {front} on: {why}; lawful until then; "), lines[-1])

    def test_what_is_broken_in_any_newer_version(self):
        """A rule that is broken whatever the newer version has; a message that no version of its object has."""
        given = (REGISTRY, (announced(1, "wl_compositor", 99) + announced(2, "wl_shm", 1),),
                 bind(1, "wl_compositor", 99, 3), bind(2, "wl_shm", 1, 4))
        for data, words in ((message(3, 0, 9), "F6: argument 0: 9 is neither a free id nor the next one, 5"),
                            (message(4, 9), "F3: wl_shm@4 has no request with the opcode 9"),
                            (bind(1, "wl_compositor", 100, 5), "F9: the global was announced with version 99")):
            self.assertEqual(self.lines(*given, data, status=1)[-2], words)

    OFFERS = """interface own_desk 1
event offer N(own_offer)
interface own_offer 1
event named s
interface own_share 1
request destroy D
event offer N(own_share)
"""

    def test_ids_of_the_server(self):
        """A newer version may have a request that ends an object, which decides when its id can be used again."""
        own = self.written("own.tables", self.OFFERS)
        for name, made, is_sure in (("own_desk", "own_offer", False), ("own_share", "own_share", True)):
            lines = self.lines(REGISTRY, (announced(1, name, 2),), bind(1, name, 2, 3), (message(3, 0, 0xFF000000),),
                               options=["--tables", own])
            why = f"the tables have {made} up to version 1, and {made}@4278190080 has version 2"
            self.assertEqual(f"not judged from here: {why}" in lines, not is_sure)
            self.assertEqual(lines[-1].startswith("lawful"), is_sure)

    def test_an_id_that_was_taken_back(self):
        """An event of a newer version may have ended its object."""
        own = self.written("own.tables", "interface own_once 1\nevent begun\n")
        for version, is_said in ((1, True), (2, False)):
            lines = self.lines(REGISTRY, (announced(1, "own_once", version),), bind(1, "own_once", version, 3),
                               (message(1, 1, 3),), options=["--tables", own])
            self.assertEqual("the compositor took back id 3, which nobody had given up" in lines, is_said)

    def test_what_was_not_announced_is_broken(self):
        for bound, words in ((bind(1, "own_shell1", 6, 3), "the global was announced with version 5"),
                             (bind(7, "own_shell1", 5, 3),
                              'no global 7 was announced that is a "own_shell1"')):
            lines = self.lines(*self.GIVEN[:2], bound, status=1)
            self.assertEqual(lines[-2:], [f"F9: {words}", "broken: > message 2 at byte 12: F9 bad bind"])

    def test_numbers_of_descriptors(self):
        """They are left out in a direction in which an unknown message has passed."""
        lines = self.lines(*self.GIVEN[:2], (announced(3, "wl_seat", 5),), bind(3, "wl_seat", 5, 3), message(3, 1, 4),
                           bind(1, "own_shell1", 5, 5), sync(6), (message(4, 0, 1, 9),),
                           (message(5, 0),), (message(4, 0, 1, 9),))
        self.assertEqual([it for it in lines if "keymap" in it],
                         ["? <- wl_keyboard@4.keymap(1 xkb_v1, fd 1, 9)", "? <- wl_keyboard@4.keymap(1 xkb_v1, fd, 9)"])

    def test_an_error(self):
        lines = self.lines(*self.GIVEN, (error(3, 2, "no"),), status=1)
        self.assertEqual(lines[-4:], [
            '? <- wl_display@1.error(unknown@3, 2, "no")', "the last messages about unknown@3:",
            '  > message 2: -> wl_registry@2.bind(1, "own_shell1", 5, new id own_shell1@3)',
            "not judged from request 2 on: no table has own_shell1; lawful until then; "
            "2 requests, 3 events; ended by wl_display.error"])


class Broken(Talking):
    """The message that breaks a rule is printed, with what is wrong in words."""

    SURFACE = (REGISTRY, (announced(1, "wl_compositor", 6),), bind(1, "wl_compositor", 6, 3), message(3, 0, 4))

    def broken(self, *said):
        """What is printed of the last message: its line, what is wrong, and what was said of an object that is gone."""
        lines = self.lines(*said, status=1)
        self.assertTrue(lines[-1].startswith("broken: "), lines)
        return lines[next(at for at, it in enumerate(lines) if re.match(r"F\d+: ", it)) - 1:-1]

    def test_words(self):
        """The rules that a request can break."""
        made = "  > message 3: -> wl_compositor@3.create_surface(new id wl_surface@4)"
        for data, line, words, *about in (
            (struct.pack("<IHH", 4, 0, 6), "-> wl_surface@4: opcode 0, 6 bytes, bytes 0400000000000600",
             "F1: its header says a size of 6 bytes, which must be at least 8, a multiple of 4, and at most 4096"),
            (message(5, 0), "-> unknown@5: opcode 0, 8 bytes, bytes 0500000000000800", "F2: no object has the id 5"),
            (message(4, 99), "-> wl_surface@4: opcode 99, 8 bytes, bytes 0400000063000800",
             "F3: wl_surface@4 has no request with the opcode 99"),
            (message(4, 1, 3, 0, 0), "-> wl_surface@4.attach(wl_compositor@3, 0, 0)",
             "F5: argument 0: wl_compositor@3 is given, and a wl_buffer is wanted",
             "the last messages about wl_compositor@3:",
             '  > message 2: -> wl_registry@2.bind(1, "wl_compositor", 6, new id wl_compositor@3)', made),
            (message(3, 0, 4), "-> wl_compositor@3.create_surface(new id wl_surface@4)",
             "F6: argument 0: wl_surface@4 still has this id", "the last messages about wl_surface@4:", made),
            (message(3, 0, 1), "-> wl_compositor@3.create_surface(new id wl_surface@1)",
             "F6: argument 0: wl_display@1 still has this id"),
            (message(3, 0, 9), "-> wl_compositor@3.create_surface(new id wl_surface@9)",
             "F6: argument 0: 9 is neither a free id nor the next one, 5"),
        ):
            with self.subTest(words):
                self.assertEqual(self.broken(*self.SURFACE, data), [line, words, *about])

    def test_what_is_newer_than_its_object(self):
        """A message that only a newer version has is named, with its arguments; also if it is not judged."""
        seat = (REGISTRY, (announced(1, "wl_seat", 4) + announced(2, "own_shell1", 1),), bind(1, "wl_seat", 4, 3))
        self.assertEqual(self.broken(*seat, message(3, 3)), [
            "-> wl_seat@3.release()", "F3: wl_seat@3 has version 4, and this request is there from version 5 on"])
        pointer = (*seat, message(3, 0, 4))
        self.assertEqual(self.broken(*pointer, (message(4, 8, 1, 0xffffff88),))[0],
                         "<- wl_pointer@4.axis_discrete(1 horizontal_scroll, -120)")
        self.assertEqual(self.broken(*pointer, (message(4, 8, 1),))[0],
                         "<- wl_pointer@4.axis_discrete(1 horizontal_scroll, ..), bytes 0400000008000c0001000000")
        lines = self.lines(*pointer, bind(2, "own_shell1", 1, 5), message(3, 3), (message(4, 8, 1, 5),))
        self.assertEqual(lines[-3:-1], ["? -> wl_seat@3.release()",
                                        "? <- wl_pointer@4.axis_discrete(1 horizontal_scroll, 5)"])

    def test_malformed(self):
        line, words = self.broken(*self.SURFACE, message(4, 1, 0, 0))
        self.assertEqual(line, "-> wl_surface@4.attach(nil, 0, ..), bytes 04000000010010000000000000000000")
        self.assertRegex(words, r"\AF4: argument 2: \w")

    def test_what_was_destroyed(self):
        """A message about an object that is gone is followed by the last messages about this object."""
        gone = (*self.SURFACE, message(4, 0))
        about = ["the last messages about wl_surface@4:",
                 "  > message 3: -> wl_compositor@3.create_surface(new id wl_surface@4)",
                 "  > message 4: -> wl_surface@4.destroy()"]
        self.assertEqual(self.broken(*gone, message(4, 6))[1:], ["F2: wl_surface@4 was destroyed", *about])
        self.assertEqual(self.broken(*gone, message(3, 0, 4))[1:], [
            "F6: argument 0: wl_surface@4 was destroyed, and no delete_id has made its id free", *about])

    def test_what_has_no_id_any_more(self):
        """A message for an id that is free is followed by the last messages about this id."""
        self.assertEqual(self.broken(*self.SURFACE, message(4, 0), (message(1, 1, 4),), message(4, 6))[1:], [
            "F2: no object has the id 4", "the last messages about unknown@4:",
            "  > message 3: -> wl_compositor@3.create_surface(new id wl_surface@4)",
            "  > message 4: -> wl_surface@4.destroy()", "  < message 2: <- wl_display@1.delete_id(4)"])

    def test_an_error_ends_a_session(self):
        for options in ((), ("--only", "wl_output")):
            lines = self.lines(*self.SURFACE, (error(4, 1, "grün"),), options=options, status=1)
            self.assertEqual(lines[-4:], ['<- wl_display@1.error(wl_surface@4, 1 invalid_transform, "grün")',
                                          "the last messages about wl_surface@4:",
                                          "  > message 3: -> wl_compositor@3.create_surface(new id wl_surface@4)",
                                          "lawful up to wl_display.error: 3 requests, 2 events, 0 and 0 bytes left"])

    def test_an_error_behind_a_broken_message(self):
        lines = self.lines(sync(2), message(9, 0), sync(3), (done(2) + error(1, 0, "bad id"),), sync(4), status=1)
        self.assertEqual(lines[3:], ["broken: > message 2 at byte 12: F2 unknown object", f"? {SYNC.format(3)[:-1]}",
                                     "? <- wl_callback@2.done(7)", "? <- wl_display@1.delete_id(2)",
                                     '? <- wl_display@1.error(wl_display@1, 0 invalid_object, "bad id")',
                                     "the last requests before it:",
                                     "  > message 1: -> wl_display@1.sync(new id wl_callback@2)",
                                     "  > message 2: -> unknown@9: opcode 0, 8 bytes, bytes 0900000000000800",
                                     "  > message 3: -> wl_display@1.sync(new id wl_callback@3)"])

    def test_an_error_is_red(self):
        lines = self.lines(sync(2), (error(1, 0, "no"),), options=["--color=always"], status=1)
        self.assertEqual(lines[-4:], ['\x1b[31m<- wl_display@1.error(wl_display@1, 0 invalid_object, "no")\x1b[0m',
                                      "the last requests before it:",
                                      "  > message 1: -> wl_display@1.sync(new id wl_callback@2)",
                                      "\x1b[31mlawful up to wl_display.error: 1 requests, 1 events, "
                                      "0 and 0 bytes left\x1b[0m"])

    def test_an_error_and_the_status_of_a_command(self):
        for own, status in ((0, 1), (4, 4)):
            self.answering(error(1, 0, "no"))
            self.ran(*client(sync(2), 12, own), status=status)


class TakenBack(Talking):
    """A delete_id that nothing asked for is named, with the verdict too: the rules allow it."""

    SURFACE = Broken.SURFACE
    WORDS = "the compositor took back id {}, which nobody had given up"

    def test_a_live_object(self):
        """What the client wrote before it read that is no fault of its own."""
        lines = self.lines(*self.SURFACE, (message(1, 1, 4),), message(4, 6), status=1)
        self.assertEqual(lines[4:6], ["<- wl_display@1.delete_id(4)", self.WORDS.format(4)])
        self.assertEqual(lines[-1], f"broken: > message 4 at byte 64: F2 unknown object; {self.WORDS.format(4)}")

    def test_an_id_without_an_object(self):
        lines = self.lines((message(1, 1, 9),), (message(1, 1, 8),), sync(2))
        self.assertEqual(lines, [
            "<- wl_display@1.delete_id(9)", self.WORDS.format(9), "<- wl_display@1.delete_id(8)",
            "-> wl_display@1.sync(new id wl_callback@2)", f"{LAWFUL.format(1, 2)}; {self.WORDS.format(9)}"])

    def test_what_was_given_up(self):
        """A destroyed object, and one that an event ends, with or without that event."""
        lines = self.lines(*self.SURFACE, message(4, 0), (message(1, 1, 4),), sync(4), (done(4),), sync(4),
                           (message(1, 1, 4),))
        self.assertFalse([it for it in lines if "took back" in it])
        self.assertEqual(lines[-1], LAWFUL.format(6, 5))

    def test_what_an_event_ends_though_no_text_says_so(self):
        """wp_drm_lease_device_v1.released ends the device; its interface has requests, so the text leaves that out."""
        device = "wp_drm_lease_device_v1"
        lines = self.lines(REGISTRY, (announced(1, device, 1),), bind(1, device, 1, 3), message(3, 1),
                           (message(3, 3),), (message(1, 1, 3),))
        self.assertEqual(lines[-2:], ["<- wl_display@1.delete_id(3)", LAWFUL.format(3, 3)])

    def test_between_two_halves_of_a_request(self):
        """The request is whole after the delete_id, so its id had no object."""
        lines = self.lines(REGISTRY[:8], (message(1, 1, 2),), REGISTRY[8:], (raw(2, 1, struct.pack("<I", 1)),))
        self.assertEqual(lines[:2], ["<- wl_display@1.delete_id(2)", self.WORDS.format(2)])
        self.assertEqual(lines[-1], f"{LAWFUL.format(1, 2)}; {self.WORDS.format(2)}")

    def test_json(self):
        told = self.told(*self.SURFACE, (message(1, 1, 4),))
        self.assertEqual([it["note"] for it in told if "note" in it], [self.WORDS.format(4)])
        self.assertEqual(told[-1]["words"], f"{LAWFUL.format(3, 2)}; {self.WORDS.format(4)}")


class Printing(Talking):
    """What people want to read."""

    TITLED = (REGISTRY, (announced(1, "xdg_wm_base", 5) + announced(2, "wl_compositor", 6),),
              bind(1, "xdg_wm_base", 5, 3), bind(2, "wl_compositor", 6, 4), message(4, 0, 5), message(3, 2, 6, 5),
              message(6, 1, 7))

    def title(self, words):
        return self.lines(*self.TITLED, raw(7, 2, text(words)))[-2]

    def test_text(self):
        for words, printed in (
            ("Grüße, 世界 🙂", "Grüße, 世界 🙂"), ('"\\', "\\x22\\x5c"), ("\x1b[31m\n", "\\x1b[31m\\x0a"),
            (b"\xff\xc3\xa9\xc3", "\\xffé\\xc3"), ("\x9b", "\\xc2\\x9b"), ("\u202egnp", "\\xe2\\x80\\xaegnp"),
            (b"\xed\xa0\x80", "\\xed\\xa0\\x80"), ("\\xc3\\xa9", "\\x5cxc3\\x5cxa9"),
        ):
            self.assertEqual(self.title(words), f'-> xdg_toplevel@7.set_title("{printed}")')

    def test_only_and_except(self):
        """By interface: what is for, makes or names such an object; by message: that alone."""
        said = (*self.TITLED, message(5, 6), message(5, 6), sync(8))
        for options, wanted in (
            (["--only", "xdg_surface"], ["get_xdg_surface(new id xdg_surface@6, wl_surface@5)",
                                         "get_toplevel(new id xdg_toplevel@7)"]),
            (["--only", "wl_surface.commit,wl_display.sync"], ["commit()", "commit()", "sync(new id wl_callback@8)"]),
            (["--only", "wl_surface", "--except", "wl_surface.commit"],
             ["create_surface(new id wl_surface@5)", "get_xdg_surface(new id xdg_surface@6, wl_surface@5)"]),
            (["--except", "wl_registry,wl_surface,xdg_surface,xdg_wm_base,wl_compositor"],
             ["get_registry(new id wl_registry@2)", "sync(new id wl_callback@8)"]),
        ):
            lines = self.lines(*said, options=options)
            self.assertEqual([it.split(".", 1)[1] for it in lines[:-1]], wanted)

    def test_time_between_lines(self):
        """What came in one piece came at one time."""
        lines = self.lines(sync(2), (done(2),), options=["--time=delta"])
        times = [float(it.split()[0]) for it in lines]
        self.assertEqual((len(times), times[2], all(0 <= it < LONG for it in times)), (4, 0, True))

    def test_output(self):
        """What the tool prints is apart from what the command prints."""
        path = f"{self.folder}/printed"
        self.answering(done(2))
        words = client(sync(2), 24, 0)
        words[2] = "print('of the command')\n" + words[2]
        self.assertEqual(self.ran("--output", path, *words), ("of the command\n", ""))
        with open(path, encoding="utf-8") as file:
            self.assertEqual(file.read(), SYNC.format(2) + "<- wl_callback@2.done(7)\n<- wl_display@1.delete_id(2)\n"
                             + LAWFUL.format(1, 2) + "\n")
        self.assertEqual(self.ran("--output", f"{self.folder}/none/a", "true", status=125)[1],
                         f"waywire-inspect: cannot write {self.folder}/none/a: No such file or directory\n")

    def test_numbers_of_clients(self):
        """A client that is started by hand has a number from its first line on, since others may come."""
        lines = self.talk(sync(2), numbered=True)[0]
        self.assertEqual(lines, [f"#1 is {self.who()}", "#1 " + SYNC.format(2).strip(),
                                 f"#1 {LAWFUL.format(1, 0)} ({self.who()})"])

    def test_stats(self):
        lines = self.lines(sync(2), (done(2),), sync(2), message(1, 1, 3), options=["--stats"])
        # On a slow machine there are silences.
        lines = [it for it in lines if not re.match(r"longest silences| +\d+\.\d{3} s from ", it)]
        at = lines.index(LAWFUL.format(3, 2))
        self.assertEqual([it.split() for it in lines[at + 1:-7]][:2],
                         [["messages", "bytes", "descriptors"], ["2", "24", "0", "->", "wl_display.sync"]])
        self.assertRegex(lines[-7], r"\A1 round trips, \d+\.\d{3} ms on average, \d+\.\d{3} ms at most\Z")
        self.assertEqual(lines[-6], "asked and not answered")
        self.assertRegex(lines[-5], r"\Awl_display@1\.sync: 1 not answered, waiting \d+\.\d+ s\Z")
        self.assertEqual(lines[-4], "objects left open")
        self.assertEqual(sorted(it.split() for it in lines[-3:]),
                         [["1", "wl_callback"], ["1", "wl_display"], ["1", "wl_registry"]])


class Globs(Talking):
    """Patterns of --only and --except."""

    def shown(self, *options):
        said = (*Printing.TITLED, message(5, 6), (raw(7, 0, struct.pack("<iiI", 1, 2, 0)) + message(6, 0, 3),),
                message(6, 4, 3), sync(8))
        return [re.sub(r"^.. (\w+)@\d+\.(\w+).*", r"\1.\2", it) for it in self.lines(*said, options=options)[:-1]]

    def test_patterns(self):
        made = ["wl_compositor.create_surface", "xdg_wm_base.get_xdg_surface", "xdg_surface.get_toplevel"]
        configures = ["xdg_toplevel.configure", "xdg_surface.configure"]
        for options, wanted in (
            (["--only", "xdg_*"], ["wl_registry.bind", *made[1:], *configures, "xdg_surface.ack_configure"]),
            (["--only", "*.configure"], configures),
            (["--only", "xdg_?urface.*"], [made[2], configures[1], "xdg_surface.ack_configure"]),
            (["--only", "xdg_surface@6"], [made[1], made[2], configures[1], "xdg_surface.ack_configure"]),
            (["--only", "xdg_surface@6.*,wl_surface@6.commit"], [made[2], configures[1], "xdg_surface.ack_configure"]),
            (["--except", "xdg_*@6,*@1,wl_registry,wl_surface@5"], [made[0], made[1], configures[0]]),
            (["--only", "*_surface.*ack*,wl_surface.com?it"], ["wl_surface.commit", "xdg_surface.ack_configure"]),
            (["--except", "xdg_*,wl_*"], []),
            (["--except", "xdg_*.*,wl_*.*"], []),
            (["--except", "*.*e*"], ["wl_registry.bind"] * 2 + ["wl_surface.commit", "wl_display.sync"]),
            (["--only", "*", "--except", "xdg_*,wl_registry"],
             ["wl_display.get_registry", made[0], "wl_surface.commit", "wl_display.sync"]),
        ):
            with self.subTest(options):
                shown = self.shown(*options)
                self.assertEqual(sorted(it for it in shown if it != "wl_registry.global"), sorted(wanted))

    def test_what_matches_nothing(self):
        for option, word, said in (
            ("--only", "own_*", "no tables have such an interface"), ("--except", "*x*z?q", "no tables have such an interface"),
            ("--only", "wl_*.draw*", "no such interface has such a message"),
            ("--only", "wl_surface.d?aw", "wl_surface has no such message"),
        ):
            name = word if "message" in said else word.split(".")[0]
            self.assertEqual(self.ran(option, word, "true", status=125),
                             ("", f"waywire-inspect: {option} {name}: {said}\n"))


class Json(Talking):
    """--json: a line for each message."""

    def test_messages(self):
        told = self.told(REGISTRY, (announced(1, "wl_seat", 5),), bind(1, "wl_seat", 5, 3), sync(4), (done(4),))
        head, its_client, *messages, verdict = told
        self.assertEqual((head["type"], head["recording"], head["command"], head["timed"]), ("head", None, None, True))
        self.assertEqual((head["tables"][0], "xdg-shell" in head["tables"]), ("core", True))
        self.assertRegex(head["started"], r"\A\d{4}-\d\d-\d\dT\d\d:\d\d:\d\d\.\d{3}Z\Z")
        self.assertEqual((its_client["type"], its_client["client"], its_client["pid"]), ("client", 1, os.getpid()))
        self.assertGreaterEqual(verdict.pop("ended"), messages[-1]["time"])
        self.assertEqual(verdict, {"type": "verdict", "client": 1, "verdict": "lawful", "words": LAWFUL.format(3, 3),
                                   "messages": 6, "requests": 3, "events": 3, "cut": None})
        self.assertEqual([it["number"] for it in messages], [1, 2, 3, 4, 5, 6])
        self.assertEqual([it["piece"] for it in messages], [1, 2, 3, 4, 5, 5])
        bound = messages[2]
        self.assertEqual({it: bound[it] for it in ("direction", "offset", "size", "opcode", "message", "state",
                                                   "object", "judged", "text", "bytes")},
                         {"direction": "request", "offset": 12, "size": 32, "opcode": 0, "message": "bind",
                          "state": "live", "object": {"interface": "wl_registry", "id": 2, "birth": 1}, "judged": True,
                          "text": '-> wl_registry@2.bind(1, "wl_seat", 5, new id wl_seat@3)',
                          "bytes": bind(1, "wl_seat", 5, 3).hex()})
        self.assertEqual(bound["arguments"], [
            {"kind": "uint", "name": "name", "value": 1},
            {"kind": "new", "name": "id", "interface": "wl_seat", "id": 3, "birth": 3, "version": 5}])
        callback = {"interface": "wl_callback", "id": 4, "birth": 4}
        self.assertEqual([messages[3]["made"], messages[4]["destroyed"], messages[5]["freed"]], [[callback]] * 3)

    def test_kinds_of_arguments(self):
        told = self.told(*Printing.TITLED, raw(7, 2, text(b"a\xffb\"\n")), message(7, 1, 0),
                         (raw(7, 0, struct.pack("<iiIII", -3, 4, 8, 4, 99)),))
        messages = [it for it in told if it["type"] == "message"]
        self.assertEqual(messages[-3]["arguments"], [
            {"kind": "string", "name": "title", "value": "a\ufffdb\"\n", "bytes": "61ff62220a"}])
        self.assertEqual(messages[-2]["arguments"], [{"kind": "object", "name": "parent", "id": 0}])
        self.assertEqual(messages[-1]["arguments"], [
            {"kind": "int", "name": "width", "value": -3}, {"kind": "int", "name": "height", "value": 4},
            {"kind": "array", "name": "states", "size": 8, "value": "0400000063000000", "numbers": [4, 99],
             "enum": "xdg_toplevel.state", "names": [["activated"], []]}])

    def test_births(self):
        told = self.told(sync(2), (done(2),), sync(2), (done(2),))
        self.assertEqual([it["made"][0]["birth"] for it in told if it.get("made")], [1, 4])

    def test_broken(self):
        told = self.told(sync(2), message(9, 0), (error(1, 0, "no"),), status=1)
        broken_line = "-> unknown@9: opcode 0, 8 bytes, bytes 0900000000000800"
        broken = next(it for it in told if it["type"] == "broken")
        self.assertEqual(broken, {"type": "broken", "client": 1, "number": 2, "fault": "F2",
                                  "words": "F2: no object has the id 9", "direction": "request", "offset": 12,
                                  "size": 8, "bytes": "0900000000000800",
                                  "object": {"interface": None, "id": 9, "birth": 0}, "message": None})
        self.assertEqual([it["type"] for it in told], ["head", "client", "message", "broken", "message", "error",
                                                       "unanswered", "verdict"])
        self.assertEqual(told[-3], {"type": "error", "client": 1, "number": 3, "object":
                                    {"interface": "wl_display", "id": 1, "birth": 0}, "code": 0, "text": "no",
                                    "names": ["invalid_object"], "before": [
                                        {"number": 1, "text": "-> wl_display@1.sync(new id wl_callback@2)"},
                                        {"number": 2, "text": broken_line}]})
        self.assertEqual((told[-1]["verdict"], told[-1]["words"]),
                         ("broken", "broken: > message 2 at byte 12: F2 unknown object"))

    def test_unjudged(self):
        told = self.told(*Unjudged.GIVEN, message(3, 1, 77))
        self.assertEqual([it["judged"] for it in told if it["type"] == "message"], [True] * 3 + [False] * 2)
        self.assertEqual(told[-3]["note"], "not judged from here: no table has own_shell1")
        self.assertEqual((told[-2]["object"], told[-2]["message"], told[-2]["arguments"]),
                         ({"interface": None, "id": 3, "birth": 0}, None, []))
        self.assertEqual(told[-1]["verdict"], "unjudged")

    def test_what_a_command_prints(self):
        """It goes to standard error, unless JSON goes to a file."""
        words = client(sync(2), 24, 0)
        words[2] = "print('of the command', flush=True)\n" + words[2]
        self.answering(done(2))
        said, error = self.ran("--json", *words)
        self.assertEqual([json.loads(it)["type"] for it in said.splitlines()],
                         ["head", "client", "message", "message", "message", "verdict"])
        self.assertEqual(error, "of the command\n")
        path = f"{self.folder}/printed"
        self.answering(done(2))
        self.assertEqual(self.ran("--json", "--output", path, *words), ("of the command\n", ""))
        with open(path, encoding="utf-8") as file:
            self.assertEqual(len([json.loads(it) for it in file]), 6)


class Tables(Talking):
    """Which tables are read."""

    BASE = (REGISTRY, (announced(1, "xdg_wm_base", 5),), bind(1, "xdg_wm_base", 5, 3))

    def test_an_interface_that_is_given(self):
        """It replaces the installed interface; the other interfaces of that text stay."""
        own = self.written("own.tables", "interface xdg_wm_base 1\nrequest own D\n")
        lines = self.lines(*self.BASE[:2], bind(1, "xdg_wm_base", 1, 3), message(3, 0), options=["--tables", own])
        self.assertEqual(lines[-2], "-> xdg_wm_base@3.own()")

    def test_a_text_that_is_left_out(self):
        """An installed text that breaks a rule together with the given ones is left out, and a message says so."""
        own = self.written("own.tables", "interface wp_viewport 1\nrequest own\n"
                                         "interface own 1\nrequest take o(wp_viewporter)\n")
        _, error = self.talk(sync(2), options=["--tables", own])
        self.assertEqual(error, "")
        bad = self.written("bad.tables", "interface xdg_toplevel 1\nevent gone D\n")
        _, error = self.talk(sync(2), options=["--tables", bad])
        self.assertRegex(error, r"\A(waywire-inspect: left out: \S+ line \d+: breaks V\d+\n)+\Z")

    def test_xml(self):
        """A protocol's file is read too, and its arguments have names."""
        xml = self.written("own.xml", """<?xml version="1.0"?><protocol name="own">
            <interface name="own_thing" version="1"><request name="pull"><arg name="how" type="int"/>
            </request></interface></protocol>""")
        given = (REGISTRY, (announced(1, "own_thing", 1),), bind(1, "own_thing", 1, 3), message(3, 0, 5))
        self.assertEqual(self.lines(*given, options=["--tables", xml])[-2], "-> own_thing@3.pull(5)")
        told = self.told(*given, options=["--tables", xml])
        self.assertEqual(told[-2]["arguments"], [{"kind": "int", "name": "how", "value": 5}])
        bad = self.written("bad.xml", "no xml")
        self.assertRegex(self.ran("--tables", bad, "true", status=125)[1],
                         r"waywire-inspect: \S+bad.xml cannot be read\n\Z")

    def test_messages_that_no_text_holds(self):
        """Their names have capitals, or one before them has. They are not judged; what is not there is broken."""
        xml = self.written("own.xml", """<?xml version="1.0"?><protocol name="own"><interface name="own_keys" version="4">
            <request name="fetchStates"/><request name="destroy" type="destructor" since="4"/><event name="stateChanged">
            <arg name="key" type="uint"/></event><event name="state"/></interface></protocol>""")
        options = ["--tables", xml, "--record", self.recorded]

        def given(version, *said):
            return (REGISTRY, (announced(1, "own_keys", 4),), bind(1, "own_keys", version, 3), *said)

        for said, printed, front, name in (
            (message(3, 0), "-> own_keys@3: opcode 0, 8 bytes", "request 3", "fetchStates"),
            (message(3, 1), "-> own_keys@3: opcode 1, 8 bytes", "request 3", "destroy"),
            ((message(3, 0, 1),), "<- own_keys@3: opcode 0, 12 bytes", "event 2", "stateChanged"),
            ((message(3, 1),), "<- own_keys@3: opcode 1, 8 bytes", "event 2", "state"),
        ):
            lines, _ = self.talk(*given(4, said), options=options)
            why = f"no table can hold own_keys.{name}"
            self.assertEqual(lines[3:5], [printed, f"not judged from here: {why}"])
            self.assertTrue(lines[5].startswith(f"not judged from {front} on: {why}; lawful until then; "), lines[5])
            self.assertEqual(self.ran("--read", self.recorded)[0].splitlines(), lines)
        for said in given(3, message(3, 1)), given(4, message(3, 2)), given(4, (message(3, 2),)):
            self.assertIn("F3 unknown message", self.talk(*said, options=options, status=1)[0][-1])

    def test_no_tables(self):
        self.assertIn("not judged from here: no table has xdg_wm_base",
                      self.lines(*self.BASE, options=["--no-tables"]))

    def test_what_is_recorded(self):
        """The tables are beside the recording, and with them the program judges as the tool did."""
        lines = self.lines(*Printing.TITLED, options=["--record", self.recorded])
        with open(f"{self.recorded}.tables", encoding="utf-8") as file:
            tables = file.read()
        self.assertIn('# From "', tables)
        self.assertIn("interface xdg_toplevel ", tables)
        self.checked(self.recorded, lines, "--tables", f"{self.recorded}.tables")


class Recording(Talking):
    """The file of --record."""

    def test_head_and_times(self):
        self.lines(sync(2), (done(2),), options=["--record", self.recorded])
        with open(self.recorded, encoding="ascii") as file:
            lines = file.read().splitlines()
        with open("/proc/self/comm", encoding="ascii") as file:
            name = file.read().strip()
        self.assertEqual(lines[0], f"# client {name} {os.getpid()}")
        self.assertRegex(lines[1], r"\A# started \d{4}-\d\d-\d\dT\d\d:\d\d:\d\d\.\d{3}Z\Z")
        self.assertTrue(lines[2].startswith("# tables core "), lines[2])
        times = [float(it.removeprefix("# ")) for it in (*lines[3:7:2], lines[7].removeprefix("# ended "))]
        self.assertEqual((len(lines), 0 <= times[0] <= times[1] <= times[2] < LONG), (8, True))
        self.assertEqual([it[0] for it in lines[4::2]], [">", "<"])

    def test_it_is_not_emptied_before_a_client_comes(self):
        with open(self.recorded, "w", encoding="ascii") as file:
            file.write("kept")
        self.ran("--record", self.recorded, "true", status=125)
        with open(self.recorded, encoding="ascii") as file:
            self.assertEqual(file.read(), "kept")
        self.ran("--record", self.recorded + ".new", "true", status=125)
        self.assertEqual(sorted(os.listdir(self.folder)), ["a.rec", "display"])


class BehindAnError(Talking):
    """The bytes left after wl_display.error are those that the program counts."""

    LEFT = "lawful up to wl_display.error: 1 requests, 1 events, {} and {} bytes left"

    def test_pieces(self):
        said = (sync(2), (error(1, 0, "no") + b"1234",), sync(3), (done(2),), b"half")
        lines = self.lines(*said, status=1, options=["--record", self.recorded])
        self.assertEqual(lines[-1], self.LEFT.format(16, 28))
        again, _ = self.ran("--read", self.recorded, status=1)
        self.assertEqual(again.splitlines(), lines)

    def test_the_example(self):
        """Of tests/runs/check_error.run, which has what `waywire check` prints."""
        said, _ = self.ran("--read", f"{TOP}/examples/error.rec", status=1)
        with open(f"{TOP}/tests/runs/check_error.run", encoding="utf-8") as file:
            wanted = re.search(r"^  lawful: (.*)$", file.read(), re.M)[1]
        self.assertEqual(said.splitlines()[-1], f"lawful up to wl_display.error: {wanted}")


class Reading(Talking):
    """--read prints of a recording what was printed of the session."""

    def read_of(self, path, *options, status=0):
        said, error = self.ran("--read", path, *options, status=status)
        self.assertEqual(error, "")
        return said.splitlines()

    def test_a_session(self):
        title = raw(7, 2, text("Grüße"))
        told = self.told(*Printing.TITLED, title, options=["--record", self.recorded])
        again = [json.loads(it) for it in self.read_of(self.recorded, "--json")]
        for both in zip(told, again):
            for it in both:
                it.pop("recording", None)
                # The one began with the tool, the other with its client.
                it.pop("started", None)
                # Those of FILE.tables are one text.
                it.pop("tables", None)
        self.assertEqual(told, again)
        lines = self.read_of(self.recorded)
        self.assertEqual(lines[-2:], ['-> xdg_toplevel@7.set_title("Grüße")', LAWFUL.format(7, 2)])
        self.assertRegex(self.read_of(self.recorded, "--time")[0], r"\A +\d+\.\d{6} -> wl_display@1\.get_registry")
        self.checked(self.recorded, lines, "--tables", f"{self.recorded}.tables")

    def test_a_session_that_does_not_end_well(self):
        for said, options, status in (
            ((sync(2), message(9, 0), (error(1, 0, "no"),)), [], 1), ((sync(2), (error(1, 0, "no"),)), [], 1),
            (Unjudged.GIVEN, [], 0), (Tables.BASE, ["--no-tables"], 0),
        ):
            lines = self.lines(*said, options=["--record", self.recorded, *options], status=status)
            self.assertEqual(self.read_of(self.recorded, status=status), lines)

    def test_examples(self):
        for path in sorted(glob.glob(f"{TOP}/examples/*.rec")):
            with self.subTest(path):
                said, error = self.ran("--read", path, status=None)
                self.assertEqual(error, "")
                lines = said.splitlines()
                if lines[-1].startswith("broken: "):
                    del lines[-3:-1]
                if not lines[-1].startswith("lawful up to"):
                    self.checked(path, lines, "--tables", self.all_tables())

    def test_tables_beside_it(self):
        """Those of FILE.tables, also for FILE.2; or those that are given."""
        self.lines(*Tables.BASE, options=["--record", self.recorded])
        for it in ("", ".2"):
            os.replace(self.recorded, self.recorded + it) if it else None
            self.assertTrue(self.read_of(self.recorded + it)[-1].startswith("lawful: "))
        self.assertIn("not judged from here: no table has xdg_wm_base",
                      self.read_of(self.recorded + ".2", "--no-tables"))
        with open(f"{self.recorded}.tables", "w", encoding="ascii") as file:
            file.write("interface own 1\n")
        self.assertIn("not judged from here: no table has xdg_wm_base",
                      self.read_of(self.recorded + ".2"))

    def test_without_times(self):
        told = [json.loads(it) for it in self.read_of(f"{TOP}/examples/get_registry.rec", "--json")]
        self.assertEqual((told[0]["timed"], told[0]["started"], told[1]["name"], told[1]["pid"], told[2]["time"]),
                         (False, None, None, None, None))

    def test_a_bad_line(self):
        with open(self.recorded, "w", encoding="ascii") as file:
            file.write(f"# 0.5\n> {sync(2).hex()}\nno piece\n> {sync(3).hex()}\n")
        said, error = self.ran("--read", self.recorded, status=125)
        self.assertEqual((said, error), (SYNC.format(2), "waywire-inspect: line 3: bad line\n"))
        said, _ = self.ran("--read", self.recorded, "--json", status=125)
        told = [json.loads(it) for it in said.splitlines()]
        self.assertEqual([it["type"] for it in told], ["head", "client", "message", "bad_line", "unanswered", "verdict"])
        self.assertEqual((told[3], told[5]["verdict"]),
                         ({"type": "bad_line", "line": 3, "words": "line 3: bad line"}, "cut"))
        self.assertEqual(self.ran("--read", "none", status=125)[1],
                         "waywire-inspect: cannot read none: No such file or directory\n")

    def test_words_that_are_no_time(self):
        """A time is a decimal number below a thousand million."""
        for word, is_time in (("inf", 0), ("nan", 0), ("-1", 0), ("1e308", 0), ("1e3", 0), ("0x10", 0), ("0x1p3", 0), ("+1", 0),
                              ("1000000000", 0), ("9" * 400, 0), ("0." + "1" * 400, 0), (".5", 0), ("1.", 0), ("1.5 s", 0),
                              ("999999999.999999", 1), ("0", 1), ("1.25 ", 1), ("\t2", 1)):
            with open(self.recorded, "w", encoding="ascii") as file:
                file.write(f"# {word}\n> {sync(2).hex()}\n")
            for page in (False, True):
                with self.subTest(word, page=page):
                    if page:
                        made = [sys.executable, f"{TOP}/tools/waywire-picture", self.recorded, "-o", f"{self.folder}/a.html",
                                "--inspector", INSPECT[-1]]
                        ran = subprocess.run(made, capture_output=True, text=True, timeout=LONG, check=False)
                        self.assertEqual((ran.returncode, ran.stderr), (0, ""))
                        continue
                    said, _ = self.ran("--read", self.recorded, "--json")
                    told = [json.loads(it, parse_constant=self.fail) for it in said.splitlines()]
                    self.assertEqual((told[0]["timed"], told[2]["time"]),
                                     (True, round(float(word), 6)) if is_time else (False, None))


class Forking(Inspected):
    """A command that forks before it connects."""

    def test_it_is_waited_for(self):
        words = "import os, sys, time\nif os.fork(): os._exit(0)\nos.setsid()\ntime.sleep(0.5)\n" + STAYING + f"""
display.sendall(bytes.fromhex("{sync(2).hex()}"))
display.recv(24, socket.MSG_WAITALL)
"""
        self.answering(done(2))
        said, _ = self.ran(sys.executable, "-c", words)
        self.assertEqual(said.splitlines()[-1], LAWFUL.format(1, 2))

    def test_one_that_does_not_connect(self):
        words = "import os, time\nif os.fork(): os._exit(0)\ntime.sleep(0.5)\n"
        self.assertIn("made no connection", self.ran(sys.executable, "-c", words, status=125)[1])


if __name__ == "__main__":
    main()
