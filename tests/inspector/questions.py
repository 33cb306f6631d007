"""Tests of what waywire-inspect says of questions and answers, and of a session's end.

    python3 -m tests.inspector.questions [CLASS[.TEST]]..

The environment is that of inspecting.py."""
import json
import os
import re
import struct

from tests.inspector.inspecting import done, main, message, sync
from tests.inspector.words import LAWFUL, REGISTRY, Talking, announced, bind, error, raw, text

# A client that has bound these, from wl_compositor@3 on, and has made wl_surface@10 and wl_pointer@11.
GLOBALS = (("wl_compositor", 6), ("wl_output", 4), ("wl_seat", 5), ("xdg_wm_base", 5), ("wp_presentation", 1),
           ("zwlr_screencopy_manager_v1", 3), ("wl_shm", 1))
BASE, PRESENTATION, SCREENCOPY, SHM = 6, 7, 8, 9
BOUND = [REGISTRY, (b"".join(announced(at, *it) for at, it in enumerate(GLOBALS, 1)),),
         *(bind(at, *it, at + 2) for at, it in enumerate(GLOBALS, 1)), message(3, 0, 10), message(5, 0, 11)]
COMMIT = message(10, 6)


def frame(callback, surface=10):
    return message(surface, 3, callback)


class Timed(Talking):
    """Recordings with times of their own, which end at a time."""

    def record(self, *said, last="# ended 9.000000\n"):
        """Writes a recording: at 0 what BOUND has, then pairs of a time and a request, or in a tuple an event. The
        number of its descriptors may follow."""
        with open(self.recorded, "w", encoding="ascii") as file:
            for seconds, data, *count in (*((0, it) for it in BOUND), *said):
                sign, data = ("<", data[0]) if isinstance(data, tuple) else (">", data)
                file.write(f"# {seconds:.6f}\n{sign} {data.hex()}{''.join(f' +{it}' for it in count)}\n")
            file.write(last)

    def read(self, *options, status=0):
        said, told = self.ran("--read", self.recorded, *options, status=status)
        self.assertEqual(told, "")
        return said.splitlines()


class Asking(Timed):
    """What was asked and not answered."""

    def unanswered(self, *said, status=0, options=(), **how):
        """What is printed between the last message and the verdict."""
        self.record(*said, **how)
        return [it for it in self.read(*options, status=status) if re.search("not answered|none of", it)]

    def test_a_hang(self):
        """A frame that does not come, while the session goes on for three seconds."""
        hang = (1, frame(12) + COMMIT), (1.016, (done(12),)), (1.017, frame(12) + COMMIT)
        line = "wl_surface@10.frame: 1 not answered, waiting 3.0 s"
        self.assertEqual(self.unanswered(*hang, last="# ended 4.017000\n"), [line])
        self.assertEqual([it.split(" ", 1)[0] for it in map(str.strip, self.read("--time")[-2:])], ["4.017000"] * 2)
        self.assertEqual(self.read()[-1], LAWFUL.format(14, 9))
        stats = self.read("--stats")
        self.assertEqual([it for it in stats if "answered" in it], ["asked and not answered", line])
        *_, told, verdict = map(json.loads, self.read("--json"))
        self.assertEqual(told, {
            "type": "unanswered", "client": 1, "number": 22, "since": 23, "time": 1.017, "direction": "request",
            "object": {"interface": "wl_surface", "id": 10, "birth": 16}, "message": "frame", "waiting": 3})
        self.assertEqual((verdict["verdict"], verdict["ended"], verdict["cut"]), ("lawful", 4.017, None))

    def test_an_end_that_is_not_said(self):
        """A recording from before says no end: the last message is the end."""
        for last, found in (("", []), ("# 2.0\n", ["wl_display@1.sync: 1 not answered, waiting 1.0 s"]),
                            ("# ended soon\n# ended 1e9\n# ended -1\n# ended inf\n# inf\n# nan\n", [])):
            self.assertEqual(self.unanswered((1, sync(12)), last=last), found)
            verdict = json.loads(self.read("--json")[-1])
            self.assertEqual((verdict["ended"], verdict["cut"]), (None, None))

    def test_what_is_a_question(self):
        """And what answers it. Each is asked at 1, and the session ends at 9."""
        shared, long = (done(12),), "waiting 8.0 s"
        ping, pong = (lambda serial: (message(BASE, 0, serial),)), (lambda serial: message(BASE, 3, serial))
        shown = message(BASE, 2, 12, 10)
        configure, ack = (lambda serial: (message(12, 0, serial),)), (lambda serial: message(12, 4, serial))
        asked = message(PRESENTATION, 1, 10, 12)
        for name, wanted, *said in (
            ("sync", [f"wl_display@1.sync: 1 not answered, {long}"], sync(12)),
            ("its done", [], sync(12), shared),
            ("one of two", [f"wl_display@1.sync: 1 not answered, {long}"], sync(12), sync(13), shared),
            ("two of three", [f"wl_display@1.sync: 2 not answered, {long} at most"], sync(12), sync(13), sync(14),
             shared),
            ("none of three", [f"wl_display.sync: none of 3 answered, {long} at most"], sync(12), sync(13), sync(14)),
            ("ping", [f"xdg_wm_base@6.ping: 1 not answered, {long}"], ping(7)),
            ("pong", [], ping(7), pong(7)),
            ("a pong for another", [f"xdg_wm_base@6.ping: 1 not answered, {long}"], ping(7), ping(8), pong(8), pong(9)),
            ("configure", [f"xdg_surface@12.configure: 1 not answered, {long}"], shown, configure(1)),
            ("ack of the last", [], shown, configure(1), configure(2), ack(2)),
            ("ack of the first", [f"xdg_surface@12.configure: 1 not answered, {long}"], shown, configure(1),
             configure(2), ack(1)),
            ("an ack of nothing", [f"xdg_surface.configure: none of 2 answered, {long} at most"], shown, configure(1),
             configure(2), ack(3)),
            ("its surface is gone", [], shown, configure(1), message(12, 0)),
            ("feedback", [f"wp_presentation@7.feedback: 1 not answered, {long}"], asked),
            ("presented", [], asked, (message(12, 1, *[0] * 7),)),
            ("discarded", [], asked, (message(12, 2),)),
            ("a cursor", [], message(11, 0, 1, 10, 0, 0), frame(12) + COMMIT),
            ("a cursor, later", [], frame(12) + COMMIT, message(11, 0, 1, 10, 0, 0)),
            ("a surface that is gone", [], frame(12) + COMMIT, message(10, 0)),
            ("a surface that is gone with two", [], frame(12) + frame(13) + COMMIT, message(10, 0)),
            ("a surface that goes before its frames come", [],
             *(it for _ in range(3) for it in (message(3, 0, 12) + message(12, 3, 13) + message(12, 6) + message(12, 0),
                                               (done(13) + message(1, 1, 12),)))),
            ("a surface that goes, and its frames with it", [],
             *(it for _ in range(3) for it in (message(3, 0, 12) + message(12, 3, 13) + message(12, 6) + message(12, 0),
                                               (message(1, 1, 13) + message(1, 1, 12),)))),
            ("the first configure", [f"wl_surface@10.commit: 1 not answered (no configure), {long}"], shown,
             message(12, 1, 13) + COMMIT),
            ("no role", [], shown, COMMIT),
            ("behind what broke a rule", [], sync(12), message(99, 0), shared),
            ("behind an error", [], sync(12), (error(1, 0, "no"),)),
        ):
            with self.subTest(name):
                is_bad = name.startswith("behind")
                self.assertEqual(self.unanswered(*((1, it) for it in said), status=int(is_bad)), wanted)

    def test_screencopy(self):
        """A copy is answered by ready or failed, and the frame by what a buffer has to be."""
        pool = raw(SHM, 0, struct.pack("<Ii", 12, 16))
        buffer, grab, copy = message(12, 0, 13, 0, 2, 2, 8, 0), message(SCREENCOPY, 0, 14, 0, 4), message(14, 0, 13)
        for said, wanted in (
            ([grab], ["zwlr_screencopy_manager_v1@8.capture_output: 1 not answered (no buffer), waiting 8.0 s"]),
            ([grab, (message(14, 0, 0, 2, 2, 8),)], []), ([grab, (message(14, 3),)], []),
            ([grab, (message(14, 0, 0, 2, 2, 8),), copy],
             ["zwlr_screencopy_frame_v1@14.copy: 1 not answered, waiting 8.0 s"]),
            ([grab, copy, (message(14, 2, 0, 0, 0),)], []), ([grab, copy, (message(14, 3),)], []),
            ([grab, copy, message(14, 1)], []),
        ):
            self.record((1, pool), (1, buffer), *((1, it) for it in said))
            with open(self.recorded, encoding="ascii") as file:
                text = file.read()
            with open(self.recorded, "w", encoding="ascii") as file:
                file.write(text.replace(pool.hex(), f"{pool.hex()} +1"))
            self.assertEqual([it for it in self.read() if "answered" in it], wanted)

    def closed(self, *said):
        """The questions that messages close, each with its message, and those at the end."""
        self.record(*said)
        told = [json.loads(it) for it in self.read("--json")]
        first = next(it["number"] for it in told if it.get("time") == 1)
        numbers = ("asked", "since", "replaced", "number")
        each = [{**it, "by": one["number"]} for one in told for it in one.get("closes", ())]
        each += [{key: one[key] for key in (*numbers[1:], "type") if key in one}
                 for one in told if one["type"] in ("unanswered", "open")]
        return [{key: value - first + 1 if key in (*numbers, "by") else value for key, value in it.items()} for it in each]

    def test_a_commit(self):
        """A frame waits from the commit on that takes it into effect: of a synchronized subsurface, that of its parent."""
        child, both = [(0, message(3, 0, 12)), (0, bind(8, "wl_subcompositor", 1, 13))], message(13, 1, 14, 12, 10)
        for before, behind, since in (((), (), 3), ((message(14, 5),), (), 3), ((message(14, 5), message(14, 4)), (), 5),
                                      ((), (message(14, 5),), 3), ((message(14, 0),), (), 3)):
            said = [*before, frame(15, 12), message(12, 6), *behind, COMMIT, (message(15, 0, 7),)]
            found = self.closed((0, (announced(8, "wl_subcompositor", 1),)), *child, (0, both), *((1, it) for it in said))
            asked = 1 + len(before)
            self.assertEqual(found, [{"asked": asked, "since": since, "answered": True, "by": len(said)}], (before, behind))

    def test_a_buffer(self):
        """It is held from the commit on that shows it, for each surface, and needs a release once another is shown."""
        pool = (0, raw(SHM, 0, struct.pack("<Ii", 12, 64)), 1)
        made = [(0, message(12, 0, at, 0, 2, 2, 8, 0)) for at in (13, 14)] + [(0, message(3, 0, 15))]
        def shows(buffer, surface=10):
            return [(1, message(surface, 1, buffer, 0, 0)), (1, message(surface, 6))]
        for said, wanted in (
            (shows(13), [{"number": 1, "since": 2, "type": "open"}]),
            ([*shows(13), *shows(14)], [{"number": 3, "since": 4, "type": "open"},
                                        {"number": 1, "since": 2, "replaced": 4, "type": "unanswered"}]),
            ([*shows(13), *shows(14), *shows(13)], [{"number": 1, "since": 2, "type": "open"},
                                                    {"number": 3, "since": 4, "replaced": 6, "type": "unanswered"}]),
            ([*shows(13), *shows(13, 15), (1, (message(13, 0),))],
             [{"asked": 3, "since": 4, "answered": True, "by": 5}, {"asked": 1, "since": 2, "answered": True, "by": 5}]),
            ([*shows(13), (1, message(13, 0))], [{"asked": 1, "since": 2, "answered": False, "by": 3}]),
            ([*shows(13), (1, message(10, 0))], [{"number": 1, "since": 2, "type": "open"}]),
        ):
            self.assertEqual(self.closed(pool, *made, *said), wanted)

    def test_by_the_tables(self):
        """An object that an event ends is a question, in any protocol."""
        own = f"{self.folder}/own.tables"
        with open(own, "w", encoding="ascii") as file:
            file.write("interface own_asker 1\nrequest ask n(own_answer)\n"
                       "interface own_answer 1\nevent later\nevent yes D\nevent no D\n")
        given = (0, (announced(20, "own_asker", 1),)), (0, bind(20, "own_asker", 1, 12)), (1, message(12, 0, 13))
        for said, wanted in (([], ["own_asker@12.ask: 1 not answered, waiting 8.0 s"]),
                             ([(2, (message(13, 0),))], ["own_asker@12.ask: 1 not answered, waiting 8.0 s"]),
                             ([(2, (message(13, 1),))], []), ([(2, (message(13, 2),))], [])):
            self.assertEqual(self.unanswered(*given, *said, options=["--tables", own]), wanted)

    def test_what_is_listed(self):
        """What has waited for a second, the longest first, in eight lines at most; --stats has the rest too."""
        surfaces = [(0, message(3, 0, it)) for it in range(12, 24)]
        asked = [(1 + at / 10, frame(40 + at, 12 + at)) for at in range(12)]
        numbered = [(0, sync(it)) for it in range(24, 40)]
        answered = [(0, (b"".join(message(it, 0, 7) for it in range(24, 40)),)), (0, frame(52)),
                    (0, (message(52, 0, 7),))]
        callbacks = [(0, frame(40 + at, 10)) for at in range(12)]
        callbacks.append((0, (b"".join(done(40 + at) for at in range(12)),)))
        said = *surfaces, *numbered, *callbacks, *answered, *asked
        lines = self.unanswered(*said, last="# ended 3.070000\n")
        self.assertEqual(lines, [
            *(f"wl_surface@{12 + at}.frame: 1 not answered, waiting {3.07 - (1 + at / 10):.1f} s" for at in range(8)),
            "and 3 more that were not answered"])
        self.assertEqual(len(self.unanswered(*said, last="# ended 3.070000\n", options=["--stats"])), 13)
        self.assertEqual(len([it for it in self.read("--json") if '"unanswered"' in it]), 12)

    def test_what_an_answer_is_to(self):
        """--json says the number of the question."""
        self.record((1, sync(12)), (1, sync(13)), (2, (done(13),)), (2, (done(12),)))
        told = [json.loads(it) for it in self.read("--json")]
        first = next(it["number"] for it in told if it.get("message") == "sync")
        self.assertEqual([it["answers"] for it in told if "answers" in it], [first + 1, first])

    def test_without_times(self):
        """What was asked is known, and not for how long."""
        with open(self.recorded, "w", encoding="ascii") as file:
            file.write(f"> {sync(2).hex()}{sync(3).hex()}\n< {done(3).hex()}\n")
        self.assertEqual(self.read()[-2:], ["<- wl_display@1.delete_id(3)", LAWFUL.format(2, 2)])
        stats = self.read("--stats")
        self.assertIn("wl_display@1.sync: 1 not answered", stats)
        self.assertIn("1 round trips", stats)
        told = json.loads(self.read("--json")[-2])
        self.assertEqual((told["type"], told["time"], told["waiting"]), ("unanswered", None, None))

    def test_round_trips(self):
        self.record((1, sync(12)), (1, sync(13)), (1.25, (done(12),)), (2, (done(13),)))
        self.assertIn("2 round trips, 625.000 ms on average, 1000.000 ms at most", self.read("--stats"))


class Ending(Talking):
    """When a session ended, and when its recording was cut."""

    def last_line(self):
        with open(self.recorded, "rb") as file:
            return file.read().splitlines()[-1].decode()

    def test_it_is_recorded(self):
        """The last line is the time of the end, which is that of a session that was read."""
        told = self.told(sync(2), (done(2),), sync(2), options=["--record", self.recorded])
        ended = re.fullmatch(r"# ended (\d+\.\d{6})", self.last_line())
        self.assertTrue(ended, self.last_line())
        self.assertEqual(told[-1]["ended"], float(ended[1]))
        said, _ = self.ran("--read", self.recorded, "--json")
        again = [json.loads(it) for it in said.splitlines()]
        self.assertEqual(again[-2:], told[-2:])
        self.assertEqual(again[-2]["type"], "unanswered")

    def test_it_is_cut(self):
        """It ends with the last whole piece within the limit, which is reported. Everything is still passed on. The
        last line says when it was cut. The rest is missing, which is reported when the recording is read."""
        self.start("--no-tables", "--record", self.recorded, "--record-limit", "16M", "--output", "/dev/null")
        client, compositor = self.client()
        part = sync(2) * 5000
        for _ in range(150):
            self.passes(client, compositor, part)
        _, error_said = self.finish(status=1)
        size = os.path.getsize(self.recorded)
        self.assertEqual(error_said, f"waywire-inspect: {self.recorded} has {size} bytes, and 16777216 is the limit; "
                                     "the recording ends there\n")
        self.assertEqual((size <= 16777216, size > 16777216 - 140000), (True, True))
        cut = re.fullmatch(r"# cut (\d+\.\d{6})", self.last_line())
        self.assertTrue(cut, self.last_line())
        said, told = self.ran("--read", self.recorded, "--json", status=1)
        self.assertEqual(told, "waywire-inspect: the recording was cut there: with the next piece it would have been "
                               "too long\n")
        verdict = json.loads(said.splitlines()[-1])
        self.assertEqual((verdict["ended"], verdict["cut"]), (None, float(cut[1])))


class LastPart(Talking):
    """--record-last: what a full recording has no room for."""

    GIVEN = (REGISTRY, (announced(1, "wl_compositor", 6) + announced(2, "wl_shell", 1),),
             bind(1, "wl_compositor", 6, 3), bind(2, "wl_shell", 1, 4), message(3, 0, 5), message(4, 0, 6, 5), sync(7))

    def record(self, most):
        """Passes titles to be recorded, in pieces of this size, each of which ends within a title. Returns how
        many titles."""
        self.start("--record", self.recorded, "--record-last", "--output", "/dev/null")
        client, compositor = self.client()
        for it in self.GIVEN:
            self.passes(*((compositor, client, *it) if isinstance(it, tuple) else (client, compositor, it)))
        stream, count = b"", 0
        while count * 4012 < most:
            while len(stream) < 61_003:
                stream += raw(6, 8, text(f"{count:08d}{'x' * 3987}"))
                count += 1
            self.passes(client, compositor, stream[:61_003])
            stream = stream[61_003:]
        self.passes(client, compositor, stream)
        _, said = self.finish()
        self.assertIn(f"the last part of client 1 goes to {self.recorded}.last\n", said)
        return count

    def read_part(self, count):
        """Its messages are the last ones, without a gap, and they name the objects that there were."""
        part = f"{self.recorded}.last"
        said, told = self.ran("--read", part)
        first, *titles, verdict = said.splitlines()
        numbers = [int(it[len("? -> wl_shell_surface@6.set_title(\""):][:8]) for it in titles]
        self.assertEqual(numbers, list(range(count - len(numbers), count)))
        self.assertRegex(first, r"\Anot judged: the recording begins \d+\.\d{6} s after its session\Z")
        self.assertEqual((verdict, told), ("not judged: the recording begins in the middle of its session; "
                                           f"{len(numbers)} requests, 0 events", ""))
        return len(numbers)

    def test_one_part(self):
        """It begins where the recording ends."""
        count = self.record(9_000_000)
        self.assertTrue(self.read_part(count))
        self.assertEqual(sorted(os.listdir(self.folder)), ["a.rec", "a.rec.last", "a.rec.tables", "display"])
        said, _ = self.ran("--read", self.recorded)
        self.assertEqual(len([it for it in said.splitlines() if "set_title" in it])
                         + self.read_part(count), count)
        head = json.loads(self.ran("--read", f"{self.recorded}.last", "--json")[0].splitlines()[0])
        with open(f"{self.recorded}.last", encoding="ascii") as file:
            lines = file.read().splitlines()
        self.assertEqual(f"# from {head['from']:.6f}", lines[3])
        self.assertEqual(lines[4:10], [
            "# ids 8 0", "# object 2 1 wl_registry", "# object 3 6 wl_compositor", "# object 4 1 wl_shell",
            "# object 5 6 wl_surface", "# object 6 1 wl_shell_surface"])
        self.assertTrue(lines[-1].startswith("# ended "), lines[-1])

    def test_many_parts(self):
        """The last two are one recording, of no more bytes than one may have."""
        count = self.record(22_000_000)
        self.assertGreater(self.read_part(count), 1000)
        self.assertEqual(sorted(os.listdir(self.folder)), ["a.rec", "a.rec.last", "a.rec.tables", "display"])
        size = os.path.getsize(f"{self.recorded}.last")
        self.assertTrue(8388608 < size <= 16777216, size)

    def test_what_is_said_at_its_head(self):
        """Comments that are none of its own, and objects that cannot be."""
        with open(self.recorded, "w", encoding="ascii") as file:
            file.write("# from 3.5\n# object 3 6 wl_compositor\n# object 4 1 own_thing\n# ending 5 1 wl_callback\n"
                       "# object 0 1 wl_surface\n# object 1 1 wl_surface\n# object 4278190079 1 wl_surface\n# object\n"
                       "# object x 1 wl_surface\n# pending > 0300\n# pending\n# pending < zz\n"
                       f"# 4.0\n> 00000000\n# 4.5\n> 0c0007000000{message(4, 2, 1).hex()}\n")
        self.assertEqual(self.ran("--read", self.recorded, "--time")[0].splitlines(), [
            "   3.500000 not judged: the recording begins 3.500000 s after its session",
            "   4.500000 ? -> wl_compositor@3.create_surface(new id wl_surface@7)",
            "   4.500000 ? -> unknown@4: opcode 2, 12 bytes",
            "   4.500000 not judged: the recording begins in the middle of its session; 2 requests, 0 events"])

    def test_objects_of_both_ends(self):
        """Those of the compositor are known too, and which are ending; messages are numbered from the part's first."""
        offer = 0xFF000000
        with open(self.recorded, "w", encoding="ascii") as file:
            file.write("# from 3.5\n# ids 40 3\n# object 3 3 wl_data_device_manager\n# object 4 3 wl_data_device\n"
                       f"# ending 5 1 wl_callback\n# ending 6 6 wl_surface\n# object {offer + 1} 3 wl_data_offer\n"
                       f"# ending {offer + 2} 3 wl_data_offer\n"
                       f"# 4.0\n> {(message(3, 0, 39) + message(offer + 1, 2)).hex()}\n"
                       f"< {(message(offer + 2, 0, 2, 0x61) + message(5, 0, 1) + message(1, 1, 6)).hex()}\n"
                       f"< {message(4, 0, offer + 2).hex()}\n")
        said = [json.loads(it) for it in self.ran("--read", self.recorded, "--json")[0].splitlines()]
        told = [it for it in said if it["type"] == "message"]
        self.assertEqual([it["text"] for it in told], [
            "-> wl_data_device_manager@3.create_data_source(new id wl_data_source@39)",
            f"-> wl_data_offer@{offer + 1}.destroy()", f'<- wl_data_offer@{offer + 2}.offer("a")',
            "<- wl_callback@5.done(1)", "<- wl_display@1.delete_id(6)",
            f"<- wl_data_device@4.data_offer(new id wl_data_offer@{offer + 2})"])
        self.assertEqual([(it["number"], it["index"], it["offset"]) for it in told],
                         [(1, 1, 0), (2, 2, 12), (3, 1, 0), (4, 2, 16), (5, 3, 28), (6, 4, 40)])
        self.assertEqual([it["state"] for it in told], ["live", "live", "ending", "ending", "live", "live"])
        self.assertEqual([it["object"]["birth"] for it in told], [0] * 6)
        self.assertEqual([it["freed"] for it in told][4], [{"interface": "wl_surface", "id": 6, "birth": 0}])

    def test_a_short_session(self):
        """It has no last part, and none is left there of a session before."""
        with open(f"{self.recorded}.last", "w", encoding="ascii") as file:
            file.write("of a session before")
        self.lines(sync(2), options=["--record", self.recorded, "--record-last"])
        self.assertEqual(sorted(os.listdir(self.folder)), ["a.rec", "a.rec.tables", "display"])

    def test_words(self):
        self.assertEqual(self.ran("--record-last", "true", status=125)[1],
                         "waywire-inspect: --record-last needs --record\n")


if __name__ == "__main__":
    main()
