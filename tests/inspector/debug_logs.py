"""Tests of waywire-inspect --read-debug: logs that are made of recordings, in each form that libwayland prints, and
what is left of a log.

    python3 -m tests.inspector.debug_logs [CLASS[.TEST]]..

The environment is that of inspecting.py."""
import glob
import json
import os
import re
import struct

from tests.checks import TOP
from tests.inspector.inspecting import STANDING, WAITING, Inspected, main

# What an array holds, which no log shows.
CONTENTS = re.compile(r"(array\[\d+\]) \{[^}]*\}")
# A line of a message, or of the log where its message is not known.
LINE = re.compile(r"(?:\? )?(?:->|<-) .*")
COLOUR = "\x1b[3{}m"
# The recordings whose logs are read in each form.
SHORT = ("surface.rec", "wl_paste.rec")
HEAD = """\
[1000.000]  -> wl_display@1.get_registry(new id wl_registry@2)
[1000.001] wl_registry@2.global(1, "wl_compositor", 4)
[1000.002] wl_registry@2.global(2, "wl_shm", 1)
[1000.003] wl_registry@2.global(3, "wl_seat", 5)
[1000.004]  -> wl_registry@2.bind(1, "wl_compositor", 4, new id [unknown]@3)
[1000.005]  -> wl_compositor@3.create_surface(new id wl_surface@4)
[1000.006]  -> wl_registry@2.bind(3, "wl_seat", 5, new id [unknown]@5)
[1000.007]  -> wl_seat@5.get_keyboard(new id wl_keyboard@6)
"""
HEAD_SAID = "lawful as far as the log shows: 5 requests, 3 events"


def message(number, told, *, sign="@", front="", is_servers=False):
    """The line that libwayland prints for a message, which is given in the words of --json."""
    def argument(it):
        kind, value = it["kind"], it.get("value")
        if kind == "fixed":
            return f"{value:.8f}"
        if kind == "string":
            return "nil" if value is None else f'"{value}"'
        if kind == "object":
            return f"{it['interface']}{sign}{it['id']}" if it["id"] else "nil"
        if kind == "new" and told["message"] == "bind":
            return f'"{it["interface"]}", {it["version"]}, new id [unknown]{sign}{it["id"]}'
        if kind == "new":
            return f"new id {it['interface']}{sign}{it['id']}"
        return {"array": f"array[{it.get('size')}]", "fd": "fd 7"}.get(kind, str(value))

    arrow = " -> " if (told["direction"] == "request") != is_servers else ""
    target = f"{told['object']['interface']}{sign}{told['object']['id']}"
    words = ", ".join(map(argument, told["arguments"]))
    return f"[{1000000 + number // 1000:7}.{number % 1000:03}] {front}{arrow}{target}.{told['message']}({words})"


# How the lines of a log are made of the messages of a recording.
FORMS = {
    "1.21": message,
    "a server's": lambda *it: message(*it, is_servers=True),
    "1.23": lambda *it: message(*it, sign="#", front="{Default Queue} "),
    "1.23 with several queues": lambda *it: message(*it, sign="#", front="{mesa egl display queue} "),
    "1.24 with threads": lambda *it: message(*it, sign="#", front="TID#4711 {Default Queue} "),
    "1.24 in colours": lambda *it: re.sub(r"^\[ *[\d.]+\] ", lambda time: COLOUR.format(2) + time[0],
                                          message(*it, sign="#", front=COLOUR.format(3) + "{a queue} ")),
    "with lines of CR LF": lambda *it: message(*it) + "\r",
    "among other lines": lambda *it: f"[x] a line\n{message(*it)}\n\nanother [1.0] line",
    "of journald": lambda *it: f"Dec 01 09:30:00 host foot[4711]: {message(*it)}",
    "of printf": lambda *it: f"no line feed{message(*it)}",
}


class Logs(Inspected):
    def read(self, text, *words, status=0, data=None):
        """What the tool says of a log."""
        path = f"{self.folder}/log"
        with open(path, "wb") as file:
            file.write(data if data is not None else text.encode())
        said, error = self.ran("--read-debug", path, *words, status=status)
        return WAITING.sub("", STANDING.sub("", said)).splitlines(), error

    def told(self, path):
        """The messages of a recording, and what the tool says of it."""
        lines = self.ran("--read", path, "--json", status=None)[0].splitlines()
        said = self.ran("--read", path, status=None)[0]
        messages = [it for it in map(json.loads, lines) if it["type"] == "message"]
        return messages, [CONTENTS.sub(r"\1", it) for it in said.splitlines() if LINE.fullmatch(it)], said


class Forms(Logs):
    """The lines of each form."""

    def test_recordings(self):
        """A log of a lawful session has the messages of its recording, and is lawful as far as it shows."""
        count = 0
        for path in sorted(glob.glob(f"{TOP}/examples/*.rec")):
            messages, lines, said = self.told(path)
            # A connection begins with the object 2.
            if "\nlawful: " not in said or [it["id"] for it in messages[0]["made"]] != [2]:
                continue
            count += 1
            forms = FORMS if os.path.basename(path) in SHORT else dict(list(FORMS.items())[:2])
            for name, form in forms.items():
                with self.subTest(path=os.path.basename(path), form=name):
                    log = "".join(f"{form(at, it)}\n" for at, it in enumerate(messages))
                    printed, error = self.read(log)
                    self.assertEqual(error, "")
                    self.assertEqual(printed[:-1], lines)
                    requests = sum(it["direction"] == "request" for it in messages)
                    self.assertEqual(printed[-1], "lawful as far as the log shows: "
                                     f"{requests} requests, {len(messages) - requests} events")
        self.assertGreater(count, 8)

    def test_strings(self):
        """A string is printed without escapes; the arguments behind it are found by the signature."""
        for text in ('a "quote", 5', "two\nlines)", '", 4)', ""):
            log = HEAD.replace("wl_shm", text)
            printed, error = self.read(log)
            self.assertEqual((error, printed[-1]), ("", HEAD_SAID), text)
            lines = self.read(log, "--json")[0]
            [told] = [it for it in map(json.loads, lines) if it.get("index") == 2 and it["direction"] == "event"]
            self.assertEqual([it["value"] for it in told["arguments"]], [2, text, 1])

    def test_fixed_numbers(self):
        """With 6 decimals, and with a comma, a number is the nearest of the wire."""
        pointer = "[1000.008]  -> wl_seat@5.get_pointer(new id wl_pointer@7)\n"
        for printed, wanted in (("-1.003906", "-1.00390625"), ("12,500000", "12.50000000"), ("0.996094", "0.99609375")):
            said, _ = self.read(f"{HEAD}{pointer}[1000.009] wl_pointer@7.motion(7, {printed}, 0.000000)\n")
            self.assertIn(f"<- wl_pointer@7.motion(7, {wanted}, 0.00000000)", said)

    def test_time(self):
        """The time is a 32-bit number of microseconds, which begins again after 71 minutes."""
        log = "[4294967.295]  -> wl_display@1.sync(new id wl_callback@2)\n[      0.704] wl_callback@2.done(1)\n"
        said, _ = self.read(log, "--time")
        self.assertEqual([it.split()[0] for it in said[:2]], ["0.000000", "0.000705"])

    def test_delete_ids(self):
        """A client prints a delete_id before the events that came before it, and may use an id again before that."""
        first = "[1.000]  -> wl_display@1.get_registry(new id wl_registry@2)\n"
        sync, done, delete = "[1.000]  -> wl_display@1.sync(new id wl_callback@3)\n", \
            "[1.001] wl_callback@3.done(1)\n", "[1.002] wl_display@1.delete_id(3)\n"
        for log in (sync + delete + done + sync + done, sync + done + sync + delete + done):
            said, _ = self.read(first + log)
            self.assertEqual([re.sub(r".*\.(\w+)\(.*", r"\1", it) for it in said[1:6]],
                             ["sync", "done", "delete_id", "sync", "done"])
            self.assertTrue(said[-1].startswith("lawful as far as"), said)
        # Waywire's own library has given the id to another object when an event for the callback is printed.
        bind = '[1.002]  -> wl_registry@2.bind(1, "wl_shm", 1, new id [unknown]@3)\n'
        said, _ = self.read(first + sync + delete + bind + done)
        self.assertEqual(said[2:4], ["<- wl_callback@3.done(1)", "<- wl_display@1.delete_id(3)"])
        # Nobody listens to the callback, so no event is printed.
        said, _ = self.read(first + sync + delete + sync)
        self.assertEqual(said[-1], "lawful as far as the log shows: 3 requests, 1 events")


class Lacking(Logs):
    """What a log does not have is not claimed."""

    def surface(self):
        """The lines of a log, made of a recording."""
        messages, _, _ = self.told(f"{TOP}/examples/surface.rec")
        return [message(at, it) for at, it in enumerate(messages)]

    def test_a_line_is_lost(self):
        """No session is broken because a line is lost. Each other line is printed."""
        lines = self.surface()
        for at in range(len(lines)):
            said, _ = self.read("\n".join(lines[:at] + lines[at + 1:]) + "\n")
            self.assertEqual(sum(bool(LINE.fullmatch(it)) for it in said), len(lines) - 1, lines[at])
            self.assertRegex(said[-1], "lawful as far as|not judged")

    def test_a_late_beginning(self):
        """The objects from before are known by their names, and nothing is judged."""
        lines = self.surface()
        for at in range(1, len(lines)):
            said, _ = self.read("\n".join(lines[at:]) + "\n")
            self.assertEqual(sum(bool(LINE.fullmatch(it)) for it in said), len(lines) - at)
            self.assertTrue(said[-1].startswith("not judged: the log does not have the beginning"), said)
            self.assertNotIn("unknown@", "".join(said))

    def test_a_line_is_cut(self):
        """A line that begins with a time and cannot be read is reported, and nothing behind it is judged."""
        for length in range(len("[1000.006] "), len(HEAD.splitlines()[6]), 5):
            lines = HEAD.splitlines()
            lines[6] = lines[6][:length]
            said, error = self.read("\n".join(lines) + "\n")
            unread = f"waywire-inspect: {self.folder}/log: line 7 begins with a time and cannot be read\n"
            self.assertEqual(error, unread)
            self.assertIn("not judged from here: line 7 of the log cannot be read", said)
            self.assertIn("lawful until then", said[-1])

    def test_null_for_an_object_that_is_gone(self):
        """A client prints nil for an object that it has destroyed: the line stands as it is, and judging goes on."""
        for line in ("wl_keyboard@6.leave(9, nil)", "discarded [zombie]@4.[event 1](0 fd, 12 byte)"):
            said, _ = self.read(f"{HEAD}[1000.008] {line}\n[1000.009]  -> wl_surface@4.commit()\n")
            self.assertIn(f"? <- {line.removeprefix('discarded ')}", said)
            self.assertEqual(said[-1], HEAD_SAID.replace("5 requests", "6 requests"))

    def test_an_unknown_interface(self):
        """Its lines stand as they are, and nothing is judged from its bind on."""
        said, _ = self.read(HEAD + "[1000.010] wl_registry@2.global(9, \"a_thing\", 1)\n"
                            "[1000.011]  -> wl_registry@2.bind(9, \"a_thing\", 1, new id [unknown]@7)\n"
                            "[1000.012]  -> a_thing@7.make(new id a_part@8, \"x\")\n")
        self.assertIn('? -> a_thing@7.make(new id a_part@8, "x")', said)
        self.assertIn("not judged from here: no table has a_thing", said)

    def test_arrays(self):
        """What an array holds is not printed, and is null in JSON."""
        line = "[1000.008] wl_keyboard@6.enter(9, wl_surface@4, array[8])\n"
        self.assertIn("<- wl_keyboard@6.enter(9, wl_surface@4, array[8])", self.read(HEAD + line)[0])
        [told] = [it for it in map(json.loads, self.read(HEAD + line, "--json")[0]) if it.get("message") == "enter"]
        self.assertEqual(told["arguments"][2], {"kind": "array", "name": "keys", "size": 8, "value": None})

    def test_several_processes(self):
        """Processes are told apart by the names that journald writes. Without these nothing is judged that may be of
        another connection."""
        one, other = (["".join(f"host {name}: {it}\n") for it in HEAD.splitlines()] for name in ("a[1]", "b[2]"))
        said, _ = self.read("".join(it for pair in zip(one, other) for it in pair))
        self.assertEqual([it for it in said if "lawful" in it], [f"#{it} {HEAD_SAID}" for it in (1, 2)])
        # A line of one process is cut.
        said, _ = self.read("".join([*other[:4], "host b[2]: [1000.004]  -> wl_reg\n", *one, *other[4:]]))
        self.assertIn(f"#2 {HEAD_SAID}", said)
        self.assertIn("#1 not judged from here: line 5 of the log cannot be read", said)
        said, _ = self.read(HEAD + HEAD)
        self.assertTrue(said[-1].startswith("#2 not judged: the log has several connections"), said)
        self.assertEqual(sum(bool(re.match(r"#[12] (\? )?(->|<-) ", it)) for it in said), 2 * len(HEAD.splitlines()))

    def test_both_sides(self):
        """A compositor that is a client too prints both connections."""
        servers = "".join(re.sub(r"\] ( -> )?", lambda it: "] " if it[1] else "]  -> ", it)
                          for it in HEAD.splitlines(True))
        said, _ = self.read("".join(it for pair in zip(HEAD.splitlines(True), servers.splitlines(True)) for it in pair))
        self.assertEqual([it for it in said if "lawful" in it], [f"#{it} {HEAD_SAID}" for it in (1, 2)])


class Judging(Logs):
    """What a log shows is judged."""

    def test_broken(self):
        for lines, verdict in (
                (('-> wl_registry@2.bind(2, "wl_shm", 2, new id [unknown]@7)',), "> message 6: F9 bad bind"),
                (("-> wl_surface@4.offset(1, 2)",), "> message 6: F3 unknown message"),
                (("-> wl_surface@4.destroy()", "-> wl_surface@4.commit()"), "> message 7: F2 unknown object"),
                (("-> wl_surface@4.attach(wl_seat@5, 0, 0)",), "> message 6: F5 bad object, argument 0"),
                (("wl_keyboard@6.repeat_info(1, 2)", "wl_seat@5.name(nil)"),
                 "< message 5: F4 malformed argument 0 (A2)")):
            log = HEAD + "".join(f"[1000.01{at}] {it}\n" for at, it in enumerate(lines))
            said, _ = self.read(log, status=1)
            its = [it for it in said if "broken" in it]
            self.assertEqual(its, [f"broken as far as the log shows: {verdict}"], said)

    def test_an_error(self):
        """A wl_display.error ends the session, whatever object it names."""
        for named in ("wl_surface@4", "nil", "wl_surface@9"):
            said, _ = self.read(HEAD + f'[1000.010] wl_display@1.error({named}, 1, "no")\n', status=1)
            self.assertEqual(said[-1], "lawful up to wl_display.error, as far as the log shows: 5 requests, 4 events")

    def test_what_waits(self):
        """A question that was not answered is printed, with the time that it has waited in the log."""
        path = f"{self.folder}/log"
        with open(path, "w", encoding="ascii") as file:
            file.write(HEAD + "[1000.008]  -> wl_display@1.sync(new id wl_callback@7)\n"
                       "[9000.000] wl_keyboard@6.repeat_info(1, 2)\n")
        said, _ = self.ran("--read-debug", path)
        self.assertIn("wl_display@1.sync: 1 not answered, waiting 8.0 s\n", said)

    def test_strict(self):
        self.read(HEAD, "--strict")
        self.read(HEAD + HEAD, "--strict", status=123)


class Files(Logs):
    """What is read and written."""

    def test_a_recording(self):
        """With --record the recordings are kept, and --read says the same of them."""
        said, _ = self.read(HEAD, "--record", self.recorded)
        self.assertEqual(self.ran("--read", self.recorded)[0].splitlines(), said)
        self.assertTrue(os.path.exists(f"{self.recorded}.tables"))

    def test_a_page(self):
        self.read(HEAD + HEAD, "--picture", f"{self.folder}/a.html")
        for name in ("a.html", "a.2.html"):
            with open(f"{self.folder}/{name}", encoding="utf-8") as file:
                self.assertIn("<html", file.read())

    def test_no_message(self):
        _, error = self.read("nothing\n", status=125)
        self.assertEqual(error, f"waywire-inspect: {self.folder}/log has no message that WAYLAND_DEBUG prints\n")
        _, error = self.ran("--read-debug", f"{self.folder}/none", status=125)
        self.assertEqual(error, f"waywire-inspect: cannot read {self.folder}/none: No such file or directory\n")

    def test_what_is_read_is_not_written(self):
        for option in ("--output", "--record", "--picture"):
            _, error = self.read(HEAD, option, f"{self.folder}/log", status=125)
            self.assertIn("is read too, and is not written over", error)
        _, error = self.read(HEAD, "--read", self.recorded, status=125)
        self.assertIn("--read-debug cannot be used with COMMAND, --read or --record-last", error)

    def test_nothing_is_left(self):
        """The recordings that nobody asked for are removed."""
        self.env["TMPDIR"] = f"{self.folder}/room"
        os.mkdir(self.env["TMPDIR"])
        self.read(HEAD + HEAD)
        self.read("nothing\n", status=125)
        self.assertEqual(os.listdir(self.env["TMPDIR"]), [])

    def test_any_bytes(self):
        """Any file is read without a failure."""
        data = struct.pack("<256B", *range(256)) + b"[1.000]  -> wl_display@1.sync(new id wl_callback@2)\n\xff[1.2"
        said, _ = self.read("", data=data)
        self.assertEqual(said[0], "-> wl_display@1.sync(new id wl_callback@2)")


if __name__ == "__main__":
    main()
