"""Generated sessions for `./test picture`: a short one as lines of the inspector, and a long recording."""

import itertools
import json
import random
import struct
import sys

from tests import checks

# Runs a command, and writes the most memory that it took at one time, in KB.
MEASURE = """
import resource, subprocess, sys
status = subprocess.run(sys.argv[2:]).returncode
with open(sys.argv[1], "w") as file:
    file.write(str(resource.getrusage(resource.RUSAGE_CHILDREN).ru_maxrss))
sys.exit(status)
"""


def named(interface, number, birth=1):
    return {"interface": interface, "id": number, "birth": birth}


def jsonl(lines):
    return "".join(f"{json.dumps(it)}\n" for it in lines).encode()


class Lines:
    """Lines of the inspector, message by message."""

    def __init__(self, name):
        self.lines = [
            {"type": "head", "recording": None, "command": ["a"], "started": None, "tables": ["core"], "timed": True},
            {"type": "client", "client": 1, "name": name, "pid": 7}]
        self.number, self.offset, self.left = 0, {"request": 0, "event": 0}, []

    def add(self, direction, target, name, opcode, arguments, printed, **parts):
        self.number += 1
        size = 8 + 4 * len(arguments)
        arrow = "->" if direction == "request" else "<-"
        made = [{it: argument[it] for it in ("interface", "id", "birth")}
                for argument in arguments if argument["kind"] == "new"]
        self.lines.append({
            "type": "message", "client": 1, "number": self.number, "time": self.number / 1000, "direction": direction,
            "index": self.number, "piece": self.number, "offset": self.offset[direction], "size": size,
            "object": target, "opcode": opcode, "message": name, "state": "live", "arguments": arguments,
            "made": made, "destroyed": [], "freed": [],
            "text": f"{arrow} {target['interface']}@{target['id']}.{name}({printed})", "bytes": "00" * size,
            "judged": True, **parts})
        self.offset[direction] += size

    def asks(self, number, since=None, replaced=None, answered_by=None, ended_by=None, is_open=False):
        """A message asks, and another one answers, or ends what it asks for; or no other does."""
        line = {"since": since or number, **({"replaced": replaced} if replaced else {})}
        if answered_by or ended_by:
            message = self.lines[1 + (answered_by or ended_by)]
            message.setdefault("closes", []).append({"asked": number, **line, "answered": bool(answered_by)})
        else:
            kind = "open" if is_open else "unanswered"
            self.left.append({"type": kind, "client": 1, "number": number, **line, "waiting": None})

    def ended(self, verdict="lawful"):
        """All lines, with the verdict."""
        counts = {it: sum(line.get("direction") == it for line in self.lines) for it in ("request", "event")}
        return [*self.lines, *self.left, {
            "type": "verdict", "client": 1, "verdict": verdict, "words": "words", "messages": self.number,
            "requests": counts["request"], "events": counts["event"]}]


def quoted(text):
    plain = (chr(it) if 0x20 <= it <= 0x7E and it not in b'"\\' else f"\\x{it:02x}" for it in text.encode())
    return f'"{"".join(plain)}"'


def new(interface, number, birth=1):
    return {"kind": "new", "name": None, **named(interface, number, birth), "version": 1}


def string(text):
    return {"kind": "string", "name": None, "value": text}


def small(title="a title", name="client", error=None):
    """A window with a title; the compositor may end it with an error."""
    lines, display = Lines(name), named("wl_display", 1)
    surface, window = named("wl_surface", 4), named("xdg_toplevel", 6)
    lines.add("request", display, "get_registry", 1, [new("wl_registry", 2)], "new id wl_registry@2")
    lines.add("request", named("wl_registry", 2), "bind", 0,
              [{"kind": "uint", "name": "name", "value": 1}, new("wl_compositor", 3)],
              '1, "wl_compositor", 1, new id wl_compositor@3')
    lines.add("request", named("wl_compositor", 3), "create_surface", 0, [new("wl_surface", 4)], "new id wl_surface@4")
    lines.add("request", named("xdg_surface", 5), "get_toplevel", 1, [new("xdg_toplevel", 6)], "new id xdg_toplevel@6")
    lines.add("request", window, "set_title", 2, [string(title)], quoted(title))
    for _ in range(3):
        lines.add("request", surface, "commit", 6, [], "")
    if error is not None:
        about = {"kind": "object", "name": None, **surface, "state": "live"}
        lines.add("event", display, "error", 0, [about, {"kind": "uint", "name": None, "value": 3}, string(error)],
                  f"wl_surface@4, 3, {quoted(error)}")
        lines.lines.append({"type": "error", "client": 1, "number": lines.number, "object": surface, "code": 3,
                            "text": error})
    return lines.ended("error" if error else "lawful")


def given(interface, number):
    return {"kind": "object", "name": None, **named(interface, number), "state": "live"}


def number_of(value):
    return {"kind": "uint", "name": None, "value": value}


def held_buffers(spans):
    """A surface that shows a buffer for each span of time, from its commit to its release."""
    lines, surface, moments = Lines("client"), named("wl_surface", 4), []
    for buffer, (begin, end) in enumerate(spans, 7):
        shown = [given("wl_buffer", buffer), number_of(0), number_of(0)]
        moments += [(begin, "request", surface, "attach", 1, shown, f"wl_buffer@{buffer}, 0, 0"),
                    (begin, "request", surface, "commit", 6, [], ""),
                    (end, "event", named("wl_buffer", buffer), "release", 0, [], "")]
    shown = {}
    for moment, direction, target, name, *parts in sorted(moments, key=lambda it: it[0]):
        lines.add(direction, target, name, *parts, time=moment)
        if name == "attach":
            attached = parts[1][0]["id"], lines.number
        elif name == "commit":
            shown = {at: (asked, since, replaced or lines.number) for at, (asked, since, replaced) in shown.items()}
            shown[attached[0]] = attached[1], lines.number, None
        else:
            lines.asks(*shown.pop(target["id"]), answered_by=lines.number)
    return lines.ended()


def pings(moments, answered, end):
    """A client that is asked at these moments, by serials from 1 on. It answers some after a millisecond, and sends its
    last request at the end."""
    lines, base, messages = Lines("client"), named("xdg_wm_base", 5), []
    for serial, moment in enumerate(moments, 1):
        messages.append((moment, "event", base, "ping", 0, [number_of(serial)], str(serial)))
        if serial in answered:
            messages.append((moment + 0.001, "request", base, "pong", 3, [number_of(serial)], str(serial)))
    for moment, direction, *parts in messages:
        lines.add(direction, *parts, time=moment)
        if direction == "request":
            lines.asks(lines.number - 1, answered_by=lines.number)
    lines.add("request", named("wl_surface", 4), "commit", 6, [], "", time=end)
    for it in lines.lines[2:-1]:
        number = it["number"]
        if it["message"] == "ping" and lines.lines[number + 2]["message"] != "pong":
            lines.asks(number)
    return lines.ended()


def drawn(moments, asked=(), configured=()):
    """A surface that is drawn at these moments: each time it asks for a frame, which comes after 3 ms. Some of the frames
    were asked for, or a configure came, so long before their commit."""
    lines, surface, shell, messages = Lines("client"), named("wl_surface", 4), named("xdg_surface", 5), []
    early, late = dict(asked), dict(configured)
    lines.add("request", named("xdg_wm_base", 3), "get_xdg_surface", 2, [new("xdg_surface", 5), given("wl_surface", 4)],
              "new id xdg_surface@5, wl_surface@4", time=0)
    for at, moment in enumerate(moments):
        callback = new("wl_callback", 10 + at)
        if at in late:
            messages.append((moment - late[at], "event", shell, "configure", 0, [number_of(at)], str(at)))
            messages.append((moment - late[at] + 0.001, "request", shell, "ack_configure", 4, [number_of(at)], str(at)))
        messages.append((moment - early.get(at, 0), "request", surface, "frame", 3, [callback],
                         f"new id wl_callback@{10 + at}"))
        messages.append((moment, "request", surface, "attach", 1, [given("wl_buffer", 9), number_of(0), number_of(0)],
                         "wl_buffer@9, 0, 0"))
        messages.append((moment, "request", surface, "commit", 6, [], ""))
        messages.append((moment + 0.003, "event", named("wl_callback", 10 + at), "done", 0, [number_of(at)], str(at)))
    for moment, *parts in sorted(messages, key=lambda it: it[0]):
        lines.add(*parts, time=moment, destroyed=[parts[1]] if parts[2] == "done" else [])
        if parts[2] == "frame":
            frame = lines.number
        elif parts[2] == "commit":
            shown = lines.number
        elif parts[2] == "done":
            lines.asks(frame, shown, answered_by=lines.number)
    return lines.ended()


def blinks(count=18, frames=20):
    """The moments at which a cursor that fades in and out is drawn: some frames, and then nothing for a while."""
    return [0.01 + 0.75 * blink + 0.016 * frame for blink in range(count) for frame in range(frames)]


def paste(after, ended=None):
    """A client that asks for the content of the clipboard, and sends its next request so many seconds later."""
    lines, display = Lines("client"), named("wl_display", 1)
    lines.add("event", named("wl_data_device", 6), "data_offer", 0, [new("wl_data_offer", FIRST_OF_SERVER)],
              "new id wl_data_offer@4278190080", time=0)
    descriptor = {"kind": "fd", "name": None, "number": 1}
    lines.add("request", named("wl_data_offer", FIRST_OF_SERVER), "receive", 1, [string("text/plain"), descriptor],
              '"text/plain", fd 1', time=1, piece=2)
    lines.add("request", display, "sync", 0, [new("wl_callback", 7)], "new id wl_callback@7", time=1, piece=2)
    lines.add("event", named("wl_callback", 7), "done", 0, [number_of(0)], "0", time=1.001)
    if after is not None:
        lines.add("request", named("wl_surface", 4), "commit", 6, [], "", time=1 + after)
    lines = lines.ended()
    lines[-1]["ended"] = ended
    return lines


def slow_to_begin(after, is_known=False):
    """A window whose first configure comes so many seconds after the commit that asks for it, and whose frame comes at
    once. The inspector may know that the configure is an answer."""
    lines, surface, shell = Lines("client"), named("wl_surface", 4), named("xdg_surface", 5)
    lines.add("request", named("xdg_wm_base", 3), "get_xdg_surface", 2, [new("xdg_surface", 5), given("wl_surface", 4)],
              "new id xdg_surface@5, wl_surface@4", time=0)
    lines.add("request", shell, "get_toplevel", 1, [new("xdg_toplevel", 6)], "new id xdg_toplevel@6", time=0)
    lines.add("request", surface, "commit", 6, [], "", time=0.01)
    lines.add("event", shell, "configure", 0, [number_of(1)], "1", time=0.01 + after)
    if is_known:
        lines.asks(3, answered_by=4)
    lines.add("request", shell, "ack_configure", 4, [number_of(1)], "1", time=0.02 + after)
    lines.add("request", surface, "frame", 3, [new("wl_callback", 8)], "new id wl_callback@8", time=0.02 + after)
    lines.add("request", surface, "attach", 1, [given("wl_buffer", 7), number_of(0), number_of(0)], "wl_buffer@7, 0, 0",
              time=0.02 + after)
    lines.add("request", surface, "commit", 6, [], "", time=0.02 + after)
    lines.add("event", named("wl_callback", 8), "done", 0, [number_of(0)], "0", time=0.03 + after)
    lines.asks(6, 8, answered_by=9)
    return lines.ended()


FIRST_OF_SERVER = 0xFF000000


def offer(lines, device, number, types):
    """The compositor makes an offer, and makes it the selection."""
    made = number + FIRST_OF_SERVER
    lines.add("event", device, "data_offer", 0, [new("wl_data_offer", made)], f"new id wl_data_offer@{made}")
    for it in types:
        lines.add("event", named("wl_data_offer", made), "offer", 0, [string(it)], quoted(it))
    lines.add("event", device, "selection", 5, [given("wl_data_offer", made)], f"wl_data_offer@{made}")


def left_objects():
    """A client that destroys no region, and one of four offers."""
    lines, device = Lines("client"), named("wl_data_device", 6)
    for at in range(10, 30):
        lines.add("request", named("wl_compositor", 5), "create_region", 1, [new("wl_region", at)],
                  f"new id wl_region@{at}")
        lines.add("request", named("wl_region", at), "add", 1, [], "")
    for at in range(4):
        offer(lines, device, at, ())
    first = named("wl_data_offer", FIRST_OF_SERVER)
    lines.add("request", first, "destroy", 2, [], "", destroyed=[first])
    return lines.ended()


def selections(*answers):
    """A client copies, and pastes what another has copied; it loses the keyboard focus. The answers are what shows
    that the compositor has taken its source: an offer, or that it asks for the content."""
    lines, device, source = Lines("editor"), named("wl_data_device", 6), named("wl_data_source", 7)
    primary, types = named("zwp_primary_selection_device_v1", 8), ["text/plain", "TEXT", "STRING", "a/b", "c/d"]
    descriptor = {"kind": "fd", "name": None, "number": 1}
    for it in types:
        lines.add("request", source, "offer", 0, [string(it)], quoted(it))
    lines.add("request", device, "set_selection", 1, [given("wl_data_source", 7), number_of(1)], "wl_data_source@7, 1")
    # Sent before the compositor had read the request.
    lines.add("event", device, "selection", 5, [{"kind": "object", "name": None, "id": 0}], "nil")
    if "offered" in answers:
        offer(lines, device, 0, types)
    if "asked" in answers:
        lines.add("event", source, "send", 1, [string("TEXT"), descriptor], '"TEXT", fd 1')
    lines.add("event", source, "cancelled", 2, [], "")
    lines.add("event", primary, "selection", 1, [{"kind": "object", "name": None, "id": 0}], "nil")
    offer(lines, device, 1, ["text/html"])
    pasted = named("wl_data_offer", FIRST_OF_SERVER + 1)
    for _ in range(2):
        lines.add("request", pasted, "receive", 1, [string("text/html"), descriptor], '"text/html", fd 1')
    lines.add("event", named("wl_keyboard", 9), "leave", 2, [number_of(2), given("wl_surface", 4)], "2, wl_surface@4")
    return lines.ended()


def controlled():
    """A client with a data control makes a source the primary selection. Another has the clipboard, and a window of the
    client loses the keyboard focus."""
    lines, device = Lines("manager"), named("ext_data_control_device_v1", 6)
    source, made = named("ext_data_control_source_v1", 7), FIRST_OF_SERVER
    lines.add("request", source, "offer", 0, [string("a/b")], quoted("a/b"))
    lines.add("request", device, "set_primary_selection", 2, [given(source["interface"], 7)],
              "ext_data_control_source_v1@7")
    lines.add("event", device, "data_offer", 0, [new("ext_data_control_offer_v1", made)],
              f"new id ext_data_control_offer_v1@{made}")
    lines.add("event", device, "selection", 1, [given("ext_data_control_offer_v1", made)],
              f"ext_data_control_offer_v1@{made}")
    lines.add("event", named("wl_keyboard", 9), "leave", 2, [number_of(2), given("wl_surface", 4)], "2, wl_surface@4")
    return lines.ended()


def broken(lines, fault, target, name, opcode, arguments, printed):
    """Adds a message that breaks a rule."""
    lines.add("request", target, name, opcode, arguments, printed)
    message = lines.lines.pop()
    parts = {it: message[it] for it in ("number", "direction", "offset", "size", "bytes")}
    lines.lines.append({"type": "broken", "client": 1, "fault": fault, "words": fault, **parts,
                        "object": message["object"], "message": message})


def new_id_of_zero():
    """A client whose new id is 0."""
    lines = Lines("client")
    broken(lines, "F6", named("wl_display", 1), "get_registry", 1, [new("wl_registry", 0)], "new id wl_registry@0")
    return lines.ended("broken")


def asked_after_the_end(is_broken):
    """A client that asks twice before the session ends, by a broken rule or by an error, and twice after that."""
    lines, display, surface = Lines("client"), named("wl_display", 1), named("wl_surface", 4)
    callback = itertools.count(10)

    def ask():
        for target, name, opcode in ((display, "sync", 0), (surface, "frame", 3)):
            made = new("wl_callback", next(callback))
            lines.add("request", target, name, opcode, [made], f"new id wl_callback@{made['id']}")

    ask()
    if is_broken:
        broken(lines, "F2", named("wl_region", 99), "destroy", 0, [], "")
    else:
        lines.add("event", display, "error", 0, [given("wl_surface", 4), number_of(3), string("gone")],
                  'wl_surface@4, 3, "gone"')
        lines.lines.append({"type": "error", "client": 1, "number": lines.number, "object": surface, "code": 3,
                            "text": "gone"})
    ask()
    lines.add("request", surface, "commit", 6, [], "")
    lines.add("event", named("xdg_wm_base", 5), "ping", 0, [number_of(1)], "1")
    lines.asks(1)
    lines.asks(2)
    return lines.ended("broken" if is_broken else "error")


def buffer_of_two_surfaces(last):
    """Two surfaces show one buffer, until its last message."""
    lines, buffer = Lines("client"), named("wl_buffer", 7)
    for surface in (named("wl_surface", 4), named("wl_surface", 5)):
        lines.add("request", surface, "attach", 1, [given("wl_buffer", 7), number_of(0), number_of(0)],
                  "wl_buffer@7, 0, 0")
        lines.add("request", surface, "commit", 6, [], "")
    if last == "release":
        lines.add("event", buffer, "release", 0, [], "")
    else:
        lines.add("request", buffer, "destroy", 0, [], "", destroyed=[buffer])
    for asked in (1, 3):
        lines.asks(asked, asked + 1, **{"answered_by" if last == "release" else "ended_by": 5})
    return lines.ended()


def reused_id():
    """Three surfaces with one id, one after the other; the last one stays."""
    lines = Lines("client")
    for birth in (1, 4, 7):
        surface = named("wl_surface", 10, birth)
        lines.add("request", named("wl_compositor", 5), "create_surface", 0, [new("wl_surface", 10, birth)],
                  "new id wl_surface@10")
        lines.add("request", surface, "commit", 6, [], "")
        if birth < 7:
            lines.add("request", surface, "destroy", 0, [], "", destroyed=[surface])
    return lines.ended()


def questions_left():
    """A surface asks for a frame and shows a buffer; neither a frame nor a release comes."""
    lines, surface = Lines("client"), named("wl_surface", 4)
    lines.add("request", surface, "frame", 3, [new("wl_callback", 8)], "new id wl_callback@8")
    lines.add("request", surface, "attach", 1, [given("wl_buffer", 7), number_of(-1), number_of(-5)],
              "wl_buffer@7, -1, -5")
    lines.add("request", surface, "commit", 6, [], "")
    lines.asks(1, 3)
    lines.asks(2, 3, is_open=True)
    return lines.ended()


def unknown_interface():
    """A client binds an interface that no table has, and another one with the same id later; and a message is for an
    object that no message has made."""
    lines, registry = Lines("client"), named("wl_registry", 2)
    for interface in ("my_shell", "my_panel"):
        lines.add("request", registry, "bind", 0, [number_of(1), new(interface, 5, lines.number + 1)],
                  f'1, "{interface}", 1, new id {interface}@5', made=[])
        for target in (named(None, 5, 0), named(None, 6, 0)):
            lines.add("event", target, None, 0, [], "", state="unknown", text=f"<- unknown@{target['id']}, opcode 0")
    return lines.ended("unknown")


def many_regions(count, later):
    """A client makes regions, destroys all of them, and makes some more."""
    lines, numbers = Lines("client"), range(10, 10 + count + later)
    for at in numbers[:count]:
        lines.add("request", named("wl_compositor", 5), "create_region", 1, [new("wl_region", at)],
                  f"new id wl_region@{at}")
    for at in numbers[:count]:
        region = named("wl_region", at)
        lines.add("request", region, "destroy", 0, [], "", destroyed=[region])
        lines.add("event", named("wl_display", 1), "delete_id", 1, [number_of(at)], str(at), freed=[region])
    for at in numbers[count:]:
        lines.add("request", named("wl_compositor", 5), "create_region", 1, [new("wl_region", at)],
                  f"new id wl_region@{at}")
    return lines.ended()


def commits():
    """A surface that is damaged often, and is committed twice."""
    lines, surface = Lines("client"), named("wl_surface", 4)
    damage = [number_of(0) for _ in range(4)]
    lines.add("request", surface, "attach", 1, [given("wl_buffer", 7), number_of(0), number_of(0)], "wl_buffer@7, 0, 0")
    for _ in range(12):
        lines.add("request", surface, "damage_buffer", 9, damage, "0, 0, 0, 0")
    lines.add("request", surface, "frame", 3, [new("wl_callback", 8)], "new id wl_callback@8")
    for _ in range(2):
        lines.add("request", surface, "commit", 6, [], "")
        lines.add("event", surface, "enter", 0, [given("wl_output", 9)], "wl_output@9")
    return lines.ended()


def words(*numbers):
    return struct.pack(f"<{len(numbers)}I", *numbers)


def text(characters):
    data = characters.encode() + b"\0"
    return words(len(data)) + data + bytes(-len(data) % 4)


def message(target, opcode, body=b""):
    return words(target, 8 + len(body) << 16 | opcode) + body


def piece(moment, sign, messages, descriptors=0):
    count = f" +{descriptors}" if descriptors else ""
    return f"# {moment:.6f}\n{sign} {b''.join(messages).hex()}{count}\n"


def long_recording(count, windows=6):
    """The pieces of a lawful recording of a little over so many messages: surfaces that are drawn again and again."""
    surfaces = range(5, 5 + windows)
    yield piece(0, ">", [message(1, 1, words(2))])
    names = (("wl_compositor", 6), ("wl_shm", 1))
    yield piece(0, "<", [message(2, 0, words(at) + text(name) + words(version))
                         for at, (name, version) in enumerate(names, 1)])
    yield piece(0, ">", [message(2, 0, words(at) + text(name) + words(version, at + 2))
                         for at, (name, version) in enumerate(names, 1)])
    yield piece(0, ">", [message(3, 0, words(it)) for it in surfaces])
    first = 5 + windows
    for each in range(windows):
        pool = first + 3 * each
        yield piece(0, ">", [message(4, 0, words(pool, 65536))], 1)
        yield piece(0, ">", [message(pool, 0, words(pool + it, 0, 64, 64, 256, 0)) for it in (1, 2)])
    callback, made, moment, turn = first + 3 * windows, 5 + 4 * windows, 0.0, 0
    chance = random.Random(1)
    while made < count:
        moment += 0.0166 if chance.random() > 0.001 else 0.09
        buffers = [first + 3 * each + 1 + turn % 2 for each in range(windows)]
        for each, surface in enumerate(surfaces):
            yield piece(moment, ">", [
                message(surface, 3, words(callback + each)), message(surface, 1, words(buffers[each], 0, 0)),
                message(surface, 2, words(0, turn % 640, 640, 480)), message(surface, 6)])
        moment += chance.random() * 0.004
        for each, buffer in enumerate(buffers):
            yield piece(moment, "<", [message(callback + each, 0, words(turn * 16)),
                                      message(1, 1, words(callback + each)), message(buffer, 0)])
        made += 7 * windows
        turn += 1


def long_page(folder, inspector):
    """Makes the page of a long recording in a folder. Returns its path, and the most memory that
    this took, in MB."""
    path, made, report = (f"{folder}/{it}" for it in ("long.rec", "long.html", "report"))
    with open(path, "w", encoding="ascii") as file:
        file.writelines(long_recording(100_000))
    tool = [sys.executable, f"{checks.TOOLS}/waywire-picture", path, "-o", made]
    command = [*tool, "--inspector", inspector]
    checks.run(["/usr/bin/env", "python3", "-c", MEASURE, report, *command])
    with open(report, encoding="ascii") as file:
        return made, int(file.read()) / 1024


def hang_recording(last="# ended 3.940000\n"):
    """A window that draws for a second, and gets no frame any more; and a copy of the screen that is not made."""
    names = (("wl_compositor", 6), ("wl_output", 4), ("xdg_wm_base", 5), ("wl_shm", 1),
             ("zwlr_screencopy_manager_v1", 3))
    yield piece(0, ">", [message(1, 1, words(2))])
    yield piece(0, "<", [message(2, 0, words(at) + text(name) + words(version))
                         for at, (name, version) in enumerate(names, 1)])
    yield piece(0, ">", [*(message(2, 0, words(at) + text(name) + words(version, at + 2))
                           for at, (name, version) in enumerate(names, 1)),
                         message(3, 0, words(8)), message(6, 0, words(9, 4096))], 1)
    yield piece(0, ">", [message(9, 0, words(10, 0, 32, 32, 128, 0))])
    grab = [message(7, 0, words(11, 0, 4)), message(11, 0, words(10))]
    yield piece(0.1, ">", grab)
    yield piece(0.102, "<", [message(11, 0, words(1, 32, 32, 128))])
    yield piece(0.104, "<", [message(11, 2, words(0, 0, 0))])
    yield piece(0.105, ">", [message(11, 1)])
    yield piece(0.106, "<", [message(1, 1, words(11))])
    for turn in range(52):
        yield piece(0.107 + turn * 0.016, ">", [message(8, 3, words(11)), message(8, 6)])
        yield piece(0.110 + turn * 0.016, "<", [message(11, 0, words(turn)), message(1, 1, words(11))])
    yield piece(0.94, ">", [message(8, 3, words(11)), message(8, 6)])
    yield piece(0.95, ">", [message(7, 0, words(12, 0, 4)), message(12, 0, words(10))])
    yield piece(0.952, "<", [message(12, 0, words(1, 32, 32, 128))])
    yield piece(1.44, "<", [message(5, 0, words(1))])
    yield last
