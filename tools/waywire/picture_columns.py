"""Converts the lines of `waywire-inspect --json` to columns, which a page of waywire-picture has in compressed form.

A message is a row of numbers: its signature, its object and the values of its arguments are places in the lists
`signatures`, `objects` and `strings`. This file does not read recordings, and does not decode messages or printed
lines: bytes are kept as digits, and the end of a line as it was printed."""

import base64
import bisect
import json
import zlib
from array import array
from collections.abc import Iterable
from typing import Any

from .picture_window import Window, front_of

# The most messages of a page, and the most bytes of its text. The rest is left out, and the page says which part it
# shows.
MOST_MESSAGES = 200_000
MOST_TEXT = 32 * 2**20
# The most bytes of a message, and the most numbers or bytes of an array, that are kept.
MOST_BYTES = 256
MOST_NUMBERS = 8
MOST_CONTENTS = 16
# A time is below this number of seconds.
MOST_SECONDS = 10**9
STATES = {"live": 0, "ending": 1, "unknown": 2}
# How a question ends: with an answer, with its object, not before the session, or it needs no answer so far.
ENDS = {"answered": 0, "gone": 1, "unanswered": 2, "open": 3}
# How many numbers a question has (`Columns.waits`).
WAIT_COLUMNS = 5


class NoSession(Exception):
    """No page can be made, and why."""


class NoLines(NoSession):
    """What was read is not what the inspector prints."""

    def __init__(self) -> None:
        super().__init__("these are no lines of waywire-inspect --json")


class Numbered:
    """Values with the numbers in which they came."""

    def __init__(self) -> None:
        self.numbers: dict[Any, int] = {}

    def of(self, value: Any) -> int:
        return self.numbers.setdefault(value, len(self.numbers))

    def values(self) -> list[Any]:
        return list(self.numbers)


def shown(data: bytes) -> str:
    """The bytes of a string as a printed line has them, in quotes."""
    plain = (chr(it) if 0x20 <= it <= 0x7E and it not in b'"\\' else f"\\x{it:02x}" for it in data)
    return f'"{"".join(plain)}"'


def readable(text: str) -> str | None:
    """A quoted string in which letters of all scripts are kept."""
    if text.isascii() or "\ufffd" in text:
        return None
    parts = (it if not it.isascii() and it.isprintable() else shown(it.encode())[1:-1] for it in text)
    return f'"{"".join(parts)}"'


def microseconds(seconds: float | None) -> int:
    """A time in whole microseconds; 0 if there is none. Raises `ValueError`."""
    if seconds is not None and not 0 <= seconds < MOST_SECONDS:
        raise ValueError("a time")
    return round((seconds or 0) * 1_000_000)


def contents(argument: dict[str, Any]) -> str:
    """The contents of an array in words, as a line has them: if it has numbers, its first numbers with their names; else
    its bytes, if they are few."""
    if "numbers" not in argument:
        return argument["value"] or "" if argument["size"] <= MOST_CONTENTS else ""
    numbers, names = argument.get("numbers", [])[:MOST_NUMBERS], argument.get("names", [])
    words = [" ".join([str(it), *(["|".join(names[at])] if names[at : at + 1] and names[at] else [])])
             for at, it in enumerate(numbers)]
    more = [".."] if len(argument.get("numbers", [])) > MOST_NUMBERS else []
    return ", ".join(words + more)


class Columns:
    """The contents of a page for the session of one client."""

    def __init__(self, client: int = 1, window: Window | None = None) -> None:
        self.client, self.is_there = client, False
        # Which messages are shown, and how many of these are still left out first.
        self.window, self.skipped = window or Window(), 0
        # The other clients: the name and the process of each.
        self.others: dict[int, list[Any]] = {}
        self.head: dict[str, Any] = {}
        self.who: dict[str, Any] = {}
        self.verdict: dict[str, Any] | None = None
        self.broken: dict[str, Any] | None = None
        self.error: dict[str, Any] | None = None
        self.signatures, self.strings = Numbered(), Numbered()
        self.objects: dict[tuple[int, int, bool], int] = {}
        self.about: list[list[Any]] = []
        self.ranks: dict[int, int] = {}
        # By id, the objects that a bind made with an interface that no table has.
        self.bound: dict[int, int] = {}
        names = ("time", "piece", "signature", "object", "size", "offset", "state")
        self.rows = {it: array("q") for it in names}
        self.values: list[Any] = []
        self.rest: list[str] = []
        self.bytes: list[str] = []
        # The names of values by their enum, and what arrays hold: a message, an argument, words.
        self.names: dict[str, dict[int, str]] = {}
        self.arrays: list[tuple[int, int, str]] = []
        # Pairs of a message and an object.
        self.made: list[int] = []
        self.destroyed: list[int] = []
        self.freed: list[int] = []
        self.numbers = array("q")
        # Of each question: what asks, what it waits from, what ends it, how it ends, and what replaces its buffer.
        self.waits: list[int] = []
        # Commits that are kept for the commit of a parent.
        self.kept: list[int] = []
        self.notes: list[tuple[int, str]] = []
        self.text_size, self.is_full = 0, False
        self.last_time, self.last_piece = 0, 0
        self.next_offset: dict[str, int] = {}
        # The index of the first message of each direction.
        self.begins: dict[str, int] = {}

    def read(self, lines: Iterable[bytes]) -> None:
        """Takes lines in. Raises `NoSession`."""
        # A kind that is not known here tells what a page does not show.
        does = {it: getattr(self, f"take_{it}") for it in (
            "message", "broken", "error", "unanswered", "open", "verdict", "client")}
        decode = json.JSONDecoder().decode
        for line in lines:
            try:
                # What is not shown is not read further.
                if (front := front_of(line)) and front[0] == self.client and self.passes_over(*front[1:]):
                    self.is_there = True
                    continue
                found = decode(line.decode())
                kind = found["type"]
                if kind == "head":
                    self.head = found
                elif kind == "bad_line":
                    raise NoSession(f"line {found['line']}: bad line")
                elif kind in does:
                    if found.get("client", 1) == self.client:
                        self.is_there = True
                        does[kind](found)
                    elif kind == "client":
                        self.others[found["client"]] = [found.get("name"), found.get("pid")]
                    else:
                        self.others.setdefault(found["client"], [None, None])
            except (ValueError, KeyError, TypeError, AttributeError) as error:
                raise NoLines from error
        if not self.head:
            raise NoLines
        if not self.is_there and self.others:
            raise NoSession(f"there is no client {self.client}; there are {sorted(self.others)}")

    def take_client(self, found: dict[str, Any]) -> None:
        self.who = found

    def take_verdict(self, found: dict[str, Any]) -> None:
        self.verdict = {it: found.get(it) for it in (
            "verdict", "words", "messages", "requests", "events", "ended", "cut")}

    def take_unanswered(self, found: dict[str, Any]) -> None:
        self.add_wait({**found, "asked": found["number"]}, -1, ENDS["unanswered"])

    def take_open(self, found: dict[str, Any]) -> None:
        self.add_wait({**found, "asked": found["number"]}, -1, ENDS["open"])

    def add_wait(self, found: dict[str, Any], ended: int, how: int) -> None:
        """Adds a question. One that was asked before the first row is left out."""
        asked, since = self.place_of(found["asked"]), self.place_of(found.get("since", found["asked"]))
        if asked >= 0 and since >= 0:
            self.waits += (asked, since, ended, how, self.place_of(found.get("replaced", 0)))

    def place_of(self, number: int) -> int:
        """The row of the message with a number; -1 if it has none."""
        place = bisect.bisect_left(self.numbers, number)
        return place if place < len(self.numbers) and self.numbers[place] == number else -1

    def take_error(self, found: dict[str, Any]) -> None:
        """A wl_display.error; its message came just before, if it is shown."""
        self.error = {"place": self.place_of(found["number"]), "number": found["number"], "object": self.object(found["object"]),
                      "code": found["code"], "text": found["text"], "names": found.get("names") or []}

    def take_broken(self, found: dict[str, Any]) -> None:
        """A message that breaks a rule is a row like any other, even if it could not be decoded."""
        message = found["message"] or {"object": found["object"], "opcode": -1, "message": None,
                                       "arguments": [], "state": "unknown", "text": "", "piece": None}
        own = {it: found[it] for it in ("direction", "offset", "size", "number", "bytes")}
        number, time = found["number"], message.get("time")
        follows = number == (self.numbers[-1] + 1 if self.numbers else self.window.first or 1)
        is_shown = follows and not (self.skipped or self.is_full) and self.window.has(number, time)
        self.broken = {"place": len(self.rest) if is_shown else -1, "number": number,
                       "fault": found["fault"], "words": found["words"]}
        if is_shown:
            self.add_row({"time": None, **message, **own, "made": (), "destroyed": (), "freed": ()})

    def object(self, found: dict[str, Any] | None, version: int | None = None) -> int:
        """The number of an object; -1 for no object."""
        if not found or not found.get("id"):
            return -1
        identity, interface = found["id"], found.get("interface")
        if interface is None and identity in self.bound:
            return self.bound[identity]
        key = (identity, found.get("birth", 0), interface is None)
        number = self.objects.get(key)
        if number is None:
            number = self.objects[key] = len(self.about)
            # Which of the objects with this id it is, from 1; 0 of what is not known.
            rank = 0
            if interface is not None:
                rank = self.ranks[identity] = self.ranks.get(identity, 0) + 1
            self.about.append([interface, identity, rank, version or 0])
        elif version:
            self.about[number][3] = version
        return number

    def new_object(self, argument: dict[str, Any]) -> int:
        """The number of an object that a message makes; what had its id before is gone."""
        self.bound.pop(argument["id"], None)
        return self.object(argument, argument.get("version"))

    def value(self, argument: dict[str, Any]) -> Any:
        kind = argument["kind"]
        if kind == "object":
            return self.object(argument)
        if kind == "new":
            return self.new_object(argument)
        if kind == "string":
            value = argument["value"]
            return -1 if value is None else self.strings.of(value)
        if kind == "array":
            return argument["size"]
        return argument["number"] if kind == "fd" else argument["value"]

    def passes_over(self, number: int, time: float | None) -> bool:
        """Whether a message is not shown. One that is left out first is counted."""
        if self.is_full or not self.window.has(number, time):
            return True
        self.skipped -= (is_skipped := self.skipped > 0)
        return is_skipped

    def take_message(self, found: dict[str, Any]) -> None:
        if not self.is_full and self.window.has(found["number"], found["time"]):
            self.add_row(found)
            self.is_full = len(self.rest) >= MOST_MESSAGES or self.text_size > MOST_TEXT

    def add_row(self, found: dict[str, Any]) -> None:
        rows, about = self.rows, found["object"]
        arguments, direction = found["arguments"], found["direction"]
        place = len(self.rest)
        kinds = tuple([(it["kind"], it.get("name"), it.get("enum")) for it in arguments])
        signature = (about.get("interface"), found["message"], direction, found["opcode"], kinds)
        rows["signature"].append(self.signatures.of(signature))
        rows["object"].append(self.object(about))
        self.values.extend([self.value(it) for it in arguments])
        self.note_names(place, arguments)
        # The places of messages in a picture never go back.
        time = max(self.last_time, microseconds(found["time"]))
        rows["time"].append(time - self.last_time)
        piece = found["piece"] or self.last_piece
        rows["piece"].append(piece - self.last_piece)
        self.last_time, self.last_piece = time, piece
        rows["size"].append(found["size"])
        rows["offset"].append(found["offset"] - self.next_offset.get(direction, 0))
        self.next_offset[direction] = found["offset"] + found["size"]
        self.begins.setdefault(direction, found.get("index", 1))
        rows["state"].append(STATES[found["state"]] + 4 * (found.get("judged") is False))
        self.numbers.append(found["number"])
        for it in found.get("closes") or ():
            self.add_wait(it, place, ENDS["answered" if it["answered"] else "gone"])
        if found.get("kept"):
            self.kept.append(place)
        if found.get("note"):
            self.notes.append((place, found["note"]))
        for what, kept in (("made", self.made), ("destroyed", self.destroyed), ("freed", self.freed)):
            for it in found.get(what) or ():
                kept += (place, self.object(it))
        self.note_bound(place, found)
        self.rest.append(self.end_of_line(found, arguments))
        self.bytes.append(found["bytes"][: 2 * MOST_BYTES])

    def note_bound(self, place: int, found: dict[str, Any]) -> None:
        """A bind makes an object even if no table has its interface. The lines do not say so, and name the object only
        in the bind."""
        is_bind = found["object"].get("interface") == "wl_registry" and found["message"] == "bind"
        is_broken = self.broken is not None and self.broken["place"] == place
        if is_bind and not found.get("made") and not is_broken:
            for it in found["arguments"]:
                if it["kind"] == "new" and it["id"] and it.get("interface"):
                    self.bound[it["id"]] = self.object(it)
                    self.made += (place, self.bound[it["id"]])

    def note_names(self, place: int, arguments: list[dict[str, Any]]) -> None:
        """Notes the names of values, by their enum, and what arrays hold."""
        for at, it in enumerate(arguments):
            if it["kind"] == "array":
                if words := contents(it):
                    self.arrays.append((place, at, words))
            elif it.get("names"):
                self.names.setdefault(it["enum"], {})[it["value"]] = "|".join(it["names"])

    def end_of_line(self, found: dict[str, Any], arguments: list[dict[str, Any]]) -> str:
        """What the printed line has after the message's name, with letters of all scripts kept."""
        text, about = found["text"], found["object"]
        arrow = "-> " if found["direction"] == "request" else "<- "
        known = f"{arrow}{about.get('interface')}@{about['id']}.{found['message']}"
        # Where the line begins in another way, all of it is kept.
        rest = text[len(known) :] if text.startswith(known) else f"\t{text.removeprefix(arrow)}"
        for it in arguments:
            if it["kind"] == "string" and it["value"] and (new := readable(it["value"])):
                rest = rest.replace(shown(it["value"].encode()), new, 1)
        self.text_size += len(rest)
        return rest.replace("\n", " ")

    def title(self, path: str | None) -> str:
        named = path or self.head.get("recording") or ""
        stem = named.rsplit("/", 1)[-1].removesuffix(".rec")
        # What was recorded for a page alone has no name of its own.
        stem = "" if stem == "session" else stem
        return stem or self.who.get("name") or " ".join(self.head.get("command") or []) or "session"

    def part(self) -> dict[str, Any] | None:
        """The first and the last message that are shown, and how many the session has, if that is known; None if all are
        shown."""
        total = self.verdict and self.verdict["messages"] + (self.broken is not None)
        first, last = (self.numbers[0], self.numbers[-1]) if self.numbers else (0, 0)
        is_all = first <= 1 and last == len(self.numbers) == (last if total is None else total)
        return None if is_all else {"first": first, "last": last, "total": total, "begins": self.begins}

    def packed(self, title: str) -> str:
        """All of it, deflated, in base64."""
        about = list(zip(*self.about)) or [[], [], [], []]
        parts = {
            "form": 1, "title": title, "head": self.head, "client": self.who,
            "others": [[it, *who] for it, who in sorted(self.others.items())],
            "names": self.names, "arrays": self.arrays,
            "verdict": self.verdict, "broken": self.broken, "error": self.error, "notes": self.notes,
            "part": self.part(), "number": [it - before for before, it in zip([0, *self.numbers], self.numbers)],
            "signatures": self.signatures.values(), "strings": self.strings.values(),
            "objects": dict(zip(("interface", "id", "birth", "version"), about)),
            "rest": "\n".join(self.rest), "bytes": "\n".join(self.bytes), "values": self.values,
            "made": self.made, "destroyed": self.destroyed, "freed": self.freed,
            # Each number is the difference from that of the wait before.
            "waits": [it - before for before, it in zip([0] * WAIT_COLUMNS + self.waits, self.waits)],
            "kept": self.kept,
            **{name: row.tolist() for name, row in self.rows.items()},
        }
        deflate, out = zlib.compressobj(7), []
        write = json.JSONEncoder(ensure_ascii=False, separators=(",", ":")).encode
        for place, (name, value) in enumerate(parts.items()):
            text = f"{',' if place else '{'}{write(name)}:{write(value)}"
            # A lone surrogate of a line in JSON is no character.
            out.append(deflate.compress(text.encode("utf-8", "replace")))
        out.append(deflate.compress(b"}"))
        out.append(deflate.flush())
        return base64.b64encode(b"".join(out)).decode()
