"""Generated sessions with interfaces that waywire-inspect does not know (played.py). All that it names must be right.

    python3 -m tests.inspector.unknown_sessions [--whole] [--seed=N [--steps=N]]

It plays 300 lawful sessions, with --whole 5,000, or the one session of a seed. The tool reads each of them with a part
of its tables. For any message the tool may say that it does not know the object or the message, but what it names must
be right. What it judges must be complete, and no session may be called broken. INSPECT in the environment is the tool.
It prints how many messages were named. If sessions fail, it prints the first one, with as few steps as still fail."""

import argparse
import json
import os
import re
import subprocess
import sys
import tempfile
from collections import Counter

from tests import reference
from tests.checks import LONG, TOP, counted
from tests.inspector import played

INSPECT = os.environ.get("INSPECT", f"{TOP}/out/c/waywire-inspect").split()
COUNT, WHOLE = 300, 5000
STEPS = 200
KINDS = {"i": "int", "u": "uint", "f": "fixed", "s": "string", "a": "array", "h": "fd", "o": "object", "n": "new",
         "N": "new"}


class Untrue(Exception):
    """What the tool printed is not so."""


def must(holds, *why):
    if not holds:
        raise Untrue(" ".join(str(it) for it in why))


class Known:
    """What the tool has been given, and what it must know: the objects that it said are made."""

    def __init__(self, part):
        self.tables = {it.name: it for it in played.table_text.read_more(
            played.table_text.core_tables(), part.encode())}
        self.made = set()
        self.is_newer = False

    def has(self, said):
        """Whether the tables have a message."""
        interface = self.tables.get(said.target.interface.name)
        side = "request" if said.sender == ">" else "event"
        return interface is not None and said.opcode < len(getattr(interface, side))

    def lacks_version(self, thing):
        """Whether the tables have an object's interface only in older versions."""
        interface = self.tables.get(thing.interface.name)
        return interface is not None and interface.version < thing.version

    def binds_newer(self, said):
        """Whether it binds what the tables have only in an older version."""
        is_bind = (said.target.interface.name, said.name) == ("wl_registry", "bind")
        return is_bind and self.lacks_version(said.values[1])

    def is_settled(self, thing):
        """Whether the tables say if a request can end an object of the server."""
        ending = (it.destroys and it.since <= thing.version for it in self.tables[thing.interface.name].request)
        return not self.lacks_version(thing) or any(ending)

    def is_beyond(self, said):
        """Whether the tables cannot judge it. What is newer than they are is judged as far as they have it."""
        self.is_newer |= self.binds_newer(said)
        if said.made is not None and said.made.interface.name not in self.tables:
            return True
        if said.made is not None and said.made.id >= played.FIRST_OF_SERVER and not self.is_settled(said.made):
            return self.is_newer
        return self.is_newer and self.lacks_version(said.target) and not self.has(said)


def check_named(told, thing):
    """The three parts that name an object are so, or it is not known."""
    must(told["id"] == thing.id, "id", told, thing.named())
    if told["interface"] is None:
        must(told["birth"] == 0, "birth", told)
    else:
        must((told["interface"], told["id"], told["birth"]) == thing.named(), "object", told, thing.named())


def check_state(told, thing, said, known):
    """The tool says correctly whether an object is live or ending. An object that was destroyed by a message
    which the tables lack may be called live."""
    ended_by = said.was_ended.get(thing)
    if told["state"] == "unknown":
        must(told["interface"] is None, "it has an interface and is unknown", told)
        return
    must(told["interface"] is not None, "it has a state and no interface", told)
    if told["state"] == "ending":
        must(ended_by, "not destroyed", told)
    else:
        must(told["state"] == "live" and (not ended_by or not known.has(ended_by)), "state", told)


def check_value(told, kind, value, said, known, descriptor):
    """An argument is so."""
    must(told["kind"] == KINDS[kind.letter], "kind", told, kind)
    if kind.letter in "iu":
        must(told["value"] == value, "value", told, value)
    elif kind.letter == "f":
        must(told["value"] == value / 256, "value", told, value)
    elif kind.letter == "s":
        must(told["value"] == value, "value", told, value)
    elif kind.letter == "a":
        must((told["size"], told["value"]) == (len(value), value.hex()), "value", told, value)
    elif kind.letter == "h":
        must(told["number"] in (None, descriptor), "number", told, descriptor)
    elif value is None:
        must(told["id"] == 0, "null", told)
    elif kind.letter == "o":
        check_named(told, value)
        check_state(told, value, said, known)
    else:
        check_named(told, value)
        must(told["version"] == value.version, "version", told, value.version)


def check_arguments(told, said, known):
    """The printed arguments are right. A message that is not known has none."""
    arguments = told["arguments"]
    must(len(arguments) in (0, len(said.values)), "arguments", arguments)
    descriptor = said.descriptors
    for it, kind, value in zip(arguments, said.kinds, said.values):
        descriptor += kind.letter == "h"
        check_value(it, kind, value, said, known, descriptor)


def check_changes(told, said, known):
    for key, thing in (("made", said.made), ("destroyed", said.destroyed), ("freed", said.freed)):
        must(len(told[key]) <= (thing is not None), key, told[key])
        for it in told[key]:
            must(it["interface"] is not None, key, it)
            check_named(it, thing)
    if told["made"]:
        known.made.add(said.made)


def check_text(told, said):
    """Each object that the line names is one of the message."""
    things = [it for it in (said.target, *said.values) if isinstance(it, played.Thing)]
    true = {f"{it.interface.name}@{it.id}" for it in things} | {f"unknown@{it.id}" for it in things}
    for it in re.findall(r"\w+@\d+", told["text"]):
        must(it in true, "text", told["text"], true)
    if told["message"]:
        must(f"@{said.target.id}.{said.name}(" in told["text"], "text", told["text"], said.name)


def check_place(told, said):
    """The bytes of a message, and where they are."""
    must((told["direction"], told["number"], told["index"], told["offset"], told["size"], told["opcode"],
          told["piece"], told["bytes"])
         == ("request" if said.sender == ">" else "event", said.number, said.index, said.offset, len(said.data),
             said.opcode, said.piece, said.data.hex()), "place", told)


def check_complete(told, said):
    """For a judged message everything is printed."""
    named = [told["object"], *(it for it in told["arguments"] if it["kind"] in ("object", "new") and it["id"])]
    must(all(it["interface"] is not None for it in named) and told["message"], "judged, and not named", told)
    must(len(told["arguments"]) == len(said.values), "judged, and not all arguments", told)
    must(all(it["number"] for it in told["arguments"] if it["kind"] == "fd"), "judged, and no number", told)
    for key, thing in (("made", said.made), ("destroyed", said.destroyed), ("freed", said.freed)):
        must(len(told[key]) == (thing is not None), "judged, and not said what it has", key, told)


def check_message(told, said, known, is_judged, counts):
    check_place(told, said)
    check_named(told["object"], said.target)
    check_state({**told["object"], "state": told["state"]}, said.target, said, known)
    must(told["message"] in (None, said.name), "message", told["message"], said.name)
    must(not told["message"] or told["object"]["interface"], "a message of no object", told)
    check_arguments(told, said, known)
    check_changes(told, said, known)
    check_text(told, said)
    must(told["judged"] == is_judged, "judged", told["judged"], is_judged)
    is_first = not is_judged and not counts["unjudged"]
    must(("note" in told) == (is_first or (is_judged and known.binds_newer(said))), "note", told)
    if is_judged:
        check_complete(told, said)
    elif said.target in known.made and said.target.id < played.FIRST_OF_SERVER:
        must(told["object"]["interface"], "a client's object that was made is not known", told)
    counts["messages"] += 1
    counts["unjudged"] += not is_judged
    counts["unjudged and named"] += not is_judged and told["message"] is not None
    counts["judged behind a newer bind"] += is_judged and known.is_newer


def check_verdict(told, play, counts):
    requests = sum(it.sender == ">" for it in play.said)
    must((told["requests"], told["events"]) == (requests, len(play.said) - requests), "counts", told)
    must(told["verdict"] == ("unjudged" if counts["unjudged"] else "lawful"), "verdict", told)


def check(play, part, lines):
    """The lines that the tool printed for a session are right. Returns how many messages of each kind they had."""
    known, counts = Known(part), Counter(messages=0, unjudged=0)
    told = [it for it in map(json.loads, lines) if it["type"] not in ("unanswered", "open")]
    must([it["type"] for it in told] == ["head", "client", *["message"] * len(play.said), "verdict"], "lines",
         [it for it in told if it["type"] in ("broken", "error", "bad_line")])
    is_judged = True
    for it, said in zip(told[2:], play.said):
        is_judged = is_judged and not known.is_beyond(said)
        check_message(it, said, known, is_judged, counts)
    check_verdict(told[-1], play, counts)
    return counts


def inspected(folder, tables, seed, steps):
    """Plays the session of a seed, has the tool read it, and returns how many messages of each kind the tool
    printed."""
    play, part = played.session(tables, seed, steps)
    recording = "".join(play.lines)
    if seed < COUNT:
        _, verdict = reference.judged(tables.values(), recording.encode())
        must(verdict.startswith("lawful: "), "played, and not lawful", verdict)
    for name, text in (("a.rec", recording), ("a.tables", part)):
        with open(f"{folder}/{name}", "w", encoding="ascii") as file:
            file.write(text)
    words = [*INSPECT, "--json", "--no-tables", "--tables", f"{folder}/a.tables", "--read", f"{folder}/a.rec"]
    ran = subprocess.run(words, capture_output=True, text=True, timeout=LONG, check=False)
    must((ran.returncode, ran.stderr) == (0, ""), "status", ran.returncode, ran.stderr)
    return check(play, part, ran.stdout.splitlines())


def why_false(folder, tables, seed, steps):
    """Why the session fails with this number of steps; None if it does not."""
    try:
        inspected(folder, tables, seed, steps)
    except Untrue as why:
        return why
    return None


def say_shortest(folder, tables, seed, steps):
    """Says the session of a seed in as few steps as fail, with its recording."""
    least = next(it for it in range(steps + 1) if why_false(folder, tables, seed, it))
    print(f"failed: --seed={seed} --steps={least}: {why_false(folder, tables, seed, least)}")
    for name in ("a.tables", "a.rec"):
        with open(f"{folder}/{name}", encoding="ascii") as file:
            print(file.read(), end="")


def main():
    parser = argparse.ArgumentParser()
    parser.add_argument("--whole", action="store_true", help="plays 5,000 sessions instead of 300")
    parser.add_argument("--seed", type=int, metavar="N", help="plays only the session of this seed")
    parser.add_argument("--steps", type=int, default=STEPS, metavar="N",
                        help=f"the most steps of a session [default: {STEPS}]")
    given = parser.parse_args()
    seeds = range(WHOLE if given.whole else COUNT) if given.seed is None else [given.seed]
    tables, counts, failed = played.everything(), Counter(), []
    with tempfile.TemporaryDirectory(prefix="sessions-") as folder:
        for seed in seeds:
            try:
                counts += inspected(folder, tables, seed, given.steps)
            except Untrue:
                failed.append(seed)
        if failed:
            say_shortest(folder, tables, failed[0], given.steps)
    print(", ".join(f"{count} {name}" for name, count in counts.items()))
    return counted(len(seeds) - len(failed), len(failed))


if __name__ == "__main__":
    sys.exit(main())
