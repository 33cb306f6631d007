"""Compares the output of waywire-inspect for programs at mutter with mutter's own log of each message.

    python3 -m tests.inspector.at_mutter [--whole] [WORD..]

Each program runs twice under the tool: with all tables, and with only those of the core, so that most of its messages
are not judged. mutter logs what it receives and sends (WAYLAND_DEBUG=server). Every line of the tool must agree with
the log: its object, its message and each argument that it has, judged or not. After `not judged from here` a line may
say less: that an object or a message is unknown, with its id, opcode and size. The recording must be printed in the
same way.

It runs some programs; with --whole all that the tests of libwayland run at mutter, and once more over waywire's
libwayland-client if that is built. With words, only the sessions whose names contain one of them. INSPECT in the
environment is the tool. A program that is not installed, or makes no connection, is skipped."""

import argparse
import collections
import os
import re
import signal
import subprocess
import sys
import time

from tests.checks import (COMES_UP, LONG, TOP, Failed, Skipped, chosen, counted, has_client, has_come, joined_tables,
                          passed_and_failed)
from tests.libwayland import desktops, kwin_and_mutter, programs
from tests.libwayland.libraries import OUT, SONAME, SYSTEM, Library
from tools.waywire import table_text

INSPECT = os.environ.get("INSPECT", f"{TOP}/out/c/waywire-inspect").split()
OURS = f"{TOP}/out/c/wayland/client"
SOME = ("wayland-info", "weston-simple-shm", "zenity --info --text hello", "gtk4-demo")
CORE = "the core's tables"
TABLES = {"all tables": [], CORE: ["--no-tables"]}
# How long a program that has drawn runs on, in seconds. What is printed is so whatever it does in that time.
A_WHILE = 3
DRAWN = re.compile(r"-> wl_surface@\d+\.commit\(")
# A message as the tool prints it: marked where it is not judged, and known by its name or by its opcode.
PRINTED = re.compile(r"(\? )?(->|<-) (\w+)@(\d+)(?:\.(\w+)\((.*)\)|: opcode (\d+), (\d+) bytes)$")
NOTED = "not judged from here: "
# A message as mutter logs it: an arrow stands before an event.
LOGGED = re.compile(r"\[ *[\d.]+\] ( -> )?(\w+)@(\d+)\.(\w+)\((.*)\)$")
ARGUMENT = re.compile(r'(?:"[^"]*"|[^,"])+')
OBJECT = re.compile(r"(new id )?(\w+|\[unknown\])@(\d+)$")
# The opcodes of requests and events, by the names of their interfaces and their own.
OPCODES = {(arrow, interface.name, it.name): opcode
           for interface in table_text.read_more(table_text.core_tables(), joined_tables())
           for arrow, messages in (("->", interface.request), ("<-", interface.event))
           for opcode, it in enumerate(messages)}

Said = collections.namedtuple("Said", "is_marked arrow interface id name arguments opcode size line")
# Of what was compared.
Counts = collections.Counter()


def arguments_of(text):
    return [it.strip() for it in ARGUMENT.findall(text)]


def printed(lines):
    """The messages that the tool prints, of each direction. The line before the notice is not judged either."""
    found = {"->": [], "<-": []}
    for line, behind in zip(lines, [*lines[1:], ""]):
        if it := PRINTED.match(line):
            marked, arrow, interface, number, name, arguments, opcode, size = it.groups()
            found[arrow].append(Said(bool(marked) or behind.startswith(NOTED), arrow, interface, int(number), name,
                                     arguments_of(arguments or ""), opcode and int(opcode), size and int(size), line))
    return found


def logged(text):
    """The messages that mutter logs, of each direction."""
    found = {"->": [], "<-": []}
    for line in text.splitlines():
        if it := LOGGED.match(line):
            arrow = "<-" if it[1] else "->"
            found[arrow].append(Said(False, arrow, it[2], int(it[3]), it[4], arguments_of(it[5]), None, None, line))
    return found


def size_of(arguments):
    """How many bytes a message has, by its arguments as they are logged."""
    size = 8
    for it in arguments:
        length = len(it[1:-1].encode()) + 1 if it.startswith('"') else 0
        if array := re.match(r"array\[(\d+)\]", it):
            length = int(array[1])
        size += 0 if it.startswith("fd") else 4 + (length + 3) // 4 * 4
    return size


def is_so(said, wanted, may_be_unknown):
    """Whether an argument is what was logged of it."""
    ours, theirs = OBJECT.match(said), OBJECT.match(wanted)
    if ours and theirs:
        is_named = theirs[2] == "[unknown]" or ours[2] == theirs[2] or (may_be_unknown and ours[2] == "unknown")
        return is_named and (ours[1], ours[3]) == (theirs[1], theirs[3])
    if wanted.startswith("fd "):
        return said == "fd" or said.startswith("fd ")
    if "." in wanted and not wanted.startswith('"'):
        return abs(float(said) - float(wanted)) < 1e-5
    return said == wanted


def check_arguments(it, wanted):
    """All arguments are there, or those before `..`. The object of a bind is of the interface that the bind names."""
    is_cut = it.arguments[-1:] == [".."]
    said = it.arguments[:-1] if is_cut else it.arguments
    if len(said) != len(wanted.arguments) and not (is_cut and it.is_marked):
        raise Failed(f"{it.line}, not {wanted.line}")
    for one, other in zip(said, wanted.arguments):
        if not is_so(one, other, it.is_marked):
            raise Failed(f"{it.line}, not {wanted.line}: {one}, not {other}")
    if it.name == "bind" and not is_cut and said[3] != f"new id {said[1][1:-1]}@{said[3].rpartition('@')[2]}":
        raise Failed(f"{it.line}: {said[3]}")


def check_message(it, wanted):
    """What is printed of a message is so."""
    is_known = it.interface == wanted.interface or (it.is_marked and it.interface == "unknown")
    if not is_known or it.id != wanted.id:
        raise Failed(f"{it.line}, not {wanted.line}")
    if it.name is not None:
        if (it.interface, it.name) != (wanted.interface, wanted.name):
            raise Failed(f"{it.line}, not {wanted.line}")
        check_arguments(it, wanted)
    elif not it.is_marked or it.size != size_of(wanted.arguments):
        raise Failed(f"{it.line}, not {wanted.line} of {size_of(wanted.arguments)} bytes")
    elif it.opcode != OPCODES.get((it.arrow, wanted.interface, wanted.name), it.opcode):
        raise Failed(f"{it.line}, not {wanted.line}")


def check_lines(lines, log):
    """All that is printed is what mutter has logged, each direction in order. The last requests may not have been
    read, and the last events not been sent. Returns how many messages are not judged."""
    said, wanted = printed(lines), logged(log)
    for arrow in said:
        for it, its in zip(said[arrow], wanted[arrow]):
            check_message(it, its)
            Counts.update({"messages": 1, "not judged": it.is_marked, "named": it.is_marked and it.name is not None})
        if not said[arrow] or not wanted[arrow]:
            raise Failed(f"{len(said[arrow])} {arrow} are printed, and {len(wanted[arrow])} are logged")
    return sum(it.is_marked for its in said.values() for it in its)


def read(path):
    with open(path, encoding="utf-8", errors="replace") as file:
        return file.read()


def run(desktop, words, options, library):
    """Runs a program under the tool, until it has drawn and a while longer, or to its end. Returns the lines of the
    tool, those of what it recorded, and what mutter has logged."""
    said, recorded, log = (f"{desktop.room}/{it}" for it in ("said", "recorded", "mutter.log"))
    before = len(read(log))
    open(said, "wb").close()
    command = [*INSPECT, "--no-names", *options, "--output", said, "--record", recorded, *words]
    ran = desktop.start(command, library, stderr=subprocess.PIPE)
    try:
        if not has_come(lambda: ran.poll() is not None or DRAWN.search(read(said))):
            raise Skipped(f"{words[0]} has not drawn within {COMES_UP} s")
        time.sleep(A_WHILE)
        ran.send_signal(signal.SIGTERM)
        error = ran.communicate(timeout=LONG)[1].decode(errors="replace")
    finally:
        desktops.end_group(ran)
    # As long as mutter has the client, it may log what it sends.
    if not has_come(lambda: not has_client(desktop.display)):
        raise Failed("mutter has a client that is gone")
    if not read(said):
        raise Skipped(f"{words[0]} has not come up: {error[-300:]!r}")
    again = subprocess.run([*INSPECT, "--no-names", "--read", recorded], capture_output=True, check=False, timeout=LONG)
    return read(said).splitlines(), again.stdout.decode(errors="replace").splitlines(), read(log)[before:]


def session(kept, line, tables, library):
    """A program with some tables over a library, as a test."""
    def test():
        desktop = kept()
        words = programs.words_of(line, desktop.room)
        lines, again, log = run(desktop, words, TABLES[tables], library)
        if any(it.startswith("#2 ") for it in lines):
            raise Skipped("it has several connections, which mutter's log does not tell apart")
        if lines[-1].startswith("broken: "):
            raise Failed(lines[-1])
        if not check_lines(lines, log) and tables == CORE:
            raise Failed("all is judged")
        if [it for it in lines if PRINTED.match(it)] != [it for it in again if PRINTED.match(it)]:
            raise Failed("what was recorded is printed in another way")
        Counts["sessions"] += 1
    test.__name__ = f"{line} with {tables} over {library.name}"
    return test


def sessions(kept, is_whole):
    programs_at_mutter = kwin_and_mutter.AT_MUTTER.strip().splitlines() if is_whole else SOME
    found = [session(kept, line, tables, SYSTEM) for line in programs_at_mutter for tables in TABLES]
    if is_whole and os.path.exists(f"{OURS}/{SONAME}"):
        found += [session(kept, line, CORE, Library(OURS)) for line in programs_at_mutter]
    return found


def main():
    parser = argparse.ArgumentParser(usage=__doc__.split("\n\n")[1].strip())
    parser.add_argument("--whole", action="store_true",
                        help="runs all programs that the tests of libwayland run at mutter")
    parser.add_argument("words", nargs="*", metavar="WORD",
                        help="runs only the sessions whose names contain one of the words")
    given = parser.parse_args()
    os.makedirs(OUT, exist_ok=True)
    kept = desktops.Kept(lambda: kwin_and_mutter.mutter(WAYLAND_DEBUG="server"))
    [tests] = chosen([sessions(kept, given.whole)], given.words)
    try:
        passed, failed = passed_and_failed(tests)
    finally:
        kept.end()
    print(f"{Counts['sessions']} sessions: {Counts['messages']} messages, {Counts['not judged']} of them not judged, "
          f"{Counts['named']} of these named")
    return counted(passed, failed)


if __name__ == "__main__":
    sys.exit(main())
