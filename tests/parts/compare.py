"""Compares the output of a built `waywire` with that of `reference`, for recordings and random sessions.

    ./test compare PROGRAM [COUNT [SEED]]

The recordings of examples/ come first, each as it is, with all texts of protocols/. If the program takes
`--stream`, a small one follows, cut at each byte and with each byte changed. COUNT others follow.
Half of these are sessions written from the tables, message by message, with objects, ids, binds and
descriptors that are mostly right. The rest are those of examples/ with bytes changed, pieces left out,
doubled or swapped, or token counts changed. All are cut into new pieces, and some have a change in their
text. If the program takes `--tables`, it gets all texts of protocols/ or a random text; if it
takes `--limit`, it gets a limit. `trace` and `check` must print exactly what the reference says, with its
exit status; also with `--stream`, of the file and of standard input, if the program takes that. COUNT is 300
and SEED is 1 by default; the same SEED makes the same files. If a run differs, its files are left in the
folder of temporary files. The last line is 'N passed, M failed'.
"""

import glob
import os
import random
import subprocess
import tempfile
from typing import NamedTuple

from scripts import usage
from tests import reference
from tests.checks import LONG, TOP, Failed, counted, joined_tables, run
from tools.waywire import table_text

WORDS = (0, 1, 2, 255, 256, 2**31 - 1, 2**31, 2**32 - 1)


def word(number):
    return (number % 2**32).to_bytes(4, "little")


# What can be wrong in a message, or unusual.
WRONG = (None, "padding", "null", "length", "end", "byte 0", "object", "id", "name", "version", "unheard of")
WRONG += ("since", "error", "rest", "part of a word", "size", "a token less", "a token more", "delete_id")
WRONG += ("server id",) * 4


def makes_at_server(message):
    return any(it.letter == "N" for it in message.kinds)


class Writer:
    """A session that is written message by message. One kind of mistake occurs in it now and then."""

    def __init__(self, chance, tables, limit):
        self.chance = chance
        self.session = reference.Session(tables, limit)
        self.tables = list(self.session.tables.values())
        self.makers = [it for it in self.tables if any(map(makes_at_server, it.event))]
        self.pieces = []
        self.wrong = chance.choice(WRONG)
        self.share = chance.choice((0.02, 0.2))

    def is_wrong(self, what):
        return what == self.wrong and self.chance.random() < self.share

    def padded(self, data):
        padding = self.chance.randbytes(3) if self.is_wrong("padding") else bytes(3)
        length = self.chance.choice(WORDS) if self.is_wrong("length") else len(data)
        return word(length) + data + padding[: -len(data) % 4]

    def string(self, data):
        if self.is_wrong("null"):
            return word(0)
        if self.is_wrong("byte 0"):
            data += b"\0" + data
        return self.padded(data + (b"\1" if self.is_wrong("end") else b"\0"))

    def text(self, kind):
        if kind.null and self.chance.random() < 0.3:
            return word(0)
        length = self.chance.choice((0, 1, 2, 3, 4, 5, 30))
        if self.chance.random() < 0.02:
            # About the limit of a message.
            length = self.chance.randint(self.session.limit - 36, self.session.limit - 6)
        return self.string(self.chance.randbytes(length).replace(b"\0", b"\1"))

    def object(self, sign, kind):
        session = self.session
        fitting = [
            number
            for number in session.held
            if (found := session.known(sign, number)) is not None
            and kind.interface in (None, found.interface.name)
        ]
        if self.is_wrong("object"):
            return word(self.chance.choice([0, session.used + 1, *session.held]))
        if kind.null and (not fitting or self.chance.random() < 0.3):
            return word(0)
        return word(self.chance.choice(fitting)) if fitting else None

    def fresh_of_server(self):
        """An id for the object that an event makes: a free one, the next one, or neither."""
        session, first = self.session, reference.FIRST_OF_SERVER
        following = first + session.used_by_server
        used = range(first, following)
        free = [it for it in used if session.is_free_at_server(it)]
        if self.is_wrong("server id"):
            others = (0, 2, first - 1, following + 1, 2**32 - 1)
            taken = [it for it in used if it not in free]
            return word(self.chance.choice(taken if taken and self.chance.random() < 0.7 else others))
        return word(self.chance.choice(free[-3:] + [following]))

    def fresh(self):
        session = self.session
        if self.is_wrong("id"):
            server = reference.FIRST_OF_SERVER
            return word(self.chance.choice((0, 1, session.used, session.used + 2, server)))
        freed = [it for it in range(2, session.used + 1) if it not in session.held]
        return word(self.chance.choice(freed[-3:] + [session.used + 1]))

    def bound(self):
        """A bind's name, interface, version and id."""
        if not self.session.globals:
            return None
        name, interface, version = self.chance.choice(sorted(self.session.globals))
        found = self.session.tables.get(interface.decode("latin-1"))
        most = version if found is None else min(version, found.version)
        version = self.chance.randint(1, max(1, most))
        if self.is_wrong("name"):
            name += 1
        if self.is_wrong("version"):
            version = self.chance.choice((0, most + 1, 2**32 - 1))
        return word(name) + self.string(interface) + word(version) + self.fresh()

    def announced(self):
        """The arguments of an event that announces a global."""
        is_maker = self.chance.random() < 0.3
        interface = self.chance.choice((self.makers if is_maker else None) or self.tables)
        name = interface.name.encode("latin-1")
        if self.is_wrong("unheard of"):
            name = b"wl_unheard_of"
        version = self.chance.choice((interface.version, interface.version + 1, 1))
        return word(self.chance.randint(1, 40)) + self.string(name) + word(version)

    def argument(self, sign, kind):
        if kind.letter == "h":
            return b""
        if kind.letter == "s":
            return self.text(kind)
        if kind.letter == "a":
            return self.padded(self.chance.randbytes(self.chance.randint(0, 9)))
        if kind.letter == "o":
            return self.object(sign, kind)
        if kind.letter == "n":
            return self.fresh()
        if kind.letter == "N":
            return self.fresh_of_server()
        return word(self.chance.choice((*WORDS, self.chance.getrandbits(32))))

    def body(self, sign, interface, message):
        """The arguments of a message; None if there is no object for one of them."""
        name = (interface.name, message.name)
        if name == ("wl_registry", "bind"):
            return self.bound()
        if name == ("wl_registry", "global"):
            return self.announced()
        if name == ("wl_display", "delete_id"):
            ending = [it for it, found in self.session.held.items() if found.is_ending]
            if self.is_wrong("delete_id"):
                others = (0, 1, self.session.used, self.session.used + 1, reference.FIRST_OF_SERVER)
                return word(self.chance.choice(others))
            if self.session.used_by_server and self.chance.random() < 0.1:
                # It changes nothing, whatever the id stands for.
                return word(reference.FIRST_OF_SERVER + self.chance.randint(0, self.session.used_by_server))
            return word(self.chance.choice(ending)) if ending else None
        parts = [self.argument(sign, it) for it in message.kinds]
        return None if None in parts else b"".join(parts)

    def target(self, sign):
        """An object that a message may be for: mostly a late one, seldom wl_display or a registry."""
        session, chance = self.session, self.chance
        numbers = [it for it in session.held if session.known(sign, it) is not None]
        if chance.random() < 0.3:
            numbers = numbers[-10:]
        number = chance.choice(numbers)
        name = session.held[number].interface.name
        is_many = name in ("wl_display", "wl_registry") and len(numbers) > 5
        return chance.choice(numbers) if is_many and chance.random() < 0.7 else number

    def chosen(self, messages):
        """One of the messages, often one by which the server makes an object."""
        making = [it for it in messages if makes_at_server(it)]
        others = [it for it in messages if it not in making]
        return self.chance.choice((making if self.chance.random() < 0.5 else others) or messages)

    def message(self):
        """Writes a message, if there is one for the chosen object."""
        sign = self.chance.choice("><")
        target = self.target(sign)
        found = self.session.held[target]
        messages = found.interface.request if sign == ">" else found.interface.event
        usual = [it for it in messages if it.since <= found.version or self.is_wrong("since")]
        if not usual:
            return
        message = self.chosen(usual)
        if (found.interface.name, message.name) == ("wl_display", "error") and not self.is_wrong("error"):
            return
        body = self.body(sign, found.interface, message)
        if body is None:
            return
        if self.is_wrong("rest"):
            body += word(0)
        size = 8 + len(body) + 4 * self.is_wrong("size") + self.is_wrong("part of a word")
        tokens = sum(it.letter == "h" for it in message.kinds)
        tokens += self.is_wrong("a token more") - min(tokens, self.is_wrong("a token less"))
        header = word(target) + word(size << 16 | messages.index(message))
        piece = (sign, header + body, tokens)
        self.pieces.append(piece)
        self.session.add(*piece)

    def write(self, length):
        while len(self.pieces) < length and not self.session.is_over and self.chance.random() > 1e-4:
            self.message()
        return self.pieces


def changed(chance, pieces):
    """Pieces of a recording, unchanged or with a change."""
    pieces = list(pieces)
    for _ in range(chance.choice((0, 1, 1, 2, 5))):
        if not pieces:
            break
        place = chance.randrange(len(pieces))
        sign, data, tokens = pieces[place]
        how = chance.randrange(7)
        if how <= 2 and data:
            at = chance.randrange(len(data))
            new = chance.choice((0, 255, data[at] ^ 1, data[at] ^ 1 << chance.randrange(8)))
            pieces[place] = (sign, data[:at] + bytes([new]) + data[at + 1 :], tokens)
        elif how == 3:
            del pieces[place]
        elif how == 4:
            pieces.insert(place, pieces[place])
        elif how == 5:
            other = chance.randrange(len(pieces))
            pieces[place], pieces[other] = pieces[other], pieces[place]
        else:
            pieces[place] = (sign, data, chance.choice((0, 1, tokens + 1)))
    return pieces


def cut_anew(chance, pieces):
    """The lines of a recording with these bytes, its pieces joined and cut at other places."""
    how = chance.choice(("as it is", "bytes", "parts"))
    for sign, data, tokens in pieces:
        cuts = set()
        if how == "bytes":
            cuts = set(range(1, len(data)))
        elif how == "parts":
            cuts = {chance.randrange(len(data)) for _ in range(3)} if data else set()
        ends = [0, *sorted(cuts - {0}), len(data)]
        for begin, end in zip(ends, ends[1:]):
            count = f" +{tokens}" if tokens else ""
            yield f"{sign} {data[begin:end].hex() or '-'}{count}\n"
            tokens = 0


def text_changed(chance, text):
    """A text with a change that its form may not allow."""
    how = chance.randrange(5)
    if how == 0:
        return text.replace(b"\n", b"\r\n")
    if how == 1:
        return text.rstrip(b"\n")
    place = chance.randrange(len(text) + 1)
    if how == 2:
        lines = text.split(b"\n")
        lines.insert(chance.randrange(len(lines)), chance.choice((b"", b"# 0", b"\r", b" ", b"> -")))
        return b"\n".join(lines)
    new = bytes([chance.choice(b"\r\n\t +->#xD@?o(0gF\xff")])
    return text[:place] + new + text[place + (how == 3) :]


NAMES = ("a", "b", "c", "d1_", "wl_seat", "wl_callback", "wl_surface", "wl_registry", "x")
BAD_NAMES = ("A", "a" * 257, "D", "@2", "a-b", "a\r", "no_such", "\u00e9")


# Interfaces of the core with their versions, of which two are always the same.
EXTENDED = (("wl_seat", 9), ("wl_surface", 6), ("wl_shell_surface", 1), ("wl_callback", 1), ("wl_fixes", 1))


def random_sections(chance, names):
    """Lines that declare these interfaces, and lines that extend some of them or of the core."""
    sections = [(f"interface {name}", chance.choice((1, 2, 9, 4294967295))) for name in names]
    for _ in range(chance.choice((0, 0, 1, 2))):
        of_core = chance.choice(EXTENDED[: chance.choice((3, 3, 3, 5))])
        name, version = chance.choice((of_core, (chance.choice(names), 9)))
        place = chance.randint(0, len(sections)) if chance.random() < 0.5 else len(sections)
        sections.insert(place, (f"extend {name}", version + chance.choice((-1, 0, 0, 1, 1, 2))))
    return sections


def random_message(chance, names, number, place):
    """The line of the message at a place, in the interface with this number."""
    known = [*names, "wl_seat", "wl_surface", "wl_registry"]
    side = chance.choice(("request", "event"))
    kinds = [chance.choice("i u f s ?s a h".split()) for _ in range(chance.randint(0, 3))]
    if chance.random() < 0.6:
        kinds.append(f"{chance.choice(('o', '?o'))}({chance.choice(known)})")
    if side == "request" and chance.random() < 0.4:
        kinds.append(f"n({chance.choice([*known, 'wl_callback'])})")
    if side == "event" and chance.random() < 0.3:
        kinds.append(f"N({chance.choice([*names, 'wl_surface', 'wl_seat'])})")
    mark = ["D"] * (side == "request" and chance.random() < 0.2)
    mark += [f"@{chance.randint(1, 2)}"] * (chance.random() < 0.2)
    mark = ["D"] if side == "event" and chance.random() < 0.02 else mark
    again = place if chance.random() < 0.02 else f"{number}_{place}"
    return " ".join([side, f"m{again}", *kinds, *mark])


def odd_line(chance, name, other, many):
    """A line with these names that seldom fits at its place."""
    return chance.choice(
        (
            f"interface {name} {chance.choice((0, 1, 4294967296))}",
            f"request {name} {chance.choice(('o', '?o', 'n', 'n(x) n(x)', 'o D @9', many))}",
            f"event {name} {chance.choice(('o', 'n', f'n({other})', 'D', 'D @2', '@0', many))}",
            f"event {name} N{chance.choice(('', f'({other})', f'({other}) N({other})'))}",
            f"request {name} N({other})",
            f"request r{chance.randint(0, 3)} o({other})",
            f"event m0 ?o({other}) D",
            f"extend {name} {chance.choice((0, 1, 9, 10))}",
        )
    )


def random_tables(chance):
    """A table text in which most lines are right, and few names are used."""
    lines = []
    names = chance.sample(NAMES[:4], chance.randint(1, 4))
    for number, (head, version) in enumerate(random_sections(chance, names)):
        lines.append(f"{head} {max(version, 0)}")
        for place in range(chance.choice((0, 1, 3, 6))):
            lines.append(random_message(chance, names, number, place))
    if chance.random() < 0.6:
        name, other = chance.choice(NAMES + BAD_NAMES), chance.choice(NAMES + BAD_NAMES)
        many = " ".join(["i"] * chance.choice((20, 21)))
        lines.insert(chance.randrange(len(lines) + 1), odd_line(chance, name, other, many))
    if chance.random() < 0.01:
        lines += [f"interface e{place} 1" for place in range(chance.choice((1000, 1010)))]
    if chance.random() < 0.01:
        lines += [f"event e{place}" for place in range(chance.choice((256, 257)))]
    text = "".join(f"{it}\n" for it in lines).encode("latin-1")
    return text_changed(chance, text) if chance.random() < 0.1 else text


def examples():
    """The text of each recording of examples/."""
    for path in sorted(glob.glob(f"{TOP}/examples/*.rec")):
        with open(path, "rb") as file:
            yield file.read()


def cut_and_changed(chance):
    """A text cut at each of its bytes, and with each of them changed."""
    with open(f"{TOP}/examples/in_pieces.rec", "rb") as file:
        text = file.read()
    for place in range(len(text)):
        yield text[:place]
        yield text[:place] + bytes([chance.choice(b"\r\n\t +->#x0fF\xff")]) + text[place + 1 :]


class Case(NamedTuple):
    """The arguments and files of two runs. An empty table text stands for the core alone."""

    tables: bytes
    recording: bytes
    limit: int


def cases(count, seed, takes):
    """Makes and compares the runs; `takes` has the options that the program takes."""
    texts, core = joined_tables(), table_text.core_tables()
    for text in examples():
        yield Case(texts if "--tables" in takes else b"", text, reference.LIMIT)
    if "--stream" in takes:
        for text in cut_and_changed(random.Random(seed)):
            yield Case(b"", text, reference.LIMIT)
    stored = [reference.parse_recording(it) for it in examples()]
    for number in range(count):
        chance = random.Random(f"{seed} {number}")
        given, limit = b"", reference.LIMIT
        if "--tables" in takes:
            given = texts if chance.random() < 0.5 else random_tables(chance)
        if "--limit" in takes and chance.random() < 0.5:
            limit = chance.choice((4100, 8192, 65_532))
        try:
            tables = table_text.read_more(core, given)
        except (table_text.BadLine, table_text.BadTable):
            tables = core
        if chance.random() < 0.5:
            pieces = changed(chance, chance.choice(stored))
        else:
            pieces = Writer(chance, tables, limit).write(chance.choice((5, 40, 200)))
        text = "".join(cut_anew(chance, pieces)).encode()
        yield Case(given, text_changed(chance, text) if chance.random() < 0.1 else text, limit)


def wanted(core, case):
    """The status, the error, and the lines of `check` and `trace`."""
    try:
        tables = table_text.read_more(core, case.tables)
    except (table_text.BadLine, table_text.BadTable) as error:
        return 3, f"waywire: tables {error}\n", [], []
    try:
        session = reference.session_of(tables, case.recording, case.limit)
    except table_text.BadLine as error:
        return 3, f"waywire: {error}\n", [], []
    verdict, is_broken = session.verdict(), session.broken is not None
    return int(is_broken), session.hint, [verdict], session.lines + [verdict] * is_broken


def wanted_of_stream(core, case):
    """The same with `--stream`: no line about tables, and the trace of the lines before a bad one."""
    status, error, verdict, lines = wanted(core, case)
    if error.startswith("waywire: line"):
        tables = table_text.read_more(core, case.tables)
        lines = reference.streamed(tables, case.recording, case.limit)[0].lines
    return status, error if status == 3 else "", verdict, lines


class Ran(NamedTuple):
    """A run's words, what it reads from standard input, and what it must print."""

    words: list[str]
    given: bytes
    status: int
    error: str
    lines: list[str]

    def wrong(self, program):
        """What the program does not do as it must, or None."""
        command = " ".join(self.words)
        try:
            ran = subprocess.run([program, *self.words], input=self.given, capture_output=True, timeout=LONG)
        except (OSError, subprocess.TimeoutExpired) as error:
            return f"{command} is not run: {error}"
        output, said = ran.stdout.decode("latin-1"), ran.stderr.decode("latin-1")
        if output != "".join(f"{it}\n" for it in self.lines):
            pairs = zip([*output.split("\n"), None], [*self.lines, "", None])
            found, line = next((it for it in pairs if it[0] != it[1]), (None, None))
            return f"{command} prints {found!r}, the reference {line!r}"
        if (ran.returncode, said) != (self.status, self.error):
            return f"{command} ends with {ran.returncode} and {said!r}, not {self.status} and {self.error!r}"
        return None


def runs(core, case, files, takes):
    """The runs of a case."""
    options = ["--tables", files[0]] if case.tables else []
    options += ["--limit", str(case.limit)] if case.limit != reference.LIMIT else []
    status, error, verdict, lines = wanted(core, case)
    yield Ran(["check", *options, files[1]], b"", status, error, verdict)
    yield Ran(["trace", *options, files[1]], b"", status, error, lines)
    if "--stream" in takes:
        status, error, verdict, lines = wanted_of_stream(core, case)
        yield Ran(["check", *options, "--stream", files[1]], b"", status, error, verdict)
        yield Ran(["trace", *options, "--stream", "-"], case.recording, status, error, lines)


def main():
    words = usage.words(__doc__, least=1, most=3)
    program = os.path.abspath(words[0])
    count, seed = int(words[1]) if len(words) > 1 else 300, words[2] if len(words) > 2 else "1"
    try:
        shown = run([program, "check", "--help"])
    except (OSError, Failed, subprocess.TimeoutExpired) as error:
        print(f"failed: {error}")
        return counted(0, 1)
    takes = [it for it in ("--tables", "--limit", "--stream") if it in shown]
    core = table_text.core_tables()
    passed = failed = 0
    with tempfile.TemporaryDirectory() as folder:
        files = [f"{folder}/a.tables", f"{folder}/a.rec"]
        for number, case in enumerate(cases(count, seed, takes)):
            for path, text in zip(files, case):
                with open(path, "wb") as file:
                    file.write(text)
            wrong = next(filter(None, (it.wrong(program) for it in runs(core, case, files, takes))), None)
            if wrong is None:
                passed += 1
                continue
            failed += 1
            kept = f"{tempfile.gettempdir()}/waywire-differs-{seed}-{number}"
            for path in files:
                os.replace(path, kept + os.path.splitext(path)[1])
            print(f"failed: {kept}.rec: {wrong}")
    return counted(passed, failed or int(not passed))
