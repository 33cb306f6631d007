"""Programs of the distribution copy and paste at the example compositors in C and in Rust, and at sway."""

import base64
import contextlib
import itertools
import os
import socket
import struct
import subprocess
import tempfile
import time

from tests import compositors
from tests.checks import Failed, Skipped, comes_to_listen, end, ended, has_client, has_come, need, run, start_and_wait

# How long a text may take from one client to another, and a client to end, in seconds: many times what is needed on a
# busy machine.
PASSES = 300
# How long keys are given before others are pressed, in seconds.
AGAIN = 30
# How long a text may take into an entry, in seconds; one after the other.
GIVEN = (0, 1, 3, 10, 30)
# How many descriptors a compositor may have that runs out of them, and how long it is watched then, in seconds. It may
# use a processor for this part of that time.
DESCRIPTORS = 32
WATCHED = 3
USED = 0.1
# The most clients of a compositor at a time. The layout of a wl_display.sync.
CLIENTS = 64
SYNC = "=IHHI"
SMALL = "grüße\n".encode()
# More than a pipe holds.
LARGE = base64.b64encode(bytes(it * it % 251 for it in range(400_000)))
# End; Ctrl and V; Ctrl and A, Ctrl and C; Return. Letters, and their keys.
END, PASTE, COPY_ALL, RETURN = ("key 107\n", "modifiers 4\nkey 47\nmodifiers 0\n",
                                "modifiers 4\nkey 30\nkey 46\nmodifiers 0\n", "key 28\n")
LETTERS = {b"q": 16, b"r": 19, b"t": 20, b"y": 21, b"u": 22, b"p": 25, b"s": 31, b"f": 33, b"g": 34, b"h": 35}
TYPE = ["--type", "text/plain"]


class Clipboard:
    """A compositor that listens at `path`, and the clients of a test."""

    def __init__(self, path, process, env):
        self.path, self.process, self.env = path, process, env
        self.started, self.has_stayed = [], True

    def start(self, words, stdin=None, **kept):
        """A client that runs beside the test, and reads `stdin`."""
        kept = {"stdin": subprocess.DEVNULL if stdin is None else subprocess.PIPE, "env": self.env, **kept}
        client = subprocess.Popen(words, **kept)
        self.started.append(client)
        if stdin is not None:
            client.stdin.write(stdin)
            client.stdin.close()
        return client

    def copy(self, text, *options):
        """A client that offers a text until another text is copied."""
        return self.start(["wl-copy", "--foreground", *TYPE, *options], text)

    def pasted(self):
        """The text in the clipboard; `None` if nothing is copied."""
        done = subprocess.run(["wl-paste", "--no-newline"], env=self.env, capture_output=True,
                              timeout=PASSES, check=False)
        return done.stdout if done.returncode == 0 else None

    def has(self, test, what, seconds=PASSES):
        if not has_come(test, seconds):
            raise Failed(f"{what} has not come within {seconds} s")

    def pastes(self, text):
        self.has(lambda: self.pasted() == text,
                 "the end of the text" if text is None else f"{text[:20]!r}, of {len(text)} bytes,")

    def descriptors(self):
        """How many descriptors the compositor has open."""
        return len(os.listdir(f"/proc/{self.process.pid}/fd"))

    def seconds(self):
        """How long the compositor has used a processor."""
        with open(f"/proc/{self.process.pid}/stat", encoding="utf-8") as file:
            words = file.read().rpartition(")")[2].split()
        return (int(words[11]) + int(words[12])) / os.sysconf("SC_CLK_TCK")

    def end_clients(self):
        for client in self.started:
            end(client)


def end_of(said):
    """The end of what a process has written to a file."""
    said.seek(0)
    return said.read()[-800:].decode(errors="replace")


@contextlib.contextmanager
def kept_client(board):
    """A client that asks once: it keeps a compositor from ending with its last one. Notes whether the compositor has
    stayed."""
    with socket.socket(socket.AF_UNIX) as client:
        client.connect(board.path)
        client.sendall(struct.pack(SYNC, 1, 0, 12, 2))
        has_come(lambda: has_client(board.path) or board.process.poll() is not None)
        try:
            yield
        finally:
            board.has_stayed = board.process.poll() is None


def how_it_ended(board, stays):
    """Ends the clients, and then a compositor that stays until a signal; any other has to end with its last client.
    Returns its status, and in words what else is wrong with its end."""
    try:
        board.end_clients()
        if not stays:
            has_come(lambda: board.process.poll() is not None, PASSES)
    finally:
        end(board.process)
    wrong = [] if board.has_stayed else ["it ended before its clients"]
    return board.process.returncode, wrong + ["it left its socket"] * os.path.exists(board.path)


@contextlib.contextmanager
def judged(board, said, stays, status):
    """Ends a compositor after a test, and fails if its end was wrong. If the test failed, its reason is followed by
    what the compositor has written. So a test is only skipped if the compositor was well."""
    why = None
    try:
        yield
    except (Failed, Skipped, OSError, subprocess.TimeoutExpired) as it:
        why = it
    except BaseException:
        board.end_clients()
        end(board.process)
        raise
    found, wrong = how_it_ended(board, stays)
    is_well = found == status and not wrong
    if isinstance(why, Skipped) and is_well:
        raise why
    if why or not is_well:
        lines = [f"{why}".rstrip()] if why else []
        how = ", ".join([f"status {found} of the compositor", *wrong])
        raise Failed("\n".join([*lines, how, end_of(said)])) from why


@contextlib.contextmanager
def compositor(words, script=None, status=0):
    """An example compositor for a test. With --stay it has to end at a signal, and otherwise with
    its last client; with this status, which is 1 if it has ended a client."""
    with tempfile.TemporaryDirectory() as folder:
        path = f"{folder}/wayland-test"
        env = {**os.environ, "XDG_RUNTIME_DIR": folder, "WAYLAND_DISPLAY": "wayland-test",
               "HOME": folder, "GDK_BACKEND": "wayland", "NO_AT_BRIDGE": "1"}
        if script:
            open(f"{folder}/{script}", "wb").close()
        more = [f"{folder}/{script}"] if script else []
        with open(f"{folder}/said", "w+b") as said:
            process = subprocess.Popen([*words, path, *more], stdout=said, stderr=said)
            board = Clipboard(path, process, env)
            with judged(board, said, "--stay" in words, status):
                if not comes_to_listen(process, path):
                    raise Failed("the compositor does not listen")
                with kept_client(board):
                    yield board
                    board.end_clients()


def passes_texts(*words):
    """A small text, and one that is larger than a pipe, are each pasted several times as they were copied. A client
    whose text is replaced hears of it, and ends. No descriptor stays open."""
    need("wl-copy", "wl-paste")
    with compositor(words) as board:
        before = board.descriptors()
        if board.pasted() is not None:
            raise Failed("a text is pasted although none was copied")
        copied = None
        for text in (SMALL, LARGE, b"", SMALL):
            replaced, copied = copied, board.copy(text)
            board.pastes(text)
            if replaced and replaced.wait(PASSES):
                raise Failed(f"wl-copy ended with status {replaced.returncode}")
        for _ in range(20):
            board.pastes(SMALL)
        board.has(lambda: board.descriptors() == before + 1, "that one client is left")
        board.end_clients()
        board.pastes(None)
        board.has(lambda: board.descriptors() == before, "that all descriptors are closed")


def goes_on_without_a_client(*words):
    """The client that has copied a text is killed: the clipboard is empty then. Another client, which was there all
    the time, hears of the next text."""
    need("wl-copy", "wl-paste")
    with compositor(words) as board:
        before = board.descriptors()
        path = os.path.join(board.env["HOME"], "watched")
        with open(path, "w+b") as said:
            watching = board.start(["wl-paste", "--no-newline", "--watch", "cat"], stdout=said)

            def watched():
                with open(path, "rb") as file:
                    return file.read()
            copied = board.copy(b"one ")
            board.has(lambda: watched() == b"one ", "the first text")
            copied.kill()
            copied.wait()
            board.pastes(None)
            copied = board.copy(b"two ")
            board.has(lambda: watched() == b"one two ", "the second text")
            # The one that watches goes while it waits; the text stays.
            watching.kill()
            watching.wait()
            board.pastes(b"two ")
        board.end_clients()
        board.has(lambda: board.descriptors() == before, "that all descriptors are closed")


def bears_much(program, *words):
    """Two clients of a program of ours use offers that are gone, write much and read nothing. One breaks a rule, and
    the compositor ends it. Others copy and paste as before."""
    need("wl-copy", "wl-paste")
    with compositor(words, status=1) as board:
        before = board.descriptors()
        run([program, board.path])
        board.has(lambda: board.descriptors() == before, "that all descriptors are closed")
        board.copy(SMALL)
        board.pastes(SMALL)


def bears_greedy_clients(program, *words):
    """More clients connect than the compositor can accept: it waits without using the processor. Then clients of a
    program of ours ask for more than there is, of room and of descriptors. The compositor ends each of them, and goes
    on serving another."""
    limited = ["sh", "-c", f'ulimit -S -n {DESCRIPTORS} && exec "$0" "$@"', *words]
    with compositor(limited, status=1) as board:
        before = board.descriptors()
        with contextlib.ExitStack() as opened:
            for _ in range(DESCRIPTORS):
                opened.enter_context(socket.socket(socket.AF_UNIX)).connect(board.path)
            board.has(lambda: board.descriptors() == DESCRIPTORS, "that no descriptor is left")
            began, used = time.monotonic(), -board.seconds()
            time.sleep(WATCHED)
            used, watched = used + board.seconds(), time.monotonic() - began
        if used > USED * watched:
            raise Failed(f"the compositor has used a processor for {used:.2f} of {watched:.1f} s")
        board.has(lambda: board.descriptors() == before, "that these clients are gone")
        run([program, board.path])
        board.has(lambda: board.descriptors() == before, "that all descriptors are closed")


def must_be_answered(client, callback):
    """A client's sync, by the id of its callback."""
    client.settimeout(PASSES)
    client.sendall(struct.pack(SYNC, 1, 0, 12, callback))
    if client.recv(1000)[:4] != struct.pack("=I", callback):
        raise Failed("a client is not served")


def asks_once(path):
    with socket.socket(socket.AF_UNIX) as client:
        client.connect(path)
        must_be_answered(client, 2)


def idle_clients_give_way(*words):
    """However many clients connect and ask for nothing, another is served, and goes on being served."""
    with compositor(words, status=1) as board, contextlib.ExitStack() as opened:
        def connect():
            client = opened.enter_context(socket.socket(socket.AF_UNIX))
            client.connect(board.path)
            return client

        asking = None
        for callback in (2, 3):
            for _ in range(CLIENTS):
                connect()
            asking = asking or connect()
            must_be_answered(asking, callback)


class Entry:
    """A GTK entry, whose text is copied by keys."""

    def __init__(self, board):
        self.board, self.letters = board, itertools.cycle(LETTERS.items())

    def press(self, *lines):
        with open(os.path.join(self.board.env["HOME"], "script"), "a", encoding="ascii") as file:
            file.write("".join(lines))

    def text(self):
        """Its text, with a letter more. Once that was copied, no key is on its way, and nothing is pasted any more. If
        a text is pasted while all is selected, nothing is copied, and another letter is typed."""
        def is_copied():
            letter, key = next(self.letters)
            self.press(END, f"key {key}\n", COPY_ALL)
            return has_come(lambda: (self.board.pasted() or b"").endswith(letter), AGAIN)
        self.board.has(is_copied, "the last key in the entry")
        return self.board.pasted()

    def pastes(self, text, seconds):
        """Whether a text that is copied elsewhere is in the entry so many seconds after the keys. After that, pasting
        stops."""
        self.board.copy(text)
        self.board.pastes(text)
        self.press(END, PASTE)
        time.sleep(seconds)
        return self.text()[:-1].endswith(text)


def serves_gtk(paste, *words):
    """wl-copy copies a text, which is pasted into a GTK entry. The text of the entry is copied there, and pasted by
    wl-paste. So a text passes from a data-control source to a wl_data_device, and the other way round. The client that
    `paste` starts pastes the text too: its window takes the focus, and gives it back."""
    need("wl-copy", "wl-paste", "zenity")
    with compositor(words, "script") as board:
        window = ["zenity", "--entry", "--text=waywire", "--entry-text=old "]
        client = board.start(window, stdout=subprocess.PIPE)
        compositors.connects(client, board.path, beside=1)
        entry = Entry(board)
        if not any(entry.pastes(b"new", it) for it in GIVEN):
            raise Failed(f"the text is not pasted into the entry within {GIVEN[-1]} s")
        text = board.pasted()
        if run(paste, env=board.env) != text.decode():
            raise Failed("the example client pastes another text")
        entry.press(RETURN)
        said = client.communicate(timeout=PASSES)[0]
        if said != text + b"\n":
            raise Failed(f"the entry says {said!r}, and wl-paste {text!r}")


def serves_foot(*words):
    """A program in a terminal copies by an escape sequence (OSC 52)."""
    need("wl-paste", "foot")
    with compositor(words, "script") as board:
        text = base64.b64encode(SMALL).decode()
        again = f"while :; do printf '\\033]52;c;{text}\\033\\\\'; sleep 1; done"
        terminal = board.start(["foot", "--config=/dev/null", "sh", "-c", again],
                               stderr=subprocess.PIPE)
        compositors.connects(terminal, board.path, beside=1)
        if not has_come(lambda: board.pasted() == SMALL or terminal.poll() is not None, PASSES):
            raise Failed("the text of foot has not come")
        if terminal.poll() is not None:
            raise Skipped(f"foot does not run here: {terminal.stderr.read()[-300:]!r}")


def client_pastes(board, paste, checked):
    """The client that `paste` starts prints what wl-copy has copied: a small text, and one that is larger than a pipe.
    If nothing is copied, it says so. `checked` is a command that runs the client when it is to succeed."""
    def ran(*words):
        done = subprocess.run([*words, *paste], env=board.env, capture_output=True, timeout=PASSES,
                              check=False)
        return done.returncode, done.stdout, done.stderr

    status, said, error = ran()
    if status != 1 or said or b"no text is copied" not in error:
        raise Failed(f"nothing is copied: status {status}, {said[:200]!r}, {error[-600:]!r}")
    for text in (SMALL, LARGE):
        board.copy(text)
        board.pastes(text)
        status, said, error = ran(*checked)
        if status or said != text:
            raise Failed(f"status {status}, {len(said)} bytes, not {len(text)}: {error[-600:]!r}")


def client_pastes_at_ours(paste, checked, *words):
    need("wl-copy", "wl-paste")
    with compositor(words) as board:
        before = board.descriptors()
        client_pastes(board, paste, checked)
        board.end_clients()
        board.has(lambda: board.descriptors() == before, "that all descriptors are closed")


def client_pastes_during_a_drag(program, paste, checked):
    """The client prints what is copied, while something else is dragged over its window: at a compositor of ours."""
    with tempfile.TemporaryDirectory() as folder:
        path = f"{folder}/wayland-test"
        server = start_and_wait([program, path], path)
        try:
            said = run([*checked, *paste], env={**os.environ, "WAYLAND_DISPLAY": path})
            ended(server)
        finally:
            server.kill()
    if said != "copied":
        raise Failed(f"the client says {said!r}")


def client_pastes_at_sway(paste, checked):
    """At sway, which gives a new window the focus."""
    need("sway", "wl-copy", "wl-paste")
    with tempfile.TemporaryDirectory(prefix="sway-") as room:
        words, path, kept = compositors.sway(room, dict(os.environ))
        with compositors.running(words, path, room, **kept) as process:
            board = Clipboard(path, process, {**os.environ, "XDG_RUNTIME_DIR": room,
                                              "WAYLAND_DISPLAY": path, "HOME": room})
            try:
                client_pastes(board, paste, checked)
            finally:
                board.end_clients()
