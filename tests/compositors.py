"""Runs clients of the distribution at the example compositors in C and in Rust, which play a script of events; and
starts sway and weston without a screen."""

import contextlib
import os
import pwd
import shutil
import subprocess
import tempfile

from tests.checks import (COMES_UP, LONG, Failed, Skipped, comes_to_listen, end, has_client, has_come,
                          has_waiting_client, need)

# What is played at a window of weston-simple-shm, which draws until it is asked to close.
DRAWN = "motion 20 20\nbutton 272\nkey 30\nclose\n"
# A motion, and the keys H, I and Return.
TYPED = "motion 40 40\nkey 35\nkey 23\nkey 28\n"
SWAY = "xwayland {}\noutput * bg #000000 solid_color\n"


def of_wlroots(room, env):
    """The environment and the user of a compositor without a screen that stands on wlroots: it does not run as root.
    It owns the room, a folder of its own."""
    user = pwd.getpwnam("nobody") if os.getuid() == 0 else None
    if user:
        shutil.chown(room, user.pw_uid, user.pw_gid)
    env = {**env, "XDG_RUNTIME_DIR": room, "HOME": room, "WLR_BACKENDS": "headless",
           "WLR_LIBINPUT_NO_DEVICES": "1", "WLR_RENDERER": "pixman"}
    env.pop("WAYLAND_DISPLAY", None)
    as_user = {"user": user.pw_uid, "group": user.pw_gid, "extra_groups": []} if user else {}
    return {"env": env, **as_user}


def sway(room, env, has_xwayland=False):
    """How to start sway without a screen: the command, the path at which it listens, and its environment and user."""
    with open(f"{room}/config", "w", encoding="ascii") as file:
        file.write(SWAY.format("force" if has_xwayland else "disable"))
    return ["sway", "--config", f"{room}/config"], f"{room}/wayland-1", of_wlroots(room, env)


def phoc(room, env):
    """How to start phoc, as for sway."""
    return ["phoc"], f"{room}/wayland-0", of_wlroots(room, env)


def weston(room, env):
    """How to start weston without a screen, in a folder of its own, as for sway."""
    words = ["weston", "--backend=headless-backend.so", "--socket=weston", "--idle-time=0"]
    return words, f"{room}/weston", {"env": {**env, "XDG_RUNTIME_DIR": room}}


@contextlib.contextmanager
def running(words, path, room, **kept):
    """A compositor that listens at a path, and ends with the test. If it does not come up, the test is skipped."""
    with open(f"{room}/{os.path.basename(words[0])}.log", "w+b") as said:
        process, listens = started(words, path, said, **kept)
        try:
            if not listens:
                said.seek(0)
                raise Skipped(f"{words[0]} has not come up within {COMES_UP} s: {said.read()[-300:]!r}")
            yield process
        finally:
            end(process)


def started(words, path, said, **kept):
    """A compositor, and whether it listens at a path."""
    process = subprocess.Popen(words, stdout=said, stderr=said, **kept)
    return process, comes_to_listen(process, path)


def connects(client, path, beside=0):
    """Waits until a client is accepted at a path beside so many others, or has ended. If it makes no connection, the
    test is skipped. If it makes one that is not accepted, the test fails."""
    if not has_come(lambda: has_client(path, beside) or client.poll() is not None):
        if has_waiting_client(path):
            raise Failed(f"{client.args[0]} is not accepted within {COMES_UP} s")
        raise Skipped(f"{client.args[0]} has made no connection within {COMES_UP} s")


def ran(words, path, **kept):
    """Runs a client, and returns it with its output once it has ended."""
    client = subprocess.Popen(words, stdout=subprocess.PIPE, stderr=subprocess.PIPE, **kept)
    try:
        connects(client, path)
        return client, *client.communicate(timeout=LONG)
    finally:
        client.kill()


def played(words, script, *client):
    """Runs a client at a compositor that this command starts, and that plays a script. Returns the outputs of both.
    Both must end by themselves, and without a failure."""
    with tempfile.TemporaryDirectory() as folder:
        path, file = f"{folder}/wayland-test", f"{folder}/script"
        with open(file, "w", encoding="utf-8") as written:
            written.write(script)
        with open(f"{folder}/said", "w+b") as said:
            server, _ = started([*words, path, file], path, said)
            env = {**os.environ, "XDG_RUNTIME_DIR": folder, "WAYLAND_DISPLAY": "wayland-test", "HOME": folder,
                   "GDK_BACKEND": "wayland", "NO_AT_BRIDGE": "1"}
            try:
                ended, text, error = ran(client, path, env=env)
                status = server.wait(LONG)
            except subprocess.TimeoutExpired as late:
                said.seek(0)
                raise Failed(f"{late.cmd[0]} does not end: the compositor says {said.read()[-600:]!r}") from None
            finally:
                server.kill()
            said.seek(0)
            output = said.read().decode()
        if ended.returncode or status or os.path.exists(path):
            raise Failed(f"status {ended.returncode} of {client[0]}, {status} of the compositor\n"
                         f"{error[-600:].decode()}{output[-600:]}")
        return text.decode(), output


def serves_a_client_of_weston(*words):
    """The client draws frames until it is asked to close. It draws another picture each time it hears that the last
    one was shown, which happens before all events of the script."""
    need("weston-simple-shm")
    _, output = played(words, DRAWN, "weston-simple-shm")
    if output.count("a picture of ") < 2:
        raise Failed(f"the compositor says {output[-600:]!r}")


def serves_a_client_of_gtk(*words):
    """The client prints what is typed in its window. The pointer gets a cursor over the window."""
    need("zenity")
    text, output = played(words, TYPED, "zenity", "--entry", "--text=waywire")
    if text != "hi\n" or "a picture of " not in output or "a cursor\n" not in output:
        raise Failed(f"it says {text!r}, and the compositor {output[-600:]!r}")
