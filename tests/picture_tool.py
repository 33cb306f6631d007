"""Tests of the tool `waywire-picture`: its files, its options, and how it fails."""

import glob
import os
import re
import shutil
import subprocess
import sys

from tests import checks, picture_sessions
from tests.checks import TOOLS, TOP
from tests.picture_pages import ROOM, TOOL, holds, make
from tests.picture_scripts import equal


def files_are_short():
    names = os.listdir(f"{TOOLS}/picture")
    for name in names:
        lines = checks.read(f"tools/picture/{name}").count("\n")
        holds(lines < 300, f"{name} has {lines} lines")
    page = checks.read("tools/picture/page.html")
    scripts = re.findall(r'<script src="(.*)"></script>', page)
    equal(sorted(scripts), sorted(it for it in names if it.endswith(".js")), "scripts")


def files_are_javascript():
    checks.need("node")
    for path in sorted(glob.glob(f"{TOOLS}/picture/*.js")):
        checks.run(["node", "--check", path])


def same_page_twice():
    one, other = f"{ROOM.name}/one.html", f"{ROOM.name}/other.html"
    for path in (one, other):
        make(f"{TOP}/examples/surface.rec", path)
    holds(open(one, "rb").read() == open(other, "rb").read(), "the pages differ")


def bad_line_is_named():
    path, page = f"{ROOM.name}/bad.rec", f"{ROOM.name}/bad.html"
    with open(path, "w", encoding="ascii") as file:
        file.write("# a comment\n> 0100000001000c0002000000\n\n> 01000\n")
    said = make(path, page, status=3)
    equal(said, "waywire-picture: line 4: bad line\n", "said")
    holds(not os.path.exists(page), "a page was left")


def no_recording():
    page = f"{ROOM.name}/none.html"
    equal(make(f"{ROOM.name}/none.rec", page, status=3),
          f"waywire-picture: cannot read {ROOM.name}/none.rec: No such file or directory\n", "said")
    said = checks.run([sys.executable, TOOL, "--json", "-", "-o", page], 3, True, input=b"no lines\n")
    equal(said, "waywire-picture: these are no lines of waywire-inspect --json\n", "said")
    holds(not os.path.exists(page), "a page was left")
    checks.run([sys.executable, TOOL, "-o", page], 2)


def times_that_are_none():
    """Input that is not from the inspector."""
    page = f"{ROOM.name}/timeless.html"
    for word in ("1e308", "Infinity", "NaN", "-1", "1000000000", '"1"', "[]"):
        lines = picture_sessions.jsonl(picture_sessions.small()).replace(b'"time": 0.003', f'"time": {word}'.encode())
        said = checks.run([sys.executable, TOOL, "--json", "-", "-o", page], 3, True, input=lines)
        equal(said, "waywire-picture: these are no lines of waywire-inspect --json\n", word)


def inspector_that_fails():
    """The message of the inspector is passed on."""
    for said, status, wanted in (("waywire-inspect: line 3: breaks V1", 125, "line 3: breaks V1"), ("", 9, None)):
        path = f"{ROOM.name}/failing"
        checks.write_program(path, f"#!/bin/sh\necho '{said}' >&2\nexit {status}\n")
        words = [TOOL, f"{TOP}/examples/surface.rec", "-o", f"{ROOM.name}/no.html", "--inspector", path]
        wanted = wanted or f"{path} ended with status {status}"
        equal(checks.run(words, 3, True), f"waywire-picture: {wanted}\n", "said")
    words[-1] = f"{ROOM.name}/no-inspector"
    equal(checks.run(words, 3, True), f"waywire-picture: cannot run {words[-1]}: No such file or directory\n", "said")
    holds(not os.path.exists(f"{ROOM.name}/no.html"), "a page was left")


def no_inspector():
    """If there is no inspector, it says what builds it, if it can be built there."""
    for top, said in ((f"{ROOM.name}/clone", "`make` builds it, "), (f"{ROOM.name}/installed", "")):
        shutil.copytree(TOOLS, f"{top}/tools")
        if said:
            os.makedirs(f"{top}/c/inspect")
        words = [sys.executable, f"{top}/tools/waywire-picture", f"{TOP}/examples/surface.rec",
                 "-o", f"{ROOM.name}/no.html"]
        found = checks.run(words, 3, True, env={"PATH": ROOM.name})
        wanted = f"waywire-picture: waywire-inspect is not found: {said}--inspector names it\n"
        equal(found, wanted, "said")


def page_that_cannot_be_written():
    """It leaves no incomplete file, and an old file stays."""
    folder = f"{ROOM.name}/none/page.html"
    lines = picture_sessions.jsonl(picture_sessions.small())
    said = checks.run([sys.executable, TOOL, "--json", "-", "-o", folder], 3, True, input=lines)
    equal(said, f"waywire-picture: cannot write {folder}: No such file or directory\n", "said")
    page = f"{ROOM.name}/kept.html"
    with open(page, "w", encoding="ascii") as file:
        file.write("kept")
    limited = f"ulimit -f 8; exec {sys.executable} {TOOL} --json - -o {page}"
    done = subprocess.run(["bash", "-c", limited], input=lines, capture_output=True, check=False)
    holds(done.returncode != 0, "a page was written beyond the limit")
    equal(open(page, encoding="ascii").read(), "kept", "the page that was there")
    equal([it for it in os.listdir(ROOM.name) if it.startswith(".waywire")], [], "left behind")


def page_that_is_read():
    """A page is not written over what it is made from, by whatever path; and what was there stays."""
    recording, text = f"{ROOM.name}/read.rec", "> 0100000001000c0002000000\n"
    kept = {recording: text, f"{recording}.tables": "", f"{ROOM.name}/own.tables": "", f"{ROOM.name}/own.names": "",
            f"{ROOM.name}/lines": picture_sessions.jsonl(picture_sessions.small()).decode()}
    for path, its in kept.items():
        with open(path, "w", encoding="utf-8") as file:
            file.write(its)
    os.link(recording, f"{ROOM.name}/link.rec")
    os.symlink(recording, f"{ROOM.name}/symbolic.rec")
    own, lines = ["--tables", f"{ROOM.name}/own.tables"], f"{ROOM.name}/lines"
    for page, *words in ((recording, recording), (f"{ROOM.name}/link.rec", recording),
                         (f"{ROOM.name}/symbolic.rec", recording), (recording, f"{ROOM.name}/./link.rec"),
                         (f"{recording}.tables", recording), (f"{ROOM.name}/own.tables", *own, recording),
                         (f"{ROOM.name}/own.names", *own, recording), (lines, "--json", lines)):
        said = checks.run([sys.executable, TOOL, *words, "-o", page], 2, True)
        equal(said, f"waywire-picture: {page} is read too, and is not written over\n", "said")
    with open(lines, "rb") as given:
        ran = subprocess.run([sys.executable, TOOL, "--json", "-", "-o", lines], stdin=given, capture_output=True,
                             check=False)
    equal(ran.returncode, 2, "standard input")
    for path, its in kept.items():
        equal(open(path, encoding="utf-8").read(), its, path)


def lines_of_another_client():
    lines = picture_sessions.small()
    page = f"{ROOM.name}/client.html"
    text = picture_sessions.jsonl(lines)
    said = checks.run([sys.executable, TOOL, "--json", "-", "-o", page, "--client", "2"], 3, True, input=text)
    equal(said, "waywire-picture: there is no client 2; there are [1]\n", "said")
    # The lines of two clients, cut before their verdicts.
    other = {"type": "client", "client": 2, "name": "wl-copy", "pid": 8}
    for client, status in (("1", 0), ("2", 0), ("3", 3)):
        text = picture_sessions.jsonl([*lines[:-1], other, {**lines[2], "client": 2}])
        words = [sys.executable, TOOL, "--json", "-", "-o", page, "--client", client]
        said = checks.run(words, status, True, input=text)
        equal(said, "waywire-picture: there is no client 3; there are [1, 2]\n" if status else "", f"client {client}")


TESTS = (files_are_short, files_are_javascript, same_page_twice, bad_line_is_named, no_recording, times_that_are_none,
         inspector_that_fails, no_inspector, page_that_cannot_be_written, page_that_is_read, lines_of_another_client)
