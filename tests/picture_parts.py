"""Tests of pages that show a part of a session: its last messages, or those of --from and --to."""

import contextlib
import re
import subprocess
import sys

from tests import checks, picture_sessions
from tests.checks import TOP
from tests.picture_pages import (NAMED_LINES, ROOM, TOOL, all_tables, ascii_of, browser, clean, examples, holds,
                                 inspector, make, opened, told)
from tests.picture_scripts import equal
from tools.waywire import picture, picture_columns

PART = "document.querySelector('.pill.part')?.textContent ?? ''"
NUMBERS = """Array.from({length: app.list.rows.length}, (_, place) =>
    Number(app.list.line(place).querySelector('.number').textContent))"""
# All that a page says in its head and in the tabs of the session and the interfaces.
SAID = """['session', 'interfaces'].map((it) => (app.panel.show(it), document.body.innerText)).join(' ')"""


@contextlib.contextmanager
def at_most(count):
    """Pages have at most so many messages."""
    kept = picture.MOST_MESSAGES
    picture.MOST_MESSAGES = picture_columns.MOST_MESSAGES = count
    try:
        yield
    finally:
        picture.MOST_MESSAGES = picture_columns.MOST_MESSAGES = kept


def made(name, *words, status=0):
    """The page that this process makes of words."""
    path = f"{ROOM.name}/{name}.html"
    equal(picture.main([*words, "-o", path, "--inspector", inspector()]), status, f"the status of {name}")
    page = browser()
    page.open(path)
    return page


def lines_of(name, *words):
    """The lines of the inspector for an example, as a page has them."""
    words = [inspector(), "--tables", all_tables(), "--read", f"{TOP}/examples/{name}.rec", *words]
    lines = subprocess.run(words, capture_output=True, text=True, check=False).stdout.splitlines()
    return [ascii_of(it.removeprefix("? ")) for it in lines if re.match(r"(\? )?(->|<-) ", it)]


def written(name, text):
    path = f"{ROOM.name}/{name}"
    with open(path, "wb") as file:
        file.write(text)
    return path


def last_messages():
    """A page of too long a session has its last messages, of a recording and of lines, from a file or a pipe."""
    recording = written("hang.rec", "".join(picture_sessions.hang_recording()).encode())
    lines = written("hang.lines", checks.run([inspector(), "--json", "--read", recording]).encode())
    with at_most(60):
        for name, words in (("recording", [recording]), ("lines", ["--json", lines])):
            page = made(f"last-{name}", *words)
            total = page.run("app.session.part.total")
            equal(page.run(PART), f"messages {total - 59} to {total} of {total}", name)
            equal(page.run(NUMBERS), list(range(total - 59, total + 1)), name)
            found, remarks = told(page)
            holds("No frame came for 3.00 s. wl_surface@8.frame was not answered." in found, f"{name}: {found}")
            holds(remarks[0].startswith(f"This page shows messages {total - 59} to {total} of {total}. Times count from "
                                        "the first of them, "), remarks)
            equal(page.run("app.session.milestones"), [], "milestones of a session whose begin is not shown")
            clean(page)
    words = [sys.executable, TOOL, "--json", "-", "-o", f"{ROOM.name}/piped.html"]
    with open(lines, "rb") as file:
        checks.run(words, input=file.read())
    made("whole", "--json", lines)
    equal(open(f"{ROOM.name}/piped.html", "rb").read(), open(f"{ROOM.name}/whole.html", "rb").read(), "a pipe")


def windows():
    """A page has the lines of its window, with their numbers, and claims nothing of the rest."""
    for name in ("gtk_dialog", "timed_dialog", "wl_paste", "clipboard"):
        total = opened(name).run("app.session.count")
        for first, last in ((total // 3, 2 * total // 3), (1, total // 2), (total // 2, total)):
            page = made(f"window-{name}", f"{TOP}/examples/{name}.rec", "--tables", all_tables(), "--from", str(first),
                        "--to", str(last))
            equal(page.run(PART), f"messages {first:,} to {last:,} of {total:,}", name)
            equal(page.run(NUMBERS), list(range(first, last + 1)), name)
            wanted = lines_of(name, "--from", str(first), "--to", str(last))
            equal([ascii_of(it) for it in page.run(NAMED_LINES)], wanted, name)
            said = page.run(SAID)
            if last < total:
                holds("left at the end of this part" in said, f"{name}: objects")
                for words in ("without an answer", "no answer yet", "never destroyed", "piled up"):
                    holds(words not in said, f"{name}: {words}")
            elif first > 1:
                holds("In the part that is shown, nothing was late" in said or "In the part that is shown, nothing piled"
                      in said, f"{name}: {said}")
                holds("On the way to a window" not in said, f"{name}: milestones")
            clean(page)


def places_in_a_window():
    """The places of messages in their streams, links and the address are those of the session."""
    page = made("places", f"{TOP}/examples/gtk_dialog.rec", "--tables", all_tables(), "--from", "100")
    whole = opened("gtk_dialog")
    places = "[...document.querySelectorAll('#told .row')].find((it) => it.textContent.startsWith('place')).textContent"
    wanted = whole.run(f"(app.select(149), {places})")
    page = made("places", f"{TOP}/examples/gtk_dialog.rec", "--tables", all_tables(), "--from", "100")
    equal(page.run(f"(app.select(50), {places})"), wanted, "a place")
    page.wait_for("location.hash === '#m=150'")
    page.run("location.hash = '#m=120'")
    page.wait_for("app.selected === 20")
    equal(page.run("document.querySelector('.line.selected .number').textContent"), "120", "the selected line")
    clean(page)


def windows_by_time():
    path = written("timed.rec", "".join(picture_sessions.hang_recording()).encode())
    page = made("timed", path, "--from", "0.93s", "--to=1s")
    equal(page.run("Array.from(app.session.number, (it) => app.session.nameOf(app.session.number.indexOf(it)))"),
          ["frame", "commit", "capture_output", "copy", "buffer"], "messages")
    equal(page.run("[...app.session.time].map(Math.round)"), [0, 0, 10000, 10000, 12000], "times")
    holds("0.94 s after" in told(page)[1][0] or "940.0 ms after" in told(page)[1][0], told(page)[1][0])
    equal(told(page)[0], ["Nothing was late in the part that is shown."], "what is found")
    for word in ("0", "x", "1.s", "-1"):
        said = checks.run([sys.executable, TOOL, path, "-o", f"{ROOM.name}/no.html", f"--from={word}"], 2, True)
        holds(f"{word!r}" in said or f"{word} is neither" in said, said)


def ends_outside_the_window():
    """What broke the session, or ended it, is told even if its message is not shown; it is no message of the page."""
    page = made("outside-broken", f"{TOP}/examples/bad_new_id.rec", "--from", "2")
    holds(page.run("document.querySelector('.pill.bad').textContent").startswith("broken: F6"), "the verdict")
    found = page.run("app.session.findings[0].words")
    holds(found.startswith("F6 bad new id") and found.endswith("It is message 1, which is not shown."), found)
    equal(page.run("[app.session.bad, document.querySelectorAll('.line.bad').length]"), [-1, 0], "the list")
    page.press("b")
    clean(page)
    lines = picture_sessions.jsonl(picture_sessions.small(error="gone"))
    path = written("error.lines", lines)
    page = made("outside-error", "--json", path, "--to", "5")
    equal(page.run("app.session.findings.map((it) => [it.level, it.message, it.words])"),
          [["bad", -1, "The compositor ended the session with error 3 for wl_surface@4. It says: “gone” It is message 9, "
                       "which is not shown."]], "an error")
    equal(page.run(NUMBERS), [1, 2, 3, 4, 5], "lines")
    clean(page)


def nothing_in_the_window():
    page = made("nothing", f"{TOP}/examples/surface.rec", "--from", "1000")
    equal(page.run(PART), "0 messages of 12", "the part")
    page.press(*"jkoibwsad0ftx123", "Enter", "Home", "End")
    clean(page)


def whole_sessions():
    """The page of a whole session says nothing of a part."""
    for name in examples():
        page = opened(name)
        equal(page.run(PART), "", name)
        holds("part" not in page.run("[...document.querySelectorAll('#told .remark')].map((it) => it.textContent).join()"),
              name)
    equal(make(f"{TOP}/examples/surface.rec", f"{ROOM.name}/all.html", "--to", "12"), "", "all of them")
    page = browser()
    page.open(f"{ROOM.name}/all.html")
    equal(page.run(PART), "", "all of them")


TESTS = (last_messages, windows, places_in_a_window, windows_by_time, ends_outside_the_window, nothing_in_the_window,
         whole_sessions)
