"""Tests of what a page says of messages and objects: its list, and the tab of a message."""

import json
import os
import re
import subprocess

from tests import picture_sessions, reference
from tests.checks import TOP
from tests.picture_pages import (LINES, NAMED_LINES, ROOM, all_tables, ascii_of, browser, clean, examples, holds,
                                 inspector, opened, page_of_lines, traced)
from tests.picture_scripts import equal


def lists_are_traces():
    """Each page has the lines of the trace. Nothing goes wrong in it, and it loads nothing."""
    for name in examples():
        page = opened(name)
        lines, verdict = traced(f"{TOP}/examples/{name}.rec")
        shown = [ascii_of(it) for it in page.run(LINES)]
        if verdict.startswith("broken"):
            equal(page.run("app.session.bad"), len(lines), f"{name}: the place of the broken message")
        equal(shown[: len(lines)], lines, name)
        equal(len(shown), len(lines) + verdict.startswith("broken"), f"{name}: lines")
        fault = re.search(r": (F\d+ [a-z ]+)", verdict)
        words = page.run("document.querySelector('.pill').textContent")
        equal(words, f"broken: {fault[1]}" if fault else words, f"{name}: verdict")
        holds(fault or "broken" not in words, f"{name}: {words}")
        clean(page)


def lists_are_lines():
    """Each page has the lines of the inspector, with the names of values and the contents of arrays."""
    for name in examples():
        page = opened(name)
        words = [inspector(), "--tables", all_tables(), "--read", f"{TOP}/examples/{name}.rec"]
        lines = subprocess.run(words, capture_output=True, text=True, check=False).stdout.splitlines()
        wanted = [it.removeprefix("? ") for it in lines if re.match(r"(\? )?(->|<-) ", it)]
        equal([ascii_of(it) for it in page.run(NAMED_LINES)], [ascii_of(it) for it in wanted], name)


def bytes_of_messages():
    """The bytes of a message on the page are those of the recording, at the place that the page names."""
    for name in examples():
        page = opened(name)
        with open(f"{TOP}/examples/{name}.rec", "rb") as file:
            pieces = reference.parse_recording(file.read())
        streams = [b"".join(data for sign, data, _ in pieces if sign == it) for it in "><"]
        shown = page.run("""Array.from({length: app.session.count}, (_, it) => [app.session.direction[it],
            app.session.offset[it], app.session.size[it], bytesOf(app.session, it)])""")
        for number, (direction, offset, size, digits) in enumerate(shown, 1):
            digits = digits.replace(" ", "")
            wanted = streams[direction][offset : offset + size].hex()
            whole = digits.removesuffix("..")
            holds(wanted.startswith(whole) if digits != whole else wanted == digits,
                  f"{name}: message {number}: {digits}, not {wanted}")


def letters_of_all_scripts():
    page = opened("timed_dialog")
    titles = [it for it in page.run(LINES) if ".set_title(" in it]
    holds(any("Überall 日本 <b>" in it for it in titles), f"titles: {titles}")


def lives_of_objects():
    page = opened("zombie")
    lines, _ = traced(f"{TOP}/examples/zombie.rec")
    made = {}
    for number, line in enumerate(lines):
        for name, at in re.findall(r"new id (\w+)@(\d+)", line):
            made.setdefault(int(at), []).append((name, number))
    for at, births in made.items():
        found = page.run(f"app.session.objects.filter((it) => it.id === {at} && it.made >= 0)"
                         ".map((it) => [it.interface, it.made])")
        equal(found, [list(it) for it in births], f"objects with the id {at}")
    names = page.run("[1, 2, 26, 27, 53].map(birthLetters)")
    equal(names, ["", "b", "z", "aa", "ba"], "letters of births")


def broken_session():
    page = opened("bad_new_id")
    equal(page.run("document.querySelector('.pill').className"), "pill bad", "the verdict")
    line = page.run("document.querySelector('.line.bad').textContent")
    holds("get_registry" in line and line.endswith("F6 bad new id"), line)
    holds(page.run("app.session.findings[0].words").startswith("F6 bad new id"), "the rule in words")
    colour = "getComputedStyle(document.querySelector('.line.bad .took')).color"
    equal(page.run(colour), "rgb(194, 24, 28)", "the colour of the rule")
    red = page.run("""(() => {
        const pen = app.places.picture.getContext('2d'), x = Math.round(app.view.xOf(app.session.bad));
        const [r, g, b] = pen.getImageData(x, 20, 1, 1).data;
        return r > 150 && g < 100 && b < 100;
    })()""")
    holds(red, "the line in the picture is not red")
    page.press("b")
    equal(page.run("app.selected"), 0, "the broken message")
    page = opened("missing_descriptor")
    links = page.run("[...document.querySelectorAll('#told a')].map((it) => it.textContent)")
    holds("message 3" in links, f"what led there: {links}")


def broken_message_without_parts():
    """The object and the bytes of a message are those that the inspector prints."""
    *lines, verdict = picture_sessions.small()
    broken = {"type": "broken", "client": 1, "number": 9, "fault": "F3", "words": "words", "direction": "request",
              "offset": lines[-1]["offset"] + 8, "size": 8, "bytes": "0400000063000800",
              "object": picture_sessions.named("wl_surface", 4), "message": None}
    page = browser()
    page.open(page_of_lines("without-parts", [*lines, broken, verdict]))
    equal(page.run("app.session.line(app.session.bad)"), "-> wl_surface@4", "its line")
    page.run("app.select(app.session.bad)")
    page.run("app.panel.show('message')")
    equal(page.run("document.querySelector('.bytes').textContent"), "04000000 63000800", "its bytes")
    clean(page)


def names_of_values():
    """The panel and the list have what the inspector prints for a number and for an array, and the filter finds it."""
    *lines, verdict = picture_sessions.small()
    capability = {"kind": "uint", "name": "capabilities", "value": 3, "enum": "wl_seat.capability",
                  "names": ["pointer", "keyboard"]}
    states = {"kind": "array", "name": "states", "size": 40, "value": "", "numbers": [1, *range(91, 100)],
              "enum": "xdg_toplevel.state", "names": [["maximized"], *([[]] * 9)]}
    session = picture_sessions.Lines("client")
    session.add("event", picture_sessions.named("wl_seat", 7), "capabilities", 0, [capability], "3")
    session.add("event", picture_sessions.named("xdg_toplevel", 8), "configure", 0, [states], "array[40]")
    page = browser()
    page.open(page_of_lines("names", [*lines, *session.lines[2:], verdict]))
    many = "1 maximized, 91, 92, 93, 94, 95, 96, 97, .."
    for place, row, printed, named in (
            (-2, "capabilities3 pointer|keyboard", "(3)", "(3 pointer|keyboard)"),
            (-1, f"states40 bytes: {many}", "(array[40])", f"(array[40] {{{many}}})")):
        page.run(f"app.select(app.session.count + {place})")
        page.run("app.panel.show('message')")
        rows = page.run("[...document.querySelectorAll('#told .row')].map((it) => it.textContent)")
        holds(row in rows, f"{row} is not in {rows}")
        holds(page.run(f"app.session.line(app.session.count + {place})").endswith(printed), printed)
        holds(page.run(f"{NAMED_LINES}.at({place})").endswith(named), named)
        for text in (printed, named):
            found = page.run(f"(app.setFilter({json.dumps(text)}), [...app.list.rows])")
            equal(found, [page.run("app.session.count") + place], f"what {text} finds")
        page.run("app.setFilter('')")
    clean(page)


def who_the_clients_are():
    """The page says which program its client is, and which programs the others are."""
    *lines, verdict = picture_sessions.small(name="foot")
    other = {"type": "client", "client": 2, "name": "wl-copy", "pid": 8}
    page = browser()
    page.open(page_of_lines("who", [*lines, other, verdict]))
    equal(page.run("document.querySelector('.who').textContent"), "process 7", "beside the program's name")
    said = page.run("[...document.querySelectorAll('.remark')].map((it) => it.textContent).join(' ')")
    holds("1 further client took part, and has a page of its own: #2 wl-copy, process 8." in said, said)
    clean(page)


def effects_of_a_commit():
    page = browser()
    page.open(page_of_lines("commits", picture_sessions.commits()))
    for message, wanted in ((15, "Takes into effect attach, damage_buffer (12 times), frame."),
                            (17, "No request for this surface since its last commit.")):
        page.run(f"app.select({message} - 1)")
        words = page.run("[...document.querySelectorAll('#told p')].map((it) => it.textContent)")
        holds(wanted in words, f"message {message}: {words}")
    clean(page)


def text_is_no_markup():
    """A title with a script in it, an error's text, and a name of the page."""
    script = "</script><script>window.caught = 1</script><img src=x onerror='window.caught = 2'>"
    page = browser()
    page.open(page_of_lines("markup", picture_sessions.small(title=script, name=script, error=script)))
    equal(page.run("window.caught === undefined"), True, "a script has run")
    equal(page.run("document.querySelectorAll('img').length"), 0, "pictures")
    holds(page.run("document.body.innerText").count("<script>") >= 1, "the title is not shown")
    page.run("app.select(app.session.count - 2)")
    page.run("app.select(app.session.count - 1)")
    equal(page.run("window.caught === undefined"), True, "a script has run")
    equal([it for it in page.wrong if "Content Security" not in it], [], "the console")


def smallest_sessions():
    """With no message, one message, or a session without its end, no key leads to an exception."""
    page, lines = browser(), picture_sessions.small()
    for name, part in (("none", [*lines[:2], lines[-1]]), ("one", lines[:3]), ("endless", lines[:-1])):
        page.open(page_of_lines(name, part))
        page.press(*"jkoibwsad0ftx123", "Enter", "Home", "End", "ArrowLeft", "ArrowRight", "Escape")
        equal(page.run("app.session.count"), sum(it["type"] == "message" for it in part), name)
        clean(page)


def hundred_thousand_messages():
    """The page has all of them, is made in little memory, and renders only the visible lines. bench/picture/run.py
    measures the time."""
    made, memory = picture_sessions.long_page(ROOM.name, inspector())
    page = browser()
    page.open(made)
    equal(page.run("app.session.count"), 100_031, "messages")
    equal(page.run("app.session.findings"), [], "what is found")
    lines = page.run("document.querySelectorAll('[role=option]').length")
    holds(0 < lines < 300, f"{lines} lines")
    clean(page)
    holds(memory <= 150, f"{memory} MB of memory")
    holds(os.path.getsize(made) < 2_000_000, f"{os.path.getsize(made)} bytes")


TESTS = (lists_are_traces, lists_are_lines, bytes_of_messages, letters_of_all_scripts, lives_of_objects, broken_session,
         broken_message_without_parts, names_of_values, who_the_clients_are, effects_of_a_commit, text_is_no_markup,
         smallest_sessions, hundred_thousand_messages)
