"""Tests of what a page finds in a session: what is worth a look, who held the clipboard, and the waits."""

import re

from tests import picture_looks, picture_sessions
from tests.picture_pages import (LINES, ROOM, browser, clean, examples, holds, make, opened, page_of, page_of_lines,
                                 told)
from tests.picture_scripts import equal

# What a page says about each holder of a selection.
HOLDERS = "Array.from(document.querySelectorAll('.holder'), (it) => it.textContent)"
# Sessions in which nothing was wrong, so that a page must find nothing.
UNTROUBLED = ("copy_and_paste", "gtk_dialog", "kanshi", "presentation", "surface", "timed_dialog",
              "timed_presentation", "wl_paste", "wl_paste_at_kwin")


def untroubled_sessions():
    for name in UNTROUBLED:
        equal(opened(name).run("app.session.findings.filter((it) => it.level !== 'note').map((it) => it.words)"),
              [], f"{name}: worth a look")


def late_frame():
    page = opened("late_frame")
    found = page.run("app.session.findings.map((it) => it.words)")
    equal(len(found), 1, "findings")
    equal(found[0], "1 of 76 frame callbacks came late. The longest took 219.8 ms (wl_surface@3c). "
          "The median is 24.9 ms.", "the finding")
    equal(page.run("document.querySelector('.pill.look').textContent"), "1 to look at", "the head")
    page.press("b")
    late = page.run("app.selected")
    equal(page.run(f"app.session.nameOf({late})"), "commit", "the late message")
    page.press("Enter")
    equal(page.run("app.session.line(app.selected)").partition("(")[0].partition(".")[2], "done", "its answer")
    holds(page.run("behindOf(app.session, app.selected)") == "late, 219.8 ms", "the answer's line")
    # What is amber in the picture is over the three limits, and nothing else is. The buffer is held until the next one.
    wrong = page.run("""app.session.waits.filter((it) => it.to >= 0 && !it.isGone && it.isSlow !== (it.took > 20000
        && it.took > 2 * app.session.usual[it.key] && it.took > app.session.usual[it.key] + 8000
        && it.key !== 'held')).length""")
    equal(wrong, 0, "amber")
    clean(page)


def amber_is_what_was_late():
    """The picture, the filter and the lines show a wait as late if and only if the findings do."""
    def seen(page):
        late = page.run("app.session.findings.filter((it) => it.words.includes(' came late')).length")
        slow = page.run("(app.setFilter('is:late'), app.list.rows.length)")
        words = page.run("(app.setFilter(''), Array.from(app.list.rows, (it) => behindOf(app.session, it))"
                         ".filter((it) => it.startsWith('late')).length)")
        return late, page.run(picture_looks.AMBER) > 0, slow, words

    for name in UNTROUBLED:
        equal(seen(opened(name)), (0, False, 0, 0), name)
    page = opened("late_frame")
    equal(seen(page), (1, True, 2, 1), "a late frame")
    for theme in ("light", "dark"):
        page.run(f"document.documentElement.dataset.theme = '{theme}'")
        page.run("recolour(app)")
        equal(page.run(picture_looks.LIKE_AMBER), [], f"{theme}: colours like that of a warning")
    short = [(0.1 * it, 0.1 * it + 0.01) for it in range(2, 7)]
    page = browser()
    for name, spans, wanted in (
            ("held", [(0, 0.201), *short], (0, False, 0, 0)),
            ("released-late", [(0, 0.26), *short], (1, True, 2, 1)),
            ("too-few", [(0, 0.26), short[0]], (0, False, 0, 0))):
        page.open(page_of_lines(name, picture_sessions.held_buffers(spans)))
        equal(seen(page), wanted, name)
        marks = page.run("Array.from(document.querySelectorAll('#told li'),"
                         " (it) => getComputedStyle(it, '::before').color)")
        equal([it == "rgb(154, 91, 0)" for it in marks], [wanted[0] > 0], f"{name}: the mark is amber")
    clean(page)


def words_of_findings():
    """Each finding consists of whole sentences. That of an error has the last messages about its object, with their
    numbers; and the name of its code."""
    for name in examples():
        for words in opened(name).run("app.session.findings.filter((it) => it.level !== 'note').map((it) => it.words)"):
            holds(re.search("[.”]$", words) and ";" not in words, f"{name}: {words}")
    page = browser()
    lines = picture_sessions.small(error="gone")
    for name in ("", " bad_size"):
        lines[-2]["names"] = name.split()
        page.open(page_of_lines("ended", lines))
        equal(page.run("app.session.findings.map((it) => it.words)"),
              [f"The compositor ended the session with error 3{name} for wl_surface@4. It says: “gone”. Before it: "
               "create_surface (3), commit (6), commit (7), commit (8)."], "an error")
    page.open(page_of_lines("left", picture_sessions.left_objects()))
    equal(page.run("app.session.findings.map((it) => it.words)"),
          ["The client never destroyed 20 of 20 wl_region objects.", "The compositor made 4 wl_data_offer objects. "
           "The client never destroyed 3 of them."], "what was left")


def holders_of_selections():
    page = browser()
    for answers, wanted in (("offered", "15, not"), ("asked", "9, for"), ("", "7, not")):
        page.open(page_of_lines(f"answers-{answers}", picture_sessions.selections(answers)))
        found = next(it for it in page.run(HOLDERS) if it.startswith("From message 6 (6.0 ms)"))
        end, asked = re.search(r" to message (\d+), this client .* The compositor (did not )?ask", found).groups()
        equal(f"{end}, {'not' if asked else 'for'}", wanted, f"answers: {answers}")
    page.open(page_of_lines("selections", picture_sessions.selections("offered", "asked")))
    equal(page.run(HOLDERS), [
        "From message 20 (20.0 ms) to the end, another client held the clipboard. The type was text/html. "
        "This client asked for the content 2 times, first in message 21 (text/html). The client lost the "
        "keyboard focus in message 23. After that the compositor did not tell it of changes.",
        "From message 6 (6.0 ms) to message 16, this client (editor) held the clipboard. The types were "
        "text/plain, TEXT, STRING and 2 more. The compositor asked for the content in message 15 (TEXT). The "
        "protocol does not say for which client.",
        "From message 17 (17.0 ms) to the end, the primary selection was empty."], "a client that copies")
    page.run("document.querySelector('.holder a').click()")
    equal(page.run("app.session.nameOf(app.selected)"), "selection", "a link")
    clean(page)


def holders_in_recordings():
    said = opened("clipboard").run(HOLDERS)
    equal([re.sub(r"(\d to .*?), | held.*? (The compositor|This client)", r"\1, \2", it) for it in said], [
        "From message 23 to the end, another client, This client did not ask for the content.",
        "From message 13 to message 20, this client, The compositor asked for the content in message 19 (text/plain). "
        "This client asked for the content in message 18 (text/plain).",
        "From message 9 to message 13, another client, This client asked for the content in message 10 (text/plain)."],
          "a client that copies and pastes")
    said = opened("copy_and_paste").run(HOLDERS)
    holds(said[0].startswith("From message 920 to the end, this client held the clipboard."), said[0])
    page = opened("wl_paste")
    equal(page.run(f"{HOLDERS}.length"), 6, "the last holders of both")
    page.run("document.querySelector('#told h2 button').click()")
    equal(page.run(f"{HOLDERS}.length"), page.run("app.session.selections.holders.length"), "all holders")


def holders_by_a_data_control_and_none():
    page = browser()
    page.open(page_of_lines("controlled", picture_sessions.controlled()))
    equal(page.run(HOLDERS), [
        "From message 4 (4.0 ms) to the end, another client held the clipboard. This client did not ask for the content.",
        "From message 2 (2.0 ms) to the end, this client (manager) held the primary selection. The type was a/b. The "
        "compositor did not ask for the content."], "a data control")
    lines = picture_sessions.Lines("client")
    lines.add("request", picture_sessions.named("wl_data_device_manager", 5), "get_data_device", 1,
              [picture_sessions.new("wl_data_device", 6)], "new id wl_data_device@6")
    for path, wanted in ((page_of("surface"), False), (page_of_lines("not-told", lines.ended()), True)):
        page.open(path)
        equal(page.run(HOLDERS), [], "without a holder")
        equal("was not told who" in page.run("document.getElementById('told').textContent"), wanted, path)


def page_of_a_hang(name, last="# ended 3.940000\n"):
    path = f"{ROOM.name}/{name}.rec"
    with open(path, "w", encoding="ascii") as file:
        file.writelines(picture_sessions.hang_recording(last))
    make(path, f"{ROOM.name}/{name}.html")
    page = browser()
    page.open(f"{ROOM.name}/{name}.html")
    return page


def hang_is_seen():
    """The page lasts until the session's end, and says what was not answered until then, and for how long."""
    page = page_of_a_hang("hang")
    found, remarks = told(page)
    equal(found, ["No frame came for 3.00 s. wl_surface@8.frame was not answered.",
                  "xdg_wm_base@5.ping was not answered for 2.50 s.",
                  "zwlr_screencopy_frame_v1@12.copy was not answered for 2.99 s."], "worth a look")
    equal(remarks, [], "remarks")
    equal(page.run("[app.session.span, app.view.end(), app.view.to]"), [3_940_000] * 3, "the length")
    rows = page.run("app.layout.rows.filter((it) => it.kind === 'wait')"
                    ".map((it) => [it.label, it.waits.length, it.below])")
    equal(rows, [["frame → done", 53, "53×, 3.0 ms, most 3.0 ms, 1 open"], ["ping → pong", 1, "1×, 1 open"],
                 ["capture_output → answer", 2, "2×, 2.0 ms, most 2.0 ms"],
                 ["copy → answer", 1, "1×, 4.0 ms"], ["copy → answer", 1, "1×, 1 open"]], "waits")
    asked = page.run("app.session.findings[0].message")
    equal(page.run(f"app.session.nameOf({asked})"), "commit", "what has no answer")
    frame = page.run(f"app.session.waitsOf.get({asked})[0].asked")
    equal(page.run(f"behindOf(app.session, {frame})"), "no answer, 3.00 s", "its line")
    page.run(f"app.select({frame})")
    holds("has no answer, after 3.00 s" in page.run("document.getElementById('told').textContent").replace(
        f" from message {asked + 1} on", ""), "the message's tab")
    equal(page.run("app.session.waits.filter((it) => it.isSlow).length"), 0, "amber")
    clean(page)


def end_is_not_said():
    """A page of a recording that does not say when its session ended ends with its last message. It says that, and
    does not say that all was answered."""
    found, remarks = told(page_of_a_hang("no-end", ""))
    equal(found, ["Nothing was late, and nothing piled up. 3 questions had no answer yet at the end, "
                  "after 500.0 ms at most."], "worth a look")
    equal(remarks, ["This recording does not say when its session ended: the page ends with the last message."],
          "remarks")
    found, remarks = told(page_of_a_hang("cut", "# cut 3.940000\n"))
    holds(found[0].startswith("No frame came for 3.00 s."), found)
    equal(remarks, ["The recording reached its limit after 3.94 s and was cut. The session went on."], "remarks")


def answer_after_seconds():
    """A late answer is reported even if no usual time is known; without times it is not."""
    path, page = f"{ROOM.name}/late.rec", browser()
    for after, wanted in ((0.9, "Nothing was late, nothing piled up, and nothing was left without an answer."),
                          (5, "1 of 1 answers to wl_display.sync came late. The longest took 5.00 s (wl_display@1).")):
        with open(path, "w", encoding="ascii") as file:
            message, words = picture_sessions.message, picture_sessions.words
            file.write(picture_sessions.piece(1, ">", [message(1, 0, words(2))]))
            file.write(picture_sessions.piece(1 + after, "<", [message(2, 0, words(0)), message(1, 1, words(2))]))
        make(path, f"{ROOM.name}/late.html")
        page.open(f"{ROOM.name}/late.html")
        equal(told(page)[0], [wanted], f"after {after} s")
        equal(page.run("app.session.waits.filter((it) => it.isSlow).length"), int(after > 1), "amber")
        equal(page.run(picture_looks.AMBER) > 0, after > 1, "amber in the picture")


def questions_without_an_answer():
    """Several questions of a kind are in one finding; the same holds for a kind that is never answered."""
    page = browser()
    for name, answered, wanted in (
            ("all", (1, 2, 3), []),
            ("some", (2,), ["ping was not answered 2 times. The first has waited for 3.00 s."]),
            ("one", (1, 3), ["xdg_wm_base@5.ping was not answered for 2.50 s."]),
            ("none", (), ["ping was sent 3 times and never answered. The first has waited for 3.00 s."])):
        page.open(page_of_lines(f"pings-{name}", picture_sessions.pings((0, 0.5, 1), answered, 3)))
        equal(page.run("app.session.findings.map((it) => it.words)"), wanted, name)
    clean(page)


def part_of_a_session():
    """The page of a recording that begins in the middle of its session begins there."""
    path, page = f"{ROOM.name}/part.rec", browser()
    with open(path, "w", encoding="ascii") as file:
        file.write("# from 100.000000\n# object 3 6 wl_compositor\n")
        file.write(picture_sessions.piece(100.5, ">", [picture_sessions.message(3, 0, picture_sessions.words(4))]))
        file.write("# ended 101.000000\n")
    make(path, f"{ROOM.name}/part.html")
    page.open(f"{ROOM.name}/part.html")
    _, remarks = told(page)
    equal(remarks, ["This recording begins 100.00 s after its session did, and times count from there. It is not "
                    "judged."], "remarks")
    equal(page.run("[app.session.time[0], app.session.span]"), [500_000, 1_000_000], "times")
    equal(page.run(LINES), ["-> wl_compositor@3.create_surface(new id wl_surface@4)"], "lines")
    clean(page)


def waits_are_found():
    page = opened("timed_presentation")
    rows = page.run("app.layout.rows.filter((it) => it.kind === 'wait').map((it) => it.label + ' ' + it.waits.length)")
    equal(rows, ["sync → done 3", "commit → configure 1", "configure → ack 1", "frame → done 46", "frame → presented 46", "buffer held 46"],
          "waits")
    # Each frame is answered by the done of its own callback.
    wrong = page.run("""app.session.waits.filter((it) => it.key === 'frame' && it.to >= 0 && !it.isGone
        && app.session.named(it.asked, 0).number !== app.session.object[it.to]).length""")
    equal(wrong, 0, "frames answered by another callback")
    names = page.run("app.session.milestones.map((it) => it.name)")
    equal(names, ["first bind", "surface", "role", "configured", "first buffer", "first frame"], "milestones")


TESTS = (untroubled_sessions, late_frame, amber_is_what_was_late, words_of_findings, holders_of_selections,
         holders_in_recordings, holders_by_a_data_control_and_none, hang_is_seen, end_is_not_said,
         answer_after_seconds, questions_without_an_answer, part_of_a_session, waits_are_found)
