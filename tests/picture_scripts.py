"""Tests of the scripts of a page: node runs them on hand-made lines. They need no browser."""

import json
import re

from tests import checks, picture_sessions
from tests.checks import Failed
from tools.waywire import picture_columns

# What the scripts ask of a browser as soon as they are loaded.
BROWSER = "const matchMedia = () => ({ matches: false }), document = { documentElement: { dataset: {} } };"
# For the tests: an app without a page, and events.
PARTS = """
const appOf = (session, parts = {}) => Object.assign(Object.create(App.prototype), {
    session, view: new View(session), selected: -1, filter: "", isShown: null, drawSoon() {}, ...parts,
});
const eventOf = (type, parts) => Object.assign(new Event(type), parts);
const linesOf = (session, text) => Array.from({ length: session.count }, (_, it) => it + 1)
    .filter((it) => filtered(session, text)[it - 1]);
"""


def equal(found, wanted, what):
    if found != wanted:
        raise Failed(f"{what}: {found!r}, not {wanted!r}")


def scripts():
    """The text of all scripts in their order, without the one that opens the page."""
    names = re.findall(r'<script src="(.*)"></script>', checks.read("tools/picture/page.html"))
    return "\n".join(checks.read(f"tools/picture/{it}") for it in names if it != "open.js")


def value(lines, code):
    """The value of an expression about the session of these lines, or what it throws."""
    checks.need("node")
    columns = picture_columns.Columns()
    columns.read(picture_sessions.jsonl(lines).splitlines())
    program = f"""{BROWSER}
        {scripts()}
        {PARTS}
        unpacked({json.dumps(columns.packed("title"))}).then(readSession).then((session) => {code})
            .catch((it) => String(it)).then((it) => console.log(JSON.stringify(it)));"""
    return json.loads(checks.run(["node", "-"], input=program.encode()))


# ---- messages and waits


def new_id_of_zero():
    """A new id that names no object is shown as 0."""
    found = value(picture_sessions.new_id_of_zero(), """[argumentWords(session, 0, 0), printedArgument(session, 0, 0),
        printedParts(session, 0), session.findings.map((it) => it.level)]""")
    equal(found, [{"text": "0"}, {"text": "new id 0"}, [{"text": "(new id wl_registry@0)"}], ["bad"]], "a new id of 0")


def nothing_is_asked_after_the_end():
    """A message that comes after a broken rule or an error has no answer to wait for."""
    for is_broken in (True, False):
        found = value(picture_sessions.asked_after_the_end(is_broken), """session.waits.map((it) =>
            [it.key, it.from + 1, it.to, it.took])""")
        equal(found, [["sync", 1, -1, 2000], ["frame", 2, -1, 1000]], f"broken: {is_broken}")


def buffer_of_two_surfaces():
    """The release of a buffer, or its end, is that for all surfaces that show it."""
    for last, is_gone in (("release", False), ("destroy", True)):
        found = value(picture_sessions.buffer_of_two_surfaces(last), """session.waits.map((it) =>
            [it.key, it.object.name, it.from + 1, it.to + 1, it.isGone])""")
        equal(found, [["held", "wl_surface@4", 2, 5, is_gone], ["held", "wl_surface@5", 4, 5, is_gone]], last)


def taken_by_a_commit():
    """A commit takes into effect what was asked since the one before, however much that is."""
    found = value(picture_sessions.commits(), """[15, 17].map((it) => takenByCommit(session, it - 1)
        .map((one) => session.nameOf(one)))""")
    equal(found, [["attach", *12 * ["damage_buffer"], "frame"], []], "taken")


# ---- pauses, silences and what is late

WORDS = "session.findings.map((it) => it.words)"


def pauses_that_were_asked_for():
    """A client that draws of its own accord does not pause. One that was asked for a frame, or was configured, does."""
    moments = picture_sessions.blinks()
    equal(value(picture_sessions.drawn(moments), WORDS), [], "a cursor that blinks")
    for name, how, longest in (("frames", {"asked": [(100, 0.3), (160, 0.2)]}, "300.0"),
                               ("configures", {"configured": [(100, 0.2), (160, 0.3)]}, "300.0")):
        found = value(picture_sessions.drawn(moments, **how), WORDS)
        equal(found[-1:], [f"The client paused 2 times in drawing wl_surface@4. A pause is more than 32.0 ms from what asks "
                           f"for a commit to the commit. The longest took {longest} ms."], name)


def pastes_and_silences():
    """How long the client sends nothing after it has asked for the content of the clipboard."""
    silences = """session.silences.map(({ after, to, took, asked }) => [after + 1, to + 1, Math.round(took / 1000),
        asked + 1])"""
    lines = picture_sessions.paste(3)
    equal(value(lines, WORDS), ["After wl_data_offer@s0.receive the client sent nothing for 3.00 s."], "a paste")
    equal(value(lines, silences), [[4, 5, 2999, 2], [1, 2, 1000, 0]], "silences")
    equal(value(picture_sessions.paste(None, ended=5), WORDS),
          ["After wl_data_offer@s0.receive the client sent nothing for 4.00 s, up to the end."], "up to the end")
    lines = picture_sessions.paste(0.5)
    equal(value(lines, "[session.findings.length, session.pastes.map((it) => Math.round(it.took / 1000))]"), [0, [500]],
          "a paste that is fast")
    equal(value(lines, "nothingFound(session)"), "Nothing was late, nothing piled up, and nothing was left without an "
          "answer. The longest silence took 1.00 s.", "what is said")


def late_before_the_first_frame():
    """A first configure that takes long, whether the inspector says that it is an answer or not."""
    equal(value(picture_sessions.slow_to_begin(11.7), WORDS),
          ["The first configure of xdg_surface@5 came 11.70 s after the commit that asked for it."], "by the page")
    equal(value(picture_sessions.slow_to_begin(11.7, True), WORDS),
          ["1 of 1 first configures came late. The longest took 11.70 s (wl_surface@4)."], "by the inspector")
    for is_known in (False, True):
        equal(value(picture_sessions.slow_to_begin(0.5, is_known), WORDS), [], "in time")


# ---- the filter, and objects


def first_with_an_id():
    """The first object with a reused id has a letter too, by which the filter finds it alone."""
    lines = picture_sessions.reused_id()
    words = ("@10", "@10a", "@10b", "@10c", "wl_surface@10a", "surface#10a", "@10d", "@5", "@5a")
    found = value(lines, f"{json.dumps(words)}.map((it) => linesOf(session, it))")
    equal(dict(zip(words, found)), {
        "@10": [1, 2, 3, 4, 5, 6, 7, 8], "@10a": [1, 2, 3], "@10b": [4, 5, 6], "@10c": [7, 8],
        "wl_surface@10a": [1, 2, 3], "surface#10a": [1, 2, 3], "@10d": [], "@5": [1, 4, 7], "@5a": [1, 4, 7]}, "found")
    equal(value(lines, "session.objects.map((it) => it.alone)"), ["@5", "@10a", "@10b", "@10c"], "the words of links")
    equal(value(lines, "session.objects.map((it) => it.at)"), ["@5", "@10", "@10b", "@10c"], "what is shown")


def open_questions():
    """Both lines of a question without an answer are found, but not those of a buffer that is held."""
    lines = picture_sessions.questions_left()
    equal(value(lines, "session.waits.map((it) => it.key)"), ["frame", "held"], "waits")
    equal(value(lines, "linesOf(session, 'is:open')"), [1, 3], "is:open")


def pasted_lines():
    """A line finds itself, also one with numbers below 0; a word behind a minus is excluded."""
    lines = picture_sessions.questions_left()
    line = value(lines, "session.line(1)")
    equal(line, "-> wl_surface@4.attach(wl_buffer@7, -1, -5)", "the line")
    for text, wanted in ((line, [2]), ("-attach", [1, 3]), ("-@7 ->", [1, 3]), ("-1", [2]),
                         ("-wl_callback -attach", [3])):
        equal(value(lines, f"linesOf(session, {json.dumps(text)})"), wanted, text)
    text = "wl_surface@10b.commit()"
    equal(value(picture_sessions.reused_id(), f"[linesOf(session, '{text}'), linesOf(session, '{text}')]"), [[5], [5]],
          "twice")


def interface_of_no_table():
    """A bind names an object whose interface no table has; later messages for its id belong to it."""
    found = value(picture_sessions.unknown_interface(), """session.objects.map((it) => [it.name, it.made + 1,
        it.messages.map((message) => message + 1), beginWords(session, it)])""")
    unknown = "what made it is not known"
    equal(found, [["wl_registry@2", 0, [1, 4], unknown], ["my_shell@5", 1, [2], unknown],
                  ["unknown@6", 0, [3, 6], unknown], ["my_panel@5b", 4, [5], unknown]], "objects")
    equal(value(picture_sessions.small(), "beginWords(session, session.objects.find((it) => it.id === 1))"),
          "there from the start", "wl_display")


# ---- the keyboard and the pointer

# A place that a pointer is dragged over, and the events that come.
DRAGS = """(() => {
    const place = new EventTarget(), said = [];
    place.setPointerCapture = () => {};
    const on = (name) => () => { said.push(name); };
    onDrag(place, { moved: on("moved"), dragged: on("dragged"), clicked: on("clicked"), over: on("over") });
    const act = (type, clientX, clientY, parts = {}) => place.dispatchEvent(eventOf(type, {
        button: 0, pointerId: 1, isPrimary: true, pointerType: "mouse", clientX, clientY, offsetX: clientX, ...parts }));
    %s
    return said;
})()"""


def clicks_and_drags():
    """What moves little is a click, in whatever direction; what the browser takes away is neither."""
    for what, events, wanted in (
            ("a click", 'act("pointerdown", 9, 9); act("pointermove", 10, 11); act("pointerup", 10, 11);',
             ["over", "clicked"]),
            ("straight down", 'act("pointerdown", 9, 9); act("pointermove", 9, 30); act("pointerup", 9, 30);',
             ["moved", "over", "dragged"]),
            ("a tap", """act("pointerdown", 9, 9, { pointerType: "touch" }); act("pointermove", 12, 14);
                act("pointerup", 12, 14);""", ["over", "clicked"]),
            ("a finger that scrolls", """act("pointerdown", 9, 9, { pointerType: "touch" }); act("pointermove", 9, 14);
                act("pointercancel", 9, 14); act("pointerup", 9, 14);""", ["over"]),
            ("a second finger", """act("pointerdown", 9, 9); act("pointerdown", 50, 9, { isPrimary: false, pointerId: 2 });
                act("pointermove", 90, 9, { pointerId: 2 }); act("pointerup", 90, 9, { pointerId: 2 });
                act("pointerup", 9, 9);""", ["over", "clicked"]),
            ("another button", 'act("pointerdown", 9, 9, { button: 2 }); act("pointerup", 9, 9);', [])):
        equal(value(picture_sessions.small(), DRAGS % events), wanted, what)


def wheel_and_pinch():
    """A pinch sends many events, each of which zooms by little; no event zooms by much."""
    found = value(picture_sessions.small(), """[[2, 0], [-2, 0], [120, 0], [-1e6, 0], [3, 1]].map(([deltaY, deltaMode]) =>
        Math.round(100 * zoomOf({ deltaY, deltaMode })))""")
    equal(found, [101, 99, 128, 78, 128], "percent")


def keys_of_what_has_the_focus():
    """Keys that scroll are those of the text or the picture that has the focus; links keep their own."""
    found = value(picture_sessions.small(), """["ArrowDown", "PageUp", "Home", "Enter", "ArrowLeft", "j"].map((key) =>
        ["list", "told", "a"].map((it) => isTaken({ closest: (words) => words.split(/, /).includes(
            it === "told" ? "#told" : it) ? {} : null }, key)))""")
    equal(found, [*3 * [[False, True, False]], *2 * [[False, False, True]], 3 * [False]], "taken")


# ---- the picture


def same_messages_in_both_scales():
    """The messages on both edges stay in view, however often the scale is switched."""
    found = value(picture_sessions.small(), """(() => {
        document.getElementById = () => ({ setAttribute() {} });
        const app = appOf(session), seen = [];
        app.view.show(app.view.at(1), app.view.at(6));
        for (let k = 0; k < 5; k++) {
            seen.push([app.view.isTime, ...app.view.seen()]);
            switchScale(app);
        }
        return seen;
    })()""")
    equal(found, [[is_time, 1, 7] for is_time in (True, False, True, False, True)], "the messages that are seen")


def last_message_has_a_place():
    """By order, the last message is not on the edge of the picture."""
    for lines in (picture_sessions.small(), picture_sessions.small()[:3]):
        found = value(lines, """(() => {
            const view = new View(session);
            view.scale(false);
            view.all();
            return view.right - view.xOf(session.count - 1);
        })()""")
        equal(found > 2, True, f"{found} pixels are left")


def rows_of_many_objects():
    """An unfolded interface has at most 400 rows for objects, which are used again, and says what else there is."""
    rows = """(() => {
        const { rows, rowOf } = new Layout(session, new Map([["wl_region", false]]), false);
        const own = rows.filter((it) => it.interface === "wl_region");
        const regions = session.objects.filter((it) => it.interface === "wl_region");
        return [own.filter((it) => it.kind === "life").length, own.filter((it) => it.kind === "more").map((it) =>
            [it.label, it.most, it.objects.length]), regions.filter((it) => !rowOf.has(it)).length];
    })()"""
    for count, later, wanted in ((20, 3, [20, [], 0]), (400, 9, [400, [], 0]),
                                 (1405, 9, [400, [["1,005 more", 1005, 1005]], 0])):
        equal(value(picture_sessions.many_regions(count, later), rows), wanted, f"{count} regions")


def click_near_a_hidden_message():
    """A click in the picture selects a message that the filter lets through."""
    found = value(picture_sessions.small(), """[[6, 7, 8], [6, 7], [6], []].map((numbers) => {
        const isShown = Uint8Array.from(session.signature, (_, it) => numbers.includes(it + 1));
        const app = appOf(session, { isShown });
        const row = { objects: [session.objects.find((it) => it.interface === "wl_surface")] };
        return app.messageAt(row, app.view.at(7)) + 1;
    })""")
    equal(found, [8, 7, 6, 0], "the message")


def hidden_message_is_said():
    """If the filter hides the selected message, its count says so."""
    found = value(picture_sessions.small(), """(() => {
        const place = { textContent: "" };
        document.getElementById = () => place;
        return [["", 0], ["commit", 5], ["commit", 0], ["commit", -1]].map(([text, selected]) => {
            const isShown = filtered(session, text);
            showFound(appOf(session, { isShown, selected, list: { rows: isShown?.filter((it) => it) } }));
            return place.textContent;
        });
    })()""")
    equal(found, ["", "3 of 8", "3 of 8, message 1 is hidden", "3 of 8"], "what is said")


TESTS = (new_id_of_zero, nothing_is_asked_after_the_end, buffer_of_two_surfaces, taken_by_a_commit,
         pauses_that_were_asked_for, pastes_and_silences, late_before_the_first_frame,
         first_with_an_id,
         open_questions, pasted_lines, interface_of_no_table, clicks_and_drags, wheel_and_pinch,
         keys_of_what_has_the_focus, same_messages_in_both_scales, last_message_has_a_place, rows_of_many_objects,
         click_near_a_hidden_message, hidden_message_is_said)
