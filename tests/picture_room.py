"""Tests of where a page opens, of folded gaps, and of how the list and the picture share a window."""

import itertools

from tests import picture_looks, picture_sessions
from tests.picture_pages import browser, clean, examples, holds, opened, page_of, page_of_lines
from tests.picture_scripts import equal, value

# Frames at the begin, after 4 s and after 9 s; they come within 3 ms.
WITH_GAPS = picture_sessions.drawn([0.01, 0.03, 4, 4.02, 9])
# A click is for what the frame shows that was drawn last.
NEXT_FRAME = "new Promise((it) => requestAnimationFrame(() => requestAnimationFrame(it)))"
NARROW = ((800, 900), (400, 844), (320, 568))
# The selected line, if it is seen whole.
SELECTED_IN_VIEW = """(() => {
    const line = document.querySelector('.line.selected').getBoundingClientRect();
    const list = app.list.place.getBoundingClientRect();
    return line.top >= list.top - 0.5 && line.bottom <= list.bottom + 0.5;
})()"""
# Of all lines of the list, those whose text is not seen whole, or that say something else than the line of a wide list.
NOT_WHOLE = """(() => {
    const { list } = app, found = [], text = (it) => it.textContent.replaceAll('\\u00a0', ' ').trim();
    list.rows.forEach((message, place) => {
        const line = list.line(place);
        list.inner.replaceChildren(line);
        const words = line.querySelector('.words'), ends = words.getBoundingClientRect();
        const range = document.createRange(), seen = [...words.querySelectorAll('*'), words];
        const isOut = seen.flatMap((it) => [...it.childNodes]).filter((it) => it.data?.trim()).some((it) => {
            range.setStart(it, 0);
            range.setEnd(it, it.data.trimEnd().length);
            return [...range.getClientRects()].some((box) => box.right > ends.right + 0.5
                || box.bottom > line.getBoundingClientRect().bottom + 2);
        });
        const whole = wordsOf(app.session, message).textContent + spaced(behindOf(app.session, message));
        const isTimed = !app.session.isTimed || line.querySelector('.time').clientWidth > 0;
        if (isOut || text(words) !== text({ textContent: whole }) || !isTimed) {
            found.push(line.textContent);
        }
    });
    list.draw();
    return found;
})()"""


def broken_session_opens_at_its_error():
    """The message that broke a rule, or the error, is selected and seen; the tab says what is wrong."""
    page = browser()
    for name, size in itertools.product(("bad_new_id", "missing_descriptor", "error"), ((1400, 900), *NARROW)):
        with picture_looks.sized(page, *size):
            page.open(page_of(name))
            equal(page.run("[app.selected, app.panel.tab, location.hash]"),
                  [page.run("app.session.trouble"), "session", ""], f"{name} at {size}")
            holds(page.run(SELECTED_IN_VIEW), f"{name} at {size}: the line is not seen")
    lines = picture_sessions.small(error="an error with as many words as a compositor has for a client that is wrong")
    page.open(page_of_lines("error", lines))
    equal(page.run("[app.selected, document.querySelectorAll('.line.selected.bad').length]"), [8, 1], "an error")
    page.open(page_of_lines("error", lines), "#m=2")
    equal(page.run("app.selected"), 1, "the address")
    page.open(page_of_lines("error", lines), "#f=commit")
    equal(page.run("app.selected"), -1, "the address has a filter")
    equal(opened("surface").run("app.selected"), -1, "a lawful session")
    clean(page)


def gaps_as_times_and_places():
    """Each time has a place and each place a time; gaps are folded only if that makes them shorter."""
    found = value(WITH_GAPS, """(() => {
        const fold = new FoldedTime(session), times = Array.from({ length: 901 }, (_, it) => it * 1e4);
        const places = times.map((it) => fold.place(it));
        return [fold.gaps.map(({ from, to }) => [from, to]), fold.end < 1e5,
            places.every((it, at) => !at || it > places[at - 1]),
            times.every((it, at) => Math.abs(fold.time(places[at]) - it) < 1),
            Array.from(fold.stretches(0, fold.end), ({ from, less }) => Math.round(from + less)),
            Array.from(session.time).every((it, at) => Math.abs(fold.places[at] - fold.place(it)) < 1e-6)];
    })()""")
    equal(found, [[[33000, 4000000], [4023000, 9000000]], True, True, True, [0, 4000000, 9000000], True], "folded")
    busy = picture_sessions.drawn([0.5 * it for it in range(80)] + [41.5])
    equal(value(busy, "new FoldedTime(session).gaps.length"), 0, "a gap that is short beside the rest")


def long_gaps_are_folded():
    """A button and a key fold long gaps. What was seen stays in view, and times stay what they were."""
    page = browser()
    page.open(page_of_lines("gaps", WITH_GAPS))
    wide = "app.view.xOf(6) - app.view.xOf(2)"
    before = page.run(wide)
    equal(page.run("[document.getElementById('gaps').hidden, app.view.isFolded]"), [False, False], "at first")
    page.press("g")
    holds(page.run(wide) > 20 * before, "folded")
    said = page.run("""(() => {
        const whole = window.write, found = [];
        window.write = (pen, text, ...rest) => (found.push(text), whole(pen, text, ...rest));
        app.draw();
        window.write = whole;
        return found;
    })()""")
    holds({"3.97 s", "4.98 s"} < set(said), f"the lengths of gaps: {said}")
    page.run("app.show(app.view.at(12), app.view.at(16))")
    seen = page.run("app.view.seen()")
    page.run("document.getElementById('gaps').click()")
    after = page.run("app.view.seen()")
    holds(after[0] <= seen[0] and after[1] >= seen[1] and not page.run("app.view.isFolded"), f"{seen}, then {after}")
    page.press("g", "t")
    equal(page.run("[app.view.isTime, document.getElementById('gaps').hidden]"), [False, True], "by order")
    page.press("g", "t")
    equal(page.run("[app.view.isTime, app.view.isFolded]"), [True, True], "by time again")
    page.open(page_of("late_frame"))
    page.press("g")
    equal(page.run("[document.getElementById('gaps').hidden, app.view.isFolded]"), [True, False], "without gaps")
    clean(page)


def small_sessions_use_the_height():
    """The list has the height that the picture does not need; of a large session it has its part of the window."""
    page = browser()
    for size in (*NARROW, (1600, 1000)):
        with picture_looks.sized(page, *size):
            page.open(page_of("bad_new_id"))
            free = page.run("app.places.scroller.clientHeight - app.layout.height")
            holds(free < 20, f"{size}: {free} pixels of the picture are empty")
            equal(page.run("app.list.place.clientHeight % LINE"), 0, f"{size}: the last line")
            list_and_rest = page.run("[app.list.place.clientHeight, app.places.below.clientHeight]")
            page.open(page_of("copy_and_paste"))
            large = page.run("[app.list.place.clientHeight, app.places.below.clientHeight]")
            holds(large[0] <= list_and_rest[0] and large[1] <= list_and_rest[1], f"{size}: {large}, {list_and_rest}")
            equal(page.run("getComputedStyle(app.places.below).getPropertyValue('--spare')"), "0px", "to spare")
    with picture_looks.sized(page, 1600, 1000):
        page.open(page_of("surface"))
        before = page.run("app.places.below.clientHeight")
        page.run("app.resize()")
        equal(page.run("app.places.below.clientHeight"), before, "once more")
    clean(page)


def rows_of_a_line():
    """A line is broken before its arguments, behind a space or a sign, or in the middle of a long word."""
    lines = ('wl_registry@2.global(1, "wl_compositor", 4)', "wl_surface@3.commit()",
             "wl_shm_pool@15.create_buffer(new id wl_buffer@16, 0, 640, 480, 2560, 1 xrgb8888)",
             "zwp_linux_dmabuf_feedback_v1@12.tranche_formats(array[4] {1, 2})",
             f"xdg_toplevel@6.set_title({'a' * 50})")
    found = value(WITH_GAPS, f"""{list(lines)}.map((line) => [0, ...breaksOf(line, 40)].map((it, at, all) =>
        line.slice(it, all[at + 1])))""")
    equal(found, [
        ["wl_registry@2.global(", '1, "wl_compositor", 4)'], ["wl_surface@3.commit()"],
        ["wl_shm_pool@15.create_buffer(new id ", "wl_buffer@16, 0, 640, 480, 2560, 1 ", "xrgb8888)"],
        ["zwp_linux_dmabuf_feedback_v1@12.", "tranche_formats(array[4] {1, 2})"],
        ["xdg_toplevel@6.set_title(", "a" * 40, f"{'a' * 10})"]], "rows")


def narrow_lists_have_whole_lines():
    """In a narrow window each line is whole, in as many rows as it takes, and has its time."""
    page = browser()
    for size in NARROW:
        with picture_looks.sized(page, *size):
            for name in examples():
                page.open(page_of(name))
                equal(page.run(NOT_WHOLE), [], f"{name} at {size}")
    with picture_looks.sized(page, 400, 844):
        page.open(page_of_lines("title", picture_sessions.small("grüße, 文字 and a long title " * 3)))
        equal(page.run(NOT_WHOLE), [], "a long title")
        page.open(page_of_lines("endless", picture_sessions.small("a" * 3000)))
        equal(page.run("app.list.begins[5] - app.list.begins[4]"), 12, "the rows of an endless title")
    clean(page)


def narrow_list_follows():
    """Lines of several rows are found by the pointer, by keys, and when the window's width changes."""
    page = browser()
    with picture_looks.sized(page, 400, 844):
        page.open(page_of("copy_and_paste"))
        page.press("End")
        equal(page.run("app.selected === app.session.count - 1"), True, "End")
        holds(page.run(SELECTED_IN_VIEW), "the last line is not seen")
        page.run("app.select(400)")
        holds(page.run(SELECTED_IN_VIEW), "a line is not seen")
        page.press("PageDown")
        holds(page.run("app.selected > 400 && app.selected < 420") and page.run(SELECTED_IN_VIEW), "a page on")
        box = page.run("(({ left, top }) => [left, top])(app.list.place.getBoundingClientRect())")
        page.run(f"(app.list.scrollTo(0), {NEXT_FRAME})")
        page.click(box[0] + 200, box[1] + 20 * page.run("app.list.begins[2]") + 5)
        equal(page.run("app.selected"), 2, "a click")
        page.run("app.setFilter('no such message')")
        page.size(500, 844)
        page.run(NEXT_FRAME)
        page.run("app.setFilter('')")
        equal(page.run("[app.list.begins.length, app.list.stacked.columns === app.list.stacked.measured(app.list)]"),
              [page.run("app.session.count + 1"), True], "after an empty list")
        page.run("app.list.scrollTo(300)")
        page.size(1400, 900)
        page.wait_for("app.list.begins === null")
        equal(page.run("app.listed()[0]"), 300, "the first line in a wide window")
    clean(page)


TESTS = (broken_session_opens_at_its_error, gaps_as_times_and_places, long_gaps_are_folded,
         small_sessions_use_the_height, rows_of_a_line, narrow_lists_have_whole_lines, narrow_list_follows)
