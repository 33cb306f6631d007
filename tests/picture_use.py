"""Tests of how a page is used: its filter, keys and pointer, and its looks on screens of all sizes."""

import itertools
import json
import re

from tests import picture_looks, picture_sessions
from tests.checks import TOP
from tests.picture_pages import (ROOM, all_tables, browser, clean, holds, make, opened, page_of, page_of_lines,
                                 traced)
from tests.picture_scripts import equal


def words_of_filters():
    """Each filter finds the right lines."""
    page = opened("gtk_dialog")
    lines = [it.lower() for it in traced(f"{TOP}/examples/gtk_dialog.rec")[0]]

    def found(text):
        return page.run(f"(app.setFilter({json.dumps(text)}), [...app.list.rows])")

    def wanted(test):
        return [number for number, line in enumerate(lines) if test(line)]

    equal(found(""), wanted(lambda _: True), "no words")
    equal(found("wl_surface COMMIT"), wanted(lambda it: "wl_surface" in it and "commit" in it), "two words")
    equal(found("wl_surface -commit"), wanted(lambda it: "wl_surface" in it and "commit" not in it), "not")
    equal(found("-> -wl_"), wanted(lambda it: it.startswith("->") and "wl_" not in it), "requests")
    equal(found("<-"), wanted(lambda it: it.startswith("<-")), "events")
    equal(found("no such words"), [], "nothing")
    own = found("@18")
    equal(own, wanted(lambda it: re.search(r"\bwl_surface@18\b", it)), "an object")
    holds(found("@22b") and set(found("@22b")) < set(found("@22")), "the second object with an id")
    fds = found("is:fd")
    equal(fds, wanted(lambda it: re.search(r"\bfd \d+", it)), "descriptors")
    made = found("is:left")
    opened_at_end = page.run("app.session.objects.filter((it) => it.made >= 0 && app.session.isOpen(it)).length")
    equal(len(made), opened_at_end, "what was left")
    page.run("app.setFilter('')")
    for text in ("is:late", "is:open", "is:bad", "is:nothing", "@", "->", "-", "\\", "<script>", "[", "is:"):
        found(text)
    clean(page)
    page = opened("late_frame")
    equal(page.run("(app.setFilter('is:slow'), app.list.rows.length)"), 2, "slow")
    equal(opened("keymaps").run("(app.setFilter('is:zombie'), [...app.list.rows])"), [6], "for a zombie")


def filter_takes_what_is_shown():
    """An object is found by each name that the page has for it, and a line by its visible text."""
    page = opened("copy_and_paste")
    wrong = page.run("""(() => {
        const found = (text) => (app.setFilter(text), app.list.rows.join());
        return app.session.objects.flatMap((it) => {
            // Without letters, a name is that of all objects with the id.
            const own = [...new Set(app.session.objects.filter((other) => other === it
                || (it.birth === 1 && other.printed === it.printed)).flatMap((other) =>
                [...other.messages, ...other.naming, ...(other.made < 0 ? [] : [other.made])]))].sort((a, b) => a - b);
            const printed = it.printed + birthLetters(it.birth);
            const forms = [it.name, printed, shortName(it), printed.replace('@', '#'), printed.toUpperCase(),
                ...(it.birth > 1 ? [it.at, printed.replace(/.*@/, '@'), printed.replace(/.*@/, '#')] : [])];
            return forms.filter((form) => found(form) !== own.join());
        });
    })()""")
    equal(wrong, [], "names that find other messages")
    for text in ("@4278190080", "#4278190080", "@s0"):
        equal(page.run(f"(app.setFilter('{text}'), [...app.list.rows])"), page.run("""app.setFilter(''),
            Array.from(app.list.rows).filter((it) => app.session.line(it).includes('@4278190080'))"""), text)
    wrong = page.run("""(() => {
        app.setFilter('');
        const places = Array.from({ length: app.list.rows.length / 9 }, (_, it) => 9 * it);
        return places.map((it) => app.list.line(it)).map((line) => {
            line.querySelectorAll('[data-birth]').forEach((it) => it.append(it.dataset.birth));
            app.setFilter(line.querySelector('.words').textContent);
            return [Number(line.dataset.message), app.filter];
        }).filter(([message, text]) => (app.setFilter(text), !app.list.rows.includes(message)));
    })()""")
    equal(wrong, [], "lines that their own words do not find")
    equal(page.run("(app.setFilter('@s99'), app.list.rows.length)"), 0, "no such object")
    clean(page)


def selection_in_the_hash():
    page = opened("surface", "#m=9&f=wl_surface")
    equal(page.run("[app.selected, app.filter]"), [8, "wl_surface"], "from the hash")
    equal(page.run("document.getElementById('filter').value"), "wl_surface", "the field")
    page.run("app.setFilter('@5 <-')")
    page.run("app.select(7)")
    page.wait_for("decodeURIComponent(location.hash) === '#m=8&f=@5 <-'")
    page.run("location.hash = '#m=3'")
    page.wait_for("app.selected === 2 && app.filter === ''")
    # A browser that refuses a change of the address stops nothing.
    page.run("history.replaceState = () => { window.refused = true; throw new Error('too many'); }")
    page.run("app.select(4)")
    page.wait_for("window.refused")
    equal(page.run("document.querySelector('.line.selected .number').textContent"), "5", "after a refusal")
    clean(page)
    for odd in ("#m=9999", "#m=-4", "#m=x&f=%", "#f=%3Cb%3E", "#"):
        page.open(page_of("surface"), odd)
        clean(page)


def keys_lead_to_messages():
    page = opened("timed_presentation")
    page.press("j", "j", "ArrowDown", "k")
    equal(page.run("app.selected"), 1, "j and k")
    page.press("Enter")
    equal(page.run("app.session.nameOf(app.selected)"), "done", "Enter leads to the answer")
    page.press("Enter")
    equal(page.run("app.selected"), 1, "and back")
    page.press("o")
    equal(page.run("app.filter"), "@1", "o")
    page.press("Escape")
    equal(page.run("app.filter"), "", "Esc")
    page.press("i")
    equal(page.run("app.filter"), "wl_display", "i")
    page.press("Escape", "ArrowRight")
    equal(page.run("app.session.objects[app.session.object[app.selected]].printed"),
          "wl_display@1", "the next message of the object")
    clean(page)


def keys_change_the_picture():
    page = opened("timed_presentation")
    page.press("w", "w")
    zoomed = page.run("[app.view.from, app.view.to]")
    holds(zoomed[1] - zoomed[0] < page.run("app.view.end()") / 2, f"w: {zoomed}")
    page.press("d")
    holds(page.run("app.view.from") > zoomed[0], "d")
    page.press("a", "s", "0")
    equal(page.run("[app.view.from, app.view.to === app.view.end()]"), [0, True], "0")
    page.press("t")
    equal(page.run("[app.view.isTime, document.getElementById('scale').textContent]"), [False, "order"], "t")
    page.press("t")
    page.run("app.select(app.session.objects.find((it) => it.interface === 'wl_buffer').messages[0])")
    rows = page.run("app.layout.rows.length")
    page.press("f", "x")
    holds(page.run("app.layout.rows.length") > rows, "x unfolds")
    page.press("x")
    equal(page.run("app.layout.rows.length"), rows, "x folds")
    clean(page)


def keys_open_parts_of_the_page():
    page = opened("timed_presentation")
    page.press("3")
    holds(page.run("document.querySelector('#told table').textContent").startswith("interface"), "3")
    page.press("2", "1")
    equal(page.run("document.querySelector('#told h2').textContent"), "Worth a look", "1")
    page.press("?")
    holds(page.run("document.getElementById('keys').open"), "?")
    page.press("j")
    page.run("document.getElementById('keys').close()")
    page.press("/")
    equal(page.run("document.activeElement.id"), "filter", "/")
    page.ask("Input.insertText", text="attach")
    equal(page.run("app.filter"), "attach", "typed")
    page.press("Escape", "End")
    equal(page.run("app.selected === app.session.count - 1"), True, "End")
    page.press("Home", "b")
    clean(page)


def pointer():
    page = opened("timed_presentation")
    page.drag(500, 65, 700, 65)
    zoomed = page.run("[app.view.from, app.view.to, app.view.end()]")
    holds(0 < zoomed[0] < zoomed[1] < zoomed[2], f"the overview zooms: {zoomed}")
    page.drag(500, 110, 700, 110)
    holds(page.run("app.view.to - app.view.from") < zoomed[1] - zoomed[0], "the axis zooms")
    page.run("app.showAll()")
    row = page.run("app.layout.rows.find((it) => it.label === 'frame → done').y")
    top = page.run("app.places.scroller.getBoundingClientRect().top")
    page.click(800, top + row + 20)
    equal(page.run("app.session.waitsOf.get(app.selected).some((it) => it.key === 'frame')"), True, "a wait")
    row = page.run("app.layout.rows.find((it) => it.label === 'wl_surface').y")
    page.click(800, top + row + 10)
    equal(page.run("app.selectedObject().interface"), "wl_surface", "an object")
    page.run("app.zoom(1 / 8)")
    before = page.run("app.view.from")
    page.drag(800, top + row + 10, 700, top + row + 10)
    holds(page.run("app.view.from") > before, "dragging moves")
    equal(page.run("document.activeElement.id"), "list", "the keys after a drag")
    page.run("app.select(-1)")
    page.drag(800, top + row + 10, 800, top + row - 40)
    equal(page.run("app.selected"), -1, "a drag straight up selects")
    box = page.run("(({ left, top }) => [left, top])(document.querySelector('#list').getBoundingClientRect())")
    page.run("(app.list.place.scrollTop = 0, new Promise((it) => requestAnimationFrame(() => requestAnimationFrame(it))))")
    page.click(box[0] + 200, box[1] + 25)
    equal(page.run("app.selected"), 1, "a line")
    clean(page)


def focus_in_a_tab():
    """A link that is followed leaves the focus in its tab, whose text the arrows scroll. Another tab begins at its top."""
    page = opened("late_frame")
    page.run("document.querySelector('#told a').focus()")
    page.run("document.activeElement.click()")
    page.wait_for("app.selected >= 0")
    equal(page.run("document.activeElement.id"), "told", "the focus")
    selected = page.run("app.selected")
    page.press("ArrowDown", "PageDown", "Home")
    equal(page.run("app.selected"), selected, "keys that scroll")
    page.press("j")
    equal(page.run("app.selected"), selected + 1, "other keys")
    page.run("app.list.place.focus()")
    page.press("ArrowUp")
    equal(page.run("app.selected"), selected, "keys in the list")
    tops = page.run("""(() => {
        app.panel.show('interfaces');
        app.panel.body.style.height = app.panel.body.style.maxHeight = '60px';
        app.panel.body.scrollTop = 30;
        const before = app.panel.body.scrollTop;
        app.panel.show('session');
        return [before, app.panel.body.scrollTop];
    })()""")
    equal(tops, [30, 0], "the top of a tab")
    clean(page)


def numbers_of_the_list():
    """The numbers and times are read easily, and long ones fit."""
    lines = picture_sessions.small()
    for it in lines[2:-1]:
        it["time"] += 123456
    page = browser()
    page.open(page_of_lines("long-times", lines))
    page.press("j", "j")
    for theme in ("light", "dark"):
        page.run(f"(setTheme({str(theme == 'dark').lower()}), recolour(app))")
        contrast = page.run(picture_looks.CONTRAST)
        holds(contrast >= 4.5, f"{theme}: the contrast is {contrast}")
    equal(page.run("[...document.querySelectorAll('.number, .time')].filter((it) => it.scrollWidth > it.clientWidth)"
                   ".map((it) => it.textContent)"), [], "numbers that do not fit")
    clean(page)


def list_and_picture_in_step():
    page = opened("late_frame")
    page.run("app.show(1e6, 1.2e6)")
    times = page.run("app.listed().map((it) => app.session.time[it])")
    holds(times[1] >= 1e6 and times[0] <= 1.2e6, f"the list has not followed: {times}")
    page.run("app.select(10)")
    holds(page.run("app.view.isSeen(10)"), "the picture has not followed")


def light_or_dark():
    page = opened("surface")
    ground = "[getComputedStyle(document.body).backgroundColor, app.colours.ground]"
    light = page.run(ground)
    page.ask("Emulation.setEmulatedMedia", features=[{"name": "prefers-color-scheme", "value": "dark"}])
    page.wait_for(f"app.colours.ground !== '{light[1]}'")
    dark = page.run(ground)
    holds(dark[0] != light[0], "the system's choice")
    page.run("document.getElementById('theme').click()")
    equal(page.run(ground), light, "light by hand")
    page.run("document.getElementById('theme').click()")
    equal(page.run(ground), dark, "dark by hand")
    page.ask("Emulation.setEmulatedMedia", features=[])
    clean(page)


def for_readers_of_the_screen():
    page = opened("late_frame")
    page.press("j")
    options = page.run("""[...document.querySelectorAll('[role=option]')].map((it) => [it.getAttribute('aria-selected'),
        it.getAttribute('aria-setsize'), it.getAttribute('aria-posinset'), it.id])""")
    equal(options[0], ["true", str(page.run("app.session.count")), "1", "m1"], "the first line")
    equal(page.run("document.getElementById('list').getAttribute('aria-activedescendant')"), "m1", "the selected line")
    unnamed = page.run("""[...document.querySelectorAll('button, input, canvas, [role=listbox]')].filter((it) =>
        !it.textContent.trim() && !it.getAttribute('aria-label') && !it.getAttribute('aria-hidden')).length""")
    equal(unnamed, 0, "things without names")


def pages_to_look_at():
    """Pages whose texts are short and long."""
    for name in ("late_frame", "copy_and_paste", "wl_paste", "bad_new_id", "missing_descriptor", "gtk_dialog"):
        yield name, page_of(name)
    yield "long names", page_of_lines("long-names", picture_looks.long_names())
    yield "gaps", page_of_lines("gaps-to-look-at", picture_sessions.drawn([0.01, 4, 9]))
    part = f"{ROOM.name}/part-to-look-at.html"
    make(f"{TOP}/examples/copy_and_paste.rec", part, "--tables", all_tables(), "--from", "200", "--to", "900")
    yield "part", part


def sizes_of_screens():
    """Nothing is wider than the page, the verdict is seen, and no word is broken or cut."""
    page = browser()
    for (name, path), size in itertools.product(pages_to_look_at(), picture_looks.SIZES):
        with picture_looks.sized(page, *size):
            page.open(path)
            equal(picture_looks.wrong_in(page, size), [], f"{name} at {size}")
    clean(page)


def names_above_their_bars():
    """On a narrow page, a click on a name folds it, as a click beside the bars does."""
    page = browser()
    with picture_looks.sized(page, 390, 844):
        page.open(page_of("late_frame"))
        row = page.run("(({ y, above }) => [y, above])(app.layout.rows.find((it) => it.label === 'wl_callback'))")
        page.run(f"app.places.scroller.scrollTop = {row[0]} - 40")
        top = page.run("app.places.scroller.getBoundingClientRect().top - app.places.scroller.scrollTop")
        rows = page.run("app.layout.rows.length")
        page.click(60, top + row[0] + 8)
        equal(page.run("app.selected"), -1, "a click on a name selects")
        page.click(200, top + row[0] + row[1] + 10)
        equal(page.run("app.selectedObject().interface"), "wl_callback", "a click on a bar")
        equal(page.run("app.layout.rows.length"), rows, "rows")
    page.wait_for("app.view.left === 270 && app.layout.rows[1].above === 0")
    clean(page)


TESTS = (words_of_filters, filter_takes_what_is_shown, selection_in_the_hash, keys_lead_to_messages,
         keys_change_the_picture, keys_open_parts_of_the_page, pointer, focus_in_a_tab, numbers_of_the_list,
         list_and_picture_in_step, light_or_dark, for_readers_of_the_screen, sizes_of_screens, names_above_their_bars)
