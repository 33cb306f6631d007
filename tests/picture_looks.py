"""The looks of a page of waywire-picture, measured in the browser."""

import contextlib

from tests import picture_sessions

SIZES = ((390, 844), (844, 390), (1280, 800), (1920, 1080))
# The name of a page, and long names of the kind that compositors have.
LONG = "a session with a long name, of an application whose windows came late"
NAMES = ("org_kde_kwin_server_decoration_palette_manager", "zwp_input_method_keyboard_grab_v2",
         "ext_data_control_source_v1")

# How many pixels of the picture have the colour of a warning.
AMBER = """(() => {
    app.draw();
    const { width, height } = app.places.picture, pen = app.places.picture.getContext('2d');
    const { data } = pen.getImageData(0, 0, width, height);
    const colours = ['amber', 'amber-top'].map((it) => parseInt(app.colours[it].slice(1), 16));
    let count = 0;
    for (let at = 0; at < data.length; at += 4) {
        count += colours.includes(data[at] << 16 | data[at + 1] << 8 | data[at + 2]);
    }
    return count;
})()"""
# The colours of the picture that are near that of a warning, and say something else.
LIKE_AMBER = """Object.entries(app.colours).filter(([name, colour]) => {
    const parts = [1, 3, 5].map((it) => parseInt(colour.slice(it, it + 2), 16));
    const most = Math.max(...parts), least = Math.min(...parts), [red, green, blue] = parts;
    const hue = most > red ? 999 : 60 * (green - blue) / (most - least);
    return !name.startsWith('amber') && (most - least) / most > 0.3 && hue > 15 && hue < 65;
}).map(([name]) => name)"""
# What is wider than its place, or beyond the edge of the page.
PARTS = ["html", "body", "header", "#about", ".pill", ".counts", "h1", "#told", "#list", "#panel"]
TOO_WIDE = f"""{PARTS}""" + """.filter((name) => {
        const it = document.querySelector(name), { left, right } = it.getBoundingClientRect();
        return it.scrollWidth > it.clientWidth + 1 || left < 0 || right > innerWidth + 0.5;
    })"""
# The words that are broken in two: their letters are on two lines. A sign may part them.
BROKEN_WORDS = """(() => {
    const texts = document.createTreeWalker(document.body, NodeFilter.SHOW_TEXT), found = [];
    while (texts.nextNode()) {
        const node = texts.currentNode, range = document.createRange();
        for (const { 0: word, index } of node.data.matchAll(/[^\\s-]+/g)) {
            range.setStart(node, index);
            range.setEnd(node, index + word.length);
            if (new Set(Array.from(range.getClientRects(), (it) => Math.round(it.top))).size > 1) {
                found.push(word);
            }
        }
    }
    return found;
})()"""
# What the picture writes cut with dots, or beyond its edges.
CUT_IN_PICTURE = """(() => {
    const whole = window.write, found = [], parts = { left: 0, center: 0.5, right: 1 };
    window.write = (pen, text, x, y, colour, font, align = 'left') => {
        whole(pen, text, x, y, colour, font, align);
        const wide = pen.measureText(text).width, from = x - parts[align] * wide;
        const isIn = from >= 0 && from + wide <= app.view.width && y >= 8 && y <= pen.canvas.clientHeight - 2;
        if (text.endsWith('…') || !isIn) {
            found.push(text);
        }
    };
    app.draw();
    window.write = whole;
    return found;
})()"""
# How much room the example in the filter leaves.
ROOM_OF_FILTER = """(() => {
    const field = app.filterField, style = getComputedStyle(field);
    const pen = document.createElement('canvas').getContext('2d');
    pen.font = style.font;
    return field.clientWidth - 2 * parseFloat(style.paddingLeft) - pen.measureText(field.placeholder).width;
})()"""
# The least contrast of the numbers and the times in the list with what is behind them.
CONTRAST = """(() => {
    const parts = (colour) => colour.match(/[\\d.]+/g).slice(0, 3).map((it) => it / 255)
        .map((it) => (it <= 0.04045 ? it / 12.92 : ((it + 0.055) / 1.055) ** 2.4));
    const light = (colour) => parts(colour).reduce((sum, it, at) => sum + it * [0.2126, 0.7152, 0.0722][at], 0.05);
    const behind = (it) => {
        const { backgroundColor } = getComputedStyle(it);
        return backgroundColor.endsWith(', 0)') ? behind(it.parentElement) : backgroundColor;
    };
    return Math.min(...Array.from(document.querySelectorAll('.number, .time'), (it) => {
        const [least, most] = [getComputedStyle(it).color, behind(it)].map(light).sort((a, b) => a - b);
        return most / least;
    }));
})()"""
VERDICT = """(({ left, top, right, bottom }) => [left, top, right, bottom])
    (document.querySelector('.pill').getBoundingClientRect())"""


@contextlib.contextmanager
def sized(page, width, height):
    """Pages are opened in another size, and then in that of all tests again."""
    page.size(width, height)
    try:
        yield
    finally:
        page.size(1400, 900)


def long_names():
    """Lines of many messages for objects with long names, of a recording far down in folders."""
    lines = picture_sessions.Lines("client")
    lines.lines[0]["recording"] = f"/home/someone/{'a_folder/' * 9}{LONG}.rec"
    for number, name in enumerate(NAMES, 5):
        for _ in range(1200):
            lines.add("request", picture_sessions.named(name, number), "create_data_source", 0, [], "")
    return lines.ended()


def wrong_in(page, size):
    """What is too wide, broken, cut or not seen in the page that is open."""
    found, (width, _) = [], size
    wide = page.run("Math.max(document.documentElement.scrollWidth, innerWidth)")
    if wide != width:
        found.append(f"the page is {wide} wide")
    left, top, right, bottom = page.run(VERDICT)
    if not (0 <= left < right <= width and 0 <= top < bottom <= 120):
        found.append(f"the verdict is at {left, top, right, bottom}")
    for tab in ("session", "message", "interfaces"):
        page.run(f"(app.select(app.session.count - 1), app.panel.show('{tab}'))")
        found += [f"{tab}: {it} is too wide" for it in page.run(TOO_WIDE)]
        found += [f"{tab}: {it} is broken" for it in page.run(BROKEN_WORDS)]
    found += [f"{it} is cut in the picture" for it in page.run(CUT_IN_PICTURE)]
    if page.run(ROOM_OF_FILTER) < 0:
        found.append("the example in the filter is cut")
    if page.run("app.list.place.clientHeight % LINE"):
        found.append("a line of the list is cut")
    return found
