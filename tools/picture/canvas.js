"use strict";
// Canvases, their colours, and the two narrow ones: the overview of all messages, and the axis.

const FONT = 'system-ui, "Noto Sans", "DejaVu Sans", sans-serif';
const MONO = 'ui-monospace, "Noto Sans Mono", "DejaVu Sans Mono", monospace';
const COLOURS = ["ground", "text", "soft", "faint", "line", "request", "event", "bad", "amber", "wait", "top", "green",
    "blue", "row", "dark", "amber-top"];

// The colours that the style has now, by their names.
function readColours() {
    const style = getComputedStyle(document.documentElement), colours = {};
    const names = [...COLOURS, ...GROUPS.flatMap(({ key }) => [`${key}-fill`, `${key}-text`])];
    for (const name of names) {
        colours[name] = style.getPropertyValue(`--${name}`).trim();
    }
    return colours;
}

// Fits a canvas to its place, and returns what draws on it, in units of the page.
function fitted(canvas, width, height) {
    const scale = window.devicePixelRatio || 1;
    const [wide, high] = [Math.round(width * scale), Math.round(height * scale)];
    if (canvas.width !== wide || canvas.height !== high) {
        canvas.width = wide;
        canvas.height = high;
        canvas.style.width = `${width}px`;
        canvas.style.height = `${height}px`;
    }
    const pen = canvas.getContext("2d");
    pen.setTransform(scale, 0, 0, scale, 0, 0);
    pen.clearRect(0, 0, width, height);
    return pen;
}

function write(pen, text, x, y, colour, font = `11px ${FONT}`, align = "left") {
    pen.font = font;
    pen.fillStyle = colour;
    pen.textAlign = align;
    pen.textBaseline = "alphabetic";
    pen.fillText(text, x, y);
}

// A text, cut so that it is no wider than this.
function cutTo(pen, text, font, width) {
    pen.font = font;
    if (pen.measureText(text).width <= width) {
        return text;
    }
    let length = text.length;
    while (length > 1 && pen.measureText(`${text.slice(0, length)}…`).width > width) {
        length -= 1;
    }
    return `${text.slice(0, length)}…`;
}

const hatches = new Map();
// A pattern of slanted lines, which says that something is not wholly there.
function hatched(pen, colour) {
    if (!hatches.has(colour)) {
        const tile = document.createElement("canvas");
        tile.width = tile.height = 5;
        const own = tile.getContext("2d");
        own.strokeStyle = colour;
        own.lineWidth = 0.9;
        own.beginPath();
        for (const by of [-5, 0, 5]) {
            own.moveTo(by - 1, 6);
            own.lineTo(by + 6, -1);
        }
        own.stroke();
        hatches.set(colour, pen.createPattern(tile, "repeat"));
    }
    return hatches.get(colour);
}

// How many messages there are in each column of pixels, requests and events apart.
function columnsOf(session, view, isShown, whole) {
    const wide = Math.max(1, Math.ceil(view.inner) + 1);
    const counts = [new Uint32Array(wide), new Uint32Array(wide)];
    for (let i = 0; i < session.count; i++) {
        if (!isShown || isShown[i]) {
            counts[session.direction[i]][Math.floor(view.at(i) / whole * (wide - 1))] += 1;
        }
    }
    return counts;
}

// The visible part of the session, if it is not all of it.
function drawSeenPart(app, pen, height) {
    const { view, colours } = app;
    if (view.from <= 0 && view.to >= view.end()) {
        return;
    }
    const [a, b] = [view.from, view.to].map((it) => view.left + it / view.end() * view.inner);
    pen.fillStyle = colours.row;
    pen.fillRect(a, 0, Math.max(2, b - a), height);
    pen.strokeStyle = colours.blue;
    pen.strokeRect(a + 0.5, 0.5, Math.max(1, b - a - 1), height - 1);
}

// The messages of each column of pixels. They are counted again only if something else is shown.
function drawColumnsOfAll(app, pen) {
    const { session, view, colours } = app, key = [view.width, view.isTime, view.isFolded, app.filter].join(" ");
    if (app.overviewKey !== key) {
        app.overviewKey = key;
        app.overviewCounts = columnsOf(session, view, app.isShown, view.end());
    }
    app.overviewCounts.forEach((counts, direction) => {
        // Half of the height for one message, the full height for as many as in the fullest column.
        const most = counts.reduce((a, b) => Math.max(a, b), 1);
        pen.fillStyle = direction === REQUEST ? colours.request : colours.event;
        counts.forEach((count, x) => {
            if (count) {
                const high = most > 1 ? 6 + 13 * Math.sqrt((count - 1) / (most - 1)) : 19;
                pen.fillRect(view.left + x, direction === REQUEST ? 23 - high : 24, 1.4, high);
            }
        });
    });
}

// The part that is being chosen by a drag.
function drawChosen(app, pen, [a, b], height) {
    pen.globalAlpha = 0.2;
    pen.fillStyle = app.colours.blue;
    pen.fillRect(Math.min(a, b), 0, Math.abs(b - a), height);
    pen.globalAlpha = 1;
}

// The whole session: requests above, events below; the visible part is bright.
function drawOverview(app, canvas) {
    const { session, view, colours } = app, height = 47;
    const pen = fitted(canvas, view.width, height);
    if (!view.isNarrow) {
        write(pen, "→ requests", 14, 20, colours.request, `11px ${FONT}`);
        write(pen, "← events", 14, 35, colours.event, `11px ${FONT}`);
    }
    drawSeenPart(app, pen, height);
    drawColumnsOfAll(app, pen);
    for (const [message, colour] of [[app.selected, colours.text], [session.trouble, colours.bad]]) {
        if (message >= 0) {
            pen.fillStyle = colour;
            pen.fillRect(view.left + view.at(message) / view.end() * view.inner - 0.5, 0, 1.5, height);
        }
    }
    if (app.overviewDrag) {
        drawChosen(app, pen, app.overviewDrag, height);
    }
}

// A step of the axis that people count in: 1, 2 or 5 and zeros. Messages are counted whole.
function stepFor(view, most) {
    const raw = Math.max((view.to - view.from) / most, view.isTime ? 0 : 1), ten = 10 ** Math.floor(Math.log10(raw));
    return [1, 2, 5, 10].map((it) => it * ten).find((it) => it >= raw);
}

// The widest that a number of the axis may be, with what parts it from the next.
const MARK = 84;
const mostMarks = (view) => Math.max(2, Math.min(6, Math.floor(view.inner / MARK)));

function markOf(view, at, step) {
    const digits = step >= 1000 ? 0 : step >= 100 ? 1 : step >= 10 ? 2 : 3;
    if (!view.isTime) {
        return `${view.isNarrow ? "message " : ""}${counted(Math.round(at))}`;
    }
    return step >= 1e6 ? `${at / 1e6} s` : `${(at / 1000).toFixed(digits)} ms`;
}

function drawMarks(app, pen, height) {
    const { session, view, colours } = app, font = `10.5px ${FONT}`, step = stepFor(view, mostMarks(view));
    if (!view.isNarrow) {
        write(pen, view.isTime ? "time" : session.isTimed ? "message" : "message (no times recorded)", 14, 13,
            colours.soft, font);
    }
    const gaps = seenGaps(view);
    let free = 0;
    for (const [at, place] of view.marks(step)) {
        const x = Math.round(place) + 0.5, text = markOf(view, at, step), end = x + 3 + widthOf(pen, text, font);
        pen.fillStyle = colours.line;
        pen.fillRect(x, 0, 1, height);
        if (x >= free && end < (gaps.find((it) => it.end > x)?.x ?? view.width)) {
            write(pen, text, x + 3, 13, colours.soft, font);
            free = end + 3;
        }
    }
}

function drawAxis(app, canvas) {
    const { view, colours } = app, height = 34;
    const pen = fitted(canvas, view.width, height);
    drawMarks(app, pen, height);
    drawGapsOfAxis(app, pen, height);
    drawMilestones(app, pen);
    // Which part of the session the list shows.
    const [first, last] = app.listed();
    if (first >= 0) {
        const [a, b] = [first, last].map((it) => Math.min(view.right, Math.max(view.left, view.xOf(it))));
        pen.fillStyle = colours.faint;
        pen.fillRect(a, height - 2, Math.max(2, b - a), 2);
    }
    if (app.axisDrag) {
        const [a, b] = app.axisDrag;
        drawChosen(app, pen, app.axisDrag, height);
        const wide = Math.abs(view.timeAt(view.atX(b)) - view.timeAt(view.atX(a)));
        write(pen, view.isTime ? duration(wide) : several(Math.round(wide), "message"), Math.max(a, b) + 4, 29,
            colours.text);
    }
}

function drawMilestones(app, pen) {
    const { session, view, colours } = app;
    const seen = session.milestones.filter((it) => view.isSeen(it.message));
    let free = 0;
    const font = `10.5px ${FONT}`;
    seen.forEach(({ name, message }, place) => {
        const x = view.xOf(message);
        pen.fillStyle = colours.green;
        pen.fillRect(x, 15, 1.5, 16);
        const text = view.isTime ? `${name} ${duration(session.time[message])}` : name;
        pen.font = font;
        const wide = pen.measureText(text).width;
        const next = seen[place + 1] ? view.xOf(seen[place + 1].message) : view.width;
        if (x > free && x + 4 + wide < next) {
            write(pen, text, x + 4, 25, colours.green, font);
            free = x + 4 + wide;
        }
    });
    if (session.trouble >= 0 && view.isSeen(session.trouble)) {
        const text = behindOf(session, session.trouble);
        pen.font = font;
        const wide = pen.measureText(text).width + 10;
        const x = Math.min(view.xOf(session.trouble), view.width - wide);
        pen.fillStyle = colours.bad;
        pen.fillRect(x, 15, wide, 15);
        write(pen, text, x + 5, 26, colours.ground, font);
    }
}
