"use strict";
// Long gaps, in which no message passed, and how the picture folds them.

// A gap is at least this long. Folded, one takes this part of the rest of the session, and all of them this part.
const LEAST_GAP = SECOND, ONE_GAP = 0.06, ALL_GAPS = 0.25;

// The times in which nothing passed, from the session's begin to its end, if they are long.
function longGaps(session) {
    const { time, count, span, isToEnd } = session, found = [];
    let from = 0;
    const upTo = (to) => {
        if (to - from >= LEAST_GAP) {
            found.push({ from, to });
        }
        from = to;
    };
    time.forEach(upTo);
    if (count && isToEnd) {
        upTo(span);
    }
    return found;
}

// Those that are at least twice as long as they are when folded, and that width.
function foldedGaps(session) {
    const lengths = (gaps) => gaps.reduce((sum, { from, to }) => sum + to - from, 0);
    for (let gaps = longGaps(session); ;) {
        const rest = session.span - lengths(gaps);
        const width = Math.max(1, rest * Math.min(ONE_GAP, ALL_GAPS / gaps.length));
        const longer = gaps.filter(({ from, to }) => to - from >= 2 * width);
        if (longer.length === gaps.length) {
            return { gaps, width };
        }
        gaps = longer;
    }
}

// The scale of times with folded gaps. Beside a gap's times stand its place, and by how much a place behind it is less
// than its time.
class FoldedTime {
    constructor(session) {
        Object.assign(this, foldedGaps(session));
        let less = 0;
        for (const gap of this.gaps) {
            gap.at = gap.from - less;
            less += gap.to - gap.from - this.width;
            gap.less = less;
        }
        this.end = session.span - less;
        this.places = this.gaps.length ? session.time.map((it) => this.place(it)) : session.time;
    }

    lessBefore(number) {
        return this.gaps[number - 1]?.less ?? 0;
    }

    place(time) {
        const { gaps, width } = this, number = firstWhere(gaps.length, (it) => gaps[it].to > time), gap = gaps[number];
        return gap && time > gap.from ? gap.at + (time - gap.from) / (gap.to - gap.from) * width
            : time - this.lessBefore(number);
    }

    time(place) {
        const { gaps, width } = this, number = firstWhere(gaps.length, (it) => gaps[it].at + width > place);
        const gap = gaps[number];
        return gap && place > gap.at ? gap.from + (place - gap.at) / width * (gap.to - gap.from)
            : place + this.lessBefore(number);
    }

    // The places between gaps from one place to another, and by how much they are less than their times.
    *stretches(from, to) {
        const { gaps, width } = this;
        for (let number = 0; number <= gaps.length; number++) {
            const begin = number ? gaps[number - 1].at + width : 0, end = gaps[number]?.at ?? this.end;
            if (begin <= to && end >= from) {
                yield { from: Math.max(from, begin), to: Math.min(to, end), less: this.lessBefore(number) };
            }
        }
    }
}

// The folded gaps that are seen: where they are in the picture, and how long they are.
function seenGaps(view) {
    const { gaps, width } = view.folded ?? { gaps: [] };
    return gaps.filter(({ at }) => at < view.to && at + width > view.from).map(({ from, to, at }) => ({
        x: Math.max(view.left, view.x(at)), end: Math.min(view.right, view.x(at + width)), took: to - from,
    }));
}

function drawGaps(app, pen, height) {
    pen.fillStyle = hatched(pen, app.colours.faint);
    pen.globalAlpha = 0.5;
    seenGaps(app.view).forEach(({ x, end }) => pen.fillRect(x, 0, end - x, height));
    pen.globalAlpha = 1;
}

// On the axis, each with its length.
function drawGapsOfAxis(app, pen, height) {
    const { view, colours } = app, font = `10.5px ${FONT}`;
    drawGaps(app, pen, height);
    for (const { x, end, took } of seenGaps(view)) {
        const text = duration(took);
        if (widthOf(pen, text, font) + 4 <= end - x) {
            pen.fillStyle = colours.ground;
            pen.fillRect(x, 2, end - x, 14);
            write(pen, text, (x + end) / 2, 13, colours.text, font, "center");
        }
    }
}

function showGaps(app) {
    const button = document.getElementById("gaps"), { view } = app;
    button.hidden = !view.isTime || !view.foldable.gaps.length;
    button.setAttribute("aria-pressed", String(view.isFolded));
}

function switchGaps(app) {
    if (app.view.isTime && app.view.foldable.gaps.length) {
        rescale(app, true, !app.view.isFolded);
    }
}
