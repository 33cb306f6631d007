"use strict";
// The bars of the waits.

// The height of a wait is its length; the longest of the row has 26 pixels.
function drawBars(drawing, row, base) {
    const { pen, app: { view, colours } } = drawing, { left, right } = view, end = view.end();
    const lengthOf = (it) => (it.to < 0 ? -1 : view.isTime ? it.took : it.to - it.from);
    row.most ??= {};
    row.most[view.isTime] ??= row.waits.reduce((most, it) => Math.max(most, lengthOf(it)), 1e-9);
    const most = row.most[view.isTime];
    const narrow = new Float32Array(Math.ceil(view.width) + 2);
    const { places } = view, { waits } = row, scale = view.inner / (view.to - view.from);
    let covered = -Infinity;
    for (let place = 0; place < waits.length; place++) {
        const it = waits[place], from = places[it.from], to = it.to < 0 ? end : places[it.to];
        if (from > view.to) {
            break;
        }
        const before = covered, x = left + (from - view.from) * scale, wide = (to - from) * scale;
        covered = Math.max(covered, to);
        if (to < view.from) {
            continue;
        }
        const high = it.to < 0 ? 15 : 4 + 22 * lengthOf(it) / most;
        if (wide >= 2 || it.isSlow || it.to < 0) {
            const next = place + 1 < waits.length ? places[waits[place + 1].from] : to, slack = (to - from) / 6;
            drawBar(drawing, it, { x, wide, base, high }, before <= from + slack && next >= to - slack);
            continue;
        }
        // Those narrower than two pixels: one bar in a column, as high as the highest.
        const column = Math.max(0, Math.floor(x));
        narrow[column] = Math.max(narrow[column], high);
    }
    drawColumns(pen, colours, narrow, base);
}

function drawColumns(pen, colours, narrow, base) {
    const count = narrow.reduce((sum, it) => sum + (it > 0), 0);
    if (count > 300) {
        pen.fillStyle = colours.wait;
        // They are side by side, so they form an area without inner edges.
        for (let x = 0; x + 1 < narrow.length; x += 2) {
            const high = Math.max(narrow[x], narrow[x + 1]);
            if (high) {
                pen.fillRect(x, base - high, 2, high);
            }
        }
        return;
    }
    for (const [colour, height] of count ? [[colours.wait, 26], [colours.top, 1]] : []) {
        pen.fillStyle = colour;
        narrow.forEach((high, x) => high && pen.fillRect(x, base - high, 1.5, Math.min(high, height)));
    }
}

function drawBar(drawing, wait, { x, wide, base, high }, isAlone) {
    const { pen, app: { colours, view } } = drawing;
    const [left, right] = [Math.max(x, view.left), Math.min(x + wide, view.right)];
    if (wait.to < 0) {
        pen.fillStyle = hatched(pen, colours.faint);
        pen.fillRect(x, base - high, wide, high);
        if (isAlone && right - left > 110 && view.isTime && wait.key !== "held") {
            writeWhole(drawing, `no answer, ${duration(wait.took)}`, (left + right) / 2, base - 4, colours.text,
                `10.5px ${FONT}`, "center");
        }
        return;
    }
    const isAmber = wait.isSlow && !wait.isGone;
    pen.globalAlpha = isAmber ? 1 : 0.55;
    pen.fillStyle = wait.isGone ? hatched(pen, colours.faint) : isAmber ? colours.amber : colours.wait;
    pen.fillRect(x, base - high, Math.max(1.5, wide - 0.6), high);
    pen.globalAlpha = 1;
    pen.fillStyle = isAmber ? colours["amber-top"] : colours.top;
    pen.fillRect(x, base - high, Math.max(1.5, wide), isAmber ? 1.5 : 1);
    if (isAlone && right - left > 46 && view.isTime && high > 13) {
        const middle = (left + right) / 2;
        const text = duration(wait.took);
        if (isAmber || high > 20) {
            writeWhole(drawing, text, middle, base - 6, isAmber ? colours.dark : colours.text, `10.5px ${FONT}`, "center");
        }
    }
}
