"use strict";
// The picture: waits and objects, row by row. Only rows that are seen are drawn, and no pixel twice.

class Drawing {
    constructor(app, canvas) {
        this.app = app;
        this.canvas = canvas;
    }

    draw(top, height) {
        const { app } = this, { view, layout, colours } = app;
        const pen = this.pen = fitted(this.canvas, view.width, height);
        this.height = height;
        this.right = view.right;
        this.left = view.left;
        pen.fillStyle = colours.ground;
        pen.fillRect(0, 0, view.width, height);
        this.seen = view.seen();
        this.drawGrid(height);
        const selected = layout.rowOf.get(app.selectedObject());
        for (const row of layout.rows) {
            const y = row.y - top;
            if (y > height || y + row.height < 0) {
                continue;
            }
            if (row === selected) {
                pen.fillStyle = colours.row;
                pen.fillRect(view.left, y + row.above, view.width - view.left, row.height - row.above);
            }
            this[row.kind](row, y);
        }
        drawSelection(app, pen, top, height);
    }

    drawGrid(height) {
        const { view, colours } = this.app;
        const step = stepFor(view, mostMarks(view));
        this.pen.fillStyle = colours.line;
        for (const [, x] of view.marks(step)) {
            this.pen.fillRect(Math.round(x) + 0.5, 0, 1, height);
        }
        drawGaps(this.app, this.pen, height);
    }

    heading(row, y) {
        drawHeading(this, row, y);
    }

    inside(y, height, draw) {
        clipped(this.pen, this.app.view, y, height, draw);
    }

    wait(row, y) {
        const { pen } = this, { colours } = this.app, base = y + row.height - 6;
        drawWaitLabel(this, row, y);
        pen.fillStyle = colours.line;
        pen.fillRect(this.left, base, this.right - this.left, 1);
        this.inside(y, row.height, () => drawBars(this, row, base));
    }

    life(row, y) {
        drawLabel(this, row, y);
        y += row.above;
        this.inside(y - 3, row.height - row.above + 4, () => this.objects(row, y));
        const { session, view, colours } = this.app, last = row.objects.at(-1);
        if (session.isOpen(last) && row.group !== "globals" && last.interface !== "wl_seat" && view.to >= view.end()) {
            // Never destroyed.
            this.pen.strokeStyle = colours[`${row.group}-text`];
            this.pen.lineWidth = 1.5;
            this.pen.beginPath();
            this.pen.arc(this.right + 4, y + 10, 2.6, 0, 7);
            this.pen.stroke();
        }
    }

    // The objects of a row. If several are narrower than a pixel, only one is drawn in each column.
    objects(row, y) {
        const { view } = this.app, narrow = 1.5 * (view.to - view.from) / view.inner;
        let covered = -Infinity;
        for (const it of row.objects) {
            const begin = it.made < 0 ? 0 : view.at(it.made);
            const end = it.end >= 0 ? view.at(it.end) : view.end();
            if (begin > view.to) {
                break;
            }
            if (end < view.from || (end - begin < narrow && begin < covered)) {
                continue;
            }
            covered = end - begin < narrow ? begin + narrow : covered;
            this.object(row, it, y, begin, end);
        }
    }

    object(row, it, y, begin, end) {
        const { pen } = this, { session, view, colours } = this.app;
        const x = Math.max(view.x(begin), this.left - 9), to = Math.min(view.x(end), this.right + 9);
        const solid = it.destroyed >= 0 ? Math.max(x, Math.min(to, view.xOf(it.destroyed))) : to;
        pen.fillStyle = colours[`${row.group}-fill`];
        if (solid - x < 6) {
            pen.fillRect(x, y + 5, Math.max(1, solid - x), 10);
        } else {
            pen.beginPath();
            pen.roundRect(x, y + 5, solid - x, 10, 3);
            pen.fill();
        }
        if (to > solid) {
            pen.fillStyle = hatched(pen, colours[`${row.group}-text`]);
            pen.globalAlpha = 0.45;
            pen.fillRect(solid, y + 5, to - solid, 10);
            pen.globalAlpha = 1;
        }
        if (it.holds.length) {
            this.holds(row, it, y);
        }
        const [first, last] = this.seen;
        this.ticks(it.messages, first, last, (i) => (session.direction[i] === REQUEST ? y : y + 15), 5);
        this.ticks(it.naming, first, last, () => y + 9, 2, colours[`${row.group}-text`]);
        const text = Math.max(x, this.left) + 4, room = Math.min(to, this.right) - text;
        if (room > 12 && widthOf(pen, it.at, LABEL.id) <= room) {
            writeWhole(this, it.at, text, y + 13.5, colours[`${row.group}-text`], LABEL.id);
        }
    }

    // Darker while the compositor holds the buffer. Holds that end and begin in one column of pixels are joined.
    holds(row, it, y) {
        const { pen } = this, { view, colours } = this.app;
        const put = () => to > -Infinity && pen.fillRect(from, y + 5, Math.max(1, to - from), 10);
        let from = -Infinity, to = -Infinity;
        pen.fillStyle = colours[`${row.group}-text`];
        pen.globalAlpha = 0.16;
        for (const hold of it.holds) {
            const begin = view.xOf(hold.from), end = hold.to < 0 ? this.right : view.xOf(hold.to);
            if (end < this.left || begin > this.right) {
                continue;
            }
            if (begin <= to + 0.5) {
                to = Math.max(to, end);
            } else {
                put();
                [from, to] = [begin, end];
            }
        }
        put();
        pen.globalAlpha = 1;
    }

    // A tick for each message; those in one column of pixels are one, and columns side by side one mark.
    ticks(messages, first, last, yOf, high, colour = null) {
        const { pen } = this, { session, view, colours, isShown } = this.app;
        const paint = { 0: colour ?? colours.request, 1: colour ?? colours.event };
        const open = [null, null];
        const put = (run, direction) => {
            pen.fillStyle = paint[direction];
            pen.fillRect(run.x, run.y, run.to - run.x, high);
        };
        for (let k = firstFrom(messages, first); k < messages.length && messages[k] < last; k++) {
            const i = messages[k];
            if (isShown && !isShown[i]) {
                continue;
            }
            const direction = session.direction[i], x = Math.round(view.xOf(i) * 2) / 2;
            const run = open[direction];
            if (run && x <= run.to + 0.3) {
                run.to = Math.max(run.to, x + 1.5);
                continue;
            }
            if (run) {
                put(run, direction);
            }
            open[direction] = { x, to: x + 1.5, y: yOf(i) };
        }
        open.forEach((run, direction) => run && put(run, direction));
    }

    // The objects of an unfolded interface that have no row of their own.
    more(row, y) {
        this.fold(row, y);
    }

    // How many objects live, if there are too many for a row each.
    fold(row, y) {
        drawLabel(this, row, y);
        const { pen } = this, { colours, view } = this.app, base = y + row.height - 6;
        this.inside(y, row.height, () => {
            pen.fillStyle = colours[`${row.group}-text`];
            pen.globalAlpha = 0.5;
            let x = this.left, most = 0, live = 0;
            const upTo = (to) => {
                if (to > x && live > 0) {
                    const high = 26 * live / row.most;
                    pen.fillRect(x, base - high, to - x, high);
                }
                x = Math.max(x, to);
            };
            for (const [message, number] of row.steps) {
                const at = view.xOf(message);
                if (at > this.right) {
                    break;
                }
                if (at - x >= 0.5) {
                    live = Math.max(live, most);
                    upTo(at);
                    most = 0;
                }
                live = number;
                most = Math.max(most, number);
            }
            upTo(this.right);
            pen.globalAlpha = 1;
        });
        pen.fillStyle = colours.line;
        pen.fillRect(this.left, base, this.right - this.left, 1);
    }
}
