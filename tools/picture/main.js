"use strict";
// The page: what is selected, filtered and seen, and what draws it.

class App {
    constructor(session) {
        this.session = session;
        this.selected = -1;
        this.filter = "";
        this.isShown = null;
        this.folds = new Map();
        const place = (id) => document.getElementById(id);
        this.places = { overview: place("overview"), axis: place("axis"), picture: place("picture"),
            scroller: place("scroller"), tall: place("tall"), below: place("below") };
        this.filterField = place("filter");
        this.view = new View(session);
        this.colours = readColours();
        this.drawing = new Drawing(this, this.places.picture);
        this.list = new List(this, place("list"));
        this.panel = new Panel(this, place("panel"));
        this.isDue = false;
        this.layOut();
    }

    layOut() {
        this.layout = new Layout(this.session, this.folds, this.view.isNarrow);
    }

    // What the picture's rows do not need of the page's height is for the list and the tabs, in whole rows of the list.
    fitHeight() {
        const { scroller, below } = this.places, lines = (part) => `${Math.floor(part / LINE) * LINE}px`;
        ["--spare", "--spare-of-list"].forEach((it) => below.style.removeProperty(it));
        const spare = Math.max(0, scroller.clientHeight - this.layout.height);
        below.style.setProperty("--spare", lines(spare));
        below.style.setProperty("--spare-of-list", lines(spare / 2));
    }

    start() {
        fillHead(this);
        addKeys(this);
        addPointer(this);
        this.places.scroller.addEventListener("scroll", () => this.drawSoon());
        new ResizeObserver(() => this.resize()).observe(this.places.scroller);
        this.filterField.addEventListener("input", () => this.setFilter(this.filterField.value, "field"));
        document.getElementById("scale").addEventListener("click", () => switchScale(this));
        document.getElementById("gaps").addEventListener("click", () => switchGaps(this));
        document.getElementById("theme").addEventListener("click", () => switchTheme(this));
        document.getElementById("help").addEventListener("click", showHelp);
        systemIsDark.addEventListener("change", () => followSystem(this));
        window.addEventListener("hashchange", () => readHash(this));
        this.list.fill();
        this.panel.show("session");
        this.resize();
        readHash(this);
        this.openAtError();
        this.list.place.focus({ preventScroll: true });
    }

    resize() {
        const { isNarrow } = this.view;
        this.view.width = this.places.scroller.clientWidth;
        if (this.view.isNarrow !== isNarrow) {
            this.layOut();
        }
        this.fitHeight();
        this.list.resize();
        this.draw();
    }

    // A session that broke a rule, or was ended by an error, opens there, if the address names nothing else.
    openAtError() {
        if (this.session.trouble >= 0 && location.hash.length < 2) {
            this.choose(this.session.trouble);
        }
    }

    drawSoon() {
        if (!this.isDue) {
            this.isDue = true;
            requestAnimationFrame(() => this.draw());
        }
    }

    draw() {
        this.isDue = false;
        const { overview, axis, scroller, tall } = this.places;
        tall.style.height = `${this.layout.height}px`;
        drawOverview(this, overview);
        drawAxis(this, axis);
        this.drawing.draw(scroller.scrollTop, scroller.clientHeight);
    }

    listed() {
        return this.list.listed();
    }

    pageOfList() {
        return this.list.page();
    }

    selectedObject() {
        return this.session.objects[this.session.object[this.selected]];
    }

    select(message, { from = "" } = {}) {
        this.choose(message, from);
        if (this.selected >= 0) {
            this.panel.show("message");
        } else {
            this.panel.draw();
        }
        writeHash(this);
    }

    // Selects a message, and leaves the tab and the address as they are.
    choose(message, from = "") {
        this.selected = Math.max(-1, Math.min(message, this.session.count - 1));
        if (this.selected >= 0) {
            this.list.reveal(this.selected);
            this.bringIntoView(this.selected, from);
        } else {
            this.list.draw();
        }
        showFound(this);
        this.drawSoon();
    }

    // The picture follows: the message's moment, and the row of its object.
    bringIntoView(message, from) {
        const { view, places: { scroller } } = this, at = view.at(message);
        if (!view.isSeen(message)) {
            const half = (view.to - view.from) / 2;
            view.show(at - half, at + half);
        }
        const row = this.layout.rowOf.get(this.selectedObject());
        if (row && from !== "picture" && (row.y < scroller.scrollTop
            || row.y + row.height > scroller.scrollTop + scroller.clientHeight)) {
            scroller.scrollTop = row.y - scroller.clientHeight / 2;
        }
    }

    // The next message of the list, or the one before.
    step(by) {
        const { rows } = this.list;
        if (rows.length) {
            const now = this.selected < 0 ? (by > 0 ? -1 : 0) : firstFrom(rows, this.selected);
            const isBetween = this.selected >= 0 && rows[now] !== this.selected && by > 0;
            this.select(rows[Math.max(0, Math.min(rows.length - 1, now + by - (isBetween ? 1 : 0)))]);
        }
    }

    stepOfObject(by) {
        const messages = this.selectedObject()?.messages;
        if (messages) {
            const next = messages[firstFrom(messages, this.selected) + by];
            if (next !== undefined) {
                this.select(next);
            }
        }
    }

    toOther() {
        const { answer, question } = this.session;
        const other = answer[this.selected] >= 0 ? answer[this.selected] : question[this.selected];
        if (other >= 0) {
            this.select(other);
        }
    }

    toTrouble() {
        const found = this.session.findings[0];
        if (found) {
            this.select(found.message);
        }
    }

    filterByObject() {
        const object = this.selectedObject();
        this.setFilter(object && this.filter !== object.alone ? object.alone : "");
    }

    filterByInterface() {
        const name = this.selectedObject()?.interface ?? "";
        this.setFilter(this.filter === name ? "" : name);
    }

    setFilter(text, from = "") {
        this.filter = text;
        if (from !== "field") {
            this.filterField.value = text;
        }
        this.isShown = filtered(this.session, text);
        this.list.fill();
        showFound(this);
        if (this.selected >= 0 && this.list.placeOf(this.selected) >= 0) {
            this.list.reveal(this.selected);
        }
        writeHash(this);
        this.drawSoon();
    }

    show(from, to) {
        this.view.show(from, to);
        this.follow();
    }

    zoom(times, at = this.selected >= 0 && this.view.isSeen(this.selected) ? this.view.at(this.selected) : undefined) {
        this.view.zoom(times, at);
        this.follow();
    }

    move(part) {
        this.view.move(part);
        this.follow();
    }

    showAll() {
        this.view.all();
        this.follow();
    }

    // The list follows the picture if none of its lines are in the picture.
    follow() {
        const [first, last] = this.listed();
        if (first >= 0 && (this.view.at(last) < this.view.from || this.view.at(first) > this.view.to)) {
            this.list.scrollTo(this.view.first(this.view.from));
        }
        this.drawSoon();
    }

    fitObject() {
        const object = this.selectedObject();
        if (object) {
            const { view } = this;
            const from = object.made < 0 ? 0 : view.at(object.made);
            const to = object.end < 0 ? view.end() : view.at(object.end);
            const edge = Math.max(1, (to - from) / 20);
            this.show(from - edge, to + edge);
        }
    }

    fold(name = this.selectedObject()?.interface) {
        if (name) {
            const isFolded = this.layout.rows.some((it) => it.kind === "fold" && it.interface === name);
            this.folds.set(name, !isFolded);
            this.layOut();
            this.resize();
        }
    }

    // A click into the picture: a wait, the message nearest to it of an object, or a name, which folds.
    pick(x, y) {
        const row = this.layout.rowAt(y), at = this.view.atX(x);
        if (!row || row.kind === "heading") {
            return;
        }
        if (x < this.view.left || y < row.y + row.above) {
            if (row.interface) {
                this.fold(row.interface);
            }
            return;
        }
        const message = row.kind === "wait" ? this.waitAt(row, at) : this.messageAt(row, at);
        if (message >= 0) {
            this.select(message, { from: "picture" });
        }
    }

    waitAt(row, at) {
        const { view } = this, slack = view.atX(4) - view.atX(0);
        const fits = row.waits.filter((it) => at >= view.at(it.from) - slack
            && at <= (it.to < 0 ? view.end() : view.at(it.to)) + slack);
        const size = (it) => (it.to < 0 ? Infinity : it.to - it.from);
        return fits.length ? fits.reduce((a, b) => (size(b) < size(a) ? b : a)).from : -1;
    }

    // The nearest message of those that the filter lets through; -1 if there is none.
    messageAt(row, at) {
        const { view, isShown } = this;
        const own = row.objects.filter((it) => at >= view.at(Math.max(0, it.made)) - 4 * (view.atX(1) - view.atX(0))
            && (it.end < 0 || at <= view.at(it.end) + 4 * (view.atX(1) - view.atX(0))));
        let best = -1;
        for (const it of own.length ? own : row.objects) {
            for (const message of [...it.messages, ...it.naming].filter((one) => !isShown || isShown[one])) {
                if (best < 0 || Math.abs(view.at(message) - at) < Math.abs(view.at(best) - at)) {
                    best = message;
                }
            }
        }
        return best;
    }
}
