"use strict";
// The list of messages. Only the lines that are seen are in the page; a reader of the screen is told how many there are.

const LINE = 20;

function element(name, className = "", text = "") {
    const made = document.createElement(name);
    made.className = className;
    made.textContent = text;
    return made;
}

// Lets long words break after a punctuation character, and not in the middle of a name. A string of the wire has no
// zero byte.
function addBreaks(place) {
    const texts = document.createTreeWalker(place, NodeFilter.SHOW_TEXT), found = [];
    while (texts.nextNode()) {
        found.push(texts.currentNode);
    }
    const marked = (word) => word.replace(/(?<=[_./,;:@=])(?=[A-Za-z])/g, "\0");
    for (const text of found.filter((it) => it.parentNode.className !== "type")) {
        const parts = text.data.replace(/\S{20,}/g, marked).split("\0");
        if (parts.length > 1) {
            text.replaceWith(...parts.flatMap((it, at) => (at ? [document.createElement("wbr"), it] : [it])));
        }
    }
}

class List {
    constructor(app, place) {
        this.app = app;
        this.place = place;
        this.inner = place.firstElementChild;
        this.rows = [];
        // The row at which each line begins; null if each has one.
        this.begins = null;
        this.stacked = new Stacked(app.session);
        const { count, time } = app.session;
        place.style.setProperty("--digits", String(app.session.number[count - 1] ?? 0).length);
        place.style.setProperty("--time-digits", microseconds(time[count - 1] ?? 0).length);
        place.addEventListener("scroll", () => {
            this.draw();
            app.drawSoon();
        });
        place.addEventListener("click", (event) => {
            const row = event.target.closest("[data-message]");
            if (row) {
                app.select(Number(row.dataset.message), { from: "list" });
            }
        });
    }

    // The messages of the list, in order: all, or those that the filter lets through.
    fill() {
        const { session, isShown } = this.app;
        const rows = new Int32Array(session.count);
        let length = 0;
        for (let i = 0; i < session.count; i++) {
            if (!isShown || isShown[i]) {
                rows[length++] = i;
            }
        }
        this.rows = rows.subarray(0, length);
        this.layOut();
        this.draw();
    }

    // The places of the lines. They are one row high, unless the list is narrow.
    layOut() {
        const { rows, stacked } = this;
        this.begins = null;
        stacked.fit(this);
        this.place.classList.toggle("stacked", stacked.columns > 0);
        if (stacked.columns) {
            this.begins = new Int32Array(rows.length + 1);
            rows.forEach((message, place) => {
                this.begins[place + 1] = this.begins[place] + stacked.rowsOf(message);
            });
        }
        this.inner.style.height = `${this.topOf(rows.length)}px`;
    }

    // The list may have another width. The first line that is seen stays the first.
    resize() {
        const [first] = this.listed(), { columns } = this.stacked;
        this.layOut();
        if (columns !== this.stacked.columns) {
            this.place.scrollTop = this.topOf(Math.max(0, this.placeOf(first)));
        }
        this.draw();
    }

    topOf(place) {
        return (this.begins ? this.begins[place] : place) * LINE;
    }

    // The place of the line at a height, or how many there are.
    placeAt(y) {
        return firstWhere(this.rows.length, (it) => this.topOf(it + 1) > y);
    }

    // The places of the first line that is seen and of the one behind the last.
    seen() {
        const { scrollTop, clientHeight } = this.place;
        return [this.placeAt(scrollTop), Math.min(this.rows.length, this.placeAt(scrollTop + clientHeight - 1) + 1)];
    }

    // The first and the last message that are seen; -1 if there is none.
    listed() {
        const [first, behind] = this.seen(), last = behind - 1;
        return this.rows.length ? [this.rows[Math.min(first, last)], this.rows[last]] : [-1, -1];
    }

    // How many lines are seen whole, without the one that stays when a page is turned.
    page() {
        const [first, behind] = this.seen();
        return Math.max(1, behind - first - 1);
    }

    placeOf(message) {
        const place = firstFrom(this.rows, message);
        return this.rows[place] === message ? place : -1;
    }

    // Puts a message at the top.
    scrollTo(message) {
        this.place.scrollTop = this.topOf(firstFrom(this.rows, message));
        this.draw();
    }

    // Brings a message into view; if it was far away, near the middle.
    reveal(message) {
        const place = firstFrom(this.rows, message), at = this.topOf(place), { scrollTop, clientHeight } = this.place;
        const high = this.topOf(Math.min(place + 1, this.rows.length)) - at;
        if (at < scrollTop || at + high > scrollTop + clientHeight) {
            const isNear = Math.abs(at - scrollTop) < clientHeight + 3 * LINE;
            const middle = at - Math.floor(clientHeight / 2 / LINE) * LINE;
            // The line is seen whole, or from its begin on.
            const least = Math.min(at, at + high - clientHeight);
            this.place.scrollTop = !isNear ? Math.max(least, middle) : at < scrollTop ? at : least;
        }
        this.draw();
    }

    draw() {
        const seen = this.seen(), first = Math.max(0, seen[0] - 2), last = Math.min(this.rows.length, seen[1] + 3);
        const lines = [];
        for (let place = first; place < last; place++) {
            lines.push(this.line(place));
        }
        this.inner.replaceChildren(...lines);
        const { selected } = this.app;
        const isThere = lines.some((it) => it.id === `m${selected + 1}`);
        this.place[isThere ? "setAttribute" : "removeAttribute"]("aria-activedescendant", `m${selected + 1}`);
    }

    line(place) {
        const { session, selected } = this.app, message = this.rows[place];
        const isSelected = message === selected, isBad = message === session.bad || message === session.trouble;
        const line = element("div", `line${isSelected ? " selected" : ""}${isBad ? " bad" : ""}`);
        line.id = `m${message + 1}`;
        line.dataset.message = message;
        line.style.top = `${this.topOf(place)}px`;
        const roles = { role: "option", "aria-selected": isSelected, "aria-posinset": place + 1,
            "aria-setsize": this.rows.length };
        Object.entries(roles).forEach(([name, value]) => line.setAttribute(name, String(value)));
        const before = this.rows[place - 1];
        if (before !== undefined && session.piece[before] !== session.piece[message]) {
            line.classList.add("piece");
        }
        line.append(element("span", "number", String(session.number[message])));
        if (session.isTimed) {
            line.append(element("span", "time", microseconds(session.time[message])));
        }
        const words = wordsOf(session, message), behind = behindOf(session, message);
        line.append(arrowOf(session, message), words);
        if (this.begins) {
            line.style.height = `${this.topOf(place + 1) - this.topOf(place)}px`;
            words.append(element("span", "took", spaced(behind)));
            this.stacked.breakWords(words);
        } else {
            line.append(element("span", "took", behind));
        }
        return line;
    }
}

// The end of a line: the rule that was broken, how long the answer took, or that there is none.
function behindOf(session, message) {
    if (message === session.bad) {
        return ruleOf(session.raw.broken);
    }
    if (message === session.raw.error?.place) {
        return `error ${session.raw.error.code}`;
    }
    const waits = session.waitsOf.get(message) ?? [], wait = waits.find((it) => it.to === message && !it.isGone);
    const open = waits.find((it) => it.to < 0 && it.asked === message && it.key !== "held");
    if (!(wait || open) || !session.isTimed) {
        return "";
    }
    return wait ? `${wait.isSlow ? "late, " : ""}${duration(wait.took)}`
        : `no answer${session.isToEnd ? "" : " in this part"}, ${duration(open.took)}`;
}

function arrowOf(session, message) {
    const isRequest = session.direction[message] === REQUEST;
    const arrow = element("span", isRequest ? "request" : "event", isRequest ? "→" : "←");
    arrow.setAttribute("role", "img");
    arrow.setAttribute("aria-label", isRequest ? "request" : "event");
    return arrow;
}

// A text that ends with an object's name. The letters of its birth are shown, and are no part of the text.
function withBirth(text, object) {
    const letters = object ? birthLetters(object.birth) : "";
    if (!letters) {
        return text;
    }
    const made = element("span", "born", text);
    made.dataset.birth = letters;
    return made;
}

// A message's line without its arrow.
function wordsOf(session, message) {
    const [object, name] = session.parts(message);
    const words = element("span", "words"), rest = element("span", "rest");
    rest.append(...printedParts(session, message).flatMap(({ text, object, meaning }) =>
        [withBirth(text, object), ...(meaning ? [element("span", "meaning", meaning)] : [])]));
    words.append(withBirth(object, session.objects[session.object[message]]), object && name ? "." : "",
        element("b", "", name), rest);
    return words;
}
