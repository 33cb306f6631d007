"use strict";
// Lines of a narrow list: whole, in as many rows as they take.

// Up to this width of the page; its style has the same.
const isNarrowPage = matchMedia("(max-width: 960px)");
// A line has no more rows than this; the tab of a message has all of it.
const MOST_ROWS_OF_LINE = 12, LEAST_COLUMNS = 12;
// The last letter of a row behind which it may end; the first of these that is in its second half.
const ENDS = [/ [^ ]*$/, /[(.][^(.]*$/, /[_/,;:=][^_/,;:=]*$/];

// The places at which a line is broken into rows of so many letters. Arguments that fit in a row stay together. A space
// may be one letter beyond the row.
function breaksOf(text, columns) {
    const found = [], open = text.indexOf("(") + 1;
    if (text.length > columns && open > 0 && open <= columns && text.length - open <= columns) {
        return [open];
    }
    for (let from = 0; text.length - from > columns;) {
        const row = text.slice(from, from + columns), isSpace = text[from + columns] === " ";
        from += isSpace ? columns + 1 : ENDS.map((it) => row.search(it) + 1).find((it) => it > columns / 2) ?? columns;
        found.push(from);
    }
    return found;
}

// What the list shows of a message: its words, and what is behind them.
function shownText(session, message) {
    const [object, name] = session.parts(message), letters = (it) => (it ? birthLetters(it.birth) : "");
    const rest = printedParts(session, message).map((it) => it.text + letters(it.object) + (it.meaning ?? "")).join("");
    const about = object && object + letters(session.objects[session.object[message]]);
    return `${about}${object && name ? "." : ""}${name}${rest}${spaced(behindOf(session, message))}`;
}

// What is behind a line stays together.
const spaced = (text) => text && `  ${text.replaceAll(" ", "\u00a0")}`;

class Stacked {
    constructor(session) {
        this.session = session;
        // How many letters a row has; 0 if the list is wide, and a line is one row.
        this.columns = 0;
        this.rows = new Uint8Array(session.count);
    }

    // Takes the width of the list's words. An empty list shows none.
    fit(list) {
        const columns = !isNarrowPage.matches ? 0 : list.rows.length ? this.measured(list) : this.columns;
        if (columns !== this.columns) {
            this.columns = columns;
            this.rows.fill(0);
        }
    }

    measured(list) {
        const line = list.line(0), pen = list.app.places.picture.getContext("2d");
        list.inner.replaceChildren(line);
        const words = line.querySelector(".words"), { font } = getComputedStyle(words);
        const wide = line.clientWidth - words.offsetLeft - parseFloat(getComputedStyle(line).paddingRight);
        return Math.max(LEAST_COLUMNS, Math.floor(100 * wide / widthOf(pen, "0".repeat(100), font)));
    }

    // A letter that is no Latin one may be two wide.
    columnsOf(text) {
        return /[^\0-\u024f]/.test(text) ? this.columns >> 1 : this.columns;
    }

    rowsOf(message) {
        if (!this.rows[message]) {
            const text = shownText(this.session, message);
            this.rows[message] = Math.min(MOST_ROWS_OF_LINE, breaksOf(text, this.columnsOf(text)).length + 1);
        }
        return this.rows[message];
    }

    // Puts the ends of rows into a line's words. The letters of a birth are no text, and count.
    breakWords(words) {
        const texts = document.createTreeWalker(words, NodeFilter.SHOW_TEXT), nodes = [];
        while (texts.nextNode()) {
            nodes.push(texts.currentNode);
        }
        const letters = nodes.map((it) => it.data + (it.parentNode.dataset.birth ?? ""));
        const text = letters.join(""), breaks = breaksOf(text, this.columnsOf(text));
        words.classList.toggle("cut", breaks.length >= MOST_ROWS_OF_LINE);
        let end = text.length;
        // From the last on, so that the text before stays.
        for (const node of nodes.reverse()) {
            const begin = end - letters.pop().length;
            for (const at of breaks.slice(0, MOST_ROWS_OF_LINE - 1).filter((it) => it > begin && it <= end).reverse()) {
                node.splitText(Math.min(at - begin, node.data.length)).before(document.createElement("br"));
            }
            end = begin;
        }
    }
}
