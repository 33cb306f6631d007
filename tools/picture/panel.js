"use strict";
// The tabs beside the list: the session, the message, the interfaces.

// How an object began that no message of the page has made. A recording that begins in the middle of its session names
// the objects that were there.
function beginWords(session, object) {
    if (object.id !== 1 && session.part && session.part.first !== 1 && object.interface !== "unknown") {
        return "made before this part";
    }
    const isNamed = typeof session.raw.head.from === "number" && object.interface !== "unknown";
    return object.id === 1 || isNamed ? "there from the start" : "what made it is not known";
}

// The requests for a commit's surface since the commit before, in their order.
function takenByCommit(session, message) {
    const { messages } = session.objects[session.object[message]], found = [];
    for (let k = firstFrom(messages, message) - 1; k >= 0 && !session.isOf(messages[k], "wl_surface", "commit"); k--) {
        if (session.direction[messages[k]] === REQUEST) {
            found.push(messages[k]);
        }
    }
    return found.reverse();
}

class Panel {
    constructor(app, place) {
        this.app = app;
        this.tabs = [...place.querySelectorAll("[role=tab]")];
        this.body = place.querySelector("[role=tabpanel]");
        this.tab = "session";
        for (const tab of this.tabs) {
            tab.addEventListener("click", () => this.show(tab.dataset.tab));
            tab.addEventListener("keydown", (event) => {
                const by = { ArrowRight: 1, ArrowLeft: -1 }[event.key];
                if (by) {
                    const next = this.tabs[(this.tabs.indexOf(tab) + by + this.tabs.length) % this.tabs.length];
                    next.focus();
                    this.show(next.dataset.tab);
                }
            });
        }
    }

    show(tab) {
        const isOther = tab !== this.tab;
        this.tab = tab;
        for (const it of this.tabs) {
            it.setAttribute("aria-selected", String(it.dataset.tab === tab));
            it.tabIndex = it.dataset.tab === tab ? 0 : -1;
        }
        this.body.setAttribute("aria-labelledby", `tab-${tab}`);
        this.draw();
        if (isOther) {
            this.body.scrollTop = 0;
        }
    }

    draw() {
        const { body } = this, hadFocus = body.contains(document.activeElement);
        body.replaceChildren(...this[this.tab]().flat(4).filter((it) => it !== null && it !== ""));
        addBreaks(body);
        // The link that had the focus is gone.
        if (hadFocus && !body.contains(document.activeElement)) {
            body.focus({ preventScroll: true });
        }
    }

    // A link to a message; or to what a filter finds.
    link(text, message, filter = null) {
        const made = element("a", "", text);
        made.href = filter === null ? `#m=${this.app.session.number[message]}` : `#f=${encodeURIComponent(filter)}`;
        made.addEventListener("click", (event) => {
            event.preventDefault();
            if (filter !== null) {
                this.app.setFilter(filter);
            }
            if (message >= 0) {
                this.app.select(message);
            }
        });
        return made;
    }

    toMessage(message) {
        return this.link(`message ${this.app.session.numberOf(message)}`, message);
    }

    toObject(object) {
        return this.link(object.name, object.made >= 0 ? object.made : object.messages[0] ?? -1, object.alone);
    }

    row(name, ...parts) {
        const made = element("div", "row"), value = element("span", "value");
        value.append(...parts.flat(3).filter((it) => it !== ""));
        made.append(element("span", "name", name), value);
        return made;
    }

    session() {
        const { session } = this.app, { findings, raw } = session;
        const items = findings.map(({ level, words, message, filter }) => {
            const made = element("li", level);
            const levelWords = { bad: "broken: ", look: "", note: "" }[level];
            // The message that ended the session may be outside the part that is shown.
            made.append(element("span", "unseen", levelWords),
                message < 0 ? words : this.link(words, message, filter ?? null));
            return made;
        });
        if (!items.length) {
            items.push(element("li", "note plain", nothingFound(session)));
        }
        const list = element("ul");
        list.append(...items);
        const remarks = this.remarks();
        return [session.part ? remarks : [], element("h2", "", "Worth a look"), list,
            session.bad >= 0 ? this.wayThere() : [], session.part ? [] : remarks, selectionParts(this), silenceParts(this), this.wayToWindow(), this.about(raw)];
    }

    wayThere() {
        const way = wayToBroken(this.app.session);
        if (!way.length) {
            return [];
        }
        return [element("h2", "", "What led there"), way.map(({ words, message }) => {
            const line = element("p");
            line.append(`${words} `, this.toMessage(message), `, ${this.app.session.nameOf(message)}`);
            return line;
        })];
    }

    remarks() {
        const { session } = this.app, { others, verdict } = session.raw, said = [];
        if (session.part) {
            const since = session.isTimed && session.part.first !== 1
                ? ` Times count from the first of them, ${duration(session.begin)} after the session began.` : "";
            said.push(`This page shows ${session.partWords()}.${since} The verdict is that of the whole session.`);
        }
        if (!session.isTimed) {
            said.push("This recording has no times: what was late is not known, and the picture is in order of messages.");
        }
        if (typeof session.raw.head.from === "number" && !session.part) {
            said.push(`This recording begins ${duration(session.raw.head.from * 1e6)} after its session did, and times `
                + "count from there. It is not judged.");
        }
        if (session.isTimed && verdict && verdict.ended === null && session.isToEnd) {
            said.push(verdict.cut === null
                ? "This recording does not say when its session ended: the page ends with the last message."
                : `The recording reached its limit after ${duration(verdict.cut * 1e6)} and was cut. `
                    + "The session went on.");
        }
        if (others.length) {
            const words = others.map(([number, name, pid]) => [`#${number}`, whoOf(name, pid)].filter((it) => it).join(" "));
            said.push(`${several(others.length, "further client")} took part, and `
                + `${others.length === 1 ? "has a page of its" : "have pages of their"} own: ${words.join("; ")}.`);
        }
        return said.map((it) => element("p", "remark", it));
    }

    wayToWindow() {
        const { app } = this, { session } = app;
        if (session.milestones.length < 2) {
            return [];
        }
        const heading = element("h2", "", "On the way to a window ");
        const zoom = element("button", "inline", "zoom");
        zoom.addEventListener("click", () => {
            const end = app.view.at(session.milestones.at(-1).message);
            app.show(0, end * 1.05);
        });
        heading.append(zoom);
        return [heading, session.milestones.map(({ name, message }) => {
            const made = element("div", "row");
            made.append(this.link(name, message), element("span", "value",
                session.isTimed ? duration(session.time[message]) : `message ${session.numberOf(message)}`));
            made.firstChild.classList.add("name");
            return made;
        })];
    }

    about({ head, client, verdict }) {
        const rows = [
            ["verdict", verdict?.words], ["recording", head.recording], ["command", (head.command ?? []).join(" ")],
            ["client", whoOf(client.name, client.pid)],
            ["started", head.started], ["tables", (head.tables ?? []).join(", ")],
        ].filter(([, value]) => value);
        return [element("h2", "", "The session"), rows.map(([name, value]) => this.row(name, String(value)))];
    }

    message() {
        const { selected, session } = this.app;
        if (selected < 0) {
            return [element("p", "remark", "No message is selected. Choose one in the list or in the picture.")];
        }
        const line = element("p", "whole");
        line.append(arrowOf(session, selected), " ", wordsOf(session, selected));
        return [line, this.effects(selected), this.facts(selected), element("p", "bytes", bytesOf(session, selected)),
            this.objectPart(session.objects[session.object[selected]])];
    }

    // What a commit takes into effect, each name once. A link leads to the last request with its name.
    effects(message) {
        const { session } = this.app;
        if (!session.isOf(message, "wl_surface", "commit")) {
            return [];
        }
        const found = grouped(takenByCommit(session, message), (it) => session.nameOf(it));
        const begin = session.keptCommits.has(message) ? "The next commit of its parent takes into effect "
            : "Takes into effect ";
        const line = element("p", "", found.size ? begin : "No request for this surface since its last commit.");
        for (const [name, messages] of found) {
            line.append(this.link(name, messages.at(-1)), messages.length > 1 ? ` (${counted(messages.length)} times)` : "",
                ", ");
        }
        if (found.size) {
            line.lastChild.replaceWith(".");
        }
        return [line];
    }

    facts(message) {
        const { session } = this.app, rows = [];
        if (message === session.bad) {
            const { broken } = session.raw;
            rows.push(this.row("broken", `${ruleOf(broken)}${whatIsWrong(broken)}.`),
                this.row("the rule", RULES[broken.fault]?.[1] ?? ""));
        }
        session.signatures[session.signature[message]].kinds.forEach(([kind, name], place) => {
            const { text, object } = argumentWords(session, message, place);
            rows.push(this.row(name ?? kind, object ? this.toObject(object) : "", object && text ? ", " : "", text));
        });
        if (session.isTimed) {
            const since = message ? session.time[message] - session.time[message - 1] : 0;
            rows.push(this.row("time", `${microseconds(session.time[message])} s`, !message ? ""
                : since ? `, ${duration(since)} after the message before` : ", with the message before"));
        }
        rows.push(...(session.waitsOf.get(message) ?? []).map((it) => this.waitRow(it, message)));
        const stream = session.direction[message] === REQUEST ? "request" : "event";
        rows.push(this.row("place", `${stream} ${counted(session.numberInStream[message])}, `
            + `byte ${counted(session.offset[message])}, piece ${counted(session.piece[message])}`));
        if ((session.state[message] & 3) === 1 && stream === "event") {
            rows.push(this.row("discarded", "the client had destroyed the object"));
        }
        if (session.state[message] & 4) {
            rows.push(this.row("judged", "no: what comes from here on is not judged"));
        }
        return rows;
    }

    waitRow(wait, message) {
        const { session } = this.app, { label, name } = session.waitKinds.find((it) => it.key === wait.key);
        const took = session.isTimed && wait.to >= 0 ? ` after ${duration(wait.took)}${wait.isSlow ? ", late" : ""}` : "";
        if (wait.to === message) {
            return this.row(label, "answers ", this.toMessage(wait.from), took);
        }
        const from = wait.from === message ? "" : [" from ", this.toMessage(wait.from), " on"];
        if (wait.to < 0) {
            return this.row(name, session.isToEnd ? "has no answer" : "has no answer in this part", from, session.isTimed ? `, after ${duration(wait.took)}` : "");
        }
        return wait.isGone ? this.row(name, "ended with ", this.toMessage(wait.to), ", without an answer")
            : this.row(name, "answered by ", this.toMessage(wait.to), took, from);
    }

    objectPart(object) {
        if (!object) {
            return [];
        }
        const { session } = this.app, life = [];
        const by = (message) => {
            const maker = session.objects[session.object[message]];
            return [this.toMessage(message), `, ${maker ? maker.name : "unknown"}.${session.nameOf(message)}`];
        };
        life.push(...(object.made >= 0 ? ["made by ", by(object.made)] : [beginWords(session, object)]));
        life.push(...(object.destroyed >= 0 ? ["; destroyed by ", by(object.destroyed)] : []));
        life.push(...(object.freed >= 0 ? ["; its id was freed by ", this.toMessage(object.freed)] : []));
        const isLeft = session.isOpen(object);
        life.push(!isLeft ? "" : session.isToEnd ? "; left at the end" : "; left at the end of this part");
        const name = element("p");
        name.append(this.toObject(object));
        return [element("h2", "", "Object"), name, object.version ? this.row("version", String(object.version)) : null,
            this.row("life", life), this.row("messages", `${counted(object.messages.length)} for it, `
                + `${counted(object.naming.length)} that name it`)];
    }

    interfaces() {
        return [interfacesTable(this.app.session, this)];
    }
}
