"use strict";
// How long nothing passed, what was asked before that, and how long pastes took as far as the session shows it.

// A shorter time without a message is no silence. This many are named.
const LEAST_SILENCE = 100_000, MOST_SILENCES = 3;

// The content of a paste goes through a pipe, which no recording has. The session shows how long the client sent nothing
// after it had asked: up to its next request that was not sent together with that.
function pastes(session) {
    const found = [];
    let open = [];
    for (let i = 0; i < session.count; i++) {
        if (session.direction[i] !== REQUEST || i === session.bad) {
            continue;
        }
        if (open.length && session.piece[i] !== session.piece[open[0]]) {
            found.push(...open.map((from) => ({ from, to: i, took: session.time[i] - session.time[from] })));
            open = [];
        }
        const { kinds } = session.signatures[session.signature[i]];
        if (session.nameOf(i) === "receive" && kinds.some(([kind]) => kind === "fd")) {
            open.push(i);
        }
    }
    const left = session.isToEnd ? open : [];
    return [...found, ...left.map((from) => ({ from, to: -1, took: session.span - session.time[from] }))];
}

// What was asked last up to a message and may still be waited for: a paste, a question, or else the last request.
function askedBefore(session, message) {
    const isOpen = ({ from, to }) => from <= message && (to < 0 || to > message);
    const newest = (list) => list.reduce((last, it) => (isOpen(it) ? Math.max(last, it.asked ?? it.from) : last), -1);
    const asked = [newest(session.pastes), newest(session.waits.filter((it) => it.key !== "held"))];
    let request = message;
    while (request >= 0 && session.direction[request] !== REQUEST) {
        request -= 1;
    }
    return [...asked, request].find((it) => it >= 0) ?? -1;
}

// The longest times without a message, the longest first: after which message, and up to which; -1 for the end.
function longestSilences(session) {
    const { time, count } = session, found = [];
    const add = (after, to, took) => {
        if (took >= LEAST_SILENCE && (found.length < MOST_SILENCES || took > found.at(-1).took)) {
            found.push({ after, to, took });
            found.sort((a, b) => b.took - a.took);
            found.splice(MOST_SILENCES);
        }
    };
    for (let i = 1; i < count; i++) {
        add(i - 1, i, time[i] - time[i - 1]);
    }
    if (count && session.isToEnd) {
        add(count - 1, -1, session.span - time[count - 1]);
    }
    return found.map((it) => ({ ...it, asked: askedBefore(session, it.after) }));
}

function addSilences(session) {
    session.pastes = session.isTimed ? pastes(session) : [];
    session.silences = session.isTimed ? longestSilences(session) : [];
}

// A request by its object and name.
const calledName = (session, message) => `${session.objects[session.object[message]]?.name}.${session.nameOf(message)}`;

// Pastes after which the client sent nothing for a second or longer.
function pasteFindings(session) {
    const long = session.pastes.filter((it) => it.took >= SECOND);
    if (!long.length) {
        return [];
    }
    const worst = long.reduce((a, b) => (b.took > a.took ? b : a));
    const often = long.length > 1 ? ` That was so ${several(long.length, "time")}.` : "";
    return [{ level: "look", message: worst.from, words: `After ${calledName(session, worst.from)} the client sent nothing `
        + `for ${duration(worst.took)}${worst.to < 0 ? ", up to the end" : ""}.${often}` }];
}

// The section of the tab: after which message each silence was, and what was asked before it.
function silenceParts(panel) {
    const { session } = panel.app;
    if (!session.silences.length) {
        return [];
    }
    const where = session.part || !session.isFromStart ? " in this part" : "";
    return [element("h2", "", `Longest silences${where}`), session.silences.map(({ after, to, took, asked }) => {
        const line = element("p", "silence");
        line.append(`${duration(took)} after `, panel.toMessage(after), ` (${session.nameOf(after)})`,
            to < 0 ? ", up to the end" : "");
        if (asked >= 0 && asked !== after) {
            line.append("; asked before: ", panel.link(calledName(session, asked), asked));
        }
        line.append(".");
        return line;
    })];
}
