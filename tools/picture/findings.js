"use strict";
// What is worth a look, in words. A session without trouble has no findings.

const RULES = {
    F1: ["bad message size", "A message has at least 8 bytes and at most the limit, in multiples of 4."],
    F2: ["unknown object", "A message is for an object that is there. Once a client has destroyed one, it may not use it."],
    F3: ["unknown message", "An object has the messages of its interface, up to the version that it was made with."],
    F4: ["malformed argument", "An argument's bytes are those of a value that the message takes."],
    F5: ["bad object", "An argument names an object that is there, of the interface that the message asks for."],
    F6: ["bad new id", "A new id is one that was freed, or the next one that was never used."],
    F7: ["trailing bytes", "A message ends with its last argument."],
    F8: ["missing descriptor", "A file descriptor comes no later than its message."],
    F9: ["bad bind", "A bind names a global that was announced, with its interface and a version that it has."],
    F10: ["too many objects", "There are no more objects than the checker keeps."],
};

const ruleOf = ({ fault }) => `${fault} ${RULES[fault]?.[0] ?? ""}`.trim();

// What is wrong with the message, as the inspector says it.
function whatIsWrong({ fault, words }) {
    const said = words.replace(new RegExp(`^${fault}:? *`), "");
    return said && `: ${said}`;
}

// The messages that led to the one that broke a rule: words and a message each.
function wayToBroken(session) {
    const { bad } = session, way = [];
    const about = session.objects[session.object[bad]];
    const named = session.signatures[session.signature[bad]].kinds.map((_, place) => place)
        .filter((place) => ["object", "new"].includes(session.signatures[session.signature[bad]].kinds[place][0]))
        .map((place) => session.named(bad, place));
    // For a new id, what its last object was.
    const last = (object) => (object?.made >= 0 ? object : session.objects.findLast((it) => it.id === object?.id
        && it.made >= 0));
    for (const object of new Set([about, ...named].map(last).filter((it) => it))) {
        way.push({ words: `${object.name} was made by`, message: object.made });
        if (object.destroyed >= 0) {
            way.push({ words: `${object.name} was destroyed by`, message: object.destroyed });
        }
        if (object.freed >= 0) {
            way.push({ words: "its id was freed by", message: object.freed });
        }
    }
    const before = about?.messages.findLast((it) => it < bad);
    if (before !== undefined && !way.some((it) => it.message === before)) {
        way.push({ words: `the message before for ${about.name} is`, message: before });
    }
    return way;
}

const ANSWERS = {
    sync: "answers to wl_display.sync", first: "first configures", configure: "answers to configure",
    frame: "frame callbacks",
    presented: "presentation feedbacks", held: "buffer releases", ping: "answers to ping",
};

function lateFindings(session) {
    const found = [];
    for (const { key, name } of session.waitKinds) {
        const own = session.waits.filter((it) => it.key === key && it.to >= 0 && !it.isGone);
        const late = own.filter((it) => it.isSlow);
        if (late.length) {
            const worst = late.reduce((a, b) => (b.took > a.took ? b : a));
            const isUsual = own.length >= LEAST_USUAL;
            found.push({
                level: "look", message: worst.from, words: `${counted(late.length)} of ${counted(own.length)} `
                    + `${ANSWERS[key] ?? `answers to ${name}`} came late. The longest took ${duration(worst.took)} `
                    + `(${worst.object.name}).${isUsual ? ` The median is ${duration(session.usual[key])}.` : ""}`,
            });
        }
    }
    return found;
}

// Questions without an answer that were asked at least a second before the end, or many messages.
function unansweredFindings(session) {
    const found = [], { looked, time, count } = session;
    const isLong = (it) => (session.isTimed ? looked - time[it.from] >= SECOND : count - it.from > 200);
    const isAnswered = (it) => it.to >= 0 && (!it.isGone || session.nameOf(it.to) === "discarded");
    for (const { key, name } of session.waitKinds.filter((it) => it.key !== "held")) {
        const own = session.waits.filter((it) => it.key === key), left = own.filter((it) => it.to < 0 && isLong(it));
        const isMute = own.length > 1 && isLong(own[0]) && !own.some(isAnswered);
        if (left.length || isMute) {
            const [first] = left.length ? left : own;
            found.push({ level: "look", message: first.from,
                words: unansweredWords(session, { key, name, own, left, first, isMute }) });
        }
    }
    return found;
}

function unansweredWords(session, { key, name, own, left, first, isMute }) {
    const waited = session.isTimed && first.to < 0 ? duration(first.took) : "";
    const about = `${first.object.name}.${session.nameOf(first.asked)}`;
    const sinceFirst = waited && ` The first has waited for ${waited}.`;
    if (isMute) {
        return `${name} was sent ${several(own.length, "time")} and never answered.${sinceFirst}`;
    }
    if (key === "frame" && left.length === 1 && waited) {
        return `No frame came for ${waited}. ${about} was not answered.`;
    }
    return left.length === 1 ? `${about} was not answered${waited && ` for ${waited}`}.`
        : `${name} was not answered ${several(left.length, "time")}.${sinceFirst}`;
}

// What is said if nothing is worth a look. It must be true: of a part of the session it says nothing about the rest.
function nothingFound(session) {
    if (!session.isToEnd) {
        return `Nothing ${session.isTimed ? "was late" : "was found"} in the part that is shown.`;
    }
    const said = nothingFoundToEnd(session), [longest] = session.silences;
    const silence = longest?.took >= SECOND ? ` The longest silence took ${duration(longest.took)}.` : "";
    return (session.isFromStart ? said : `In the part that is shown, n${said.slice(1)}`) + silence;
}

function nothingFoundToEnd(session) {
    const left = session.waits.filter((it) => it.to < 0 && it.key !== "held");
    if (!left.length) {
        return `${session.isTimed ? "Nothing was late, nothing" : "Nothing"} piled up, and nothing was left `
            + "without an answer.";
    }
    const longest = left.reduce((most, it) => Math.max(most, it.took), 0);
    const after = session.isTimed ? `, after ${duration(longest)}${left.length > 1 ? " at most" : ""}` : "";
    return `Nothing ${session.isTimed ? "was late, and nothing " : ""}piled up. `
        + `${several(left.length, "question")} had no answer yet at the end${after}.`;
}

// What piles up: objects that could be destroyed, were not, and were made all through the session.
function leftFindings(session) {
    const found = [];
    const byInterface = grouped(session.objects.filter((it) => it.made >= 0), (it) => `${it.interface} ${it.isServers}`);
    for (const made of byInterface.values()) {
        const [{ interface: name, isServers }] = made;
        const left = made.filter((it) => session.isOpen(it));
        const isPile = isServers
            // The last of a selection and of a drag are in use.
            ? left.length >= 3 && made.some((it) => it.destroyed >= 0)
            : left.length >= 16 && left.length * 2 >= made.length && isSpread(session, left)
                && made.some((it) => it.destroyed >= 0 || it.messages.length > 0);
        const all = several(made.length, `${name} object`) + (session.isFromStart ? "" : " of this part");
        if (isPile && name !== "wl_registry" && !made.every(isMadeByBind.bind(null, session))) {
            found.push({
                level: "look", message: left[0].made, filter: `is:left ${name}`,
                words: `${isServers ? `The compositor made ${all}. ` : ""}The client never destroyed `
                    + `${counted(left.length)} of ${isServers ? "them" : all}.`,
            });
        }
    }
    return found;
}

const isMadeByBind = (session, object) => object.made >= 0 && session.nameOf(object.made) === "bind";

// Whether objects were made in each quarter of what follows the first, and so are no set that is made once.
function isSpread(session, left) {
    const first = left[0].made, part = (session.count - first) / 4;
    const quarters = new Set(left.map((it) => Math.min(3, Math.floor((it.made - first) / part))));
    return quarters.size === 4;
}

// The last messages before one that are for an object, make it or name it; of wl_display the last requests.
function ledTo(session, message, object) {
    const about = new Set(object ? [...object.messages, ...object.naming, object.made] : []), found = [];
    for (let it = message - 1; it >= Math.max(0, message - 64) && found.length < 5; it--) {
        if (object?.id === 1 ? session.direction[it] === REQUEST : about.has(it)) {
            found.unshift(it);
        }
    }
    return found;
}

// That the page does not show the message that ended the session.
const notShown = ({ place, number }) => (place < 0 ? ` It is message ${counted(number)}, which is not shown.` : "");

function endFindings(session) {
    const { broken, error, notes } = session.raw, found = [];
    if (broken) {
        found.push({ level: "bad", message: session.bad, words: `${ruleOf(broken)}${whatIsWrong(broken)}.`
            + notShown(broken) });
    }
    if (error) {
        const object = session.objects[error.object], about = object?.name ?? "an object that is not known";
        const code = [error.code, ...error.names].join(" ");
        const before = ledTo(session, error.place, object).map((it) => `${session.nameOf(it)} (${session.numberOf(it)})`);
        found.push({ level: "bad", message: error.place, words: `The compositor ended the session with error `
            + `${code} for ${about}. It says: “${error.text}”`
            + (before.length ? `. Before it: ${before.join(", ")}.` : "") + notShown(error) });
    }
    for (const [message, words] of notes) {
        found.push({ level: "note", message, words: `Message ${session.numberOf(message)}: ${words}` });
    }
    return found;
}

function addFindings(session) {
    const found = endFindings(session);
    if (session.isTimed) {
        const asked = new Asked(session).read();
        found.push(...lateFindings(session), ...configureFindings(session, asked), ...pauseFindings(session, asked),
            ...pasteFindings(session));
    }
    // Where the page ends before its session, what came later is not known.
    if (session.isToEnd) {
        found.push(...unansweredFindings(session), ...leftFindings(session));
    }
    let late = 0, first = -1;
    for (let i = 0; i < session.count; i++) {
        if ((session.state[i] & 3) === 1 && session.direction[i] === EVENT) {
            late += 1;
            first = first < 0 ? i : first;
        }
    }
    if (late) {
        found.push({ level: "note", message: first, filter: "is:zombie",
            words: `${several(late, "event")} came for ${late === 1 ? "an object" : "objects"} `
                + "that the client had destroyed." });
    }
    session.findings = found;
}
