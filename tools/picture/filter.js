"use strict";
// What the filter's words mean: all have to fit a message.

const IS = {
    late: (session) => (i) => session.slow.has(i),
    // Older links have this name.
    slow: (session) => IS.late(session),
    fd: (session) => (i) => session.signatures[session.signature[i]].kinds.some(([kind]) => kind === "fd"),
    bad: (session) => (i) => i === session.bad || i === session.raw.error?.place,
    zombie: (session) => (i) => (session.state[i] & 3) === 1 && session.direction[i] === EVENT,
    // Questions without an answer, and what took them into effect.
    open: (session) => {
        const open = session.waits.filter((it) => it.to < 0 && it.key !== "held");
        const lines = new Set(open.flatMap((it) => [it.asked, it.from]));
        return (i) => lines.has(i);
    },
    // What made an object that was never destroyed.
    left: (session) => {
        const made = new Set(session.objects.filter((it) => it.made >= 0 && session.isOpen(it)).map((it) => it.made));
        return (i) => made.has(i);
    },
};

// An object as the page or WAYLAND_DEBUG shows it: `@10`, `@10b`, `wl_surface@10`, `surface@10`, `wl_surface#10`; one
// that the compositor made is `@s3` or `@4278190083`. `@10a` is the first object with its id.
const NAMED = /^([a-z0-9_]*)@(\d+)([a-z]*)$/;
const asPrinted = (word) => word.replace(/[@#](s?)(\d+)/g, (_, isServers, digits) =>
    `@${isServers ? FIRST_OF_COMPOSITOR + Number(digits) : digits}`);

// The objects that are named so: all with the id, or the one with these letters.
function objectsAt(session, [, name, id, letters]) {
    const isNamed = (it) => [it.interface, shortInterface(it.interface)].some((own) => own.toLowerCase() === name);
    return session.objects.filter((it) => it.id === Number(id) && (!letters || lettersOf(it.birth) === letters)
        && (!name || isNamed(it)));
}

// A line in small letters, with the letters of births, as the list shows it. It is made once; most are the plain line.
function lineWithLetters(session, message) {
    session.lettered ??= new Array(session.count);
    if (session.lettered[message] === undefined) {
        const [object, name] = session.parts(message), letters = (it) => (it ? birthLetters(it.birth) : "");
        const rest = printedParts(session, message).map((it) => it.text + letters(it.object)).join("");
        const about = object + letters(session.objects[session.object[message]]);
        const line = `${session.arrow(message)} ${about}${object && name ? "." : ""}${name}${rest}`.toLowerCase();
        const plain = session.searched()[message];
        session.lettered[message] = line === plain ? plain : line;
    }
    return session.lettered[message];
}

// A word as a test of a message, by its number.
function testOf(session, word) {
    if (word === "->" || word === "→") {
        return (i) => session.direction[i] === REQUEST;
    }
    if (word === "<-" || word === "←") {
        return (i) => session.direction[i] === EVENT;
    }
    const is = /^is:([a-z]+)$/.exec(word);
    if (is && Object.hasOwn(IS, is[1])) {
        return IS[is[1]](session);
    }
    const printed = asPrinted(word), named = NAMED.exec(printed);
    if (named) {
        const own = objectsAt(session, named);
        const fits = new Uint8Array(session.count);
        for (const it of own) {
            it.messages.forEach((i) => { fits[i] = 1; });
            it.naming.forEach((i) => { fits[i] = 1; });
            if (it.made >= 0) {
                fits[it.made] = 1;
            }
        }
        return (i) => fits[i] === 1;
    }
    const lines = session.searched(), isOfObject = /@\d/.test(printed);
    return (i) => lines[i].includes(word)
        || (isOfObject && (lines[i].includes(printed) || lineWithLetters(session, i).includes(printed)));
}

// A word that must not be in the line. A pasted line may have an arrow, and numbers below 0.
const NOT = /^-(?![\d>])/;

// For each message whether it fits; null if there are no words, and all do.
function filtered(session, text) {
    const words = text.toLowerCase().split(/\s+/).filter((it) => it && it !== "-");
    if (!words.length) {
        return null;
    }
    const tests = words.map((word) => {
        const isNot = NOT.test(word);
        const test = testOf(session, isNot ? word.slice(1) : word);
        return isNot ? (i) => !test(i) : test;
    });
    const fits = new Uint8Array(session.count).fill(1);
    for (const test of tests) {
        for (let i = 0; i < session.count; i++) {
            if (fits[i] && !test(i)) {
                fits[i] = 0;
            }
        }
    }
    return fits;
}
