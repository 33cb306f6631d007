"use strict";
// A message's arguments in words, and its bytes: all of it as `waywire-inspect --json` has said it.

// The bytes of a message in words of four, as digits; those of a long message end with two dots.
function bytesOf(session, message) {
    const digits = session.bytes[message];
    return (digits.match(/.{1,8}/g) ?? []).join(" ") + (digits.length / 2 < session.size[message] ? " .." : "");
}

// An argument's value in words; an object of the session beside it, if it names one.
function argumentWords(session, message, place) {
    const [kind, , enumeration] = session.signatures[session.signature[message]].kinds[place];
    const value = session.value(message, place);
    const object = session.objects[value];
    switch (kind) {
        case "object": return object ? { text: "", object } : { text: "nil" };
        // A new id of 0 names no object.
        case "new": return object ? { text: `version ${object.version}`, object } : { text: "0" };
        case "string": return { text: value < 0 ? "nil" : `“${session.raw.strings[value]}”` };
        case "array": {
            const contents = session.contents.get(`${message} ${place}`);
            return { text: several(value, "byte") + (contents ? `: ${contents}` : "") };
        }
        case "fd": return { text: value === null ? "fd" : `fd ${value}` };
        default: {
            const name = session.raw.names[enumeration]?.[value];
            return { text: name ? `${value} ${name}` : String(value) };
        }
    }
}

// An argument as a printed line has it, and the object in it, if there is one.
function printedArgument(session, message, place) {
    const [kind] = session.signatures[session.signature[message]].kinds[place];
    const value = session.value(message, place), object = session.objects[value];
    switch (kind) {
        case "object": return { text: object?.printed ?? "nil", object };
        case "new": {
            const isBind = session.isOf(message, "wl_registry", "bind");
            const text = `new id ${object?.printed ?? 0}`;
            return { text: object && isBind ? `"${object.interface}", ${object.version}, ${text}` : text, object };
        }
        case "fixed": return { text: value.toFixed(8) };
        case "array": return { text: `array[${value}]` };
        case "fd": return { text: value === null ? "fd" : `fd ${value}` };
        case "string": return { text: null };
        default: return { text: String(value) };
    }
}

// What the inspector prints behind an argument: the names of its value, or what an array holds.
function meaningOf(session, message, place) {
    const [kind, , enumeration] = session.signatures[session.signature[message]].kinds[place];
    const words = kind === "array" ? session.contents.get(`${message} ${place}`)
        : session.raw.names[enumeration]?.[session.value(message, place)];
    return !words ? "" : kind === "array" ? ` {${words}}` : ` ${words}`;
}

// The end of a printed line in parts, so that each object can have the letters of its birth, and each value its names: a
// text, the object that it ends with, and what it means. Where the parts are not what was printed, it is one part.
function printedParts(session, message) {
    const [, , rest] = session.parts(message), parts = [];
    const { kinds } = session.signatures[session.signature[message]];
    let at = 0;
    for (let place = 0; place < kinds.length; place++) {
        const sign = place ? ", " : "(", from = at + sign.length;
        let { text, object } = printedArgument(session, message, place);
        if (text === null) {
            // A string: up to its closing quote, which is the next one, since others are escaped.
            text = rest.startsWith("nil", from) ? "nil" : rest.slice(from, rest.indexOf('"', from + 1) + 1);
        }
        if (!rest.startsWith(sign + text, at)) {
            return [{ text: rest }];
        }
        object = message === session.bad ? undefined : object;
        parts.push({ text: sign + text, object, meaning: meaningOf(session, message, place) });
        at = from + text.length;
    }
    return [...parts, { text: rest.slice(at) }];
}

// A message's line with what its values mean; null if nothing is known of them.
function lineWithMeanings(session, message) {
    const { kinds } = session.signatures[session.signature[message]];
    const parts = kinds.some(([kind, , enumeration]) => enumeration || kind === "array")
        ? printedParts(session, message) : [];
    if (!parts.some((it) => it.meaning)) {
        return null;
    }
    const line = session.line(message), [, , rest] = session.parts(message);
    return line.slice(0, line.length - rest.length) + parts.map((it) => it.text + (it.meaning ?? "")).join("");
}
