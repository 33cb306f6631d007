"use strict";
// The session that the page holds: messages in columns, and objects, each with its life.

const REQUEST = 0, EVENT = 1;
const FIRST_OF_COMPOSITOR = 0xff000000;

async function unpacked(base64) {
    const text = atob(base64), packed = new Uint8Array(text.length);
    for (let i = 0; i < text.length; i++) {
        packed[i] = text.charCodeAt(i);
    }
    const stream = new Blob([packed]).stream().pipeThrough(new DecompressionStream("deflate"));
    return JSON.parse(await new Response(stream).text());
}

function summed(differences, Column) {
    const column = new Column(differences.length);
    let sum = 0;
    differences.forEach((it, place) => { column[place] = sum += it; });
    return column;
}

// A birth in letters: a for the first object with an id, b for the second, .., z, aa, ab, .. A birth that is not known
// has none.
function lettersOf(birth) {
    let letters = "";
    for (let rest = birth; rest > 0; rest = Math.floor((rest - 1) / 26)) {
        letters = String.fromCharCode(97 + (rest - 1) % 26) + letters;
    }
    return letters;
}

// The letters that are shown behind an id: none for its first object.
const birthLetters = (birth) => (birth > 1 ? lettersOf(birth) : "");

function newObject(number, iface, id, birth, version) {
    const isServers = id >= FIRST_OF_COMPOSITOR;
    const at = `@${isServers ? `s${id - FIRST_OF_COMPOSITOR}` : id}${birthLetters(birth)}`;
    const known = iface ?? "unknown";
    return {
        number, interface: known, id, birth, version, isServers, at, name: known + at, printed: `${known}@${id}`,
        made: -1, destroyed: -1, freed: -1, end: -1, messages: [], naming: [], isCursor: false,
    };
}

class Session {
    constructor(raw) {
        const { rest, bytes, signatures } = raw;
        this.raw = raw;
        this.title = raw.title;
        this.isTimed = raw.head.timed === true;
        this.count = raw.signature.length;
        this.rest = this.count ? rest.split("\n") : [];
        this.bytes = this.count ? bytes.split("\n") : [];
        this.signatures = signatures.map(([iface, name, direction, opcode, kinds]) => ({
            interface: iface, name: name ?? (opcode < 0 ? "" : `opcode ${opcode}`), opcode, kinds,
            direction: direction === "request" ? REQUEST : EVENT,
        }));
        this.signature = Int32Array.from(raw.signature);
        this.object = Int32Array.from(raw.object);
        this.number = summed(raw.number, Float64Array);
        this.size = Int32Array.from(raw.size);
        this.state = Uint8Array.from(raw.state);
        this.part = raw.part;
        const isLater = this.part !== null && this.part.first !== 1;
        // Whether the page begins with the session's first message, and whether it ends with the last.
        this.isFromStart = !isLater && typeof raw.head.from !== "number";
        this.isToEnd = this.part === null || this.part.last === this.part.total;
        // A part of a session has times from its begin on.
        this.begin = isLater ? raw.time[0] ?? 0 : Math.round((raw.head.from ?? 0) * 1e6);
        this.time = summed(raw.time, Float64Array).map((it) => Math.max(0, it - this.begin));
        this.piece = summed(raw.piece, Int32Array);
        this.values = raw.values;
        this.contents = new Map(raw.arrays.map(([message, place, words]) => [`${message} ${place}`, words]));
        this.objects = raw.objects.id.map((id, number) => newObject(
            number, raw.objects.interface[number], id, raw.objects.birth[number], raw.objects.version[number]));
        this.lowered = null;
        this.bad = raw.broken?.place ?? -1;
        // The message that broke a rule, or else the error that ended the session.
        this.trouble = this.bad >= 0 ? this.bad : raw.error?.place ?? -1;
        this.placeAll();
        this.nameAlone();
        this.fillObjects();
        const last = Math.max(0, this.count - 1);
        // The session's end, if the page has it and the recording says when it was.
        const { ended, cut } = raw.verdict ?? {};
        const end = this.isTimed && this.isToEnd ? Math.round((ended ?? cut ?? 0) * 1e6) - this.begin : 0;
        this.span = Math.max(this.count ? this.time[last] : 0, end, 1);
        // The last message whose answer is looked for: one that broke a rule, or an error, ends the session.
        const over = raw.broken ?? raw.error, isShown = over && over.place >= 0;
        this.lastAsked = isShown ? over.place : over && over.number < this.number[0] ? -1 : last;
        this.looked = isShown ? this.time[this.lastAsked] : this.span;
    }

    // Which part of the session the page shows, in words; empty if it shows all.
    partWords() {
        if (!this.part) {
            return "";
        }
        const { first, last, total } = this.part, all = total === null ? "" : ` of ${counted(total)}`;
        return this.count && this.count === last - first + 1 ? `messages ${counted(first)} to ${counted(last)}${all}`
            : `${several(this.count, "message")}${all}`;
    }

    // The number of a message in its session.
    numberOf(message) {
        return counted(this.number[message]);
    }

    // Where the values of each message begin, its direction, its place in its stream, and its number in it.
    placeAll() {
        const { count, raw } = this;
        this.valuesAt = new Int32Array(count + 1);
        this.direction = new Uint8Array(count);
        this.offset = new Float64Array(count);
        this.numberInStream = new Int32Array(count);
        const { request = 1, event = 1 } = this.part?.begins ?? {};
        const next = [0, 0], numbers = [request - 1, event - 1];
        for (let i = 0; i < count; i++) {
            const { kinds, direction } = this.signatures[this.signature[i]];
            this.valuesAt[i + 1] = this.valuesAt[i] + kinds.length;
            this.direction[i] = direction;
            this.offset[i] = next[direction] + raw.offset[i];
            next[direction] = this.offset[i] + this.size[i];
            this.numberInStream[i] = ++numbers[direction];
        }
        this.events = this.direction.reduce((sum, it) => sum + it, 0);
        this.requests = count - this.events;
    }

    // The word by which the filter finds an object and no other: if its id was reused, the first one has a letter too.
    nameAlone() {
        const reused = new Set(this.objects.filter((it) => it.birth > 1).map((it) => it.id));
        this.objects.forEach((it) => { it.alone = it.birth === 1 && reused.has(it.id) ? `${it.at}a` : it.at; });
    }

    fillObjects() {
        const { raw, objects } = this;
        const pairs = (list, fill) => {
            for (let i = 0; i < list.length; i += 2) {
                if (list[i + 1] >= 0) {
                    fill(objects[list[i + 1]], list[i]);
                }
            }
        };
        const before = new Map();
        pairs(raw.made, (it, message) => {
            const last = before.get(it.id);
            it.made = message;
            // The compositor ends an object that no request ends by making another with its id.
            if (last && last.end < 0) {
                last.end = message;
            }
            before.set(it.id, it);
        });
        pairs(raw.destroyed, (it, message) => { it.destroyed = message; });
        pairs(raw.freed, (it, message) => { it.freed = message; });
        for (const it of objects) {
            const end = it.isServers ? it.destroyed : it.freed;
            it.end = end >= 0 ? end : it.end;
        }
        for (let i = 0; i < this.count; i++) {
            objects[this.object[i]]?.messages.push(i);
            const { kinds } = this.signatures[this.signature[i]];
            for (let k = 0; k < kinds.length; k++) {
                if (kinds[k][0] === "object") {
                    objects[this.values[this.valuesAt[i] + k]]?.naming.push(i);
                }
            }
        }
    }

    value(message, place) {
        return this.values[this.valuesAt[message] + place];
    }

    // The object that the argument names, or undefined.
    named(message, place) {
        return this.objects[this.value(message, place)];
    }

    nameOf(message) {
        return this.signatures[this.signature[message]].name;
    }

    isOf(message, iface, name) {
        const it = this.signatures[this.signature[message]];
        return it.interface === iface && it.name === name;
    }

    arrow(message) {
        return this.direction[message] === REQUEST ? "->" : "<-";
    }

    // The line that the inspector prints, in its three parts: the object, the message's name, the arguments.
    parts(message) {
        const rest = this.rest[message] ?? "";
        const object = this.objects[this.object[message]]?.printed ?? "unknown object";
        return rest.startsWith("\t") ? [rest.length > 1 ? "" : object, "", rest.slice(1)]
            : [object, this.nameOf(message), rest];
    }

    line(message) {
        const [object, name, rest] = this.parts(message);
        return `${this.arrow(message)} ${object}${name && `.${name}`}${rest}`;
    }

    // A line in small letters, for searches, also as it is with the names of values. They are made once.
    searched() {
        if (!this.lowered) {
            const lines = (it) => [this.line(it), lineWithMeanings(this, it)].filter((line) => line !== null);
            this.lowered = Array.from({ length: this.count }, (_, it) => lines(it).join("\n").toLowerCase());
        }
        return this.lowered;
    }

    isOpen(object) {
        return object.destroyed < 0 && object.freed < 0 && object.end < 0;
    }
}

// The session with all that is found in it.
function readSession(raw) {
    const session = new Session(raw);
    addWaits(session);
    session.milestones = milestones(session);
    session.objects.forEach((it) => { it.group = purposeOf(session, it); });
    addSilences(session);
    addFindings(session);
    addSelections(session);
    return session;
}

// Which program a client is, and its process, if they are known.
function whoOf(name, pid) {
    return [name, pid && `process ${pid}`].filter((it) => it).join(", ");
}

function microseconds(time) {
    return (time / 1e6).toFixed(6);
}

// A duration in microseconds, in the unit that reads well.
function duration(time) {
    if (time < 1000) {
        return `${Math.round(time)} µs`;
    }
    return time < 1e6 ? `${(time / 1000).toFixed(1)} ms` : `${(time / 1e6).toFixed(2)} s`;
}

const counted = (number) => number.toLocaleString("en-US");
const several = (number, word) => `${counted(number)} ${word}${number === 1 ? "" : "s"}`;

function median(numbers) {
    const sorted = Float64Array.from(numbers).sort();
    return sorted.length ? sorted[sorted.length >> 1] : 0;
}

// The parts of a list that have the same key, in the order in which the keys came.
function grouped(list, keyOf) {
    const parts = new Map();
    for (const it of list) {
        const key = keyOf(it);
        if (parts.has(key)) {
            parts.get(key).push(it);
        } else {
            parts.set(key, [it]);
        }
    }
    return parts;
}
