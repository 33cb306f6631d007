"use strict";
// Who holds the clipboard and the primary selection, as far as this can be seen in the session of one client.

// The interfaces of its protocols: devices, and their sources and offers.
const DATA_DEVICE = /^(wl_data|(zwp|gtk)_primary_selection|(zwlr|ext)_data_control)_device(_v1)?$/;
const DATA = /^(wl_data|(zwp|gtk)_primary_selection|(zwlr|ext)_data_control)_(source|offer)(_v1)?$/;
// A device of a data control hears of each change, and any other device only while its client has the
// keyboard focus.
const DATA_CONTROL = /_data_control_/;
const KINDS = { clipboard: "Clipboard", primary: "Primary selection" };

function kindOfSelection(device, name) {
    return `${device.interface} ${name}`.includes("primary") ? "primary" : "clipboard";
}

// Reads a session once, in the order of its messages. A holder is what is the selection from one
// message to another: a source of this client, an offer of another client's source, or nothing.
class Selections {
    constructor(session) {
        this.session = session;
        this.holders = [];
        // By device and kind: the known holder, and what this client has set, until that is cancelled or
        // destroyed.
        this.now = new Map();
        this.own = new Map();
        // The types of a source or an offer, and the requests for an offer's content, by number.
        this.types = new Map();
        this.received = new Map();
        this.unfocused = -1;
    }

    listOf(map, key) {
        if (!map.has(key)) {
            map.set(key, []);
        }
        return map.get(key);
    }

    typesOf(object) {
        return this.types.get(object?.number) ?? [];
    }

    begin(i, device, kind, parts) {
        const key = `${device.number} ${kind}`, before = this.now.get(key);
        const holder = { key, device, kind, from: i, to: -1, source: null, offers: [], sent: [] };
        Object.assign(holder, parts);
        holder.isEmpty = !holder.source && !holder.offers.length;
        if (before && before.to < 0) {
            if (holder.isEmpty && before.isEmpty) {
                return;
            }
            before.to = i;
        }
        this.now.set(key, holder);
        this.holders.push(holder);
    }

    // This client makes a source of its own the selection, or nothing.
    set(i, device, kind, source) {
        const key = `${device.number} ${kind}`;
        if (source && this.own.get(key)?.source === source) {
            return;
        }
        this.begin(i, device, kind, { source, known: [...this.typesOf(source)] });
        this.own.delete(key);
        if (source) {
            this.own.set(key, this.now.get(key));
        }
    }

    // What was said in between was sent before the compositor had read what this client asked for.
    confirm(holder) {
        this.holders = this.holders.filter((it) => it.key !== holder.key || it.from <= holder.from);
        this.now.set(holder.key, holder);
        holder.to = -1;
    }

    // The compositor says what the selection is. It offers a client its own source, too.
    offered(i, device, kind, offer) {
        const types = this.typesOf(offer);
        const own = [...this.own.values()].find((it) => it.kind === kind && it.known.length
            && it.known.every((type) => types.includes(type)));
        if (own && own.device === device) {
            this.confirm(own);
            own.offers.push(offer);
        } else {
            const source = own?.source ?? null;
            this.begin(i, device, kind, { source, offers: offer ? [offer] : [] });
        }
    }

    // A source is no selection any more, or a device says nothing any more of other clients.
    end(about, i) {
        for (const [key, it] of this.own) {
            if (it.source === about) {
                this.own.delete(key);
            }
        }
        for (const it of this.now.values()) {
            if (it.to < 0 && (it.source === about || (it.device === about && !it.source))) {
                it.to = i;
            }
        }
    }

    sent(source, i) {
        const own = [...this.own.values()].find((it) => it.source === source);
        if (own) {
            this.confirm(own);
        }
        this.holders.findLast((it) => it.source === source)?.sent.push(i);
    }

    request(i, about, name) {
        const { session } = this;
        if (name === "set_selection" || name === "set_primary_selection") {
            this.set(i, about, kindOfSelection(about, name), session.named(i, 0) ?? null);
        } else if (name === "receive") {
            this.listOf(this.received, about.number).push(i);
        } else if (name === "destroy" || name === "release") {
            this.end(about, i);
        }
    }

    event(i, about, name) {
        const { session } = this;
        if (name === "selection" || name === "primary_selection") {
            this.offered(i, about, kindOfSelection(about, name), session.named(i, 0));
        } else if (name === "cancelled" || name === "finished") {
            this.end(about, i);
        } else if (name === "send") {
            this.sent(about, i);
        }
    }

    read() {
        const { session } = this;
        for (let i = 0; i < session.count; i++) {
            const about = session.objects[session.object[i]], name = session.nameOf(i);
            if (!about || i === session.bad) {
                continue;
            }
            if (about.interface === "wl_keyboard") {
                this.unfocused = name === "leave" ? i : name === "enter" ? -1 : this.unfocused;
            } else if (name === "offer" && DATA.test(about.interface)) {
                const type = session.raw.strings[session.value(i, 0)];
                this.listOf(this.types, about.number).push(type);
            } else if (DATA.test(about.interface) || DATA_DEVICE.test(about.interface)) {
                this[session.direction[i] === REQUEST ? "request" : "event"](i, about, name);
            }
        }
        return this;
    }

    // The requests of this client for the content of what a holder holds.
    askedBy(holder) {
        const asked = holder.offers.flatMap((it) => this.received.get(it.number) ?? []);
        return asked.sort((a, b) => a - b);
    }
}

function addSelections(session) {
    session.selections = session.objects.some((it) => DATA_DEVICE.test(it.interface))
        ? new Selections(session).read() : null;
}

const MOST_TYPES = 3, MOST_HOLDERS = 3;

// Names in one phrase: a few, and how many more there are.
function enumerated(names, most) {
    const shown = names.slice(0, names.length > most + 1 ? most : names.length);
    const rest = names.length - shown.length, all = rest ? [...shown, `${rest} more`] : shown;
    const signOf = (place) => (place === all.length - 1 ? " and " : ", ");
    return all.flatMap((it, place) => [...(place ? [signOf(place)] : []), it]);
}

// A type of content, whose name is not broken at its slash unless it is long.
const typeName = (name) => element("span", (name ?? "").length > 32 ? "" : "type", name ?? "nil");

// Who asked for the content, as sentences in parts.
function wordsOfAsking(session, { source, sent }, asked) {
    const often = ({ length }) => (length > 1 ? ` ${several(length, "time")}, first in ` : " in ");
    const typeOf = (message) => typeName(session.raw.strings[session.value(message, 0)]);
    const first = (list) => [often(list), list[0], " (", typeOf(list[0]), ")."];
    const said = [];
    if (sent.length) {
        said.push(" The compositor asked for the content", ...first(sent));
        said.push(asked.length ? "" : " The protocol does not say for which client.");
    } else if (source) {
        said.push(" The compositor did not ask for the content.");
    }
    if (asked.length) {
        said.push(" This client asked for the content", ...first(asked));
    } else if (!source) {
        said.push(" This client did not ask for the content.");
    }
    return said;
}

// Sentences about a holder, in parts: texts, types, and messages as numbers.
function wordsOfHolder(session, holder, isOneDevice) {
    const { selections, raw } = session, { kind, device, source, from, to } = holder;
    const what = KINDS[kind].toLowerCase();
    const moment = session.isTimed ? ` (${duration(session.time[from])})` : "";
    const said = [isOneDevice ? "From " : `At ${device.name}: from `, from, moment, " to "];
    said.push(to < 0 ? `the end${session.isToEnd ? "" : " of this part"}` : to);
    if (holder.isEmpty) {
        return [...said, `, the ${what} was empty.`];
    }
    const name = source && raw.client.name ? ` (${raw.client.name})` : "";
    const types = [...new Set(selections.typesOf(source ?? holder.offers[0]))].map(typeName);
    said.push(`, ${source ? "this" : "another"} client${name} held the ${what}.`);
    if (types.length) {
        said.push(types.length > 1 ? " The types were " : " The type was ");
        said.push(...enumerated(types, MOST_TYPES), ".");
    }
    said.push(...wordsOfAsking(session, holder, selections.askedBy(holder)));
    if (to < 0 && !source && !DATA_CONTROL.test(device.interface) && selections.unfocused > from) {
        said.push(" The client lost the keyboard focus in ", selections.unfocused,
            ". After that the compositor did not tell it of changes.");
    }
    return said;
}

// The holders of a kind, the last one first. Only the last few are shown unless the others are asked for.
function holdersOfKind(panel, kind) {
    const { session } = panel.app;
    const all = session.selections.holders.filter((it) => it.kind === kind).reverse();
    if (!all.length) {
        return [];
    }
    const heading = element("h2", "", `${KINDS[kind]}${session.part ? " in this part" : ""} `);
    const isOneDevice = all.every((it) => it.device === all[0].device);
    const isLong = all.length > MOST_HOLDERS && !panel.isLong;
    if (isLong) {
        const more = element("button", "inline", `all ${counted(all.length)}`);
        more.addEventListener("click", () => {
            panel.isLong = true;
            panel.draw();
        });
        heading.append(more);
    }
    return [heading, all.slice(0, isLong ? MOST_HOLDERS : all.length).map((it) => {
        const line = element("p", "holder");
        line.append(...wordsOfHolder(session, it, isOneDevice).map((part) =>
            (typeof part === "number" ? panel.toMessage(part) : part)));
        return line;
    })];
}

function selectionParts(panel) {
    const { selections } = panel.app.session;
    if (!selections) {
        return [];
    }
    const parts = Object.keys(KINDS).flatMap((kind) => holdersOfKind(panel, kind));
    const nothing = element("p", "remark", "This client was not told who held the clipboard"
        + `${panel.app.session.part ? " in this part" : ""}.`);
    return parts.length ? parts : [element("h2", "", KINDS.clipboard), nothing];
}
