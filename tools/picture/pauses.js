"use strict";
// What a client was asked to draw and drew late, and how a window began.

// The requests that begin a commit, and those by which a surface gets an object that is configured.
const BEGINS = new Set(["frame", "attach", "damage", "damage_buffer"]);
const SHELLS = /^get_(xdg_surface|layer_surface|lock_surface)$/;

// For each surface, pairs of a message that asked for a commit and that commit. A configure asks for one, and so does a
// request that waits for it. What a client draws of its own accord was not asked for.
class Asked {
    constructor(session) {
        this.session = session;
        this.bySurface = new Map();
        this.first = new Map();             // a surface: the first message that asked since its last commit
        this.surfaceOf = new Map();         // an object that is configured, by its number: its surface
        this.begins = new Map();            // a surface whose configure has not come: its first commit; -1 before that
        this.firstConfigures = [];
    }

    ask(surface, i) {
        if (surface && !surface.isCursor && !this.first.has(surface)) {
            this.first.set(surface, i);
        }
    }

    request(i, about, name) {
        const { session } = this;
        if (SHELLS.test(name) && session.named(i, 1)) {
            this.surfaceOf.set(session.value(i, 0), session.named(i, 1));
            this.begins.set(session.named(i, 1), -1);
        } else if (about.interface === "wl_surface" && BEGINS.has(name)) {
            this.ask(about, i);
        } else if (about.interface === "wl_surface" && name === "commit") {
            if (this.first.has(about)) {
                if (!this.bySurface.has(about)) {
                    this.bySurface.set(about, []);
                }
                this.bySurface.get(about).push([this.first.get(about), i]);
                this.first.delete(about);
            }
            if (this.begins.get(about) === -1) {
                this.begins.set(about, i);
            }
        }
    }

    event(i, about, name) {
        const surface = this.surfaceOf.get(about.number);
        if (name !== "configure" || !ACKED.has(about.interface)) {
            return;
        }
        if (this.begins.get(surface) >= 0) {
            this.firstConfigures.push({ from: this.begins.get(surface), to: i, object: about });
        }
        this.begins.delete(surface);
        this.ask(surface, i);
    }

    read() {
        const { session } = this;
        for (let i = 0; i < session.count; i++) {
            const about = session.objects[session.object[i]];
            if (about && i !== session.bad) {
                this[session.direction[i] === REQUEST ? "request" : "event"](i, about, session.nameOf(i));
            }
        }
        return this;
    }
}

// Pauses of a surface that is drawn all the time: from what asked for a commit to the commit.
function pauseFindings(session, asked) {
    const found = [], { time } = session;
    const bySurface = grouped(session.waits.filter((it) => it.key === "frame"), (it) => it.object);
    for (const [surface, pairs] of asked.bySurface) {
        const frames = bySurface.get(surface) ?? [];
        const usual = median(frames.slice(1).map((it, place) => time[it.from] - time[frames[place].from]));
        const limit = Math.max(2 * usual, SLOW.over), length = ([from, commit]) => time[commit] - time[from];
        const pauses = pairs.filter((it) => length(it) > limit);
        if (frames.length > 30 && pauses.length && usual < 100_000) {
            const worst = pauses.reduce((a, b) => (length(b) > length(a) ? b : a));
            found.push({
                level: "look", message: worst[0], words: `The client paused ${several(pauses.length, "time")} in `
                    + `drawing ${surface.name}. A pause is more than ${duration(limit)} from what asks for a commit to `
                    + `the commit. The longest took ${duration(length(worst))}.`,
            });
        }
    }
    return found.slice(0, 4);
}

// A first configure that took a second or longer, unless it is found as a late answer.
function configureFindings(session, asked) {
    const late = asked.firstConfigures.filter(({ from, to }) => session.time[to] - session.time[from] >= SECOND
        && session.question[to] < 0);
    return late.slice(0, 4).map(({ from, to, object }) => ({
        level: "look", message: to, words: `The first configure of ${object.name} came `
            + `${duration(session.time[to] - session.time[from])} after the commit that asked for it.`,
    }));
}
