"use strict";
// What waited for what: the questions that the inspector has found, with their answers.

// The kinds that every session may have. A session adds a kind for each other question.
const WAITS = [
    { key: "sync", label: "sync → done", name: "wl_display.sync" },
    { key: "first", label: "commit → configure", name: "wl_surface.commit" },
    { key: "configure", label: "configure → ack", name: "configure" },
    { key: "frame", label: "frame → done", name: "wl_surface.frame" },
    { key: "presented", label: "frame → presented", name: "wp_presentation.feedback" },
    { key: "held", label: "buffer held", name: "buffer held" },
    { key: "ping", label: "ping → pong", name: "ping" },
];
const KEYS = {
    "wl_display.sync": "sync", "wl_surface.commit": "first", "wl_surface.frame": "frame", "wl_surface.attach": "held",
    "wp_presentation.feedback": "presented",
};
const ACKED = new Set(["xdg_surface", "zxdg_surface_v6", "zwlr_layer_surface_v1", "ext_session_lock_surface_v1"]);
// How a question ends, as in picture_columns.py.
const ANSWERED = 0, OPEN = 3, WAIT_COLUMNS = 5;

// The key of a question by the message that asks.
function waitKey(session, asked) {
    const { interface: iface, name } = session.signatures[session.signature[asked]];
    return name === "configure" || name === "ping" ? name : KEYS[`${iface}.${name}`] ?? `${iface}.${name}`;
}

// The surfaces of cursors and of drags, which need not be shown.
function markCursors(session) {
    for (let i = 0; i < session.count; i++) {
        const name = session.nameOf(i);
        const icon = name === "set_cursor" ? session.named(i, 1) : name === "start_drag" ? session.named(i, 2) : null;
        if (icon && i !== session.bad) {
            icon.isCursor = true;
        }
    }
}

// A wait: `from` is the message from which on something waited, `asked` the request that another has taken into effect,
// `to` the answer or what has ended it, and `next` what has put another buffer in the place of the one that is held.
function waitOf(session, [asked, from, ended, how, next]) {
    const key = waitKey(session, asked);
    const object = key === "presented" ? session.named(asked, 0) : session.objects[session.object[asked]];
    if (!object || object.isCursor) {
        return null;
    }
    // Nothing has said so far that there is no answer; its object may have ended.
    const to = how === OPEN && key !== "held" ? object.destroyed : ended;
    const isGone = to >= 0 && (how !== ANSWERED || session.nameOf(to) === "discarded");
    return { key, object, from, asked, to, isGone, isSlow: false, next };
}

function readWaits(session) {
    // Each number is the difference from that of the wait before.
    const waits = [], rows = Int32Array.from(session.raw.waits);
    for (let at = WAIT_COLUMNS; at < rows.length; at++) {
        rows[at] += rows[at - WAIT_COLUMNS];
    }
    session.waitKinds = [...WAITS];
    for (let at = 0; at < rows.length; at += WAIT_COLUMNS) {
        const wait = waitOf(session, rows.slice(at, at + WAIT_COLUMNS));
        if (!wait) {
            continue;
        }
        waits.push(wait);
        const { key, asked } = wait;
        if (key === "held") {
            session.named(asked, 0)?.holds.push(wait);
        }
        if (!session.waitKinds.some((it) => it.key === key)) {
            session.waitKinds.push({ key, label: `${session.nameOf(asked)} → answer`, name: key });
        }
    }
    const rank = new Map(session.waitKinds.map(({ key }, place) => [key, place]));
    return waits.sort((a, b) => a.from - b.from || rank.get(a.key) - rank.get(b.key));
}

// Adds to a session its waits, and for each message what it answers and what answers it.
function addWaits(session) {
    session.objects.forEach((it) => { it.holds = []; });
    // The commits of synchronized subsurfaces.
    session.keptCommits = new Set(session.raw.kept);
    markCursors(session);
    session.waits = readWaits(session);
    session.answer = new Int32Array(session.count).fill(-1);
    session.question = new Int32Array(session.count).fill(-1);
    session.slow = new Set();
    session.usual = {};
    session.waitsOf = new Map();            // a message: the waits that begin or end with it
    const add = (message, wait) => {
        if (!session.waitsOf.has(message)) {
            session.waitsOf.set(message, []);
        }
        session.waitsOf.get(message).push(wait);
    };
    for (const wait of session.waits) {
        // How long the answer took; of one that has not come, how long it was waited for.
        wait.took = (wait.to < 0 ? session.looked : session.time[wait.to]) - session.time[wait.from];
        new Set([wait.asked, wait.from]).forEach((it) => add(it, wait));
        if (wait.to >= 0 && !wait.isGone) {
            // The frame's answer is the first of the answers to one commit.
            [wait.asked, wait.from].filter((it) => session.answer[it] < 0).forEach((it) => {
                session.answer[it] = wait.to;
            });
            session.question[wait.to] = wait.from;
            add(wait.to, wait);
        }
    }
    for (const { key } of session.isTimed ? session.waitKinds : []) {
        markLate(session, key);
    }
}
