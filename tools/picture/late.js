"use strict";
// What counts as late.

const SLOW = { times: 2, more: 8000, over: 20000 };
// With fewer answers than this it is not known what is usual.
const LEAST_USUAL = 3;
// Questions that are answered at once, or at the latest when the next frame is shown.
const PROMPT = new Set(["sync", "first", "configure", "frame", "presented", "ping"]), SECOND = 1e6;

function isSlow(took, usual) {
    return took > SLOW.times * usual && took > usual + SLOW.more && took > SLOW.over;
}

// The message with which the first frame came; -1 if none came, or the page does not show it.
function firstFrameOf(session) {
    const frames = session.waits.filter((it) => (it.key === "frame" || it.key === "presented") && it.to >= 0 && !it.isGone);
    return session.isFromStart ? frames.reduce((first, it) => (first < 0 ? it.to : Math.min(first, it.to)), -1) : -1;
}

// Whether an answer came late: it took longer than is usual for its kind; or a second, if such an answer comes at once,
// or if nothing was seen yet. A buffer is held rightly until the next one is there.
function isLate(session, wait, usual) {
    const from = wait.key === "held" ? wait.next : wait.from;
    const isPrompt = PROMPT.has(wait.key) || (wait.key !== "held" && wait.to < session.firstFrame);
    const isLong = (took) => isSlow(took, usual) || (isPrompt && took >= SECOND);
    return from >= 0 && isLong(wait.took) && isLong(session.time[wait.to] - session.time[from]);
}

// Marks the answers of a kind that came late.
function markLate(session, key) {
    session.firstFrame ??= firstFrameOf(session);
    const own = session.waits.filter((it) => it.key === key && it.to >= 0 && !it.isGone);
    const usual = session.usual[key] = median(own.map((it) => it.took));
    for (const wait of own.filter((it) => isLate(session, it, usual))) {
        wait.isSlow = true;
        session.slow.add(wait.from).add(wait.to);
    }
}
