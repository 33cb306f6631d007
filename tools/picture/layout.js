"use strict";
// The layout: the visible part of the session, and the rows of the picture.

// The widths of the names beside the bars, in a wide picture and in others, and of the right edge. In a narrow
// picture the names are above their bars.
const GUTTERS = { wide: 270, middle: 236, narrow: 12 }, EDGE = 14;
const WIDE = 1200, NARROW = 600;
const HEIGHT = { heading: 26, wait: 36, life: 20, fold: 36, above: 17 };
const MOST_ROWS = 8;
const OWN_ROWS = 4;
// An interface has at most so many rows for its objects, and one more for those that overlap with all of these.
const MOST_LANES = 400;
// The edges of the view are rounded by less than this. The places of messages are whole numbers.
const ROUNDED = 1e-3;

const GROUPS = [
    { key: "windows", label: "Windows" }, { key: "buffers", label: "Buffers" }, { key: "input", label: "Input" },
    { key: "data", label: "Data" }, { key: "server", label: "Made by the compositor" },
    { key: "callbacks", label: "Callbacks" }, { key: "globals", label: "Globals" }, { key: "others", label: "Others" },
];
// What an interface is for, by its name; the first that fits.
const PURPOSES = [
    ["callbacks", /^(wl_callback|wp_presentation_feedback)$|_callback(_v\d+)?$/],
    ["globals", /^(wl_display|wl_registry|wl_fixes)$|_output(_v\d+)?$|_manager|_factory|_shell(_v\d+)?$|wm_base|compositor/],
    ["data", /data_|_offer|_source|primary_selection|transfer/],
    ["buffers", /buffer|shm_pool|dmabuf|linux_|drm_|syncobj|timeline|screencopy/],
    ["input", /seat|pointer|keyboard|touch|tablet|input|gesture|cursor|shortcuts|grab|pad_/],
    ["windows", /surface|region|xdg_|toplevel|popup|viewport|decoration|fractional|blur|shadow|slide|contrast|tearing/],
];

function purposeOf(session, object) {
    if (object.isServers) {
        return "server";
    }
    const isBound = isMadeByBind(session, object);
    const [found] = PURPOSES.find(([, names]) => names.test(object.interface)) ?? ["others"];
    return isBound && found !== "input" ? "globals" : isBound && /_manager|_constraints|_gestures/.test(object.interface)
        ? "globals" : found;
}

// The visible part of the session, by time in microseconds, also with folded gaps, or by order in messages.
class View {
    constructor(session) {
        this.session = session;
        this.order = Float64Array.from({ length: session.count }, (_, it) => it + 1);
        this.foldable = session.isTimed ? new FoldedTime(session) : { gaps: [] };
        this.width = 1000;
        this.scale(session.isTimed);
        this.all();
    }

    // Takes the places of messages, which never go down, from their times or from their order.
    scale(isTime, isFolded = false) {
        this.isTime = isTime;
        this.isFolded = isFolded;
        this.folded = isTime && isFolded ? this.foldable : null;
        this.places = this.folded?.places ?? (isTime ? this.session.time : this.order);
    }

    at(message) {
        return this.places[message];
    }

    // The end of the session. By order it is behind the last message, so that this has a place too.
    end() {
        return this.folded?.end ?? (this.isTime ? this.session.span : this.session.count + 1);
    }

    all() {
        this.from = 0;
        this.to = this.end();
    }

    // Shows this much, but no more than there is and not too little of it.
    show(from, to) {
        const least = this.isTime ? 20 : 4, end = this.end();
        const width = Math.min(end, Math.max(to - from, Math.min(least, end)));
        this.from = Math.min(Math.max(0, (from + to - width) / 2), end - width);
        this.to = this.from + width;
    }

    zoom(times, at = (this.from + this.to) / 2) {
        this.show(at - (at - this.from) * times, at + (this.to - at) * times);
    }

    move(part) {
        const by = (this.to - this.from) * part;
        const least = Math.max(-this.from, Math.min(by, this.end() - this.to));
        this.from += least;
        this.to += least;
    }

    get isNarrow() {
        return this.width < NARROW;
    }

    // Where the picture begins, beside the names of its rows.
    get left() {
        return this.isNarrow ? GUTTERS.narrow : this.width < WIDE ? GUTTERS.middle : GUTTERS.wide;
    }

    get right() {
        return this.width - EDGE;
    }

    get inner() {
        return this.right - this.left;
    }

    x(at) {
        return this.left + (at - this.from) / (this.to - this.from) * this.inner;
    }

    xOf(message) {
        return this.x(this.at(message));
    }

    atX(x) {
        return this.from + (x - this.left) / this.inner * (this.to - this.from);
    }

    // The time at a place of a scale of times.
    timeAt(place) {
        return this.folded?.time(place) ?? place;
    }

    // The multiples of a step that are seen, outside of folded gaps, and where they are in the picture.
    *marks(step) {
        const { from: first, to: last } = this;
        for (const { from, to, less } of this.folded?.stretches(first, last) ?? [{ from: first, to: last, less: 0 }]) {
            for (let at = Math.ceil((from + less) / step) * step; at - less <= to; at += step) {
                yield [at, this.x(at - less)];
            }
        }
    }

    // The first message at this place or behind it.
    first(at) {
        return firstWhere(this.session.count, (it) => this.at(it) >= at);
    }

    // The first message behind this place.
    behind(at) {
        return firstWhere(this.session.count, (it) => this.at(it) > at);
    }

    // The first message that is seen, and the first behind those that are. Those on the edges are seen.
    seen() {
        return [this.first(this.from - ROUNDED), this.behind(this.to + ROUNDED)];
    }

    isSeen(message) {
        return this.at(message) >= this.from - ROUNDED && this.at(message) <= this.to + ROUNDED;
    }
}

// The first number from 0 on that passes a test, which all numbers after it pass too; the count if none does.
function firstWhere(count, passes) {
    let low = 0, high = count;
    while (low < high) {
        const middle = (low + high) >> 1;
        if (passes(middle)) {
            high = middle;
        } else {
            low = middle + 1;
        }
    }
    return low;
}

// The first place in a list of messages that is at this message or behind it.
const firstFrom = (list, message) => firstWhere(list.length, (it) => list[it] >= message);

const shortInterface = (name) => name.replace(/^(wl|wp|xdg|z?wlr|zwp|zxdg|ext|org_kde_kwin|org_kde)_/, "");
const shortName = (object) => shortInterface(object.interface) + object.at;

// The rows of the waits: the busiest objects of a kind have rows of their own.
function waitRows(session) {
    const rows = [];
    for (const { key, label } of session.waitKinds) {
        const parts = grouped(session.waits.filter((it) => it.key === key), (it) => it.object);
        const busiest = [...parts].sort(([, a], [, b]) => b.length - a.length);
        const own = busiest.length > OWN_ROWS + 1 ? busiest.slice(0, OWN_ROWS) : busiest;
        const shown = own.map(([object, waits]) => ({ waits, right: key === "sync" ? "" : shortName(object) }));
        if (own.length < busiest.length) {
            const shared = busiest.slice(own.length);
            shown.push({
                right: `${shared.length} objects`,
                waits: shared.flatMap(([, waits]) => waits).sort((a, b) => a.from - b.from),
            });
        }
        for (const { waits, right } of shown) {
            rows.push({ kind: "wait", key, label, right, waits, height: HEIGHT.wait, below: belowOf(session, waits) });
        }
    }
    return rows;
}

function belowOf(session, waits) {
    const times = waits.filter((it) => it.to >= 0 && !it.isGone).map((it) => it.took);
    const parts = [`${counted(waits.length)}×`];
    if (session.isTimed && times.length) {
        parts.push(duration(median(times)));
        if (times.length > 1) {
            parts.push(`most ${duration(times.reduce((a, b) => Math.max(a, b), 0))}`);
        }
    }
    const open = waits.filter((it) => it.to < 0 && it.key !== "held").length;
    return [...parts, ...(open ? [`${counted(open)} open`] : [])].join(", ");
}

const beginOf = (object) => Math.max(0, object.made);
const endOf = (session, object) => (object.end >= 0 ? object.end : session.count);

// Lives that do not overlap share a row. `more` has those for which no row is left.
function lanesOf(session, objects) {
    const lanes = [], ends = [], more = [];
    for (const it of objects) {
        let lane = ends.findIndex((end) => end < beginOf(it));
        if (lane < 0 && lanes.length === MOST_LANES) {
            more.push(it);
            continue;
        }
        if (lane < 0) {
            lane = lanes.length;
            lanes.push([]);
        }
        lanes[lane].push(it);
        ends[lane] = endOf(session, it);
    }
    return { lanes, more };
}

// How many of the objects live: a message, and the number from there on.
function stepsOf(session, objects) {
    const changes = objects.flatMap((it) => [[beginOf(it), 1], ...(it.end >= 0 ? [[it.end, -1]] : [])]);
    changes.sort((a, b) => a[0] - b[0]);
    let live = 0;
    return changes.map(([message, by]) => [message, live += by]);
}

// One row for many objects: how many of them live, and the most that do at one time.
function rowOfMany(session, kind, label, objects) {
    const steps = stepsOf(session, objects), most = steps.reduce((a, [, live]) => Math.max(a, live), 0);
    return { kind, label, objects, steps, most, height: HEIGHT.fold };
}

// The rows of the objects, by what their interfaces are for. `folds` says of an interface whether it is folded, if
// that was chosen by hand.
function lifeRows(session, folds) {
    const rows = [];
    const byGroup = grouped(session.objects.filter((it) => it.made >= 0 || it.messages.length), (it) => it.group);
    for (const { key, label } of GROUPS.filter((it) => byGroup.has(it.key))) {
        rows.push({ kind: "heading", label, group: key, height: HEIGHT.heading });
        const parts = grouped(byGroup.get(key), (it) => it.interface);
        const isLong = (lanes) => lanes.length > MOST_ROWS;
        for (const [name, objects] of parts) {
            objects.sort((a, b) => a.made - b.made);
            const { lanes, more } = lanesOf(session, objects);
            const base = { group: key, interface: name, count: objects.length };
            const isFolded = folds.get(name) ?? isLong(lanes);
            if (isFolded && lanes.length > 1) {
                rows.push({ ...base, ...rowOfMany(session, "fold", name, objects) });
                continue;
            }
            lanes.forEach((lane, place) => rows.push({
                ...base, kind: "life", label: place ? "" : name, objects: lane, height: HEIGHT.life,
            }));
            if (more.length) {
                rows.push({ ...base, ...rowOfMany(session, "more", `${counted(more.length)} more`, more), count: 0 });
            }
        }
    }
    return rows;
}

// All rows with their places, and for each object its row. Where the picture is narrow, a row has its name above it.
class Layout {
    constructor(session, folds, isNarrow) {
        const waits = waitRows(session);
        this.rows = waits.length ? [{ kind: "heading", label: "Waits", group: "", height: HEIGHT.heading }] : [];
        this.rows.push(...waits, ...lifeRows(session, folds));
        this.rowOf = new Map();
        let y = 0;
        for (const row of this.rows) {
            row.y = y;
            row.above = isNarrow && row.kind !== "heading" && row.label ? HEIGHT.above : 0;
            row.height += row.above;
            y += row.height;
            row.objects?.forEach((it) => this.rowOf.set(it, row));
        }
        this.height = y + 8;
    }

    rowAt(y) {
        return this.rows.find((it) => y >= it.y && y < it.y + it.height);
    }
}
