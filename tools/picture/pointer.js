"use strict";
// The pointer over the pictures: a mouse, a pen or a finger.

// How many pixels a pointer may move in a click; a finger is less steady.
const STEADY = 3, STEADY_FINGER = 10;

// Calls `moved` while a pointer is held and has moved. At the end it calls `dragged`, or `clicked` if it has not moved.
// The browser may take the pointer, as it does if a finger scrolls; then it calls neither. `over` is called in each case.
function onDrag(place, { began = () => {}, moved, dragged = () => {}, clicked, over = () => {} }) {
    place.addEventListener("pointerdown", (down) => {
        if (down.button !== 0 || !down.isPrimary) {
            return;
        }
        place.setPointerCapture(down.pointerId);
        began();
        const steady = down.pointerType === "touch" ? STEADY_FINGER : STEADY, ends = new AbortController();
        const on = (type, act) => place.addEventListener(type,
            (event) => event.pointerId === down.pointerId && act(event), { signal: ends.signal });
        const end = () => {
            ends.abort();
            over();
        };
        let isMoved = false;
        on("pointermove", (event) => {
            isMoved ||= Math.hypot(event.clientX - down.clientX, event.clientY - down.clientY) > steady;
            if (isMoved) {
                moved(down, event);
            }
        });
        on("pointerup", (event) => {
            end();
            (isMoved ? dragged : clicked)(down, event);
        });
        on("pointercancel", end);
    });
}

// A drag over the overview or the axis shows that part, and a click puts that place in the middle. `app[name]` is the
// part that is being chosen.
function addChoosing(app, place, name, atOf) {
    onDrag(place, {
        moved: (down, event) => {
            app[name] = [down.offsetX, event.offsetX];
            app.drawSoon();
        },
        dragged: (down, event) => app.show(...[atOf(down.offsetX), atOf(event.offsetX)].sort((a, b) => a - b)),
        clicked: (down, event) => {
            const half = (app.view.to - app.view.from) / 2, at = atOf(event.offsetX);
            app.show(at - half, at + half);
        },
        over: () => {
            app[name] = null;
            app.drawSoon();
        },
    });
}

// A drag moves the picture, and a click selects. After both, the keys are those of the list.
function addMoving(app) {
    const { picture, scroller } = app.places, begun = {};
    onDrag(picture, {
        began: () => Object.assign(begun, { from: app.view.from, to: app.view.to, top: scroller.scrollTop }),
        moved: (down, event) => {
            const by = (begun.to - begun.from) * (down.offsetX - event.offsetX) / app.view.inner;
            scroller.scrollTop = begun.top + down.clientY - event.clientY;
            const least = Math.max(-begun.from, Math.min(by, app.view.end() - begun.to));
            app.show(begun.from + least, begun.to + least);
        },
        clicked: (down, event) => app.pick(event.offsetX, event.offsetY + scroller.scrollTop),
        over: () => app.list.place.focus({ preventScroll: true }),
    });
}

// The pixels of a wheel's unit: a pixel, a line or a page. The most that one event of a wheel zooms.
const UNITS = [1, 33, 400], MOST_ZOOM = 0.25;

// How much an event of the wheel zooms: a notch by about a quarter, and each of the many events of a pinch by little.
function zoomOf({ deltaY, deltaMode }) {
    const by = deltaY * (UNITS[deltaMode] ?? 1) * 0.003;
    return Math.exp(Math.max(-MOST_ZOOM, Math.min(MOST_ZOOM, by)));
}

function addWheel(app, place, atOf) {
    place.addEventListener("wheel", (event) => {
        if (event.ctrlKey) {
            event.preventDefault();
            app.zoom(zoomOf(event), atOf(event.offsetX));
        } else if (event.shiftKey || Math.abs(event.deltaX) > Math.abs(event.deltaY)) {
            event.preventDefault();
            app.move((event.deltaX || event.deltaY) / 1000);
        }
    }, { passive: false });
}

function addPointer(app) {
    const { overview, axis, picture } = app.places;
    const inWhole = (x) => (x - app.view.left) / app.view.inner * app.view.end();
    addChoosing(app, overview, "overviewDrag", inWhole);
    addChoosing(app, axis, "axisDrag", (x) => app.view.atX(x));
    addMoving(app);
    addWheel(app, overview, inWhole);
    [axis, picture].forEach((it) => addWheel(app, it, (x) => app.view.atX(Math.max(app.view.left, x))));
}
