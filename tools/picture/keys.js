"use strict";
// The keyboard.

function keysOf(app) {
    return {
        "/": () => app.filterField.focus(),
        Escape: () => (app.filter ? app.setFilter("") : app.select(-1)),
        ArrowDown: () => app.step(1), j: () => app.step(1),
        ArrowUp: () => app.step(-1), k: () => app.step(-1),
        PageDown: () => app.step(app.pageOfList()), PageUp: () => app.step(-app.pageOfList()),
        Home: () => app.step(-Infinity), End: () => app.step(Infinity),
        ArrowRight: () => app.stepOfObject(1), ArrowLeft: () => app.stepOfObject(-1),
        Enter: () => app.toOther(),
        o: () => app.filterByObject(), i: () => app.filterByInterface(),
        b: () => app.toTrouble(),
        w: () => app.zoom(1 / 1.6), s: () => app.zoom(1.6),
        a: () => app.move(-0.25), d: () => app.move(0.25),
        0: () => app.showAll(), f: () => app.fitObject(),
        t: () => switchScale(app), g: () => switchGaps(app), x: () => app.fold(),
        1: () => app.panel.show("session"), 2: () => app.panel.show("message"), 3: () => app.panel.show("interfaces"),
        "?": showHelp,
    };
}

// The keys that scroll the text of a tab, or the picture, if it has the focus.
const SCROLLING = new Set(["ArrowDown", "ArrowUp", "PageDown", "PageUp", "Home", "End"]);
// The keys of buttons, links and tabs.
const PRESSING = new Set(["Enter", " ", "ArrowLeft", "ArrowRight"]);

// Whether what has the focus takes a key for itself.
function isTaken(target, key) {
    return Boolean((SCROLLING.has(key) && target.closest("#told, #scroller"))
        || (PRESSING.has(key) && target.closest("button, a, [role=tab]")));
}

// The keys of the filter field that are no text: they lead back to the list.
function inFilter(app, key) {
    if (key === "Escape") {
        app.setFilter("");
    }
    if (key === "Escape" || key === "Enter") {
        app.list.place.focus();
    }
}

function addKeys(app) {
    const does = keysOf(app);
    document.addEventListener("keydown", (event) => {
        const { target, key } = event;
        if (event.ctrlKey || event.metaKey || event.altKey || document.querySelector("dialog[open]")) {
            return;
        }
        if (target === app.filterField) {
            inFilter(app, key);
        } else if (!isTaken(target, key) && Object.hasOwn(does, key)) {
            event.preventDefault();
            does[key]();
        }
    });
}
