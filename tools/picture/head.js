"use strict";
// The head of the page, and what its buttons do; the hash of the URL, which has the selection and the filter.

function pill(className, text) {
    return element("span", `pill ${className}`, text);
}

function fillHead(app) {
    const { session } = app, { verdict, broken, error } = session.raw, head = document.getElementById("about");
    const kind = broken ? "broken" : error ? "error" : verdict?.verdict ?? "unknown";
    const words = broken ? `broken: ${ruleOf(broken)}` : error ? `ended by error ${error.code}` : kind;
    head.append(element("h1", "", session.title));
    const { name, pid } = session.raw.client, who = whoOf(name === session.title ? null : name, pid);
    if (who) {
        head.append(element("span", "counts who", who));
    }
    head.append(pill(kind === "lawful" ? "good" : broken || error ? "bad" : "look", words));
    if (session.part) {
        head.append(pill("part", session.partWords()));
    }
    const looks = session.findings.filter((it) => it.level === "look").length;
    if (looks) {
        const button = element("button", "pill look", `${looks} to look at`);
        button.addEventListener("click", () => app.panel.show("session"));
        head.append(button);
    }
    head.append(countsOf(session));
    document.title = `${session.title}: ${kind}`;
    app.places.picture.setAttribute("aria-label", `The picture of ${session.title}: ${words}, `
        + `${several(session.count, "message")}. The list below has every message, and the tabs have what is worth a look.`);
    showScale(app);
    showGaps(app);
    document.getElementById("scale").disabled = !session.isTimed;
}

function countsOf(session) {
    const { verdict } = session.raw, line = element("span", "counts");
    const made = session.objects.filter((it) => it.made >= 0 || it.id === 1);
    const left = made.filter((it) => session.isOpen(it)).length;
    const fds = session.signatures.map(({ kinds }) => kinds.filter(([kind]) => kind === "fd").length);
    const descriptors = session.signature.reduce((sum, it) => sum + fds[it], 0);
    const known = session.part ? null : verdict;
    const totals = [known?.requests ?? session.requests, known?.events ?? session.events];
    if (session.bad >= 0 && known) {
        totals[session.direction[session.bad]] += 1;
    }
    const part = (...words) => {
        const span = element("span");
        words.forEach((it, place) => span.append(place % 2 ? it : element("b", "", it)));
        return span;
    };
    const requests = part(counted(totals[REQUEST]), " →");
    requests.setAttribute("aria-label", `${requests.textContent.slice(0, -1)} requests`);
    const events = part(counted(totals[EVENT]), " ←");
    events.setAttribute("aria-label", `${events.textContent.slice(0, -1)} events`);
    const parts = [requests, " ", events, " · ", session.isTimed ? [part(duration(session.span)), " · "] : [],
        part(counted(made.length), ` object${made.length === 1 ? "" : "s"}, `, counted(left),
            session.isToEnd ? " left at the end" : " left at the end of this part"),
        descriptors ? [" · ", part(counted(descriptors), descriptors === 1 ? " fd" : " fds")] : []];
    line.append(...parts.flat());
    return line;
}

function showScale(app) {
    const button = document.getElementById("scale");
    button.textContent = app.view.isTime ? "time" : "order";
    button.setAttribute("aria-label", `the picture is by ${button.textContent}; switch (t)`);
}

function switchScale(app) {
    if (app.session.isTimed) {
        rescale(app, !app.view.isTime, app.view.isFolded);
    }
}

// By time or by order, and with folded gaps or not. The same messages stay in view.
function rescale(app, isTime, isFolded) {
    const { view } = app, isWhole = view.from <= 0 && view.to >= view.end();
    const [first, behind] = view.seen(), last = Math.max(0, behind - 1);
    view.scale(isTime, isFolded);
    if (isWhole) {
        view.all();
    } else {
        view.show(view.at(Math.min(first, last)), view.at(last));
    }
    showScale(app);
    showGaps(app);
    app.drawSoon();
}

function showHelp() {
    document.getElementById("keys").showModal();
}

// How many messages the filter finds, and whether the selected one is hidden.
function showFound(app) {
    const { isShown, selected, session, list: { rows } } = app, place = document.getElementById("found");
    const isHidden = isShown && selected >= 0 && !isShown[selected];
    const words = (isShown ? `${counted(rows.length)} of ${counted(session.count)}` : "")
        + (isHidden ? `, message ${session.numberOf(selected)} is hidden` : "");
    // A reader of the screen hears each change.
    if (place.textContent !== words) {
        place.textContent = words;
    }
}

// The address follows once nothing was changed for so many milliseconds: browsers refuse many changes in a short time.
const QUIET = 200;

function writeHash(app) {
    const parts = [];
    if (app.selected >= 0) {
        parts.push(`m=${app.session.number[app.selected]}`);
    }
    if (app.filter) {
        parts.push(`f=${encodeURIComponent(app.filter)}`);
    }
    app.hash = parts.join("&");
    clearTimeout(app.hashTimer);
    app.hashTimer = setTimeout(() => {
        try {
            history.replaceState(null, "", `#${app.hash}`);
        } catch {
            // Refused all the same. The next change is written.
        }
    }, QUIET);
}

// Applies the hash of the address, unless the page itself wrote it.
function readHash(app) {
    const hash = location.hash.slice(1);
    if (hash === (app.hash ?? "")) {
        return;
    }
    const words = new URLSearchParams(hash.replaceAll("+", "%2B"));
    const message = Number.parseInt(words.get("m") ?? "", 10);
    app.setFilter(words.get("f") ?? "");
    if (message >= 1) {
        app.select(firstFrom(app.session.number, message));
    }
}
