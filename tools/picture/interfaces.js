"use strict";
// A row for each interface: how many messages and bytes, and how many objects were made and left.

function countsByInterface(session) {
    const counts = new Map();
    const of = (name) => {
        if (!counts.has(name)) {
            counts.set(name, { name, requests: 0, events: 0, bytes: 0, made: 0, left: 0 });
        }
        return counts.get(name);
    };
    for (let i = 0; i < session.count; i++) {
        const it = of(session.objects[session.object[i]]?.interface ?? "unknown");
        it[session.direction[i] === REQUEST ? "requests" : "events"] += 1;
        it.bytes += session.size[i];
    }
    for (const object of session.objects.filter((it) => it.made >= 0)) {
        const it = of(object.interface);
        it.made += 1;
        it.left += session.isOpen(object) ? 1 : 0;
    }
    return [...counts.values()].sort((a, b) => b.requests + b.events - a.requests - a.events);
}

function interfacesTable(session, panel) {
    const table = element("table"), head = element("tr");
    head.append(...["interface", "→", "←", "bytes", "made", "left"].map((it) => {
        const cell = element("th", "", it);
        cell.scope = "col";
        return cell;
    }));
    const unseen = { "→": "requests", "←": "events" };
    [...head.children].forEach((it) => unseen[it.textContent] && it.setAttribute("aria-label", unseen[it.textContent]));
    table.append(head);
    session.byInterface ??= countsByInterface(session);
    for (const { name, ...numbers } of session.byInterface) {
        const row = element("tr"), cell = element("td");
        cell.append(panel.link(name, -1, name));
        row.append(cell, ...Object.values(numbers).map((it) => element("td", "", it ? counted(it) : "")));
        table.append(row);
    }
    return table;
}
