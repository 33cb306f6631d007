"use strict";
// The milestones on the way to a window.

const ROLES = /^(get_toplevel|get_popup|get_layer_surface|get_lock_surface|get_shell_surface|get_xdg_popup)$/;

// The first steps to a window, in order: a name and a message each. None if the page does not show the first ones.
function milestones(session) {
    if (!session.isFromStart) {
        return [];
    }
    const found = [], seen = new Set();
    const add = (name, message) => {
        if (!seen.has(name)) {
            seen.add(name);
            found.push({ name, message });
        }
    };
    for (let i = 0; i < session.count && seen.size < 6; i++) {
        const about = session.objects[session.object[i]];
        const name = session.nameOf(i);
        if (!about || i === session.bad) {
            continue;
        }
        if (name === "bind" && about.interface === "wl_registry") {
            add("first bind", i);
        } else if (name === "create_surface") {
            add("surface", i);
        } else if (ROLES.test(name)) {
            add("role", i);
        } else if (name === "configure" && ACKED.has(about.interface)) {
            add("configured", i);
        } else if (name === "attach" && about.interface === "wl_surface" && session.value(i, 0) >= 0
            && !about.isCursor) {
            add("first buffer", i);
        } else if (seen.has("first buffer") && session.waitsOf.get(i)?.some((it) => it.to === i && !it.isGone
            && (it.key === "frame" || it.key === "presented"))) {
            add("first frame", i);
        }
    }
    return found;
}
