"use strict";
// Unpacks the session, finds what there is to say of it, and shows it.

async function openPage() {
    const status = document.getElementById("status");
    try {
        const session = readSession(await unpacked(document.getElementById("data").textContent));
        window.app = new App(session);
        window.app.start();
        status.remove();
        // The first search is as quick as the others.
        (window.requestIdleCallback ?? setTimeout)(() => session.searched());
    } catch (error) {
        status.textContent = `The page cannot be shown: ${error.message}`;
        throw error;
    }
}

openPage();
