"use strict";
// Light or dark: as the system is, until somebody chooses. It runs first, so that the page begins in its colours.

const systemIsDark = matchMedia("(prefers-color-scheme: dark)");

const isDark = () => document.documentElement.dataset.theme === "dark";

function setTheme(dark) {
    document.documentElement.dataset.theme = dark ? "dark" : "light";
}

function switchTheme(app) {
    app.isThemeChosen = true;
    setTheme(!isDark());
    recolour(app);
}

function followSystem(app) {
    if (!app.isThemeChosen) {
        setTheme(systemIsDark.matches);
        recolour(app);
    }
}

function recolour(app) {
    app.colours = readColours();
    app.draw();
}

setTheme(systemIsDark.matches);
