"""Copies texts in one program and pastes them in another, all with one library: programs of GTK 3, GTK 4 and
Qt, foot, Firefox, and those of wl-clipboard, each with each."""

import itertools
import os
import re
import subprocess
import time

from tests.checks import COMES_UP, Failed, Skipped, has_come, need
from tests.libwayland import desktops
from tests.libwayland.libraries import SOURCES

KINDS = ("gtk3", "gtk4", "qt", "foot", "firefox", "wl-clipboard")
MODULES = {"gtk3": "import gi; gi.require_version('Gtk', '3.0'); from gi.repository import Gtk",
           "gtk4": "import gi; gi.require_version('Gtk', '4.0'); from gi.repository import Gtk",
           "qt": "import PyQt5.QtWidgets"}
# How long keys are given before they are pressed again, and all of them, in seconds.
AGAIN = 3
PASSES = COMES_UP
COPY, PASTE = "-s 300 -M ctrl -k c -m ctrl -s 50", "-s 300 -M ctrl -k v -m ctrl -s 50"
# A line c copies; any other is what was pasted.
TERMINAL = r"""stty -echo
n=0
while read -r line; do
    if [ "$line" = c ]; then
        n=$((n + 1))
        printf '\033]52;c;%s\033\\' "$(printf 'foot %s' $n | base64)"
        echo "copied foot $n" >>"$SAID"
    else
        echo "pasted $line" >>"$SAID"
    fi
done
"""
PAGE = """<!DOCTYPE html><meta charset=utf-8><title>a page</title><textarea autofocus></textarea>
<script>
let n = 0;
document.addEventListener("copy", it => {
    it.clipboardData.setData("text/plain", "firefox " + ++n);
    it.preventDefault();
    document.title = "copied firefox " + n + ".";
});
document.addEventListener("paste", it => {
    document.title = "pasted " + it.clipboardData.getData("text/plain") + ".";
    it.preventDefault();
});
addEventListener("keydown", it => { if (!it.ctrlKey) document.title = "ready"; });
</script>
"""
PREFERENCES = """user_pref("browser.aboutwelcome.enabled", false);
user_pref("browser.shell.checkDefaultBrowser", false);
user_pref("datareporting.policy.dataSubmissionEnabled", false);
user_pref("toolkit.telemetry.enabled", false);
user_pref("browser.tabs.warnOnClose", false);
user_pref("browser.sessionstore.resume_from_crash", false);
user_pref("app.update.enabled", false);
user_pref("termsofuse.bypassNotification", true);
"""


def pressed(desktop, keys):
    desktop.output_of(["wtype", *keys.split()])


class Program:
    """A program with a window, in which keys copy and paste. Its output about that goes to a file."""

    keys = {"copied": COPY, "pasted": PASTE}

    def __init__(self, desktop, library, kind):
        self.desktop, self.library, self.kind = desktop, library, kind
        self.said = f"{desktop.room}/{kind}.{'ours' if library.path else 'theirs'}"
        self.errors = f"{self.said}.errors"
        open(self.said, "w", encoding="utf-8").close()
        desktop.renew_keyboard()
        with open(self.errors, "wb") as errors, open(self.said, "ab") as said:
            self.process = desktop.start(self.words(), library, stdout=said, stderr=errors,
                                         env={"SAID": self.said})
        if not has_come(lambda: self.windows() or self.has_ended()) or not self.windows():
            self.end()
            with open(self.errors, encoding="utf-8", errors="replace") as file:
                raise Failed(f"{kind} has opened no window within {COMES_UP} s: {file.read()[-600:]}")

    def words(self):
        ran = subprocess.run([desktops.PYTHON, "-c", MODULES[self.kind]], capture_output=True, check=False)
        if ran.returncode:
            raise Skipped(f"Python's modules for {self.kind} are not installed")
        return [desktops.PYTHON, f"{SOURCES}/window.py", self.kind]

    def has_ended(self):
        return self.process.poll() is not None

    def windows(self):
        return self.desktop.windows_of(self.process)

    def texts(self, what):
        """The texts that it has reported as copied, or as pasted."""
        with open(self.said, encoding="utf-8", errors="replace") as file:
            return re.findall(rf"^{what} (.*)$", file.read(), re.M)

    def does(self, what, is_done):
        """Presses the keys, again and again, until a condition is true of the program's output."""
        began = time.monotonic()
        while not self.has_ended() and time.monotonic() - began < PASSES:
            windows = self.windows()
            if windows:
                self.desktop.focus(windows[0])
            self.begins(what)
            pressed(self.desktop, self.keys[what])
            if has_come(is_done, AGAIN):
                return
        how = f"has ended with status {self.process.returncode}" if self.has_ended() else "does not"
        raise Failed(f"{self.kind} {how}: {what}, after {self.texts(what)[-3:]}")

    def begins(self, what):
        """Prepares the program for keys."""

    def copies(self):
        """Copies a new text, and returns it."""
        before = len(self.texts("copied"))
        self.does("copied", lambda: len(self.texts("copied")) > before)
        return self.texts("copied")[-1]

    def copied_since(self, text):
        """This text, which it has copied, and what it has copied since, by keys that were late."""
        texts = self.texts("copied")
        return texts[texts.index(text) :]

    def pastes(self, is_wanted):
        """Pastes until a wanted text comes."""
        before = len(self.texts("pasted"))
        self.does("pasted", lambda: any(map(is_wanted, self.texts("pasted")[before:])))

    def end(self):
        desktops.end_group(self.process)


class Foot(Program):
    """A terminal: a program in it copies by an escape sequence, and keys paste."""

    keys = {"copied": "-s 300 -k Return c -k Return -s 50",
            "pasted": "-s 300 -k Return -M ctrl -M shift -k v -m shift -m ctrl -s 200 -k Return -s 50"}

    def words(self):
        need("foot")
        return ["foot", "--config=/dev/null", "sh", "-c", TERMINAL]


class Firefox(Program):
    """A browser, whose page says in its title what was copied or pasted."""

    def words(self):
        need("firefox-esr")
        profile = f"{self.said}.profile"
        os.makedirs(profile, exist_ok=True)
        for path, text in ((f"{profile}/user.js", PREFERENCES), (f"{profile}/page.html", PAGE)):
            with open(path, "w", encoding="utf-8") as file:
                file.write(text)
        return ["firefox-esr", "--no-remote", "--profile", profile, f"file://{profile}/page.html"]

    def titles(self):
        return [it.get("name") or "" for it in self.windows()]

    def texts(self, what):
        return [text for it in self.titles() for text in re.findall(rf"^{what} (.*)\.", it)]

    def begins(self, what):
        """The title changes with each text, even if the text is the same."""
        pressed(self.desktop, "-s 300 x -s 50")
        has_come(lambda: not self.texts(what), AGAIN)

    def copies(self):
        self.does("copied", lambda: self.texts("copied"))
        return self.texts("copied")[-1]

    def copied_since(self, text):
        return [text, *self.texts("copied")]

    def pastes(self, is_wanted):
        self.does("pasted", lambda: any(map(is_wanted, self.texts("pasted"))))


class WlClipboard:
    """wl-copy and wl-paste, which have no window here."""

    numbers = itertools.count(1)

    def __init__(self, desktop, library, _kind):
        need("wl-copy", "wl-paste")
        self.desktop, self.library, self.started = desktop, library, []

    def copies(self):
        text = f"wl-copy {next(self.numbers)}"
        words = ["wl-copy", "--foreground", text]
        self.started.append(self.desktop.start(words, self.library))
        if not has_come(lambda: self.desktop.output_of(["wl-paste", "--no-newline"]) == text.encode()):
            raise Failed("wl-copy has copied nothing")
        return text

    def copied_since(self, text):
        return [text]

    def pastes(self, is_wanted):
        got = []

        def has_pasted():
            got.append(self.desktop.output_of(["wl-paste", "--no-newline"], self.library).decode())
            return is_wanted(got[-1])
        if not has_come(has_pasted, PASSES):
            raise Failed(f"wl-paste pastes {got[-1]!r}")

    def end(self):
        for it in self.started:
            desktops.end_group(it)


CLASSES = {"foot": Foot, "firefox": Firefox, "wl-clipboard": WlClipboard}


class Programs:
    """The programs with one library, at a kept desktop. Each is started when a test first needs it. One that cannot be
    started is not tried again: each of its tests ends in the same way."""

    def __init__(self, kept, library):
        self.kept, self.library = kept, library
        self.started, self.lacking = {}, {}

    def __call__(self, kind):
        if kind in self.lacking:
            ended, why = self.lacking[kind]
            raise ended(why)
        if kind not in self.started:
            try:
                self.started[kind] = CLASSES.get(kind, Program)(self.kept(), self.library, kind)
            except (Failed, Skipped) as why:
                self.lacking[kind] = type(why), str(why)
                raise
        return self.started[kind]

    def end(self):
        for it in self.started.values():
            it.end()


class Clipboard:
    """The copied text, and the program that copied it."""

    def __init__(self):
        self.owner, self.text = None, None

    def passes(self, source, target):
        """Pastes in one program a text that another program has copied."""
        if self.owner is not source:
            self.owner, self.text = None, source.copies()
            self.owner = source
        target.pastes(lambda text: text in source.copied_since(self.text))


def case(clipboard, source, target, copying, pasting, theirs):
    """A test of a pair of programs, one that copies and one that pastes. If it also fails with the system's
    library, it says nothing."""
    def test():
        try:
            clipboard.passes(copying(source), pasting(target))
        except Failed as why:
            if theirs in (copying, pasting):
                raise
            try:
                clipboard.passes(theirs(source), theirs(target))
            except Failed as their_why:
                raise Skipped(f"it fails over the system's library, too: {their_why}") from why
            raise
    over = "".join(f", {did} over the system's library" for did, its in
                   (("copied", copying), ("pasted", pasting)) if its is theirs)
    test.__name__ = f"a text copied in {source} and pasted in {target}{over}"
    return test


def shows_a_page_and_quits(firefox):
    """Its window has the page's title; when it is closed, the program ends with status 0."""
    if not has_come(lambda: any(re.match("(a page|ready|copied|pasted)", it) for it in firefox.titles())):
        raise Failed(f"its windows are {firefox.titles()}")
    if not any(map(firefox.library.is_loaded_by, desktops.members(firefox.process))):
        raise Failed("firefox has not loaded the library")
    firefox.desktop.close(firefox.process)
    if not has_come(firefox.has_ended) or firefox.process.returncode:
        raise Failed(f"it has not ended, or with status {firefox.process.returncode}")


def cases(ours, theirs, is_whole):
    """All pairs, ordered by the program that copies; with --whole also pairs of one program with each of the
    libraries. At the end Firefox is closed."""
    clipboard = Clipboard()
    libraries = [(ours, ours), *([(ours, theirs), (theirs, ours)] if is_whole else [])]
    found = [case(clipboard, source, target, *its, theirs)
             for its in libraries for source in KINDS for target in KINDS]

    def firefox():
        shows_a_page_and_quits(ours("firefox"))
    firefox.__name__ = "firefox shows a page and quits"
    return [*found, firefox]
