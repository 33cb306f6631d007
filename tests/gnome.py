"""waywire-inspect judges GTK programs at mutter. `./test c` runs this."""

import os
import re
import signal
import subprocess

from tests.checks import LONG, Failed, Skipped, has_come, is_installed
from tests.libwayland import kwin_and_mutter

PROGRAMS = (["zenity", "--info", "--text=hello"], ["gtk3-demo"], ["gtk4-demo"], ["gtk4-widget-factory"])
DRAWN = r"-> wl_surface@\d+\.commit\("


def judged(desktop, tool, words):
    """The output of the tool for a program, from its start until it has drawn."""
    path = os.path.join(desktop.room, "said")
    ran = desktop.start([tool, "--output", path, *words], stderr=subprocess.PIPE)
    try:
        def said():
            # A character at the end may not be whole yet.
            with open(path, encoding="utf-8", errors="replace") as file:
                return file.read()
        has_drawn = has_come(lambda: ran.poll() is not None or os.path.exists(path) and re.search(DRAWN, said()))
        ran.send_signal(signal.SIGTERM)
        error = ran.communicate(timeout=LONG)[1].decode(errors="replace")
    finally:
        kwin_and_mutter.desktops.end_group(ran)
    if not has_drawn or not os.path.exists(path):
        raise Failed(f"{words[0]} has not drawn: {error[-400:]}")
    lines = said()
    os.remove(path)
    return lines


def is_judged_at_mutter(tool):
    """Programs that bind gtk_shell1 are lawful to their end."""
    programs = [it for it in PROGRAMS if is_installed(it[0])]
    if not programs:
        raise Skipped("no program of GTK is installed")
    with kwin_and_mutter.mutter() as desktop:
        for words in programs:
            lines = judged(desktop, tool, words)
            if not re.search(r'\.bind\(\d+, "gtk_shell1", ', lines):
                raise Failed(f"{words[0]} does not bind gtk_shell1")
            verdict = lines.splitlines()[-1]
            if not verdict.startswith("lawful: "):
                raise Failed(f"{words[0]}: {verdict}")
