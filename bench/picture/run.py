"""Measures how long it takes to make, open, draw and search the page of a recording of 100,031 messages.

    python3 -m bench.picture.run

It prints a table of the figures and their limits. The exit status is 1 if a figure is above its limit. Seconds and
milliseconds are processor time. It needs the inspector (`make`) and Chromium."""

import os
import sys
import tempfile

from scripts import usage
from scripts.crates import TOP
from tests import picture_sessions
from tests.browser import Browser

INSPECTOR = os.environ.get("WAYWIRE_INSPECT", f"{TOP}/out/c/waywire-inspect")
# What is measured, in the order of the table: its limit, its unit, and how it is printed.
LIMITS = {
    "`waywire-picture` makes it, with the inspector's reading": (8, "s", ".1f"),
    "its memory": (150, "MB", ".0f"),
    "the page": (2, "MB", ".2f"),
    "Chromium opens it": (2, "s", ".1f"),
    "it is drawn": (20, "ms", ".0f"),
    "a search": (100, "ms", ".0f"),
    "the page's heap": (150, "MB", ".0f"),
}


def made(folder):
    """Makes the page. Returns its path, and how many seconds and MB of memory that took."""
    before = sum(os.times()[2:4])
    page, memory = picture_sessions.long_page(folder, INSPECTOR)
    return page, sum(os.times()[2:4]) - before, memory


def costs(page, code, times=10):
    """Milliseconds of this code: the minimum of four rounds, since the first rounds still compile the page's code."""
    rounds = []
    for _ in range(4):
        start = page.busy()
        page.run(f"(() => {{ for (let k = 0; k < {times}; k++) {{ {code} }} }})()")
        rounds.append((page.busy() - start) / times * 1000)
    return min(rounds)


def shown(path):
    """The seconds to open the page, the milliseconds to draw and to search it, and the MB of its heap."""
    with Browser() as page:
        taken = page.busy()
        page.open(path)
        opened = page.busy() - taken
        page.run("app.session.searched().length")
        draws = [costs(page, "app.draw()"), costs(page, "app.overviewKey = null; app.draw()")]
        page.run("app.places.scroller.scrollTop = 3000")
        draws.append(costs(page, "app.draw()"))
        words = ("attach wl_buffer", "@5 -commit")
        searches = [costs(page, f"app.setFilter('{it}')") for it in words]
        heap = page.run("performance.memory.usedJSHeapSize") / 1e6
    return opened, max(draws), max(searches), heap


def main():
    usage.words(__doc__, most=0)
    with tempfile.TemporaryDirectory() as folder:
        path, seconds, memory = made(folder)
        found = (seconds, memory, os.path.getsize(path) / 1e6, *shown(path))
    print("| | Limit | Measured |", "|---|---|---|", sep="\n")
    for (what, (limit, unit, form)), it in zip(LIMITS.items(), found):
        print(f"| {what} | {limit} {unit} | {it:{form}} {unit}{' (over)' if it > limit else ''} |")
    return int(any(it > limit for (limit, *_), it in zip(LIMITS.values(), found)))


if __name__ == "__main__":
    sys.exit(main())
