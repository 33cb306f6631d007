"""The pages that the tests of `waywire-picture` make, and the browser in which they open them."""

import functools
import glob
import json
import os
import subprocess
import sys
import tempfile

from tests import checks, reference
from tests.browser import Browser
from tests.checks import TOOLS, TOP, Failed, Skipped
from tests.picture_scripts import equal
from tools.waywire import table_text

TOOL = f"{TOOLS}/waywire-picture"
INSPECTOR = os.environ.get("WAYWIRE_INSPECT", f"{TOP}/out/c/waywire-inspect")
# The browser, or the reason why there is none; the program, if it is given.
KEPT = {}
ROOM = tempfile.TemporaryDirectory(prefix="waywire-picture-")


def holds(is_so, what):
    if not is_so:
        raise Failed(what)


@functools.cache
def inspector():
    """The path of the inspector. It must be able to read recordings."""
    if not os.access(INSPECTOR, os.X_OK):
        raise Skipped("the inspector is not built (make)")
    return INSPECTOR


def browser():
    """The browser of all tests, or a new one if that one has ended. If it does not start, it is not tried again."""
    if "why" in KEPT:
        raise KEPT["why"]
    if "browser" not in KEPT or KEPT["browser"].process.poll() is not None:
        close_browser()
        try:
            KEPT["browser"] = Browser()
        except Skipped as why:
            KEPT["why"] = why
            raise
    return KEPT["browser"]


def close_browser():
    if "browser" in KEPT:
        KEPT.pop("browser").close()


@functools.cache
def all_tables():
    path = f"{ROOM.name}/all.tables"
    with open(path, "wb") as file:
        file.write(checks.joined_tables())
    return path


def make(recording, page, *options, status=0):
    words = [sys.executable, TOOL, recording, "-o", page, "--inspector", inspector(), *options]
    return checks.run(words, status, with_error=True)


@functools.cache
def page_of(name):
    """The page of a recording of examples/."""
    path = f"{ROOM.name}/{name}.html"
    make(f"{TOP}/examples/{name}.rec", path, "--tables", all_tables())
    return path


def page_of_lines(name, lines):
    """The page of lines as the inspector prints them."""
    path = f"{ROOM.name}/{name}.html"
    text = "".join(f"{json.dumps(it)}\n" for it in lines)
    checks.run([sys.executable, TOOL, "--json", "-", "-o", path], input=text.encode())
    return path


@functools.cache
def traced(path):
    """The lines of the trace of a recording without a verdict, and the verdict of `check`."""
    if program := KEPT.get("program"):
        options = ["--tables", all_tables(), path]
        lines, verdict = (subprocess.run([program, it, *options], capture_output=True, text=True,
                                         encoding="latin-1", check=False).stdout.split("\n")[:-1]
                          for it in ("trace", "check"))
        return [it for it in lines if not it.startswith("broken: ")], verdict[0]
    with open(path, "rb") as file, open(all_tables(), "rb") as tables:
        return reference.judged(table_text.read_more(table_text.core_tables(), tables.read()), file.read())


def examples():
    return sorted(os.path.basename(it).removesuffix(".rec") for it in glob.glob(f"{TOP}/examples/*.rec"))


# The text of each line, as the list shows it; and without what values mean.
NAMED_LINES = """Array.from({length: app.list.rows.length}, (_, place) => app.list.line(place)).map((line) =>
    (line.querySelector('.request, .event').textContent === '→' ? '-> ' : '<- ')
    + line.querySelector('.words').textContent)"""
LINES = NAMED_LINES.replace(".map((line) =>", """.map((line) =>
    (line.querySelectorAll('.meaning').forEach((it) => it.remove()), line)).map((line) =>""")


def ascii_of(line):
    """A line with the bytes above 0x7e as a trace prints them."""
    return "".join(chr(it) if it < 0x7F else f"\\x{it:02x}" for it in line.encode())


def clean(page):
    """Nothing went wrong in a page, and it loaded nothing but itself."""
    equal(page.wrong, [], "the console")
    equal([it for it in page.fetched if not it.startswith(("file:", "about:"))], [], "fetched")


def opened(name, ending=""):
    page = browser()
    page.open(page_of(name), ending)
    return page


def told(page):
    """The findings in the tab of the session, and its remarks."""
    page.run("app.panel.show('session')")
    return [page.run(f"[...document.querySelectorAll('#told {it}')].map((it) => it.textContent)")
            for it in ("li", ".remark")]
