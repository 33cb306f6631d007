"""Tests `waywire-picture`: the tool, the scripts of its pages in node, and its pages in a headless Chromium.

    ./test picture [PROGRAM] [TEST..]

The pages are made from the output of out/c/waywire-inspect (`make`), or of the inspector that WAYWIRE_INSPECT
in the environment names. With PROGRAM, a built `waywire`, lines are compared with its traces, otherwise with
those of `reference`. With names of tests, such as late_frame, only these are run. If Chromium, the inspector or node
is not there, the tests that need it are skipped, and it says so. The last line is 'N passed, M failed'."""

import contextlib

from scripts import usage
from tests import (checks, picture_contents, picture_findings, picture_pages, picture_parts, picture_room,
                   picture_scripts, picture_tool, picture_use)

TESTS = (*picture_tool.TESTS, *picture_scripts.TESTS, *picture_contents.TESTS, *picture_parts.TESTS,
         *picture_findings.TESTS, *picture_use.TESTS, *picture_room.TESTS)


def main():
    named = {it.__name__: it for it in TESTS}
    words = usage.words(__doc__)
    if words and words[0] not in named:
        picture_pages.KEPT["program"] = words.pop(0)
    if unknown := [it for it in words if it not in named]:
        usage.refuse(f"there is no test {unknown[0]}")
    with contextlib.ExitStack() as ends:
        ends.callback(picture_pages.close_browser)
        return checks.count_functions([named[it] for it in words] or TESTS)
