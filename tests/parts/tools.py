"""Runs the tests of the tools, the scripts, `./waywire` and the pages, which are in tests/tooling/.

    ./test tools [CLASS[.TEST]..]

With names, such as Pages, only the tests of these classes are run. The last line is 'N passed, M failed'."""

import importlib

from scripts import usage
from tests import checks

SUBJECTS = ("gate", "mutants", "sources", "pages", "tables", "malformed", "texts", "sessions",
            "building", "compiling", "proving", "profiles", "toolchains", "archives",
            "libwayland")


def main():
    names = usage.words(__doc__)
    modules = [importlib.import_module(f"tests.tooling.{it}") for it in SUBJECTS]
    return checks.count_cases(checks.suite_of(names, *modules))
