"""Prints which files of the crates are not in the layout of `rt fmt`. The gate refuses those of proved crates too,
but only after minutes.

    ./test layout [--write] [CRATE..]      --write lays them out

The last line is 'N passed, M failed', counted in crates. The exit status is 0 if none failed."""

import os
from concurrent.futures import ThreadPoolExecutor

from scripts import crates, usage
from tests import checks


def main():
    words, found = usage.words(__doc__, "--write"), crates.read_all()
    is_written, names = "--write" in words, [it for it in words if it != "--write"] or [*found]
    if not checks.is_installed("rt"):
        print("skipped: the layout: rt is not installed")
        return checks.counted(0, 0)
    for it in names:
        if it not in found:
            usage.refuse(f"there is no crate {it}")
    with ThreadPoolExecutor(os.cpu_count()) as pool:
        files = [*pool.map(lambda it: checks.out_of_layout(found[it], is_written), names)]
    wrong = {name: changed for name, changed in zip(names, files) if changed}
    for name, changed in wrong.items():
        if is_written:
            print(f"{name}: laid out: {', '.join(changed)}")
        else:
            print(f"failed: layout of {name}: ./test layout --write {name} ({', '.join(changed)})")
    if is_written:
        return 0
    return checks.counted(len(names) - len(wrong), len(wrong))
