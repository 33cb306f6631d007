"""Proves and builds the programs of measurements in a folder of their own, so the gate does not see them."""

import os
import shutil
import subprocess
import sys

from scripts import toolchain
from scripts.crates import TOP


def build(folder, program, source, over, words):
    """Proves and builds a program that uses these crates, runs it once with these words, and returns its path."""
    clone = toolchain.Clone(TOP)
    below = {low for it in over for low in clone.below(it)}
    names = [it for it in clone.crates if it in below]
    clone.copy(folder, names)
    os.makedirs(f"{folder}/crates/{program}/src")
    shutil.copy(source, f"{folder}/crates/{program}/src/main.rt")
    with open(f"{folder}/crates.txt", "a", encoding="utf-8") as file:
        file.write(f"{program}: {' '.join(sorted(names))}\n")
    with open(f"{folder}/crates/{program}/args", "w", encoding="utf-8") as file:
        file.write("".join(f"{word}\n" for word in words))
    subprocess.run(["rt", "ci"], cwd=folder, stdout=sys.stderr, check=True)
    return f"{folder}/crates/{program}/out/{program}"
