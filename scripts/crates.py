"""The crates of crates.txt and of unproved.txt: their kinds, and which crates each one uses.

    python3 -m scripts.crates below CRATE     prints all crates that it uses, lowest first, and itself last
    python3 -m scripts.crates lines CRATE..   prints the lines of crates.txt for these crates

crates.txt has the crates that are proved, and unproved.txt those that are only compiled and run. This file alone
reads both; scripts in shell ask it."""

import os
import re
import sys
from collections.abc import Iterator, Mapping
from typing import NamedTuple

TOP = os.path.dirname(os.path.dirname(os.path.realpath(__file__)))


class Crate(NamedTuple):
    """A crate: its name, the heading above it, the libraries that it names, its line of crates.txt, and its folder
    in the repository."""

    name: str
    kind: str
    uses: list[str]
    line: str = ""
    folder: str = ""


def listed(path: str) -> Iterator[tuple[str, str, str, list[str]]]:
    """Returns the lines of a list of crates as (kind, first word, line, the words behind the colon).

    A heading is a comment `# KIND: WHAT IT IS` below an empty line."""
    kind, before = "", None
    with open(path, encoding="utf-8") as file:
        for line in file:
            heading = re.match(r"# (\w+): ", line)
            if heading and before == "":
                kind = heading[1]
            head, colon, uses = line.partition("#")[0].partition(":")
            if colon:
                yield kind, head.split()[0], line.strip(), uses.split()
            before = line.strip()


def read(top: str = TOP) -> dict[str, Crate]:
    """Returns the crates of a repository that are proved, by name, in the order of their lines."""
    found = listed(f"{top}/crates.txt")
    return {name: Crate(name, kind, uses, line, f"crates/{name}") for kind, name, line, uses in found}


def read_unproved(top: str = TOP) -> dict[str, Crate]:
    """Returns the crates of a repository that are not proved, likewise. A line names the folder of each; here it has
    the form of crates.txt. Older trees have no such crates."""
    found: dict[str, Crate] = {}
    if not os.path.exists(f"{top}/unproved.txt"):
        return found
    for kind, folder, _, uses in listed(f"{top}/unproved.txt"):
        name = os.path.basename(folder)
        found[name] = Crate(name, kind, uses, f"{name}: {' '.join(uses)}", folder)
    return found


def read_all(top: str = TOP) -> dict[str, Crate]:
    """Returns all crates of a repository, the proved ones first."""
    return {**read(top), **read_unproved(top)}


def below(crates: Mapping[str, Crate]) -> dict[str, set[str]]:
    """Returns, for each crate, the names of all crates of the repository that it uses, directly or not."""
    found = {}

    def visit(name: str) -> set[str]:
        if name not in found:
            own = {it for it in crates[name].uses if it in crates}
            found[name] = own.union(*map(visit, own))
        return found[name]

    for name in crates:
        visit(name)
    return found


def lowest_first(crates: Mapping[str, Crate], name: str) -> list[str]:
    """Returns the names of all crates that a crate uses, directly or not, and its own name last. Each comes
    after those below it."""
    found: dict[str, None] = {}

    def visit(name: str) -> None:
        if name not in found and name in crates:
            for it in crates[name].uses:
                visit(it)
            found[name] = None

    visit(name)
    return [*found]


def longest_chain_first(crates: Mapping[str, Crate], name: str) -> list[str]:
    """Returns the same names, the crate first: by how many of them stand above each, one on another."""
    order = lowest_first(crates, name)[::-1]
    above = dict.fromkeys(order, 0)
    for one in order:
        for it in crates[one].uses:
            if it in above:
                above[it] = max(above[it], above[one] + 1)
    return sorted(order, key=lambda it: (-above[it], -order.index(it)))


def nearest(crates: Mapping[str, Crate]) -> dict[str, list[str]]:
    """Returns, for each crate, those that it names and does not also use through another."""
    under = below(crates)
    found = {}
    for name, crate in crates.items():
        own = [it for it in crate.uses if it in crates]
        found[name] = [it for it in own if not any(it in under[other] for other in own)]
    return found


def main(words: list[str]) -> int:
    crates = read()
    if len(words) < 2 or not {*words[1:]} <= {*crates}:
        print(__doc__.strip(), file=sys.stderr)
        return 2
    asked, name = words[:2]
    if asked == "below":
        print(*lowest_first(crates, name), sep="\n")
    elif asked == "lines":
        print(*(crates[it].line for it in words[1:]), sep="\n")
    return 0


if __name__ == "__main__":
    sys.exit(main(sys.argv[1:]))
