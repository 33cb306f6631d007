"""The archive of the crate waywire_c, with the checksums of all that it was made from.

    python3 -m scripts.proved_archive check FOLDER  says whether a folder has an archive that was proved
                                                    from the sources of this tree; the status is 1 if not
    python3 -m scripts.proved_archive take FOLDER.. takes the archive of the first such folder, as if
                                                    it had been built here; the status is 1 if none has one
    python3 -m scripts.proved_archive ready         the status is 0 if the archive of this tree can go
                                                    into a package
    python3 -m scripts.proved_archive pack FOLDER   puts it there, for `check` and `take`

The archive lies in crates/waywire_c/out. Beside it are the toolchain's memory functions, which the
library for C is linked with, and a file of checksums, libwaywire_c.sums. Its first line says how the
archive was made, and by which toolchain:

    whole     everything that it stands on was proved as the gate proves it: a crate at a time, from nothing
    kept      so were the libraries; of waywire_c itself, functions that had not changed were proved by
              an earlier run in this clone (crates/waywire_c/out/kept)
    taken     it was `whole` where somebody else proved it, and is here the same, byte by byte
    unproved  nothing was proved

The other lines have the checksums (SHA-256) of the two archives, and of each source, specification and
proof of waywire_c and of the crates below it, and of their lines in crates.txt. Only an archive that is
`whole` or `taken`, with the checksums of the tree, goes into a package."""

import contextlib
import hashlib
import os
import shutil
import sys
import time
from collections.abc import Iterable, Mapping
from typing import NamedTuple

from scripts import crates

LIBRARY = "waywire_c"
ARCHIVE = f"lib{LIBRARY}.a"
# The toolchain's memory functions.
MEMORY = "liblibc_c.a"
SUMS = f"lib{LIBRARY}.sums"
# What the archive is proved from, of each crate.
PARTS = ("src", "specs", "proofs")
WHOLE, KEPT, TAKEN, UNPROVED = "whole", "kept", "taken", "unproved"


class Record(NamedTuple):
    """How an archive was made, by which toolchain, and the checksums by name, in order."""

    how: str
    toolchain: str
    sums: dict[str, str]

    def is_for_a_package(self) -> bool:
        return self.how in (WHOLE, TAKEN)


def place(top: str = crates.TOP) -> str:
    """The folder of the archive that was built in a tree."""
    return f"{top}/crates/{LIBRARY}/out"


def sum_of_file(path: str) -> str:
    with open(path, "rb") as file:
        return hashlib.sha256(file.read()).hexdigest()


def of_sources(listed: Mapping[str, crates.Crate], tops: Mapping[str, str]) -> dict[str, str]:
    """The checksums of what waywire_c is made from: each crate's files, from the tree or the copy in which
    it lies, and its line of crates.txt."""
    found = {}
    for name in crates.lowest_first(listed, LIBRARY):
        line = listed[name].line.encode()
        found[f"crates.txt: {name}"] = hashlib.sha256(line).hexdigest()
        for part in PARTS:
            for at, folders, files in os.walk(f"{tops[name]}/crates/{name}/{part}"):
                folders.sort()
                for path in (f"{at}/{it}" for it in sorted(files)):
                    found[os.path.relpath(path, tops[name])] = sum_of_file(path)
    return found


def of_tree(top: str) -> dict[str, str]:
    listed = crates.read(top)
    return of_sources(listed, dict.fromkeys(listed, top))


def of_archives(folder: str) -> dict[str, str]:
    """The checksums of the two archives in a folder."""
    paths = {it: f"{folder}/{it}" for it in (ARCHIVE, MEMORY)}
    return {it: sum_of_file(path) for it, path in paths.items() if os.path.isfile(path)}


def write(folder: str, record: Record) -> None:
    with open(f"{folder}/{SUMS}", "w", encoding="utf-8") as file:
        file.write(f"{record.how} {record.toolchain}\n")
        file.writelines(f"{found}  {name}\n" for name, found in record.sums.items())


def read(folder: str) -> Record | None:
    """The record of a folder; None if it has none."""
    with contextlib.suppress(OSError), open(f"{folder}/{SUMS}", encoding="utf-8") as file:
        how, _, toolchain = file.readline().strip().partition(" ")
        sums = (it.rstrip("\n").partition("  ") for it in file)
        return Record(how, toolchain, {name: found for found, _, name in sums})
    return None


def record_of(folder: str) -> Record:
    """The record of a folder that has one."""
    found = read(folder)
    assert found
    return found


def leave(folder: str, record: Record, archive: str, memory: str, then: int) -> None:
    """Puts an archive, the memory functions and their record into a folder, with this time in nanoseconds. A
    run that is ended here leaves no archive."""
    os.makedirs(folder, exist_ok=True)
    with contextlib.suppress(FileNotFoundError):
        os.unlink(f"{folder}/{ARCHIVE}")
    shutil.copyfile(memory, f"{folder}/{MEMORY}")
    shutil.copyfile(archive, f"{folder}/{ARCHIVE}.new")
    made = {ARCHIVE: sum_of_file(f"{folder}/{ARCHIVE}.new"), MEMORY: sum_of_file(f"{folder}/{MEMORY}")}
    write(folder, record._replace(sums={**made, **record.sums}))
    os.utime(f"{folder}/{ARCHIVE}.new", ns=(then, then))
    os.replace(f"{folder}/{ARCHIVE}.new", f"{folder}/{ARCHIVE}")


def difference(folder: str, record: Record, top: str) -> str | None:
    """The first file of which a record has another checksum than a tree has, or the archives beside it; None
    if there is none."""
    there = {**of_archives(folder), **of_tree(top)}
    for name in {**record.sums, **there}:
        if record.sums.get(name) != there.get(name):
            return name
    return None


def why_not(folder: str, top: str) -> str | None:
    """Why an archive in a folder is not one that was proved from the sources of a tree; None if it is."""
    record = read(folder)
    if not record:
        return f"there is no {SUMS}"
    if not record.is_for_a_package():
        return f"it is not proved from nothing, but {record.how}"
    name = difference(folder, record, top)
    return name and f"it was proved with another {name}"


def say(what: str) -> None:
    print(f"make: {what}", file=sys.stderr, flush=True)


def check(folder: str, top: str = crates.TOP) -> int:
    why = why_not(folder, top)
    if why:
        say(f"the archive of {folder} is not taken: {why}")
        return 1
    say(f"{folder} has an archive that was proved from these sources, with {record_of(folder).toolchain}")
    return 0


def take(folders: Iterable[str], top: str = crates.TOP) -> int:
    """Takes the archive of the first folder that has one for this tree. A folder without an archive is not
    mentioned."""
    began = time.time_ns()
    for folder in (it for it in dict.fromkeys(folders) if os.path.exists(f"{it}/{SUMS}")):
        if check(folder, top):
            continue
        record = record_of(folder)
        sources = {name: it for name, it in record.sums.items() if name not in (ARCHIVE, MEMORY)}
        taken = Record(TAKEN, record.toolchain, sources)
        leave(place(top), taken, f"{folder}/{ARCHIVE}", f"{folder}/{MEMORY}", began)
        say("took it: nothing is proved now")
        return 0
    return 1


def pack(folder: str, top: str = crates.TOP) -> int:
    """Puts the archive of this tree into a folder, if it can go into a package."""
    why = why_not(place(top), top)
    if why:
        say(f"the archive is not packed: {why}")
        return 1
    os.makedirs(folder, exist_ok=True)
    for name in (ARCHIVE, MEMORY):
        shutil.copyfile(f"{place(top)}/{name}", f"{folder}/{name}")
    write(folder, record_of(place(top))._replace(how=WHOLE))
    for name in (ARCHIVE, MEMORY, SUMS):
        os.chmod(f"{folder}/{name}", 0o644)
    return 0


def main(words: list[str]) -> int:
    verb, folders = words[:1], words[1:]
    if verb == ["take"]:
        return take(folders)
    if verb == ["ready"] and not folders:
        return int(why_not(place(), crates.TOP) is not None)
    if verb in (["check"], ["pack"]) and len(folders) == 1:
        return (check if verb == ["check"] else pack)(*folders)
    print(__doc__.strip(), file=sys.stderr)
    return 2


if __name__ == "__main__":
    sys.exit(main(sys.argv[1:]))
