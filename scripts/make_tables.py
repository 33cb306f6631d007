"""Makes the table texts in protocols/ from the protocol files of Debian 12 (bookworm), which
scripts/install-packages installs, and of newer packages, which scripts/fetch_protocols.py fetches. Beside each it makes
NAME.names, with the names that a table text lacks.

    python3 -m scripts.make_tables [NAME..]

With names, such as viewporter, it makes only those texts. protocol_files.py says which file is for which text, and
which text is written by hand. If a text cannot be made, the old one stays, and the exit status is 1."""

import contextlib
import functools
import io
import os
import re
import shutil
import subprocess
import sys
from collections.abc import Mapping

from scripts import crates, usage
from scripts.protocol_files import BY_HAND, FETCHED, NEWER_PACKAGES, PACKAGES, PROTOCOLS, Text, sources
from tools.waywire import files as written, protocol, protocol_names, tables_from_xml

TEXTS = f"{crates.TOP}/protocols"
# The licences of files that do not name theirs by SPDX's name, each by a part of its wording.
WORDINGS = {
    "free of charge, to any person": "MIT",
    "use, copy, modify, distribute, and sell this software": "HPND-sell-variant",
    "use, copy, modify, and/or distribute this software": "ISC",
}


def licence(name: str, path: str) -> str:
    """What is said of the licence of a text's file."""
    with open(path, encoding="utf-8") as file:
        text = " ".join(file.read().split())
    if named := re.search(r"SPDX-License-Identifier: (\S+)", text):
        return f"whose file has the licence {named[1]}"
    for part, licence_ in WORDINGS.items():
        if part in text:
            return f"whose file has the licence {licence_}"
    its = PROTOCOLS[name]
    of_package = NEWER_PACKAGES[its.package].licence if its.is_newer else PACKAGES[its.package][1]
    return f"whose file names no licence: that of its package is {of_package}"


def origin(text: Text) -> str:
    """The package with the version that is there, or alone if that is not known."""
    if not text.is_newer:
        return installed(text.package)
    try:
        with open(f"{FETCHED}/{text.package}/version", encoding="utf-8") as file:
            return f"{text.package} {file.read().strip()}"
    except FileNotFoundError:
        return text.package


@functools.cache
def installed(package: str) -> str:
    """A package of Debian 12 with its version."""
    words = ["dpkg-query", "--show", "--showformat", "${Package} ${Version}", package]
    said = subprocess.run(words, capture_output=True, text=True).stdout if shutil.which(words[0]) else ""
    return said or package


def first_line(name: str) -> str:
    """The first line of a text: what it is made of."""
    it = PROTOCOLS[name]
    return f"Made by tools/tables-from-xml from {os.path.basename(it.path)} of {origin(it)}."


def part(name: str, text: str) -> str:
    """What of a file's text belongs to the text of this name. Two are made from wayland.xml: `wayland` has what the file
    adds to the core interfaces, `data-device` the other interfaces."""
    if os.path.basename(PROTOCOLS[name].path) != "wayland.xml":
        return text
    head, *sections = re.split(r"(?m)^(?=interface |extend )", text)
    if name == "wayland":
        return head + "".join(it for it in sections if it.startswith("extend "))
    origin_lines = head.splitlines(keepends=True)[:2]
    return "".join([*origin_lines, *(it for it in sections if it.startswith("interface "))])


def origin_of(name: str, files: Mapping[str, str]) -> list[str]:
    """The first lines of a text: what it is made of, and what is said of the licence."""
    return [first_line(name), f"It states facts of that protocol, {licence(name, files[name])}."]


def names_of(name: str, files: Mapping[str, str]) -> str:
    """The names of the same protocol, but for those that the core's file has."""
    core = protocol.read(f"{TEXTS}/core/core.xml").interfaces
    core_names = {it.split(" ")[0] for it in protocol_names.lines_of(core)}
    interfaces = protocol.read(files[name]).interfaces
    if os.path.basename(files[name]) == "wayland.xml":
        core_interfaces = {it.name for it in core}
        interfaces = [it for it in interfaces if (it.name in core_interfaces) == (name == "wayland")]
    kept = [it for it in protocol_names.lines_of(interfaces) if it.split(" ")[0] not in core_names]
    return "".join(f"{it}\n" for it in [*(f"# {one}" for one in origin_of(name, files)), *kept])


def text_of(name: str, files: Mapping[str, str]) -> str | None:
    """The text of this name, or None if a file is not there or cannot be read."""
    named = PROTOCOLS[name].names
    for needed in (name, *named):
        if needed not in files:
            how = "fetch_protocols.py" if PROTOCOLS[needed].is_newer else "install-packages"
            print(f"make_tables: the file for {needed} is not there (scripts/{how})", file=sys.stderr)
            return None
    words = [it for line in origin_of(name, files) for it in ("--comment", line)]
    words += [f"--with={files[it]}" for it in named]
    output = io.StringIO()
    with contextlib.redirect_stdout(output):
        status = tables_from_xml.main([*words, files[name]])
    return part(name, output.getvalue()) if status == 0 else None


def main(names: list[str]) -> int:
    files, status = sources(), 0
    if unknown := [it for it in names if it not in PROTOCOLS]:
        by_hand = [it for it in unknown if it in BY_HAND]
        said = f"{by_hand[0]} is written by hand" if by_hand else f"no text has the name {', '.join(unknown)}"
        print(f"make_tables: {said}", file=sys.stderr)
        return 2
    for name in names or sorted(PROTOCOLS):
        text = text_of(name, files)
        if text is None:
            status = 1
            continue
        for ending, its in (("tables", text), ("names", names_of(name, files))):
            written.write_whole(f"{TEXTS}/{name}.{ending}", [its])
    return status


if __name__ == "__main__":
    sys.exit(main(usage.words(__doc__)))
