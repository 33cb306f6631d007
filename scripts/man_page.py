"""Writes the manual page of `waywire` to standard output. It is made from the help of the program, the table of
statuses in docs/FORMATS.md, and the copyright line of LICENSE.

    python3 -m scripts.man_page PROGRAM > waywire.1

PROGRAM is a built `waywire`, which is run once for the help of each command. `make install` installs the page
if the program is built."""
import re
import subprocess
import sys
from collections.abc import Iterable

from scripts import crates

# What the help does not say.
VERDICTS = (
    "A verdict judges the wire: sizes, objects and their ids, arguments, descriptors and binds. \\fBlawful\\fR says",
    "nothing about what messages mean: about the roles of surfaces, serials, the order of configures, or whether",
    "a compositor answers, and answers correctly.",
)
RECORDINGS = (
    "\\fBwaywire\\-inspect \\-\\-record\\fR \\fIFILE\\fR writes a recording of a live session to \\fIFILE\\fR, and",
    "the tables that it used to \\fIFILE\\fR.tables. \\fBwaywire check \\-\\-tables\\fR \\fIFILE\\fR.tables \\fIFILE\\fR",
    "judges as it did, with one exception: at the bind of a global that no tables have, \\fBwaywire\\-inspect\\fR stops",
    "judging, and \\fBwaywire check\\fR says F9 bad bind.",
)


def helped(program: str, *words: str) -> dict[str, list[str]]:
    """Returns the help of a command as its first lines and its sections, by name."""
    text = subprocess.run([program, *words, "--help"], check=True, capture_output=True).stdout.decode()
    sections: dict[str, list[str]] = {"": []}
    name = ""
    for line in text.splitlines():
        match = re.fullmatch(r"(\w+):\s*(.*)", line)
        if match:
            name, line = match[1], match[2]
            sections[name] = []
        if line.strip():
            sections[name].append(line.strip())
    return sections


def entries(lines: Iterable[str]) -> list[tuple[str, ...]]:
    """Returns (word, what it does) for each line of a list."""
    return [tuple(re.split(r"\s{2,}", line, maxsplit=1)) for line in lines]


def escaped(text: str) -> str:
    return text.replace("\\", "\\e").replace("-", "\\-").replace("`", "").replace("'", "\\(aq")


def first_small(text: str) -> str:
    return text[:1].lower() + text[1:]


def listed(lines: Iterable[str]) -> list[str]:
    out = []
    for word, *what in entries(lines):
        out += [".TP", f"\\fB{escaped(word)}\\fR", escaped(what[0]) if what else ""]
    return out


def statuses() -> dict[str, list[str]]:
    """Returns (status, when) for each status of docs/FORMATS.md's table, in its order."""
    found: dict[str, list[str]] = {}
    with open(f"{crates.TOP}/docs/FORMATS.md", encoding="utf-8") as file:
        for line in file:
            match = re.fullmatch(r"\| (\d) \|(.*?)\| (.*?) \|\s*", line)
            if match:
                said = f"{match[2].strip(' `')}: " if match[2].startswith(" `") else ""
                found.setdefault(match[1], []).append(said + match[3])
    return found


def copyright_line() -> str:
    with open(f"{crates.TOP}/LICENSE", encoding="utf-8") as file:
        said = next(line.strip() for line in file if line.startswith("Copyright"))
    return said.replace("©", "\\(co")


def page(program: str, version: str) -> str:
    whole = helped(program)
    names = [name for name, *_ in entries(whole["Commands"]) if name != "help"]
    out = [f'.TH WAYWIRE 1 "" "waywire {version}"', ".SH NAME", f"waywire \\- {escaped(first_small(whole[''][0]))}",
           ".SH SYNOPSIS"]
    commands = {name: helped(program, name) for name in names}
    for name in names:
        out += [f"\\fB{escaped(' '.join(commands[name]['Usage']))}\\fR", ".br"]
    out += [".SH DESCRIPTION", escaped(whole[""][0]) + ".", ".SH COMMANDS"]
    for name in names:
        said = commands[name]
        out += [f".SS {name}", escaped(said[""][0]) + "."]
        out += listed(said.get("Arguments", []) + said["Options"])
    out += [".SH VERDICTS", *VERDICTS, ".SH RECORDINGS", *RECORDINGS, ".SH EXIT STATUS"]
    for status, whens in statuses().items():
        out += [".TP", f"\\fB{status}\\fR", escaped("; ".join(whens) + ".")]
    out += [".SH COPYRIGHT", f"{copyright_line()}. The licence is MIT; its text is installed as",
            ".IR share/doc/waywire/LICENSE .", ".SH SEE ALSO", ".BR waywire\\-inspect (1)"]
    return "\n".join(out) + "\n"


def main() -> None:
    if len(sys.argv) != 2 or sys.argv[1].startswith("-"):
        sys.exit(__doc__.strip())
    said = subprocess.run([sys.argv[1], "--version"], check=True, capture_output=True).stdout.decode()
    sys.stdout.write(page(sys.argv[1], said.split()[1]))


if __name__ == "__main__":
    main()
