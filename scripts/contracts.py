"""Lists the public functions, with the names of the clauses of their contracts, to standard output.

    python3 -m scripts.contracts > out/CONTRACTS.md

It reads the sources of the library, theory and program crates. A function is public if its crate's
lib.rt exports it or its type, or if C calls it. The output is a page in Markdown."""

import glob
import os
import re
from collections.abc import Container, Mapping
from typing import NamedTuple

from scripts import crates, usage

KINDS = {"library": "The library", "theory": "The theory", "program": "The program"}
HEAD = """\
# Contracts

This page lists each public function of the library, the theory and the program: the first sentence of its
comment, and the clauses of its contract. docs/PROVED.md says what these mean, and what is not proved.

- A clause is listed by its name, or as *unnamed*. The first definition of a `specs/` folder that it
  cites follows in parentheses.
- A **law** is a function with an empty body. Its contract is the law.
- A trait's methods are listed at the trait. Its implementations have the same contract.
- `Display` has the clause `output` if it is stated which bytes a type prints.
- A function without a clause is proved to be safe and to return, as every function is."""

# A type of values has no argument, so a clause does not say it of anything.
TYPE = re.compile(r"(?:(?:abbrev|unfoldable|pub|record|data) )+(\w+) : Type 0(?: where)?$")
# A type of the code that a crate's specs/ pass on, and the path to a type's variants.
PASSED = re.compile(r"pub use Rattle\.\w+\.specs\.declared\.\w+\.(\w+)$")
DECLARED = re.compile(r"declared\.|\w+\.TheVariants$")
USE = re.compile(r"\s*ghost use Rattle\.(\w+)\.specs\.([\w.]+)\.\{(.*)\};")
OWNER = re.compile(r"(?:(pub(?:\(\w+\))?) )?(impl|trait)\b(.*)")
START = re.compile(r"(|    )((?:(?:pub(?:\(\w+\))?|final|const|unsafe|extern \"C\") )*)fn (\w+)")
CLAUSE = re.compile(r" *(requires|ensures)(\*?)(?: (\w+))? \{(.*)")
OUTPUT = re.compile(r"    ghost output = \{(.*)")


class Clause(NamedTuple):
    """A clause: requires or ensures, its name, and the first definition that it cites."""

    kind: str
    name: str
    cites: str


class Owner(NamedTuple):
    """What an impl or a trait is of: a trait's methods are public where the trait is."""

    is_trait: bool
    is_public: bool
    trait: str
    name: str


class Function(NamedTuple):
    """A public function: its name, its first sentence, its clauses, and whether it is a law."""

    name: str
    says: str
    clauses: list[Clause]
    is_law: bool


def value_types(top: str) -> set[str]:
    """Returns the types of values that the specs/ folders define or pass on."""
    found = set[str]()
    for path in glob.glob(f"{top}/crates/*/specs/*.antt"):
        with open(path, encoding="utf-8") as file:
            matches = (TYPE.match(it) or PASSED.match(it) for it in file)
            found.update(it[1] for it in matches if it)
    return found


def citations(lines: list[str], names: Container[str], types: set[str]) -> dict[str, str]:
    """Returns the definitions of these crates that a file may cite, by its words for them."""
    found = {}
    for used in filter(None, map(USE.match, lines)):
        if used[1] in names and not DECLARED.match(used[2]):
            for it in used[3].split(","):
                name, _, word = it.strip().partition(" as ")
                if name not in types:
                    found[word or name] = name
    return found


def first_cited(text: str, cited: Mapping[str, str], lends: str = "") -> str:
    """Returns the first definition that a clause's text cites; an empty word for none.

    A clause of what a loan leaves (`ensures*`) begins with the row of a type, which is passed over."""
    words = (cited[it] for it in re.findall(r"[^\W\d]\w*", text) if it in cited)
    return next((it for it in words if not (lends and it.endswith("_row"))), "")


def exports(path: str) -> tuple[set[str], set[str]]:
    """Returns the modules and the names that a lib.rt exports."""
    if not os.path.exists(path):
        return set(), set()
    with open(path, encoding="utf-8") as file:
        text = file.read()
    uses = " ".join(re.findall(r"(?m)^pub use ([^;]+);", text))
    return {"lib", *re.findall(r"(?m)^pub mod (\w+);", text)}, set(re.findall(r"\w+", uses))


def sentence(comment: list[str]) -> str:
    """Returns the first sentence of a comment's lines."""
    first = " ".join(comment).partition("  ")[0].strip()
    return re.split(r"(?<=\.) (?=[A-Z`])", first)[0].rstrip(":.") + "." if first else ""


def owner_of(head: str) -> Owner:
    """Returns the owner that the head of an impl or a trait names, without its parameters."""
    found = OWNER.match(head)
    assert found
    public, kind, rest = found.groups()
    depth, plain = 0, ""
    for char in rest.partition(" where ")[0]:
        depth += (char == "<") - (char == ">")
        plain += char if depth == 0 and char != ">" else ""
    trait, between, name = plain.rpartition(" for ")
    words = [re.split(r"(?<!:):(?!:)", it.strip(" {}"))[0].split("::")[-1] for it in (trait, name)]
    return Owner(kind == "trait", public == "pub", words[0] if between else "", words[1])


def clauses_of(lines: list[str], at: int, cited: Mapping[str, str]) -> tuple[list[Clause], int]:
    """Returns the clauses of the function that begins at a line, and where its head ends."""
    start = START.match(lines[at])
    assert start
    found, depth = [], start[1]
    while True:
        clause, text = CLAUSE.match(lines[at]), lines[at]
        if clause:
            text = clause[4]
            while text.count("}") <= text.count("{"):
                at += 1
                text += " " + lines[at].strip()
            cites = first_cited(text, cited, lends=clause[2])
            found.append(Clause(clause[1], clause[3] or "", cites))
        is_body = text.startswith(depth + "{") or text.endswith((" {", "{}"))
        if text.endswith(";") or is_body and not clause:
            return found, at
        at += 1


def is_listed(start: re.Match[str], owner: Owner | None, clauses: list[Clause]) -> bool:
    """Whether a function is public, or a method that says more than its trait."""
    if not owner:
        return not start[1] and start[2].startswith("pub ")
    if owner.is_trait:
        return owner.is_public
    return bool(owner.trait and clauses) or start[2].startswith("pub ")


def functions(path: str, names: Container[str], types: set[str]) -> list[Function]:
    """Returns the public functions of a file, in source order."""
    with open(path, encoding="utf-8") as file:
        lines = file.read().split("\n")
    cited, is_laws = citations(lines, names, types), path.endswith("/laws.rt")
    found: list[Function] = []
    comment: list[str] = []
    owner, at = None, 0
    while at < len(lines):
        line = lines[at]
        start, said, output = START.match(line), re.match(" *///(.*)", line), OUTPUT.match(line)
        if OWNER.match(line):
            owner = None if line.endswith("{}") else owner_of(line)
        elif line == "}":
            owner = None
        elif output and owner and owner.trait:
            clause = Clause("ensures", "output", first_cited(output[1], cited))
            found.append(Function(f"{owner.name}: {owner.trait}", "", [clause], False))
        if start:
            clauses, at = clauses_of(lines, at, cited)
            if is_listed(start, owner, clauses):
                name = f"{owner.name}::{start[3]}" if owner else start[3]
                law = is_laws and lines[at] == "{}"
                found.append(Function(name, sentence(comment), clauses, law))
        if said:
            comment.append(said[1].strip())
        elif not line.lstrip().startswith("#["):
            comment = []
        at += 1
    return found


def modules(top: str, name: str, names: Container[str], types: set[str]) -> dict[str, list[Function]]:
    """Returns the public functions of a crate, by its modules that have some."""
    folder = f"{top}/crates/{name}/src"
    public, exported = exports(f"{folder}/lib.rt")
    found = {}
    for path in sorted(glob.glob(f"{folder}/*.rt")):
        module = os.path.basename(path)[: -len(".rt")]
        listed = [
            it
            for it in functions(path, names, types)
            if module in public
            or re.split(r"\W", it.name)[0] in exported
            or it.name.startswith("waywire_c_")
        ]
        if listed:
            found[module] = listed
    return found


def written(function: Function) -> str:
    """Returns the line of a function."""
    parts = []
    for kind in ("requires", "ensures"):
        words = [
            (f"`{it.name}`" if it.name else "*unnamed*") + (f" ({it.cites})" if it.cites else "")
            for it in function.clauses
            if it.kind == kind
        ]
        if words:
            parts.append(f"{kind} {', '.join(words)}")
    contract = "; ".join(parts)
    contract = contract[:1].upper() + contract[1:]
    says = " ".join(filter(None, (function.says, contract)))
    return f"- {'**law** ' if function.is_law else ''}`{function.name}`" + (f": {says}" if says else "")


def page(top: str = crates.TOP) -> list[str]:
    """Returns the lines of the page."""
    found, types, out = crates.read(top), value_types(top), [HEAD]
    for kind, title in KINDS.items():
        out += ["", f"## {title}"]
        for name in (it.name for it in found.values() if it.kind == kind):
            listed = modules(top, name, found, types)
            if listed:
                out += ["", f"### `{name}`"]
            for module, those in listed.items():
                out += ["", f"`{module}.rt`", "", *map(written, those)]
    return out


if __name__ == "__main__":
    usage.words(__doc__, most=0)
    print("\n".join(page()))
