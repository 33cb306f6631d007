"""The mutants of the crates: their files, what each puts in place of what, and which functions it edits.

A mutant is an edit of the code that the prover must refuse. Those named after a promise or a rule have a
file each, crates/NAME/must-fail/*.edit; the others are in crates/NAME/mutants.edit, each after a line
`name:`. Lines `file:`, `old:` and `new:` say what is put in place of what; further pairs apply to what
the earlier ones made."""

import glob
import os
import re
from collections.abc import Generator, Iterable, Mapping
from typing import NamedTuple

BATCH = "mutants.edit"
PARTS = ("src", "specs", "proofs")
# The first line of an item, as `rt fmt` lays it out: how far it is indented, its kind, and the rest.
ITEM = re.compile(
    r"( *)(?:pub(?:\([^)]*\))? )?(?:(?:const|unsafe|ghost|final|extern \"C\") )*"
    r"(fn|impl|trait|mod|struct|enum|const|static|type|use|macro_rules!)(?!\w)(.*)"
)
CLOSES = re.compile(r"( *)}[;,]?")


class BadEdit(Exception):
    """A mutant cannot be applied, and why."""


class Function(NamedTuple):
    """A function: the module that it is written in, and how the prover may name it, the likeliest first."""

    module: str
    names: tuple[str, ...]


class Mutant:
    """A mutant: its crate, its name, and what it puts in place of what, file by file."""

    def __init__(self, crate: str, name: str) -> None:
        self.crate, self.name = crate, name
        self.pairs: list[tuple[str, str, str]] = []
        self.functions: list[Function] = []

    @property
    def label(self) -> str:
        return f"{self.crate}/{self.name}"

    def steps(self, texts: Mapping[str, str]) -> Generator[dict[str, str], None, dict[str, str]]:
        """Yields, for each pair, the texts before it. Returns the texts with this mutant."""
        texts = dict(texts)
        for path, old, new in self.pairs:
            if not path or not old:
                raise BadEdit("a 'new:' line stands before any 'file:' or 'old:' line")
            if path not in texts:
                raise BadEdit(f"there is no file {path} in src/")
            if texts[path].count(old) != 1:
                count = texts[path].count(old)
                raise BadEdit(f"an 'old:' text is in {path} {count} times, and not once")
            yield texts
            texts[path] = texts[path].replace(old, new)
        return texts

    def applied(self, texts: Mapping[str, str]) -> dict[str, str]:
        """Returns the texts with this mutant."""
        steps = self.steps(texts)
        while True:
            try:
                next(steps)
            except StopIteration as end:
                return end.value

    def looks_at(self, texts: Mapping[str, str]) -> None:
        """Finds out which functions it edits in the code as it stands."""
        if not self.pairs:
            raise BadEdit("it has no 'old:' and 'new:' pair")
        if self.applied(texts) == texts:
            raise BadEdit("it changes nothing")
        found = []
        for (path, old, _), before in zip(self.pairs, self.steps(texts)):
            found.append(function_at(path, before[path], before[path].index(old) + len(old)))
        self.functions = [*dict.fromkeys(filter(None, found))]


def read_edits(crate: str, path: str) -> list[Mutant]:
    """Returns the mutants in a file: several with a name each, or one that has the file's name."""
    found, file_named, old = [], None, None
    with open(path, encoding="utf-8") as file:
        lines = file.read().split("\n")
    for line in lines:
        word, _, text = line.partition(": ")
        if word == "name":
            found.append(Mutant(crate, text.strip()))
            file_named = None
        elif word == "file":
            file_named = text.strip()
        elif word == "old":
            old = text
        elif line.startswith("new:"):
            found = found or [Mutant(crate, os.path.basename(path)[: -len(".edit")])]
            found[-1].pairs.append((file_named or "", old or "", text))
            old = None
    return found or [Mutant(crate, os.path.basename(path)[: -len(".edit")])]


def mutants_of(folder: str, others: bool = False) -> list[Mutant]:
    """Returns the mutants of a crate in must-fail/, and the others too if they are asked for."""
    paths = sorted(glob.glob(f"{folder}/must-fail/*.edit"))
    if others and os.path.isfile(f"{folder}/{BATCH}"):
        paths.append(f"{folder}/{BATCH}")
    return [it for path in paths for it in read_edits(os.path.basename(folder), path)]


def texts_of(folder: str, parts: Iterable[str] = ("src",)) -> dict[str, str]:
    """Returns the files in these parts of a crate, by their paths."""
    texts = {}
    for part in parts:
        for at, _, names in os.walk(f"{folder}/{part}"):
            for name in names:
                path = f"{at}/{name}"
                with open(path, encoding="utf-8") as file:
                    texts[os.path.relpath(path, folder)] = file.read()
    return texts


def items_at(text: str, place: int) -> list[tuple[int, str, str]]:
    """Returns the items that a place of a file lies in, the outermost first: how far each is indented, its
    kind, and what its first line has behind that."""
    found: list[tuple[int, str, str]] = []
    lines = text[: place + len(text[place:].partition("\n")[0])].split("\n")
    for number, line in enumerate(lines, 1):
        item, closes = ITEM.match(line), CLOSES.fullmatch(line)
        if outer := item or (closes if number < len(lines) else None):
            indent = len(outer[1])
            while found and found[-1][0] >= indent:
                found.pop()
        if item:
            found.append((indent, item[2], item[3]))
    return found


def function_at(path: str, text: str, place: int) -> Function | None:
    """Returns the function at a place of a file, or nothing. The prover names a method by the module of its type,
    which may be another one, but it knows a function by the end of its name, too."""
    items = items_at(text, place)
    while items and items[-1][1] != "fn":
        items.pop()
    if not items:
        return None
    name = first_word(items.pop()[2])
    outer = [it for it in path[: -len(".rt")].split("/")[1:] if it not in ("lib", "main", "mod")]
    types: list[str] = []
    for _, kind, rest in items:
        if kind == "impl":
            types = types_of(rest)
        elif kind in ("mod", "trait"):
            outer.append(first_word(rest))
    names = [f"{it}::{name}" for it in types] or ["::".join([*outer, name])]
    return Function("::".join(outer), tuple(dict.fromkeys([*names, name])))


def first_word(rest: str) -> str:
    """Returns the name that the rest of an item's first line begins with."""
    found = re.match(r"\W*(\w+)", rest)
    return found[1] if found else ""


def types_of(header: str) -> list[str]:
    """Returns how the prover may name a type in the names of the methods of an impl, by what its first line
    has after `impl`: the type, or the type and the trait."""
    header = re.split(r" where\b| \{|$", header.replace("->", "  "))[0]
    depth = place = 0
    for place, sign in enumerate(header):
        depth += (sign == "<") - (sign == ">")
        if not depth:
            break
    parameters, header = header[:place], header[place:]
    trait, has_trait, of = header.partition(" for ")
    own = words_of(of if has_trait else header) or [""]
    if not has_trait:
        return own[:1]
    words = [it for it in words_of(trait) if it not in words_of(parameters)] or [""]
    whole = own[:1] + [it for it in own[1:] if it not in words_of(parameters)] + words
    return [*dict.fromkeys(map("".join, (whole, own[:1] + words, own[:1] + words[:1])))]


def words_of(text: str) -> list[str]:
    """Returns the names in a type, each without its path and without lifetimes."""
    text = re.sub(r"'\w+|\b(mut|dyn)\b", " ", text)
    return [it.rpartition("::")[2] for it in re.findall(r"[\w:]*\w", text)]
