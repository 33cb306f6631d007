"""What is kept on this machine of the mutants that were refused.

A note stands under a checksum of all that the mutant was tried over: the sources of the crate and of those
below it, their lines of crates.txt, the mutant's text, and the toolchain. So it holds in each clone, as long
as nothing of that changes. What was not refused is never noted."""

import contextlib
import datetime
import hashlib
import os
import tempfile

from scripts import mutant_edits, toolchain

# What the checksums begin with: another number where the tool judges otherwise.
FORM = "1"


def default_folder() -> str:
    cache = os.environ.get("XDG_CACHE_HOME", "")
    cache = cache if os.path.isabs(cache) else os.path.expanduser("~/.cache")
    return f"{cache}/waywire/mutants"


def sum_of(*texts: str) -> str:
    whole = hashlib.sha256()
    for it in map(str.encode, texts):
        whole.update(b"%d\n%b" % (len(it), it))
    return whole.hexdigest()


class Keys:
    """The checksums of mutants over the crates of a tree."""

    def __init__(self, clone: toolchain.Clone, toolchain_line: str) -> None:
        self.clone, self.toolchain_line = clone, toolchain_line
        self.sums: dict[str, str] = {}

    def of_crate(self, name: str) -> str:
        """The checksum of a crate's own files and line."""
        if name not in self.sums:
            texts = mutant_edits.texts_of(f"{self.clone.top}/crates/{name}", mutant_edits.PARTS)
            flat = [it for pair in sorted(texts.items()) for it in pair]
            self.sums[name] = sum_of(name, self.clone.crates[name].line, *flat)
        return self.sums[name]

    def of(self, mutant: mutant_edits.Mutant) -> str:
        pairs = [it or "" for pair in mutant.pairs for it in pair]
        crates = [self.of_crate(it) for it in self.clone.below(mutant.crate)]
        return sum_of(FORM, self.toolchain_line, str(len(pairs)), *pairs, *crates)


class Notes:
    """A folder of notes, each a small file that is written whole."""

    def __init__(self, folder: str) -> None:
        self.folder = folder

    def of(self, key: str) -> str:
        """Returns what is noted under a checksum, or nothing."""
        with contextlib.suppress(OSError, ValueError), open(f"{self.folder}/{key}", encoding="utf-8") as file:
            return file.read().strip()
        return ""

    def write(self, key: str, label: str, where: str) -> None:
        """Notes where a mutant was refused. If the folder cannot be written, nothing is kept."""
        day = datetime.datetime.now(datetime.timezone.utc).date()
        with contextlib.suppress(OSError):
            os.makedirs(self.folder, exist_ok=True)
            handle, new = tempfile.mkstemp(dir=self.folder, prefix="new-")
            with os.fdopen(handle, "w", encoding="utf-8") as file:
                file.write(f"{label}: refused ({where}) on {day}\n")
            os.replace(new, f"{self.folder}/{key}")
