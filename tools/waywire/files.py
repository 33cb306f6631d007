"""Files that a tool reads and writes: none is both, and what is written is there whole or not at all."""

import os
import stat
import sys
import tempfile
from collections.abc import Iterable

# A file by its path, or by its descriptor.
File = str | int


def program(name: str) -> str:
    """The name by which a tool was called, if it is the tool's own, with or without `waywire-` in front."""
    called = os.path.basename(sys.argv[0])
    return called if called == f"waywire-{name}" else name


def status_of(file: File) -> os.stat_result | None:
    """The status of a regular file; None if it is not there, or is a pipe or a device."""
    try:
        found = os.stat(file)
    except (OSError, ValueError):
        return None
    return found if stat.S_ISREG(found.st_mode) else None


def input_of(output: File, inputs: Iterable[File]) -> File | None:
    """The first of the inputs that is the same file as the output, by whatever path or link; None if none is."""
    written = status_of(output)
    for it in inputs if written else ():
        read = status_of(it)
        if written and read and os.path.samestat(written, read):
            return it
    return None


def why_not_printed(inputs: Iterable[File]) -> str | None:
    """Why nothing is printed: standard output is one of the inputs. None if it is not."""
    read = input_of(1, inputs)
    return None if read is None else f"{read} is read, and standard output writes to it"


def mode_of(path: str) -> int:
    """The permissions of a file; if it is not there, those of a new one."""
    if found := status_of(path):
        return stat.S_IMODE(found.st_mode)
    mask = os.umask(0)
    os.umask(mask)
    return 0o666 & ~mask


def write_whole(path: str, parts: Iterable[str]) -> None:
    """Writes a text beside a file, and lets it replace the file once it is whole. A pipe or a device is written as it
    is."""
    if os.path.exists(path) and not os.path.isfile(path):
        with open(path, "w", encoding="utf-8") as file:
            file.writelines(parts)
        return
    place = os.path.realpath(path)
    number, name = tempfile.mkstemp(dir=os.path.dirname(place), prefix=f".{os.path.basename(place)[:64]}-")
    try:
        with open(number, "w", encoding="utf-8") as file:
            file.writelines(parts)
        os.chmod(name, mode_of(place))
        os.replace(name, place)
    except BaseException:
        os.unlink(name)
        raise
