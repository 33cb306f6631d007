"""Turns a log of WAYLAND_DEBUG into recordings, one for each connection in it, for `waywire-inspect --read-debug`.

    tools/recordings-from-debug LOG TABLES FILE

LOG has what libwayland 1.21 to 1.24 prints, of clients or servers, among any other lines. TABLES is a table text, with
all interfaces but the core's. The first recording is FILE, the second FILE.2, and so on; standard output gets their
number. Standard error says how many lines begin with a time and cannot be read.

Exit status: 0 if a recording was written; 1 if not; 2 if the words are wrong.
"""

import argparse
import sys

from . import files
from .debug_lines import Log
from .debug_recording import Recording
from .debug_sessions import sessions_of
from .table_text import core_tables, read_more


class Failed(Exception):
    """No recording is made; the words say why."""


def say(words: str) -> None:
    print(f"waywire-inspect: {words}", file=sys.stderr)


def read(path: str) -> bytes:
    try:
        with open(path, "rb") as file:
            return file.read()
    except OSError as error:
        raise Failed(f"cannot read {path}: {error.strerror}") from error


def write(path: str, text: str) -> None:
    try:
        files.write_whole(path, [text])
    except OSError as error:
        raise Failed(f"cannot write {path}: {error.strerror}") from error


def say_unread(path: str, unread: list[int]) -> None:
    """Says how many lines begin with a time and could not be read."""
    if len(unread) == 1:
        say(f"{path}: line {unread[0]} begins with a time and cannot be read")
    elif unread:
        say(f"{path}: {len(unread)} lines begin with a time and cannot be read; the first is line {unread[0]}")


def converted(log_path: str, tables_path: str, output: str) -> int:
    """Writes the recordings, and returns how many."""
    tables = read_more(core_tables(), read(tables_path))
    log = Log(read(log_path), tables)
    sessions = sessions_of(log.told())
    if not sessions:
        raise Failed(f"{log_path} has no message that WAYLAND_DEBUG prints")
    for number, session in enumerate(sessions, 1):
        write(f"{output}.{number}" if number > 1 else output, Recording(session, tables).text())
    say_unread(log_path, log.unread)
    return len(sessions)


def main() -> int:
    parser = argparse.ArgumentParser(prog="recordings-from-debug",
                                     description="Turns a log of WAYLAND_DEBUG into recordings.")
    parser.add_argument("log", metavar="LOG", help="what WAYLAND_DEBUG prints, among other lines")
    parser.add_argument("tables", metavar="TABLES", help="a table text, with all interfaces but the core's")
    parser.add_argument("file", metavar="FILE", help="the first recording; the others are FILE.2 and so on")
    words = parser.parse_args()
    try:
        print(converted(words.log, words.tables, words.file))
    except Failed as failed:
        say(str(failed))
        return 1
    return 0
