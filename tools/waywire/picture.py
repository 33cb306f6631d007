"""Makes a page of a recorded session. It is one file, which any browser opens and which needs nothing else.

    tools/waywire-picture FILE -o FILE.html [--from N] [--to N] [--tables FILE]... [--limit N]
    tools/waywire-picture --json FILE -o FILE.html [--from N] [--to N]

FILE is a recording, as `waywire-inspect --record` writes it. `waywire-inspect --read` reads and judges it,
and the page is made from its output. `--json FILE` takes such output from a file, or from standard input if
FILE is `-`. `--from` and `--to` say which messages the page shows, by their numbers or times; of these it shows the
last 200,000.

Exit status: 0 if a page was written; 2 if an option is wrong, or names as the page a file that is read; 3 if a file
cannot be read, is no recording, or no page can be written. If the status is not 0, an old page stays as it was.
"""

import argparse
import base64
import contextlib
import hashlib
import html
import os
import re
import shutil
import subprocess
import sys
import tempfile
from collections.abc import Iterator, Sequence
from typing import IO

from . import files
from .picture_columns import MOST_MESSAGES, Columns, NoLines, NoSession
from .picture_window import Window

# The folder of the tools, with the parts of the page.
TOOLS = os.path.dirname(os.path.dirname(os.path.realpath(__file__)))


def inspector_of(given: str | None) -> str:
    """The words that run the inspector: one that is named, beside this tool, built here, or found by PATH."""
    beside = (f"{os.path.dirname(os.path.abspath(sys.argv[0]))}/waywire-inspect", f"{TOOLS}/waywire-inspect",
              f"{TOOLS}/../../../bin/waywire-inspect", f"{TOOLS}/../out/c/waywire-inspect")
    found = given or next((it for it in beside if os.access(it, os.X_OK)), None)
    found = found or shutil.which("waywire-inspect")
    if not found:
        how = "`make` builds it, " if os.path.isdir(f"{TOOLS}/../c/inspect") else ""
        raise NoSession(f"waywire-inspect is not found: {how}--inspector names it")
    return found


@contextlib.contextmanager
def read_twice(file: IO[bytes]) -> Iterator[IO[bytes]]:
    """The same bytes as a file that can be read again."""
    if file.seekable():
        yield file
        return
    with tempfile.TemporaryFile() as copy:
        shutil.copyfileobj(file, copy)
        copy.seek(0)
        yield copy


@contextlib.contextmanager
def lines_of(words: argparse.Namespace) -> Iterator[IO[bytes]]:
    """The inspector's lines: of a file that holds them, or of the inspector, which is run."""
    try:
        if words.json:
            with sys.stdin.buffer if words.json == "-" else open(words.json, "rb") as file, read_twice(file) as lines:
                yield lines
            return
        # What the inspector would say of a file that is not there.
        with open(words.file, "rb"):
            pass
    except OSError as error:
        raise NoSession(f"cannot read {words.json or words.file}: {error.strerror}") from error
    options = [it for path in words.tables for it in ("--tables", path)]
    options += ["--limit", words.limit] if words.limit else []
    options += [*words.window.options(), f"--last={MOST_MESSAGES}"]
    run = [inspector_of(words.inspector), *options, "--json", "--read", words.file]
    with tempfile.TemporaryFile() as said:
        try:
            tool = subprocess.Popen(run, stdout=subprocess.PIPE, stderr=said, stdin=subprocess.DEVNULL)
        except OSError as error:
            raise NoSession(f"cannot run {run[0]}: {error.strerror}") from error
        with tool, contextlib.suppress(NoLines):
            assert tool.stdout
            yield tool.stdout
            if tool.wait() in (0, 1):
                return
        said.seek(0)
        first = said.read().decode(errors="replace").strip().split("\n")[0]
        raise NoSession(first.partition(": ")[2] or f"{run[0]} ended with status {tool.returncode}")


def part(name: str) -> str:
    with open(f"{TOOLS}/picture/{name}", encoding="utf-8") as file:
        return file.read()


def joined(title: str, packed: str) -> Iterator[str]:
    """The page as parts of a text: page.html, with what it names put in its place, and the data."""
    scripts, hashes = [], []

    def script(found: re.Match[str]) -> str:
        text = f"\n{part(found[1])}"
        scripts.append(f"<script>{text}</script>")
        hashes.append(base64.b64encode(hashlib.sha256(text.encode()).digest()).decode())
        return f"@SCRIPT {len(scripts) - 1}@"

    page = re.sub(r'<script src="([a-z.]+)"></script>', script, part("page.html"))
    policy = "default-src 'none'; style-src 'unsafe-inline'; base-uri 'none'; form-action 'none'; script-src"
    policy += "".join(f" 'sha256-{it}'" for it in hashes)
    values = {
        "@TITLE@": html.escape(title), "@DATA@": packed, "@POLICY@": policy,
        '<link rel="stylesheet" href="page.css">': f"<style>\n{part('page.css')}</style>",
        **{f"@SCRIPT {number}@": text for number, text in enumerate(scripts)},
    }
    # Each place is replaced once, so that no value is read as a place.
    places = re.compile("|".join(map(re.escape, values)))
    at = 0
    for found in places.finditer(page):
        yield page[at : found.start()]
        yield values[found[0]]
        at = found.end()
    yield page[at:]


def inputs_of(words: argparse.Namespace) -> list[files.File]:
    """What is read: the recording and the tables beside it, or the lines, and what --tables names."""
    given = [0 if words.json == "-" else words.json] if words.json else [words.file]
    # A later client's recording, FILE.2 or FILE.2.last, has the tables of the first.
    stem = re.sub(r"(\.\d+)?(\.last)?$", "", words.file or "")
    tables = words.tables or [f"{it}.tables" for it in (words.file, stem) if it]
    return [*given, *tables, *(f"{it.removesuffix('.tables')}.names" for it in tables)]


def words_of(arguments: Sequence[str] | None) -> argparse.Namespace:
    parser = argparse.ArgumentParser(
        prog="waywire-picture", description="Makes a page of a recorded session, for a browser.",
        epilog="waywire-inspect --read reads the recording, and the page is made from its output.")
    parser.add_argument("file", nargs="?", metavar="FILE",
                        help="a recording, as waywire-inspect --record writes it")
    parser.add_argument("-o", "--output", required=True, metavar="FILE.html", help="the page to write")
    parser.add_argument("--json", metavar="FILE",
                        help="takes the lines of waywire-inspect --json from FILE instead of a recording; - is "
                        "standard input")
    parser.add_argument("--tables", action="append", default=[], metavar="FILE",
                        help="reads the recording with the interfaces of FILE [default: those of FILE.tables "
                        "beside the recording]; may be given several times")
    parser.add_argument("--limit", metavar="N", help="the length of the longest message in bytes [default: 4096]")
    parser.add_argument("--client", type=int, default=1, metavar="N",
                        help="the client to show, if the lines are from several [default: 1]")
    parser.add_argument("--from", dest="begin", metavar="N", help="shows the messages from the one with the number N on; "
                        "or from a time on, in seconds, such as 2.5s")
    parser.add_argument("--to", dest="end", metavar="N", help="shows the messages up to the one with the number N, or up "
                        "to a time")
    parser.add_argument("--title", metavar="TEXT",
                        help="the title of the page [default: the name of the recording or the client]")
    parser.add_argument("--inspector", metavar="PATH",
                        help="the waywire-inspect to run [default: the one beside this tool, or else in PATH]")
    words = parser.parse_args(arguments)
    if (words.file is None) == (words.json is None):
        parser.error("give a recording, or --json")
    try:
        words.window = Window(words.begin, words.end)
    except ValueError as error:
        parser.error(f"{error} is neither the number of a message nor a time in seconds, such as 2.5s")
    return words


def read_lines(words: argparse.Namespace) -> Columns:
    """The lines as columns. Raises `NoSession`."""
    columns = Columns(words.client, words.window)
    with lines_of(words) as lines:
        if words.json:
            try:
                within = words.window.count(lines, words.client)
            except (ValueError, KeyError, TypeError) as error:
                raise NoLines from error
            columns.skipped = max(0, within - MOST_MESSAGES)
            lines.seek(0)
        columns.read(lines)
    return columns


def main(arguments: Sequence[str] | None = None) -> int:
    words = words_of(arguments)
    if files.input_of(words.output, inputs_of(words)) is not None:
        print(f"waywire-picture: {words.output} is read too, and is not written over", file=sys.stderr)
        return 2
    try:
        columns = read_lines(words)
        title = words.title or columns.title(words.file)
        packed = columns.packed(title)
        files.write_whole(words.output, joined(title, packed))
    except NoSession as error:
        print(f"waywire-picture: {error}", file=sys.stderr)
        return 3
    except OSError as error:
        print(f"waywire-picture: cannot write {words.output}: {error.strerror}", file=sys.stderr)
        return 3
    return 0
