"""Prints the interfaces of Wayland protocol files as a table text (docs/FORMATS.md).

    tools/tables-from-xml [--with FILE]... [--comment TEXT]... [--whole] [--pass-over] FILE...
    tools/tables-from-xml --as-it-is [--comment TEXT]... FILE
    tools/tables-from-xml --names [--comment TEXT]... FILE...

Each FILE is a protocol in the XML form of wayland-scanner. What wayland-scanner refuses is refused. The text has
the interfaces, with the names, kinds of arguments, null marks, since numbers and destructors that the file gives.
It has no enums, descriptions or deprecations. The new id of an event is `N(name)`: the server makes that object.
Texts whose interfaces name each other are joined with `cat`, in any order. `--with FILE` gives a protocol, or a
table text, whose interfaces may be named but are not printed: join the printed text with that one.
`--comment TEXT` is put at the head of the text. With `--pass-over` a FILE that is refused is reported on standard
error, and the others are printed.

What breaks one of the rules V1 to V9 and V11 of valid tables is left out. Each thing that is left out is reported
with the rule that it breaks, on standard error and in a comment in the text. An opcode is the place of a message.
So if a message is left out, all messages after it on its side of its interface are left out too, and the others
keep their opcodes. The tables do not know what is left out: a session or an end that meets it stops there with a
fault, and nothing is ever read as another message. If an interface is left out (because the core tables have it, or
an earlier interface has its name), only those messages go with it that name it, and only if no other interface has
its name. A destroying event that breaks V7 or V11, such as wp_drm_lease_device_v1.released, is kept as a plain
event, and a comment says so: its object ends by the delete_id that follows. Until then a session may name the
object without a fault, and a server cannot end it. wl_fixes is always left out, because a table text cannot say
that its destroy_registry destroys an argument.

For an interface that the core tables have in an older version, the text has a line `extend` with the messages that
are new. A file that changes a message of the core tables, or lacks one in a newer version, is refused. wl_display,
wl_registry, wl_callback and wl_fixes are always the same: a comment says if the file has a newer one.

An end that offers a global promises every message of its version, and cannot read those that are left out.
`--whole` prints tables for such an end. It lowers the version of an interface below the first message that is left
out. If no version of an interface is whole, it leaves out the interface and all that names it.

`--as-it-is` leaves nothing out. It is for the core interfaces, which a text must not declare.

`--names` prints no table text, but the names that such a text lacks: a line for each message that has arguments,
and for each enum (protocol_names.py).

The exit status is 0 if a text was printed; 1 if a file is no protocol, or changes a message of the core tables; 2 if
an option is wrong; 3 if a file cannot be read.
"""

import argparse
import sys
from collections.abc import Iterable, Sequence

from . import files, protocol, protocol_names
from .protocol import BadProtocol
from .table_text import Interface
from .valid_tables import Mending, interfaces_named, interfaces_of, lines_of, named_elsewhere


def program() -> str:
    """The name by which the tool was called. Where it is installed, `waywire-` is in front."""
    return files.program("tables-from-xml")


def words_of(arguments: Sequence[str] | None) -> argparse.Namespace:
    parser = argparse.ArgumentParser(
        prog=program(), description="Prints the interfaces of Wayland protocol files as a table text."
    )
    parser.add_argument("files", nargs="+", metavar="FILE", help="a protocol in the XML form of wayland-scanner")
    parser.add_argument("--with", dest="others", action="append", default=[], metavar="FILE",
                        help="a protocol, or a table text, whose interfaces may be named but are not printed; "
                        "may be given several times")
    parser.add_argument("--comment", dest="comments", action="append", default=[], metavar="TEXT",
                        help="puts TEXT at the head of the text, as a comment; may be given several times")
    parser.add_argument("--whole", action="store_true",
                        help="lowers the version of an interface below the first message that is left out, for an "
                        "end that offers the interface")
    parser.add_argument("--pass-over", action="store_true",
                        help="skips a FILE that is refused, says so on standard error, and prints the others")
    parser.add_argument("--as-it-is", action="store_true",
                        help="leaves nothing out; only for the core interfaces, which a text must not declare")
    parser.add_argument("--names", action="store_true",
                        help="prints the names of arguments and of the values of enums instead of a text")
    return parser.parse_args(arguments)


def print_names(paths: Iterable[str], comments: Iterable[str]) -> None:
    """Prints the names of arguments and of the values of enums."""
    interfaces = [it for path in paths for it in protocol.read(path).interfaces]
    for comment in comments:
        print(f"# {comment}")
    for line in protocol_names.lines_of(interfaces):
        print(line)


def given_interfaces(words: argparse.Namespace) -> list[tuple[str, Interface]]:
    """The interfaces of the files, each with its file. Raises `BadProtocol` for a file that is no protocol, unless such files are
    passed over."""
    found: list[tuple[str, Interface]] = []
    for path in words.files:
        try:
            found += ((path, it) for it in interfaces_of(path, not words.as_it_is))
        except BadProtocol as error:
            if not words.pass_over:
                raise
            print(f"{program()}: passed over: {error}", file=sys.stderr)
    return found


def report(mending: Mending, own: dict[int, str]) -> None:
    """Says on standard error what was left out or changed. `own` has the files of the given interfaces."""
    for it in mending.changes():
        if id(it.interface) in own:
            line = it.interface.line if it.message is None else it.message.line
            where = "" if it.message is None else f"{it.interface.name} "
            print(f"{program()}: {own[id(it.interface)]}: line {line}: {where}{it}", file=sys.stderr)


def main(arguments: Sequence[str] | None = None) -> int:
    words = words_of(arguments)
    if refused := files.why_not_printed([*words.files, *words.others]):
        print(f"{program()}: {refused}", file=sys.stderr)
        return 1
    try:
        if words.names:
            print_names(words.files, words.comments)
            return 0
        given = given_interfaces(words)
        others = [it for path in words.others for it in interfaces_named(path)]
    except BadProtocol as error:
        print(f"{program()}: {error}", file=sys.stderr)
        return protocol.status_of(error)
    # The protocols that are only named come first, so that of two equal names theirs is kept.
    mending = Mending([it for _, it in given], words.whole, others)
    if not words.as_it_is:
        mending.mend()
    own = {id(it): path for path, it in given}
    report(mending, own)
    for comment in words.comments:
        print(f"# {comment}")
    printed = [it for it in mending.interfaces if id(it) in own]
    others = [it for it in mending.interfaces if id(it) not in own]
    if named := named_elsewhere(printed, others):
        print(f"# It names interfaces of other texts: {', '.join(named)}.")
    for note in mending.notes:
        print(f"# {note}")
    for line in lines_of(printed, mending.changes()):
        print(line)
    return 0
