"""How the programs of this repository read their command lines, if they do not use argparse."""

import os
import sys
from typing import NoReturn


def refuse(why: str) -> NoReturn:
    """Ends the program with status 2."""
    print(f"{os.path.basename(sys.argv[0]).removesuffix('.py')}: {why}", file=sys.stderr)
    sys.exit(2)


def words(page: str, *options: str, least: int = 0, most: int | None = None, is_command: bool = False) -> list[str]:
    """Returns the words of the command line. For -h and --help, prints the page, which is the program's docstring, and
    ends the program. Any other option than these ends it with status 2, and so do fewer than `least` other words, or
    more than `most`. An option that ends with '=' takes a value. If the words are a command, which has options of its
    own, only the first one is looked at."""
    given = sys.argv[1:]
    seen = given[:1] if is_command else given
    if {"-h", "--help"} & {*seen}:
        print(page.strip())
        sys.exit()
    for it in seen:
        name, sign, _ = it.partition("=")
        if it.startswith("-") and name + sign not in options:
            refuse(f"there is no option {it}")
    others = [it for it in seen if not it.startswith("-")]
    if len(others) < least:
        print(page.strip(), file=sys.stderr)
        sys.exit(2)
    if most is not None and len(others) > most:
        refuse(f"{others[most]} is a word too many")
    return given
