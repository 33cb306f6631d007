"""Compares the libwayland-client and the libwayland-server of waywire with the system's: runs libwayland's own tests,
our own programs, and programs and compositors of the distribution with each of the two.

    ./test libwayland [--whole] [--library=FOLDER] [--server=FOLDER] [WORD..]

The libraries under test are the libwayland-client.so.0 and the libwayland-server.so.0 of these folders [default: those
that `make` builds]. Each test of the server has that word in its name.
--whole also runs the longer tests. With words, only the tests run whose names contain one of them. It
prints what failed, and what was skipped because something is not installed (scripts/install-packages
installs all of it). The last line counts what passed and failed. The exit status is 0 if nothing
failed."""

import argparse
import contextlib
import os
from concurrent.futures import ThreadPoolExecutor

from tests import checks
from tests.checks import TOP, can
from tests.libwayland import calls, desktops, kwin_and_mutter, pasting, programs, upstream, waywire_run
from tests.libwayland.libraries import SERVER_SONAME, SONAME, SYSTEM, Library
from tests.libwayland.server import calls as server_calls
from tests.libwayland.server import pairs

OURS = f"{TOP}/out/c/wayland/client"
OUR_SERVER = f"{TOP}/out/c/wayland/server"


def arguments():
    parser = argparse.ArgumentParser(usage=__doc__.split("\n\n")[1].strip())
    parser.add_argument("--whole", action="store_true", help="also runs the longer tests")
    parser.add_argument("--library", metavar="FOLDER",
                        help="the folder of the libwayland-client.so.0 under test [default: that which make builds]")
    parser.add_argument("--server", metavar="FOLDER",
                        help="the folder of the libwayland-server.so.0 under test [default: that which make builds]")
    parser.add_argument("words", nargs="*", metavar="WORD",
                        help="runs only the tests whose names contain one of the words")
    return parser.parse_args()


class Shared:
    """The compositors and programs that several tests share. They are ended after the last test."""

    def __init__(self, library):
        self.sway, self.sway_of_clipboards, self.weston, self.kwin, self.mutter = kept = [
            desktops.Kept(it) for it in (desktops.sway, desktops.sway, desktops.weston,
                                         kwin_and_mutter.kwin, kwin_and_mutter.mutter)]
        self.ours, self.theirs = programs_of_both = [
            pasting.Programs(self.sway_of_clipboards, it) for it in (library, SYSTEM)]
        self.stack = contextlib.ExitStack()
        for it in (*kept, *programs_of_both):
            self.stack.callback(it.end)

    def end(self):
        """Ends the programs, and then the compositors."""
        self.stack.close()


def groups(library, shared, is_whole):
    """The tests, in groups that run in parallel. The tests of a group run in order."""
    at_sway = programs.cases(shared.sway, "sway", programs.AT_SWAY, library)
    if is_whole:
        at_sway += programs.checked_cases(shared.sway, library)
    at_weston = programs.cases(shared.weston, "weston", programs.AT_WESTON, library)
    at_kwin = programs.cases(shared.kwin, "kwin", kwin_and_mutter.AT_KWIN, library)
    at_mutter = programs.cases(shared.mutter, "mutter", kwin_and_mutter.AT_MUTTER, library)
    of_clipboards = [*pasting.cases(shared.ours, shared.theirs, is_whole),
                     *waywire_run.cases(shared.sway_of_clipboards, library)]
    return (desktops.at("sway", at_sway),
            [*upstream.cases(library), *calls.cases(library, is_whole), *desktops.at("weston", at_weston),
             *desktops.at("sway", of_clipboards)],
            [*desktops.at("kwin", at_kwin), *desktops.at("mutter", at_mutter)])


def groups_of_server(server, both, in_pairs, is_whole):
    """The tests of the libwayland-server, in groups as above. `both` is that library beside that of clients."""
    return ([*upstream.cases(server, upstream.THE_SERVER), *upstream.cases(both, upstream.BOTH),
             *server_calls.cases(server, is_whole), *in_pairs.cases(is_whole, "weston")],
            in_pairs.cases(is_whole, "sway", "phoc"),
            in_pairs.cases(is_whole, "kwin", "mutter"))


def lacking(folders):
    """What is said of libraries that are not there."""
    return [f"{folder} has no {name}" for folder, name in folders if not os.path.exists(f"{folder}/{name}")]


def main():
    given = arguments()
    folder, server_folder = given.library or OURS, given.server or OUR_SERVER
    if not can("the library over that of waywire", "cc", "make"):
        return checks.counted(0, 0)
    if not (given.library and given.server) and not checks.make():
        print("failed: the libraries are not built")
        return checks.counted(0, 1)
    if wrong := lacking(((folder, SONAME), (server_folder, SERVER_SONAME))):
        print(f"failed: {wrong[0]}")
        return checks.counted(0, 1)
    library, server = Library(folder), Library(server_folder, SERVER_SONAME)
    both = Library(server_folder, SERVER_SONAME, beside=library)
    shared, in_pairs = Shared(library), pairs.Pairs(server, folder)
    lists = checks.chosen((*groups(library, shared, given.whole),
                           *groups_of_server(server, both, in_pairs, given.whole)), given.words)
    try:
        with ThreadPoolExecutor() as pool:
            counts = [*pool.map(checks.passed_and_failed, lists)]
    finally:
        in_pairs.end()
        shared.end()
    return checks.counted(*map(sum, zip(*counts)))
