"""Runs our own C programs with the libwayland-server under test, and with the system's for comparison."""

import difflib
import glob
import os
import re
import sys
import tempfile

from tests.checks import TOP, Failed, Skipped, need, run
from tests.libwayland.libraries import C, OUT, SOURCES, SYSTEM_SERVER, Library, checked_by_valgrind, compiled

# What a library prints must be what the system's prints, line for line.
COMPARED = ("edges", "resources", "loop", "shm", "sockets")
# Scenes that may also go another way, which docs/LIBWAYLAND.md names, and what they print then.
DIFFERENT = {"a_file_that_is_no_socket": ["a file of that name, without a lock: -1 \n", "stale: a file\n"]}
LEAKS = ("--leak-check=full", "--errors-for-leak-kinds=definite")
DEBUG = {"WAYLAND_DEBUG": "server"}
# The line of a session that is not changed but cut, or whose client dies, is that of the system's library.
EXACT = ("cut", "split", "dies")
# Clients of each seed that are wrong in places, quickly and with --whole; clients that come and go.
MUTANTS, SEEDS = (150, 1500), ("1", "2", "3")
CLIENTS = ("1000", "10000")
SANITIZED = ["-fsanitize=address,undefined", "-fno-sanitize-recover=undefined", "-fno-omit-frame-pointer"]


def program(name):
    """A compiled program of this folder."""
    return compiled(f"server/{name}", library="-lwayland-server")


def words_of(name, room):
    """The words of a program, with an empty folder if it needs one."""
    return [program(name), *([tempfile.mkdtemp(dir=room)] if name == "sockets" else [])]


def said(library, name, before=(), **env):
    """What a program prints over a library, whatever it is checked by."""
    with tempfile.TemporaryDirectory() as room:
        return library.succeeds([*before, *words_of(name, room)], **env).splitlines(True)


def must_be_alike(theirs, ours):
    if theirs != ours:
        changes = "".join(difflib.unified_diff(theirs, ours, "the system's library", "the library under test", n=2))
        raise Failed(changes[:3000])


def scenes(lines):
    """The lines of each scene of a program, by its name."""
    found = {}
    for line in lines:
        if line.startswith("== "):
            now = found[line[3:].strip()] = []
        else:
            now.append(line)
    return found


def same_scenes(theirs, ours):
    """Fails if a scene goes another way than over the system's library, and not in the way that is named."""
    theirs, ours = map(scenes, (theirs, ours))
    kept = {name: DIFFERENT[name] if ours.get(name) == DIFFERENT.get(name, 0) else lines for name, lines in theirs.items()}
    must_be_alike(*([f"{name}: {it}" for name, lines in found.items() for it in lines] for found in (kept, ours)))


def compared(name):
    """A test that a program prints over the library what it prints over the system's, and with WAYLAND_DEBUG too."""
    def test(library):
        theirs = said(SYSTEM_SERVER, name)
        if "CRASHED" in "".join(theirs) or len(theirs) < 10:
            raise Failed("".join(theirs)[-600:])
        same_scenes(theirs, said(library, name))
        same_scenes(theirs, said(library, name, **DEBUG))
    test.__name__ = f"server: {name} as over the system's library"
    return test


def ends_in(lines):
    """How the scenes of a program end, each a process of its own."""
    return [it for it in lines if re.match("==|CRASHED|ended by", it)]


def without_errors_of_memory(name):
    """A test that valgrind finds nothing in a program. What it reads behind the end of a file is not told."""
    def test(library):
        must_be_alike(*(ends_in(said(library, name, before)) for before in ((), checked_by_valgrind())))
    test.__name__ = f"server: {name} under valgrind"
    return test


def timeless(text):
    """The lines of WAYLAND_DEBUG, without their times."""
    return [re.sub(r"^\[ *[0-9]+\.[0-9]{3}\] ", "[time] ", it) for it in text.splitlines(True) if it[:1] == "["]


def lines_of_wayland_debug(library):
    """They are the same word for word, except for their times."""
    for name in ("resources", "shm"):
        theirs, ours = (timeless(it.run([program(name)], **DEBUG).stderr) for it in (SYSTEM_SERVER, library))
        if len(theirs) < 10:
            raise Failed(f"{name}: only {len(theirs)} lines")
        must_be_alike(theirs, ours)


def streams_cut_or_changed_at_each_byte(library):
    """A client whose bytes are cut is served and ended as over the system's library. If a byte is changed, that holds
    too, or the client is ended where libwayland goes on. No descriptor stays open, and none is closed twice."""
    theirs, ours = (said(it, "streams") for it in (SYSTEM_SERVER, library))
    if len(theirs) != len(ours):
        raise Failed(f"{len(ours)} lines, not {len(theirs)}")
    wrong = [f"{our}    libwayland: {their}" for their, our in zip(theirs, ours)
             if "DESCRIPTORS" in our or "CRASHED" in our or our != their and not is_stricter(our)]
    if wrong:
        raise Failed(f"{len(wrong)} of {len(theirs)}:\n" + "".join(wrong[:12]))


def is_stricter(line):
    return line.split()[0] not in EXACT and "ended 1, errors 1" in line


def streams_under_valgrind(library, step):
    library.succeeds([*checked_by_valgrind(*LEAKS), program("streams"), step])


def streams_have_no_error_of_memory(library):
    streams_under_valgrind(library, "7")


def streams_have_no_error_of_memory_at_each_byte(library):
    streams_under_valgrind(library, "1")


def each_allocation_refused_in_turn(library):
    """A client ends, or misses nothing, and no descriptor stays open."""
    library.succeeds([program("memory")])


def clients_that_flood_and_die_and_do_not_read(library, count=CLIENTS[0]):
    """Another client is served all the time, what waits is bounded, and nothing is left of clients that are gone."""
    library.succeeds([program("clients"), count])


def ten_thousand_clients_in_turn(library):
    clients_that_flood_and_die_and_do_not_read(library, CLIENTS[1])


def sources():
    found = [it for part in ("common", "server") for it in sorted(glob.glob(f"{TOP}/c/libwayland/{part}/*.c"))]
    if not found:
        raise Skipped("the sources of the library are not here")
    return found


def sanitized():
    """The library under test, compiled again with the sanitizers, and a program over it."""
    folder = f"{OUT}/server/sanitized"
    os.makedirs(folder, exist_ok=True)
    inner = [it for part in ("common", "server") for it in ("-I", f"{TOP}/c/libwayland/{part}")]
    flags = ["cc", "-std=c99", "-O1", "-g", "-w", *SANITIZED, "-I", f"{TOP}/include", *inner, "-pthread"]
    built = f"{folder}/{SYSTEM_SERVER.soname}"
    run([*flags, "-shared", "-fPIC", "-fvisibility=hidden", f"-Wl,-soname,{SYSTEM_SERVER.soname}", *sources(),
         f"{TOP}/out/c/wayland/interfaces.c", f"{TOP}/out/c/libwaywire.a", "-o", built])
    path = f"{folder}/mutants"
    run([*C, *SANITIZED, f"{SOURCES}/server/mutants.c", "-o", path, "-lwayland-server"])
    return path, Library(folder, SYSTEM_SERVER.soname)


def wrong_clients(count):
    path, library = sanitized()
    for seed in SEEDS:
        library.succeeds([path, str(count // len(SEEDS)), seed], ASAN_OPTIONS="detect_leaks=1:halt_on_error=1")


def clients_that_are_wrong_in_places(_library):
    """The sanitizers of addresses and of undefined behaviour find nothing, and nothing is left."""
    wrong_clients(MUTANTS[0])


def many_clients_that_are_wrong_in_places(_library):
    wrong_clients(MUTANTS[1])


def symbols_of(path):
    need("nm")
    listed = [it.split() for it in run(["nm", "-D", "--defined-only", path]).splitlines()]
    return {name for _, kind, name in listed if kind in "TDBR"}


def system_path():
    """The path of the system's library."""
    found = re.search(rf"{re.escape(SYSTEM_SERVER.soname)} => (\S+)", run(["ldd", program("loop")]))
    return found[1]


def each_symbol_of_libwayland(library):
    lacking = symbols_of(system_path()) - symbols_of(library.path)
    if lacking:
        raise Failed(f"lacking: {' '.join(sorted(lacking))}")


def interfaces_of_libwayland(library):
    run([sys.executable, "-m", "tests.libwayland.interfaces", library.path, system_path()])


def structs_that_compositors_use(library):
    """The fields of structs that compositors read and write themselves have their places in both libraries."""
    must_be_alike(said(SYSTEM_SERVER, "places"), said(library, "places"))


TESTS = (*map(compared, COMPARED), structs_that_compositors_use, each_symbol_of_libwayland, interfaces_of_libwayland,
         lines_of_wayland_debug, streams_cut_or_changed_at_each_byte, streams_have_no_error_of_memory,
         each_allocation_refused_in_turn, clients_that_flood_and_die_and_do_not_read,
         clients_that_are_wrong_in_places, *map(without_errors_of_memory, ("resources", "shm")))
LONG_TESTS = (streams_have_no_error_of_memory_at_each_byte, ten_thousand_clients_in_turn,
              many_clients_that_are_wrong_in_places, *map(without_errors_of_memory, ("edges", "loop", "sockets")))


def cases(library, is_whole):
    """The tests, with this library."""
    def over(test):
        def case():
            test(library)
        name = test.__name__
        case.__name__ = name if name.startswith("server: ") else f"server: {name}"
        return case
    return [over(it) for it in (*TESTS, *(LONG_TESTS if is_whole else ()))]
