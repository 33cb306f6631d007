"""Runs libwayland's own tests of its client and of its server, unchanged, with the library under test.

They come with the sources of wayland. That of the distribution is fetched by scripts/install-packages, and its tests
are compiled against the system's headers and its other library. Those of a later version need its source beside
the first, and are compiled with the other library of that source; they are skipped if it is not there.

Two suites of the client test little of the library: connection-test tests libwayland's own connection.c, which is
compiled into it, and sanity-test the runner of these tests, with a client and a server beside it. Both have
libwayland's wl_list and wl_array compiled in, too; those of the library are tested by list-test and array-test.
proxy-test is not among what meson builds."""

import functools
import glob
import os
import re
import subprocess
from typing import NamedTuple

from tests.checks import Failed, Skipped, ends_of, has_come, need, run
from tests.libwayland.desktops import end_group
from tests.libwayland.libraries import OUT, SERVER_SONAME, SONAME, SYSTEM, SYSTEM_SERVER, Library, need_headers

FOLDER = os.environ.get("WAYWIRE_SOURCES", "/usr/src/waywire")
# The version of wayland that has the behaviour of the functions that came after 1.21.
LATER = "1.23.1"
CLIENT_SUITES = ("display", "queue", "proxy", "socket", "compositor-introspection", "protocol-logger",
                 "sanity", "connection", "list", "array")
# newsignal-, message-, interface-, map- and os-wrappers-test test private code, which is compiled into them.
SERVER_SUITES = ("array", "client", "compositor-introspection", "display", "event-loop", "list", "protocol-logger",
                 "queue", "resources", "sanity", "signal", "socket")
# What a suite has of libwayland's private code.
PRIVATE = {"socket": ["wayland-os"], "sanity": ["wayland-util"],
           "connection": ["connection", "wayland-os", "wayland-util"]}
COMMON = ("connection", "wayland-os", "wayland-util")
SERVER = ("wayland-server", "wayland-shm", "event-loop", *COMMON)
CLIENT = ("wayland-client", *COMMON)
RUNNER = ("test-runner", "test-helpers", "test-compositor")
# The tests of older versions than LATER that ask for what a later version changed, and what that is.
CHANGED = {"send_overflow_disconnection": "since 1.23 requests wait without a limit, unless the program sets one"}
# What meson finds of a Linux with glibc, as far as these files ask.
CONFIG = """#define _POSIX_C_SOURCE 200809L
#define HAVE_SYS_PRCTL_H 1
#define HAVE_PRCTL 1
#define HAVE_ACCEPT4 1
#define HAVE_MKOSTEMP 1
#define HAVE_POSIX_FALLOCATE 1
#define HAVE_MEMFD_CREATE 1
#define HAVE_MREMAP 1
#define HAVE_STRNDUP 1
"""
# How long a suite may run, in seconds: some take one.
HANGS = 240
# How often a suite is run, if a test fails that may be late on a slow machine.
RUNS = 4
ENDED = re.compile(r'^test "(\w+)":\t(.*), (pass|fail)\.$', re.M)


def numbers(version):
    return tuple(map(int, re.findall(r"\d+", version)))


def written(path, text):
    os.makedirs(os.path.dirname(path), exist_ok=True)
    with open(path, "w", encoding="utf-8") as file:
        file.write(text)


class Part(NamedTuple):
    """What is tested of libwayland: `over` is what the names of its tests say, `sonames` are the files of the
    libraries under test, `system` is the system's library, and `other` are the sources of what is not under test."""

    name: str
    over: str
    suites: tuple
    sonames: tuple
    system: Library
    other: tuple


THE_CLIENT = Part("client", "", CLIENT_SUITES, (SONAME,), SYSTEM, SERVER)
THE_SERVER = Part("server", " over our server", SERVER_SUITES, (SERVER_SONAME,), SYSTEM_SERVER, CLIENT)
BOTH = Part("both", " over both of ours", SERVER_SUITES, (SERVER_SONAME, SONAME), SYSTEM_SERVER, ())


class Source:
    """A source of wayland, and what is compiled from it for a part's tests."""

    def __init__(self, folder, part):
        self.folder, self.part = folder, part
        self.version = os.path.basename(folder).partition("-")[2]
        self.is_later = numbers(self.version) >= numbers(LATER)
        self.built_in = f"{OUT}/upstream-{self.version}-{part.name}"

    def files(self, folder, names):
        return [f"{self.folder}/{folder}/{it}.c" for it in names]

    def names_of(self, suite):
        """The names of a suite's tests, in order."""
        with open(f"{self.folder}/tests/{suite}-test.c", encoding="utf-8") as file:
            return re.findall(r"^(?:FAIL_)?TEST\((\w+)\)", file.read(), re.M)

    def scan(self, protocol):
        """Makes the headers and the code of a protocol. The distribution's scanner may be older than the file."""
        for kind, end in (("client-header", "-client-protocol.h"), ("server-header", "-server-protocol.h"),
                          ("public-code", "-protocol.c")):
            run(["wayland-scanner", kind, f"{self.folder}/protocol/{protocol}.xml",
                 f"{self.built_in}/{protocol}{end}"])

    @functools.cache
    def compiler(self):
        """The command that compiles a file of the source, with the files that it needs."""
        need_headers()
        need("wayland-scanner")
        libffi = subprocess.run(["pkg-config", "--exists", "libffi"], check=False)
        if libffi.returncode:
            raise Skipped("libffi-dev is not installed")
        written(f"{self.built_in}/config.h", CONFIG)
        os.makedirs(f"{self.built_in}/tests", exist_ok=True)
        self.scan("tests")
        if self.is_later:
            self.scan("wayland")
            with open(f"{self.folder}/src/wayland-version.h.in", encoding="utf-8") as file:
                text = file.read().replace("@WAYLAND_VERSION@", self.version)
            for name, number in zip(("MAJOR", "MINOR", "MICRO"), numbers(self.version)):
                text = text.replace(f"@WAYLAND_VERSION_{name}@", str(number))
            written(f"{self.built_in}/wayland-version.h", text)
        # The files name config.h as of their own folder and as of the one above.
        folders = [f"{self.built_in}/tests", self.built_in, f"{self.folder}/src", f"{self.folder}/tests"]
        return ["cc", "-O1", "-g", "-w", "-std=gnu99", "-fvisibility=hidden",
                *(word for it in folders for word in ("-I", it))]

    @functools.cache
    def leak_checker(self):
        """The program that sanity-test runs."""
        path = f"{self.built_in}/exec-fd-leak-checker"
        run([*self.compiler(), *self.files("tests", ("exec-fd-leak-checker", "test-helpers")), "-o", path])
        return path

    @functools.cache
    def built(self, suite, library):
        """Compiles a suite, and returns its path. That of a later version is linked with the library under test: the
        system's may lack what it calls."""
        path = f"{self.built_in}/{suite}-test"
        files = self.files("tests", (f"{suite}-test", *RUNNER))
        files += self.files("src", (self.is_later and self.part.other) or PRIVATE.get(suite, ()))
        if suite == "display":
            files.append(f"{self.built_in}/tests-protocol.c")
        libraries = ["-lwayland-client", "-lwayland-server"]
        if self.is_later:
            files.append(f"{self.built_in}/wayland-protocol.c")
            libraries = [*(f"-L{it}" for it in library.folders), *(f"-l:{it}" for it in self.part.sonames)]
        run([*self.compiler(), *files, "-o", path, *libraries, "-lffi", "-lpthread", "-ldl", "-lm"])
        return path

    def ran(self, suite, library):
        """Runs a suite, and returns how each of its tests ended, and the output of all."""
        env = library.env(TEST_BUILD_DIR=self.built_in)
        env.pop("WAYLAND_DISPLAY", None)
        # A slow machine needs more time than the tests allow; those of the runner are of its limits.
        if suite == "sanity":
            self.leak_checker()
        else:
            env["WAYLAND_TEST_NO_TIMEOUTS"] = "1"
        path = f"{self.built_in}/{suite}.said"
        with open(path, "wb") as said:
            started = subprocess.Popen([self.built(suite, library)], env=env, stdin=subprocess.DEVNULL,
                                       stdout=said, stderr=said, start_new_session=True)
            # What hangs is a test that was not run, as are those behind it.
            if not has_come(lambda: started.poll() is not None, HANGS):
                said.write(b"it had not ended\n")
        end_group(started)
        with open(path, encoding="utf-8", errors="replace") as file:
            text = file.read()
        return {name: (how, is_well == "pass") for name, how, is_well in ENDED.findall(text)}, text

    @functools.cache
    def first_run(self, suite, library):
        return self.ran(suite, library)


def ended(name, found):
    return found.get(name, ("it was not run", False))


def case(source, suite, name, library):
    """A test of a suite, as a function. If it fails, it is tried again. If it also fails with the system's
    library, it says nothing about the library under test."""
    def test():
        need("cc")
        their = source.part.system
        if name in CHANGED and not source.is_later and library is not their and source.part is not THE_SERVER:
            raise Skipped(CHANGED[name])
        for turn in range(RUNS):
            found, said = source.ran(suite, library) if turn else source.first_run(suite, library)
            how, is_well = ended(name, found)
            if is_well:
                return
        if library is not their and not source.is_later:
            theirs, is_their_well = ended(name, source.first_run(suite, their)[0])
            if not is_their_well:
                raise Skipped(f"it fails over the system's library, too: {theirs}")
        raise Failed(f"{how}\n{ends_of(said)}")
    test.__name__ = f"{suite}-test of libwayland {source.version}{source.part.over}: {name}"
    return test


def without(what, part, why):
    """A test that stands for those that cannot be run."""
    def test():
        raise why
    test.__name__ = f"tests of libwayland {what}{part.over}"
    return test


def cases_of(source, library):
    """Each test of each suite of a source. If none can be compiled, a single test that is skipped or fails."""
    try:
        source.compiler()
    except (Failed, Skipped) as why:
        return [without(source.version, source.part, why)]
    return [case(source, suite, name, library) for suite in source.part.suites for name in source.names_of(suite)]


def cases(library, part=THE_CLIENT):
    """The tests of the distribution's source, which is the newest below LATER, and of the newest from LATER on."""
    found = [Source(os.path.dirname(it), part) for it in glob.glob(f"{FOLDER}/wayland-*/meson.build")]
    made = []
    for what, is_later in (("of the distribution", False), (f"{LATER} or later", True)):
        sources = [it for it in found if it.is_later is is_later]
        if sources:
            made += cases_of(max(sources, key=lambda it: numbers(it.version)), library)
        else:
            made.append(without(what, part, Skipped(f"no source of wayland {what} is in {FOLDER}")))
    return made
