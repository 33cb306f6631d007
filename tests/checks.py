"""What the tests share: paths, running commands, and counting."""

import contextlib
import fcntl
import filecmp
import functools
import glob
import os
import re
import shutil
import signal
import subprocess
import sys
import tempfile
import time
import traceback
import unittest

from scripts import crates, protocol_files, usage
from scripts.crates import TOP

TOOLS = f"{TOP}/tools"
VALGRIND = ["valgrind", "-q", "--leak-check=full", "--error-exitcode=9"]
# The compilers of C and C++ with which the headers must compile.
COMPILERS = (["gcc", "-std=c99", "-x", "c"], ["g++", "-std=c++11", "-x", "c++"],
             ["clang", "-std=c99", "-x", "c"], ["clang++", "-std=c++11", "-x", "c++"])
STRICT = ["-Wall", "-Wextra", "-Wpedantic", "-Wconversion", "-Wshadow", "-Werror", "-fsyntax-only"]

# In /proc/net/unix, the flag of a socket that listens, and the states of a connection: before it is accepted, and
# after.
ACCEPTS = 0x10000
CONNECTING, CONNECTED = "02", "03"
# In seconds: how long a program may take to start, and how long anything may take that ends by itself. Both are
# many times what is needed on a busy machine.
COMES_UP = 120
LONG = 900


class Failed(Exception):
    """A test failed, and why."""


class Skipped(unittest.SkipTest):
    """A test cannot run here, and why."""


def asked_of_dpkg(*words):
    """The lines that `dpkg-query` prints; none if the system does not have this command."""
    if not shutil.which("dpkg-query"):
        return []
    ran = subprocess.run(["dpkg-query", *words], capture_output=True, text=True, check=False)
    return ran.stdout.splitlines()


@functools.cache
def is_whole(package):
    """Whether a package is completely installed, or not at all, according to dpkg. If an installation was
    interrupted, its programs may be there and not run. A package that dpkg does not know counts as whole."""
    states = asked_of_dpkg("-W", "-f=${db:Status-Abbrev}\n", package)
    return all(it[1:] in ("i ", "n ", "c ") for it in states)


@functools.cache
def is_installed(command):
    """Whether a program is there, and its package is completely installed."""
    path = shutil.which(command)
    if path is None:
        return False
    owners = [it.rpartition(": ")[0] for it in asked_of_dpkg("-S", os.path.realpath(path))]
    return all(is_whole(it) for line in owners for it in line.split(", ") if " " not in it)


def need(*commands):
    """Skips the test if one of the commands is not installed."""
    for command in commands:
        if not is_installed(command):
            raise Skipped(f"{command} is not installed")


def can(what, *commands):
    """Whether the commands that a part of a test needs are installed. Prints which one is not."""
    lacking = [it for it in commands if not is_installed(it)]
    if lacking:
        print(f"skipped: {what}: {lacking[0]} is not installed")
    return not lacking


def has_come(test, seconds=COMES_UP):
    """Waits until a condition is true, for at most so many seconds. Returns whether it became true. The last look is
    after that time: this process may have been stopped all the time."""
    end, is_last = time.monotonic() + seconds, False
    while not test():
        if is_last:
            return False
        time.sleep(0.05)
        is_last = time.monotonic() > end
    return True


def end(process):
    """Ends a process, by force if it does not end by itself."""
    process.terminate()
    try:
        process.wait(COMES_UP)
    except subprocess.TimeoutExpired:
        process.kill()
        process.wait()


def ends_of(said):
    """The output of a command; if it is long, without the middle."""
    return said if len(said) <= 1600 else f"{said[:400]}\n..\n{said[-1200:]}"


def outputs_of(words, given, timeout, **kept):
    """Runs a command that reads `given`, in a session of its own, and returns its status and its outputs. If it is not
    waited for to its end, all of the session is killed: also what the command has started."""
    piped = {"stdout": subprocess.PIPE, "stderr": subprocess.PIPE, "start_new_session": True}
    if given is not None:
        piped["stdin"] = subprocess.PIPE
    with subprocess.Popen(words, **piped, **kept) as process:
        try:
            outputs = process.communicate(given, timeout)
        except BaseException:
            with contextlib.suppress(OSError):
                os.killpg(process.pid, signal.SIGKILL)
            raise
    return process.returncode, *(it.decode(errors="replace") for it in outputs)


def run(words, status=0, with_error=False, **kept):
    """Runs a command at the top of the repository, and returns its standard output; if `with_error` is set, followed
    by its standard error. The command must end with this status."""
    kept = {"cwd": TOP, "timeout": LONG, **kept}
    found, output, error = outputs_of(words, kept.pop("input", None), **kept)
    if found != status:
        how = f"status {found}" if found >= 0 else f"signal {-found}"
        raise Failed(f"{' '.join(words[-3:])}: {how}\n{ends_of(output)}{ends_of(error)}")
    return output + error if with_error else output


def make(*words):
    """Runs `make` at the top of the repository, and returns whether it succeeded. Tests that run side by side wait for
    each other: two runs at once would write the same files."""
    os.makedirs(f"{TOP}/out", exist_ok=True)
    with open(f"{TOP}/out/lock", "wb") as lock:
        fcntl.flock(lock, fcntl.LOCK_EX)
        return not subprocess.run(["make", "-s", *words], cwd=TOP, stdout=subprocess.DEVNULL, check=False).returncode


def sockets_at(path):
    """The lines of /proc/net/unix for the sockets at a path, as lists of words."""
    with open("/proc/net/unix", encoding="utf-8", errors="surrogateescape") as sockets:
        return [it for it in map(str.split, sockets) if it[-1] == path]


def is_listening(path):
    """Whether a socket listens at a path. A socket that is bound and does not listen yet would refuse a client."""
    return any(int(it[3], 16) & ACCEPTS for it in sockets_at(path))


def comes_to_listen(started, path):
    """Waits until a started server listens at a path, or has ended. Returns whether it listens."""
    return has_come(lambda: is_listening(path) or started.poll() is not None) and started.poll() is None


def wait_until_listening(started, path):
    """Waits until a started server listens at a path."""
    listens = comes_to_listen(started, path)
    if started.poll() is not None:
        raise Failed(f"{started.args[0]}: {started.stdout.read().decode()[-800:]}")
    if not listens:
        started.kill()
        raise Failed(f"{started.args[0]}: it does not listen")


def start_and_wait(words, path, **kept):
    """Starts a server, and waits until it listens at a path."""
    started = subprocess.Popen(words, stdout=subprocess.PIPE, stderr=subprocess.STDOUT, **kept)
    wait_until_listening(started, path)
    return started


def ended(started, status=0):
    """The output of a server that ends by itself."""
    try:
        output = started.communicate(timeout=LONG)[0].decode()
    except subprocess.TimeoutExpired:
        started.kill()
        raise Failed(f"{started.args[0]}: it does not end") from None
    if started.returncode != status:
        raise Failed(f"{started.args[0]}: status {started.returncode}\n{output[-1200:]}")
    return output


def has_client(path, beside=0):
    """Whether the socket that listens at a path has accepted a client, beside so many others."""
    return sum(it[5] == CONNECTED for it in sockets_at(path)) > beside


def has_waiting_client(path):
    """Whether a client has connected to the socket at a path, and its connection is not accepted yet."""
    return any(it[5] == CONNECTING for it in sockets_at(path))


def protocols():
    """The installed protocol files, by the name of the table text that is made of each."""
    found = protocol_files.found()
    if not found:
        raise Skipped("wayland-protocols is not installed")
    return found


def need_protocols():
    """Skips the test if the protocols of the examples, xdg-shell and wl_data_device, are not installed."""
    for name, package in (("xdg-shell", "wayland-protocols"), ("data-device", "libwayland-dev")):
        if name not in protocols():
            raise Skipped(f"{package} is not installed")


def read(path):
    """The text of a file, by its path below the top."""
    with open(f"{TOP}/{path}", encoding="utf-8") as file:
        return file.read()


def copy_program(source, target):
    """Copies a program to a path or into a folder, and returns the copy's path. Another process writes the copy: if
    this one had it open, a process that another thread starts would inherit it, and while that waits to run its own
    program, the copy cannot be run ("Text file busy")."""
    path = f"{target}/{os.path.basename(source)}" if os.path.isdir(target) else target
    subprocess.run(["cp", "-p", "--", source, path], check=True)
    return path


def write_program(path, text):
    """Writes a script. Another process writes it, as in `copy_program`."""
    subprocess.run(["install", "-m", "755", "/dev/stdin", path], input=text, encoding="utf-8", check=True)


def files_below(folder):
    """The paths of all files in a folder and below it."""
    return [f"{at}/{name}" for at, _, names in os.walk(folder) for name in names]


def laid_out(crate, room):
    """Copies the files of a crate into a folder, and lays out the copies. Returns what `rt fmt` said if it failed, and
    for each file the copy. `rt fmt` lays out only what ends with `.rt`."""
    copies = {}
    for part in ("src", "specs", "proofs"):
        for path in files_below(f"{TOP}/{crate.folder}/{part}"):
            name = os.path.relpath(path, f"{TOP}/{crate.folder}")
            copy = f"{room}/{re.sub('[.]rattle$', '.rt', name)}"
            os.makedirs(os.path.dirname(copy), exist_ok=True)
            copies[name] = shutil.copy(path, copy)
    how = {"stdin": subprocess.DEVNULL, "stdout": subprocess.PIPE, "stderr": subprocess.STDOUT, "errors": "replace"}
    ran = subprocess.run(["rt", "fmt"], cwd=room, check=False, **how)
    if ran.returncode:
        return f"{crate.name}: rt fmt ended with status {ran.returncode}: {ran.stdout}", {}
    return "", copies


def out_of_layout(crate, is_mended=False):
    """Returns the files of a crate that `rt fmt` would change, or how `rt fmt` failed. It changes them if it is told
    to."""
    folder, wrong = f"{TOP}/{crate.folder}", []
    with tempfile.TemporaryDirectory() as room:
        why, copies = laid_out(crate, room)
        for name, copy in copies.items():
            if not filecmp.cmp(copy, f"{folder}/{name}", shallow=False):
                wrong.append(name)
                if is_mended:
                    shutil.copyfile(copy, f"{folder}/{name}")
    return [why] if why else sorted(wrong)


def tried(name, uses, sources):
    """The output of a program in Rattle, run unproved with a copy of the crates that it uses. `sources` has its
    modules by their names."""
    found = crates.read()
    own = [it for it in uses.split() if it in found]
    with tempfile.TemporaryDirectory() as room:
        with open(f"{room}/crates.txt", "w", encoding="utf-8") as file:
            for it in dict.fromkeys([*own, *(low for it in own for low in crates.below(found)[it])]):
                file.write(f"{found[it].line}\n")
                shutil.copytree(f"{TOP}/crates/{it}", f"{room}/crates/{it}", ignore=shutil.ignore_patterns("out"))
            file.write(f"{name}: {uses}\n")
        os.makedirs(f"{room}/crates/{name}/src")
        for module, text in sources.items():
            with open(f"{room}/crates/{name}/src/{module}.rt", "w", encoding="utf-8") as file:
                file.write(text)
        return run(["rt", "try"], cwd=f"{room}/crates/{name}", timeout=4 * LONG)


def joined_tables():
    """The texts of protocols/, joined: one valid text."""
    texts = []
    for path in sorted(glob.glob(f"{TOP}/protocols/*.tables")):
        with open(path, "rb") as file:
            texts.append(file.read())
    return b"".join(texts)


def name_of(test):
    """The name of a function that is a test, in words."""
    return test.__name__.replace("_", " ")


def chosen(lists, words):
    """The tests of each list whose names contain one of the words; without words, all. A test that stands for others
    has their names too. A word that no name contains ends the program with status 2."""
    def names(test):
        return [name_of(it) for it in (test, *getattr(test, "stands_for", ()))]

    for word in words:
        if not any(word in name for tests in lists for it in tests for name in names(it)):
            usage.refuse(f"no test has a name with {word!r} in it")
    return [[it for it in tests if not words or any(word in name for word in words for name in names(it))]
            for tests in lists]


def suite_of(names, *modules):
    """The cases of `unittest` with these names, each a class or CLASS.TEST, that the modules have; without names, all.
    A name without a test ends the program with status 2."""
    loader, suite = unittest.TestLoader(), unittest.TestSuite()
    for name in names:
        classes = [(it, getattr(it, name.partition(".")[0], None)) for it in modules]
        own = [it for it, found in classes if isinstance(found, type) and issubclass(found, unittest.TestCase)]
        found = loader.loadTestsFromName(name, own[0]) if own else unittest.TestSuite()
        if loader.errors or not found.countTestCases():
            usage.refuse(f"no tests have the name {name}")
        suite.addTests(found)
    if not names:
        suite.addTests(map(loader.loadTestsFromModule, modules))
    return suite


def counted(passed, failed):
    """Prints the last line of a test program, and returns its exit status."""
    print(f"{passed} passed, {failed} failed")
    return int(failed > 0)


def why_of(error):
    """The text of an exception. If no test raised it on purpose, also its name and where it was raised."""
    if isinstance(error, (Failed, subprocess.TimeoutExpired)):
        return str(error)
    return f"{type(error).__name__}: {error}\n{traceback.format_exc().rstrip()}"


def count_functions(tests, *given):
    """Runs functions as tests. Prints which failed and which were skipped, and why, and counts them."""
    return counted(*passed_and_failed(tests, *given))


def passed_and_failed(tests, *given):
    """Runs functions as tests. Says which failed and which were skipped, and why. Returns how many
    passed and failed."""
    passed = failed = 0
    for test in tests:
        name = name_of(test)
        try:
            test(*given)
            passed += 1
        except Skipped as why:
            print(f"skipped: {name}: {why}")
        except Exception as why:
            # Whatever ends this test, the others are run, and all are counted.
            print(f"failed: {name}: {why_of(why)}")
            failed += 1
        sys.stdout.flush()
    return passed, failed


def count_cases(suite):
    """Runs cases of `unittest`. Prints which failed and which were skipped, and why, and counts them."""
    def name(test):
        """The class and the test, without their module."""
        return re.sub(r"\b(__main__|tests)\.([a-z_]+\.)*", "", test.id())

    result = unittest.TextTestRunner(stream=sys.stdout, verbosity=1).run(suite)
    wrong = [*result.failures, *result.errors]
    for test, why in wrong:
        print(f"failed: {name(test)}: {why.rstrip().splitlines()[-1]}")
    for test, why in result.skipped:
        print(f"skipped: {name(test)}: {why}")
    # A class that is skipped was not run; a test fails by each of its parts.
    lost = {getattr(it, "test_case", it).id() for it, _ in (*wrong, *result.skipped)
            if isinstance(it, unittest.TestCase)}
    return counted(result.testsRun - len(lost), len(wrong))
