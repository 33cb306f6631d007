"""The library under test, the system's, and programs that are compiled to run over either."""

import os
import re
import shutil
import subprocess

from tests.checks import LONG, TOP, Failed, Skipped, ends_of, is_whole, need, run

SONAME = "libwayland-client.so.0"
SERVER_SONAME = "libwayland-server.so.0"
OUT = f"{TOP}/out/c/tests-of-libwayland"
SOURCES = f"{TOP}/tests/libwayland"
C = ["cc", "-O1", "-g", "-std=gnu11", "-Wall", "-Wextra", "-Werror", "-I", SOURCES]


class Library:
    """A libwayland-client, or by its soname a libwayland-server: that of a folder, or the system's. With `beside`,
    programs load that other library of ours too."""

    def __init__(self, folder=None, soname=SONAME, beside=None):
        self.soname = soname
        self.folder = folder and os.path.realpath(folder)
        self.path = folder and f"{self.folder}/{soname}"
        self.name = self.path or "the system's library"
        self.folders = [it.folder for it in (self, beside) if it and it.folder]

    def env(self, before=None, **more):
        """The environment in which programs load this library."""
        env = {**(os.environ if before is None else before), **more}
        env.pop("LD_LIBRARY_PATH", None)
        if self.folders:
            env["LD_LIBRARY_PATH"] = ":".join(self.folders)
        return env

    def is_loaded_by(self, process):
        """Whether a process has mapped this file; of the system's library, whether it has mapped any file of that
        name."""
        try:
            with open(f"/proc/{process}/maps", encoding="utf-8", errors="replace") as file:
                mapped = set(re.findall(rf"\S*/{re.escape(self.soname)}\S*", file.read()))
        except OSError:
            return False
        mapped = {os.path.realpath(it) for it in mapped}
        return os.path.realpath(self.path) in mapped if self.path else bool(mapped)

    def is_linked_by(self, program):
        """Whether the loader finds this library for a program that is linked with it. A program that loads the
        library later is not recognized, because the program is not run."""
        env = self.env(LD_TRACE_LOADED_OBJECTS="1")
        how = {"stdout": subprocess.PIPE, "stderr": subprocess.DEVNULL, "text": True}
        said = subprocess.run([shutil.which(program)], env=env, timeout=LONG, check=False, **how).stdout
        found = re.search(rf"^\s*{re.escape(self.soname)} => (\S+)", said, re.M)
        if not found or not self.path:
            return bool(found)
        return os.path.realpath(found[1]) == os.path.realpath(self.path)

    def run(self, words, **env):
        """Runs a program over this library, with these words in its environment, and returns how it
        ended and what it said."""
        how = {"capture_output": True, "text": True, "errors": "replace", "timeout": LONG}
        return subprocess.run(words, check=False, env=self.env(**env), **how)

    def succeeds(self, words, **env):
        """Runs a program over this library, which must end with status 0. Returns its output."""
        ran = self.run(words, **env)
        if ran.returncode:
            raise Failed(f"{os.path.basename(words[-1])} over {self.name}: status {ran.returncode}\n"
                         f"{ends_of(ran.stdout)}{ends_of(ran.stderr)}")
        return ran.stdout


SYSTEM = Library()
SYSTEM_SERVER = Library(soname=SERVER_SONAME)


def need_headers():
    """Skips the test if no program can be compiled for libwayland."""
    need("cc", "pkg-config")
    found = subprocess.run(["pkg-config", "wayland-client", "wayland-server"], capture_output=True, check=False)
    if found.returncode or not is_whole("libwayland-dev"):
        raise Skipped("libwayland-dev is not installed")


def compiled(name, *more, library="-lwayland-client"):
    """Compiles a program of tests/libwayland against the system's headers, and returns its path."""
    need_headers()
    path = f"{OUT}/{name}"
    os.makedirs(os.path.dirname(path), exist_ok=True)
    run([*C, f"{SOURCES}/{name}.c", "-o", path, library, "-pthread", *more])
    return path


def checked_by_valgrind(*options):
    """The command that runs a program under valgrind. An error gives a status of its own."""
    need("valgrind")
    return ["valgrind", "-q", "--error-exitcode=9", *options]
