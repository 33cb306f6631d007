"""`waywire-run`, which runs a program or a compositor with the libraries that `make` has built."""

import os
import re
import shutil
import subprocess
import tempfile

from tests import compositors
from tests.checks import LONG, TOP, Failed, Skipped, copy_program, ends_of, has_come, need
from tests.libwayland import desktops
from tests.libwayland.libraries import SERVER_SONAME, SYSTEM, Library

TOOL = f"{TOP}/out/c/waywire-run"


def need_tool(library):
    """The tool runs programs only with its own library."""
    if library.folder != os.path.realpath(f"{TOP}/out/c/wayland/client"):
        raise Skipped(f"waywire-run has another library than {library.path}")
    if not os.path.exists(TOOL):
        raise Failed("out/c/waywire-run is not built")


def runs_a_program(desktop, library):
    """A program that has loaded the library opens a window. The tool ends with the program's status."""
    need("weston-flower")
    need_tool(library)
    process = desktop.start([TOOL, "weston-flower"])
    try:
        if not has_come(lambda: desktop.windows_of(process) or process.poll() is not None):
            raise Failed("weston-flower has opened no window")
        if not any(map(library.is_loaded_by, desktops.members(process))):
            raise Failed("weston-flower has not loaded the library")
        desktop.close(process)
        if not has_come(lambda: process.poll() is not None) or process.returncode:
            raise Failed(f"it has not ended, or with status {process.returncode}")
    finally:
        desktops.end_group(process)


def runs_a_program_that_is_inspected(desktop, library):
    """The messages are printed, and are lawful. The program's output is printed too."""
    need_tool(library)
    if not desktop.offers_text():
        raise Skipped("wl-copy has not come up")
    ran = subprocess.run([TOOL, "--inspect", "wl-paste"], env=SYSTEM.env(desktop.env),
                         capture_output=True, text=True, errors="replace", timeout=LONG, check=False)
    said = ran.stdout + ran.stderr
    wanted = (desktops.COPIED.decode(), "^(#1 )?lawful: ", r"-> wl_display@1\.get_registry\(")
    if ran.returncode or not all(re.search(it, said, re.M) for it in wanted):
        raise Failed(f"status {ran.returncode}\n{ends_of(said)}")


def loaded_by_weston(*options):
    """Which libraries of ours weston has loaded that the tool runs with these options, by their folders."""
    with tempfile.TemporaryDirectory(prefix="weston-") as room:
        os.chmod(room, 0o700)
        words, path, kept = compositors.weston(room, desktops.environment(room))
        with compositors.running([TOOL, *options, *words], path, room, **kept) as process:
            return {part for part, soname in (("client", "libwayland-client.so.0"), ("server", SERVER_SONAME))
                    if Library(f"{TOP}/out/c/wayland/{part}", soname).is_loaded_by(process.pid)}


def runs_a_compositor(_desktop, library):
    """Over both libraries, or over the one that is asked for."""
    need("weston")
    need_tool(library)
    for options, wanted in (((), "server"), (("--server",), "server"), (("--client",), None)):
        found = loaded_by_weston(*options)
        if ("server" in found) != (wanted == "server") or ("client" in found and options == ("--server",)):
            raise Failed(f"{' '.join(options) or 'without an option'}: weston has loaded {sorted(found)} of ours")


def tells_of_file_capabilities(_desktop, library):
    """A program that has some runs with the system's libraries, and the tool says so. Its copy has none."""
    need("setcap")
    need_tool(library)
    with tempfile.TemporaryDirectory() as room:
        with_some, copied = (copy_program(shutil.which("true"), f"{room}/{it}") for it in ("with_some", "copied"))
        ran = subprocess.run(["setcap", "cap_net_bind_service+ep", with_some], capture_output=True, check=False)
        if ran.returncode:
            raise Skipped(f"setcap does nothing here: {ran.stderr[-200:]!r}")
        for program, words in ((with_some, "capabilities"), (copied, "")):
            ran = subprocess.run([TOOL, program], capture_output=True, text=True, timeout=LONG, check=False)
            if ran.returncode not in (0, 126) or words not in ran.stderr or bool(ran.stderr) != bool(words):
                raise Failed(f"{program}: status {ran.returncode}, {ran.stderr!r}")


def tells_of_commands_that_are_not_there(_desktop, library):
    """As a shell does: 127 for a command that is not found, 126 for a file that cannot be run."""
    need_tool(library)
    with tempfile.TemporaryDirectory() as room:
        for command, status, words in (("no-such-command", 127, "waywire-run: no-such-command: command not found\n"),
                                       (f"{room}/none", 127, f"waywire-run: {room}/none: command not found\n"),
                                       (room, 126, None)):
            ran = subprocess.run([TOOL, command], capture_output=True, text=True, timeout=LONG, check=False)
            if ran.returncode != status or words not in (None, ran.stderr):
                raise Failed(f"{command}: status {ran.returncode}, {ran.stderr!r}")


def cases(kept, library):
    """The tests, at a kept desktop."""
    def at_desktop(test):
        def run():
            test(kept(), library)
        run.__name__ = f"waywire_run_{test.__name__}"
        return run
    return [at_desktop(it) for it in (runs_a_program, runs_a_program_that_is_inspected, runs_a_compositor,
                                      tells_of_file_capabilities, tells_of_commands_that_are_not_there)]
