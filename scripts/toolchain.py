"""Builds the crates of this repository with the toolchain, and knows where the toolchain leaves its files.

    python3 -m scripts.toolchain build CRATE    proves and builds `waywire`, the program, or
                                                `waywire_c`, the archive below the library for C
    python3 -m scripts.toolchain build waywire_c whole
                                                the same, and takes no proof of its functions from an
                                                earlier run
    python3 -m scripts.toolchain proved CRATE   prints the path of a crate's proved program; the
                                                status is 1 if it is not there, or a source is newer

The Makefile, ./test, ./test quick and ./test pages name the places of `waywire` and `waywire_c`
themselves; all others ask this file. The exit status is 70 if something cannot be built.

Crates are proved by the gate's command, `rt ci`, in a copy of the repository, so that the clone does
not change. There are two kinds of this command:

- One takes names of crates. It keeps on this machine what passed, by the checksums of a crate's files
  without its mutants, and of the libraries below. With it, the proof goes crate by crate, and
  what one run or the gate has proved is not proved again.
- The other takes no names and keeps nothing. With it, one run proves all crates, and this file keeps
  the libraries of that run.

`rt ci` neither builds nor keeps a static library. So `make` proves waywire_c itself, with libraries
that one run has left in this clone, or that are proved for it: those of the gate, in
crates/NAME/out/rlib, or those of a run on a copy, in out/libraries.tar. Files there that have a file
`stamp` beside them belong to another command of rt, and are neither used nor removed.

What `make` proves of waywire_c it keeps in crates/waywire_c/out/kept, for its next run in this clone,
which proves only what changed. An archive for a package is proved as the gate proves, from nothing;
scripts/proved_archive.py says how it writes down which of the two an archive is."""

import contextlib
import fcntl
import glob
import hashlib
import os
import shutil
import signal
import subprocess
import sys
import tempfile
import time
from collections.abc import Iterable, Iterator
from typing import Any, NoReturn

from scripts import crates, proved_archive

ALL = ("src", "specs", "proofs")
LIBRARY = "waywire_c"
# The status if nothing could be built.
NOT_BUILT = 70
Process = subprocess.Popen[bytes]
QUIET: dict[str, Any] = {"stdin": subprocess.DEVNULL, "stderr": subprocess.STDOUT}


def kit() -> str:
    """The folder of the toolchain."""
    ran = subprocess.run(["rt", "doc"], stdout=subprocess.PIPE, text=True, check=True)
    return os.path.dirname(ran.stdout.strip())


def version() -> str:
    """The name of the toolchain, and that of its logic."""
    how: dict[str, Any] = {"stdout": subprocess.PIPE, "stderr": subprocess.DEVNULL, "text": True, "check": False}
    return subprocess.run(["rt", "version"], **how).stdout.strip()


def rlib(top: str, crate: str) -> str:
    """The library of a crate as a run of `rt ci` over the repository in `top` leaves it."""
    return f"{top}/crates/{crate}/out/rlib/{crate}.rlib"


def format_of(library: str) -> bytes:
    """The text of a library that says what it was built by and over; nothing if it has none."""
    with contextlib.suppress(OSError), open(f"{library}/format", "rb") as file:
        return file.read()
    return b""


def last_time(top: str, name: str) -> str:
    """What is said of a command before it begins: how long it took here the last time, or nothing."""
    with contextlib.suppress(OSError), open(f"{top}/out/times/{name}", encoding="utf-8") as file:
        return f"; last time: {file.read().strip()} s"
    return ""


def note_time(top: str, name: str, began: float) -> None:
    """Keeps how long a command took that began at this time, by `time.monotonic`."""
    os.makedirs(f"{top}/out/times", exist_ok=True)
    with open(f"{top}/out/times/{name}", "w", encoding="utf-8") as file:
        file.write(f"{time.monotonic() - began:.0f}\n")


def is_of_another_command(top: str, crate: str) -> bool:
    """Whether the file in the place of the gate's library was built by another command of rt."""
    return os.path.exists(f"{top}/crates/{crate}/out/rlib/stamp")


def put(made: str, place: str, began: str) -> None:
    """Puts a program in its place, as old as the file with which its making began."""
    with replacing(place) as new:
        shutil.copyfile(made, new)
        os.chmod(new, 0o755)
        as_old_as(new, began)


@contextlib.contextmanager
def replacing(place: str) -> Iterator[str]:
    """A file to write, of this process alone, that then takes the place of another."""
    handle, new = tempfile.mkstemp(dir=os.path.dirname(place))
    os.close(handle)
    try:
        yield new
        os.replace(new, place)
    finally:
        with contextlib.suppress(FileNotFoundError):
            os.unlink(new)


def as_old_as(path: str, other: str) -> None:
    at = os.stat(other).st_mtime_ns
    os.utime(path, ns=(at, at))


def end(processes: Iterable[Process]) -> None:
    """Ends processes, by force those that have not ended after twenty seconds."""
    for it in processes:
        it.terminate()
    for it in processes:
        try:
            it.wait(20)
        except subprocess.TimeoutExpired:
            it.kill()
            it.wait()


class Clone:
    """A clone of the repository: its crates, and what runs have left in it."""

    def __init__(self, top: str = crates.TOP) -> None:
        self.top = top
        self.crates = crates.read(top)
        # The libraries of a run over a copy. They are one file since they hold sources, which the
        # gate refuses where no crate has them.
        self.packed = f"{top}/out/libraries.tar"

    def below(self, crate: str) -> list[str]:
        """All crates that a crate uses, directly or not, lowest first, and the crate itself last."""
        return crates.lowest_first(self.crates, crate)

    def libraries(self) -> list[str]:
        return self.below(LIBRARY)[:-1]

    def out(self, crate: str) -> str:
        return f"{self.top}/crates/{crate}/out"

    def proved(self, crate: str) -> str:
        return f"{self.out(crate)}/{crate}"

    def is_older(self, path: str, names: list[str]) -> bool:
        """Whether a file is older than a file or a folder in these parts of some crates."""
        before = os.stat(path).st_mtime_ns
        for folder in (f"{self.top}/crates/{name}/{part}" for name in names for part in ALL):
            for at, _, files in os.walk(folder):
                paths = (at, *(f"{at}/{it}" for it in files))
                if any(os.lstat(it).st_mtime_ns > before for it in paths):
                    return True
        return False

    def is_old(self, program: str, crate: str) -> bool:
        """Whether a program is not there, or older than what it is made of."""
        return not os.access(program, os.X_OK) or self.is_older(program, self.below(crate))

    def copy(self, room: str, names: list[str]) -> None:
        """Copies crates into a room, without mutants, and makes a file `began` that is as old as
        the beginning."""
        os.makedirs(f"{room}/crates")
        open(f"{room}/began", "w", encoding="utf-8").close()
        for name in names:
            folder = f"{self.top}/crates/{name}"
            os.mkdir(f"{room}/crates/{name}")
            for part in glob.glob("*", root_dir=folder):
                if part not in ("out", "must-fail"):
                    copy: Any = shutil.copytree if os.path.isdir(f"{folder}/{part}") else shutil.copy
                    copy(f"{folder}/{part}", f"{room}/crates/{name}/{part}")
        with open(f"{room}/crates.txt", "w", encoding="utf-8") as file:
            file.writelines(f"{self.crates[name].line}\n" for name in names)
        shutil.copy(f"{self.top}/HANDLES", room)

    def pack_libraries(self, room: str) -> bool:
        """Packs the libraries of a run over a copy, if it left all of them, as old as that run's
        beginning. Returns whether what there was could be written."""
        made = [rlib(".", it) for it in self.libraries()]
        if not all(os.path.isdir(f"{room}/{it}") for it in made):
            return True
        try:
            os.makedirs(os.path.dirname(self.packed), exist_ok=True)
            with replacing(self.packed) as new:
                subprocess.run(["tar", "-C", room, "-cf", new, *made], check=True)
                as_old_as(new, f"{room}/began")
        except (OSError, subprocess.CalledProcessError):
            return False
        return True

    def copy_of_the_gate(self, room: str) -> bool:
        """Copies the libraries that the gate left into a room, if each crate has one, and the
        oldest of them is newer than all sources. Returns whether it did."""
        names = self.libraries()
        made = [rlib(self.top, it) for it in names]
        if not all(map(os.path.isdir, made)):
            return False
        if any(is_of_another_command(self.top, it) for it in names):
            return False
        if self.is_older(min(made, key=lambda it: os.stat(it).st_mtime_ns), names):
            return False
        for name in names:
            shutil.copytree(rlib(self.top, name), rlib(room, name), symlinks=True)
        return True

    def copy_of_the_packed(self, room: str) -> bool:
        """Unpacks those of a run over a copy into a room, if they are newer than all sources.
        Returns whether it did."""
        if not os.path.isfile(self.packed) or self.is_older(self.packed, self.libraries()):
            return False
        ran = subprocess.run(["tar", "-C", room, "-xf", self.packed], check=False)
        return not ran.returncode

    def are_of_one_run(self, room: str, folder: str, names: list[str] | None = None) -> bool:
        """Whether the libraries in a room are of one run of the toolchain in this folder. Each has
        a file `format`, which names the compiler, as it does in the toolchain's own libraries, and
        has the checksum of that file of each library that this one was built over."""
        formats = {it: format_of(rlib(room, it)) for it in (self.libraries() if names is None else names)}
        sums = {it: hashlib.sha256(text).hexdigest() for it, text in formats.items()}
        texts = [format_of(f"{folder}/rlibs/std.rlib"), *formats.values()]
        lines = [it.split() for text in texts for it in text.decode(errors="replace").splitlines()]
        compilers = {it[1] for it in lines if it[:1] == ["rattle-build"] and len(it) > 1}
        over = [(it[1], it[2]) for it in lines if it[:1] == ["over"] and len(it) > 2]
        return len(compilers) < 2 and all(sums.get(it, own) == own for it, own in over)

    def take_libraries(self, room: str, folder: str) -> str | None:
        """Puts the libraries of one run into a room, and returns where that run left them; None if this clone
        has no libraries for the toolchain in this folder."""
        places = {"crates/NAME/out/rlib": self.copy_of_the_gate,
                  os.path.relpath(self.packed, self.top): self.copy_of_the_packed}
        for place, copied in places.items():
            shutil.rmtree(room, ignore_errors=True)
            os.makedirs(room)
            if copied(room) and self.are_of_one_run(room, folder):
                return place
        shutil.rmtree(room)
        return None


class Build:
    """A run that proves crates in a copy, and leaves what is built, its log and its times in the
    clone. The file of times has, of the last run that proved all of its crates, each crate and the
    seconds since the run began."""

    def __init__(self, clone: Clone, crate: str) -> None:
        self.clone, self.crate, self.who = clone, crate, who(crate)
        self.log, self.times = f"{clone.out(crate)}/build.log", f"{clone.out(crate)}/build.times"
        self.begin, self.names = time.monotonic(), clone.below(crate)
        self.told: list[tuple[str, int]] = []
        self.is_over_kept = False
        os.makedirs(clone.out(crate), exist_ok=True)
        self.before = {}
        with contextlib.suppress(OSError), open(self.times, encoding="utf-8") as file:
            self.before = dict(it.split() for it in file if len(it.split()) == 2)

    def say(self, what: str) -> None:
        print(f"{self.who}: {what}", file=sys.stderr, flush=True)

    def seconds(self) -> int:
        return int(time.monotonic() - self.begin)

    def begins(self, what: str) -> None:
        """Says what is known of a run before it begins."""
        open(self.log, "w", encoding="utf-8").close()
        number = len(self.names)
        known = f"; last time, from nothing: {self.before['all']} s" if "all" in self.before else ""
        self.say(f"proving and building {what}: {number} crate{'s' * (number != 1)}{known}")

    def tell(self, crate: str) -> None:
        """Says of a crate that it is proved, and when it was before."""
        now, before = self.seconds(), ""
        self.told.append((crate, now))
        if {crate, "all"} <= {*self.before}:
            before = f"; last time after {self.before[crate]} of {self.before['all']} s"
        self.say(f"{crate} is proved ({len(self.told)} of {len(self.names)}, {now} s{before})")

    def logged(self, words: list[str], folder: str) -> bool:
        """Runs a command in a folder, and returns whether it ended well."""
        with open(self.log, "ab") as log:
            ran = subprocess.run(words, cwd=folder, stdout=log, check=False, **QUIET)
        return not ran.returncode

    def prove(self, room: str, names: list[str]) -> bool:
        """Proves crates in a copy, each by a run of the gate's command, once those below it are proved. Then
        that command builds all of them there. Two runs go at once, because one run cannot use more than two
        processors; crates with the longest chain of crates above them come first. If the first run to end has
        status 2, the command takes no names, and one run proves all. Returns whether all are proved."""
        order = crates.longest_chain_first(self.clone.crates, self.crate)
        running: dict[Process, str] = {}
        left, proved, status = [it for it in order if it in names], set[str](), 0
        try:
            while not status and (left or running):
                self.start_some(room, left, running, proved)
                process = first_to_end(running)
                crate, status = running.pop(process), process.returncode
                if status == 2 and not proved:
                    break
                with open(self.log, "ab") as log, open(f"{room}/{crate}.log", "rb") as own:
                    log.write(own.read())
                if not status:
                    proved.add(crate)
                    self.tell(crate)
        finally:
            end(running)
        if status == 2 and not proved:
            return self.prove_at_once(room)
        return not status and self.logged(["rt", "ci"], room)

    def start_some(self, room: str, left: list[str], running: dict[Process, str], proved: set[str]) -> None:
        """Starts proofs until two run: of the first crates that are left and only use proved crates."""
        for crate in [*left]:
            uses = {it for it in self.clone.crates[crate].uses if it in self.clone.crates}
            if len(running) < 2 and uses <= proved:
                with open(f"{room}/{crate}.log", "wb") as log:
                    one = subprocess.Popen(["rt", "ci", crate], cwd=room, stdout=log, **QUIET)
                running[one] = crate
                left.remove(crate)

    def prove_at_once(self, room: str) -> bool:
        """Proves all crates in a copy by one run of the gate's command, and packs the libraries of
        that run. Returns whether all are proved."""
        self.say("rt ci takes no names of crates here: one run of it proves all of them")
        running = subprocess.Popen(["rt", "ci"], cwd=room, stdout=subprocess.PIPE, **QUIET)
        try:
            with open(self.log, "ab", buffering=0) as log:
                for line in running.stdout or ():
                    log.write(line)
                    words = line.decode(errors="replace").split()
                    if words[:1] == ["rt:"] and words[2:] == ["proved"]:
                        self.tell(words[1])
            status = running.wait()
        finally:
            end([running])
        if not status and not self.clone.pack_libraries(room):
            packed = self.clone.packed
            self.say(f"the libraries are not kept for make: {packed} cannot be written")
        return not status

    def ended(self, is_built: bool, room: str) -> None:
        """Says how a run ended, and keeps its times if it proved each of its crates, and none was
        kept from an earlier run."""
        now = self.seconds()
        if not is_built:
            sys.stderr.write(last_lines(self.log))
            self.say(f"not built; {self.log} has the whole of it")
            return
        is_whole = len(self.told) == len(self.names) and not self.is_over_kept
        if is_whole and not any(was_kept(room, it) for it in self.names):
            with open(self.times, "w", encoding="utf-8") as file:
                file.writelines(f"{name} {then}\n" for name, then in [*self.told, ("all", now)])
        self.say(f"proved and built in {now} s")

    def program(self, room: str) -> bool:
        """Proves and builds a program. If a proof fails it leaves no program."""
        place = self.clone.proved(self.crate)
        self.begins("the program")
        self.clone.copy(room, self.names)
        is_built = self.prove(room, self.names)
        if is_built:
            put(f"{room}/crates/{self.crate}/out/{self.crate}", place, f"{room}/began")
        else:
            with contextlib.suppress(FileNotFoundError):
                os.unlink(place)
        self.ended(is_built, room)
        return is_built

    def library(self, room: str, is_whole: bool = False) -> bool:
        """Proves a static library and builds its archive, over libraries that a run has left here,
        or that are proved now. What earlier runs have kept of it is used unless all is to be
        proved."""
        own, below, folder = f"{room}/own", f"{room}/below", kit()
        place = self.clone.take_libraries(below, folder)
        if place:
            self.say(f"takes the libraries below waywire_c that were proved here ({place})")
            self.names = [self.crate]
        self.begins("the library for C")
        self.clone.copy(own, [self.crate])
        is_built = True
        if not place:
            self.clone.copy(below, self.names[:-1])
            is_built = self.prove(below, self.names[:-1])
        tops = dict.fromkeys(self.clone.libraries(), self.clone.top if place else below)
        sums = proved_archive.of_sources(self.clone.crates, {**tops, self.crate: own})
        if is_built:
            is_built = self.prove_archive(own, below, folder, is_whole, sums)
        if is_built and not place:
            self.tell(self.crate)
        self.ended(is_built, below)
        return is_built

    def prove_archive(self, own: str, below: str, folder: str, is_whole: bool, sums: dict[str, str]) -> bool:
        """Proves a static library over those in a room, and puts its archive into the clone with the
        checksums of its sources. Returns whether it is proved."""
        out = self.clone.out(self.crate)
        kept, made = f"{out}/kept", f"{own}/{proved_archive.ARCHIVE}"
        with open(f"{out}/kept.lock", "w", encoding="utf-8") as lock:
            fcntl.flock(lock, fcntl.LOCK_EX)
            if is_whole:
                shutil.rmtree(kept, ignore_errors=True)
            is_over_kept = os.path.isdir(kept)
            if is_over_kept:
                self.say(f"of {self.crate}, proves what has changed since earlier runs ({kept})")
            command = self.archive(made, below, folder, kept)
            if not self.logged(command, f"{own}/crates/{self.crate}"):
                return False
        how = proved_archive.KEPT if is_over_kept else proved_archive.WHOLE
        record = proved_archive.Record(how, version(), sums)
        began = os.stat(f"{own}/began").st_mtime_ns
        proved_archive.leave(out, record, made, f"{folder}/c/{proved_archive.MEMORY}", began)
        self.is_over_kept = is_over_kept
        return True

    def archive(self, made: str, below: str, folder: str, kept: str) -> list[str]:
        """The command that proves a static library over those in a room, with the toolchain in this
        folder, and makes its archive. It uses and adds to what is kept."""
        words = ["--extern", f"std={folder}/rlibs/std.rlib", "-L", f"dependency={folder}/rlibs"]
        for crate in self.clone.libraries():
            words += ["-L", f"dependency={os.path.dirname(rlib(below, crate))}"]
        for crate in self.clone.crates[self.crate].uses:
            is_own = crate in self.clone.crates
            place = rlib(below, crate) if is_own else f"{folder}/rlibs/{crate}.rlib"
            words += ["--extern", f"{crate}={place}"]
        return [
            f"{folder}/bin/rattle", "build", "--crate-name", self.crate, "src/lib.rt", *words,
            "--antt-project", f"{folder}/rattle/logic/antt-project.json",
            "--logic-built", f"{folder}/logic_built", "--links", f"{self.crate}=", "--jobs", "2",
            "--incremental", kept, "--crate-type", "staticlib", "--toolchain", f"{folder}/toolchain", "-o", made,
        ]


def who(crate: str) -> str:
    """Who speaks in a run that makes a crate: the command that people call for it."""
    return "make" if crate == LIBRARY else crate


def first_to_end(running: dict[Process, str]) -> Process:
    """The first of some processes that has ended."""
    while True:
        for it in running:
            if it.poll() is not None:
                return it
        time.sleep(0.05)


def last_lines(path: str) -> str:
    with open(path, encoding="utf-8", errors="replace") as file:
        return "".join(file.readlines()[-20:])


def was_kept(room: str, crate: str) -> bool:
    """Whether the proof of a crate in a copy was taken from an earlier run."""
    with contextlib.suppress(OSError), open(f"{room}/{crate}.log", "rb") as file:
        return any(it.startswith(f"rt: {crate} is kept: ".encode()) for it in file)
    return False


def stop(number: int, _frame: object) -> NoReturn:
    """A signal that ends this process ends it as an error does: what it began ends with it, and its
    folders are removed."""
    sys.exit(128 + number)


def build(clone: Clone, crate: str, is_whole: bool = False) -> bool:
    """Proves and builds what a crate makes, and returns whether it did."""
    with tempfile.TemporaryDirectory(ignore_cleanup_errors=True) as room:
        run = Build(clone, crate)
        return run.library(room, is_whole) if crate == LIBRARY else run.program(f"{room}/it")


def has_toolchain(speaker: str) -> bool:
    """Whether the toolchain's command is there; if it is not, says so."""
    if shutil.which("rt"):
        return True
    print(f"{speaker}: the toolchain's command rt is not on this machine", file=sys.stderr)
    return False


def main(words: list[str]) -> int:
    clone, is_whole = Clone(), words == ["build", LIBRARY, "whole"]
    if not is_whole and (len(words) != 2 or words[0] not in ("build", "proved") or words[1] not in clone.crates):
        print(__doc__.strip(), file=sys.stderr)
        return 2
    asked, crate = words[:2]
    for number in (signal.SIGTERM, signal.SIGHUP, signal.SIGINT):
        signal.signal(number, stop)
    if asked == "build":
        return 0 if has_toolchain(who(crate)) and build(clone, crate, is_whole) else NOT_BUILT
    place = clone.proved(crate)
    if clone.is_old(place, crate):
        return 1
    print(place)
    return 0


if __name__ == "__main__":
    sys.exit(main(sys.argv[1:]))
