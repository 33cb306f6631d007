"""Runs the prover over a crate, and reads what it says."""

import os
import re
import signal
import subprocess
import threading
from collections.abc import Iterable

from scripts import toolchain

LINE = re.compile(r"^fn (\S+): (proved|not proved|no proof|could not tell)\b(.*)$", re.M)
NO_FUNCTION = re.compile(r"rattle: error: `\w+` has no function `([^`]*)`")
SEVERAL = re.compile(r"rattle: error: several functions are named `([^`]*)`: help: write one of (.*)")
# The words of a limit that is the prover's own, which it meets wherever it checks the same.
LIMIT = re.compile(
    r"antt ran out of (stack|the (steps|memory) that the check of one declaration may (take|use))"
    r"|(outgrew the memory limit|stopped at the step limit) \("
)
# What it says of a text that it cannot read, as `rt` takes it (`unread` there).
UNREADABLE = re.compile(
    r"is not in scope|has no field|is no name|operand is missing|expected the end|cannot continue"
)


class Stopped(Exception):
    """The tool is being stopped."""


class Answer:
    """What a check says: its status, its output, and the seconds of processor time that it took."""

    def __init__(self, status: int, said: str, seconds: float = 0.0) -> None:
        self.status, self.said, self.seconds = status, said, seconds
        self.lines = said.rstrip("\n").split("\n")
        self.verdicts = {name: (word, rest) for name, word, rest in LINE.findall(said)}

    def has_ended(self) -> bool:
        """Returns whether the prover came to its end and says of each function what it found."""
        return self.status in (0, 1) and self.lines[-1].startswith(("only=", "logic="))

    def is_at_a_limit(self) -> bool:
        return self.status == 3 and bool(LIMIT.search(self.said))

    def proved(self) -> set[str]:
        return {name for name, (word, _) in self.verdicts.items() if word == "proved"}

    def refused(self) -> list[str]:
        """Returns the functions that are refused for another reason than that one which they call is."""
        said = self.verdicts.items()
        return [it for it, (word, why) in said if word in ("not proved", "no proof") and "it calls" not in why]

    def of(self, function: str) -> list[str]:
        """Returns the names of a function and of what is written in it, such as its closures."""
        return [it for it in self.verdicts if is_in(it, function)]

    def culprits(self, function: str) -> set[str]:
        """Returns the refused functions for whose sake a function is, since it calls them, directly or not."""
        refused, found, left = {*self.refused()}, set(), self.of(function)
        seen = set(left)
        while left:
            name = left.pop()
            if name in refused:
                found.add(name)
            called = {*re.findall("`([^`]+)`", self.verdicts[name][1])} & {*self.verdicts} - seen
            left += called
            seen |= called
        return found

    def unfit(self) -> tuple[str, list[str]] | None:
        """Returns a name that fits no function, or several, and those that it fits; None if there is none."""
        found = NO_FUNCTION.search(self.said)
        if found:
            return found[1], []
        found = SEVERAL.search(self.said)
        return (found[1], re.findall("`([^`]+)`", found[2])) if found else None

    def unread(self, changed: set[str]) -> str:
        """Returns the first line that says that the code does not compile, or that the prover cannot read it;
        nothing if there is none. An edit that only makes a statement false reads well."""
        if self.status != 1:
            return ""
        for line in self.lines:
            at = re.match(r"(?:\./)?(\S+?):\d+:\d+: error: (?:(`[^`]*`): )?(.*)", line)
            if at and (at[1] in changed or at[1].startswith(("src/", "specs/"))):
                if not at[2] or UNREADABLE.search(re.sub(r"`[^`]*`", "", at[3])):
                    return line
        if self.has_ended():
            return ""
        return next((it for it in self.lines if re.search(r"\berror\[[\w-]+\]", it)), "")

    def end(self) -> str:
        """Returns how it ended, in a few words."""
        if self.status == -signal.SIGKILL:
            return "the check was killed, most likely for memory"
        said = next((it for it in self.lines if "error" in it), self.lines[-1])
        return f"the check ended with status {self.status}: {said[:200]}"


def is_in(name: str, function: str) -> bool:
    """Returns whether a name is that of a function or of something written in it. The prover puts a part `fn`
    before the function's own name there."""
    name = "::".join(it for it in name.split("::") if it != "fn")
    return name == function or name.startswith(f"{function}::")


class Processes:
    """The processes that run, so that they can be ended together."""

    def __init__(self) -> None:
        self.lock, self.is_stopped = threading.Lock(), False
        self.running: set[subprocess.Popen[str]] = set()

    def ran(self, words: list[str], folder: str) -> Answer:
        """Runs a command to its end, and returns its answer."""
        with self.lock:
            if self.is_stopped:
                raise Stopped
            one = subprocess.Popen(words, cwd=folder, stdin=subprocess.DEVNULL, stdout=subprocess.PIPE,
                                   stderr=subprocess.STDOUT, errors="replace")
            self.running.add(one)
        assert one.stdout
        said = one.stdout.read()
        one.stdout.close()
        _, status, used = os.wait4(one.pid, 0)
        one.returncode = os.waitstatus_to_exitcode(status)
        with self.lock:
            self.running.discard(one)
            if self.is_stopped:
                raise Stopped
        return Answer(one.returncode, said, used.ru_utime + used.ru_stime)

    def stop(self) -> None:
        """Ends all, and lets none begin."""
        with self.lock:
            self.is_stopped = True
            left = [*self.running]
        for it in left:
            it.terminate()


class Prover:
    """Checks copies of a crate over the libraries below it."""

    def __init__(self, crate: str, clone: toolchain.Clone, kit: str, processes: Processes) -> None:
        self.crate, self.clone, self.kit, self.processes = crate, clone, kit, processes

    def words(self, folder: str) -> list[str]:
        """Returns the command that checks a copy of the crate in a folder, as `rt` makes it."""
        clone, kit = self.clone, self.kit
        own = clone.crates[self.crate]
        root = "src/main.rt" if os.path.isfile(f"{folder}/src/main.rt") else "src/lib.rt"
        words = [f"{kit}/bin/rattle", "check", "--crate-name", self.crate, root]
        words += ["--extern", f"std={kit}/rlibs/std.rlib", "-L", f"dependency={kit}/rlibs"]
        for name in clone.below(self.crate)[:-1]:
            words += ["-L", f"dependency={os.path.dirname(toolchain.rlib(clone.top, name))}"]
        for name in own.uses:
            is_own = name in clone.crates
            place = toolchain.rlib(clone.top, name) if is_own else f"{kit}/rlibs/{name}.rlib"
            words += ["--extern", f"{name}={place}"]
        words += ["--antt-project", f"{kit}/rattle/logic/antt-project.json"]
        words += ["--logic-built", f"{kit}/logic_built", "--links", f"{self.crate}=", "--jobs", "1"]
        return words + ["--crate-type", "staticlib"] * ("staticlib" in own.line.partition(":")[0].split())

    def check(self, folder: str, kept: str, only: Iterable[str] | None = None) -> Answer:
        """Checks a copy of the crate, or these functions of it alone, over what a folder keeps. It is tried a
        second time if it was killed, which is most likely for memory."""
        words = [*self.words(folder), "--incremental", kept]
        for name in only or ():
            words += ["--only", name]
        answer = self.processes.ran(words, folder)
        if answer.status == -signal.SIGKILL:
            again = self.processes.ran(words, folder)
            answer = Answer(again.status, again.said, answer.seconds + again.seconds)
        return answer
