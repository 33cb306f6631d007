"""How many processors and how much memory this machine has to use, under the limits of control groups, too."""

import os
import re

# For each version of control groups: the file with the memory limit, the file with the memory in
# use, and the line there that leaves out caches.
GROUPS = (
    ("/sys/fs/cgroup/memory.max", "/sys/fs/cgroup/memory.stat", rb"^anon (\d+)"),
    ("/sys/fs/cgroup/memory/memory.limit_in_bytes", "/sys/fs/cgroup/memory/memory.stat",
     rb"^total_rss (\d+)"),
)


def read(path: str) -> bytes:
    try:
        with open(path, "rb") as file:
            return file.read()
    except OSError:
        return b""


def processors() -> int:
    """Returns how many processors there are to use: those that this process may run on, or fewer by
    the quota of its control group."""
    found = len(os.sched_getaffinity(0))
    quota, _, period = read("/sys/fs/cgroup/cpu.max").partition(b" ")
    if quota.isdigit() and period.strip().isdigit():
        found = min(found, max(int(quota) // int(period), 1))
    return found


def number_in(path: str, form: bytes) -> int | None:
    """Returns the number that a file has behind some words, or None."""
    found = re.search(form, read(path), re.MULTILINE)
    return int(found[1]) if found else None


def free() -> int:
    """Returns the memory that is free, in bytes, under the limit of the control group, too."""
    found = [1024 * (number_in("/proc/meminfo", rb"^MemAvailable: +(\d+)") or 0)]
    for at_limit, in_use, form in GROUPS:
        limit, used = number_in(at_limit, rb"^(\d+)"), number_in(in_use, form)
        if limit is not None and used is not None:
            found.append(limit - used)
    return min(found)
