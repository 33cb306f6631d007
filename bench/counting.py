"""What the measurements share: programs in C, instructions counted by valgrind, and processor time.

Instructions are counted in user code under callgrind. The figure for one message is the difference of two
runs that send different numbers of messages."""

import os
import re
import resource
import statistics
import subprocess

# Valgrind counts each byte of a string instruction as one instruction, so copies are made without them.
WHOLE_COPIES = "glibc.cpu.x86_rep_stosb_threshold=1000000000:glibc.cpu.x86_rep_movsb_threshold=1000000000"


def under_valgrind(tool, words, **env):
    """Runs a program under a tool of valgrind, with these variables in its environment. Returns the output of
    the tool."""
    ran = subprocess.run(
        ["valgrind", f"--tool={tool}", *words],
        capture_output=True,
        text=True,
        errors="replace",
        env={**os.environ, "GLIBC_TUNABLES": WHOLE_COPIES, **env},
    )
    if ran.returncode != 0:
        raise SystemExit(f"{' '.join(words)}: status {ran.returncode}\n{ran.stderr}")
    return ran.stderr


def instructions(words, **env):
    """The instructions of a run."""
    text = under_valgrind("callgrind", ["--callgrind-out-file=/dev/null", *words], **env)
    return int(re.search(r"Collected *: *(\d+)", text)[1])


def processor_time(words):
    """The processor time of a run in nanoseconds: in user code alone, and with the kernel."""
    before = resource.getrusage(resource.RUSAGE_CHILDREN)
    subprocess.run(words, check=True, stdout=subprocess.DEVNULL)
    after = resource.getrusage(resource.RUSAGE_CHILDREN)
    user, kernel = after.ru_utime - before.ru_utime, after.ru_stime - before.ru_stime
    return user * 1e9, (user + kernel) * 1e9


def time_of_one(words, batch, messages, sample, turns=5):
    """Nanoseconds per message, in user code alone and with the kernel: the medians of the turns."""
    first, more = rounds(batch, sample)
    turned = []
    for _ in range(turns):
        few, many = (processor_time([*words, str(it)]) for it in (first, first + more))
        turned.append([(after - before) / (more * batch * messages) for before, after in zip(few, many)])
    return [statistics.median(it) for it in zip(*turned)]


def processor():
    """The name of this machine's processor."""
    with open("/proc/cpuinfo", encoding="utf-8") as file:
        named = re.search(r"(?m)^model name\s*: (.*)$", file.read())
    return named[1] if named else "an unnamed processor"


def rounds(batch, sample):
    """How many batches the shorter of two runs sends, and how many more the longer one sends."""
    return sample // 4 // batch + 1, max(sample // batch, 1)


def of_one(measure, words, batch, messages, sample):
    """The figure for one message. The last word of a run says how often it sends a batch; a batch has `batch` times
    `messages` messages."""
    first, more = rounds(batch, sample)
    taken = measure([*words, str(first + more)]) - measure([*words, str(first)])
    return taken / (more * batch * messages)


def build_c(source, program, words=(), packages=()):
    """Compiles a program in C. Returns whether the packages that it needs are there."""
    flags = []
    if packages:
        asked = subprocess.run(
            ["pkg-config", "--cflags", "--libs", *packages], capture_output=True, text=True
        )
        if asked.returncode != 0:
            return False
        flags = asked.stdout.split()
    subprocess.run(["cc", "-O2", "-o", program, source, *words, *flags], check=True)
    return True
