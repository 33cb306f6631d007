"""Runs a built `waywire` once for each allocation that it makes, and lets that allocation fail.

    ./test memory PROGRAM [WORD..]

Each run must end with status 4, print nothing, and print `waywire: out of memory` to standard error; the trace of
a stream may print its first lines. For each line of words, one run may end as if there was memory: when the list
of the command line's words grows, and an allocation fails, the standard library asks for less. The words are the
given ones, or each line of WORDS below. All allocations count, also those for reading the command line and the
file. A small library, which `cc` or $CC compiles, replaces the allocator of the C library (LD_PRELOAD).

Without words, streams of 20 MB are then judged with 8 MB of memory, in which a file does not fit.

It prints a line `failed: ..` for each run that ended in another way, a line for each line of words, and at the
end how many runs passed and failed. The exit status is 0 if none failed, otherwise 1.
"""
import os
import resource
import subprocess
import tempfile

from scripts import usage
from tests import checks

# Stands for a path at which nothing is, before and after each run.
SOCKET = "{socket}"
WORDS = (
    ["--help"],
    ["demo"],
    ["socket", SOCKET],
    ["trace", "examples/zombie.rec"],
    ["check", "examples/zombie.rec"],
    ["check", "examples/bad_new_id.rec"],
    ["check", "--stream", "examples/bad_new_id.rec"],
    ["trace", "--stream", "examples/zombie.rec"],
    ["trace", "--tables", "protocols/viewporter.tables", "tests/runs/viewporter.rec"],
    ["--version"],
)
COMPILER = os.environ.get("CC", "cc")
SAID = b"waywire: out of memory\n"
# A stream whose reads of 65,536 bytes never end at a line's end: a line, and how often others follow; the trace of
# these; how many bytes of memory there are.
FIRST, ROUND = b"#\n", b"> 0100000000000c0002000000\r\n< 0200000000000c0007000000\r\n< 0100000001000c0002000000\r\n"
LINES = b"-> wl_display@1.sync(new id wl_callback@2)\n<- wl_callback@2.done(7)\n<- wl_display@1.delete_id(2)\n"
ROUNDS, ROOM = 240_000, 8_000_000
# How many refused allocations of a run the program may do without.
SPARED = 1
# More than any run asks for.
MOST = 100_000

# Refuses the allocation of the number $REFUSE, counted from 0, and then writes a byte to the file descriptor
# $REFUSED.
SHIM = r"""
typedef unsigned long size;
extern void *__libc_malloc(size), *__libc_calloc(size, size), *__libc_realloc(void *, size);
extern void *__libc_memalign(size, size);
extern char *getenv(const char *);
extern long write(int, const void *, size);
static long left = -2;

static long number(const char *text) {
    long value = 0;
    if (!text) return -1;
    for (; *text; text++) value = 10 * value + (*text - '0');
    return value;
}

static int refused(void) {
    if (left == -2) left = number(getenv("REFUSE"));
    if (left < 0 || left-- > 0) return 0;
    write((int)number(getenv("REFUSED")), "x", 1);
    return 1;
}

void *malloc(size n) { return refused() ? 0 : __libc_malloc(n); }
void *calloc(size n, size m) { return refused() ? 0 : __libc_calloc(n, m); }
void *realloc(void *old, size n) { return refused() ? 0 : __libc_realloc(old, n); }
void *memalign(size align, size n) { return refused() ? 0 : __libc_memalign(align, n); }
void *aligned_alloc(size align, size n) { return refused() ? 0 : __libc_memalign(align, n); }
int posix_memalign(void **place, size align, size n) {
    void *block = refused() ? 0 : __libc_memalign(align, n);
    if (!block) return 12;
    *place = block;
    return 0;
}
"""


def build(folder):
    """The library, compiled."""
    source, library = os.path.join(folder, "refuse.c"), os.path.join(folder, "refuse.so")
    with open(source, "w", encoding="ascii") as file:
        file.write(SHIM)
    flags = ["-O1", "-fno-builtin", "-shared", "-fPIC"]
    subprocess.run([COMPILER, *flags, "-o", library, source], check=True)
    return library


def run(program, words, library, refused):
    """A run with the allocation of this number refused: whether it was asked for, and how the run ended."""
    reader, writer = os.pipe()
    settings = {**os.environ, "LD_PRELOAD": library, "REFUSE": str(refused), "REFUSED": str(writer)}
    try:
        done = subprocess.run(
            [program, *words],
            cwd=checks.TOP,
            env=settings,
            pass_fds=(writer,),
            stdin=subprocess.DEVNULL,
            capture_output=True,
            timeout=checks.LONG,
            check=False,
        )
    finally:
        os.close(writer)
    with os.fdopen(reader, "rb") as met:
        return met.read() != b"", done


def ended(done):
    """How a run ended."""
    return done.returncode, done.stdout, done.stderr


def is_refused(words, done, usual):
    """Whether a run ended for want of memory, and printed nothing; of a stream's trace, only first lines."""
    is_trace = words[:2] == ["trace", "--stream"]
    front = done.stdout if is_trace and done.stdout.endswith(b"\n") and usual.stdout.startswith(done.stdout) else b""
    return ended(done) == (4, front, SAID)


def judged_in_room(program, words, given):
    """How a run ends that reads these bytes from standard input, and has little memory."""
    def limit():
        resource.setrlimit(resource.RLIMIT_DATA, (ROOM, ROOM))

    done = subprocess.run([program, *words], input=given, capture_output=True, timeout=checks.LONG, check=False,
                          preexec_fn=limit)
    return ended(done)


def judge_streams(program, folder):
    """How many runs with little memory passed and failed."""
    path, text = os.path.join(folder, "long.rec"), FIRST + ROUND * ROUNDS
    with open(path, "wb") as file:
        file.write(text[: 16_000_000])
    verdict = b"lawful: %d requests, %d events, 0 and 0 bytes left\n" % (ROUNDS, 2 * ROUNDS)
    runs = (
        (["check", path], b"", (4, b"", SAID)),
        (["check", "--stream", "-"], text, (0, verdict, b"")),
        (["trace", "--stream", "-"], text, (0, LINES * ROUNDS, b"")),
    )
    wrong = [words for words, given, wanted in runs if judged_in_room(program, words, given) != wanted]
    for words in wrong:
        print(f"failed: {' '.join(words)}: with {ROOM} bytes of memory")
    return len(runs) - len(wrong), len(wrong)


def refuse_each(program, words, library):
    """How many runs passed and failed, one for each allocation."""
    passed = failed = spared = 0
    _, usual = run(program, words, library, MOST)
    for number in range(MOST):
        met, done = run(program, words, library, number)
        if not met:
            print(f"{' '.join(words)}: {number} allocations, {spared} done without, {failed} failed")
            return passed, failed + (number == 0)
        if is_refused(words, done, usual):
            passed += 1
        elif ended(done) == ended(usual) and spared < SPARED:
            spared += 1
            passed += 1
        else:
            failed += 1
            how = f"status {done.returncode}, {done.stderr!r}"
            print(f"failed: {' '.join(words)}: allocation {number}: {how}")
    return passed, failed + 1


def main():
    arguments = usage.words(__doc__, least=1, is_command=True)
    program = os.path.abspath(arguments[0])
    lines = [arguments[1:]] if len(arguments) > 1 else WORDS
    counts = [0, 0]
    with tempfile.TemporaryDirectory() as folder:
        path = os.path.join(folder, "socket")
        lines = [[path if word == SOCKET else word for word in words] for words in lines]
        if not checks.can("refused memory", COMPILER):
            return checks.counted(0, 0)
        try:
            library = build(folder)
        except (OSError, subprocess.CalledProcessError) as error:
            print(f"failed: the library is not built: {error}")
            return checks.counted(0, 1)
        for words in lines:
            try:
                passed, failed = refuse_each(program, words, library)
            except (OSError, subprocess.TimeoutExpired) as error:
                print(f"failed: {' '.join(words)}: {error}")
                passed, failed = 0, 1
            if os.path.lexists(path):
                print(f"failed: {' '.join(words)}: {path} is left")
                failed += 1
            counts = [counts[0] + passed, counts[1] + failed]
        if len(arguments) == 1:
            passed, failed = judge_streams(program, folder)
            counts = [counts[0] + passed, counts[1] + failed]
    return checks.counted(*counts)
