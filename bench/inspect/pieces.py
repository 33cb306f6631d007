"""Counts the instructions of `Inspector::pass`: for a small piece, with few open objects and with many; and per
byte of a message that comes in pieces of one byte, for a small message and the longest one.

    python3 -m bench.inspect.pieces [PROGRAM]

A round is two pieces: wl_display.sync from a client, and wl_callback.done with wl_display.delete_id from its server.
Instructions are counted in user code under callgrind, as the difference of two runs that differ only in the number
of rounds; a piece takes half of a round. The message is a wl_registry.global whose interface has a long name.
PROGRAM is a program that was built from main.rt.in before. Without PROGRAM, it is proved with `rt ci` and built in a
folder of its own, with a copy of the library, so the gate does not see it.

It only measures: it is no test."""

import tempfile

from bench.counting import instructions
from bench.programs import build
from scripts import usage
from scripts.crates import TOP

OBJECTS = (10, 1_000, 100_000)
ROUNDS = 1_000
SIZES = (4_096, 65_532)


def of_a_piece(program, objects):
    """The instructions per piece. The first rounds are not counted, since they fill the buffers that are reused."""
    first, more = ROUNDS, 2 * ROUNDS
    taken = counted(program, objects, more, 0) - counted(program, objects, first, 0)
    return taken / (2 * (more - first))


def of_a_byte(program, size):
    """The instructions per byte of a message of this size that comes in pieces of one byte."""
    return (counted(program, 0, 2, size) - counted(program, 0, 1, size)) / size


def counted(program, *words):
    """The instructions of a run with these numbers."""
    return instructions([program, *map(str, words)])


def main():
    given = usage.words(__doc__, most=1)
    with tempfile.TemporaryDirectory() as folder:
        program = given[0] if given else build(
            folder, "inspecting", f"{TOP}/bench/inspect/main.rt.in", ("wl_check",), ("10", "1", "0"))
        for objects in OBJECTS:
            print(f"beside {objects:,} open objects: {of_a_piece(program, objects):,.0f} instructions a piece")
        for size in SIZES:
            print(f"a message of {size:,} bytes in pieces of one byte: {of_a_byte(program, size):,.0f} instructions a byte")


if __name__ == "__main__":
    main()
