"""Writes one long lawful session as a recording to standard output. It has at most BYTES bytes, or just under
16 MiB. These are the kinds of session:

    python3 -m bench.recording KIND [BYTES]

surfaces        a client makes a surface, attaches nothing, commits it and destroys it, again and again; each
                time the server frees its id
callbacks       one request, its event and the delete_id for it, again and again
objects         callbacks that are never answered, so that all of them stay
server_objects  the server makes objects, and the client destroys none of them, so that all of them stay. The
                tables are protocols/data-device.tables
server_ids      the server makes an object and names it, and makes it again when the client has destroyed it;
                with the same tables
bytes           the same as callbacks, with each byte in a piece of its own
"""
import struct
import sys

from scripts import usage

MOST = 16 * 1024 * 1024
# The first id of what a server makes.
FIRST_OF_SERVER = 0xFF000000


def word(number):
    return struct.pack("<I", number)


def string(text):
    text = text.encode() + b"\0"
    return word(len(text)) + text + b"\0" * (-len(text) % 4)


def message(target, opcode, *arguments):
    body = b"".join(arguments)
    return word(target) + word((8 + len(body)) << 16 | opcode) + body


def line(sign, *messages):
    return f"{sign} {b''.join(messages).hex()}\n"


def surfaces():
    yield line(">", message(1, 1, word(2)))
    yield line("<", message(2, 0, word(1), string("wl_compositor"), word(6)))
    yield line(">", message(2, 0, word(1), string("wl_compositor"), word(6), word(3)))
    requests = line(
        ">",
        message(3, 0, word(4)),
        message(4, 1, word(0), word(0), word(0)),
        message(4, 2, word(0), word(0), word(640), word(480)),
        message(4, 6),
        message(4, 0),
    )
    answer = line("<", message(1, 1, word(4)))
    while True:
        yield requests + answer


def callbacks():
    request = line(">", message(1, 0, word(2)))
    answers = line("<", message(2, 0, word(7)), message(1, 1, word(2)))
    while True:
        yield request
        yield answers


def objects():
    number = 2
    while True:
        yield line(">", message(1, 0, word(number)))
        number += 1


def device():
    """A client binds a seat, a manager of data devices and asks for a device, which is the object 5."""
    yield line(">", message(1, 1, word(2)))
    for number, interface, version in ((3, "wl_seat", 1), (4, "wl_data_device_manager", 3)):
        named = word(number), string(interface), word(version)
        yield line("<", message(2, 0, *named))
        yield line(">", message(2, 0, *named, word(number)))
    yield line(">", message(4, 1, word(5), word(3)))


def server_objects():
    yield from device()
    number = FIRST_OF_SERVER
    while True:
        yield line("<", message(5, 0, word(number)))
        number += 1


def server_ids():
    yield from device()
    offer = word(FIRST_OF_SERVER)
    events = line("<", message(5, 0, offer), message(FIRST_OF_SERVER, 0, string("text/plain")), message(5, 5, offer))
    request = line(">", message(FIRST_OF_SERVER, 2))
    while True:
        yield events + request


def bytes_alone():
    for part in callbacks():
        sign, digits = part.split()
        for place in range(0, len(digits), 2):
            yield f"{sign} {digits[place:place + 2]}\n"


KINDS = {"surfaces": surfaces, "callbacks": callbacks, "objects": objects, "server_objects": server_objects,
         "server_ids": server_ids, "bytes": bytes_alone}


def main():
    kind, *given = usage.words(__doc__, least=1, most=2)
    if kind not in KINDS:
        usage.refuse(f"there is no kind {kind}")
    if given and not given[0].isdecimal():
        usage.refuse(f"{given[0]} is no number of bytes")
    most = int(given[0]) if given else MOST
    size = 0
    for part in KINDS[kind]():
        if size + len(part) > most:
            break
        sys.stdout.write(part)
        size += len(part)


if __name__ == "__main__":
    main()
