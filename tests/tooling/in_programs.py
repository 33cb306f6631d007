"""The interfaces that an ELF file of x86-64 has as `struct wl_interface`, exported or not."""

import re
import struct

SECTION = struct.Struct("<IIQQQQIIQQ")
RELOCATION = struct.Struct("<QQq")
SYMBOL = struct.Struct("<IBBHQQ")
WITHOUT_BYTES, RELOCATIONS, SYMBOLS, RELATIVE = 8, 4, 11, 8
# The bytes of struct wl_interface and of struct wl_message.
INTERFACE, MESSAGE = 40, 24


class Unlike(Exception):
    """What is at an address is no interface."""


class Program:
    def __init__(self, path):
        with open(path, "rb") as file:
            self.data = file.read()
        start, count = struct.unpack_from("<Q", self.data, 40)[0], struct.unpack_from("<H", self.data, 60)[0]
        self.sections = [SECTION.unpack_from(self.data, start + SECTION.size * it) for it in range(count)]
        self.symbols = next((it for it in self.sections if it[1] == SYMBOLS), None)
        self.pointers = {}
        for section in self.sections:
            if section[1] == RELOCATIONS:
                found = RELOCATION.iter_unpack(self.data[section[4] : section[4] + section[5]])
                self.pointers.update((at, self.target(info, addend)) for at, info, addend in found)

    def target(self, info, addend):
        """Where a relocation points: an address, or the name of what another file has."""
        if info & 0xFFFFFFFF == RELATIVE or not self.symbols:
            return addend
        name, _, _, _, value, _ = SYMBOL.unpack_from(self.data, self.symbols[4] + SYMBOL.size * (info >> 32))
        return value + addend if value else self.text(self.sections[self.symbols[6]][3] + name)

    def place(self, address, length):
        """The place of an address in the file."""
        for section in self.sections:
            if section[3] and section[1] != WITHOUT_BYTES and 0 <= address - section[3] <= section[5] - length:
                return section[4] + address - section[3]
        raise Unlike

    def text(self, address):
        if not isinstance(address, int):
            raise Unlike
        place = self.place(address, 1)
        return self.data[place : self.data.index(b"\0", place)].decode("latin-1")

    def kinds(self, signature, types):
        """The kinds of the arguments, as in a table text, but with `n` for `N`."""
        letters = re.findall(r"\??[iufsonah]", signature)
        for at, kind in enumerate(letters):
            there = self.pointers.get(types + 8 * at) if isinstance(types, int) else None
            if isinstance(there, int):
                there = self.text(self.pointers.get(there))
            yield kind if there is None else f"{kind}({there.removesuffix('_interface')})"

    def message(self, at):
        name, signature = (self.text(self.pointers.get(at + it)) for it in (0, 8))
        found = re.fullmatch(r"(\d*)((?:\??[iufsonah])*)", signature)
        if not found:
            raise Unlike
        since = [f"@{found[1]}"] if found[1] else []
        return " ".join([name, *self.kinds(found[2], self.pointers.get(at + 16)), *since])

    def interface(self, at):
        """The version, the requests and the events of what is at an address."""
        place = self.place(at, INTERFACE)
        version, count = struct.unpack_from("<ii", self.data, place + 8)
        events = struct.unpack_from("<i", self.data, place + 24)[0]
        if not (0 < version < 100 and 0 <= count <= 256 and 0 <= events <= 256 and count + events):
            raise Unlike
        sides = ((count, self.pointers.get(at + 16)), (events, self.pointers.get(at + 32)))
        if any(bool(many) != isinstance(first, int) for many, first in sides):
            raise Unlike
        return version, *([self.message(first + MESSAGE * it) for it in range(many)] for many, first in sides)

    def addresses(self, name):
        """Where a text begins, by itself or as the end of another one."""
        for found in re.finditer(name.encode() + rb"(?=\0)", self.data):
            yield from (it[3] + found.start() - it[4] for it in self.sections
                        if it[3] and it[1] != WITHOUT_BYTES and 0 <= found.start() - it[4] < it[5])

    def interfaces(self, wanted):
        """The interfaces of these names that the file has: version, requests and events of each."""
        names = {at: it for it in wanted for at in self.addresses(it)}
        found = {}
        for at, to in self.pointers.items():
            if to in names:
                try:
                    found[names[to]] = self.interface(at)
                except (Unlike, struct.error):
                    continue
        return found
