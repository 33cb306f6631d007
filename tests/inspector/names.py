"""Tests of the names that waywire-inspect prints: of values, beside their numbers, and of what arrays hold.

    python3 -m tests.inspector.names [CLASS[.TEST]]..

The environment is that of inspecting.py."""
import struct

from tests.inspector.inspecting import main, message
from tests.inspector.words import REGISTRY, Talking, announced, bind, raw, text

GLOBALS = ("wl_shm", 1), ("wl_seat", 9), ("wl_compositor", 6), ("xdg_wm_base", 5)
# All of them bound: wl_shm@3, wl_seat@4, wl_compositor@5, xdg_wm_base@6.
BOUND = (REGISTRY, (b"".join(announced(at, *it) for at, it in enumerate(GLOBALS, 1)),),
         *(bind(at, *it, at + 2) for at, it in enumerate(GLOBALS, 1)))


def array(*numbers):
    return struct.pack(f"<{1 + len(numbers)}I", 4 * len(numbers), *numbers)


class Names(Talking):
    """The names of values, and what arrays hold."""

    def last(self, *said, count=1, options=()):
        return [it.split(".", 1)[1] for it in self.lines(*BOUND, *said, options=options)[-1 - count:-1]]

    def test_an_enum_and_a_bitfield(self):
        for data, wanted in (
            ((message(3, 0, 0),), "format(0 argb8888)"), ((message(3, 0, 875709016),), "format(875709016 xbgr8888)"),
            ((message(3, 0, 7),), "format(7)"), ((message(4, 0, 3),), "capabilities(3 pointer|keyboard)"),
            ((message(4, 0, 0),), "capabilities(0)"), ((message(4, 0, 2**31 + 4),), "capabilities(2147483652 touch|0x80000000)"),
            ((message(4, 0, 64),), "capabilities(64)"),
        ):
            self.assertEqual(self.last(data), [wanted])

    def test_of_another_interface(self):
        """An int, of an enum that another interface has; and several arguments."""
        self.assertEqual(self.last(message(5, 0, 7), message(7, 7, 3)), ["set_buffer_transform(3 270)"])

    def test_arrays_of_numbers(self):
        surface = (message(5, 0, 7), message(6, 2, 8, 7), message(8, 1, 9))
        for states, wanted in (((), "array[0]"), ((1, 4), "array[8] {1 maximized, 4 activated}"),
                               ((99,), "array[4] {99}"), ((5,) * 9, "array[36] {" + "5 tiled_left, " * 8 + "..}")):
            data = raw(9, 0, struct.pack("<ii", 640, 480) + array(*states))
            self.assertEqual(self.last(*surface, (data,)), [f"configure(640, 480, {wanted})"])
        keyboard = (*surface, message(4, 1, 10), (raw(10, 1, struct.pack("<II", 5, 7) + array(30, 48)),))
        self.assertEqual(self.last(*keyboard), ["enter(5, wl_surface@7, array[8] {30, 48})"])

    def test_other_arrays(self):
        """Their bytes are printed if they are few; numbers are printed whole."""
        tables = f"{self.folder}/own.tables"
        with open(tables, "w", encoding="ascii") as file:
            file.write("interface own 1\nrequest take a\n")
        given = (REGISTRY, (announced(1, "own", 1),), bind(1, "own", 1, 3))
        for data, wanted in ((b"abc", "array[3] {616263}"), (bytes(16), f"array[16] {{{'0' * 32}}}"),
                             (bytes(17), "array[17]")):
            sent = raw(3, 0, struct.pack("<I", len(data)) + data + bytes(-len(data) % 4))
            self.assertEqual(self.lines(*given, sent, options=["--tables", tables])[-2], f"-> own@3.take({wanted})")

    def test_without_them(self):
        """The line of the library, with what a message has beside names: strings, objects, descriptors."""
        said = (*BOUND, (message(4, 0, 3),), message(5, 0, 7), message(6, 2, 8, 7), message(8, 1, 9),
                raw(9, 2, text("1 argb8888, {2")), (raw(9, 0, struct.pack("<ii", 1, 2) + array(1)),))
        named, plain = (self.lines(*said, options=it) for it in ((), ["--no-names"]))
        self.assertEqual([self.without_names(it) for it in named], plain)
        self.assertEqual(named[-3:-1], ['-> xdg_toplevel@9.set_title("1 argb8888, {2")',
                                        "<- xdg_toplevel@9.configure(1, 2, array[4] {1 maximized})"])

    def test_in_json(self):
        told = self.told(*BOUND, (message(4, 0, 3),), (message(3, 0, 7),), (message(4, 0, 69),))
        seat, shm, more = [it["arguments"][0] for it in told[-4:-1]]
        self.assertEqual(more["names"], ["pointer", "touch", "0x40"])
        self.assertEqual(seat, {"kind": "uint", "name": "capabilities", "value": 3, "enum": "wl_seat.capability",
                                "names": ["pointer", "keyboard"]})
        self.assertEqual(shm, {"kind": "uint", "name": "format", "value": 7, "enum": "wl_shm.format", "names": []})

    def test_what_an_xml_says(self):
        """An XML replaces what is installed. A table text has FILE.names beside it, or no names."""
        xml, tables = f"{self.folder}/own.xml", f"{self.folder}/own.tables"
        with open(xml, "w", encoding="ascii") as file:
            file.write("""<?xml version="1.0"?><protocol name="own"><interface name="wp_viewporter" version="1">
                <request name="pull"><arg name="how" type="int" enum="way"/></request>
                <enum name="way"><entry name="slowly" value="0x5"/></enum></interface></protocol>""")
        given = (REGISTRY, (announced(1, "wp_viewporter", 1),), bind(1, "wp_viewporter", 1, 3), message(3, 0, 5))
        self.assertEqual(self.lines(*given, options=["--tables", xml])[-2], "-> wp_viewporter@3.pull(5 slowly)")
        with open(tables, "w", encoding="ascii") as file:
            file.write("interface wp_viewporter 1\nrequest pull i\n")
        self.assertEqual(self.lines(*given, options=["--tables", tables])[-2], "-> wp_viewporter@3.pull(5)")
        with open(f"{self.folder}/own.names", "w", encoding="ascii") as file:
            file.write("# ours\nwp_viewporter.request.pull how:wp_viewporter.way\nwp_viewporter.enum.way 5 quickly\n")
        self.assertEqual(self.lines(*given, options=["--tables", tables])[-2], "-> wp_viewporter@3.pull(5 quickly)")

    def test_names_for_other_arguments(self):
        """An interface with the name of an installed one and other arguments gets no names."""
        tables = f"{self.folder}/own.tables"
        with open(tables, "w", encoding="ascii") as file:
            file.write("interface xdg_wm_base 1\nrequest pong u u\n")
        given = (REGISTRY, (announced(1, "xdg_wm_base", 1),), bind(1, "xdg_wm_base", 1, 3), message(3, 0, 5, 6))
        told = self.told(*given, options=["--tables", tables])
        self.assertEqual([it["name"] for it in told[-2]["arguments"]], [None, None])


if __name__ == "__main__":
    main()
