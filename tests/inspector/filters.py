"""Tests of the messages that waywire-inspect prints: those of a direction, and those of a file that changes.

    python3 -m tests.inspector.filters [CLASS[.TEST]]..

The environment is that of inspecting.py."""
import itertools
import os
import re
import signal
import struct
import threading
import time

from tests.checks import has_come
from tests.inspector import words
from tests.inspector.inspecting import LONG, done, main, message, sync
from tests.inspector.words import raw

# A request that makes a surface, one of it, and events of a window.
SAID = (*words.Printing.TITLED, message(5, 6), (raw(7, 0, struct.pack("<iiI", 1, 2, 0)) + message(6, 0, 3),), message(6, 4, 3))
COMMIT = message(5, 6)
STAYS = "; the filters stay as they were\n"


class Directions(words.Talking):
    """An arrow before a name, as lines have it."""

    def shown(self, *options):
        return [re.sub(r"^(..) (\w+)@\d+\.(\w+).*", r"\1 \2.\3", it) for it in self.lines(*SAID, options=options)[:-1]]

    def test_patterns(self):
        events = ["<- wl_registry.global"] * 2
        configures = ["<- xdg_toplevel.configure", "<- xdg_surface.configure"]
        requests = ["-> wl_display.get_registry", *["-> wl_registry.bind"] * 2, "-> wl_compositor.create_surface",
                    "-> xdg_wm_base.get_xdg_surface", "-> xdg_surface.get_toplevel",
                    "-> wl_surface.commit", "-> xdg_surface.ack_configure"]
        for options, wanted in (
            (["--only", "->"], requests), (["--only", "<-"], [*events, *configures]),
            (["--except", "->"], [*events, *configures]), (["--only=<- *"], [*events, *configures]),
            (["--only", "-> xdg_surface"], [*requests[4:6], requests[7]]),
            (["--only", "<-xdg_surface"], configures[1:]), (["--only", "<-  *.configure"], configures),
            (["--only", "-> wl_surface@5.commit, <- xdg_surface@6 "], [requests[6], configures[1]]),
            (["--only", "xdg_surface", "--except", "-> xdg_surface"], [requests[4], configures[1]]),
            (["--only", "-> *.*c*"], [it for it in requests if "c" in it.partition(".")[2]]),
        ):
            with self.subTest(options):
                self.assertEqual(sorted(self.shown(*options)), sorted(wanted))

    def test_what_no_table_has(self):
        """A direction alone also means messages that are not known."""
        said = (*words.Unjudged.GIVEN, message(3, 1, 77), (message(3, 0, 1),))
        lines = self.lines(*said, options=["--only", "<-"])
        # That from which on nothing is judged is printed in any case.
        self.assertEqual([it[:16] for it in lines if "->" in it], ["-> wl_registry@2"])
        self.assertEqual(lines[-2], "? <- unknown@3: opcode 0, 12 bytes")
        self.assertEqual(sum("unknown@3" in it for it in self.lines(*said, options=["--only", "->"])), 1)

    def test_what_matches_nothing(self):
        for name, said in (("-> *.configure", "*.configure: no such interface has such a request"),
                           ("<- wl_surface.commit", "wl_surface.commit: wl_surface has no such event"),
                           ("-> own_shell1", "own_shell1: no tables have that interface"),
                           ("-> wl_surface@x", "wl_surface@x: there is no id behind @")):
            self.assertEqual(self.ran("--only", name, "true", status=125), ("", f"waywire-inspect: --only {said}\n"))


class Files(words.Talking):
    """--filters: a file whose lines may change while the tool runs."""

    def writes(self, lines):
        """Writes the file anew, in one step."""
        path = self.written("filters", lines)
        os.rename(path, f"{path}.read")
        return f"{path}.read"

    def begin(self, lines, *options):
        self.path_of_filters = self.writes(lines)
        self.start("--filters", self.path_of_filters, *options)
        self.near, self.far = self.client()
        for it in words.Printing.TITLED:
            self.says(it)

    def says(self, data):
        if isinstance(data, tuple):
            self.passes(self.far, self.near, *data)
        else:
            self.passes(self.near, self.far, data)

    def changes(self, lines, said=None):
        """Changes the file, and waits until the tool has read it."""
        self.writes(lines)
        self.assertEqual(self.tool.stderr.readline(), "waywire-inspect: " + (
            f"the filters of {self.path_of_filters} have changed\n" if said is None else said))

    def test_changes(self):
        self.begin("# what I look at\n\nonly wl_surface.commit, wl_display.sync\n")
        self.says(COMMIT)
        self.says(sync(8))
        self.changes("  only <- wl_callback\r\nexcept wl_surface")
        for it in (COMMIT, sync(9), (done(8),)):
            self.says(it)
        self.changes("")
        self.says(COMMIT)
        said, error = self.finish()
        self.assertEqual(said.splitlines()[:-1], ["-> wl_surface@5.commit()", "-> wl_display@1.sync(new id wl_callback@8)",
                                                  "<- wl_callback@8.done(7)", "-> wl_surface@5.commit()"])
        self.assertEqual(error, "")

    def test_bad_lines(self):
        """A bad line changes nothing, however many good ones there are; nor does a file that is gone."""
        self.begin("only wl_surface.commit\n")
        path = self.path_of_filters
        for line, why in (("only own_shell1", "own_shell1: no tables have that interface"),
                          ("show wl_surface", "does not begin with only, except, from or to"),
                          ("only", ": no tables have that interface"),
                          ("to 5x", "5x: neither the number of a message nor a time in seconds, such as 2.5s")):
            self.changes(f"only wl_display\n#\n{line}\n", f"{path} line 3: {why}{STAYS}")
        os.remove(path)
        self.assertEqual(self.tool.stderr.readline(), f"waywire-inspect: {path}: No such file or directory{STAYS}")
        self.says(sync(8) + COMMIT)
        self.changes("only wl_display\n")
        self.says(sync(9) + COMMIT)
        said, _ = self.finish()
        self.assertEqual(said.splitlines()[:-1], ["-> wl_surface@5.commit()", "-> wl_display@1.sync(new id wl_callback@9)"])

    def test_beside_options(self):
        """They are added to those of the options, which stay."""
        self.begin("only wl_display.sync\nfrom 10\n", "--only", "wl_surface.commit", "--from", "9", "--except", "<-")
        for it in (COMMIT, COMMIT, sync(8)):
            self.says(it)
        self.changes("to 12")
        for it in (COMMIT, sync(9)):
            self.says(it)
        said, _ = self.finish()
        self.assertEqual(said.splitlines()[:-1], ["-> wl_surface@5.commit()", "-> wl_display@1.sync(new id wl_callback@8)",
                                                  "-> wl_surface@5.commit()"])

    def test_a_pipe(self):
        """It is read at the start, and not again: the session does not wait for who writes it."""
        path = f"{self.folder}/pipe"
        os.mkfifo(path)
        writing = threading.Thread(target=lambda: self.written("pipe", "only wl_surface.commit\n"), daemon=True)
        writing.start()
        self.start("--filters", path)
        self.near, self.far = self.client()
        writing.join(LONG)
        for it in words.Printing.TITLED:
            self.says(it)
        time.sleep(0.3)  # it is looked at
        self.says(COMMIT)
        said, error = self.finish()
        self.assertEqual((said.splitlines()[:-1], error), (["-> wl_surface@5.commit()"], ""))

    def test_at_the_start(self):
        path = self.writes("only wl_surface\nonly wl_surface.comit\n")
        self.assertEqual(self.ran("--filters", path, "true", status=125), (
            "", f"waywire-inspect: {path} line 2: wl_surface.comit: wl_surface has no such message\n"))
        self.assertEqual(self.ran("--filters", f"{path}.none", "true", status=125), (
            "", f"waywire-inspect: {path}.none: No such file or directory\n"))
        self.assertIn("is read too", self.ran("--filters", path, "--output", path, "true", status=125)[1])

    def test_a_recording(self):
        """It is read with the filters of its start; of one that grows, they may change."""
        path = self.writes("only wl_callback@2\n")
        with open(self.recorded, "w", encoding="ascii") as file:
            file.write(f"> {sync(2).hex()}\n> {sync(3).hex()}\n")
        said, _ = self.ran("--read", self.recorded, "--filters", path)
        self.assertEqual(said.count("-> "), 1)
        printed, numbers = f"{self.folder}/printed", itertools.count(4)
        self.start("--read", self.recorded, "--follow", "--filters", path, "--output", printed, stdout=None)

        def has(number):
            """Whether a line has come that makes this callback, or a later one."""
            with open(printed, encoding="ascii") as file:
                return any(int(it) >= number for it in re.findall(r"new id wl_callback@(\d+)", file.read()))

        def grows():
            with open(self.recorded, "a", encoding="ascii") as file:
                file.write(f"> {sync(next(numbers)).hex()}\n")
            return has(4)
        self.assertTrue(has_come(lambda: os.path.exists(printed) and has(2), LONG))
        self.writes("only wl_callback\n")
        self.assertTrue(has_come(grows, LONG))
        _, error = self.finish(signal.SIGTERM, None)
        self.assertEqual(error, f"waywire-inspect: the filters of {path} have changed\n")


if __name__ == "__main__":
    main()
