"""Recordings as `reference` judges them, and the comparison of a program with it."""

import os
import re
import subprocess
import sys
import tempfile
import unittest
from unittest import mock

from tests import reference
from tests.checks import TOP, joined_tables, read, write_program
from tests.parts import compare
from tools.waywire import table_text


FIRST = reference.FIRST_OF_SERVER


class Sessions(unittest.TestCase):
    """Recordings as `reference` judges them."""

    # The verdict of each with all tables, how many objects the server made in it, how many ids these have, and lines
    # of its trace. wp_drm_lease_device_v1 has requests, so its `released` is a plain event: the delete_id ends the
    # object.
    RECORDED = {
        "clipboard": ("lawful: 12 requests, 14 events, 0 and 0 bytes left", 3, 2, ()),
        "copy_and_paste": ("lawful: 557 requests, 429 events, 0 and 0 bytes left", 10, 3, ()),
        "drm_lease": ("lawful: 3 requests, 5 events, 0 and 0 bytes left", 0, 0,
                      ("<- wp_drm_lease_device_v1@3.released()",)),
        "gtk_dialog": ("lawful: 363 requests, 199 events, 0 and 0 bytes left", 0, 0,
                       ("<- wl_data_device@15.selection(nil)", "<- wl_keyboard@7.keymap(1, fd 1, 64434)")),
        "kanshi": ("lawful: 155 requests, 290 events, 0 and 0 bytes left", 22, 6, ()),
        "presentation": ("lawful: 139 requests, 95 events, 0 and 0 bytes left", 0, 0,
                         ("<- wl_display@1.delete_id(73)",)),
        "wl_paste": ("lawful: 83 requests, 297 events, 0 and 0 bytes left", 26, 1, ()),
        "wl_paste_at_kwin": ("lawful: 50 requests, 175 events, 0 and 0 bytes left", 13, 1, ()),
    }

    def test_recordings(self):
        core = table_text.core_tables()
        tables = table_text.read_more(core, joined_tables())
        for name, (verdict, objects, ids, shown) in self.RECORDED.items():
            lines, found = reference.judged(tables, read(f"examples/{name}.rec").encode())
            made = [int(re.search("@([0-9]+)\\)$", it)[1]) for it in lines if re.match("<- .*new id ", it)]
            self.assertEqual((found, len(made), {*made}), (verdict, objects, {*range(FIRST, FIRST + ids)}), name)
            self.assertLessEqual({*shown}, {*lines}, name)
        _, verdict = reference.judged(core, read("examples/gtk_dialog.rec").encode())
        self.assertEqual(verdict, "broken: > message 5 at byte 108: F9 bad bind")

    def test_rows_with_tables(self):
        viewporter = b"interface wp_viewporter 1\nrequest destroy D\n"
        recording = (
            b"> 0100000001000c0002000000\n"
            b"< 0200000000002400010000000e00000077705f76696577706f727465720000000"
            b"1000000\n"
            b"> 0200000000002800010000000e00000077705f76696577706f72746572000000"
            b"0100000003000000\n"
        )
        core = table_text.core_tables()
        lines, verdict = reference.judged(table_text.read_more(core, viewporter), recording)
        self.assertEqual(
            lines[-1], '-> wl_registry@2.bind(1, "wp_viewporter", 1, new id wp_viewporter@3)'
        )
        self.assertEqual(verdict, "lawful: 2 requests, 1 events, 0 and 0 bytes left")
        _, verdict = reference.judged(core, recording)
        self.assertEqual(verdict, "broken: > message 2 at byte 12: F9 bad bind")


class Sorts(reference.Session):
    """A session that says which sorts of messages with objects of the server it was given."""

    seen = set()

    def fresh_of_server(self, number, place):
        there, following = self.held.get(number), FIRST + self.used_by_server
        if there is None or number < FIRST:
            sort = "the next" if number == following else "below" if number < FIRST else "past the next"
        elif there.is_ending:
            sort = "of an ended one"
        else:
            sort = "of an open one" if there.is_ended_by_request() else "of one that none ends"
        self.seen.add(sort)
        super().fresh_of_server(number, place)

    def fresh(self, number, place):
        if number >= FIRST:
            self.seen.add("in a request")
        super().fresh(number, place)

    def follow(self, sign, target, to, message, made, values):
        is_of_server = target >= FIRST
        if made is not None and made[0] >= FIRST:
            self.seen |= {"by an ended maker"} if to.is_ending else set()
            self.seen |= {"by one of its own"} if is_of_server else set()
        elif is_of_server:
            self.seen.add("an event for an ended one" if to.is_ending else f"{sign} for an open one")
        if (sign, to.interface.name, message.name) == ("<", "wl_display", "delete_id") and values[0] >= FIRST:
            self.seen.add("its delete_id")
        super().follow(sign, target, to, message, made, values)


class Compare(unittest.TestCase):
    tool = compare

    # A program that prints what the reference says, but for one line in the second case.
    PROGRAM = """#!{python}
import sys
from tests import reference
from tools.waywire import table_text
if "--help" in sys.argv:
    sys.exit()
with open(sys.argv[-1], "rb") as file:
    try:
        session = reference.session_of(table_text.core_tables(), file.read())
    except table_text.BadLine as error:
        print(f"waywire: {{error}}", file=sys.stderr)
        sys.exit(3)
is_broken = session.broken is not None
lines = session.lines if sys.argv[1] == "trace" else []
lines = [*lines, session.verdict()] if is_broken or sys.argv[1] == "check" else lines
print(*(it{change} for it in lines), sep="\\n", end="\\n" if lines else "")
print(session.hint, end="", file=sys.stderr)
sys.exit(is_broken)
"""

    def compared(self, change):
        """What is said of a program, whose status is compared too."""
        with tempfile.TemporaryDirectory() as folder:
            program = f"{folder}/program"
            write_program(program, self.PROGRAM.format(python=sys.executable, change=change))
            ran = subprocess.run(
                [f"{TOP}/test", "compare", program, "12"],
                capture_output=True,
                text=True,
                env={**os.environ, "PYTHONPATH": TOP, "TMPDIR": folder},
            )
        self.assertEqual(ran.stderr, "")
        return ran.returncode, ran.stdout.splitlines()

    def test_a_right_program(self):
        number = 12 + len(list(self.tool.examples()))
        self.assertEqual(self.compared(""), (0, [f"{number} passed, 0 failed"]))

    def test_a_wrong_program(self):
        status, lines = self.compared('.replace("wl_registry", "registry").replace("F6", "F5")')
        self.assertEqual(status, 1)
        self.assertRegex(lines[-1], r"^[1-9]\d* passed, [1-9]\d* failed$")

    def test_all_sorts_are_written(self):
        """What is compared has each fault but F10, which no file reaches, each rule but V10, which
        no text can break, and many messages."""
        core, faults, messages, rules = table_text.core_tables(), set(), set(), set()
        for case in self.tool.cases(900, "1", ("--tables", "--limit")):
            status, error, verdict, lines = self.tool.wanted(core, case)
            if status == 3:
                rules.add(error.split()[-1])
                continue
            faults.add(verdict[0].split(": ")[-1].split()[0] if status == 1 else "")
            messages |= {re.sub("@[0-9]+", "", it.split("(")[0]) for it in lines}
        self.assertEqual(faults, {"", *(f"F{number}" for number in range(1, 10))})
        self.assertEqual(rules, {"line", *(f"V{number}" for number in (*range(1, 10), 11))})
        self.assertGreater(len(messages), 200)

    def test_all_sorts_of_objects_of_the_server(self):
        wanted = {
            "the next", "below", "past the next", "of an ended one", "of an open one", "of one that none ends",
            "in a request", "by an ended maker", "by one of its own", "its delete_id",
            "> for an open one", "< for an open one", "an event for an ended one",
        }
        with mock.patch.object(reference, "Session", Sorts):
            for _ in compare.cases(5000, "1", ("--tables", "--limit")):
                if Sorts.seen == wanted:
                    break
        self.assertEqual(Sorts.seen, wanted)
