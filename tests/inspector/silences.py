"""Tests of what waywire-inspect --stats says of silences and pastes.

    python3 -m tests.inspector.silences [CLASS[.TEST]]..

The environment is that of inspecting.py."""
import re

from tests.inspector import questions
from tests.inspector.inspecting import done, main, message, sync
from tests.inspector.questions import COMMIT, frame
from tests.inspector.words import Talking, announced, bind, raw, text

# The number of the last message of what is bound.
LAST = 10 + 7
OFFER = 0xFF000000


class Silences(Talking):
    record, read = questions.Timed.record, questions.Timed.read

    def stats(self, *said, **how):
        """What is said of silences and pastes."""
        self.record(*said, **how)
        return [it.strip() for it in self.read("--stats") if re.search("silences| s from |pastes", it)]

    def test_longest(self):
        """The longest first, and what was asked before each: a question that is open, or the last request."""
        found = self.stats((0.05, sync(12)), (1, (done(12),)), (1.05, frame(12) + COMMIT), (4, message(10, 6)),
                           (4.2, (done(12),)), (4.25, sync(12)), (4.26, (done(12),)), (6.25, message(10, 6)),
                           last="# ended 6.3\n")
        first = LAST + 1
        self.assertEqual(found, [
            "longest silences",
            f"2.950 s from 1.050000 on, after message {first + 4}, -> wl_surface@10.commit; asked before: "
            f"message {first + 3}, -> wl_surface@10.frame",
            f"1.990 s from 4.260000 on, after message {first + 10}, <- wl_display@1.delete_id; asked before: "
            f"message {first + 8}, -> wl_display@1.sync",
            f"0.950 s from 0.050000 on, after message {first}, -> wl_display@1.sync"])

    def test_up_to_the_end(self):
        self.assertEqual(self.stats((0.05, sync(12)), (0.06, (done(12),)), last="# ended 3.06\n"), [
            "longest silences", f"3.000 s from 0.060000 on, after message {LAST + 3}, <- wl_display@1.delete_id; "
            f"asked before: message {LAST + 1}, -> wl_display@1.sync"])

    def test_none(self):
        self.assertEqual(self.stats((0.05, sync(12)), (0.1, (done(12),)), last="# ended 0.15\n"), [])
        self.record(last="")
        with open(self.recorded, encoding="ascii") as file:
            lines = [it for it in file if not it.startswith("#")]
        with open(self.recorded, "w", encoding="ascii") as file:
            file.writelines(lines)
        self.assertEqual([it for it in self.read("--stats") if "silence" in it], [])

    def test_a_paste(self):
        """Three seconds from `receive` to what the client sends next, not with what it sends together with it."""
        receive = raw(OFFER, 1, text("text/plain"))
        given = [(0.01, (announced(8, "wl_data_device_manager", 3),)),
                 (0.01, bind(8, "wl_data_device_manager", 3, 12)), (0.01, message(12, 1, 13, 5)), (0.02, (message(13, 0, OFFER),)),
                 (0.02, (raw(OFFER, 0, text("text/plain")) + message(13, 5, OFFER),))]
        self.record(*given, (0.03, receive + sync(14)), (0.04, (done(14),)), (3.03, message(10, 6)),
                    (3.04, receive), (4.04, message(10, 6)), (4.05, receive), last="# ended 6.05\n")
        with open(self.recorded, encoding="ascii") as file:
            held = file.read()
        with open(self.recorded, "w", encoding="ascii") as file:
            file.write(re.sub(rf"(> {receive.hex()}\w*)", r"\1 +1", held))
        self.assertEqual([it.strip() for it in self.read("--stats") if re.search("silences| s from |pastes", it)], [
            "2 pastes, 2000.000 ms on average, 3000.000 ms at most, from receive to the client's next request",
            "1 pastes without a request after them, 2000.000 ms to the end", "longest silences",
            "2.990 s from 0.040000 on, after message 27, <- wl_display@1.delete_id; asked before: message 24, "
            "-> wl_data_offer@4278190080.receive",
            "2.000 s from 4.050000 on, after message 31, -> wl_data_offer@4278190080.receive",
            "1.000 s from 3.040000 on, after message 29, -> wl_data_offer@4278190080.receive"])


if __name__ == "__main__":
    main()
