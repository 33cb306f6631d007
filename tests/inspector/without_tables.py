"""Tests that waywire-inspect says nothing false of recorded sessions that it reads without some of their tables, or with
older ones: each message is compared with what it says of it when it knows all tables.

    python3 -m tests.inspector.without_tables [CLASS[.TEST]]..

The environment is that of inspecting.py."""
import glob
import json
import os
import re
from collections import Counter

from tests.checks import TOP
from tests.inspector.inspecting import Inspected, main
from tools.waywire import table_text

TEXTS = sorted(glob.glob(f"{TOP}/protocols/*.tables"))
# What a message is in any case.
SURE = ("number", "time", "direction", "index", "piece", "offset", "size", "opcode", "bytes")
# What is said if something is not known.
NOT_KNOWN = {"interface": None, "birth": 0, "state": "unknown", "number": None, "name": None}


class WithoutTables(Inspected):
    def read_by(self, path, texts):
        """The messages of a recording, read with these texts; a text that needs another one is left out."""
        texts = list(texts)
        while True:
            words = [it for text in texts for it in ("--tables", text)]
            said, error = self.ran("--no-tables", *words, "--read", path, "--json", status=None)
            if not (broken := re.search(r"waywire-inspect: (\S+) line \d+: breaks V\d+", error)):
                break
            texts.remove(broken[1])
        self.assertEqual(error, "")
        return {it["number"]: it for it in map(json.loads, said.splitlines()) if it["type"] == "message"}

    def is_so(self, said, truth):
        """Whether what is said of an object or an argument is the truth, as far as it is known."""
        return all(key in truth and it in (truth[key], NOT_KNOWN.get(key, truth[key])) for key, it in said.items())

    def compare(self, said, truth):
        """Fails if something is false. Returns whether the message is named."""
        self.assertEqual([said[it] for it in SURE], [truth[it] for it in SURE])
        self.assertTrue(self.is_so(said["object"], truth["object"]), (said, truth))
        self.assertIn(said["state"], ("unknown", truth["state"]), (said, truth))
        for key in "made", "destroyed", "freed":
            for it in said[key]:
                self.assertTrue(any(self.is_so(it, one) for one in truth[key]), (said, truth))
        if said["message"] is None:
            return False
        self.assertEqual(said["message"], truth["message"])
        self.assertEqual(len(said["arguments"]), len(truth["arguments"]))
        for it, one in zip(said["arguments"], truth["arguments"]):
            self.assertTrue(self.is_so(it, one), (it, one, said["text"]))
        return True

    def test_each_text(self):
        """Without the interfaces of one text, and without any text."""
        unjudged = named = 0
        for path in sorted(glob.glob(f"{TOP}/examples/*.rec")):
            truth = self.read_by(path, TEXTS)
            its = {it["object"]["interface"] for it in truth.values()}
            for left_out in (*TEXTS, None):
                with open(left_out or os.devnull, encoding="ascii") as file:
                    declared = set(re.findall(r"(?m)^interface (\w+)", file.read()))
                if left_out and not declared & its:
                    continue
                said = self.read_by(path, [it for it in TEXTS if left_out and it != left_out])
                with self.subTest(path, left_out=left_out):
                    for number, it in said.items():
                        if not it["judged"] and number in truth:
                            unjudged += 1
                            named += self.compare(it, truth[number])
        # Most of these messages are for objects that are known.
        self.assertGreater(unjudged, 1000)
        self.assertGreater(named, unjudged / 2)

    def older(self, text, version):
        """Writes a text as it was in an older version, and returns its path."""
        with open(text, "rb") as file:
            sections = table_text.parse_tables(file.read())
        path = f"{self.folder}/{version}-{os.path.basename(text)}"
        with open(path, "w", encoding="ascii") as file:
            for it in sections:
                print("extend" if it.extends else "interface", it.name, min(it.version, version), file=file)
                for side, one in it.messages():
                    if one.since <= version:
                        print(side, one, file=file)
        return path

    def test_older_versions(self):
        """What is judged is judged as by the whole tables; only that a bind is newer is said beside it."""
        counts = Counter()
        for path in sorted(glob.glob(f"{TOP}/examples/*.rec")):
            truth = self.read_by(path, TEXTS)
            its = {it["object"]["interface"] for it in truth.values()}
            for text in TEXTS:
                with open(text, encoding="ascii") as file:
                    declared = dict(re.findall(r"(?m)^interface (\w+) (\d+)", file.read()))
                newest = max(map(int, declared.values()), default=1)
                for version in sorted({1, newest // 2, newest - 1} - {0, newest}) if its & set(declared) else ():
                    said = self.read_by(path, [self.older(text, version) if it == text else it for it in TEXTS])
                    with self.subTest(path, text=text, version=version):
                        counts += self.compare_all(said, truth)
        self.assertGreater(counts["judged behind a newer bind"], 1000, counts)

    def compare_all(self, said, truth):
        """Compares the messages of a session. Returns how many there were of each kind."""
        counts, is_newer = Counter(), False
        self.assertEqual(said.keys(), truth.keys())
        for number, it in said.items():
            note = it.pop("note", "")
            is_newer |= "judged until a message comes" in note
            counts["judged behind a newer bind" if it["judged"] and is_newer else str(it["judged"])] += 1
            if it["judged"]:
                self.assertEqual(it, {key: value for key, value in truth[number].items() if key != "note"})
            else:
                self.compare(it, truth[number])
        return counts


if __name__ == "__main__":
    main()
