"""Tests that the lines of --json are those of docs/inspect.schema.json, and that docs/FORMATS.md names their keys.

    python3 -m tests.inspector.json_lines [CLASS[.TEST]]..

The environment is that of inspecting.py. jq reads the schema."""
import copy
import glob
import json
import os
import re
import signal
import struct
import subprocess

from tests import picture_sessions
from tests.checks import TOP
from tests.inspector.inspecting import LONG, done, main, message, sync
from tests.inspector.questions import Timed
from tests.inspector.words import REGISTRY, announced, bind, error, raw

SCHEMA = f"{TOP}/docs/inspect.schema.json"
# Requests after those of Timed.record: a bitfield, a subsurface, a window with a title that is no UTF-8, buffers of one pool.
GIVEN = (
    bind(7, "wl_shm", 1, 12), message(3, 0, 13), bind(8, "wl_subcompositor", 1, 14), message(14, 1, 15, 13, 10),
    message(13, 6), message(6, 2, 16, 10), message(16, 1, 17), raw(17, 2, struct.pack("<I", 3) + b"\xff\xfe\0\0"),
    message(17, 1, 0), message(11, 0, 1, 0, 0, 0),
)
BUFFERS = range(19, 24)
# Three are shown one after the other, and two on a surface that ends.
SHOWN = (*((10, it) for it in BUFFERS[:3]), *((24, it) for it in BUFFERS[3:]))


def shape(value):
    """What keys and kinds a value has; of an array, those of its elements."""
    if isinstance(value, dict):
        return tuple((key, value[key] if key in ("type", "kind") else shape(it)) for key, it in value.items())
    if isinstance(value, list):
        return tuple(sorted({str(shape(it)) for it in value}))
    return type(value).__name__


def keys_of(value, place=""):
    """The places of all keys in a line, such as message.arguments and uint.value."""
    if isinstance(value, list):
        for it in value:
            yield from keys_of(it, place)
    if isinstance(value, dict):
        its = value.get("type", value.get("kind"))
        place = its or place
        for key, it in value.items():
            yield f"{place}.{key}"
            yield from keys_of(it, f"{place}.{key}")


def keys_in(schema, whole, place=""):
    """The same of all keys that a schema allows."""
    if "$ref" in schema:
        schema = whole["$defs"][schema["$ref"].removeprefix("#/$defs/")]
    properties = schema.get("properties", {})
    its = properties.get("type", properties.get("kind", {})).get("const")
    place = its or place
    for key, it in properties.items():
        yield f"{place}.{key}"
        yield from keys_in(it, whole, f"{place}.{key}")
    for it in (*schema.get("oneOf", ()), *([schema["items"]] if "items" in schema else ())):
        yield from keys_in(it, whole, place)


class Lines(Timed):
    def setUp(self):
        super().setUp()
        with open(SCHEMA, encoding="utf-8") as file:
            self.schema = json.load(file)

    def refused(self, lines):
        """The lines that the schema does not allow."""
        words = ["jq", "-c", "--slurpfile", "schemas", SCHEMA, "-f", f"{TOP}/tests/inspector/schema.jq"]
        ran = subprocess.run(words, input="".join(json.dumps(it) + "\n" for it in lines), capture_output=True, text=True,
                             timeout=LONG, check=False)
        self.assertEqual((ran.returncode, ran.stderr), (0, ""))
        return [json.loads(it) for it in ran.stdout.splitlines()]

    def told_of(self, path, *options):
        said, _ = self.ran("--read", path, "--json", "--strict", *options, status=None)
        return [json.loads(it) for it in said.splitlines()]

    def written(self, *lines):
        with open(self.recorded, "w", encoding="ascii") as file:
            file.writelines(lines)
        return self.recorded

    def recordings(self):
        """The lines of recordings with all that a line may say."""
        for path in sorted(glob.glob(f"{TOP}/examples/*.rec")):
            yield from self.told_of(path)
        yield from self.told_of(self.written(*picture_sessions.hang_recording()))
        self.record((0, (announced(8, "wl_subcompositor", 1),)), *((1, it) for it in GIVEN),
                    (1, message(9, 0, 18, 4096), 1), *((2, message(18, 0, it, 0, 2, 2, 8, 0)) for it in BUFFERS),
                    (2, message(3, 0, 24)),
                    *((2, message(surface, 1, buffer, 0, 0) + message(surface, 6)) for surface, buffer in SHOWN),
                    (4, message(24, 0)), (5, (message(20, 0),)), (6, (error(10, 2, "no"),)))
        yield from self.told_of(self.recorded)
        own = REGISTRY, bind(1, "own_shell1", 1, 3), message(3, 7), bind(2, "wl_shm", 1, 4)
        events = announced(1, "own_shell1", 1) + announced(2, "wl_shm", 1)
        yield from self.told_of(self.written(f"> {own[0].hex()}\n< {events.hex()}\n", *(f"> {it.hex()}\n" for it in own[1:]),
                                             f"> {message(4, 0, 5, 64).hex()} +1\n", "no piece\n"))
        yield from self.told_of(self.written(f"> {REGISTRY.hex()}\n< {message(2, 7).hex()}\n"))
        yield from self.told_of(self.written("# fault 1 drop wl_display.sync\n# did 1 0.5 -> wl_display@1.sync\n"))

    def session(self):
        """The lines of a session that stands still."""
        self.start("--json", "--late", "0.3", "--stop-at", "wl_display.get_registry")
        client, compositor = self.client()
        said = []

        def until(kind):
            while not said or json.loads(said[-1])["type"] != kind:
                said.append(self.tool.stdout.readline())

        client.sendall(sync(2))
        until("not_reading")
        self.comes(compositor, sync(2))
        until("reads_again")
        if not any('"type":"waiting"' in it for it in said):
            until("waiting")
        self.passes(compositor, client, done(2))
        until("waited")
        client.sendall(REGISTRY)
        until("stopped")
        self.tool.send_signal(signal.SIGTERM)
        return map(json.loads, [*said, *self.tool.communicate(timeout=LONG)[0].splitlines()])

    def test_the_schema(self):
        """It allows all lines, and has no key that none of them has. A line of each shape is looked at."""
        lines = {str(shape(it)): it for it in (*self.recordings(), *self.session())}
        self.assertEqual(self.refused(lines.values()), [])
        found = {it for line in lines.values() for it in keys_of(line)}
        # A buffer waits as any other question does.
        self.assertEqual(found | {"waiting.replaced"}, set(keys_in(self.schema, self.schema)))

    def test_what_it_refuses(self):
        """Another key, a missing one, a value of another kind."""
        lines = self.told_of(f"{TOP}/examples/surface.rec")
        self.assertEqual((lines[0]["type"], lines[0]["version"]), ("head", 1))
        wrong = [{**lines[0], "version": 2}]
        for line in lines:
            wrong += {**line, "another": 1}, {key: it for key, it in line.items() if key != "type"}
        for key, value in ("time", "1"), ("number", 1.5), ("direction", "both"), ("bytes", "0"), ("arguments", {}):
            wrong.append({**copy.deepcopy(lines[2]), key: value})
        wrong.append({**lines[2], "arguments": [{"kind": "uint", "name": None, "value": "1"}]})
        self.assertEqual(self.refused([*lines, *wrong]), wrong)

    def test_the_page(self):
        """docs/FORMATS.md names each type and each key."""
        with open(f"{TOP}/docs/FORMATS.md", encoding="utf-8") as file:
            page = re.search(r"(?ms)^## Lines of JSON\n.*?(?=^## )", file.read())[0]
        named = set(re.findall(r"`(\w+)`", page))
        self.assertEqual({it for place in keys_in(self.schema, self.schema) for it in place.split(".")} - named, set())
        self.assertIn(os.path.basename(SCHEMA), page)


if __name__ == "__main__":
    main()
