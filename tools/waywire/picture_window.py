"""Which messages a page shows: those of a window, by their numbers or times, and of these the last ones."""

import json
import re
from collections.abc import Iterable

NUMBER, TIME = re.compile(r"[0-9]{1,18}"), re.compile(r"([0-9]{1,9}(?:\.[0-9]+)?)s")
# How a line of `waywire-inspect --json` begins that has a message.
FRONT = re.compile(rb'\{\s*"type":\s*"message",\s*"client":\s*([0-9]+),\s*"number":\s*([0-9]+),\s*"time":\s*([0-9.]+|null),')


def limit_of(word: str) -> tuple[int | None, float | None]:
    """A limit in words as a message's number or a time in seconds: `1000`, `2.5s`. Raises `ValueError`."""
    if found := TIME.fullmatch(word):
        return None, float(found[1])
    if not NUMBER.fullmatch(word) or not int(word):
        raise ValueError(word)
    return int(word), None


class Window:
    def __init__(self, begin: str | None = None, end: str | None = None) -> None:
        self.words = {"--from": begin, "--to": end}
        self.first, self.since = limit_of(begin) if begin else (None, None)
        self.last, self.until = limit_of(end) if end else (None, None)

    def options(self) -> list[str]:
        """The options by which the inspector prints these messages."""
        return [f"{name}={word}" for name, word in self.words.items() if word]

    def has(self, number: int, time: float | None) -> bool:
        """Whether a message is in it."""
        return ((self.first or number) <= number <= (self.last or number)
                and (self.since is None or (time is not None and self.since <= time))
                and (self.until is None or (time is not None and time <= self.until)))

    def count(self, lines: Iterable[bytes], client: int) -> int:
        """How many messages of the client these lines have in the window. Raises `ValueError` and `KeyError`."""
        return sum(it is not None and it[0] == client and self.has(*it[1:]) for it in map(message_of, lines))


Front = tuple[int, int, float | None]


def front_of(line: bytes) -> Front | None:
    """The client, the number and the time of a line's message, if the inspector has written it."""
    front = FRONT.match(line)
    return None if front is None else (int(front[1]), int(front[2]), None if front[3] == b"null" else float(front[3]))


def message_of(line: bytes) -> Front | None:
    """The same of any line in JSON. None if it has no message. Raises `ValueError` and `KeyError`."""
    if front := front_of(line):
        return front
    found = json.loads(line)
    if not isinstance(found, dict) or found.get("type") != "message":
        return None
    return found.get("client", 1), found["number"], found["time"]
