"""The tests of waywire-replay: `python3 -m tests.replay.NAME` runs those of a file."""
