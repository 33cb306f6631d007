"""The tests of waywire-inspect: `python3 -m tests.inspector.NAME` runs those of a file."""
