"""Measurements: `python3 -m bench.FOLDER.run` at the top, and `bench/run`."""
