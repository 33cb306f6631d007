"""What builds the repository, and what you run while you change it: `python3 -m scripts.NAME` at the top."""
