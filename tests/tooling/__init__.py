"""The tests of the tools, the scripts, `./waywire` and the pages, by subject."""
