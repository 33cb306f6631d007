"""The parts of `./test`: a module for each, with its name."""
