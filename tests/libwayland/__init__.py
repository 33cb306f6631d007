"""The tests of the libwayland-client, in C and in Python."""
