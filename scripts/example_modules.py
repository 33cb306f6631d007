"""Writes the typed calls that the examples in Rust use, besides the package's own: for xdg-shell, and for
wlr-data-control if its file is there.

    python3 -m scripts.example_modules

`make` runs it, so that no build of a program over the package needs Python or a protocol's file. The modules are in
rust/waywire/examples/protocols/. Without the file of xdg-shell it says so, and the examples cannot be built.
PROTOCOLS names another folder of wayland-protocols, and DATA_CONTROL another file of wlr-data-control."""

import os
import subprocess
import sys

from scripts import crates, protocol_files, usage

FOLDER = os.path.join(crates.TOP, "rust", "waywire", "examples", "protocols")
# The modules, which have the names of the protocols, and the texts of their files.
MODULES = {"xdg_shell": "xdg-shell", "wlr_data_control_unstable_v1": "data-control"}


def sources() -> dict[str, str]:
    """The file of each module, if it is there."""
    found = protocol_files.found()
    files = {name: found.get(text, "") for name, text in MODULES.items()}
    if folder := os.environ.get("PROTOCOLS"):
        files["xdg_shell"] = os.path.join(folder, "stable", "xdg-shell", "xdg-shell.xml")
    files["wlr_data_control_unstable_v1"] = os.environ.get("DATA_CONTROL", files["wlr_data_control_unstable_v1"])
    return {name: path for name, path in files.items() if path and os.path.exists(path)}


def main() -> None:
    usage.words(__doc__, most=0)
    files = sources()
    os.makedirs(FOLDER, exist_ok=True)
    for name in MODULES:
        path = os.path.join(FOLDER, f"{name}.rs")
        if name not in files:
            if os.path.exists(path):
                os.remove(path)
            print(f"example_modules: the file of {MODULES[name]} is not installed", file=sys.stderr)
            continue
        tool = os.path.join(crates.TOP, "tools", "stubs-from-xml")
        made = subprocess.run([tool, "--rust", files[name]], check=True, stdout=subprocess.PIPE).stdout
        with open(path, "wb") as file:
            file.write(made)


if __name__ == "__main__":
    main()
