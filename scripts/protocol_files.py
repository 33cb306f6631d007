"""The protocol files from which the texts in protocols/ are made, if they are on this machine. Most come from packages
of Debian 12, which scripts/install-packages installs, and those of newer protocols from newer packages, which
scripts/fetch_protocols.py fetches."""

import glob
import os
import shutil
import subprocess
from collections.abc import Mapping
from typing import NamedTuple

from scripts import crates

# Each package of Debian with such files, their folder, and the licence of a file that names none.
PACKAGES = {
    "libwayland-dev": ("/usr/share/wayland", "MIT"),
    "wayland-protocols": ("/usr/share/wayland-protocols", "MIT"),
    "librust-wayland-protocols-dev": (
        "/usr/share/cargo/registry/wayland-protocols-*/wlr-protocols/unstable", "MIT"),
    "plasma-wayland-protocols": ("/usr/share/plasma-wayland-protocols", "LGPL-2.1-or-later"),
}
# The names of the texts of a package, and their files below its folder.
TEXTS = {
    "libwayland-dev": {"data-device": "wayland.xml"},
    "wayland-protocols": {
        "content-type": "staging/content-type/content-type-v1.xml",
        "drm-lease": "staging/drm-lease/drm-lease-v1.xml",
        "ext-idle-notify": "staging/ext-idle-notify/ext-idle-notify-v1.xml",
        "ext-session-lock": "staging/ext-session-lock/ext-session-lock-v1.xml",
        "fractional-scale": "staging/fractional-scale/fractional-scale-v1.xml",
        "fullscreen-shell": "unstable/fullscreen-shell/fullscreen-shell-unstable-v1.xml",
        "idle-inhibit": "unstable/idle-inhibit/idle-inhibit-unstable-v1.xml",
        "input-method": "unstable/input-method/input-method-unstable-v1.xml",
        "input-timestamps": "unstable/input-timestamps/input-timestamps-unstable-v1.xml",
        "keyboard-shortcuts-inhibit":
            "unstable/keyboard-shortcuts-inhibit/keyboard-shortcuts-inhibit-unstable-v1.xml",
        "linux-dmabuf": "unstable/linux-dmabuf/linux-dmabuf-unstable-v1.xml",
        "linux-explicit-synchronization":
            "unstable/linux-explicit-synchronization/linux-explicit-synchronization-unstable-v1.xml",
        "pointer-constraints": "unstable/pointer-constraints/pointer-constraints-unstable-v1.xml",
        "pointer-gestures": "unstable/pointer-gestures/pointer-gestures-unstable-v1.xml",
        "presentation-time": "stable/presentation-time/presentation-time.xml",
        "primary-selection": "unstable/primary-selection/primary-selection-unstable-v1.xml",
        "relative-pointer": "unstable/relative-pointer/relative-pointer-unstable-v1.xml",
        "single-pixel-buffer": "staging/single-pixel-buffer/single-pixel-buffer-v1.xml",
        "tablet": "unstable/tablet/tablet-unstable-v2.xml",
        "tablet-v1": "unstable/tablet/tablet-unstable-v1.xml",
        "tearing-control": "staging/tearing-control/tearing-control-v1.xml",
        "text-input": "unstable/text-input/text-input-unstable-v3.xml",
        "text-input-v1": "unstable/text-input/text-input-unstable-v1.xml",
        "viewporter": "stable/viewporter/viewporter.xml",
        "xdg-activation": "staging/xdg-activation/xdg-activation-v1.xml",
        "xdg-decoration": "unstable/xdg-decoration/xdg-decoration-unstable-v1.xml",
        "xdg-foreign": "unstable/xdg-foreign/xdg-foreign-unstable-v2.xml",
        "xdg-foreign-v1": "unstable/xdg-foreign/xdg-foreign-unstable-v1.xml",
        "xdg-output": "unstable/xdg-output/xdg-output-unstable-v1.xml",
        "xdg-shell": "stable/xdg-shell/xdg-shell.xml",
        "xdg-shell-v6": "unstable/xdg-shell/xdg-shell-unstable-v6.xml",
        "xwayland-keyboard-grab":
            "unstable/xwayland-keyboard-grab/xwayland-keyboard-grab-unstable-v1.xml",
        "xwayland-shell": "staging/xwayland-shell/xwayland-shell-v1.xml",
    },
    "librust-wayland-protocols-dev": {
        "data-control": "wlr-data-control-unstable-v1.xml",
        "export-dmabuf": "wlr-export-dmabuf-unstable-v1.xml",
        "foreign-toplevel-management": "wlr-foreign-toplevel-management-unstable-v1.xml",
        "gamma-control": "wlr-gamma-control-unstable-v1.xml",
        "input-inhibitor": "wlr-input-inhibitor-unstable-v1.xml",
        "layer-shell": "wlr-layer-shell-unstable-v1.xml",
        "output-management": "wlr-output-management-unstable-v1.xml",
        "output-power-management": "wlr-output-power-management-unstable-v1.xml",
        "screencopy": "wlr-screencopy-unstable-v1.xml",
        "virtual-pointer": "wlr-virtual-pointer-unstable-v1.xml",
        "gtk-primary-selection": "../../misc/gtk-primary-selection.xml",
        "input-method-v2": "../../misc/input-method-unstable-v2.xml",
    },
    "plasma-wayland-protocols": {
        "kde-appmenu": "appmenu.xml",
        "kde-blur": "blur.xml",
        "kde-contrast": "contrast.xml",
        "kde-dpms": "dpms.xml",
        "kde-eglstream-controller": "wayland-eglstream-controller.xml",
        "kde-fake-input": "fake-input.xml",
        "kde-fullscreen-shell": "fullscreen-shell.xml",
        "kde-idle": "idle.xml",
        "kde-lockscreen-overlay": "kde-lockscreen-overlay-v1.xml",
        "kde-output-device": "kde-output-device-v2.xml",
        "kde-output-device-v1": "outputdevice.xml",
        "kde-output-management": "kde-output-management-v2.xml",
        "kde-output-management-v1": "output-management.xml",
        "kde-output-order": "kde-output-order-v1.xml",
        "kde-plasma-shell": "plasma-shell.xml",
        "kde-plasma-virtual-desktop": "plasma-virtual-desktop.xml",
        "kde-plasma-window-management": "plasma-window-management.xml",
        "kde-primary-output": "kde-primary-output-v1.xml",
        "kde-remote-access": "remote-access.xml",
        "kde-screencast": "zkde-screencast-unstable-v1.xml",
        "kde-server-decoration": "server-decoration.xml",
        "kde-server-decoration-palette": "server-decoration-palette.xml",
        "kde-shadow": "shadow.xml",
        "kde-slide": "slide.xml",
        "kde-surface-extension": "surface-extension.xml",
        "kde-text-input": "text-input.xml",
        "kde-text-input-v2": "text-input-unstable-v2.xml",
    },
}
# The texts whose interfaces one names.
NAMED = {
    "cursor-shape": ("tablet",),
    "ext-image-capture-source": ("ext-foreign-toplevel-list",),
    "ext-image-copy-capture": ("ext-foreign-toplevel-list", "ext-image-capture-source"),
    "kde-output-management": ("kde-output-device",),
    "kde-output-management-v1": ("kde-output-device-v1",),
    "layer-shell": ("xdg-shell",),
    "xdg-decoration": ("xdg-shell",),
    "xdg-dialog": ("xdg-shell",),
    "xdg-session-management": ("xdg-shell",),
    "xdg-toplevel-drag": ("data-device", "xdg-shell"),
    "xdg-toplevel-icon": ("xdg-shell",),
    "xdg-toplevel-tag": ("xdg-shell",),
}
# The texts that are written by hand, since none of these packages has the file.
BY_HAND = ("gtk-shell",)
# Files that get no text. protocols/README.md gives the reasons.
WITHOUT_TEXT = {
    "wayland-protocols": ["unstable/xdg-shell/xdg-shell-unstable-v5.xml"],
    "plasma-wayland-protocols": ["keystate.xml", "screencast.xml"],
}


class Newer(NamedTuple):
    """A package of a newer release of Debian: the release, the folder of its files, the licence of a file that names
    none, and whether the files are in its source."""

    suite: str
    folder: str
    licence: str = "MIT"
    is_source: bool = False


# Where `python3 -m scripts.fetch_protocols` puts the newer packages, a folder each.
FETCHED = f"{crates.TOP}/out/protocol-files"
NEWER_PACKAGES = {
    "libwayland-dev": Newer("unstable", "usr/share/wayland"),
    "wayland-protocols": Newer("unstable", "usr/share/wayland-protocols"),
    "librust-wayland-protocols-wlr-dev": Newer(
        "unstable", "usr/share/cargo/registry/wayland-protocols-wlr-*/wlr-protocols/unstable"),
    "plasma-wayland-protocols": Newer("unstable", "usr/share/plasma-wayland-protocols", "LGPL-2.1-or-later"),
    "wlroots": Newer("trixie", "protocol", is_source=True),
}
# The texts that are made from files of these: protocols that Debian 12 lacks, or has in an older version.
NEWER_TEXTS = {
    "libwayland-dev": {"data-device": "wayland.xml", "wayland": "wayland.xml"},
    "wayland-protocols": {
        "alpha-modifier": "staging/alpha-modifier/alpha-modifier-v1.xml",
        "color-management": "staging/color-management/color-management-v1.xml",
        "color-representation": "staging/color-representation/color-representation-v1.xml",
        "commit-timing": "staging/commit-timing/commit-timing-v1.xml",
        "cursor-shape": "staging/cursor-shape/cursor-shape-v1.xml",
        "ext-background-effect": "staging/ext-background-effect/ext-background-effect-v1.xml",
        "ext-data-control": "staging/ext-data-control/ext-data-control-v1.xml",
        "ext-foreign-toplevel-list": "staging/ext-foreign-toplevel-list/ext-foreign-toplevel-list-v1.xml",
        "ext-idle-notify": "staging/ext-idle-notify/ext-idle-notify-v1.xml",
        "ext-image-capture-source": "staging/ext-image-capture-source/ext-image-capture-source-v1.xml",
        "ext-image-copy-capture": "staging/ext-image-copy-capture/ext-image-copy-capture-v1.xml",
        "ext-transient-seat": "staging/ext-transient-seat/ext-transient-seat-v1.xml",
        "ext-workspace": "staging/ext-workspace/ext-workspace-v1.xml",
        "fifo": "staging/fifo/fifo-v1.xml",
        "linux-dmabuf": "stable/linux-dmabuf/linux-dmabuf-v1.xml",
        "linux-drm-syncobj": "staging/linux-drm-syncobj/linux-drm-syncobj-v1.xml",
        "pointer-gestures": "unstable/pointer-gestures/pointer-gestures-unstable-v1.xml",
        "pointer-warp": "staging/pointer-warp/pointer-warp-v1.xml",
        "presentation-time": "stable/presentation-time/presentation-time.xml",
        "security-context": "staging/security-context/security-context-v1.xml",
        "tablet": "stable/tablet/tablet-v2.xml",
        "text-input": "unstable/text-input/text-input-unstable-v3.xml",
        "xdg-decoration": "unstable/xdg-decoration/xdg-decoration-unstable-v1.xml",
        "xdg-dialog": "staging/xdg-dialog/xdg-dialog-v1.xml",
        "xdg-session-management": "staging/xdg-session-management/xdg-session-management-v1.xml",
        "xdg-shell": "stable/xdg-shell/xdg-shell.xml",
        "xdg-system-bell": "staging/xdg-system-bell/xdg-system-bell-v1.xml",
        "xdg-toplevel-drag": "staging/xdg-toplevel-drag/xdg-toplevel-drag-v1.xml",
        "xdg-toplevel-icon": "staging/xdg-toplevel-icon/xdg-toplevel-icon-v1.xml",
        "xdg-toplevel-tag": "staging/xdg-toplevel-tag/xdg-toplevel-tag-v1.xml",
    },
    "librust-wayland-protocols-wlr-dev": {
        "layer-shell": "wlr-layer-shell-unstable-v1.xml",
        "output-management": "wlr-output-management-unstable-v1.xml",
    },
    "plasma-wayland-protocols": {
        "kde-appmenu": "appmenu.xml",
        "kde-external-brightness": "kde-external-brightness-v1.xml",
        "kde-fake-input": "fake-input.xml",
        "kde-output-device": "kde-output-device-v2.xml",
        "kde-output-management": "kde-output-management-v2.xml",
        "kde-plasma-virtual-desktop": "org-kde-plasma-virtual-desktop.xml",
        "kde-plasma-window-management": "plasma-window-management.xml",
        "kde-screen-edge": "kde-screen-edge-v1.xml",
        "kde-screencast": "zkde-screencast-unstable-v1.xml",
    },
    "wlroots": {"drm": "drm.xml", "virtual-keyboard": "virtual-keyboard-unstable-v1.xml"},
}


class Text(NamedTuple):
    """A table text: the package of its file, the path of the file below the package's folder, the texts whose
    interfaces it names, and whether the package is one of `NEWER_PACKAGES`."""

    package: str
    path: str
    names: tuple[str, ...] = ()
    is_newer: bool = False


def texts(listed: Mapping[str, Mapping[str, str]], is_newer: bool) -> dict[str, Text]:
    """The texts of a list, by their names."""
    return {
        name: Text(package, path, NAMED.get(name, ()), is_newer)
        for package, its in listed.items()
        for name, path in its.items()
    }


OLDER = texts(TEXTS, is_newer=False)
PROTOCOLS = {**OLDER, **texts(NEWER_TEXTS, is_newer=True)}


def names_of(name: str) -> tuple[str, ...]:
    """The texts whose interfaces a text names."""
    return () if name in BY_HAND else PROTOCOLS[name].names


def folder(package: str) -> str:
    """The folder of a package's files. That of wayland-protocols is found as the Makefile of the examples
    finds it."""
    pattern = PACKAGES[package][0]
    if package == "wayland-protocols":
        words = ["pkg-config", "--variable=pkgdatadir", package]
        said = subprocess.run(words, capture_output=True).stdout if shutil.which(words[0]) else b""
        pattern = os.environ.get("PROTOCOLS") or said.decode().strip() or pattern
    return next(iter(sorted(glob.glob(pattern))), pattern)


def path_of(text: Text) -> str:
    """The path of a text's file, which need not be there."""
    if not text.is_newer:
        return os.path.join(folder(text.package), text.path)
    pattern = f"{FETCHED}/{text.package}/{NEWER_PACKAGES[text.package].folder}"
    return os.path.join(next(iter(sorted(glob.glob(pattern))), pattern), text.path)


def those_there(texts_of_files: Mapping[str, Text]) -> dict[str, str]:
    """The files of texts that are there, by the names of the texts."""
    paths = {name: path_of(it) for name, it in texts_of_files.items()}
    return {name: path for name, path in sorted(paths.items()) if os.path.exists(path)}


def sources() -> dict[str, str]:
    """The files that are there of those from which the texts are made, by the names of the texts."""
    return those_there(PROTOCOLS)


def found() -> dict[str, str]:
    """A file for each protocol that there is one for: if a newer one was not fetched, that of Debian 12."""
    files = {**those_there(OLDER), **sources()}
    return {name: path for name, path in files.items() if name != "wayland"}


def without_text() -> list[tuple[str, str]]:
    """The files in the packages' folders from which no text is made: their packages and paths."""
    made = {path_of(it) for it in OLDER.values()}
    return [
        (package, os.path.relpath(path, folder(package)))
        for package in PACKAGES
        for path in sorted(glob.glob(f"{folder(package)}/**/*.xml", recursive=True))
        if path not in made
    ]
