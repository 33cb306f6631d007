"""Fetches the newest protocol files of Debian, of which scripts/make_tables.py makes texts, into out/protocol-files/.

    python3 -m scripts.fetch_protocols

Each package is unpacked into a folder of its own, with its version in the file `version`. Nothing is installed,
and the system's lists of packages stay as they are. protocol_files.py names the packages. If one cannot be fetched,
what was there of it stays, and the exit status is 1."""

import os
import shutil
import subprocess
import sys
import tempfile

from scripts import usage
from scripts.protocol_files import FETCHED, NEWER_PACKAGES


def run(words: list[str], folder: str) -> str:
    """Runs a command in a folder, and returns what it printed. If it fails, so does this."""
    done = subprocess.run(words, cwd=folder, stdin=subprocess.DEVNULL, capture_output=True, text=True, errors="replace")
    if done.returncode:
        lines = (done.stderr.strip() or done.stdout.strip() or f"status {done.returncode}").splitlines()
        raise OSError(f"{words[0]}: {lines[-1]}")
    return done.stdout


def archive() -> str:
    """Where this machine has its packages of Debian from."""
    asked = ["apt-get", "indextargets", "--format", "$(REPO_URI)", "Identifier: Packages", "Label: Debian"]
    found = run(asked, "/").split()
    if not found:
        raise OSError("no list of Debian's packages is configured")
    return found[0]


def options(room: str) -> list[str]:
    """What lets apt use lists of its own, in a folder, which it makes."""
    for it in ("lists/partial", "cache/archives/partial"):
        os.makedirs(f"{room}/{it}")
    uri, keys = archive(), "/usr/share/keyrings/debian-archive-keyring.gpg"
    suites = sorted({it.suite for it in NEWER_PACKAGES.values()})
    with open(f"{room}/sources.list", "w", encoding="utf-8") as file:
        file.writelines(f"{kind} [signed-by={keys}] {uri} {it} main\n" for it in suites for kind in ("deb", "deb-src"))
    settings = {
        "Dir::Etc::SourceList": f"{room}/sources.list", "Dir::Etc::SourceParts": "/dev/null",
        "Dir::State::Lists": f"{room}/lists", "Dir::Cache": f"{room}/cache", "Acquire::Languages": "none",
        "Acquire::Retries": "1", "Acquire::http::Timeout": "20", "APT::Sandbox::User": "root",
    }
    return [it for name, value in settings.items() for it in ("-o", f"{name}={value}")]


def fetch(package: str, apt: list[str], room: str) -> str:
    """Unpacks a package into a folder below `room`, and returns the folder."""
    its, place = NEWER_PACKAGES[package], f"{room}/{package}"
    os.makedirs(f"{place}/files")
    if its.is_source:
        run(["apt-get", *apt, "source", "--download-only", f"{package}/{its.suite}"], place)
        (description,) = (it for it in os.listdir(place) if it.endswith(".dsc"))
        version = description.removesuffix(".dsc").partition("_")[2]
        (packed,) = (it for it in os.listdir(place) if ".orig.tar." in it and not it.endswith(".asc"))
        run(["tar", "-xf", f"{place}/{packed}", "-C", f"{place}/files", "--strip-components=1"], place)
    else:
        run(["apt-get", *apt, "download", f"{package}/{its.suite}"], place)
        (packed,) = (it for it in os.listdir(place) if it.endswith(".deb"))
        version = run(["dpkg-deb", "-f", packed, "Version"], place).strip()
        run(["dpkg-deb", "-x", packed, "files"], place)
    with open(f"{place}/files/version", "w", encoding="utf-8") as file:
        file.write(f"{version}\n")
    return f"{place}/files"


def main() -> int:
    status = 0
    with tempfile.TemporaryDirectory() as room:
        try:
            apt = options(room)
            run(["apt-get", *apt, "update"], room)
        except OSError as error:
            print(f"fetch_protocols: {error}", file=sys.stderr)
            return 1
        for package in NEWER_PACKAGES:
            try:
                fetched = fetch(package, apt, room)
            except (OSError, ValueError) as error:
                print(f"fetch_protocols: {package}: {error}", file=sys.stderr)
                status = 1
                continue
            shutil.rmtree(f"{FETCHED}/{package}", ignore_errors=True)
            shutil.copytree(fetched, f"{FETCHED}/{package}", symlinks=True)
    return status


if __name__ == "__main__":
    usage.words(__doc__, most=0)
    sys.exit(main())
