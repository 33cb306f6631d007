"""Writes the pages of waywire as they are installed. A link leads to a file that is installed; of any other link only
the text is left.

    python3 -m scripts.installed_pages DOC INCLUDE DATA DESTDIR

DOC is the folder of the pages, INCLUDE that of the headers, DATA the folder with protocols/ and rust/. Below DESTDIR
all of them lie, as `make install` puts them."""

import os
import re

from scripts import crates, usage

# The pages that are written.
PAGES = ("docs/BUILDS.md", "docs/FORMATS.md", "docs/GUIDE.md", "docs/LIBWAYLAND.md", "examples/c/README.md",
         "rust/waywire/README.md", "rust/waywire-sys/README.md")
LINK = re.compile(r"!?\[((?:[^\[\]]|\[[^\]]*\])*)\]\(([^)\s]+)\)")


class Places:
    """Where files of the repository are installed."""

    def __init__(self, doc: str, include: str, data: str) -> None:
        self.files = {"LICENSE": f"{doc}/LICENSE", "docs/inspect.schema.json": f"{doc}/inspect.schema.json",
                      **{it: f"{doc}/{os.path.basename(it)}" for it in PAGES if it.startswith("docs/")}}
        self.folders = {"include": include, "examples/c": f"{doc}/examples", "rust": f"{data}/rust"}

    def of(self, path: str) -> str | None:
        """The place of a file or a folder; None if it is not installed."""
        if path in self.files:
            return self.files[path]
        for folder, place in self.folders.items():
            if path == folder or path.startswith(f"{folder}/"):
                return place + path[len(folder) :]
        return None


def installed(text: str, page: str, places: Places) -> str:
    """The text of a page with links to what is installed."""
    own = os.path.dirname(places.of(page) or "")

    def linked(match: re.Match[str]) -> str:
        path, _, anchor = match[2].partition("#")
        if not path or re.match(r"\w+:", path):
            return match[0]
        place = places.of(os.path.normpath(f"{os.path.dirname(page)}/{path}"))
        if place is None:
            return match[1]
        to = os.path.relpath(place, own) + (f"#{anchor}" if anchor else "")
        return f"[{match[1]}]({to})"

    # Code is left as it is.
    parts = re.split(r"(?ms)(^```.*?^```$)", text)
    return "".join(it if at % 2 else LINK.sub(linked, it) for at, it in enumerate(parts))


def main() -> None:
    doc, include, data, room = usage.words(__doc__ or "", least=4, most=4)
    places = Places(doc, include, data)
    for page in PAGES:
        with open(f"{crates.TOP}/{page}", encoding="utf-8") as file:
            text = installed(file.read(), page, places)
        with open(f"{room}{places.of(page)}", "w", encoding="utf-8") as file:
            file.write(text)


if __name__ == "__main__":
    main()
