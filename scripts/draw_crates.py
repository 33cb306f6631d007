"""Draws the crates of crates.txt as an SVG, to standard output.

    python3 -m scripts.draw_crates > docs/crates.svg

Each kind of crate has an area of its own, and a crate is drawn above all crates that it uses. A line
leads down to each crate that it names, unless another crate in between already leads there.
`./test tools` compares docs/crates.svg with the output of this tool."""

import sys
from collections.abc import Iterable, Mapping

from scripts import crates, usage

BOX, HEIGHT, GAP, STEP, MARGIN, TITLE = 118, 26, 16, 60, 20, 28
# The rooms from left to right, and the colour of each.
ROOMS = {"theory": "#8e5ea2", "library": "#2f6fab", "program": "#3a8a5f", "example": "#b3702b"}


def levels_of(nearest: Mapping[str, list[str]]) -> dict[str, int]:
    """Returns how many crates stand below each, one on another."""
    found = {}

    def visit(name: str) -> int:
        if name not in found:
            found[name] = 1 + max(map(visit, nearest[name]), default=-1)
        return found[name]

    for name in nearest:
        visit(name)
    return found


def rows_of(names: Iterable[str], levels: Mapping[str, int]) -> dict[int, list[str]]:
    """Returns the crates of a room, a list for each level that has some."""
    rows: dict[int, list[str]] = {}
    for name in names:
        rows.setdefault(levels[name], []).append(name)
    return rows


def place(found: Mapping[str, crates.Crate], nearest: Mapping[str, list[str]],
          levels: Mapping[str, int]) -> tuple[list[tuple[str, float, float]], dict[str, float], float]:
    """Returns the rooms as (kind, left, width), and the middle of each crate's box."""
    rooms: list[tuple[str, float, float]] = []
    middles: dict[str, float] = {}
    left: float = MARGIN
    for kind in ROOMS:
        rows = rows_of([it for it in found if found[it].kind == kind], levels)
        most = max(map(len, rows.values()), default=0)
        if not most:
            continue
        width = most * (BOX + GAP) + GAP
        for level in sorted(rows):
            row = rows[level]
            # Those whose lines lead to the left stand on the left.
            ends = {it: [middles[low] for low in nearest[it] if low in middles] for it in row}
            row.sort(key={it: sum(its) / max(len(its), 1) for it, its in ends.items()}.__getitem__)
            share = width / len(row)
            middles.update({it: left + share * (at + 0.5) for at, it in enumerate(row)})
        rooms.append((kind, left, width))
        left += width + GAP
    return rooms, middles, left - GAP + MARGIN


def line(start: tuple[float, float], end: tuple[float, float], colour: str) -> str:
    (x, y), (to_x, to_y) = start, end
    bend = min((to_y - y) / 2, 3 * STEP)
    points = (x, y + bend), (to_x, to_y - bend), (to_x, to_y)
    curve = " ".join(f"{across:.0f} {down:.0f}" for across, down in points)
    path = f"M{x:.0f} {y:.0f}C{curve}"
    return f'<path d="{path}" fill="none" stroke="{colour}" stroke-opacity="0.55"/>'


def box(left: float, top: float, size: tuple[float, float], look: str) -> str:
    """Returns a rectangle: its place, its size, and how it looks."""
    width, height = size
    place = f'x="{left:.0f}" y="{top}" width="{width}" height="{height}"'
    return f"<rect {place} {look}/>"


def text(middle: float, base: float, look: str, words: str) -> str:
    return f'<text x="{middle:.0f}" y="{base}" {look}>{words}</text>'


def drawn(found: Mapping[str, crates.Crate]) -> list[str]:
    """Returns the lines of the SVG."""
    nearest = crates.nearest(found)
    levels = levels_of(nearest)
    rooms, middles, width = place(found, nearest, levels)
    depth = max(levels.values())
    tops = {it: MARGIN + TITLE + STEP * (depth - levels[it]) for it in found}
    bottom = MARGIN + TITLE + STEP * depth + HEIGHT + GAP
    out = [
        "<!-- Made by scripts/draw_crates.py. -->",
        f'<svg xmlns="http://www.w3.org/2000/svg" width="{width}" height="{bottom + MARGIN}"'
        ' font-family="sans-serif" font-size="12" text-anchor="middle">',
        "<title>The crates, each above those that it uses</title>",
        f'<rect width="{width}" height="{bottom + MARGIN}" fill="#ffffff"/>',
    ]
    for kind, left, wide in rooms:
        colour = ROOMS[kind]
        look = f'rx="8" fill="{colour}" fill-opacity="0.08" stroke="{colour}" stroke-opacity="0.4"'
        out.append(box(left, MARGIN, (wide, bottom - MARGIN), look))
        out.append(text(left + wide / 2, MARGIN + 18, f'fill="{colour}" font-weight="bold"', kind))
    for name in found:
        for low in nearest[name]:
            start, end = (middles[name], tops[name] + HEIGHT), (middles[low], tops[low])
            out.append(line(start, end, ROOMS[found[name].kind]))
    for name, crate in found.items():
        look = f'rx="4" fill="#ffffff" stroke="{ROOMS[crate.kind]}"'
        out.append(box(middles[name] - BOX / 2, tops[name], (BOX, HEIGHT), look))
        out.append(text(middles[name], tops[name] + 17, 'fill="#222222"', name))
    return [*out, "</svg>"]


def main() -> int:
    found = crates.read()
    strange = sorted({it.kind for it in found.values()} - {*ROOMS})
    if strange:
        kinds = ", ".join(map(repr, strange))
        print(f"draw_crates: crates.txt has a kind without a room: {kinds}", file=sys.stderr)
        return 1
    print("\n".join(drawn(found)))
    return 0


if __name__ == "__main__":
    usage.words(__doc__, most=0)
    sys.exit(main())
