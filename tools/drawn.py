"""What tools/pages draws, as HTML and SVG, from the repository's own files: the house from crates.txt, where states lie from the places
that the source names, and a tile of each size from docs/ADDRESSES.md, whose numbers the tests hold."""

import html
import re

BOX, ROW, GAP = 132, 66, 12


def crates_listed(text):
    """The lines of crates.txt, `NAME: DEP DEP ..` or `NAME staticlib: DEP ..`: each crate and what it uses of the house."""
    rows = (line.split("#")[0].split(":", 1) for line in text.splitlines() if ":" in line.split("#")[0])
    uses = {front.split()[0]: others.split() for front, others in rows}
    return {name: [other for other in others if other in uses] for name, others in uses.items()}


def levels(uses):
    """Each crate's floor: one above the highest that it uses."""
    found = {}
    for name in uses:
        found[name] = 1 + max((found[other] for other in uses[name]), default=-1)
    return found


def through(uses):
    """All that each crate uses, also through others."""
    found = {}
    for name in uses:
        found[name] = set(uses[name]).union(*(found[other] for other in uses[name]))
    return found


def needed(uses):
    """The uses that aren't told by others: the house is drawn by these."""
    every = through(uses)
    return {name: [other for other in others if not any(other in every[between] for between in others)] for name, others in uses.items()}


def places(uses):
    """Where each crate's box stands: a floor a row, the lowest below, each near the middle of what it stands on."""
    floors = levels(uses)
    rows = [[name for name in uses if floors[name] == floor] for floor in range(max(floors.values()) + 1)]
    widest = max(len(row) for row in rows)
    at = {}
    for floor, row in enumerate(rows):
        middle = lambda name: sum(at[other][0] for other in uses[name]) / len(uses[name]) if uses[name] else 0
        row = sorted(row, key=middle)
        left = (widest - len(row)) * (BOX + GAP) / 2
        for place, name in enumerate(row):
            at[name] = (left + place * (BOX + GAP), (len(rows) - 1 - floor) * ROW)
    return at, widest * (BOX + GAP), len(rows) * ROW


def house(text, link):
    """The house as SVG: a box a crate, which leads to the crate, and a line to each crate that it stands on."""
    uses = crates_listed(text)
    at, width, height = places(uses)
    parts = []
    for name, others in needed(uses).items():
        x, y = at[name]
        for other in others:
            to_x, to_y = at[other]
            bend = (to_y - y - 30) / 2
            parts.append(f'<path d="M{x + BOX / 2:g} {y + 30:g} c0 {bend:g} {to_x - x:g} {bend:g} {to_x - x:g} {to_y - y - 30:g}"/>')
    for name, (x, y) in at.items():
        kind = "worked" if name.endswith("worked") else "rooms" if name.endswith("_rooms") or name == "egretfold" else "crate"
        parts.append(f'<a href="{link(name)}"><rect class="{kind}" x="{x:g}" y="{y:g}" width="{BOX}" height="30" rx="4"/>'
                     f'<text x="{x + BOX / 2:g}" y="{y + 20:g}">{html.escape(name)}</text></a>')
    said = f"{len(uses)} crates, each above all that it uses"
    return (f'<svg class="house" viewBox="-4 -4 {width + 8:g} {height:g}" role="img" aria-label="{said}">'
            f"<title>{said}</title>{''.join(parts)}</svg>")


def head(file_lines):
    """What a source file says at its head."""
    last = next(number for number, line in enumerate(file_lines) if not line.startswith("//"))
    return " ".join(line[2:].strip() for line in file_lines[:last])


def cells(file_lines, first="// Places of the cells."):
    """The places that a source file names: number, name, line, and the comment that stands above them."""
    found, comment = [], []
    begun = False
    for number, line in enumerate(file_lines, 1):
        begun = begun or line.startswith(first)
        place = re.match(r"pub const (\w+): usize = (\d+);", line)
        if line.startswith("//") and begun:
            comment.append(line.replace(first, "//")[2:].strip())
        elif place and begun:
            found.append((int(place[2]), place[1], number, " ".join(comment)))
            comment = []
        elif line.strip() and begun and not line.startswith(("pub const", "//")):
            break
        elif not place and not line.startswith("//"):
            comment = comment if not line.strip() else []
    return found


def tiles(page):
    """Document 01's tiles by their sizes: the rows of block numbers that docs/ADDRESSES.md prints, with their heads."""
    for found in re.finditer(r"    \$ \./egretfold tile --size (\d+)\n((?:    .*\n|\n)*)", page):
        told = [line.strip() for line in found[2].splitlines()]
        head = next(place for place, line in enumerate(told) if line.startswith("y \\ x"))
        rows = [[int(word) for word in line.split()] for line in told[head + 1:head + 9]]
        yield int(found[1]), told[0], [int(word) for word in told[head].split()[3:]], rows


def tile(said, columns, rows):
    """A tile: 8 by 8 blocks, each with its place and shaded by it, and the way from one block to the next in memory."""
    side, left, top = 46, 40, 26
    across = lambda place: left + place * side + side / 2
    down = lambda line: top + line * side + side / 2
    blocks = {number: (across(place), down(line)) for line, (_, *numbers) in enumerate(rows) for place, number in enumerate(numbers)}
    texts = [f'<text class="edge" x="{across(place):g}" y="16">{x}</text>' for place, x in enumerate(columns)]
    texts += [f'<text class="edge" x="20" y="{down(line) + 4:g}">{y}</text>' for line, (y, *_) in enumerate(rows)]
    texts += [f'<text x="{x:g}" y="{y + 4:g}">{number}</text>' for number, (x, y) in blocks.items()]
    shade = lambda number: f"hsl({210 - number * 2.6:.0f} 55% {92 - number * 0.55:.0f}%)"
    boxes = [f'<rect x="{x - side / 2:g}" y="{y - side / 2:g}" width="{side}" height="{side}" style="fill:{shade(number)}"/>' for number, (x, y) in blocks.items()]
    way = " ".join(f"{blocks[number][0]:g},{blocks[number][1]:g}" for number in sorted(blocks))
    said = html.escape(said)
    return (f'<svg class="tile" viewBox="0 0 {left + 8 * side + 4} {top + 8 * side + 4}" role="img" aria-label="{said}"><title>{said}</title>'
            f'{"".join(boxes)}<polyline points="{way}"/>{"".join(texts)}</svg>')
