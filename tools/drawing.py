#!/usr/bin/env python3
"""Draws an archive of btreearc, as a tree and as bytes: tools/drawing.py < ARCHIVE > docs/format.svg
Draws how a lookup goes down in one: tools/drawing.py KEY < ARCHIVE > docs/lookup.svg

The archive is of u32 to u32 with 5 entries a node; for the first drawing it has a root with leaves below it. Every number and each place in a
drawing is read from its bytes, as docs/FORMAT.md defines them. `make drawing` has btreearc build archives of 17 and of 215 entries.
"""
import struct
import sys

ENTRIES = 5
MAP = 8
KEYS, VALUES, LENGTH, POINTERS = 4, 24, 44, 44
CELL, HEIGHT, LEFT, STRIP = 17, 32, 32, 330
WIDTH, TALL = 2 * LEFT + 55 * CELL, 506
COLORS = {
    "kind": "#c9c3dc", "key": "#f6d38b", "value": "#a9d5c3", "count": "#c9c3dc",
    "pointer": "#e79d86", "absent": "#f7dfd7", "unused": "#f0f0ee",
}
NAMES = {
    "kind": "kind of node, or number of entries", "key": "key", "value": "value",
    "pointer": "pointer", "absent": "absent pointer", "unused": "unused, zero",
}


class Archive:
    """An archive's nodes, by their positions."""

    def __init__(self, data):
        self.data, self.root_at = data, len(data) - MAP
        self.root = self.target(self.root_at)
        self.count = self.number(self.root_at + 4)
        self.children = [self.target(self.pointer_at(i)) for i in range(ENTRIES + 1)]
        self.leaves = [child for child in self.children if child is not None]

    def number(self, at):
        return struct.unpack_from("<I", self.data, at)[0]

    def target(self, at):
        """Returns where the pointer at a position leads, or None if it is absent."""
        offset = struct.unpack_from("<i", self.data, at)[0]
        return None if offset == 1 else at + offset

    def pointer_at(self, index, node=None):
        return (self.root if node is None else node) + POINTERS + 4 * index

    def is_inner(self, node):
        return self.data[node] == 1

    def way(self, key):
        """Yields each node to which a lookup goes, with its entries, how many of their keys are compared, and the child that comes next."""
        node = self.root
        while node is not None:
            entries = self.entries(node, ENTRIES if self.is_inner(node) else self.number(node + LENGTH))
            before = sum(1 for other, _ in entries if other < key)
            found = before < len(entries) and entries[before][0] == key
            child = None if found or not self.is_inner(node) else self.target(self.pointer_at(before, node))
            yield node, entries, min(before + 1, len(entries)), child
            node = child

    def nodes(self, node=None):
        """Yields the position and the size of each node."""
        node = self.root if node is None else node
        inner = self.is_inner(node)
        yield node, (POINTERS + 4 * (ENTRIES + 1) if inner else LENGTH + 4)
        for index in range(ENTRIES + 1) if inner else ():
            child = self.target(self.pointer_at(index, node))
            if child is not None:
                yield from self.nodes(child)

    def entries(self, node, count):
        """Returns the keys and values of a node."""
        return [(self.number(node + KEYS + 4 * i), self.number(node + VALUES + 4 * i)) for i in range(count)]

    def cells(self):
        """Yields the position, the kind and the number of each four bytes."""
        for node in [*self.leaves, self.root]:
            inner = node == self.root
            count = ENTRIES if inner else self.number(node + LENGTH)
            yield node, "kind", str(self.data[node])
            for part, kind in ((KEYS, "key"), (VALUES, "value")):
                for i in range(ENTRIES):
                    at = node + part + 4 * i
                    yield (at, kind, str(self.number(at))) if i < count else (at, "unused", "")
            if inner:
                for i, child in enumerate(self.children):
                    at = self.pointer_at(i)
                    yield (at, "absent", "") if child is None else (at, "pointer", str(child - at))
            else:
                yield node + LENGTH, "count", str(count)
        yield self.root_at, "pointer", str(self.root - self.root_at)
        yield self.root_at + 4, "count", str(self.count)


def text(x, y, words, size=12, anchor="middle", color="#33333d", weight="normal"):
    return (f'<text x="{x:g}" y="{y:g}" font-size="{size}" text-anchor="{anchor}" fill="{color}" '
            f'font-weight="{weight}">{words}</text>')


def box(x, y, width, height, color, edge="#8d8a96", round_by=0):
    return (f'<rect x="{x:g}" y="{y:g}" width="{width:g}" height="{height:g}" fill="{color}" stroke="{edge}" '
            f'stroke-width="0.8" rx="{round_by}"/>')


def path(drawn, color="#b4573c", ends=False):
    marker = ' marker-end="url(#head)"' if ends else ""
    return f'<path d="{drawn}" fill="none" stroke="{color}" stroke-width="1.5"{marker}/>'


def node_box(x, y, entries, wide):
    """Draws a node of the tree: a key above its value for each entry."""
    for i, (key, value) in enumerate(entries):
        at = x + wide * i
        yield box(at, y, wide, 22, COLORS["key"])
        yield box(at, y + 22, wide, 22, COLORS["value"])
        yield text(at + wide / 2, y + 15.5, key, 12, weight="bold")
        yield text(at + wide / 2, y + 37.5, value, 11)


def tree(archive):
    """Draws the root, its pointers between the entries, and the leaves."""
    wide, gap, top, low = 42, 14, 72, 196
    across = ENTRIES * wide + (ENTRIES + 1) * gap
    left = (WIDTH - across) / 2
    yield text(left - 14, top + 27, "root", 12, "end", "#77747f")
    yield box(left - 6, top - 6, across + 12, 56, "none", round_by=8)
    starts = [LEFT + 60, LEFT + 385, LEFT + 710]
    for i, child in enumerate(archive.children):
        x = left + i * (wide + gap) + gap / 2
        if i < ENTRIES:
            yield from node_box(x + gap / 2, top, archive.entries(archive.root, ENTRIES)[i:i + 1], wide)
        if child is None:
            yield f'<circle cx="{x:g}" cy="{top + 22}" r="4" fill="{COLORS["absent"]}" stroke="#b4573c"/>'
            continue
        count = archive.number(child + LENGTH)
        start = starts[archive.leaves.index(child)]
        yield f'<circle cx="{x:g}" cy="{top + 22}" r="4" fill="#b4573c"/>'
        end = start + count * wide / 2
        yield path(f"M {x:g} {top + 26} V {top + 54} C {x:g} {top + 100}, {end:g} {low - 70}, {end:g} {low - 12}", ends=True)
        yield box(start - 6, low - 6, count * wide + 12, 56, "none", round_by=8)
        yield from node_box(start, low, archive.entries(child, count), wide)
        yield text(start + count * wide / 2, low + 66, f"leaf at {child}", 12, color="#77747f")


def strip(archive):
    """Draws the bytes, four to a cell, and below them what they are and where the pointers lead."""
    def x_of(at):
        return LEFT + CELL * at / 4

    for at, kind, words in archive.cells():
        yield box(x_of(at), STRIP, CELL, HEIGHT, COLORS[kind])
        yield text(x_of(at) + CELL / 2, STRIP + 19.5, words, 8.5 if len(words) < 3 else 7.2)
    parts = [*((leaf, "leaf") for leaf in archive.leaves), (archive.root, "root"), (archive.root_at, "map")]
    for at, name in parts:
        yield path(f"M {x_of(at):g} {STRIP - 5} V {STRIP + HEIGHT + 5}", "#33333d")
        yield text(x_of(at) + 2, STRIP - 9, at, 11, "start", "#33333d", "bold")
        yield text(x_of(at) + 7 + 8 * len(str(at)), STRIP - 9, name, 11, "start", "#77747f")
    yield path(f"M {x_of(len(archive.data)):g} {STRIP - 5} V {STRIP + HEIGHT + 5}", "#33333d")
    yield text(x_of(len(archive.data)) + 4, STRIP + 19, len(archive.data), 11, "start", "#33333d", "bold")
    pointers = [(archive.pointer_at(i), child) for i, child in enumerate(archive.children) if child is not None]
    pointers.append((archive.root_at, archive.root))
    base = STRIP + HEIGHT + 2
    for index, (at, child) in enumerate(pointers):
        start, end = x_of(at) + CELL / 2, x_of(child) + CELL / 2
        deep, turn = base + 64 - 14 * index, 9
        yield path(f"M {start:g} {base} V {deep - turn} Q {start:g} {deep} {start - turn:g} {deep} "
                   f"H {end + turn:g} Q {end:g} {deep} {end:g} {deep - turn} V {base + 5}", ends=True)


def legend():
    x = LEFT
    for kind, name in NAMES.items():
        yield box(x, TALL - 40, 16, 16, COLORS[kind])
        yield text(x + 23, TALL - 27.5, name, 12, "start")
        x += 62 + 6.6 * len(name)


def step(archive, key, level, node, entries, compared, child):
    """Draws a node of a lookup's way: which keys are compared, and to which child it goes."""
    wide, gap, top = 76, 14, 78 + 112 * level
    left = LEFT + 130 + 40 * level
    name = "root" if level == 0 else "inner node" if archive.is_inner(node) else "leaf"
    size = dict(archive.nodes())[node]
    yield text(left - 20, top + 14, name, 12, "end", "#77747f")
    yield text(left - 20, top + 30, f"at {node}", 12, "end", "#77747f")
    yield box(left - 8, top - 8, ENTRIES * wide + (ENTRIES + 1) * gap + 16, 60, "none", round_by=8)
    for index, (other, value) in enumerate(entries):
        at, seen = left + gap + index * (wide + gap), index < compared
        sign = "=" if other == key else ">" if other < key else "&lt;"
        yield box(at, top, wide, 22, COLORS["key"] if seen else COLORS["unused"])
        yield box(at, top + 22, wide, 22, COLORS["value"] if other == key else COLORS["unused"])
        yield text(at + wide / 2, top + 15.5, f"{key} {sign} {other}" if seen else other, 11 if seen else 12, weight="bold" if seen else "normal")
        yield text(at + wide / 2, top + 37.5, value, 11)
    for index in range(ENTRIES + 1) if archive.is_inner(node) else ():
        there = archive.target(archive.pointer_at(index, node))
        taken = there is not None and there == child
        x, color = left + gap / 2 + index * (wide + gap), "#b4573c" if taken else COLORS["absent"]
        yield f'<circle cx="{x:g}" cy="{top + 22}" r="4" fill="{color}" stroke="#b4573c"/>'
        if taken:
            end = left + 40 + (ENTRIES * (wide + gap) + gap) / 2
            yield path(f"M {x:g} {top + 27} V {top + 52} C {x:g} {top + 84}, {end:g} {top + 70}, {end:g} {top + 100}", ends=True)
    yield text(WIDTH - LEFT, top + 14, f"{compared} of {len(entries)} keys compared", 12, "end")
    yield text(WIDTH - LEFT, top + 30, f"{size} bytes read", 12, "end")


def lookup(archive, key):
    """Draws the way of a lookup, and below it what it reads of the archive."""
    way, sizes = list(archive.way(key)), dict(archive.nodes())
    read, low = MAP + sum(sizes[node] for node, *_ in way), 78 + 112 * len(way) + 6
    yield from head(low + 84, f"A lookup of {key} in a map of {archive.count} entries")
    yield text(LEFT, 34, f"A lookup of {key} in a map of {archive.count} entries: u32 to u32, {ENTRIES} entries a node", 16, "start", weight="bold")
    for level, one in enumerate(way):
        yield from step(archive, key, level, *one)
    said = f"It reads {read} of {len(archive.data)} bytes, by {len(way) + 1} reads: the map's own {MAP} bytes, and a node a level"
    yield text(LEFT, low - 14, said, 16, "start", weight="bold")
    wide = (WIDTH - 2 * LEFT) / len(archive.data)
    taken = {node for node, *_ in way}
    for node, size in sorted(archive.nodes()):
        yield box(LEFT + wide * node, low + 6, wide * size, 30, COLORS["pointer"] if node in taken else COLORS["unused"])
    yield box(LEFT + wide * archive.root_at, low + 6, wide * MAP, 30, COLORS["pointer"])
    for node in sorted(taken):
        yield text(LEFT + wide * node, low + 52, node, 11, "middle", "#77747f")
    yield text(LEFT + wide * archive.root_at, low + 64, "map", 11, "middle", "#77747f")
    yield "</svg>"


def head(tall, title):
    """Begins a drawing."""
    yield (f'<svg xmlns="http://www.w3.org/2000/svg" viewBox="0 0 {WIDTH} {tall}" width="{WIDTH}" height="{tall}" '
           'font-family="DejaVu Sans, Verdana, sans-serif">')
    yield f"<title>{title}</title>"
    yield ('<defs><marker id="head" viewBox="0 0 8 8" refX="7" refY="4" markerWidth="6" markerHeight="6" orient="auto">'
           '<path d="M 0 0 L 8 4 L 0 8 z" fill="#b4573c"/></marker></defs>')
    yield f'<rect width="{WIDTH}" height="{tall}" fill="#ffffff" rx="10"/>'


def drawing(archive):
    yield from head(TALL, f"A map of {archive.count} entries in an archive of {len(archive.data)} bytes")
    yield text(LEFT, 34, f"A map of {archive.count} entries: u32 to u32, {ENTRIES} entries a node", 16, "start", weight="bold")
    yield from tree(archive)
    yield text(LEFT, STRIP - 34, f"The same in {len(archive.data)} bytes, 4 to a cell", 16, "start", weight="bold")
    yield from strip(archive)
    yield from legend()
    yield "</svg>"


def main(words):
    archive = Archive(sys.stdin.buffer.read())
    print("\n".join(lookup(archive, int(words[0])) if words else drawing(archive)))


if __name__ == "__main__":
    main(sys.argv[1:])
