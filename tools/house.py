#!/usr/bin/env python3
"""Draws the crates of the libraries and the programs, and which ones each uses: tools/house.py [--check]

It reads crates.txt alone and writes docs/house.svg. A crate is of the readers' wing if it uses the one of places and paths, and of the writers' wing if it
uses that of writers, by itself or by others; at the bottom are those of neither, and at the top those of both. A line that other lines imply is left
out. With --check nothing is written, and the status is 1 if the drawing is stale, which a line says.
"""
import functools
import pathlib
import sys

from drawing import box, path, text

ROOT = pathlib.Path(__file__).resolve().parent.parent
READS, WRITES = "rkyv_btree_walk", "rkyv_btree_writer"
FACES = ("rkyv_btree", "rkyv_btree_base")
PROGRAMS = ("btreearc", "btreekv", "btreearc_lines", "btreearc_commands", "btreekv_items", "btreekv_commands", "rkyv_btree_ffi")
NEITHER, READERS, WRITERS, BOTH = "what both use", "readers", "writers", "what needs both wings"
COLORS = {NEITHER: "#e4e1ee", READERS: "#a9d5c3", WRITERS: "#f6d38b", BOTH: "#e79d86", "face": "#ffffff", "program": "#f0f0ee"}
WIDTH, WIDE, TALL, ROW, TOP = 1120, 130, 34, 74, 66
# where the boxes of a wing are, across
SPANS = {NEITHER: (60, 1060), READERS: (30, 640), WRITERS: (700, 1090), BOTH: (60, 1060)}


def uses():
    """Returns what each crate of the libraries and the programs uses of them."""
    found = {}
    for line in (ROOT / "crates.txt").read_text().splitlines():
        name, _, below = line.partition("#")[0].partition(":")
        if name.split() and (name.split()[0].startswith("rkyv_btree") or name.split()[0] in PROGRAMS):
            found[name.split()[0]] = below.split()
    return {name: [one for one in below if one in found] for name, below in found.items()}


class House:
    """The crates with their wings and rows."""

    def __init__(self, found):
        self.uses = found
        self.all_below = functools.lru_cache(None)(self.all_below)
        self.wings = {name: self.wing(name) for name in found}

    def all_below(self, name):
        """Returns all crates that a crate uses, by itself or by others."""
        return frozenset(self.uses[name]).union(*(self.all_below(one) for one in self.uses[name]))

    def wing(self, name):
        reached = self.all_below(name) | {name}
        return {(False, False): NEITHER, (True, False): READERS, (False, True): WRITERS, (True, True): BOTH}[READS in reached, WRITES in reached]

    def direct(self, name):
        """Returns the crates that a crate uses without those that others of them use."""
        return [one for one in self.uses[name] if not any(one in self.all_below(other) for other in self.uses[name])]

    def depth(self, name, names):
        """Returns the number of crates of a list on the longest way down from one of them."""
        return max((1 + self.depth(one, names) for one in self.all_below(name) if one in names), default=0)

    def rows(self):
        """Returns the row of each crate, from the bottom."""
        rows, start = {}, 0
        rooms = [name for name in self.uses if name not in FACES + PROGRAMS]
        for part in ((NEITHER,), (READERS, WRITERS), (BOTH,)):
            names = [name for name in rooms if self.wings[name] in part]
            depths = {name: self.depth(name, [one for one in names if self.wings[one] == self.wings[name]]) for name in names}
            rows |= {name: start + depth for name, depth in depths.items()}
            start += max(depths.values(), default=-1) + 1
        above = [name for name in self.uses if name in FACES + PROGRAMS]
        return rows | {name: start + self.depth(name, above) for name in above}

    def places(self):
        """Returns the middle of each crate's box, across, and its row."""
        rows, found = self.rows(), {}
        top = {name for name in rows if name in FACES + PROGRAMS}
        for row in sorted(set(rows.values())):
            for wing, (left, right) in SPANS.items():
                names = [name for name in rows if rows[name] == row and (BOTH if name in top else self.wings[name]) == wing]
                for index, name in enumerate(names):
                    found[name] = (left + (right - left) * (index + 0.5) / len(names), row)
        return found


def drawing(house):
    places = house.places()
    last = max(row for _, row in places.values())
    tall = TOP + ROW * last + TALL + 60

    def y_of(row):
        return TOP + ROW * (last - row)

    yield (f'<svg xmlns="http://www.w3.org/2000/svg" viewBox="0 0 {WIDTH} {tall}" width="{WIDTH}" height="{tall}" '
           'font-family="DejaVu Sans, Verdana, sans-serif">')
    yield "<title>The crates, by wing, and which ones each uses</title>"
    yield f'<rect width="{WIDTH}" height="{tall}" fill="#ffffff" rx="10"/>'
    yield text(30, 32, "The crates by wing, and which ones each uses", 16, "start", weight="bold")
    for name, (x, row) in places.items():
        for one in house.direct(name):
            end, low = places[one]
            start, stop = y_of(row) + TALL, y_of(low)
            bend = (stop - start) / 2
            color = "#b9b5c4" if name in FACES + PROGRAMS else "#77747f"
            yield path(f"M {x:g} {start:g} C {x:g} {start + bend:g}, {end:g} {stop - bend:g}, {end:g} {stop:g}", color)
    for name, (x, row) in places.items():
        kind = "face" if name in FACES else "program" if name in PROGRAMS else house.wings[name]
        yield box(x - WIDE / 2, y_of(row), WIDE, TALL, COLORS[kind], round_by=6)
        shown = name if name in FACES else name.removeprefix("rkyv_btree_")
        yield text(x, y_of(row) + 21.5, shown, 11.5, weight="bold" if name in FACES else "normal")
    x = 30
    for kind, color in COLORS.items():
        yield box(x, tall - 34, 16, 16, color)
        yield text(x + 23, tall - 21.5, kind, 12, "start")
        x += 60 + 7 * len(kind)
    yield "</svg>"


def main(words):
    made, file = "\n".join(drawing(House(uses()))) + "\n", ROOT / "docs" / "house.svg"
    if words != ["--check"]:
        file.write_text(made)
        return 0
    if not file.exists() or file.read_text() != made:
        print("docs/house.svg: stale; run tools/house.py")
        return 1
    return 0


if __name__ == "__main__":
    sys.exit(main(sys.argv[1:]))
