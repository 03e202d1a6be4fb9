#!/usr/bin/env python3
"""Prints the lines that `btreekv explain` must print of an archive of texts on standard input, or with the argument KEY those of
`btreekv explain --key KEY`.

It reads the archive as docs/FORMAT.md defines it: it collects all parts in any order, sorts them by position, and calls what is between them
unused. The archive must be valid, and no two of its parts may share bytes.
"""
import struct
import sys

ENTRIES, NODE_HEAD, SLOT = 5, 4, 8
VALUES = NODE_HEAD + ENTRIES * SLOT
AFTER = VALUES + ENTRIES * SLOT


def number(archive, pos, form="<I"):
    return struct.unpack_from(form, archive, pos)[0]


def target(archive, pos):
    return pos + number(archive, pos, "<i")


def texts_of(archive, node, count):
    """Yields the parts of the keys and values of a node: their slots, and their bytes."""
    for name, first in (("key", NODE_HEAD), ("value", VALUES)):
        for index in range(count):
            slot = node + first + SLOT * index
            start, length = target(archive, slot), number(archive, slot + 4)
            yield slot, 4, f"{name} {index}: its bytes are at {start:08x}"
            yield slot + 4, 4, f"{name} {index}: it has {length} bytes"
            yield start, length, f"{name} {index} of the node at {node:08x}"


def parts_of(archive):
    """Yields position, length and meaning of each part of the archive, in any order."""
    if archive.startswith(b"rkyvbt\x01\x00"):
        length = number(archive, 8)
        yield 0, 8, "header of a typed file"
        yield 8, 4, f"the name of the type has {length} bytes"
        yield 12, length, "the name of the type"
    pos = len(archive) - 8
    count = number(archive, pos + 4)
    yield pos + 4, 4, f"{count} entries in the map"
    # where a pointer is, and what it points to
    pointers = [(pos, "root node", count > 0)]
    while pointers:
        slot, name, is_there = pointers.pop()
        node = target(archive, slot)
        yield slot, 4, f"{name}: it is at {node:08x}" if is_there else f"{name}: there is none"
        if not is_there:
            continue
        if archive[node] == 0:
            held = number(archive, node + AFTER)
            yield node, 1, "leaf"
            yield node + AFTER, 4, f"{held} entries in the leaf"
            yield from texts_of(archive, node, held)
        else:
            yield node, 1, "inner node"
            yield from texts_of(archive, node, ENTRIES)
            for index in range(ENTRIES + 1):
                child = node + AFTER + 4 * index
                pointers.append((child, f"child {index}", number(archive, child) != 1))


def lines_of(archive):
    done = 0
    for pos, length, meaning in [*sorted(it for it in parts_of(archive) if it[1]), (len(archive), 0, "")]:
        for start, end, what in ((done, pos, "unused"), (pos, pos + length, meaning)):
            for at in range(start, end, 8):
                row = archive[at:min(at + 8, end)]
                yield f"{at:08x}  {row.hex(' '):<23}  {what if at == start else ''}"
        done = pos + length


def text_in(archive, slot):
    start, length = target(archive, slot), number(archive, slot + 4)
    return archive[start:start + length]


def escaped(text):
    return text.decode().replace("\\", "\\\\").replace("\t", "\\t").replace("\n", "\\n")


def way_of(archive, key):
    """Yields the lines of the lookup of a key: the keys of each node before it, and the next one."""
    pos, margin = len(archive) - 8, " " * 10
    node = target(archive, pos) if number(archive, pos + 4) else None
    while node is not None:
        is_leaf = archive[node] == 0
        count = number(archive, node + AFTER) if is_leaf else ENTRIES
        yield f"{node:08x}  {'leaf' if is_leaf else 'inner node'} of {count} entries"
        keys = [text_in(archive, node + NODE_HEAD + SLOT * index) for index in range(count)]
        index = next((index for index, held in enumerate(keys) if held >= key), count)
        for at, held in enumerate(keys[:index + 1]):
            how = "less" if at < index else "equal" if held == key else "greater"
            yield f"{margin}key {at} is {how}: {escaped(held)}"
        if index < count and keys[index] == key:
            yield f"{margin}its value: {escaped(text_in(archive, node + VALUES + SLOT * index))}"
            return
        child = node + AFTER + 4 * index
        node = None if is_leaf or number(archive, child) == 1 else target(archive, child)
        yield f"{margin}the key isn't there" if node is None else f"{margin}child {index} is at {node:08x}"


if __name__ == "__main__":
    archive = sys.stdin.buffer.read()
    lines = way_of(archive, sys.argv[1].encode()) if len(sys.argv) > 1 else lines_of(archive)
    for line in lines:
        print(line)
