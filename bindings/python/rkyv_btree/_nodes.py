"""The nodes of an archive, as docs/FORMAT.md lays them out, for code that reads some of its bytes."""

from __future__ import annotations

import struct
from typing import NamedTuple, Union

from . import Error, Key, Type
from ._raw import BAD_ENTRY, BAD_KIND, EMPTY, INVALID_LENGTH, LAYOUTS, MISALIGNED, OUT_OF_RANGE

ENTRIES = 5
# More levels than any archive has that the library opens.
LEVELS = 32
ROOT = struct.Struct("<iI")
# The offset of a pointer to nothing.
_ABSENT = 1


class Text(NamedTuple):
    """Where a text or bytes lie, and how many bytes they are."""

    start: int
    len: int


Item = Union[int, Text]


class Node(NamedTuple):
    """A node: its keys and values, and the positions of its children, or None for a child that is absent. A leaf has no children."""

    keys: list[Item]
    values: list[Item]
    children: list[Union[int, None]]


def _up(number: int, step: int) -> int:
    return -(-number // step) * step


class Layout:
    """Where the parts of a node are in an archive of `size` bytes."""

    def __init__(self, key_type: Type, value_type: Type, size: int) -> None:
        self.types, self.size = (key_type, value_type), size
        (key_size, key_align, _), (value_size, value_align, _) = LAYOUTS[key_type], LAYOUTS[value_type]
        both = max(key_align, value_align)
        self.keys_at = _up(1, key_align)
        self.values_at = _up(self.keys_at + ENTRIES * key_size, value_align)
        self.len_at = _up(_up(self.values_at + ENTRIES * value_size, both), 4)
        self.align = max(4, both)
        self.leaf_size = _up(self.len_at + 4, self.align)
        self.inner_size = _up(self.len_at + 4 * ENTRIES + 4, self.align)

    def root(self, own: bytes) -> tuple[int, int]:
        """Returns the position of the root node and the number of entries, of the archive's last eight bytes."""
        offset, count = ROOT.unpack(own)
        return self.size - ROOT.size + offset, count

    def checked(self, pos: int) -> int:
        """Returns a position at which a leaf has room. Raises Error for another one."""
        if not 0 <= pos <= self.size - self.leaf_size:
            raise Error(OUT_OF_RANGE, pos)
        if pos % self.align:
            raise Error(MISALIGNED, pos)
        return pos

    def size_of(self, kind: int, pos: int) -> int:
        """Returns how many bytes a node has. Raises Error if its first byte is no kind, or if the archive ends before it does."""
        if kind not in (0, 1):
            raise Error(BAD_KIND, pos, kind, 1)
        size = self.inner_size if kind else self.leaf_size
        if pos + size > self.size:
            raise Error(OUT_OF_RANGE, pos)
        return size

    def node(self, pos: int, data: bytes) -> Node:
        """Returns the node whose bytes are `data`. Raises Error if its number of entries or the place of a text can't be."""
        if data[0]:
            count, at = ENTRIES, range(self.len_at, self.len_at + 4 * ENTRIES + 4, 4)
            offsets = [(place, struct.unpack_from("<i", data, place)[0]) for place in at]
            children = [None if offset == _ABSENT else pos + place + offset for place, offset in offsets]
        else:
            (count,), children = struct.unpack_from("<I", data, self.len_at), []
            if count > ENTRIES:
                raise Error(INVALID_LENGTH, found=count, allowed=ENTRIES)
        keys = self._items(self.types[0], pos, data, self.keys_at)
        values = self._items(self.types[1], pos, data, self.values_at)
        return Node(keys[:count], values[:count], children)

    def _items(self, kind: Type, pos: int, data: bytes, at: int) -> list[Item]:
        if kind == EMPTY:
            return [0] * ENTRIES
        if kind not in ("text", "bytes"):
            return list(struct.unpack_from(f"<{ENTRIES}{LAYOUTS[kind][2]}", data, at))
        fields = struct.unpack_from("<" + "iI" * ENTRIES, data, at)
        return [Text(pos + at + 8 * i + fields[2 * i], fields[2 * i + 1]) for i in range(ENTRIES)]

    def text_at(self, text: Text) -> tuple[int, int]:
        """Returns the part of the archive that a text is, or bytes. Raises Error if it is outside."""
        if not 0 <= text.start <= self.size - text.len:
            raise Error(OUT_OF_RANGE, text.start)
        return text.start, text.len


def decoded(text: Text, data: bytes) -> str:
    """Returns a text. Raises Error if its bytes aren't UTF-8."""
    try:
        return data.decode()
    except UnicodeDecodeError:
        raise Error(BAD_ENTRY, text.start) from None


def order_of(key: Key) -> Union[int, bytes]:
    """Returns what is compared of a key: a number, bytes, or the bytes of a text."""
    return key.encode("utf-8", "surrogatepass") if isinstance(key, str) else key
