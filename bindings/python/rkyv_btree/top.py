"""Sidecars: the first levels of an archive's tree in a small file of their own, with which a lookup elsewhere is one request."""

from __future__ import annotations

import hashlib
import mmap
import os
import pathlib
import struct
from collections.abc import Iterable
from typing import Any, NamedTuple, Union

from . import Type, _types_of
from ._nodes import ROOT, Layout, Text

__all__ = ["Top", "top_of", "write_top"]

_MAGIC = b"btreetop"
# The magic, the version, the number of the type, the archive's size and SHA-256, the bytes of the ETag, and the number of pieces.
_HEADER = struct.Struct("<8sIIQ32sII")
_PIECE = struct.Struct("<II")
_DIGEST = 32
# Parts with fewer bytes than this between them are one piece.
_GAP = 64


class Top(NamedTuple):
    """A sidecar that was read: of which archive it is, and its pieces as pairs of a position and bytes."""

    number: int
    size: int
    sha256: bytes
    etag: str
    pieces: list[tuple[int, bytes]]

    @classmethod
    def from_bytes(cls, data: bytes) -> Top:
        """Reads a sidecar. Raises ValueError if it isn't whole, or is none."""
        body, digest = data[:-_DIGEST], data[-_DIGEST:]
        if data[: len(_MAGIC)] != _MAGIC or len(body) < _HEADER.size:
            raise ValueError("the bytes are no sidecar")
        _, version, number, size, sha256, etag_len, count = _HEADER.unpack_from(body)
        if version != 1:
            raise ValueError(f"a sidecar of version {version} isn't known")
        if hashlib.sha256(body).digest() != digest:
            raise ValueError("the sidecar isn't whole: its checksum differs")
        places = _HEADER.size + etag_len
        etag, at, pieces = body[_HEADER.size : places].decode(), places + _PIECE.size * count, []
        for pos, length in _PIECE.iter_unpack(body[places:at]):
            pieces.append((pos, body[at : at + length]))
            at += length
        return cls(number, size, sha256, etag, pieces)

    def to_bytes(self) -> bytes:
        """Returns the bytes of the sidecar."""
        etag = self.etag.encode()
        header = _HEADER.pack(_MAGIC, 1, self.number, self.size, self.sha256, len(etag), len(self.pieces))
        places = [_PIECE.pack(pos, len(data)) for pos, data in self.pieces]
        body = b"".join([header, etag, *places, *(data for _, data in self.pieces)])
        return body + hashlib.sha256(body).digest()


def _joined(parts: Iterable[tuple[int, int]]) -> list[tuple[int, int]]:
    """Returns the parts in order, as pairs of a start and an end, and those that are close as one."""
    joined: list[tuple[int, int]] = []
    for start, end in sorted(parts):
        if joined and start < joined[-1][1] + _GAP:
            joined[-1] = (joined[-1][0], max(joined[-1][1], end))
        else:
            joined.append((start, end))
    return joined


def _parts(data: Any, layout: Layout, levels: int) -> set[tuple[int, int]]:
    """Returns where the nodes of the first levels and the texts of their keys lie, and the archive's last eight bytes."""
    parts = {(layout.size - ROOT.size, layout.size)}
    root, count = layout.root(data[layout.size - ROOT.size : layout.size])
    level = [root] if count else []
    for _ in range(levels):
        below = []
        for pos in map(layout.checked, level):
            end = pos + layout.size_of(data[pos], pos)
            if (pos, end) in parts:
                continue
            parts.add((pos, end))
            node = layout.node(pos, data[pos:end])
            for start, length in (layout.text_at(key) for key in node.keys if isinstance(key, Text)):
                parts.add((start, start + length))
            below += [child for child in node.children if child is not None]
        level = below
    return parts


def top_of(data: Any, key_type: Type, value_type: Union[Type, None], levels: int = 5, etag: str = "") -> bytes:
    """Returns the sidecar of an archive: its nodes of the first `levels` levels, and the texts or bytes of their keys. No value's are in it.
    The archive is that of a set if `value_type` is None.

    `data` is `bytes` or an `mmap`. Raises Error for a fault in a node that is read. `etag` is that of the object which the archive will be
    behind HTTP, if it is known: then `Remote.open_url` compares it.
    """
    if levels < 1:
        raise ValueError("a sidecar has at least one level")
    number, *types = _types_of(key_type, value_type)
    layout = Layout(*types, len(data))
    if layout.size < ROOT.size:
        raise ValueError("an archive has at least eight bytes")
    pieces = [(start, bytes(data[start:end])) for start, end in _joined(_parts(data, layout, levels))]
    return Top(number, layout.size, hashlib.sha256(data).digest(), etag, pieces).to_bytes()


def write_top(
    path: Union[str, os.PathLike], key_type: Type, value_type: Union[Type, None], levels: int = 5, etag: str = ""
) -> pathlib.Path:
    """Writes the sidecar of an archive's file beside it, with `.top` after its name, and returns its path. Raises as `top_of` does.

    The sidecar is whole or isn't there: it gets its name when it is written.
    """
    beside = pathlib.Path(f"{os.fspath(path)}.top")
    with open(path, "rb") as file, mmap.mmap(file.fileno(), 0, access=mmap.ACCESS_READ) as data:
        top = top_of(data, key_type, value_type, levels, etag)
    part = beside.with_name(f"{beside.name}.{os.getpid()}.part")
    try:
        part.write_bytes(top)
        os.replace(part, beside)
    finally:
        part.unlink(missing_ok=True)
    return beside
