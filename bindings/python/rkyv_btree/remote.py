"""Lookups in an archive that lies elsewhere, by a few ranged reads."""

from __future__ import annotations

import asyncio
import ctypes
import http.client
import os
import pathlib
import socket
import urllib.parse
from array import array
from bisect import bisect_right
from collections import OrderedDict
from collections.abc import AsyncIterator, Awaitable, Callable, Generator, Iterable, Iterator, Mapping
from typing import Any, NamedTuple, TypeVar, Union

from . import Error, Key, Type, Value, _address_of, _bytes_of, _check_type, _checked, _is_key, _lib, _types_of, _value_of
from ._nodes import LEVELS, ROOT, Item, Layout, Text, decoded, order_of
from ._raw import (
    BAD_ITEM,
    EMPTY,
    LENGTH_MISMATCH,
    MISSING,
    NO_ROOM,
    NOT_FOUND,
    OK,
    OUT_OF_ORDER,
    OUT_OF_RANGE,
    TOO_DEEP,
    _Item,
    _Refusal,
)
from .top import Top

__all__ = ["AsyncRemote", "Changed", "Remote"]

_T = TypeVar("_T")
# What yields ranges, as pairs of a position and a length, and is sent the bytes of each.
_Fetching = Generator[list[tuple[int, int]], list[bytes], _T]
_Top = Union[bytes, str, os.PathLike, Top, Iterable[tuple[int, bytes]]]

# How many bytes before a missing part go with it into a piece, where they are at hand.
_BEFORE = 2048
# How many of the first bytes are read for a header.
_FIRST = 4096


class Changed(OSError):
    """The object isn't the one that was opened."""


class _Pieces:
    """Pieces of an archive that are kept, by their positions."""

    def __init__(self, pieces: Iterable[tuple[int, bytes]]) -> None:
        self.pieces = sorted((pos, bytes(data)) for pos, data in pieces)
        self.starts = [pos for pos, _ in self.pieces]

    def __len__(self) -> int:
        return len(self.pieces)

    def around(self, pos: int, length: int) -> Union[tuple[int, bytes], None]:
        """Returns a part with some bytes before it, if the last piece that begins at or before `pos` has all of the part."""
        index = bisect_right(self.starts, pos) - 1
        if index < 0:
            return None
        start, data = self.pieces[index]
        if pos + length > start + len(data):
            return None
        skipped = max(pos - _BEFORE - start, 0)
        return start + skipped, data[skipped : pos + length - start]


class _Search:
    """The lookup of one key: the pieces that it has read so far."""

    def __init__(self, remote: _Lookups, key: Key) -> None:
        self.remote, self.key = remote, key
        self.text = _bytes_of(key)
        # Of each piece its position, where it starts in the data, and how many bytes it has.
        self.pieces, self.data = array("I"), b""
        self.value: Union[Value, None] = None

    def add(self, pos: int, data: bytes) -> None:
        """Adds a piece, of the archive's bytes from `pos` on."""
        self.pieces.extend((pos, len(self.data), len(data)))
        self.data += data

    def step(self) -> Union[tuple[int, int], None]:
        """Looks the key up in the pieces. Returns the part that is missing, or None at the end, when `value` is set if there is one."""
        remote, value, why = self.remote, _Item(), _Refusal()
        pieces, numbers = self.pieces.buffer_info()
        where = (remote._number, remote._size, pieces, numbers // 3, self.data, len(self.data))
        while True:
            room = remote._room
            if self.text is not None:
                code = _lib.find_text_in(*where, self.text, len(self.text), room, len(room), value, why)
            else:
                code = _lib.find_number_in(*where, self.key % 2**64, room, len(room), value, why)
            if code != NO_ROOM:
                break
            remote._room = ctypes.create_string_buffer(why.found)
        if code == OK:
            self.value = _value_of(room, value, remote._types[1])
            return None
        if code in (NOT_FOUND, BAD_ITEM):
            return None
        if code == MISSING:
            return why.at, why.found
        raise Error(code, why.at, why.found, why.allowed)


class _Subtree(NamedTuple):
    """A subtree that a walk comes to: where its node is, and how many levels are above it."""

    pos: int
    level: int


_Task = Union[_Subtree, tuple[Key, Item]]


class _Walk:
    """How far the walk over a range has come: what is still to do, in reverse, and the last key."""

    def __init__(self, low: Union[Key, None], high: Union[Key, None]) -> None:
        self.low, self.high = (None if bound is None else order_of(bound) for bound in (low, high))
        self.whole = low is None and high is None
        self.stack: Union[list[_Task], None] = None
        self.last: Union[int, bytes, None] = None
        self.count = self.passed = 0

    def ends_before(self, key: Key) -> bool:
        """Returns whether the walk ends before a key. Raises Error if the key isn't greater than the last one."""
        order = order_of(key)
        if self.last is not None and order <= self.last:
            raise Error(OUT_OF_ORDER, found=self.passed)
        if self.high is not None and order >= self.high:
            self.stack = []
            return True
        self.last = order
        self.passed += 1
        return False


class _Lookups:
    """The lookups of an archive that lies elsewhere, without the fetching: a generator yields the ranges that it needs next."""

    def __init__(
        self, size: int, key_type: Type, value_type: Union[Type, None], block: int, cache: int, top: Union[_Top, None]
    ) -> None:
        if block < 1:
            raise ValueError("a block has at least one byte")
        self._size, (self._number, *self._types) = size, _types_of(key_type, value_type)
        self._layout = Layout(*self._types, size)
        self._block, self._most = block, max(cache // block, 2)
        self._blocks: OrderedDict[int, bytes] = OrderedDict()
        self._top = _Pieces(self._pieces_of(top))
        # What a lookup needs beside the pieces. It is as long as the longest value so far.
        self._room = ctypes.create_string_buffer(4096)

    def _pieces_of(self, top: Union[_Top, None]) -> Iterable[tuple[int, bytes]]:
        """Returns the pieces that are given, or those of a sidecar, of which the archive's type and size are compared."""
        if isinstance(top, (str, os.PathLike)):
            top = pathlib.Path(top).read_bytes()
        if isinstance(top, bytes):
            top = Top.from_bytes(top)
        if not isinstance(top, Top):
            return top or ()
        if (top.number, top.size) != (self._number, self._size):
            raise ValueError("the sidecar is that of another archive: its type or its size differs")
        return top.pieces

    def _is_key(self, key: object) -> bool:
        return _is_key(key, self._types[0])

    def _find(self, keys: Iterable[Key]) -> _Fetching[dict[Key, Value]]:
        """Returns the values of the keys that are found. All lookups go on together, so that each block is fetched once for all of them."""
        found: dict[Key, Value] = {}
        searches = [_Search(self, key) for key in dict.fromkeys(keys) if self._is_key(key)]
        while searches:
            waiting: list[tuple[_Search, tuple[int, int]]] = []
            for search in searches:
                part = search.step()
                while part is not None and (kept := self._top.around(*part)) is not None:
                    search.add(*kept)
                    part = search.step()
                if part is not None:
                    waiting.append((search, part))
                elif search.value is not None:
                    found[search.key] = search.value
            blocks = yield from self._read({number for _, part in waiting for number in self._blocks_of(*part)})
            for search, part in waiting:
                search.add(*self._around(blocks, *part))
            searches = [search for search, _ in waiting]
        return found

    def _values(self, keys: Iterable[Key]) -> _Fetching[dict[Key, Value]]:
        """Returns what `_find` does. Raises TypeError for a set."""
        if self._types[1] == EMPTY:
            raise TypeError("a set has no values: `contains` looks a key up")
        return self._find(keys)

    def _around(self, blocks: Mapping[int, bytes], pos: int, length: int) -> tuple[int, bytes]:
        """Returns a part with those bytes before it that its blocks have, since what a node points to lies before it."""
        numbers = self._blocks_of(pos, length)
        if numbers[0] - 1 in blocks:
            numbers = range(numbers[0] - 1, numbers[-1] + 1)
        data = blocks[numbers[0]] if len(numbers) == 1 else b"".join(blocks[number] for number in numbers)
        start = numbers[0] * self._block
        skipped = max(pos - _BEFORE - start, 0)
        return start + skipped, data[skipped : pos + length - start]

    def _blocks_of(self, pos: int, length: int) -> range:
        if pos < 0 or pos + length > self._size:
            raise Error(OUT_OF_RANGE, pos)
        return range(pos // self._block, (pos + max(length, 1) - 1) // self._block + 1)

    def _read(self, wanted: set[int]) -> _Fetching[dict[int, bytes]]:
        """Returns blocks. Those that aren't kept are fetched, and contiguous ones of them by one request."""
        blocks = {number: self._blocks[number] for number in wanted if number in self._blocks}
        # A text without bytes can begin where the archive ends.
        past = {number: b"" for number in wanted if number * self._block >= self._size}
        lacking = sorted(wanted - blocks.keys() - past.keys())
        if self._top:
            # The lookup goes on in the subtree of the node, which lies right before it.
            lacking = sorted({*lacking, *(number - 1 for number in lacking if number and number - 1 not in self._blocks)})
        runs: list[list[int]] = []
        for number in lacking:
            if runs and runs[-1][-1] == number - 1:
                runs[-1].append(number)
            else:
                runs.append([number])
        ranges = [(run[0] * self._block, min((run[-1] + 1) * self._block, self._size) - run[0] * self._block) for run in runs]
        for run, (pos, length), data in zip(runs, ranges, (yield ranges) if ranges else ()):
            if len(data) != length:
                raise OSError(f"{length} bytes from position {pos} on were asked for, and {len(data)} came")
            for at, number in enumerate(run):
                blocks[number] = bytes(data[at * self._block : (at + 1) * self._block])
        self._keep(blocks)
        return blocks | past

    def _keep(self, blocks: Mapping[int, bytes]) -> None:
        for number in sorted(blocks):
            self._blocks[number] = blocks[number]
            self._blocks.move_to_end(number)
        while len(self._blocks) > self._most:
            self._blocks.popitem(last=False)

    def _part(self, pos: int, length: int) -> _Fetching[bytes]:
        """Returns a part of the archive."""
        kept = self._top.around(pos, length)
        if kept is None:
            blocks = yield from self._read(set(self._blocks_of(pos, length)))
            kept = self._around(blocks, pos, length)
        return kept[1][pos - kept[0] :]

    def _first_checked(self) -> _Fetching[None]:
        """Raises Error if the first bytes are the header of another type or another version."""
        first = memoryview((yield from self._part(0, min(_FIRST, self._size))))
        _check_type(self._number, first, _address_of(first))

    def _start(self, low: Union[Key, None], high: Union[Key, None]) -> _Walk:
        """Returns a walk over the entries from `low` on and before `high`."""
        for bound in (low, high):
            if bound is not None:
                _checked(bound, self._types[0], "a bound of a range")
        return _Walk(low, high)

    def _next(self, walk: _Walk) -> _Fetching[list[Any]]:
        """Returns the next entries of a walk, of a set its keys, and none at its end."""
        if walk.stack is None:
            root, count = self._layout.root((yield from self._part(self._size - ROOT.size, ROOT.size)))
            walk.stack, walk.count = [_Subtree(root, 0)] if count else [], count
        while walk.stack:
            task = walk.stack.pop()
            if isinstance(task, _Subtree):
                walk.stack += reversed((yield from self._within(task, walk.low)))
                continue
            key, item = task
            if walk.ends_before(key):
                return []
            if self._types[1] == EMPTY:
                return [key]
            value = item if not isinstance(item, Text) else (yield from self._text(item, self._types[1]))
            return [(key, value)]
        if walk.whole and walk.passed != walk.count:
            raise Error(LENGTH_MISMATCH, found=walk.passed, allowed=walk.count)
        return []

    def _within(self, subtree: _Subtree, low: Union[int, bytes, None]) -> _Fetching[list[_Task]]:
        """Returns what comes in a node from the first key on that isn't before `low`: its children, and its entries between them."""
        pos, level = self._layout.checked(subtree.pos), subtree.level
        if level == LEVELS:
            raise Error(TOO_DEEP, pos)
        data = yield from self._part(pos, self._layout.leaf_size)
        size = self._layout.size_of(data[0], pos)
        node = self._layout.node(pos, data if len(data) == size else (yield from self._part(pos, size)))
        tasks: list[_Task] = []
        for index, item in enumerate(node.keys):
            key = item if not isinstance(item, Text) else (yield from self._text(item, self._types[0]))
            if low is not None and order_of(key) < low:
                continue
            if node.children and (child := node.children[index]) is not None:
                tasks.append(_Subtree(child, level + 1))
            tasks.append((key, node.values[index]))
        if node.children and (child := node.children[-1]) is not None:
            tasks.append(_Subtree(child, level + 1))
        return tasks

    def _text(self, text: Text, kind: Type) -> _Fetching[Union[str, bytes]]:
        data = yield from self._part(*self._layout.text_at(text))
        return decoded(text, data) if kind == "text" else data


class Remote(_Lookups):
    """The map of an archive that lies elsewhere. `fetch(position, length)` returns as many of its bytes, which are `size` in all. It is a set
    if `value_type` is None.

    A lookup validates what it reads, and so promises what `find` does. What it reads is fetched in blocks of `block` bytes, of which
    those last used are kept, up to `cache` bytes and at least two. `top` is a sidecar, as `rkyv_btree.top.write_top` writes it: its bytes, or the path of
    its file. It can also be pieces of the archive as pairs of a position and bytes. With it a lookup fetches less. One thread uses a map
    at a time.

    All bytes must be those of one archive. If the object can change, `fetch` must raise an exception when it has. `open_url` does so.
    """

    def __init__(
        self,
        fetch: Callable[[int, int], bytes],
        size: int,
        key_type: Type,
        value_type: Union[Type, None],
        block: int = 16384,
        cache: int = 8 << 20,
        top: Union[_Top, None] = None,
    ) -> None:
        super().__init__(size, key_type, value_type, block, cache, top)
        self._fetch = fetch
        self._connection: Union[http.client.HTTPConnection, None] = None

    @classmethod
    def open_url(
        cls, url: str, key_type: Type, value_type: Union[Type, None], timeout: float = 60, **settings: Any
    ) -> Remote:
        """Opens an archive behind HTTP, whose server takes ranges and gives the object an ETag.

        Each request names the ETag of the first. If the object is another one, a lookup raises Changed. After `timeout` seconds without
        a byte it raises TimeoutError. After an error the next lookup opens a new connection. A sidecar that has an ETag must have that
        one. One that has none must be of this object: name both by the archive's SHA-256.
        """
        top = settings.get("top")
        if isinstance(top, (str, os.PathLike)):
            top = pathlib.Path(top).read_bytes()
        if isinstance(top, bytes):
            settings["top"] = top = Top.from_bytes(top)
        connection, fetch, size, tag = _object_at(url, timeout)
        try:
            if isinstance(top, Top) and top.etag not in ("", tag):
                raise Changed(f"{url}: the sidecar is of the object with the ETag {top.etag}, and not {tag}")
            self = cls(fetch, size, key_type, value_type, **settings)
        except BaseException:
            connection.close()
            raise
        self._connection = connection
        return self

    def close(self) -> None:
        """Closes the connection that `open_url` has opened. A later lookup opens another one."""
        if self._connection is not None:
            self._connection.close()

    def __enter__(self) -> Remote:
        """Returns the map, which is closed at the end of the `with`."""
        return self

    def __exit__(self, *error: object) -> None:
        self.close()

    def check_type(self) -> None:
        """Reads the header of a typed file. Raises Error if it is that of another type or another version, and what `fetch` raises.

        No other call reads a header. Up to 4096 bytes are read for it; one that is longer counts as none, as an untyped archive has.
        """
        self._run(self._first_checked())

    def get(self, key: Key, default: Any = None) -> Any:
        """Returns the value of a key, or `default`. Raises Error for a fault in what the lookup reads, and what `fetch` raises."""
        return self.get_many([key]).get(key, default)

    def get_many(self, keys: Iterable[Key]) -> dict[Key, Value]:
        """Returns the values of those keys that are found. All lookups go on together: each block is fetched once for all of them."""
        return self._run(self._values(keys))

    def contains(self, key: Key) -> bool:
        """Returns whether a set or a map has a key. Raises as `get` does.

            >>> from rkyv_btree import build_set
            >>> data = build_set("text", ["apple", "pear"])
            >>> fruit = Remote(lambda pos, length: data[pos : pos + length], len(data), "text", None)
            >>> fruit.contains("pear"), fruit.contains_many(["fig", "pear"]), list(fruit.range("b"))
            (True, {'pear'}, ['pear'])
        """
        return bool(self.contains_many([key]))

    def contains_many(self, keys: Iterable[Key]) -> set[Key]:
        """Returns those of the keys that a set or a map has. All lookups go on together."""
        return set(self._run(self._find(keys)))

    def _run(self, fetching: _Fetching[_T]) -> _T:
        """Fetches what is yielded, and returns the result."""
        data: Any = None
        while True:
            try:
                ranges = fetching.send(data)
            except StopIteration as end:
                return end.value
            data = [self._fetch(pos, length) for pos, length in ranges]

    def range(self, low: Union[Key, None] = None, high: Union[Key, None] = None) -> Iterator[Any]:
        """Returns an iterator over the entries from the first key on that isn't before `low`, up to before `high`. Of a set it gives keys.

        It validates the nodes that it reads, and that the keys increase. No contract says so: it is tested only. It raises Error for a
        fault, and what `fetch` raises. It takes one request for each block, so a long range wants a larger `block`.
        """
        walk = self._start(low, high)
        while entries := self._run(self._next(walk)):
            yield from entries


class AsyncRemote(_Lookups):
    """The same with an asynchronous `fetch(position, length)`. Ranges that don't depend on each other are fetched at the same time.

    Lookups of several tasks can go on at once, on one event loop.
    """

    def __init__(
        self,
        fetch: Callable[[int, int], Awaitable[bytes]],
        size: int,
        key_type: Type,
        value_type: Union[Type, None],
        block: int = 16384,
        cache: int = 8 << 20,
        top: Union[_Top, None] = None,
    ) -> None:
        super().__init__(size, key_type, value_type, block, cache, top)
        self._fetch = fetch

    async def check_type(self) -> None:
        """Reads the header of a typed file, and raises as `Remote.check_type` does."""
        await self._run(self._first_checked())

    async def get(self, key: Key, default: Any = None) -> Any:
        """Returns the value of a key, or `default`. Raises as `Remote.get` does."""
        return (await self.get_many([key])).get(key, default)

    async def get_many(self, keys: Iterable[Key]) -> dict[Key, Value]:
        """Returns the values of those keys that are found, as `Remote.get_many` does."""
        return await self._run(self._values(keys))

    async def contains(self, key: Key) -> bool:
        """Returns whether a set or a map has a key. Raises as `Remote.get` does."""
        return bool(await self.contains_many([key]))

    async def contains_many(self, keys: Iterable[Key]) -> set[Key]:
        """Returns those of the keys that a set or a map has."""
        return set(await self._run(self._find(keys)))

    async def _run(self, fetching: _Fetching[_T]) -> _T:
        data: Any = None
        while True:
            try:
                ranges = fetching.send(data)
            except StopIteration as end:
                return end.value
            data = await asyncio.gather(*(self._fetch(pos, length) for pos, length in ranges))

    async def range(self, low: Union[Key, None] = None, high: Union[Key, None] = None) -> AsyncIterator[Any]:
        """Returns an asynchronous iterator over the entries of a range, as `Remote.range` does."""
        walk = self._start(low, high)
        while entries := await self._run(self._next(walk)):
            for entry in entries:
                yield entry


def _object_at(url: str, timeout: float) -> tuple[http.client.HTTPConnection, Callable[[int, int], bytes], int, str]:
    """Returns a connection, how the object of an URL is read over it, how many bytes it has, and its ETag."""
    where = urllib.parse.urlsplit(url)
    kinds = {"http": http.client.HTTPConnection, "https": http.client.HTTPSConnection}
    if where.scheme not in kinds or not where.hostname:
        raise ValueError(f"{url!r} is no URL of http or https")
    path = urllib.parse.urlunsplit(("", "", where.path or "/", where.query, ""))
    connection = kinds[where.scheme](where.hostname, where.port, timeout=timeout)

    def asked(method: str, headers: dict[str, str]) -> tuple[http.client.HTTPResponse, bytes]:
        for again in (True, False):
            try:
                connection.request(method, path, headers=headers)
                response = connection.getresponse()
                return response, response.read()
            except (http.client.RemoteDisconnected, ConnectionError):
                connection.close()
                if not again:
                    raise
            except http.client.HTTPException as error:
                connection.close()
                raise OSError(f"{url}: the answer isn't whole: {error!r}") from error
            except socket.timeout as error:
                connection.close()
                raise TimeoutError(f"{url}: no byte came for {timeout} seconds") from error
            except OSError:
                connection.close()
                raise
        raise AssertionError

    head, _ = asked("HEAD", {})
    tag, length = head.headers.get("ETag"), head.headers.get("Content-Length")
    if head.status != 200 or length is None:
        connection.close()
        raise OSError(f"{url}: status {head.status}")
    if tag is None or tag.startswith("W/"):
        connection.close()
        raise OSError(f"{url}: the object has no strong ETag, so it isn't known whether it changes")
    size = int(length)

    def fetch(pos: int, count: int) -> bytes:
        wanted = {"Range": f"bytes={pos}-{pos + count - 1}", "If-Match": tag}
        response, data = asked("GET", wanted)
        if response.status == 412 or response.status == 206 and response.headers.get("ETag") != tag:
            connection.close()
            raise Changed(f"{url}: the object has changed")
        if response.status != 206 or response.headers.get("Content-Range") != f"bytes {pos}-{pos + count - 1}/{size}":
            raise OSError(f"{url}: status {response.status}, without the range that was asked for")
        return data

    return connection, fetch, size, tag
