"""Data sets past one archive: many archives, called shards, in a folder, and an index archive that leads to them.

    shards/00000-<SHA-256>        an archive, and its sidecar under the same name with .top
    index/<SHA-256>               an archive: the first key of each shard to its name, size and number of entries
    CURRENT                       the name of the index, and the types of keys and values

CURRENT is written last, in one rename or put. So a reader has the data set that was published last, whatever happens to a writer. The
order of keys is that of numbers, or of the bytes of a text in UTF-8.

    >>> import tempfile
    >>> folder = tempfile.mkdtemp()
    >>> write_shards([("apple", 3), ("pear", 5)], folder, "text", "u32").entries
    2
    >>> with Shards(folder) as prices:
    ...     prices.get("pear"), list(prices.range("a", "b"))
    (5, [('apple', 3)])
"""

from __future__ import annotations

import hashlib
import http.client
import io
import json
import os
import pathlib
import time
from bisect import bisect_right
from collections import OrderedDict
from collections.abc import Callable, Iterable, Iterator
from itertools import chain, islice
from typing import Any, NamedTuple, Union

from . import Error, Key, Map, Type, Value, _is_key, build
from ._nodes import order_of
from ._raw import NOT_INCREASING
from .remote import Remote, _object_at
from .top import top_of

__all__ = ["Published", "Shard", "Shards", "gc", "publish", "write_shard", "write_shards"]

_VERSION = 1
_CURRENT = "CURRENT"
_FOLDERS = ("shards", "index")
# For how many seconds a server may send no byte.
_TIMEOUT = 60
# Where a put of an object is whole or not there. Elsewhere a file is written under another name, and renamed.
_PUTS = {"s3", "s3a", "gs", "gcs", "abfs", "abfss", "az", "adl", "memory"}
_Folder = Union[str, os.PathLike]


class _Local:
    """A folder of this machine."""

    def __init__(self, path: _Folder) -> None:
        self.path = pathlib.Path(path)

    def read(self, name: str) -> bytes:
        return (self.path / name).read_bytes()

    def read_range(self, name: str, pos: int, length: int) -> bytes:
        with open(self.path / name, "rb") as file:
            file.seek(pos)
            return file.read(length)

    def write(self, name: str, data: bytes) -> None:
        """Writes a file, which gets its name when all of it is on the disk."""
        path = self.path / name
        path.parent.mkdir(parents=True, exist_ok=True)
        part = path.with_name(f"{path.name}.{os.getpid()}.part")
        with open(part, "wb") as file:
            file.write(data)
            file.flush()
            os.fsync(file.fileno())
        os.replace(part, path)
        parent = os.open(path.parent, os.O_RDONLY)
        try:
            os.fsync(parent)
        finally:
            os.close(parent)

    def files(self) -> Iterator[tuple[str, float]]:
        """Returns the names of the files, and when they were written."""
        for path in chain(self.path.glob(f"{_CURRENT}.*"), *((self.path / folder).glob("*") for folder in _FOLDERS)):
            yield str(path.relative_to(self.path)), path.stat().st_mtime

    def remove(self, name: str) -> None:
        (self.path / name).unlink(missing_ok=True)

    def release(self, name: str) -> None:
        """Does nothing: no file is open between two reads."""


class _Elsewhere:
    """A folder of fsspec."""

    def __init__(self, url: str) -> None:
        import fsspec

        self.system, self.path = fsspec.core.url_to_fs(url)
        protocols = self.system.protocol
        self.puts = not _PUTS.isdisjoint((protocols,) if isinstance(protocols, str) else protocols)

    def read(self, name: str) -> bytes:
        return self.system.cat_file(f"{self.path}/{name}")

    def read_range(self, name: str, pos: int, length: int) -> bytes:
        return self.system.cat_file(f"{self.path}/{name}", start=pos, end=pos + length)

    def write(self, name: str, data: bytes) -> None:
        path = f"{self.path}/{name}"
        self.system.makedirs(path.rpartition("/")[0], exist_ok=True)
        part = path if self.puts else f"{path}.{os.getpid()}.part"
        self.system.pipe_file(part, data)
        if part != path:
            self.system.mv(part, path)

    def files(self) -> Iterator[tuple[str, float]]:
        start = len(self.path.rstrip("/")) + 1
        for path in self.system.find(self.path):
            name = path[start:]
            if name.startswith((f"{_CURRENT}.", *(f"{folder}/" for folder in _FOLDERS))):
                yield name, self.system.modified(path).timestamp()

    def remove(self, name: str) -> None:
        self.system.rm_file(f"{self.path}/{name}")

    def release(self, name: str) -> None:
        """Does nothing: no file is open between two reads."""


class _Served:
    """A folder on a server of HTTP, which is read. Each file that is read in parts has a connection of its own."""

    def __init__(self, url: str) -> None:
        self.url = url.rstrip("/")
        self.open: dict[str, tuple[http.client.HTTPConnection, Callable[[int, int], bytes]]] = {}

    def read(self, name: str) -> bytes:
        connection, fetch, size, _ = _object_at(f"{self.url}/{name}", _TIMEOUT)
        try:
            return fetch(0, size)
        finally:
            connection.close()

    def read_range(self, name: str, pos: int, length: int) -> bytes:
        if name not in self.open:
            self.open[name] = _object_at(f"{self.url}/{name}", _TIMEOUT)[:2]
        return self.open[name][1](pos, length)

    def release(self, name: str) -> None:
        """Closes the connection over which a file was read in parts."""
        if name in self.open:
            self.open.pop(name)[0].close()

    def write(self, name: str, data: bytes) -> None:
        raise io.UnsupportedOperation(f"{self.url}: nothing is written over HTTP")

    def files(self) -> Iterator[tuple[str, float]]:
        raise io.UnsupportedOperation(f"{self.url}: nothing is removed over HTTP")

    def remove(self, name: str) -> None:
        raise io.UnsupportedOperation(f"{self.url}: nothing is removed over HTTP")


_Place = Union[_Local, _Elsewhere, _Served]


def _folder_of(folder: _Folder) -> _Place:
    if not isinstance(folder, str) or "://" not in folder:
        return _Local(folder)
    if folder.startswith("file://"):
        return _Local(folder.removeprefix("file://"))
    return _Served(folder) if folder.startswith(("http://", "https://")) else _Elsewhere(folder)


class Shard(NamedTuple):
    """A shard that was written: its first and its last key, and its name, size and number of entries."""

    first: Key
    last: Key
    name: str
    size: int
    count: int


class Published(NamedTuple):
    """What CURRENT says of a data set. `levels` is that of the sidecars, or 0 if there are none."""

    key: Type
    value: Type
    index: str
    shards: int
    entries: int
    levels: int


def write_shard(
    number: int, pairs: Iterable[tuple[Key, Value]], folder: _Folder, key_type: Type, value_type: Type, levels: int = 5
) -> Union[Shard, None]:
    """Writes the archive of pairs whose keys increase, and its sidecar of `levels` levels if that isn't 0. Returns what the index says of it.

    Without a pair it writes nothing and returns None. It publishes nothing, so a worker can call it. Raises Error if the keys don't increase.
    """
    given = list(pairs)
    if not given:
        return None
    data, place = build(key_type, value_type, given, strict=True), _folder_of(folder)
    name = f"{number:05}-{hashlib.sha256(data).hexdigest()}"
    if levels:
        place.write(f"shards/{name}.top", top_of(data, key_type, value_type, levels))
    place.write(f"shards/{name}", data)
    return Shard(given[0][0], given[-1][0], name, len(data), len(given))


def publish(
    shards: Iterable[Union[Shard, None]], folder: _Folder, key_type: Type, value_type: Type, levels: int = 5
) -> Published:
    """Writes the index of shards that are all written, and then CURRENT. From then on readers open this data set.

    Raises Error if the keys of the shards don't increase from one to the next; then CURRENT is unchanged. `found` is the number of the entry.
    """
    written, entries = [shard for shard in shards if shard is not None], 0
    for shard, after in zip(written, written[1:]):
        entries += shard.count
        if order_of(shard.last) >= order_of(after.first):
            raise Error(NOT_INCREASING, found=entries)
    index = build(key_type, "text", ((shard.first, f"{shard.name} {shard.size} {shard.count}") for shard in written), strict=True)
    name, place = hashlib.sha256(index).hexdigest(), _folder_of(folder)
    place.write(f"index/{name}", index)
    published = Published(key_type, value_type, name, len(written), sum(shard.count for shard in written), levels)
    place.write(_CURRENT, json.dumps({"version": _VERSION, **published._asdict()}).encode() + b"\n")
    return published


def write_shards(
    pairs: Iterable[tuple[Key, Value]], folder: _Folder, key_type: Type, value_type: Type, entries: int = 1_000_000, levels: int = 5
) -> Published:
    """Writes pairs whose keys increase as a data set, with up to `entries` of them in a shard, and publishes it.

    The pairs of one shard are in memory at a time. Raises Error if the keys don't increase, with the number of the entry as `found`. After
    an error the data set is the one that was there before.
    """
    if entries < 1:
        raise ValueError("a shard has at least one entry")
    rest, shards, count = iter(pairs), [], 0
    while chunk := list(islice(rest, entries)):
        try:
            shards.append(write_shard(len(shards), chunk, folder, key_type, value_type, levels))
        except Error as error:
            raise Error(error.code, error.at, count + error.found, error.allowed) from None
        count += len(chunk)
    return publish(shards, folder, key_type, value_type, levels)


def _current(place: _Place) -> tuple[Published, list[tuple[Key, tuple[str, int, int]]]]:
    """Returns what CURRENT says, and of each shard the first key, and its name, size and number of entries."""
    said = json.loads(place.read(_CURRENT))
    if said.pop("version", None) != _VERSION:
        raise ValueError("CURRENT is of no version that is known")
    published = Published(**said)
    data = place.read(f"index/{published.index}")
    if hashlib.sha256(data).hexdigest() != published.index:
        raise OSError(f"index/{published.index} has other bytes than its name says")
    shards = []
    for first, text in Map(data, published.key, "text", strict=True).items():
        name, size, count = str(text).split(" ")
        shards.append((first, (name, int(size), int(count))))
    return published, shards


def gc(folder: _Folder, age: float = 86400) -> list[str]:
    """Removes the files that the current data set doesn't name and that are `age` seconds old. Returns their names.

    A writer must not take longer than `age`, and a reader must not use an older data set.
    """
    place = _folder_of(folder)
    files, until = list(place.files()), time.time() - age
    published, shards = _current(place)
    named = {f"index/{published.index}"}
    for _, (name, _, _) in shards:
        named |= {f"shards/{name}", f"shards/{name}.top"}
    removed = [name for name, written in files if name not in named and written <= until]
    for name in removed:
        place.remove(name)
    return removed


class Shards:
    """The data set of a folder, as CURRENT names it when it is opened. The folder is a path, or an URL of HTTP or of fsspec.

    Lookups and ranges read parts of the shards, as `Remote` does with its `block` and `cache`; up to `most` shards are kept open. The
    promises are those of `Remote`. One thread uses it at a time.
    """

    def __init__(self, folder: _Folder, block: int = 16384, cache: int = 2 << 20, most: int = 64) -> None:
        """Reads CURRENT and the index."""
        self._place = _folder_of(folder)
        self.published, self._index = _current(self._place)
        self._firsts = [order_of(first) for first, _ in self._index]
        self._settings, self._most = {"block": block, "cache": cache}, most
        self._open: OrderedDict[int, Remote] = OrderedDict()

    def __enter__(self) -> Shards:
        """Returns the data set, which is closed at the end of the `with`."""
        return self

    def __exit__(self, *error: object) -> None:
        self.close()

    def close(self) -> None:
        """Lets go what is kept of the shards. A later lookup reads them again."""
        while self._open:
            self._release()

    def _release(self) -> None:
        """Lets go the shard that was used least recently."""
        number, _ = self._open.popitem(last=False)
        self._place.release(f"shards/{self._index[number][1][0]}")

    def __len__(self) -> int:
        """Returns the number of entries, as the index has it."""
        return sum(count for _, (_, _, count) in self._index)

    def _shard(self, number: int) -> Remote:
        if number not in self._open:
            name, size, _ = self._index[number][1]
            place, path = self._place, f"shards/{name}"
            top = place.read(f"{path}.top") if self.published.levels else None
            self._open[number] = Remote(
                lambda pos, length: place.read_range(path, pos, length),
                size,
                self.published.key,
                self.published.value,
                top=top,
                **self._settings,
            )
        self._open.move_to_end(number)
        while len(self._open) > self._most:
            self._release()
        return self._open[number]

    def _number(self, key: Key) -> int:
        """Returns the number of the only shard that can have a key, or -1."""
        return bisect_right(self._firsts, order_of(key)) - 1

    def get(self, key: Key, default: Any = None) -> Any:
        """Returns the value of a key, or `default`. Raises as `Remote.get` does."""
        return self.get_many([key]).get(key, default)

    def get_many(self, keys: Iterable[Key]) -> dict[Key, Value]:
        """Returns the values of those keys that are found. It looks up all keys of one shard together."""
        by_shard: dict[int, list[Key]] = {}
        for key in keys:
            if _is_key(key, self.published.key):
                by_shard.setdefault(self._number(key), []).append(key)
        by_shard.pop(-1, None)
        return {key: value for number in sorted(by_shard) for key, value in self._shard(number).get_many(by_shard[number]).items()}

    def range(self, low: Union[Key, None] = None, high: Union[Key, None] = None) -> Iterator[tuple[Key, Value]]:
        """Returns an iterator over the entries from the first key on that isn't before `low`, up to before `high`, as `Remote.range` does."""
        start = 0 if low is None else max(self._number(low), 0)
        for number in range(start, len(self._index)):
            if high is not None and self._firsts[number] >= order_of(high):
                return
            yield from self._shard(number).range(low, high)
