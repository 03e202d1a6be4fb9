"""Archived B-tree maps and sets of numbers, texts and bytes, read in place from bytes or a mapped file.

    >>> data = build("text", "u32", [("apple", 3), ("pear", 5)])
    >>> prices = Map(data, "text", "u32")
    >>> prices["pear"], len(prices), "fig" in prices
    (5, 2, False)
    >>> list(prices["b":])
    [('pear', 5)]
"""

from __future__ import annotations

import ctypes
import mmap
import os
import pathlib
import struct
from array import array
from collections.abc import ItemsView, Iterable, Iterator, Mapping, ValuesView
from collections.abc import Set as AbstractSet
from functools import cache
from itertools import accumulate, islice
from typing import Any, Union, overload

from ._raw import (
    _P,
    _SIZE,
    _U32,
    AT_ENTRY,
    AT_POSITION,
    BAD_ITEM,
    BAD_VALUE,
    EMPTY,
    LAYOUTS,
    NO_HEADER,
    NOT_FOUND,
    NOT_OPEN,
    NUMBERS,
    OK,
    OTHER_TYPE,
    OTHER_VERSION,
    POSITION_OVERFLOW,
    TYPES,
    Type,
    _Column,
    _Cursor,
    _Edit,
    _Entry,
    _Item,
    _Map,
    _Refusal,
    declared,
)

__all__ = ["Edit", "Error", "Map", "Set", "build", "build_arrays", "build_set", "contains", "find"]
__version__ = "0.1.0"

Key = Union[int, str, bytes]
Value = Union[int, str, bytes]

# What keys and values are that aren't numbers.
_CLASSES: dict[str, type] = {"text": str, "bytes": bytes}

# How many entries are read at a time: few at first, and then more.
_FIRST_BATCH, _LAST_BATCH = 16, 1024
# How many entries `build` takes from its iterable at a time.
_CHUNK = 8192
# The most bytes that an archive has, with its header.
_MOST = 2**32 - 1
# How many bytes of another type's name a message shows.
_NAME_SHOWN = 128


# How the six numbers of an entry are read: of the key, and then of the value, a number, where a text begins, and how many bytes it has.
def _entry_of(types: tuple[Type, Type]) -> struct.Struct:
    return struct.Struct("<{}II{}II".format(*("q" if LAYOUTS[kind][2] == "q" else "Q" for kind in types)))


_ENTRIES = {types: _entry_of(types) for types in NUMBERS}
_ENTRY_SIZE = ctypes.sizeof(_Entry)
_BATCHES = {room: ctypes.c_char * (_ENTRY_SIZE * room) for room in (16, 64, 256, 1024)}


class _PyBuffer(ctypes.Structure):
    """Py_buffer of CPython."""

    _fields_ = [
        ("buf", ctypes.c_void_p),
        ("obj", ctypes.c_void_p),
        ("len", ctypes.c_ssize_t),
        ("itemsize", ctypes.c_ssize_t),
        ("readonly", ctypes.c_int),
        ("ndim", ctypes.c_int),
        ("format", ctypes.c_void_p),
        ("shape", ctypes.c_void_p),
        ("strides", ctypes.c_void_p),
        ("suboffsets", ctypes.c_void_p),
        ("internal", ctypes.c_void_p),
    ]


def _library() -> ctypes.CDLL:
    """Loads the shared library: that of RKYV_BTREE_LIB, or the one beside this file, or that of bindings/build."""
    here = pathlib.Path(__file__).resolve().parent
    named = os.environ.get("RKYV_BTREE_LIB")
    places = [pathlib.Path(named)] if named else [here / "librkyv_btree.so", here.parents[1] / "build" / "librkyv_btree.so"]
    for place in places:
        if place.exists():
            return ctypes.CDLL(str(place))
    raise ImportError("no librkyv_btree.so: run `make bindings`, or name it in RKYV_BTREE_LIB")


_lib = declared(_library())
_get_buffer = ctypes.pythonapi.PyObject_GetBuffer
_get_buffer.restype, _get_buffer.argtypes = ctypes.c_int, (ctypes.py_object, _P(_PyBuffer), ctypes.c_int)
_release_buffer = ctypes.pythonapi.PyBuffer_Release
_release_buffer.restype, _release_buffer.argtypes = None, (_P(_PyBuffer),)


class Error(ValueError):
    """Bytes are no map, or entries have no archive. `code` is that of include/rkyv_btree.h, and `at` is a position.

    Of entries that have no archive `found` is the index of the one that is bad or out of order. Of a typed file of another type or another
    version the message has both names or both versions.
    """

    def __init__(self, code: int, at: int = 0, found: int = 0, allowed: int = 0, names: str = "") -> None:
        text = ctypes.create_string_buffer(128)
        _lib.strerror(code, text, len(text))
        message = text.value.decode()
        if code in AT_POSITION:
            message += f" at position {at}"
        elif code in AT_ENTRY:
            message += f" at entry {found}"
        elif code == OTHER_VERSION:
            message = f"the type header has version {found}, not {allowed}"
        elif code == OTHER_TYPE:
            message = f"the bytes are of type {names}"
        super().__init__(message)
        self.code, self.at, self.found, self.allowed = code, at, found, allowed


def _known(*types: str) -> None:
    """Raises ValueError if one isn't the name of a type."""
    for name in types:
        if name not in TYPES:
            *others, last = map(repr, TYPES)
            raise ValueError(f"a type must be {', '.join(others)} or {last}, not {name!r}")


def _number_of(key_type: str, value_type: str) -> int:
    _known(key_type, value_type)
    return NUMBERS[key_type, value_type]


def _set_number_of(key_type: str) -> int:
    _known(key_type)
    return NUMBERS[key_type, EMPTY]


def _types_of(key_type: str, value_type: Union[str, None]) -> tuple[int, str, str]:
    """Returns the number of the type of a map or a set, and what its keys and values are. A set has no type of values."""
    if value_type is None:
        return _set_number_of(key_type), key_type, EMPTY
    return _number_of(key_type, value_type), key_type, value_type


@cache
def _header_of(number: int) -> bytes:
    """Returns the header of typed files of a type."""
    header, length = ctypes.create_string_buffer(64), _SIZE()
    code = _lib.write_header(number, header, len(header), length)
    if code != OK:
        raise Error(code)
    return header.raw[: length.value]


def _name_of(number: int) -> str:
    """Returns the name of a type, as a header has it."""
    name = ctypes.create_string_buffer(64)
    _lib.type_name(number, name, len(name))
    return name.value.decode()


def _check_type(number: int, view: memoryview, address: int) -> None:
    """Raises Error if bytes begin with the header of another type or another version. Those of an untyped archive begin with none."""
    why = _Refusal()
    code = _lib.check_header(number, address, view.nbytes, why)
    if code in (OK, NO_HEADER):
        return
    names = ""
    if code == OTHER_TYPE:
        found = bytes(view.cast("B")[why.at : why.at + min(why.found, _NAME_SHOWN)]).decode(errors="ignore")
        names = f"{found}, not {_name_of(number)}"
    raise Error(code, why.at, why.found, why.allowed, names)


@cache
def _limits_of(kind: str) -> tuple[int, int]:
    """Returns the least number of a type, and the least that is past all its numbers."""
    size, _, form = LAYOUTS[kind]
    least = -(1 << 8 * size - 1) if form == "q" else 0
    return least, least + (1 << 8 * size)


def _number_in(number: int, kind: str) -> int:
    """Returns the number of an item, which has a sign in two's complement if the type has one."""
    least, limit = _limits_of(kind)
    return number if number < limit else number + 2 * least


def _is_key(key: object, kind: str) -> bool:
    """Returns whether a key is one of a type."""
    if kind in _CLASSES:
        return isinstance(key, _CLASSES[kind])
    least, limit = _limits_of(kind)
    return isinstance(key, int) and least <= key < limit


def _bytes_of(key: object) -> Union[bytes, None]:
    """Returns the bytes of a text or of bytes, as the archive has them, or None for a number."""
    if isinstance(key, str):
        return key.encode("utf-8", "surrogatepass")
    return key if isinstance(key, bytes) else None


def _value_of(data: Any, item: _Item, kind: str) -> Value:
    """Returns what an item is, whose text or bytes are in `data`."""
    if kind not in _CLASSES:
        return _number_in(item.number, kind)
    part = data[item.start : item.start + item.len]
    return part.decode() if kind == "text" else bytes(part)


def _checked(value: Any, kind: str, name: str) -> Any:
    """Returns a value that is a text, bytes or a number, as its type is."""
    wanted = _CLASSES.get(kind, int)
    if not isinstance(value, wanted):
        raise TypeError(f"{name} must be {wanted.__name__}, not {type(value).__name__}")
    return value


def _address_of(view: memoryview) -> int:
    """Returns the address of the bytes of a view. They stay there until the view is released."""
    buffer = _PyBuffer()
    _get_buffer(view, buffer, 0)
    address = buffer.buf or 0
    _release_buffer(buffer)
    return address


class _Slices:
    """A buffer whose slices are bytes."""

    def __init__(self, view: memoryview) -> None:
        self.view = view.cast("B")

    def __getitem__(self, part: slice) -> bytes:
        return bytes(self.view[part])


class _Number(int):
    """A key of a map whose keys don't increase. It has its value with it, since a lookup can miss the key."""

    token: object = None
    value: Value = 0

    def __reduce__(self) -> tuple[type, tuple[int]]:
        return int, (int(self),)


class _Text(str):
    """The same of a text."""

    token: object = None
    value: Value = 0

    def __reduce__(self) -> tuple[type, tuple[str]]:
        return str, (str(self),)


class _Bytes(bytes):
    """The same of bytes."""

    token: object = None
    value: Value = 0

    def __reduce__(self) -> tuple[type, tuple[bytes]]:
        return bytes, (bytes(self),)


class _Items(ItemsView):
    """The entries of a map, in their order."""

    _mapping: Map

    def __iter__(self) -> Iterator[tuple[Key, Value]]:
        return self._mapping._slice(None, None)

    def __contains__(self, item: object) -> bool:
        if not self._mapping._increases():
            return any(entry == item for entry in self)
        if not isinstance(item, tuple) or len(item) != 2 or item[0] not in self._mapping:
            return False
        return self._mapping[item[0]] == item[1]


class _Values(ValuesView):
    """The values of a map, in the order of its entries."""

    _mapping: Map

    def __iter__(self) -> Iterator[Value]:
        return (value for _, value in self._mapping._slice(None, None))

    def __contains__(self, value: object) -> bool:
        return any(value == it for it in self)


class Map(Mapping):
    """The map of a whole archive, in bytes or in a mapped file.

    A typed file must be of these types. With `untyped=True` its header isn't looked at: so an untyped archive is opened whose first bytes
    are those of a header by chance, as those of a text can be.

    It has the calls of a mapping. A slice of keys, as `prices["b":"d"]`, is an iterator over the entries from the first key up to
    before the second. `strict=True` refuses archives whose keys don't increase. In others a key can be there and not be found, unless
    the map's own iteration gives it: such a key stands for its own entry. So `dict(prices)` is `dict(prices.items())`.

    A map is closed by `close`, or at the end of a `with`. Close it while no other thread uses it.
    """

    def __init__(self, data: bytes, key_type: Type, value_type: Type, strict: bool = False, untyped: bool = False) -> None:
        """Validates `data`. Raises Error if it is no map of these types."""
        if not isinstance(data, bytes):
            raise TypeError(f"data must be bytes, which don't change, not {type(data).__name__}; Map.from_file maps a file")
        self._file: Union[mmap.mmap, None] = None
        self._data: Any = data
        self._start(memoryview(data), key_type, value_type, strict, untyped)

    @classmethod
    def from_file(
        cls, path: Union[str, os.PathLike], key_type: Type, value_type: Type, strict: bool = False, untyped: bool = False
    ) -> Map:
        """Maps a file and validates it. The file must not change while the map is used."""
        with open(path, "rb") as file:
            if os.fstat(file.fileno()).st_size == 0:
                return cls(b"", key_type, value_type, strict, untyped)
            mapped = mmap.mmap(file.fileno(), 0, access=mmap.ACCESS_READ)
        self = cls.__new__(cls)
        self._file = self._data = mapped
        self._start(memoryview(mapped), key_type, value_type, strict, untyped)
        return self

    def _start(self, view: memoryview, key_type: str, value_type: str, strict: bool, untyped: bool) -> None:
        number = self._describe(view, key_type, value_type)
        # Whether the keys increase, if that is known.
        self._order = True if strict else None
        why, address = _Refusal(), _address_of(view)
        if not untyped:
            _check_type(number, view, address)
        opened = _lib.open_strict if strict else _lib.open
        code = opened(self._map, number, address, view.nbytes, why)
        if code != OK:
            raise Error(code, why.at, why.found, why.allowed)

    def _describe(self, view: memoryview, key_type: str, value_type: str) -> int:
        """Sets what doesn't depend on the bytes, with a map that isn't open. Returns the number of the type."""
        number = self._type_number(key_type, value_type)
        self._view, self._map, self._types = view, _Map(), (key_type, value_type)
        self._least, self._limit = _limits_of(key_type)
        self._order: Union[bool, None] = None
        # What the keys that the map gives have, as long as their values are those of the map.
        self._token = object()
        return number

    @staticmethod
    def _type_number(key_type: str, value_type: str) -> int:
        return _number_of(key_type, value_type)

    def close(self) -> None:
        """Closes the map, and the file that it has mapped. After that each call raises Error, and `close` does nothing."""
        self._map, self._data = _Map(), b""
        self._view.release()
        if self._file is not None:
            self._file.close()

    def __repr__(self) -> str:
        """Returns the types of the map and its number of entries."""
        state = f"len {len(self)}" if self._map.type else "closed"
        return f"<rkyv_btree.{type(self).__name__} of {self._types[0]} to {self._types[1]}, {state}>"

    def __enter__(self) -> Map:
        """Returns the map, which is closed at the end of the `with`."""
        return self

    def __exit__(self, *error: object) -> None:
        self.close()

    def _opened(self) -> _Map:
        """Returns the map as the library has it, while it is open."""
        if not self._map.type:
            raise Error(NOT_OPEN)
        return self._map

    def _increases(self) -> bool:
        """Returns whether the keys increase. The first call validates their order."""
        opened = self._opened()
        if self._order is None:
            self._order = _lib.open_strict(_Map(), opened.type, opened.data, opened.data_len, _Refusal()) == OK
        return self._order

    def _find(self, key: Any) -> Union[_Entry, None]:
        opened, entry = self._opened(), _Entry()
        if not _is_key(key, self._types[0]):
            return None
        text = _bytes_of(key)
        if text is None:
            code = _lib.get_number(opened, key % 2**64, entry)
        else:
            code = _lib.get_text(opened, text, len(text), entry)
        return entry if code == OK else None

    def _gave(self, key: Any) -> bool:
        """Returns whether a key is from the map's own iteration, and has its value with it."""
        self._opened()
        return isinstance(key, (_Number, _Text, _Bytes)) and key.token is self._token

    def __len__(self) -> int:
        """Returns the number of entries."""
        length = _U32()
        _lib.len(self._opened(), length)
        return length.value

    def __contains__(self, key: object) -> bool:
        """Returns whether the map has a key."""
        return self._gave(key) or self._find(key) is not None

    @overload
    def __getitem__(self, key: Key) -> Value: ...
    @overload
    def __getitem__(self, key: slice) -> Iterator[tuple[Key, Value]]: ...

    def __getitem__(self, key: Any) -> Union[Value, Iterator[tuple[Key, Value]]]:
        """Returns the value of a key, or the entries of a slice of keys. Raises KeyError if there is no such key."""
        if isinstance(key, slice):
            if key.step is not None:
                raise ValueError("a slice of keys has no step")
            return self._slice(key.start, key.stop)
        if self._gave(key):
            return key.value
        entry = self._find(key)
        if entry is None:
            raise KeyError(key)
        return _value_of(self._data, entry.value, self._types[1])

    def __iter__(self) -> Iterator[Key]:
        """Returns an iterator over the keys, in their order."""
        if self._increases():
            return (key for key, _ in self._slice(None, None))
        return (self._given(key, value) for key, value in self._slice(None, None))

    def _given(self, key: Key, value: Value) -> Key:
        """Returns a key with its value."""
        given: Any = {"text": _Text, "bytes": _Bytes}.get(self._types[0], _Number)(key)
        given.token, given.value = self._token, value
        return given

    def items(self) -> ItemsView[Key, Value]:
        """Returns a view of the entries, in their order."""
        return _Items(self)

    def values(self) -> ValuesView[Value]:
        """Returns a view of the values, in the order of the entries."""
        return _Values(self)

    def _slice(self, low: Union[Key, None], high: Union[Key, None]) -> Iterator[tuple[Key, Value]]:
        opened, cursor = self._opened(), _Cursor()
        for bound in (low, high):
            if bound is not None:
                _checked(bound, self._types[0], "a key of a slice")
        text = _bytes_of(low)
        if low is None:
            _lib.first(opened, cursor)
        elif text is not None:
            _lib.seek_text(opened, text, len(text), cursor)
        elif low < self._limit:
            _lib.seek_number(opened, max(low, self._least) % 2**64, cursor)
        return self._entries(cursor, high)

    def _entries(self, cursor: _Cursor, high: Union[Key, None]) -> Iterator[tuple[Key, Value]]:
        opened, data, (key_type, value_type) = self._opened(), self._data, self._types
        form = _ENTRIES[self._types]
        # Texts are compared as their bytes, as the archive's order is.
        limit: Any = high if high is None or key_type not in _CLASSES else _bytes_of(high)
        room, written = _FIRST_BATCH, _SIZE()
        while True:
            batch = _BATCHES[room]()
            code = _lib.next(self._opened(), cursor, batch, room, written)
            if code != OK:
                raise Error(code)
            entries = islice(form.iter_unpack(batch), written.value)
            for key, key_start, key_len, value, start, length in entries:
                if self._map is not opened:
                    raise Error(NOT_OPEN)
                if key_type in _CLASSES:
                    key = data[key_start : key_start + key_len]
                if limit is not None and key >= limit:
                    return
                if key_type in _CLASSES:
                    key = key.decode() if key_type == "text" else bytes(key)
                if value_type in _CLASSES:
                    part = data[start : start + length]
                    value = part.decode() if value_type == "text" else bytes(part)
                yield key, value
            if written.value < room:
                return
            room = min(4 * room, _LAST_BATCH)


class _Members(Map):
    """The map behind a set, whose values have no bytes."""

    @staticmethod
    def _type_number(key_type: str, value_type: str) -> int:
        return _set_number_of(key_type)


class Set(AbstractSet):
    """The set of a whole archive, in bytes or in a mapped file.

    It has the calls of a set. A slice of keys, as `fruit["b":"d"]`, is an iterator over the keys from the first one up to before the second.
    `strict=True` refuses archives whose keys don't increase. In others `in` goes through all keys.

    A set is closed by `close`, or at the end of a `with`. Close it while no other thread uses it.

        >>> fruit = Set(build_set("text", ["apple", "pear"]), "text")
        >>> "pear" in fruit, "fig" in fruit, len(fruit), list(fruit["b":])
        (True, False, 2, ['pear'])
    """

    def __init__(self, data: bytes, key_type: Type, strict: bool = False, untyped: bool = False) -> None:
        """Validates `data`. Raises Error if it is no set of this type. A header is looked at as by `Map`."""
        self._map: Map = _Members(data, key_type, EMPTY, strict, untyped)

    @classmethod
    def from_file(cls, path: Union[str, os.PathLike], key_type: Type, strict: bool = False, untyped: bool = False) -> Set:
        """Maps a file and validates it. The file must not change while the set is used."""
        self = cls.__new__(cls)
        self._map = _Members.from_file(path, key_type, EMPTY, strict, untyped)
        return self

    @classmethod
    def _from_iterable(cls, keys: Iterable[Key]) -> set[Key]:
        return set(keys)

    def close(self) -> None:
        """Closes the set, and the file that it has mapped. After that each call raises Error, and `close` does nothing."""
        self._map.close()

    def __repr__(self) -> str:
        """Returns the type of the keys and their number."""
        state = f"len {len(self)}" if self._map._map.type else "closed"
        return f"<rkyv_btree.{type(self).__name__} of {self._map._types[0]}, {state}>"

    def __enter__(self) -> Set:
        """Returns the set, which is closed at the end of the `with`."""
        return self

    def __exit__(self, *error: object) -> None:
        self.close()

    def __len__(self) -> int:
        """Returns the number of keys."""
        return len(self._map)

    def __contains__(self, key: object) -> bool:
        """Returns whether the set has a key."""
        return key in self._map if self._map._increases() else any(key == it for it in self)

    def __iter__(self) -> Iterator[Key]:
        """Returns an iterator over the keys, in their order."""
        return self[:]

    def __getitem__(self, keys: slice) -> Iterator[Key]:
        """Returns an iterator over the keys of a slice."""
        if not isinstance(keys, slice):
            raise TypeError("a set has slices of keys, and no values")
        return (key for key, _ in self._map[keys])


class Edit(Map):
    """The map of a whole archive in a buffer that can be written. `prices["pear"] = 6` overwrites the value of a key that is there.

    Values must be numbers. No entry is added or removed, and all other bytes are unchanged. It reads as `Map` does. An iteration reads
    ahead, so a value may be that from before a write. The buffer is held until the map is closed, and nothing else may write to it.

        >>> data = bytearray(build("text", "u32", [("apple", 3), ("pear", 5)]))
        >>> with Edit(data, "text", "u32") as prices:
        ...     prices["pear"] = 6
        >>> Map(bytes(data), "text", "u32")["pear"]
        6
    """

    def __init__(self, data: Any, key_type: Type, value_type: Type, untyped: bool = False) -> None:
        """Validates `data`: a `bytearray`, or another buffer that can be written. Raises Error if it is no map of these types."""
        self._file = None
        view = memoryview(data)
        # A slice of it has the method `decode`.
        self._data = data if isinstance(data, (bytearray, mmap.mmap)) else _Slices(view)
        self._start_edit(view, key_type, value_type, untyped)

    @classmethod
    def from_file(cls, path: Union[str, os.PathLike], key_type: Type, value_type: Type, untyped: bool = False) -> Edit:
        """Maps a file for writing and validates it. Nothing else may write to the file until the map is closed."""
        with open(path, "r+b") as file:
            if os.fstat(file.fileno()).st_size == 0:
                return cls(bytearray(), key_type, value_type, untyped)
            mapped = mmap.mmap(file.fileno(), 0)
        self = cls.__new__(cls)
        self._file = self._data = mapped
        self._start_edit(memoryview(mapped), key_type, value_type, untyped)
        return self

    def _start_edit(self, view: memoryview, key_type: str, value_type: str, untyped: bool) -> None:
        if view.readonly:
            raise TypeError("data must be a buffer that can be written, as a bytearray is")
        number, why, address = self._describe(view, key_type, value_type), _Refusal(), _address_of(view)
        if not untyped:
            _check_type(number, view, address)
        self._edit = _Edit(address, view.nbytes, 0, 0)
        code = _lib.open_edit(self._edit, number, why)
        if code != OK:
            raise Error(code, why.at, why.found, why.allowed)
        _lib.read_edit(self._map, self._edit)

    def close(self) -> None:
        """Closes the map, and lets the buffer go. After that each call raises Error, and `close` does nothing."""
        self._edit = _Edit()
        super().close()

    def __setitem__(self, key: Key, value: int) -> None:
        """Overwrites the value of a key. Raises KeyError if the key isn't found, and Error if the value isn't of the map's type."""
        self._opened()
        _checked(value, "u64", "a value")
        least, limit = _limits_of(self._types[1])
        if not least <= value < limit:
            raise Error(BAD_VALUE)
        text = _bytes_of(key)
        if not _is_key(key, self._types[0]):
            code = NOT_FOUND
        elif text is not None:
            code = _lib.set_text(self._edit, text, len(text), value % 2**64)
        else:
            code = _lib.set_number(self._edit, key % 2**64, value % 2**64)
        if code == NOT_FOUND:
            raise KeyError(key)
        if code != OK:
            raise Error(code)
        self._token = object()
        _lib.read_edit(self._map, self._edit)


def find(data: Any, key_type: Type, value_type: Type, key: Key, untyped: bool = False) -> Union[Value, None]:
    """Returns the value of a key in bytes that nobody has validated, or None. The lookup validates what it reads.

    `data` is `bytes`, a `bytearray`, a `memoryview`, an `mmap`, or another contiguous buffer. It must not change during the call.

    On the archive of a map that is what a lookup in `Map(data, key_type, value_type)` returns. On other bytes a value that is found is
    valid and is beside an equal key, and None doesn't mean that the key is absent. Raises Error for a fault in what the lookup reads, and for a
    typed file of other types. With `untyped=True` no header is looked at.

        >>> find(build("text", "u32", [("apple", 3), ("pear", 5)]), "text", "u32", "pear")
        5
    """
    return _found(data, _number_of(key_type, value_type), key_type, value_type, key, untyped)


def _found(data: Any, number: int, key_type: str, value_type: str, key: Any, untyped: bool) -> Union[Value, None]:
    """Returns the value of a key in bytes that nobody has validated, as an archive of the type with this number, or None."""
    entry, why = _Entry(), _Refusal()
    with memoryview(data) as view:
        address = _address_of(view)
        if not untyped:
            _check_type(number, view, address)
        if not _is_key(key, key_type):
            return None
        text = _bytes_of(key)
        if text is None:
            code = _lib.find_number(number, address, view.nbytes, key % 2**64, entry, why)
        else:
            code = _lib.find_text(number, address, view.nbytes, text, len(text), entry, why)
        if code == NOT_FOUND:
            return None
        if code != OK:
            raise Error(code, why.at, why.found, why.allowed)
        return _value_of(_Slices(view), entry.value, value_type)


def contains(data: Any, key_type: Type, key: Key, untyped: bool = False) -> bool:
    """Returns whether a key is in bytes that nobody has validated, as the archive of a set. The lookup validates what it reads.

    `data` and `untyped` are as of `find`. On the archive of a set whose keys increase that is what `key in Set(data, key_type)` returns. On other
    bytes False doesn't mean that the key is absent. Raises Error as `find` does.

        >>> contains(build_set("text", ["apple", "pear"]), "text", "pear")
        True
    """
    return _found(data, _set_number_of(key_type), key_type, EMPTY, key, untyped) is not None


class _Numbers:
    """A column of numbers, to which more are added."""

    def __init__(self, kind: str, name: str) -> None:
        self.data, self.kind, self.name = array(TYPES[kind][2]), kind, name

    def extend(self, numbers: list[Any], index: int) -> None:
        """Adds numbers, of which the first is that of the entry at `index`."""
        try:
            self.data.extend(numbers)
        except (OverflowError, TypeError):
            least, limit = _limits_of(self.kind)
            for at, number in enumerate(numbers, index):
                if not least <= _checked(number, self.kind, self.name) < limit:
                    raise Error(BAD_ITEM, found=at) from None
            raise

    def column(self) -> _Column:
        """Returns the column that the library has of them, as long as nothing is added."""
        address, length = self.data.buffer_info()
        return _Column(address, length * self.data.itemsize, None, 0, 0)

    # How many bytes of texts they have.
    texts_len = 0


class _Texts:
    """A column of texts or of bytes, to which more are added."""

    def __init__(self, kind: str, name: str) -> None:
        self.data, self.ends, self.kind, self.name = bytearray(), array("I", [0]), kind, name

    def extend(self, texts: list[Any], index: int) -> None:
        """Adds texts or bytes, of which the first is that of the entry at `index`."""
        if self.kind == "bytes":
            self._add(b"".join([_checked(part, "bytes", self.name) for part in texts]), map(len, texts))
            return
        try:
            joined = "".join(texts).encode()
            lengths = map(len, texts if len(joined) == sum(map(len, texts)) else [text.encode() for text in texts])
        except (TypeError, UnicodeEncodeError):
            for at, text in enumerate(texts, index):
                try:
                    _checked(text, "text", self.name).encode()
                except UnicodeEncodeError:
                    raise Error(BAD_ITEM, found=at) from None
            raise
        self._add(joined, lengths)

    def _add(self, joined: bytes, lengths: Iterable[int]) -> None:
        if len(self.data) + len(joined) >= 2**32:
            raise Error(POSITION_OVERFLOW)
        ends = accumulate(lengths, initial=len(self.data))
        next(ends)
        self.ends.extend(ends)
        self.data += joined

    def column(self) -> _Column:
        """Returns the column that the library has of them, as long as nothing is added."""
        address, length = self.ends.buffer_info()
        return _Column(_address_of(memoryview(self.data)), len(self.data), address, 4 * length, 4)

    @property
    def texts_len(self) -> int:
        return len(self.data)


def _started(kind: str, name: str) -> Union[_Numbers, _Texts]:
    return _Texts(kind, name) if kind in _CLASSES else _Numbers(kind, name)


def _built(number: int, count: int, keys: _Column, values: _Column, texts_len: int, strict: bool, untyped: bool) -> bytes:
    """Returns the archive of two columns, whose texts and byte strings have so many bytes, after the header of its type."""
    bound, length, why = _SIZE(), _SIZE(), _Refusal()
    code = _lib.build_bound(number, count, texts_len, bound)
    if code != OK:
        raise Error(code)
    header = b"" if untyped else _header_of(number)
    out = mmap.mmap(-1, len(header) + bound.value)
    out[: len(header)] = header
    with memoryview(out) as view:
        call = _lib.build_arrays_strict if strict else _lib.build_arrays
        code = call(number, count, keys, values, _address_of(view) + len(header), bound.value, length, why)
    if code != OK:
        raise Error(code, found=why.found)
    if len(header) + length.value > _MOST:
        raise Error(POSITION_OVERFLOW)
    return out[: len(header) + length.value]


def build(
    key_type: Type,
    value_type: Type,
    entries: Union[Mapping[Key, Value], Iterable[tuple[Key, Value]]],
    strict: bool = False,
    untyped: bool = False,
) -> bytes:
    """Returns the archive of entries, in their order. Raises Error if they have none, or with `strict` if the keys don't increase.

    It is a typed file: a header with the name of its type is before it, unless it is `untyped`.

    `entries` is a mapping, or any iterable of pairs. It is gone through once, and a few thousand pairs of it are held at a time.
    """
    number = _number_of(key_type, value_type)
    if isinstance(entries, Mapping):
        entries = entries.items()
    keys, values, count, rest = _started(key_type, "a key"), _started(value_type, "a value"), 0, iter(entries)
    while chunk := list(islice(rest, _CHUNK)):
        keys.extend([key for key, _ in chunk], count)
        values.extend([value for _, value in chunk], count)
        count += len(chunk)
    return _built(number, count, keys.column(), values.column(), keys.texts_len + values.texts_len, strict, untyped)


def build_set(key_type: Type, keys: Iterable[Key], strict: bool = False, untyped: bool = False) -> bytes:
    """Returns the archive of a set of keys, in their order, after a header as that of `build`. Raises as `build` does.

    `keys` is any iterable. Keys that are there twice stay so, unless `strict` refuses them.
    """
    number, column, count, rest = _set_number_of(key_type), _started(key_type, "a key"), 0, iter(keys)
    while chunk := list(islice(rest, _CHUNK)):
        column.extend(chunk, count)
        count += len(chunk)
    return _built(number, count, column.column(), _Column(), column.texts_len, strict, untyped)


class _Buffers:
    """A column that lies in buffers of the caller's, which are held until it is released."""

    def __init__(self, kind: str, given: Any, name: str) -> None:
        self.views: list[memoryview] = []
        if kind in _CLASSES:
            if not isinstance(given, tuple) or len(given) != 2:
                raise TypeError(f"{name} must be a pair: the offsets of the {kind}, and all of their bytes")
            offsets, data = self._view(given[0], name), self._view(given[1], name)
            if offsets.itemsize not in (4, 8) or offsets.format.lstrip("@=<") not in "iIlLqQ":
                raise TypeError(f"{name} must have offsets of 4 or 8 bytes, not of format {offsets.format!r}")
            self.count = max(len(offsets) - 1, 0)
            first, last = (int.from_bytes(offsets[at : at + 1].tobytes(), "little") for at in (0, self.count))
            self.texts_len = min(max(last - first, 0), data.nbytes)
            self.column = _Column(_address_of(data), data.nbytes, _address_of(offsets), offsets.nbytes, offsets.itemsize)
        else:
            numbers, size = self._view(given, name), TYPES[kind][0]
            if numbers.itemsize != size or numbers.format.lstrip("@=<") not in ("lq" if TYPES[kind][2] == "q" else "ILQ"):
                raise TypeError(f"{name} must be a buffer of {kind}, not of format {numbers.format!r}")
            self.count, self.texts_len = len(numbers), 0
            self.column = _Column(_address_of(numbers), numbers.nbytes, None, 0, 0)

    def _view(self, given: Any, name: str) -> memoryview:
        view = memoryview(given)
        self.views.append(view)
        if view.ndim != 1 or not view.c_contiguous:
            raise TypeError(f"{name} must be contiguous, with one dimension")
        return view


def build_arrays(key_type: Type, value_type: Type, keys: Any, values: Any, strict: bool = False, untyped: bool = False) -> bytes:
    """Returns the archive of two columns of one length, in their order, after a header as that of `build`, without a Python object for each entry.

    A column of numbers is a buffer of them, as an `array.array` or an array of numpy is. A column of texts or of bytes is a pair of
    buffers, as Arrow has them: offsets of 4 or 8 bytes, one more than there are texts, and the bytes of all texts. The buffers aren't copied, and
    must not change during the call. Raises as `build` does.

        >>> from array import array
        >>> data = build_arrays("text", "u32", (array("i", [0, 5, 9]), b"applepear"), array("I", [3, 5]))
        >>> dict(Map(data, "text", "u32"))
        {'apple': 3, 'pear': 5}
    """
    number = _number_of(key_type, value_type)
    given = _Buffers(key_type, keys, "keys"), _Buffers(value_type, values, "values")
    if given[0].count != given[1].count:
        raise ValueError(f"there are {given[0].count} keys and {given[1].count} values")
    texts_len = given[0].texts_len + given[1].texts_len
    return _built(number, given[0].count, given[0].column, given[1].column, texts_len, strict, untyped)
