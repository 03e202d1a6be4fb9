"""The declarations of `include/rkyv_btree.h` and the types of `bindings/types.json`. `tools/header.py --write` writes this file."""

import ctypes
from types import SimpleNamespace
from typing import Literal

_U32, _U64, _I64, _SIZE = ctypes.c_uint32, ctypes.c_uint64, ctypes.c_int64, ctypes.c_size_t
_BYTES, _P = ctypes.c_void_p, ctypes.POINTER

OK = 0
OUT_OF_RANGE = 1
MISALIGNED = 2
BAD_KIND = 3
INVALID_LENGTH = 4
BAD_ENTRY = 5
TOO_DEEP = 6
LENGTH_MISMATCH = 7
TOO_LONG = 8
OUT_OF_ORDER = 9
NOT_OPEN = 16
BAD_TYPE = 17
NOT_FOUND = 18
BAD_CURSOR = 19
BAD_VALUE = 20
MISSING = 21
LENGTH_OVERFLOW = 32
POSITION_OVERFLOW = 33
OFFSET_OVERFLOW = 34
NO_MEMORY = 35
BAD_ITEM = 36
NOT_INCREASING = 37
NO_ROOM = 38
NO_HEADER = 48
OTHER_VERSION = 49
OTHER_TYPE = 50
U32_TO_U32 = 1
U32_TO_U64 = 2
U32_TO_TEXT = 3
U64_TO_U32 = 4
U64_TO_U64 = 5
U64_TO_TEXT = 6
TEXT_TO_U32 = 7
TEXT_TO_U64 = 8
TEXT_TO_TEXT = 9
U32_TO_I64 = 10
U64_TO_I64 = 11
I64_TO_U32 = 12
I64_TO_U64 = 13
I64_TO_I64 = 14
I64_TO_TEXT = 15
TEXT_TO_I64 = 16
U32_TO_BYTES = 17
U64_TO_BYTES = 18
I64_TO_BYTES = 19
TEXT_TO_BYTES = 20
BYTES_TO_U32 = 21
BYTES_TO_U64 = 22
BYTES_TO_I64 = 23
BYTES_TO_TEXT = 24
BYTES_TO_BYTES = 25
U32_SET = 26
U64_SET = 27
I64_SET = 28
TEXT_SET = 29
BYTES_SET = 30

Type = Literal["u32", "u64", "i64", "text", "bytes"]
# Of each type its size and its alignment in an archive, and the format of its numbers. Texts and bytes have none.
TYPES = {
    "u32": (4, 4, "I"),
    "u64": (8, 8, "Q"),
    "i64": (8, 8, "q"),
    "text": (8, 4, ""),
    "bytes": (8, 4, ""),
}
# The same of the values of a set, which have no bytes.
EMPTY = "empty"
LAYOUTS = {**TYPES, EMPTY: (0, 1, "")}
# The number of the type of a map, of the types of its keys and its values.
NUMBERS = {
    ("u32", "u32"): U32_TO_U32,
    ("u32", "u64"): U32_TO_U64,
    ("u32", "text"): U32_TO_TEXT,
    ("u64", "u32"): U64_TO_U32,
    ("u64", "u64"): U64_TO_U64,
    ("u64", "text"): U64_TO_TEXT,
    ("text", "u32"): TEXT_TO_U32,
    ("text", "u64"): TEXT_TO_U64,
    ("text", "text"): TEXT_TO_TEXT,
    ("u32", "i64"): U32_TO_I64,
    ("u64", "i64"): U64_TO_I64,
    ("i64", "u32"): I64_TO_U32,
    ("i64", "u64"): I64_TO_U64,
    ("i64", "i64"): I64_TO_I64,
    ("i64", "text"): I64_TO_TEXT,
    ("text", "i64"): TEXT_TO_I64,
    ("u32", "bytes"): U32_TO_BYTES,
    ("u64", "bytes"): U64_TO_BYTES,
    ("i64", "bytes"): I64_TO_BYTES,
    ("text", "bytes"): TEXT_TO_BYTES,
    ("bytes", "u32"): BYTES_TO_U32,
    ("bytes", "u64"): BYTES_TO_U64,
    ("bytes", "i64"): BYTES_TO_I64,
    ("bytes", "text"): BYTES_TO_TEXT,
    ("bytes", "bytes"): BYTES_TO_BYTES,
    ("u32", "empty"): U32_SET,
    ("u64", "empty"): U64_SET,
    ("i64", "empty"): I64_SET,
    ("text", "empty"): TEXT_SET,
    ("bytes", "empty"): BYTES_SET,
}
# The codes of errors that are at a position.
AT_POSITION = (OUT_OF_RANGE, MISALIGNED, BAD_KIND, BAD_ENTRY, TOO_DEEP)
# The codes of errors that are at an entry.
AT_ENTRY = (OUT_OF_ORDER, BAD_ITEM, NOT_INCREASING)


class _Refusal(ctypes.Structure):
    _fields_ = [
        ("code", _U32),
        ("at", _I64),
        ("found", _U64),
        ("allowed", _U64),
    ]


class _Item(ctypes.Structure):
    _fields_ = [
        ("number", _U64),
        ("start", _U32),
        ("len", _U32),
    ]


class _Entry(ctypes.Structure):
    _fields_ = [
        ("key", _Item),
        ("value", _Item),
    ]


class _Piece(ctypes.Structure):
    _fields_ = [
        ("pos", _U32),
        ("start", _U32),
        ("len", _U32),
    ]


class _Column(ctypes.Structure):
    _fields_ = [
        ("data", _BYTES),
        ("data_len", _SIZE),
        ("offsets", _BYTES),
        ("offsets_len", _SIZE),
        ("offset_size", _U32),
    ]


class _Map(ctypes.Structure):
    _fields_ = [
        ("data", _BYTES),
        ("data_len", _SIZE),
        ("pos", _U32),
        ("type", _U32),
    ]


class _Edit(ctypes.Structure):
    _fields_ = [
        ("data", _BYTES),
        ("data_len", _SIZE),
        ("pos", _U32),
        ("type", _U32),
    ]


class _Step(ctypes.Structure):
    _fields_ = [
        ("node", _U32),
        ("index", _U32),
    ]


class _Cursor(ctypes.Structure):
    _fields_ = [
        ("node", _U32),
        ("next", _U32),
        ("end", _U32),
        ("depth", _U32),
        ("stops", _U32),
        ("stop", _Step),
        ("path", _Step * 32),
    ]


def declared(library: ctypes.CDLL) -> SimpleNamespace:
    """Returns the functions of the library, by their names after `rkyv_btree_`."""
    functions = SimpleNamespace()
    for name, result, *parameters in (
        ("open", _U32, _P(_Map), _U32, _BYTES, _SIZE, _P(_Refusal)),
        ("open_strict", _U32, _P(_Map), _U32, _BYTES, _SIZE, _P(_Refusal)),
        ("len", _U32, _P(_Map), _P(_U32)),
        ("get_number", _U32, _P(_Map), _U64, _P(_Entry)),
        ("get_text", _U32, _P(_Map), _BYTES, _SIZE, _P(_Entry)),
        ("find_number", _U32, _U32, _BYTES, _SIZE, _U64, _P(_Entry), _P(_Refusal)),
        ("find_text", _U32, _U32, _BYTES, _SIZE, _BYTES, _SIZE, _P(_Entry), _P(_Refusal)),
        ("find_number_in", _U32, _U32, _U64, _BYTES, _SIZE, _BYTES, _SIZE, _U64, _BYTES, _SIZE, _P(_Item), _P(_Refusal)),
        ("find_text_in", _U32, _U32, _U64, _BYTES, _SIZE, _BYTES, _SIZE, _BYTES, _SIZE, _BYTES, _SIZE, _P(_Item), _P(_Refusal)),
        ("first", _U32, _P(_Map), _P(_Cursor)),
        ("seek_number", _U32, _P(_Map), _U64, _P(_Cursor)),
        ("seek_text", _U32, _P(_Map), _BYTES, _SIZE, _P(_Cursor)),
        ("next", _U32, _P(_Map), _P(_Cursor), _BYTES, _SIZE, _P(_SIZE)),
        ("open_edit", _U32, _P(_Edit), _U32, _P(_Refusal)),
        ("read_edit", _U32, _P(_Map), _P(_Edit)),
        ("set_number", _U32, _P(_Edit), _U64, _U64),
        ("set_text", _U32, _P(_Edit), _BYTES, _SIZE, _U64),
        ("build_bound", _U32, _U32, _SIZE, _SIZE, _P(_SIZE)),
        ("build", _U32, _U32, _BYTES, _SIZE, _BYTES, _SIZE, _BYTES, _SIZE, _P(_SIZE), _P(_Refusal)),
        ("build_strict", _U32, _U32, _BYTES, _SIZE, _BYTES, _SIZE, _BYTES, _SIZE, _P(_SIZE), _P(_Refusal)),
        ("build_arrays", _U32, _U32, _SIZE, _P(_Column), _P(_Column), _BYTES, _SIZE, _P(_SIZE), _P(_Refusal)),
        ("build_arrays_strict", _U32, _U32, _SIZE, _P(_Column), _P(_Column), _BYTES, _SIZE, _P(_SIZE), _P(_Refusal)),
        ("write_header", _U32, _U32, _BYTES, _SIZE, _P(_SIZE)),
        ("check_header", _U32, _U32, _BYTES, _SIZE, _P(_Refusal)),
        ("type_name", _SIZE, _U32, _BYTES, _SIZE),
        ("strerror", _SIZE, _U32, _BYTES, _SIZE),
    ):
        function = getattr(library, f"rkyv_btree_{name}")
        function.restype, function.argtypes = result, parameters
        setattr(functions, name, function)
    return functions
