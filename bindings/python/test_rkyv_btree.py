"""Tests of the Python module: maps of each type and in any order, files, slices of keys, buffers, and bytes that are no map."""

import array
import doctest
import itertools
import mmap
import pathlib
import pickle
import re
import tempfile
import unittest

import rkyv_btree
from rkyv_btree import Edit, Error, Map, Set, build, build_arrays, build_set, contains, find
from rkyv_btree._nodes import Layout
from rkyv_btree._raw import BAD_TYPE, EMPTY, NUMBERS, TYPES

VALUES = {
    "u32": [0, 1, 7, 2**31, 2**32 - 1],
    "u64": [0, 5, 2**32, 2**63, 2**64 - 1],
    "i64": [-(2**63), -5, 0, 2**32, 2**63 - 1],
    "text": ["", "a", "b\n\t", "ä", "𝄞 long enough for a text of its own"],
    "bytes": [b"", b"\0", b"a", b"\x80\xff", b"\xff" * 100],
}


class Maps(unittest.TestCase):
    def test_all_types(self):
        for key_type, keys in VALUES.items():
            for value_type, values in VALUES.items():
                entries = list(zip(keys, values))
                for strict in (False, True):
                    found = Map(build(key_type, value_type, entries, strict), key_type, value_type, strict)
                    self.assertEqual(list(found.items()), entries)
                    self.assertEqual(list(found), keys)
                    self.assertEqual(len(found), len(entries))
                    for key, value in entries:
                        self.assertIn(key, found)
                        self.assertEqual(found[key], value)

    def test_lengths_and_slices(self):
        for length in [*range(60), 255, 256, 257, 511, 512, 513, 2000]:
            entries = [(2 * n, n) for n in range(length)]
            found = Map(build("u32", "u64", entries), "u32", "u64", strict=True)
            self.assertEqual(dict(found), dict(entries))
            for low in (0, 1, length, 2 * length):
                for high in (0, length, 2 * length, 3 * length):
                    wanted = [e for e in entries if low <= e[0] < high]
                    self.assertEqual(list(found[low:high]), wanted)

    def test_sets(self):
        for key_type, keys in VALUES.items():
            for length in range(len(keys) + 1):
                data = build_set(key_type, keys[:length], strict=True)
                found = Set(data, key_type, strict=True)
                self.assertEqual((list(found), len(found)), (keys[:length], length))
                for key in [*keys, None, -(2**70), 1.5]:
                    self.assertEqual(key in found, key in keys[:length])
                    self.assertEqual(contains(data, key_type, key), key in keys[:length])
                self.assertEqual(list(found[keys[1] :]), keys[1:length])
                self.assertEqual(found & set(keys[:2]), set(keys[: min(length, 2)]))
        unordered = Set(build_set("u32", [3, 1, 2, 1]), "u32")
        self.assertEqual((list(unordered), 1 in unordered, 3 in unordered, 4 in unordered), ([3, 1, 2, 1], True, True, False))
        with self.assertRaises(Error) as caught:
            build_set("u32", [2, 1], strict=True)
        self.assertEqual(caught.exception.found, 1)
        for wrong in (lambda: Map(build_set("u32", [1]), "u32", "empty"), lambda: Set(b"", "empty"), lambda: Set(b"", "u32")):
            with self.assertRaises(ValueError):
                wrong()
        with self.assertRaises(TypeError):
            unordered[1]
        with tempfile.NamedTemporaryFile() as file:
            file.write(build_set("text", ["a", "b"]))
            file.flush()
            with Set.from_file(file.name, "text") as mapped:
                self.assertEqual((sorted(mapped), repr(mapped)), (["a", "b"], "<rkyv_btree.Set of text, len 2>"))
            with self.assertRaises(Error):
                len(mapped)

    def test_bytes(self):
        entries = [(bytes([n, 255]), bytes([255] * (n % 40))) for n in range(256)]
        data = build("bytes", "bytes", entries, strict=True)
        found = Map(data, "bytes", "bytes", strict=True)
        for key, value in entries:
            self.assertEqual((found[key], find(data, "bytes", "bytes", key)), (value, value))
        for absent in (b"", b"\xff", "a", 1, None):
            self.assertNotIn(absent, found)
            self.assertIsNone(find(data, "bytes", "bytes", absent))
        for low in (b"", b"\x07", b"\x07\xff", b"\xff\xff\xff"):
            self.assertEqual(list(found[low:]), [entry for entry in entries if entry[0] >= low])
            self.assertEqual(list(found[:low]), [entry for entry in entries if entry[0] < low])
        joined = [b"".join(column) for column in zip(*entries)]
        ends = [array.array("I", itertools.accumulate(map(len, column), initial=0)) for column in zip(*entries)]
        self.assertEqual(build_arrays("bytes", "bytes", (ends[0], joined[0]), (ends[1], joined[1])), data)
        buffer = bytearray(build("bytes", "u32", [(b"\xff", 1)]))
        with Edit(buffer, "bytes", "u32") as edit:
            edit[b"\xff"] = 2
            self.assertEqual((list(edit.items()), [type(key) for key in edit]), ([(b"\xff", 2)], [bytes]))
        for wrong in ("a", 1, bytearray(b"a")):
            with self.assertRaises(TypeError):
                build("bytes", "u32", [(wrong, 1)])
        unordered = list(Map(build("bytes", "u32", [(b"b", 1), (b"a", 2)]), "bytes", "u32"))
        self.assertEqual([type(key) for key in pickle.loads(pickle.dumps(unordered))], [bytes, bytes])

    def test_signed_keys(self):
        entries = [(3 * n, -n) for n in range(-300, 300)]
        data = build("i64", "i64", entries, strict=True)
        found, wanted = Map(data, "i64", "i64", strict=True), dict(entries)
        ends = [-(2**70), -(2**63), -901, -900, -1, 0, 1, 897, 2**63 - 1, 2**63, 2**70]
        for key in [*range(-910, 910), *ends]:
            self.assertEqual(found.get(key), wanted.get(key))
            self.assertEqual(find(data, "i64", "i64", key), wanted.get(key))
        for low in ends:
            for high in ends:
                self.assertEqual(list(found[low:high]), [entry for entry in entries if low <= entry[0] < high])
        buffer = bytearray(data)
        with Edit(buffer, "i64", "i64") as edit:
            edit[-3] = -(2**63)
            for value in (-(2**63) - 1, 2**63):
                with self.assertRaises(Error):
                    edit[-3] = value
            with self.assertRaises(KeyError):
                edit[-2] = 1
            self.assertEqual(edit[-3], -(2**63))
        keys, values = (array.array("q", column) for column in zip(*entries))
        self.assertEqual(build_arrays("i64", "i64", keys, values), data)
        for number in (-(2**63) - 1, 2**63):
            with self.assertRaises(Error) as caught:
                build("i64", "u32", [(0, 1), (number, 2)])
            self.assertEqual(caught.exception.found, 1)
        with self.assertRaises(TypeError):
            build_arrays("i64", "i64", array.array("Q", [1]), array.array("q", [1]))

    def test_any_order(self):
        for key_type, value_type, entries in (
            ("u32", "u32", [(1, 1), (1, 2), (1, 3)]),
            ("u32", "text", [(9, "i"), (7, "g"), (8, "h"), (7, "g again")]),
            ("text", "u64", [("b", 1), ("a", 2), ("b", 3), ("", 4)]),
            ("text", "text", [("b", "1"), ("a", "2")]),
            ("u64", "u64", [(7919 * n % 1000, n) for n in range(2000)]),
            ("i64", "i64", [(7919 * n % 1000 - 500, -n) for n in range(2000)]),
            ("bytes", "bytes", [(b"b", b"1"), (b"\xff", b""), (b"a", b"\xfe"), (b"b", b"2")]),
        ):
            keys, values = [list(part) for part in zip(*entries)]
            found = Map(build(key_type, value_type, entries), key_type, value_type)
            self.assertEqual(list(found), keys)
            self.assertEqual(list(found.keys()), keys)
            self.assertEqual(list(found.values()), values)
            self.assertEqual(list(found.items()), entries)
            for view in (found, found.keys(), found.values(), found.items()):
                self.assertEqual(len(view), len(entries))
            self.assertEqual(dict(found), dict(entries))
            self.assertEqual({**found}, dict(entries))
            self.assertEqual(found, dict(entries))
            for key, (_, value) in zip(found, entries):
                self.assertIn(key, found)
                self.assertEqual(found[key], value)
            for entry in entries[:100]:
                self.assertIn(entry, found.items())
                self.assertIn(entry[1], found.values())
            for item in ((keys[0], "none"), ("none", values[0]), keys[0], None):
                self.assertNotIn(item, found.items())
            self.assertNotIn("none", found.values())

    def test_keys_of_an_unordered_map(self):
        found = Map(build("text", "u32", [("b", 1), ("a", 2)]), "text", "u32")
        other = Map(build("text", "u32", [("a", 3)]), "text", "u32")
        given = list(found)
        self.assertEqual([other.get(key) for key in given], [None, 3])
        copied = pickle.loads(pickle.dumps(dict(found)))
        self.assertEqual([(type(key), key, copied[key]) for key in copied], [(str, "b", 1), (str, "a", 2)])
        numbers = Map(build("u64", "u32", [(2, 1), (1, 2)]), "u64", "u32")
        self.assertEqual([type(key) for key in pickle.loads(pickle.dumps(list(numbers)))], [int, int])

    def test_views_of_an_ordered_map(self):
        found = Map(build("text", "u32", [("a", 1), ("b", 1)]), "text", "u32")
        self.assertEqual([type(key) for key in found], [str, str])
        self.assertEqual(list(found.values()), [1, 1])
        self.assertIn(("b", 1), found.items())
        for item in (("b", 2), ("c", 1), ("b",), "b", (1, 1)):
            self.assertNotIn(item, found.items())
        self.assertEqual(found.items() & {("a", 1), ("a", 2)}, {("a", 1)})
        self.assertEqual(found.keys() | {"c"}, {"a", "b", "c"})

    def test_texts_in_order_of_bytes(self):
        words = sorted({f"{a}{b}" for a in "aäz𝄞" for b in "\x00b\uffff"}, key=str.encode)
        found = Map(build("text", "text", [(w, w) for w in words], strict=True), "text", "text", strict=True)
        self.assertEqual([k for k, _ in found["b":]], [w for w in words if w.encode() >= b"b"])
        self.assertEqual([k for k, _ in found[:"z"]], [w for w in words if w.encode() < b"z"])

    def test_absent(self):
        found = Map(build("text", "u32", [("b", 1)]), "text", "u32")
        for key in ("a", "c", "", "\ud800", 1, None):
            self.assertNotIn(key, found)
        with self.assertRaises(KeyError):
            found["a"]
        with self.assertRaises(ValueError):
            found["a":"b":2]
        self.assertEqual(found.get("a", 7), 7)
        numbers = Map(build("u32", "u32", [(1, 1)]), "u32", "u32")
        for key in (-1, 2**32 + 1, 2**64, "1"):
            self.assertNotIn(key, numbers)
        self.assertEqual(list(numbers[2**70:]), [])

    def test_file(self):
        with tempfile.TemporaryDirectory() as folder:
            path = pathlib.Path(folder) / "archive"
            path.write_bytes(build("text", "u64", [(f"{n:06}", n) for n in range(10000)]))
            found = Map.from_file(path, "text", "u64", strict=True)
            self.assertEqual(found["004711"], 4711)
            self.assertEqual(sum(v for _, v in found.items()), 9999 * 5000)
            path.write_bytes(b"")
            with self.assertRaises(Error):
                Map.from_file(path, "text", "u64")

    def test_closing(self):
        with tempfile.TemporaryDirectory() as folder:
            path = pathlib.Path(folder) / "archive"
            path.write_bytes(build("text", "u32", [("a", 1), ("b", 2)]))
            for opened in (Map.from_file(path, "text", "u32"), Map(path.read_bytes(), "text", "u32")):
                with opened as found:
                    entries = iter(found.items())
                    self.assertEqual(next(entries), ("a", 1))
                for call in (
                    lambda: len(found),
                    lambda: "a" in found,
                    lambda: 1 in found,
                    lambda: found["a"],
                    lambda: found["a":],
                    lambda: list(found),
                    lambda: list(found.items()),
                    lambda: ("a", 1) in found.items(),
                    lambda: next(entries),
                ):
                    with self.assertRaises(Error) as caught:
                        call()
                    self.assertEqual(str(caught.exception), "the map isn't open")
                found.close()
            opened = Map.from_file(path, "text", "u32")
            mapped = opened._file
            self.assertFalse(mapped.closed)
            opened.close()
            self.assertTrue(mapped.closed)

    def test_wrong_types(self):
        numbers, texts = Map(build("u32", "u32", [(1, 1)]), "u32", "u32"), Map(build("text", "u32", [("a", 1)]), "text", "u32")
        for call, message in (
            (lambda: Map(bytearray(8), "u32", "u32"), "data must be bytes, which don't change, not bytearray; Map.from_file maps a file"),
            (lambda: find("text", "u32", "u32", 1), "memoryview: a bytes-like object is required, not 'str'"),
            (lambda: numbers["a":], "a key of a slice must be int, not str"),
            (lambda: texts[:1], "a key of a slice must be str, not int"),
            (lambda: texts[1:], "a key of a slice must be str, not int"),
            (lambda: build("text", "u32", [(1, 1)]), "a key must be str, not int"),
            (lambda: build("u32", "text", [(1, b"a")]), "a value must be str, not bytes"),
            (lambda: build("u32", "u64", [(1, None)]), "a value must be int, not NoneType"),
        ):
            with self.assertRaises(TypeError) as caught:
                call()
            self.assertEqual(str(caught.exception), message)
        for call in (lambda: Map(bytes(8), "u16", "u32"), lambda: build("u32", "f64", []), lambda: find(bytes(8), "u32", "str", 1)):
            with self.assertRaisesRegex(ValueError, "^a type must be 'u32', 'u64', 'i64', 'text' or 'bytes', not '(u16|f64|str)'$"):
                call()

    def test_refused(self):
        good = build("u32", "u32", [(1, 2)], untyped=True)
        for data, code in ((b"", 1), (bytes(7), 1), (b"\x07" + good[1:], 3), (good[:-1], 2)):
            with self.assertRaises(Error) as caught:
                Map(data, "u32", "u32")
            self.assertEqual(caught.exception.code, code, data)
        unordered = build("u32", "u32", [(2, 0), (1, 0)])
        self.assertEqual(len(Map(unordered, "u32", "u32")), 2)
        with self.assertRaises(Error) as caught:
            Map(unordered, "u32", "u32", strict=True)
        self.assertEqual(str(caught.exception), "a key isn't greater than the key before it at entry 1")
        with self.assertRaises(Error):
            build("u32", "u32", [(2, 0), (1, 0)], strict=True)
        with self.assertRaises(Error):
            build("u32", "u32", [(2**32, 0)])

    def test_build_from_any_iterable(self):
        entries = [(f"{n:05}", n) for n in range(20000)]
        wanted = build("text", "u32", entries)
        self.assertEqual(build("text", "u32", iter(entries)), wanted)
        self.assertEqual(build("text", "u32", dict(entries).items()), wanted)
        self.assertEqual(build("text", "u32", ((key, value) for key, value in entries)), wanted)
        self.assertEqual(list(Map(wanted, "text", "u32", strict=True).items()), entries)
        for entry in ((1,), (1, 2, 3), 7):
            with self.assertRaises((TypeError, ValueError)):
                build("u32", "u32", [(0, 0), entry])

    def test_build_from_mappings(self):
        # Each key is a pair of characters.
        for entries in ({"ab": "c", "de": "f"}, Map(build("text", "text", [("ab", "c")]), "text", "text")):
            self.assertEqual(build("text", "text", entries), build("text", "text", list(entries.items())))

    def test_repr(self):
        with Map(build("text", "u32", [("a", 1)]), "text", "u32") as found:
            self.assertEqual(repr(found), "<rkyv_btree.Map of text to u32, len 1>")
        self.assertEqual(repr(found), "<rkyv_btree.Map of text to u32, closed>")
        with Edit(bytearray(8), "u64", "u32") as edit:
            self.assertEqual(repr(edit), "<rkyv_btree.Edit of u64 to u32, len 0>")

    def test_build_says_which_entry(self):
        def entries(at, bad):
            return (bad if n == at else (n, n) for n in range(30000))

        for at in (0, 1, 8191, 8192, 29999):
            for bad in ((at, 2**32), (at, -1), (2**64, 0)):
                with self.assertRaises(Error) as caught:
                    build("u32", "u32", entries(at, bad))
                self.assertEqual((caught.exception.code, caught.exception.found), (36, at))
            with self.assertRaisesRegex(TypeError, "^a value must be int, not str$"):
                build("u32", "u32", entries(at, (at, "1")))
            if at > 0:
                with self.assertRaises(Error) as caught:
                    build("u32", "u32", entries(at, (at - 1, 0)), strict=True)
                self.assertEqual((caught.exception.code, caught.exception.found), (37, at))
                self.assertEqual(str(caught.exception), f"the keys don't increase at entry {at}")
        with self.assertRaises(Error) as caught:
            build("u32", "text", [(1, "a"), (2, "\ud800")])
        self.assertEqual(str(caught.exception), "an item is no key or value of the type at entry 1")

    def test_build_in_one_call(self):
        for key_type, value_type in (("u32", "u32"), ("u64", "text"), ("text", "text")):
            for length in (0, 1, 5, 6, 7, 36, 100, 1000, 5000):
                def cell(kind, n):
                    return "" if kind == "text" and n < 5000 else n
                entries = [(cell(key_type, n), cell(value_type, n)) for n in range(length)]
                self.assertEqual(list(Map(build(key_type, value_type, entries), key_type, value_type).items()), entries)
        # A slice of a table's column: its texts are few, and their buffer is long.
        columns = (array.array("q", [900, 905, 909]), b"-" * 900 + b"applepear" + b"-" * 900), array.array("I", [3, 5])
        self.assertEqual(dict(Map(build_arrays("text", "u32", *columns), "text", "u32")), {"apple": 3, "pear": 5})
        with self.assertRaisesRegex(Error, "at entry 0"):
            build_arrays("text", "u32", (array.array("q", [909, 905, 900]), columns[0][1]), columns[1])

    def test_build_arrays(self):
        codes = {"u32": "I", "u64": "Q", "i64": "q"}
        for size in ("i", "q", "I", "Q"):
            for key_type, keys in VALUES.items():
                for value_type, values in VALUES.items():
                    columns = []
                    for kind, column in ((key_type, keys), (value_type, values)):
                        if kind in ("text", "bytes"):
                            parts = [text.encode() if kind == "text" else text for text in column]
                            ends = [sum(map(len, parts[:n])) for n in range(len(parts) + 1)]
                            columns.append((array.array(size, ends), b"".join(parts)))
                        else:
                            columns.append(array.array(codes[kind], column))
                    for strict in (False, True):
                        data = build_arrays(key_type, value_type, *columns, strict=strict)
                        self.assertEqual(data, build(key_type, value_type, zip(keys, values)))

    def test_arrays_that_have_no_archive(self):
        good = array.array("I", [1, 2, 3])
        for offsets, at in (([0, 1, 2, 9], 2), ([0, 2, 1, 3], 1), ([0, -1, 2, 3], 0), ([-1, 1, 2, 3], 0), ([2**31 - 1, 0, 1, 2], 0)):
            for size in ("i", "q"):
                with self.assertRaises(Error) as caught:
                    build_arrays("text", "u32", (array.array(size, offsets), b"abc"), good)
                self.assertEqual((caught.exception.code, caught.exception.found), (36, at), (offsets, size))
        with self.assertRaises(Error) as caught:
            build_arrays("u32", "text", good, (array.array("i", [0, 1, 2, 3]), b"a\xffc"))
        self.assertEqual((caught.exception.code, caught.exception.found), (36, 1))
        with self.assertRaises(Error) as caught:
            build_arrays("u32", "u32", array.array("I", [1, 2, 2]), good, strict=True)
        self.assertEqual((caught.exception.code, caught.exception.found), (37, 2))
        # A part of Arrow's columns has offsets that don't begin at 0.
        part = memoryview(array.array("i", [0, 1, 2, 3]))[1:]
        self.assertEqual(build_arrays("text", "u32", (part, b"abc"), good[:2]), build("text", "u32", [("b", 1), ("c", 2)]))
        for keys, message in (
            (array.array("Q", [1, 2, 3]), "keys must be a buffer of u32, not of format 'Q'"),
            (array.array("i", [1, 2, 3]), "keys must be a buffer of u32, not of format 'i'"),
            (memoryview(array.array("I", range(6)))[::2], "keys must be contiguous, with one dimension"),
            ([1, 2, 3], "memoryview: a bytes-like object is required, not 'list'"),
        ):
            with self.assertRaises(TypeError) as caught:
                build_arrays("u32", "u32", keys, good)
            self.assertEqual(str(caught.exception), message)
        for keys in (b"abc", (b"abc",), (array.array("H", [0, 1, 2, 3]), b"abc")):
            with self.assertRaises(TypeError):
                build_arrays("text", "u32", keys, good)
        with self.assertRaisesRegex(ValueError, "^there are 3 keys and 2 values$"):
            build_arrays("u32", "u32", good, good[:2])

    def test_edits(self):
        entries = [(f"{n:04}", n) for n in range(3000)]
        data = bytearray(build("text", "u32", entries))
        before = bytes(data)
        with Edit(data, "text", "u32") as found:
            self.assertEqual(list(found.items()), entries)
            self.assertEqual(len(found), 3000)
            for key in ("0000", "1500", "2999"):
                found[key] = 7_000_000
                self.assertEqual(found[key], 7_000_000)
            self.assertEqual([v for _, v in found["1499":"1502"]], [1499, 7_000_000, 1501])
            for key in ("absent", "\ud800", 7, None):
                with self.assertRaises(KeyError):
                    found[key] = 1
            for value in (-1, 2**32, 2**64):
                with self.assertRaises(Error) as caught:
                    found["0001"] = value
                self.assertEqual(caught.exception.code, 20)
            with self.assertRaises(TypeError):
                found["0001"] = "1"
            with self.assertRaises(BufferError):
                data.append(0)
        data.append(0)
        changed = [at for at in range(len(before)) if before[at] != data[at]]
        self.assertTrue(0 < len(changed) <= 12)
        self.assertEqual(Map(bytes(data[:-1]), "text", "u32")["1500"], 7_000_000)
        with self.assertRaises(Error):
            found["0000"] = 1
        with self.assertRaisesRegex(TypeError, "^data must be a buffer that can be written"):
            Edit(before, "text", "u32")
        with self.assertRaises(Error):
            Edit(bytearray(7), "u32", "u32")
        texts = Edit(bytearray(build("u32", "text", [(1, "a")])), "u32", "text")
        with self.assertRaises(Error) as caught:
            texts[1] = 1
        self.assertEqual(caught.exception.code, 20)

    def test_edits_of_an_unordered_map(self):
        found = Edit(bytearray(build("u64", "u64", [(2, 1), (1, 2)])), "u64", "u64")
        keys = list(found)
        self.assertEqual([found[key] for key in keys], [1, 2])
        for key in keys:
            try:
                found[key] = 2**63
            except KeyError:
                continue
            self.assertEqual(found[key], 2**63)
        self.assertIn(2**63, found.values())

    def test_edits_of_other_buffers(self):
        entries = [(n, n) for n in range(100)]
        for code in "BIQ":
            data = array.array(code)
            built = build("u32", "u32", entries)
            data.frombytes(built + bytes(-len(built) % data.itemsize) if code == "B" else built)
            with Edit(data, "u32", "u32") as found:
                found[7] = 8
                self.assertEqual(list(found[6:9]), [(6, 6), (7, 8), (8, 8)])
            data.append(0)
        texts = array.array("B", build("text", "u64", [("a", 1), ("b", 2)]))
        with Edit(texts, "text", "u64") as found:
            found["b"] = 3
            self.assertEqual(dict(found), {"a": 1, "b": 3})
        texts.append(0)

    def test_edits_of_a_file(self):
        with tempfile.TemporaryDirectory() as folder:
            path = pathlib.Path(folder) / "archive"
            path.write_bytes(build("u64", "u64", [(n, n) for n in range(1000)]))
            with Edit.from_file(path, "u64", "u64") as found:
                found[500] = 2**64 - 1
            self.assertEqual(Map.from_file(path, "u64", "u64")[500], 2**64 - 1)
            path.write_bytes(b"")
            with self.assertRaises(Error):
                Edit.from_file(path, "u64", "u64")

    def test_find(self):
        for key_type, keys in VALUES.items():
            for value_type, values in VALUES.items():
                data = build(key_type, value_type, zip(keys, values))
                for key, value in zip(keys, values):
                    self.assertEqual(find(data, key_type, value_type, key), value)
                for key in ("\ud800", "absent", -1, 3, 2**64, None):
                    self.assertIsNone(find(data, key_type, value_type, key))
        with self.assertRaises(Error) as caught:
            find(b"", "u32", "u32", 1)
        self.assertEqual(caught.exception.code, 1)

    def test_find_in_any_buffer(self):
        for key_type, value_type, key, value in (("u32", "text", 7, "seven"), ("text", "u64", "seven", 7)):
            data = build(key_type, value_type, [(key, value)])
            changing = bytearray(data)
            with tempfile.TemporaryFile() as file:
                file.write(data)
                file.flush()
                mapped = mmap.mmap(file.fileno(), 0, access=mmap.ACCESS_READ)
            for buffer in (data, changing, memoryview(data), memoryview(changing), array.array("I", data), mapped, memoryview(mapped)):
                self.assertEqual(find(buffer, key_type, value_type, key), value, buffer)
                self.assertIsNone(find(buffer, key_type, value_type, key + key), buffer)
            # Nothing holds a buffer after the call.
            del buffer
            changing.extend(b"more")
            mapped.close()
        with self.assertRaises(BufferError):
            find(memoryview(bytes(16))[::2], "u32", "u32", 1)

    def test_find_in_other_bytes(self):
        good = build("u32", "text", [(n, "some text") for n in range(20)])
        for at in range(len(good)):
            for byte in (0, 1, 2, 127, 128, 255):
                data = good[:at] + bytes([byte]) + good[at + 1 :]
                try:
                    found = find(data, "u32", "text", 7)
                except (Error, UnicodeDecodeError) as error:
                    self.assertIsInstance(error, Error)
                    self.assertRaises(Error, Map, data, "u32", "text")
                else:
                    self.assertIn(type(found), (str, type(None)))

    def test_forged_cursor(self):
        found = Map(build("u32", "u32", [(n, n) for n in range(1000)]), "u32", "u32")
        for field in ("node", "end", "depth"):
            for number in (1, 7, 33, 1000, 2**31, 2**32 - 1):
                cursor = rkyv_btree._Cursor()
                rkyv_btree._lib.first(found._map, cursor)
                setattr(cursor, field, number)
                batch, written = (rkyv_btree._Entry * 4)(), rkyv_btree._SIZE()
                code = rkyv_btree._lib.next(found._map, cursor, batch, 4, written)
                self.assertIn(code, (0, 19))

    def test_table_of_types(self):
        self.assertEqual(list(VALUES), list(TYPES))
        self.assertEqual(set(NUMBERS), set(itertools.product(TYPES, [*TYPES, EMPTY])))
        self.assertEqual(len(set(NUMBERS.values())), len(NUMBERS))
        for (key_type, value_type), number in NUMBERS.items():
            if value_type == EMPTY:
                data = build_set(key_type, VALUES[key_type], untyped=True)
                texts = sum(len(key.encode() if isinstance(key, str) else key) for key in VALUES[key_type] if not isinstance(key, int))
                layout = Layout(key_type, EMPTY, len(data))
                self.assertEqual(len(data), -(-texts // layout.align) * layout.align + layout.leaf_size + 8)
                self.assertEqual(Set(data, key_type)._map._map.type, number)
                continue
            entry = VALUES[key_type][1], VALUES[value_type][1]
            data = build(key_type, value_type, [entry], untyped=True)
            texts = sum(len(part) for part in entry if not isinstance(part, int))
            layout = Layout(key_type, value_type, len(data))
            # A leaf after the texts, which are rounded up to its alignment, and the eight bytes of the map.
            self.assertEqual(len(data), -(-texts // layout.align) * layout.align + layout.leaf_size + 8)
            self.assertEqual(Map(data, key_type, value_type)._map.type, number)
            inner = build(key_type, value_type, zip(VALUES[key_type] * 2, VALUES[value_type] * 2))
            layout = Layout(key_type, value_type, len(inner))
            root, count = layout.root(inner[-8:])
            self.assertEqual((count, root + layout.size_of(inner[root], root)), (10, len(inner) - 8))
        for number in (0, max(NUMBERS.values()) + 1):
            self.assertEqual(rkyv_btree._lib.open(rkyv_btree._Map(), number, None, 0, rkyv_btree._Refusal()), BAD_TYPE)
        with self.assertRaisesRegex(ValueError, "^a type must be 'u32', 'u64', 'i64', 'text' or 'bytes', not 'i32'$"):
            build("i32", "u32", [])

    def typed(self, types, untyped=False):
        """Returns an archive of a type of maps or sets."""
        key_type, value_type = types
        if value_type == EMPTY:
            return build_set(key_type, VALUES[key_type], untyped=untyped)
        return build(key_type, value_type, zip(VALUES[key_type], VALUES[value_type]), untyped=untyped)

    def calls(self, data, types, **settings):
        """Returns all that opens bytes as of a type, or looks a key up in them."""
        key_type, value_type = types
        if value_type == EMPTY:
            return [
                lambda: Set(data, key_type, **settings),
                lambda: Set(data, key_type, strict=True, **settings),
                lambda: contains(data, key_type, VALUES[key_type][0], **settings),
            ]
        return [
            lambda: Map(data, *types, **settings),
            lambda: Map(data, *types, strict=True, **settings),
            lambda: Edit(bytearray(data), *types, **settings),
            lambda: find(data, *types, VALUES[key_type][0], **settings),
        ]

    def test_each_type_as_each_other(self):
        names = {types: f"[{types[0]} / 5]" if types[1] == EMPTY else f"[{types[0]} -> {types[1]} / 5]" for types in NUMBERS}
        self.assertEqual(len(names), 30)
        for types, name in names.items():
            data = self.typed(types)
            header = b"rkyvbt\1\0" + len(name).to_bytes(4, "little") + name.encode()
            self.assertEqual(data, header.ljust(32, b"\0") + self.typed(types, untyped=True))
            for other, expected in names.items():
                for call in self.calls(data, other):
                    if other == types:
                        call()
                        continue
                    with self.assertRaises(Error) as caught:
                        call()
                    self.assertEqual(str(caught.exception), f"the bytes are of type {name}, not {expected}")
                    self.assertEqual((caught.exception.code, caught.exception.at, caught.exception.found), (50, 12, len(name)))

    def test_without_a_header(self):
        for types in NUMBERS:
            for untyped in (False, True):
                for call in [*self.calls(self.typed(types, untyped), types), *self.calls(self.typed(types, untyped), types, untyped=True)]:
                    call()
        # The first text of an archive begins as a header does.
        data = build("text", "u32", [("rkyvbt, and more", 1)], untyped=True)
        with self.assertRaises(Error) as caught:
            Map(data, "text", "u32")
        self.assertEqual(caught.exception.code, 49)
        self.assertEqual(dict(Map(data, "text", "u32", untyped=True)), {"rkyvbt, and more": 1})
        self.assertEqual(dict(Map(build("text", "u32", [("rkyvbt, and more", 1)]), "text", "u32")), {"rkyvbt, and more": 1})

    def test_headers_of_other_versions(self):
        for types in NUMBERS:
            for version in (0, 2, 256, 65535):
                data = self.typed(types)
                data = data[:6] + version.to_bytes(2, "little") + data[8:]
                for call in self.calls(data, types):
                    with self.assertRaisesRegex(Error, f"^the type header has version {version}, not 1$"):
                        call()
                for call in self.calls(data, types, untyped=True):
                    call()

    def test_headers_that_are_cut(self):
        def told(call):
            try:
                call()
            except Error as error:
                return error.code
            return 0

        for types in NUMBERS:
            data = self.typed(types)
            for cut in range(33):
                for part in (data[:cut], data[cut:]):
                    codes = [told(call) for call in self.calls(part, types)]
                    if 0 < cut < 32:
                        self.assertEqual(codes, [told(call) for call in self.calls(part, types, untyped=True)])

    def test_typed_files(self):
        # What `btreearc build` writes of two lines: tools/run.sh has the same bytes.
        zeros = bytes(4)
        header = b"rkyvbt\1\0\x10\0\0\0[u32 -> u32 / 5]" + zeros
        leaf = zeros + b"\7\0\0\0\x08\0\0\0" + 3 * zeros + b"\x0b\0\0\0\x0c\0\0\0" + 3 * zeros + b"\2\0\0\0"
        self.assertEqual(build("u32", "u32", [(7, 11), (8, 12)]), header + leaf + b"\xd0\xff\xff\xff\2\0\0\0")
        with tempfile.TemporaryDirectory() as folder:
            path = pathlib.Path(folder) / "archive"
            path.write_bytes(build("text", "u32", [("a", 1)]))
            said = r"^the bytes are of type \[text -> u32 / 5\], not \[text (-> u64 )?/ 5\]$"
            for call in (
                lambda: Map.from_file(path, "text", "u64"), lambda: Edit.from_file(path, "text", "u64"), lambda: Set.from_file(path, "text"),
            ):
                with self.assertRaisesRegex(Error, said):
                    call()
            with Edit.from_file(path, "text", "u32") as found:
                found["a"] = 2
            for untyped in (False, True):
                self.assertEqual(dict(Map.from_file(path, "text", "u32", untyped=untyped)), {"a": 2})
                Edit.from_file(path, "text", "u32", untyped).close()
        name = "é" * 100
        data = b"rkyvbt\1\0" + (200).to_bytes(4, "little") + name.encode() + bytes(12 + 8)
        with self.assertRaisesRegex(Error, f"^the bytes are of type {name[:64]}, not "):
            Map(data, "u32", "u32")
        self.assertEqual(len(Map(data, "u32", "u32", untyped=True)), 0)

    def test_version_and_types(self):
        folder = pathlib.Path(rkyv_btree.__file__).parent
        cargo = (folder.parents[1] / "rust" / "Cargo.toml").read_text()
        self.assertIn(f'version = "{rkyv_btree.__version__}"\n', cargo)
        self.assertTrue((folder / "py.typed").exists())

    def test_readme(self):
        readme = (pathlib.Path(__file__).parent / "README.md").read_text()
        example = re.search(r"```python\n(.*?)```", readme, re.S).group(1)
        exec(example, {})


def load_tests(loader, tests, ignore):
    tests.addTests(doctest.DocTestSuite(rkyv_btree))
    return tests


if __name__ == "__main__":
    unittest.main()
