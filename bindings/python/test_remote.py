"""Tests of lookups in an archive that lies elsewhere: over a list of reads, and over a server of HTTP on this machine."""

import asyncio
import doctest
import http.server
import pathlib
import random
import struct
import tempfile
import threading
import unittest
from array import array

import rkyv_btree.remote
from rkyv_btree import Error, Map, Set, build, build_arrays, build_set
from rkyv_btree._nodes import Layout
from rkyv_btree.remote import AsyncRemote, Changed, Remote
from rkyv_btree.top import Top, top_of, write_top

WORDS = [f"{n:05} {'x' * (n % 40)}" for n in range(5000)]
ENTRIES = {
    ("u32", "u32"): [(2 * n, n) for n in range(5000)],
    ("u32", "text"): [(2 * n, word) for n, word in enumerate(WORDS)],
    ("u64", "u64"): [(2**40 + 2 * n, n) for n in range(5000)],
    ("i64", "i64"): [(2 * n - 5000, -n) for n in range(5000)],
    ("text", "u32"): [(word, n) for n, word in enumerate(WORDS)],
    ("text", "text"): [(word, word[::-1]) for word in WORDS],
    ("bytes", "bytes"): [(b"\xff" + word.encode(), word[::-1].encode() + b"\xff") for word in WORDS],
}


class Lookups(unittest.TestCase):
    def test_each_type(self):
        for (key_type, value_type), entries in ENTRIES.items():
            data = build(key_type, value_type, entries)
            for block, cache in ((64, 0), (1000, 5000), (16384, 8 << 20)):
                remote = Remote(lambda pos, count: data[pos : pos + count], len(data), key_type, value_type, block, cache)
                wanted = dict(entries[::400])
                for key, value in wanted.items():
                    self.assertEqual(remote.get(key), value)
                self.assertEqual(remote.get_many(wanted), wanted)
                others = [1, 2**32 - 1, -1, 2**64, -(2**64)]
                absent = {"text": ["", "zz", "\ud800"], "bytes": [b"", b"\xff", b"zz"]}.get(key_type, others)
                for key in [*absent, None, b"a"]:
                    self.assertIsNone(remote.get(key))
                self.assertEqual(remote.get(absent[0], 7), 7)
                self.assertEqual(remote.get_many([*absent, *wanted]), wanted)

    def test_reads(self):
        data = build("u32", "u32", ENTRIES["u32", "u32"])
        reads = []

        def fetch(pos, count):
            reads.append((pos, count))
            return data[pos : pos + count]

        remote = Remote(fetch, len(data), "u32", "u32", block=512)
        self.assertEqual(remote.get(4000), 2000)
        self.assertTrue(0 < len(reads) <= 8)
        self.assertEqual(remote.get(4000), 2000)
        self.assertLessEqual(len(reads), 8)
        reads.clear()
        remote = Remote(fetch, len(data), "u32", "u32", block=512, top=[(0, data)])
        self.assertEqual(remote.get_many(range(0, 2000, 2)), {key: key // 2 for key in range(0, 2000, 2)})
        self.assertEqual(reads, [])

    def test_bad_bytes(self):
        for (key_type, value_type), entries in ENTRIES.items():
            good = build(key_type, value_type, entries[:200])
            rest = random.Random(7)
            for _ in range(300):
                data = bytearray(good)
                for _ in range(rest.randrange(1, 20)):
                    data[rest.randrange(len(data))] = rest.randrange(256)
                data = bytes(data)
                remote = Remote(lambda pos, count: data[pos : pos + count], len(data), key_type, value_type, block=128)
                for key, _ in entries[:200:23]:
                    try:
                        found = remote.get(key)
                    except Error:
                        self.assertRaises(Error, Map, data, key_type, value_type)
                    else:
                        self.assertIn(type(found), (type(entries[0][1]), type(None)))

    def test_sets(self):
        for key_type, value_type in (("u32", "u32"), ("i64", "i64"), ("text", "u32"), ("bytes", "bytes")):
            keys = [key for key, _ in ENTRIES[key_type, value_type]]
            data = build_set(key_type, keys, strict=True)
            absent = {"text": ["", "zz", "\ud800"], "bytes": [b"", b"\xff", b"zz"]}.get(key_type, [1, 2**32 - 1, 2**64])
            for settings in ({}, {"block": 64, "cache": 0}, {"block": 1000, "top": top_of(data, key_type, None)}):
                remote = Remote(lambda pos, count: data[pos : pos + count], len(data), key_type, None, **settings)
                self.assertEqual([remote.contains(key) for key in keys[::700]], [True] * len(keys[::700]))
                self.assertEqual([remote.contains(key) for key in [*absent, None]], [False] * (len(absent) + 1))
                self.assertEqual(remote.contains_many([*absent, *keys[::300]]), set(keys[::300]))
                self.assertEqual(list(remote.range()), keys)
                self.assertEqual(list(remote.range(keys[70], keys[95])), keys[70:95])
                for call in (remote.get, lambda key: remote.get_many([key])):
                    with self.assertRaisesRegex(TypeError, "^a set has no values: `contains` looks a key up$"):
                        call(keys[0])
        pairs = build("u32", "u32", ENTRIES["u32", "u32"])
        prices = Remote(lambda pos, count: pairs[pos : pos + count], len(pairs), "u32", "u32")
        self.assertEqual(prices.contains_many([0, 1, 2]), {0, 2})
        self.assertRaises(ValueError, Remote, lambda pos, count: data, len(data), "bytes", "u32", top=top_of(data, "bytes", None))

    def test_sets_of_bad_bytes(self):
        good, rest = build_set("text", WORDS[:200]), random.Random(7)
        for _ in range(300):
            data = bytearray(good)
            for _ in range(rest.randrange(1, 20)):
                data[rest.randrange(len(data))] = rest.randrange(256)
            data = bytes(data)
            remote = Remote(lambda pos, count: data[pos : pos + count], len(data), "text", None, block=128)
            for call in (lambda: remote.contains(WORDS[60]), lambda: list(remote.range())):
                try:
                    call()
                except Error:
                    self.assertRaises(Error, Set, data, "text", strict=True)

    def test_headers(self):
        for key_type, value_type, entries in (("u32", "u32", [(1, 2)]), ("text", "bytes", [("a", b"b")]), ("i64", None, [-1])):
            for untyped in (False, True):
                data = build_set(key_type, entries, untyped=untyped) if value_type is None else build(key_type, value_type, entries, untyped=untyped)
                for settings in ({}, {"block": 8, "cache": 0}, {"top": top_of(data, key_type, value_type)}):
                    Remote(Counted(data).fetch, len(data), key_type, value_type, **settings).check_type()
                    other, later = (kind(fetch, len(data), "bytes", "u32", **{**settings, "top": None}) for kind, fetch in (
                        (Remote, Counted(data).fetch), (AsyncRemote, Counted(data).later)
                    ))
                    for call in (other.check_type, lambda: asyncio.run(later.check_type())):
                        if untyped:
                            call()
                            continue
                        with self.assertRaisesRegex(Error, r"^the bytes are of type \[.* / 5\], not \[bytes -> u32 / 5\]$"):
                            call()
        for data in (b"", bytes(8), b"rkyvbt"):
            Remote(Counted(data).fetch, len(data), "u32", "u32").check_type()
        data = b"rkyvbt\2\0" + bytes(8000)
        reads = Counted(data)
        with self.assertRaisesRegex(Error, "^the type header has version 2, not 1$"):
            Remote(reads.fetch, len(data), "u32", "u32", block=512).check_type()
        self.assertEqual(reads.reads, [(0, 4096)])

    def test_fetches_that_fail(self):
        data = build("u32", "u32", ENTRIES["u32", "u32"])
        with self.assertRaisesRegex(OSError, "^[0-9]+ bytes from position [0-9]+ on were asked for, and [0-9]+ came$"):
            Remote(lambda pos, count: data[pos : pos + count - 1], len(data), "u32", "u32").get(1)
        with self.assertRaises(ZeroDivisionError):
            Remote(lambda pos, count: 1 // 0, len(data), "u32", "u32").get(1)
        for size in (0, 7):
            with self.assertRaises(Error):
                Remote(lambda pos, count: data[pos : pos + count], size, "u32", "u32").get(1)
        with self.assertRaises(Error) as caught:
            Remote(lambda pos, count: data[pos : pos + count], 2**32, "u32", "u32").get(1)
        self.assertEqual(caught.exception.code, 8)
        for settings in ({"block": 0}, {"block": -1}):
            with self.assertRaises(ValueError):
                Remote(lambda pos, count: b"", 8, "u32", "u32", **settings)


class Counted:
    """Reads of an archive in memory, which are counted."""

    def __init__(self, data):
        self.data, self.reads = data, []

    def fetch(self, pos, count):
        self.reads.append((pos, count))
        return self.data[pos : pos + count]

    async def later(self, pos, count):
        await asyncio.sleep(0)
        return self.fetch(pos, count)


class Requests(unittest.TestCase):
    """How many requests a lookup takes in archives of about 100 MB."""

    def count(self, data, types, keys, **settings):
        counted = Counted(data)
        remote = Remote(counted.fetch, len(data), *types, **settings)
        half = len(keys) // 2
        for at, (key, value) in enumerate(keys):
            if at == half:
                counted.reads.clear()
            self.assertEqual(remote.get(key), value)
        return len(counted.reads) / half

    def compare(self, data, types, keys):
        top = top_of(data, *types)
        self.assertLess(len(top), 1 << 19)
        # The first half of the lookups fills the cache.
        self.assertLessEqual(self.count(data, types, keys, cache=8 << 20), 2.3)
        self.assertGreater(self.count(data, types, keys, cache=8 << 20), 1.5)
        self.assertLessEqual(self.count(data, types, keys, cache=8 << 20, top=top), 1)
        self.assertLessEqual(self.count(data, types, keys, cache=0, top=top), 1)

    def test_numbers(self):
        count, rest = 9_700_000, random.Random(5)
        data = build_arrays("u32", "u32", array("I", range(0, 400 * count, 400)), array("I", range(count)))
        self.compare(data, ("u32", "u32"), [(400 * n, n) for n in (rest.randrange(count) for _ in range(3000))])

    def test_texts(self):
        rest = random.Random(6)
        words = [f"key {n:09} {'x' * (n % 9)}" for n in range(1_500_000)]
        data = build("text", "text", ((word, word) for word in words))
        self.compare(data, ("text", "text"), [(word, word) for word in rest.choices(words, k=3000)])

    def test_many_together(self):
        data = build_arrays("u32", "u32", array("I", range(200_000)), array("I", range(200_000)))
        counted = Counted(data)
        remote = Remote(counted.fetch, len(data), "u32", "u32", top=top_of(data, "u32", "u32"))
        self.assertEqual(remote.get_many(range(1000)), {key: key for key in range(1000)})
        self.assertLessEqual(len(counted.reads), 3)


class Sidecars(unittest.TestCase):
    def test_each_type_and_depth(self):
        for (key_type, value_type), entries in ENTRIES.items():
            for length in (0, 1, 5, 6, 36, 5000):
                data = build(key_type, value_type, entries[:length])
                for levels in (1, 2, 5, 32):
                    top = top_of(data, key_type, value_type, levels)
                    read = Top.from_bytes(top)
                    self.assertTrue(all(data[pos : pos + len(part)] == part for pos, part in read.pieces))
                    self.assertEqual(read.to_bytes(), top)
                    counted = Counted(data)
                    remote = Remote(counted.fetch, len(data), key_type, value_type, top=top)
                    wanted = dict(entries[:length:97])
                    self.assertEqual(remote.get_many(wanted), wanted)
                    if levels == 32 and value_type != "text":
                        self.assertEqual(counted.reads, [])

    def test_files(self):
        entries = ENTRIES["text", "u32"]
        with tempfile.TemporaryDirectory() as folder:
            path = pathlib.Path(folder, "archive")
            data = build("text", "u32", entries)
            path.write_bytes(data)
            beside = write_top(path, "text", "u32", levels=3)
            self.assertEqual(sorted(pathlib.Path(folder).iterdir()), [path, beside])
            self.assertEqual(beside.read_bytes(), top_of(data, "text", "u32", levels=3))
            for top in (beside, str(beside), beside.read_bytes(), Top.from_bytes(beside.read_bytes())):
                remote = Remote(Counted(data).fetch, len(data), "text", "u32", top=top)
                self.assertEqual(remote.get(WORDS[77]), 77)

    def test_bytes(self):
        # The Rust crate makes the same sidecar.
        written = pathlib.Path(__file__).parents[1] / "rust" / "tests" / "sidecar.hex"
        data = build("text", "u32", ((f"key {n:02}", n) for n in range(40)), untyped=True)
        self.assertEqual(top_of(data, "text", "u32", levels=1, etag='"one"'), bytes.fromhex(written.read_text()))

    def test_refusals(self):
        data = build("u32", "u32", ENTRIES["u32", "u32"])
        top = top_of(data, "u32", "u32")
        for cut in (0, 7, 40, len(top) - 1):
            self.assertRaises(ValueError, Top.from_bytes, top[:cut])
        for at in range(0, len(top), 41):
            self.assertRaises(ValueError, Top.from_bytes, top[:at] + bytes([top[at] ^ 1]) + top[at + 1 :])
        for size, types in ((len(data) - 8, ("u32", "u32")), (len(data), ("u32", "u64"))):
            with self.assertRaisesRegex(ValueError, "another archive"):
                Remote(Counted(data).fetch, size, *types, top=top)
        self.assertRaises(ValueError, top_of, b"short", "u32", "u32")
        self.assertRaises(ValueError, top_of, data, "u32", "u32", 0)

    def test_bad_bytes(self):
        good, rest = build("text", "text", ENTRIES["text", "text"][:200]), random.Random(9)
        for _ in range(300):
            data = bytearray(good)
            for _ in range(rest.randrange(1, 20)):
                data[rest.randrange(len(data))] = rest.randrange(256)
            try:
                top_of(bytes(data), "text", "text")
            except Error:
                self.assertRaises(Error, Map, bytes(data), "text", "text")


class Ranges(unittest.TestCase):
    def test_each_type(self):
        for (key_type, value_type), every in ENTRIES.items():
            entries = every[:1500]
            data = build(key_type, value_type, entries)
            whole = Map(data, key_type, value_type)
            for top in (None, top_of(data, key_type, value_type)):
                remote = Remote(Counted(data).fetch, len(data), key_type, value_type, block=1024, cache=4096, top=top)
                self.assertEqual(list(remote.range()), entries)
                words = ["", "00777", WORDS[999], "00999 y", "z", "\ud800"]
                raw = [b"", b"\xff00777", b"\xff" + WORDS[999].encode(), b"\xff\xff"]
                ends = {"text": words, "bytes": raw}.get(key_type, [-1, 0, 1, 777, 2**41, 2**64])
                for low in [*ends, None]:
                    for high in [*ends, None]:
                        self.assertEqual(list(remote.range(low, high)), list(whole[low:high]), (low, high))

    def test_lengths(self):
        for length in range(0, 260, 3):
            entries = [(n, WORDS[n]) for n in range(length)]
            data = build("u32", "text", entries)
            remote = Remote(Counted(data).fetch, len(data), "u32", "text", block=64)
            self.assertEqual(list(remote.range()), entries)
            self.assertEqual(list(remote.range(7, length - 7)), entries[7 : max(length - 7, 0)])

    def test_a_text_at_the_end(self):
        # A text that begins where the archive ends isn't before its own bytes, so a lookup refuses it. Nothing past the end is fetched for it.
        data = bytearray(build("u32", "text", [(1, "")]))
        layout = Layout("u32", "text", len(data))
        root, _ = layout.root(data[-8:])
        at = root + layout.values_at
        struct.pack_into("<i", data, at, len(data) - at)
        reads = Counted(bytes(data))
        remote = Remote(reads.fetch, len(data), "u32", "text", block=len(data))
        with self.assertRaises(Error):
            remote.get(1)
        self.assertEqual(reads.reads, [(0, len(data))])

    def test_requests(self):
        data = build("u32", "u32", ENTRIES["u32", "u32"])
        counted = Counted(data)
        remote = Remote(counted.fetch, len(data), "u32", "u32", block=4096)
        self.assertEqual(len(list(remote.range())), 5000)
        self.assertLessEqual(len(counted.reads), len(data) // 4096 + 1)

    def test_asynchronous(self):
        async def ranged(entries):
            data = build("text", "u32", entries)
            remote = AsyncRemote(Counted(data).later, len(data), "text", "u32", block=512)
            return [entry async for entry in remote.range("00100", "00200")]

        self.assertEqual(asyncio.run(ranged(ENTRIES["text", "u32"])), ENTRIES["text", "u32"][100:200])

    def test_bounds_of_another_type(self):
        remote = Remote(Counted(bytes(8)).fetch, 8, "text", "u32")
        self.assertEqual(list(remote.range("a")), [])
        for low, high in ((1, None), (None, b"a")):
            with self.assertRaisesRegex(TypeError, "a bound of a range must be str"):
                list(remote.range(low, high))

    def test_bad_bytes(self):
        for (key_type, value_type), entries in ENTRIES.items():
            good, rest, refused = build(key_type, value_type, entries[:200]), random.Random(8), 0
            for _ in range(300):
                data = bytearray(good)
                for _ in range(rest.randrange(1, 20)):
                    data[rest.randrange(len(data))] = rest.randrange(256)
                data = bytes(data)
                remote = Remote(Counted(data).fetch, len(data), key_type, value_type, block=128)
                try:
                    found = list(remote.range())
                except Error:
                    refused += 1
                    self.assertRaises(Error, Map, data, key_type, value_type, strict=True)
                    continue
                self.assertTrue(all(low[0] < high[0] for low, high in zip(found, found[1:])))
                try:
                    self.assertEqual(found, list(Map(data, key_type, value_type, strict=True).items()))
                except Error:
                    pass
            self.assertGreater(refused, 100)

    def test_each_refusal(self):
        # Eight bytes that belong to nothing, a leaf, and the offset of the root with the number of entries. The leaf ends with its own number.
        good = bytes(8) + build("u32", "u32", ENTRIES["u32", "u32"][:5], untyped=True)
        self.assertEqual(len(good), 64)
        for at, byte, code in ((60, 4, 7), (56, 0x80, 1), (56, 0xCF, 2), (8, 7, 3), (52, 6, 4)):
            data = good[:at] + bytes([byte]) + good[at + 1 :]
            with self.assertRaises(Error) as whole:
                Map(data, "u32", "u32")
            with self.assertRaises(Error) as caught:
                list(Remote(Counted(data).fetch, len(data), "u32", "u32").range())
            self.assertEqual(caught.exception.code, code)
            self.assertEqual(vars(caught.exception), vars(whole.exception))
        text = build("text", "u32", [("é", 1)], untyped=True)
        # The first byte of the text, and the offset that leads to it.
        for at, byte, code in ((0, 0xFF, 5), (9, 1, 1)):
            data = text[:at] + bytes([byte]) + text[at + 1 :]
            with self.assertRaises(Error) as caught:
                list(Remote(Counted(data).fetch, len(data), "text", "u32").range())
            self.assertEqual(caught.exception.code, code)

    def test_keys_in_no_order(self):
        for keys in ([1, 1], [2, 1], [1, 2, 3, 4, 5, 6, 6]):
            data = build("u32", "u32", [(key, 0) for key in keys])
            with self.assertRaises(Error) as caught:
                list(Remote(Counted(data).fetch, len(data), "u32", "u32").range())
            self.assertEqual(caught.exception.code, 9)


class Asynchronous(unittest.TestCase):
    def test_each_type(self):
        async def lookups(key_type, value_type, entries):
            counted = Counted(build(key_type, value_type, entries))
            remote = AsyncRemote(counted.later, len(counted.data), key_type, value_type, block=512, cache=2048)
            wanted = dict(entries[::400])
            self.assertEqual(await remote.get_many(wanted), wanted)
            for key, value in wanted.items():
                self.assertEqual(await remote.get(key), value)
            self.assertEqual(await remote.get(None, 7), 7)
            # Tasks that share the cache.
            self.assertEqual(await asyncio.gather(*map(remote.get, wanted)), list(wanted.values()))

        for (key_type, value_type), entries in ENTRIES.items():
            asyncio.run(lookups(key_type, value_type, entries))

    def test_same_requests(self):
        data = build("u32", "u32", ENTRIES["u32", "u32"])
        one, other = Counted(data), Counted(data)
        keys = range(0, 10000, 700)
        found = Remote(one.fetch, len(data), "u32", "u32", block=512).get_many(keys)
        self.assertEqual(asyncio.run(AsyncRemote(other.later, len(data), "u32", "u32", block=512).get_many(keys)), found)
        self.assertEqual(one.reads, other.reads)

    def test_at_the_same_time(self):
        data = build("u32", "u32", ENTRIES["u32", "u32"])
        under_way, most = 0, 0

        async def fetch(pos, count):
            nonlocal under_way, most
            under_way += 1
            most = max(most, under_way)
            await asyncio.sleep(0)
            under_way -= 1
            return data[pos : pos + count]

        asyncio.run(AsyncRemote(fetch, len(data), "u32", "u32", block=512).get_many(range(0, 10000, 700)))
        self.assertGreater(most, 3)

    def test_refusals(self):
        data = build("u32", "u32", ENTRIES["u32", "u32"])

        async def short(pos, count):
            return data[pos : pos + count - 1]

        with self.assertRaisesRegex(OSError, "were asked for, and"):
            asyncio.run(AsyncRemote(short, len(data), "u32", "u32").get(1))
        with self.assertRaises(Error):
            asyncio.run(AsyncRemote(Counted(b"").later, 0, "u32", "u32").get(1))
        with self.assertRaises(ValueError):
            AsyncRemote(short, 8, "u32", "u32", block=0)


class Handler(http.server.BaseHTTPRequestHandler):
    """Serves one object by ranges, with an ETag."""

    protocol_version = "HTTP/1.1"

    def do_HEAD(self):
        self.answer(200, {"Content-Length": str(len(self.server.data))}, b"")

    def do_GET(self):
        server = self.server
        server.asked += 1
        if server.asked > server.good:
            server.fault(self)
            return
        first, last = map(int, self.headers["Range"].removeprefix("bytes=").split("-"))
        if self.headers["If-Match"] != server.tag:
            self.answer(412, {"Content-Length": "0"}, b"")
            return
        part = server.data[first : last + 1]
        self.answer(206, {"Content-Length": str(len(part)), "Content-Range": f"bytes {first}-{last}/{len(server.data)}"}, part)

    def answer(self, status, headers, data):
        self.send_response(status)
        if self.server.tag is not None:
            self.send_header("ETag", self.server.tag)
        for name, value in headers.items():
            self.send_header(name, value)
        self.end_headers()
        self.wfile.write(data)

    def log_message(self, *words):
        pass


class Served(unittest.TestCase):
    def setUp(self):
        try:
            self.server = http.server.ThreadingHTTPServer(("127.0.0.1", 0), Handler)
        except OSError as error:
            self.skipTest(f"this machine has no loopback: {error}")
        self.server.daemon_threads = True
        self.server.data = build("text", "text", ENTRIES["text", "text"])
        self.server.tag, self.server.asked, self.server.good = '"one"', 0, 10**9
        self.url = f"http://127.0.0.1:{self.server.server_port}/archive"
        threading.Thread(target=self.server.serve_forever, daemon=True).start()

    def tearDown(self):
        self.server.shutdown()
        self.server.server_close()

    def test_lookups(self):
        wanted = dict(ENTRIES["text", "text"][::300])
        with Remote.open_url(self.url, "text", "text", block=4096) as remote:
            self.assertEqual(remote.get_many(wanted), wanted)
            self.assertIsNone(remote.get("absent"))
            asked = self.server.asked
            self.assertEqual(remote.get_many(wanted), wanted)
            self.assertEqual(self.server.asked, asked)

    def test_an_object_that_changes(self):
        # The other object has the same length and other values.
        other = build("text", "text", [(key, value.swapcase()) for key, value in ENTRIES["text", "text"]])
        self.assertEqual(len(other), len(self.server.data))
        for good in range(4):
            self.server.tag, self.server.asked, self.server.good = '"one"', 0, 10**9
            remote = Remote.open_url(self.url, "text", "text", block=256, cache=0)
            first = self.server.data

            def change(handler):
                self.server.data, self.server.tag, self.server.good = other, '"two"', 10**9
                handler.do_GET()

            self.server.fault, self.server.good = change, good
            with remote, self.assertRaises(Changed):
                remote.get(WORDS[2500])
            self.server.data = first

    def test_answers_that_are_no_range(self):
        def short(handler):
            handler.send_response(206)
            handler.send_header("ETag", self.server.tag)
            handler.send_header("Content-Length", "100")
            handler.end_headers()
            handler.wfile.write(b"short")
            handler.close_connection = True

        for fault in (
            short,
            lambda handler: handler.answer(200, {"Content-Length": "3"}, b"all"),
            lambda handler: handler.answer(206, {"Content-Length": "3", "Content-Range": "bytes 0-2/3"}, b"bad"),
            lambda handler: handler.answer(500, {"Content-Length": "0"}, b""),
        ):
            self.server.asked, self.server.good, self.server.fault = 0, 10**9, fault
            remote = Remote.open_url(self.url, "text", "text")
            self.server.good = 0
            with remote, self.assertRaises(OSError) as caught:
                remote.get(WORDS[7])
            self.assertNotIsInstance(caught.exception, Changed)

    def test_sidecars(self):
        types, data = ("text", "text"), self.server.data
        for etag in ("", '"one"'):
            top = top_of(data, *types, etag=etag)
            with Remote.open_url(self.url, *types, top=top) as remote:
                self.assertEqual(remote.get(WORDS[7]), WORDS[7][::-1])
        with self.assertRaisesRegex(Changed, "ETag"):
            Remote.open_url(self.url, *types, top=top_of(data, *types, etag='"two"'))

    def test_objects_without_a_tag(self):
        for tag in (None, 'W/"weak"'):
            self.server.tag = tag
            with self.assertRaisesRegex(OSError, "no strong ETag"):
                Remote.open_url(self.url, "text", "text")
        for url in ("ftp://127.0.0.1/a", "http:///a", "archive"):
            with self.assertRaises(ValueError):
                Remote.open_url(url, "text", "text")


def load_tests(loader, tests, ignore):
    tests.addTests(doctest.DocTestSuite(rkyv_btree.remote))
    return tests


if __name__ == "__main__":
    unittest.main()
