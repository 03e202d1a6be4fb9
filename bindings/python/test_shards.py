"""Tests of data sets of many archives: written, read, replaced by writers that are killed, and written by Dask if it is there."""

import doctest
import functools
import os
import pathlib
import random
import re
import signal
import stat
import subprocess
import sys
import tempfile
import time
import unittest
from importlib.util import find_spec
from unittest import mock

import rkyv_btree.shards
from rkyv_btree import Error, Map, build
from rkyv_btree.shards import Shards, gc, publish, write_shard, write_shards

ENTRIES = {
    ("u32", "u32"): [(3 * n, n) for n in range(1000)],
    ("u64", "text"): [(2**40 + 3 * n, f"value {n}") for n in range(1000)],
    ("text", "u32"): [(f"{n:05}", n) for n in range(1000)],
    ("text", "text"): [(f"{n:05} é", "x" * (n % 30)) for n in range(1000)],
}

# A writer whose values are those of one generation.
WRITER = """
import sys
from rkyv_btree.shards import write_shards
folder, generation = sys.argv[1], int(sys.argv[2])
print("started", flush=True)
write_shards(((n, generation) for n in range(4000)), folder, "u32", "u64", entries=200, levels=2)
print("published", flush=True)
"""


class Folder(unittest.TestCase):
    def setUp(self):
        held = tempfile.TemporaryDirectory()
        self.addCleanup(held.cleanup)
        self.folder = held.name

    def files(self):
        return sorted(str(path.relative_to(self.folder)) for path in pathlib.Path(self.folder).rglob("*") if path.is_file())


class DataSets(Folder):
    def compare(self, shards, entries):
        wanted = dict(entries)
        self.assertEqual(len(shards), len(entries))
        self.assertEqual(shards.get_many(wanted), wanted)
        for key, value in entries[::97]:
            self.assertEqual(shards.get(key), value)
        self.assertEqual(list(shards.range()), entries)
        keys = [key for key, _ in entries]
        for low, high in ((0, 5), (99, 101), (100, 100), (250, 777), (7, len(keys) - 1)):
            self.assertEqual(list(shards.range(keys[low], keys[high])), entries[low:high])
            self.assertEqual(list(shards.range(keys[low], None)), entries[low:])
            self.assertEqual(list(shards.range(None, keys[high])), entries[:high])

    def test_each_type(self):
        for levels in (0, 2):
            for (key_type, value_type), entries in ENTRIES.items():
                published = write_shards(iter(entries), self.folder, key_type, value_type, entries=100, levels=levels)
                self.assertEqual((published.shards, published.entries), (10, 1000))
                for most in (1, 64):
                    with Shards(self.folder, most=most) as shards:
                        self.compare(shards, entries)
                        absent = ["", "zz", "\ud800"] if key_type == "text" else [1, 2**63, -1, 2**64]
                        for key in [*absent, None, b"a"]:
                            self.assertIsNone(shards.get(key))
                        self.assertEqual(shards.get(absent[0], 7), 7)

    def test_names(self):
        for levels, suffixes in ((0, [""]), (3, ["", ".top"])):
            published = write_shards(ENTRIES["u32", "u32"], self.folder, "u32", "u32", entries=500, levels=levels)
            gc(self.folder, age=0)
            files = self.files()
            self.assertEqual(len(files), 2 + 2 * len(suffixes))
            self.assertIn(f"index/{published.index}", files)
            for number in (0, 1):
                for suffix in suffixes:
                    self.assertRegex(files[2 + number * len(suffixes) + suffixes.index(suffix)], f"^shards/0000{number}-[0-9a-f]{{64}}{suffix}$")

    def test_typed_files(self):
        entries, place = ENTRIES["u64", "text"], rkyv_btree.shards._folder_of(self.folder)
        published = write_shards(entries, self.folder, "u64", "text", entries=300)
        names = [f"shards/{name}" for _, (name, _, _) in Shards(self.folder)._index]
        self.assertEqual(len(names), 4)
        for name in [*names, f"index/{published.index}"]:
            data = place.read(name)
            self.assertEqual(data[:8], b"rkyvbt\1\0")
            self.assertIn(len(Map(data, "u64", "text", strict=True)), (4, 100, 300))
            with self.assertRaisesRegex(Error, r"^the bytes are of type \[u64 -> text / 5\], not \[u64 -> u64 / 5\]$"):
                Map(data, "u64", "u64")
        # A data set without headers is read too.
        with mock.patch("rkyv_btree.shards.build", functools.partial(build, untyped=True)):
            published = write_shards(entries, self.folder, "u64", "text", entries=300)
        self.assertNotEqual(place.read(f"index/{published.index}")[:6], b"rkyvbt")
        with Shards(self.folder) as shards:
            self.compare(shards, entries)

    def test_an_empty_data_set(self):
        self.assertEqual(write_shards([], self.folder, "text", "u32").shards, 0)
        shards = Shards(self.folder)
        self.assertEqual((len(shards), shards.get("a"), list(shards.range())), (0, None, []))

    def test_order_of_utf_8(self):
        # As UTF-16 the second text would be before the first.
        keys = ["\uffff", "\U00010000"]
        self.assertLess(keys[1].encode("utf-16-be"), keys[0].encode("utf-16-be"))
        write_shards([(key, 1) for key in keys], self.folder, "text", "u32", entries=1)
        self.assertEqual([key for key, _ in Shards(self.folder).range("\uffff")], keys)

    def test_keys_that_do_not_increase(self):
        write_shards([(1, 2)], self.folder, "u32", "u32")
        before = Shards(self.folder).published
        for keys, at in (([1, 1], 1), ([1, 2, 2, 3], 2), ([1, 2, 3, 3], 3), ([1, 2, 4, 5, 6, 5], 5), ([1, 2, 0], 2)):
            for entries in (1, 2, 10):
                with self.assertRaises(Error) as caught:
                    write_shards([(key, 0) for key in keys], self.folder, "u32", "u32", entries=entries)
                self.assertEqual((caught.exception.code, caught.exception.found), (37, at))
        with self.assertRaises(Error) as caught:
            write_shards([(1, 0), (2, 0), (3, 2**32)], self.folder, "u32", "u32", entries=2)
        self.assertEqual((caught.exception.code, caught.exception.found), (36, 2))
        self.assertRaises(ValueError, write_shards, [], self.folder, "u32", "u32", entries=0)
        self.assertEqual(Shards(self.folder).published, before)

    def test_a_reader_keeps_its_data_set(self):
        write_shards(((n, 1) for n in range(1000)), self.folder, "u32", "u32", entries=100)
        reader = Shards(self.folder)
        write_shards(((n, 2) for n in range(1000)), self.folder, "u32", "u32", entries=100)
        self.assertEqual(gc(self.folder, age=3600), [])
        self.assertEqual({value for _, value in reader.range()}, {1})
        self.assertEqual({value for _, value in Shards(self.folder).range()}, {2})
        self.assertEqual(len(gc(self.folder, age=0)), 21)
        self.assertEqual({value for _, value in Shards(self.folder).range()}, {2})
        reader.close()
        self.assertRaises(FileNotFoundError, reader.get, 5)

    def test_bytes_that_changed(self):
        published = write_shards(ENTRIES["u32", "u32"], self.folder, "u32", "u32", entries=400, levels=0)
        index = pathlib.Path(self.folder, "index", published.index)
        good = index.read_bytes()
        index.write_bytes(good[:-1] + bytes([good[-1] ^ 1]))
        with self.assertRaisesRegex(OSError, "other bytes"):
            Shards(self.folder)
        index.write_bytes(good)
        for path in pathlib.Path(self.folder, "shards").glob("*[0-9a-f]"):
            os.truncate(path, 100)
        with self.assertRaises(OSError):
            Shards(self.folder).get(3)
        self.assertRaises(FileNotFoundError, Shards, os.path.join(self.folder, "nowhere"))

    def test_workers(self):
        # The shards of a data set are written in any order, and one part has no pair.
        parts = {2: [(5, 0)], 0: [(1, 0), (2, 0)], 1: []}
        written = {number: write_shard(number, pairs, self.folder, "u32", "u32") for number, pairs in parts.items()}
        self.assertRaises(FileNotFoundError, Shards, self.folder)
        publish((written[number] for number in sorted(written)), self.folder, "u32", "u32")
        self.assertEqual(list(Shards(self.folder).range()), [(1, 0), (2, 0), (5, 0)])

    def test_writes_that_fail(self):
        """Fails each write of a writer in turn, as if the machine had stopped when half of the file was on the disk."""

        def stop_at(number):
            def fsync(file, left=iter(range(number, -1, -1))):
                if next(left) == 0:
                    if stat.S_ISREG(os.fstat(file).st_mode):
                        os.ftruncate(file, os.fstat(file).st_size // 2)
                    raise InterruptedError

            return mock.patch("rkyv_btree.shards.os.fsync", fsync)

        write_shards(((n, 0) for n in range(300)), self.folder, "u32", "u32", entries=100, levels=2)
        # Three shards with their sidecars, the index, and CURRENT: each is a file and then its folder.
        for number in range(16):
            generation = number + 1
            with stop_at(number), self.assertRaises(InterruptedError):
                write_shards(((n, generation) for n in range(300)), self.folder, "u32", "u32", entries=100, levels=2)
            found = {value for _, value in Shards(self.folder).range()}
            # Only when CURRENT has its name, the data set is the new one.
            self.assertEqual(found, {generation if number == 15 else 0})
            self.swept()
        with stop_at(16):
            write_shards(((n, 99) for n in range(300)), self.folder, "u32", "u32", entries=100, levels=2)
        self.assertEqual(Shards(self.folder).get(7), 99)
        self.swept()

    def test_killed_writers(self):
        self.run_writer(1, None)
        takes, last, killed, rest = self.took, 1, 0, random.Random()
        for generation in range(2, 200):
            published = self.run_writer(generation, rest.random() * takes)
            shards = Shards(self.folder)
            values = {value for _, value in shards.range()}
            self.assertEqual(len(values), 1)
            self.assertIn(values.pop(), [generation] if published else [last, generation])
            last = shards.get(0)
            killed += not published
            if generation % 4 == 0:
                self.swept()
            if killed == 20:
                break
        self.assertEqual(killed, 20)
        self.swept()

    def run_writer(self, generation, seconds):
        """Runs a writer, and kills it some seconds after it has started to write. Returns whether it has published."""
        writer = subprocess.Popen([sys.executable, "-c", WRITER, self.folder, str(generation)], stdout=subprocess.PIPE, text=True)
        self.assertEqual(writer.stdout.readline(), "started\n")
        started = time.monotonic()
        try:
            output = writer.communicate(timeout=seconds)[0]
        except subprocess.TimeoutExpired:
            writer.send_signal(signal.SIGKILL)
            output = writer.communicate()[0]
        self.took = time.monotonic() - started
        return "published" in output

    def swept(self):
        """Removes what the data set doesn't name, and compares the files that are left."""
        before = list(Shards(self.folder).range())
        gc(self.folder, age=0)
        shards = Shards(self.folder)
        named = [f"shards/{name}{suffix}" for _, (name, _, _) in shards._index for suffix in ("", ".top")]
        self.assertEqual(self.files(), sorted(["CURRENT", f"index/{shards.published.index}", *named]))
        self.assertEqual(list(shards.range()), before)


class Pages(unittest.TestCase):
    def test_names_of_tests_and_clauses(self):
        top = pathlib.Path(__file__).parents[2]
        sources = [*top.glob("bindings/python/test_*.py"), *top.glob("bindings/rust/tests/*.rs"), top / "bindings" / "c" / "test.c"]
        defined = r"^ *(?:class|def|fn|static (?:\w+ )+)\s*(\w+)[(<:]"
        tests = {name for path in sources for name in re.findall(defined, path.read_text(), re.M)}
        exports = "".join(path.read_text() for path in top.glob("crates/rkyv_btree_ffi/src/*.rt"))
        clauses = set(re.findall(r"ensures (\w+) ", exports))
        known, named = {"Test": tests, "Clause": clauses, "Clause or test": tests | clauses}, 0
        for table in re.findall(r"(?:^\|.*\n)+", (top / "docs" / "EMBEDDING.md").read_text(), re.M):
            head, _, *rows = ([cell.strip() for cell in row.split("|")] for row in table.splitlines())
            for row in rows:
                for title, cell in zip(head, row):
                    names = re.findall(r"`(\w+)`" if title != "Clause" else r"`(\w+)`(?=[:,]|$)", cell)
                    for name in names if title.partition(" in ")[0] in known else ():
                        self.assertIn(name, known[title.partition(" in ")[0]], row)
                        named += 1
        self.assertGreater(named, 90)

    def test_examples(self):
        page = (pathlib.Path(__file__).parents[2] / "docs" / "EMBEDDING.md").read_text()
        examples = re.findall(r"```python\n(.*?)```", page, re.S)
        self.assertEqual(len(examples), 3)
        for example in examples:
            self.assertEqual(len(example.splitlines()), 5)
            exec(example, {})


@unittest.skipUnless(find_spec("fsspec"), "there is no fsspec")
class Elsewhere(DataSets):
    """The same in a folder of fsspec in memory, with what needs no files."""

    test_names = test_bytes_that_changed = test_writes_that_fail = test_killed_writers = None

    def setUp(self):
        import fsspec

        self.folder = "memory://set"
        fsspec.filesystem("memory").store.clear()

    def test_urls_of_files(self):
        with tempfile.TemporaryDirectory() as folder:
            write_shards([(1, 2)], f"file://{folder}", "u32", "u32")
            self.assertEqual(Shards(folder).get(1), 2)


@unittest.skipUnless(find_spec("dask") and find_spec("distributed"), "there is no dask or no distributed")
class Dask(Folder):
    def test_any_order(self):
        import dask
        from distributed import Client, LocalCluster

        from rkyv_btree.dask import write_partitions

        entries = ENTRIES["text", "text"]
        mixed, written = random.Random(4).sample(entries, len(entries)), []
        parts = [mixed[at : at + 150] for at in range(0, len(mixed), 150)]
        for workers in (1, 4):
            cluster = LocalCluster(n_workers=workers, threads_per_worker=1, dashboard_address=None)
            with cluster, Client(cluster):
                folder = os.path.join(self.folder, str(workers))
                written.append(write_partitions([parts[0], *map(dask.delayed, parts[1:])], folder, "text", "text", shards=7))
            self.assertEqual(list(Shards(folder).range()), entries)
        self.assertEqual(written[0], written[1])
        self.assertEqual(written[0].shards, 7)

    def test_messages(self):
        from distributed.protocol import dumps, to_serialize

        from rkyv_btree.dask import _sorted, _split

        pairs = [(n, n) for n in range(1000)]
        for sent in (_sorted(pairs), *_split(_sorted(pairs), [300])):
            self.assertLess(len(dumps({"data": to_serialize(sent)})), 10)

    def test_equal_keys(self):
        from rkyv_btree.dask import write_partitions

        with self.assertRaises(Error) as caught:
            write_partitions([[(1, 2)], [(1, 3)]], self.folder, "u32", "u32", shards=2)
        self.assertEqual(caught.exception.code, 37)
        self.assertRaises(FileNotFoundError, Shards, self.folder)
        self.assertRaises(ValueError, write_partitions, [], self.folder, "u32", "u32", shards=0)
        self.assertEqual(write_partitions([], self.folder, "u32", "u32", shards=3).shards, 0)


def load_tests(loader, tests, pattern):
    tests.addTests(doctest.DocTestSuite(rkyv_btree.shards))
    return tests


if __name__ == "__main__":
    unittest.main()
