"""Measures lookups over nginx on this machine, with and without a sidecar, and prints a table. With apsw, as Debian's python3-apsw has it, it
measures SQLite too: the same pairs in a table, whose file SQLite reads through a VFS by the same requests of HTTP.

    PYTHONPATH=bindings/python /usr/bin/python3 bindings/python/bench_remote.py [COUNT]

COUNT is how many pairs of numbers there are, if not 9700000. Pairs of texts are 15 of 97 as many.
"""

import os
import random
import sqlite3
import statistics
import sys
import time
import unittest
from array import array
from importlib.util import find_spec

from rkyv_btree import build, build_arrays
from rkyv_btree.remote import Remote, _object_at
from rkyv_btree.top import top_of
from test_nginx import Nginx

COUNT, LOOKUPS = int(sys.argv[1]) if sys.argv[1:] else 9_700_000, 4000
COLUMNS = {"u32": "key integer primary key, value integer", "text": "key text primary key, value text"}
MIB = 1 << 20


class Counted:
    """Requests that are counted, with the bytes of each."""

    def __init__(self, fetch):
        self.fetch, self.reads = fetch, []

    def __call__(self, pos, count):
        self.reads.append(count)
        return self.fetch(pos, count)


def ranged_vfs(apsw):
    """Returns a VFS of SQLite whose only file is read by `Ranged.fetch`."""

    class File:
        """A file that is read alone. Nothing changes it, so nothing is locked."""

        def __init__(self, size):
            self.size = size

        def xRead(self, amount, offset):
            return Ranged.fetch(offset, min(amount, self.size - offset))

        def xFileSize(self):
            return self.size

        def xClose(self):
            pass

        def xSectorSize(self):
            return 4096

        def xDeviceCharacteristics(self):
            return apsw.SQLITE_IOCAP_IMMUTABLE

        def xFileControl(self, operation, pointer):
            return False

        def xLock(self, level):
            pass

        def xUnlock(self, level):
            pass

        def xCheckReservedLock(self):
            return False

    class Ranged(apsw.VFS):
        fetch = size = None

        def __init__(self):
            super().__init__("ranged", "")

        def xOpen(self, name, flags):
            flags[1] = flags[0]
            return File(Ranged.size)

        def xFullPathname(self, name):
            return name

        def xAccess(self, path, flags):
            return False

        def xDelete(self, path, sync):
            raise apsw.ReadOnlyError

    return Ranged


class Served(Nginx):
    """The server of the tests, with other archives."""

    def runTest(self):
        rest, texts = random.Random(1), COUNT * 15 // 97
        words = [f"key {n:09} {'x' * (n % 9)}" for n in range(texts)]
        print("| Keys and values | Reader | File | Cache | Requests | Bytes | Median ms | 99 % ms |")
        print("|---|---|---|---|---|---|---|---|")
        for kind, pairs, keys in (
            ("u32", lambda: ((400 * n, n) for n in range(COUNT)), [400 * rest.randrange(COUNT) for _ in range(LOOKUPS)]),
            ("text", lambda: ((word, word) for word in words), rest.choices(words, k=LOOKUPS)),
        ):
            if kind == "u32":
                data = build_arrays(kind, kind, array("I", range(0, 400 * COUNT, 400)), array("I", range(COUNT)))
            else:
                data = build(kind, kind, pairs())
            self.replace(data)
            top = top_of(data, kind, kind)
            for sidecar, cache in ((None, 0), (None, 8 * MIB), (top, 0), (top, 8 * MIB)):
                self.measure(kind, len(data), keys, sidecar, cache)
            if find_spec("apsw"):
                for page in (4096, 16384):
                    self.measure_sqlite(kind, pairs(), keys, page)

    def measure(self, kind, size, keys, top, cache):
        url = f"http://127.0.0.1:{self.port}/archive"
        with Remote.open_url(url, kind, kind, cache=cache, top=top) as remote:
            remote._fetch = counted = Counted(remote._fetch)
            reader = f"`Remote`, sidecar of {len(top) // 1000} KB" if top else "`Remote`"
            self.timed((kind, reader, size, "8 MiB, warm" if cache else "two blocks"), keys, counted, remote.get)

    def measure_sqlite(self, kind, pairs, keys, page):
        import apsw

        path = self.path.with_name("sqlite")
        path.unlink(missing_ok=True)
        database = sqlite3.connect(path)
        rest = "" if kind == "u32" else " without rowid"
        database.execute(f"pragma page_size = {page}")
        database.execute(f"create table pairs ({COLUMNS[kind]}){rest}")
        database.executemany("insert into pairs values (?, ?)", pairs)
        database.commit()
        database.close()
        connection, fetch, size, _ = _object_at(f"http://127.0.0.1:{self.port}/sqlite", 60)
        ranged = ranged_vfs(apsw)
        ranged.fetch, ranged.size = staticmethod(counted := Counted(fetch)), size
        registered = ranged()
        for cache, named in ((0, "none"), (8192, "8 MiB, warm")):
            flags = apsw.SQLITE_OPEN_READONLY | apsw.SQLITE_OPEN_URI
            opened = apsw.Connection("file:sqlite?immutable=1", vfs="ranged", flags=flags)
            opened.cursor().execute(f"pragma cache_size = {-cache}")
            cursor = opened.cursor()

            def get(key):
                return next(cursor.execute("select value from pairs where key = ?", (key,)))[0]

            self.timed((kind, f"SQLite, pages of {page // 1024} KiB", size, named), keys, counted, get)
            opened.close()
        registered.unregister()
        connection.close()

    def timed(self, cells, keys, counted, get):
        """Prints a row: what the second half of the lookups takes."""
        times = []
        for at, key in enumerate(keys):
            if at == LOOKUPS // 2:
                counted.reads.clear()
                times.clear()
            started = time.perf_counter()
            assert get(key) is not None
            times.append(1000 * (time.perf_counter() - started))
        count, reads, (kind, reader, size, cache) = len(times), counted.reads, cells
        print(
            f"| {kind} | {reader} | {size // 10**6} MB | {cache} | {len(reads) / count:.2f} | {sum(reads) / count / 1024:.0f} KiB "
            f"| {statistics.median(times):.2f} | {sorted(times)[count * 99 // 100]:.2f} |",
            flush=True,
        )


if __name__ == "__main__":
    load = os.getloadavg()[0]
    unittest.TextTestRunner(verbosity=0).run(Served())
    print(f"Load {load:.0f} before, {os.getloadavg()[0]:.0f} after.")
