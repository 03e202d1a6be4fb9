"""Measures maps of Python beside `dict` and sqlite3: building, memory, lookups and ranges. It prints one table.

    PYTHONPATH=bindings/python python3 bindings/python/bench_maps.py [COUNT]

COUNT is the number of pairs of text to u32, if not 1000000. Each row is measured in a process of its own, on Linux. Its memory is what is resident at
most, less what is when the pairs are there. Of times the least of three counts.
"""

import gc
import multiprocessing
import os
import pathlib
import random
import re
import sqlite3
import sys
import time
from array import array
from bisect import bisect_left
from itertools import accumulate, islice

from rkyv_btree import Map, build, build_arrays

COUNT = int(sys.argv[1]) if sys.argv[1:] else 1_000_000
LOOKUPS, RANGES = min(COUNT, 200_000), min(COUNT, 20_000)
TYPES = ("text", "u32")


def pairs():
    return [(f"key {number:012}", number) for number in range(COUNT)]


def columns():
    keys = [key.encode() for key, _ in pairs()]
    return (array("I", accumulate(map(len, keys), initial=0)), b"".join(keys)), array("I", range(COUNT))


def table(given):
    """Returns a database in memory with a table of pairs."""
    database = sqlite3.connect(":memory:")
    database.execute("CREATE TABLE pairs (key TEXT PRIMARY KEY, value INTEGER) WITHOUT ROWID")
    database.executemany("INSERT INTO pairs VALUES (?, ?)", given)
    return database


def mapped():
    return Map(build(*TYPES, pairs()), *TYPES)


def asked(count):
    """Returns keys that are there, in random order."""
    return [f"key {number:012}" for number in random.Random(1).choices(range(COUNT - 10), k=count)]


def each(keys, call):
    for key in keys:
        call(key)


def in_table(database):
    def found(key):
        return database.execute("SELECT value FROM pairs WHERE key = ?", (key,)).fetchone()

    return found


def ten_of_a_map(given):
    return lambda key: list(islice(given[key:], 10))


def ten_of_a_table(database):
    return lambda key: database.execute("SELECT key, value FROM pairs WHERE key >= ? ORDER BY key LIMIT 10", (key,)).fetchall()


def ten_of_a_list(given):
    keys = [key for key, _ in given]

    def ten(key):
        start = bisect_left(keys, key)
        return given[start : start + 10]

    return ten


# Of each row its name, what is made before, what is measured, and how many calls that is.
ROWS = {
    "build from a list": (pairs, lambda given: build(*TYPES, given), 1),
    "build from a list, strict": (pairs, lambda given: build(*TYPES, given, strict=True), 1),
    "build from two arrays": (columns, lambda given: build_arrays(*TYPES, *given), 1),
    "`dict` of a list": (pairs, dict, 1),
    "sqlite3, a table of a list": (pairs, table, 1),
    "validate": (lambda: build(*TYPES, pairs()), lambda given: Map(given, *TYPES), 1),
    "a lookup": (lambda: (asked(LOOKUPS), mapped().__getitem__), lambda given: each(*given), LOOKUPS),
    "`dict`, a lookup": (lambda: (asked(LOOKUPS), dict(pairs()).__getitem__), lambda given: each(*given), LOOKUPS),
    "sqlite3, a lookup": (lambda: (asked(LOOKUPS), in_table(table(pairs()))), lambda given: each(*given), LOOKUPS),
    "10 entries from a key on": (lambda: (asked(RANGES), ten_of_a_map(mapped())), lambda given: each(*given), RANGES),
    "a sorted list, 10 entries by `bisect`": (lambda: (asked(RANGES), ten_of_a_list(pairs())), lambda given: each(*given), RANGES),
    "sqlite3, 10 entries from a key on": (lambda: (asked(RANGES), ten_of_a_table(table(pairs()))), lambda given: each(*given), RANGES),
}


def resident(name):
    """Returns how many bytes are resident, by `VmRSS`, or were at most since the last reset, by `VmHWM`."""
    status = pathlib.Path("/proc/self/status").read_text()
    return int(re.search(rf"^{name}:\s*(\d+) kB$", status, re.M).group(1)) << 10


def measured(name):
    """Returns the least seconds of three runs, those of the processor, and how many bytes the first one took at most beside what was there."""
    prepare, call, _ = ROWS[name]
    given = prepare()
    gc.collect()
    pathlib.Path("/proc/self/clear_refs").write_text("5")
    before = resident("VmRSS")
    took, spent, most = [], [], 0
    for run in range(3):
        started, processor = time.perf_counter(), time.process_time()
        result = call(given)
        took.append(time.perf_counter() - started)
        spent.append(time.process_time() - processor)
        if run == 0:
            most = resident("VmHWM") - before
        del result
    return min(took), min(spent), most


def main():
    load = os.getloadavg()[0]
    print(f"| {COUNT} pairs of text to u32 | Seconds | Processor | Microseconds a call | Megabytes |\n|---|---|---|---|---|")
    for name, (_, _, calls) in ROWS.items():
        with multiprocessing.get_context("spawn").Pool(1) as pool:
            took, spent, most = pool.apply(measured, (name,))
        once = f"{took / calls * 1e6:.1f}" if calls > 1 else ""
        print(f"| {name} | {took:.2f} | {spent:.2f} | {once} | {most / 1e6:.0f} |", flush=True)
    print(f"\nLoad {load:.0f} before, {os.getloadavg()[0]:.0f} after.")


if __name__ == "__main__":
    main()
