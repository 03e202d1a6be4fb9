"""Measures the writing of a data set by one and by four workers of Dask, and what its parts take, and prints two tables.

    PYTHONPATH=bindings/python /usr/bin/python3 bindings/python/bench_shards.py [COUNT]

COUNT is the number of pairs of u32, if not 10000000. They are in no order, in 16 parts, and become a shard for each million.
"""

import hashlib
import logging
import os
import resource
import sys
import tempfile
import time
from itertools import chain

import dask
import distributed
from rkyv_btree import build
from rkyv_btree.dask import _bounds, _order, _sample, _sorted, _split, write_partitions
from rkyv_btree.shards import Shards, _Local
from rkyv_btree.top import top_of

COUNT, PARTS = int(sys.argv[1]) if sys.argv[1:] else 10_000_000, 16
SHARDS = max(COUNT // 1_000_000, 2)
TYPES = ("u32", "u32")


def pairs(part):
    """Returns the pairs of a part: an odd factor permutes the numbers below 2**32."""
    return [(number * 2_654_435_761 % 2**32, number) for number in range(part, COUNT, PARTS)]


def written_by(workers):
    """Returns the seconds of the whole on so many workers, and those of the processor that they spent on it together."""
    with tempfile.TemporaryDirectory() as folder, distributed.LocalCluster(
        n_workers=workers, threads_per_worker=1, dashboard_address=None, local_directory=folder, silence_logs=logging.CRITICAL
    ) as cluster, distributed.Client(cluster) as client:
        parts = dask.persist(*(dask.delayed(pairs)(part) for part in range(PARTS)))
        distributed.wait(parts)
        started, spent = time.perf_counter(), sum(client.run(time.process_time).values())
        published = write_partitions(parts, f"{folder}/set", *TYPES, SHARDS)
        took, spent = time.perf_counter() - started, sum(client.run(time.process_time).values()) - spent
        assert published.entries == COUNT
        with Shards(f"{folder}/set") as shards:
            assert shards.get(2_654_435_761 * 7 % 2**32) == 7
        return took, spent


def timed(call, *given):
    """Returns the seconds of a call, those of the processor, and what it returns."""
    started, spent = time.perf_counter(), time.process_time()
    result = call(*given)
    return time.perf_counter() - started, time.process_time() - spent, result


def parts_of_the_work():
    """Yields of each part of the work its name, its seconds and those of the processor, for all pairs by one process without Dask."""
    given = [pairs(part) for part in range(PARTS)]
    *took, ordered = timed(lambda: [_sorted(part) for part in given])
    yield "sort each part", *took
    del given
    bounds = _bounds([_sample(part) for part in ordered], SHARDS)
    *took, split = timed(lambda: [_split(part, bounds) for part in ordered])
    yield "split each part by the bounds of shards", *took
    del ordered
    *took, merged = timed(lambda: [sorted(chain.from_iterable(part[number] for part in split), key=_order) for number in range(SHARDS)])
    yield "merge the parts of each shard", *took
    del split
    *took, archives = timed(lambda: [build(*TYPES, shard, strict=True) for shard in merged])
    yield "build the archives", *took
    del merged
    yield "make the sidecars, with a SHA-256", *timed(lambda: [top_of(data, *TYPES) for data in archives])[:2]
    yield "name the archives by their SHA-256", *timed(lambda: [hashlib.sha256(data).hexdigest() for data in archives])[:2]
    with tempfile.TemporaryDirectory() as folder:
        yield "write and sync the files", *timed(lambda: [_Local(folder).write(str(at), data) for at, data in enumerate(archives)])[:2]


def main():
    load = os.getloadavg()[0]
    print(f"| Part of the work, for {COUNT} pairs by one process | Seconds | Processor | Nanoseconds of it a pair |\n|---|---|---|---|")
    for name, took, spent in parts_of_the_work():
        print(f"| {name} | {took:.1f} | {spent:.1f} | {spent / COUNT * 1e9:.0f} |", flush=True)
    print("\n| Workers of Dask | Seconds | Pairs a second | Processor, all workers |\n|---|---|---|---|")
    for workers in (1, 4):
        took, spent = written_by(workers)
        print(f"| {workers} | {took:.0f} | {COUNT / took:.0f} | {spent:.0f} |", flush=True)
    most = max(resource.getrusage(who).ru_maxrss for who in (resource.RUSAGE_SELF, resource.RUSAGE_CHILDREN))
    print(f"\nMost memory of a process {most >> 10} MiB. Load {load:.0f} before, {os.getloadavg()[0]:.0f} after.")


if __name__ == "__main__":
    main()
