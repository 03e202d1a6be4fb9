"""Data sets that are written by the workers of Dask: `import rkyv_btree.dask` needs the package dask."""

from __future__ import annotations

from bisect import bisect_right
from collections.abc import Iterable
from itertools import chain
from typing import Any, Union

import dask

from . import Key, Type, Value
from ._nodes import order_of
from .shards import Published, Shard, publish, write_shard

__all__ = ["write_partitions"]

# How many keys of each part decide where shards end.
_SAMPLES = 1000


class _Pairs(list[tuple[Key, Value]]):
    """Pairs that the workers send each other as one object. The elements of a plain list would each be a frame of a message."""


def _order(pair: tuple[Key, Value]) -> Union[int, bytes]:
    return order_of(pair[0])


def _sorted(pairs: Iterable[tuple[Key, Value]]) -> _Pairs:
    return _Pairs(sorted(((key, value) for key, value in pairs), key=_order))


def _sample(pairs: _Pairs) -> list[Union[int, bytes]]:
    return [_order(pair) for pair in pairs[:: max(len(pairs) // _SAMPLES, 1)]]


def _bounds(samples: list[list[Union[int, bytes]]], shards: int) -> list[Union[int, bytes]]:
    """Returns the least keys of all shards but the first."""
    keys = sorted(chain.from_iterable(samples))
    return sorted({keys[number * len(keys) // shards] for number in range(1, shards)}) if keys else []


def _split(pairs: _Pairs, bounds: list[Union[int, bytes]]) -> list[_Pairs]:
    split = [_Pairs() for _ in range(len(bounds) + 1)]
    for pair in pairs:
        split[bisect_right(bounds, _order(pair))].append(pair)
    return split


def _written(number: int, parts: list[_Pairs], *settings: Any) -> Union[Shard, None]:
    return write_shard(number, _sorted(chain.from_iterable(parts)), *settings)


def write_partitions(
    parts: Iterable[Any], folder: str, key_type: Type, value_type: Type, shards: int, levels: int = 5
) -> Published:
    """Writes a data set of up to `shards` shards by the workers of Dask, and publishes it here.

    Each part is an iterable of pairs in any order, or a `dask.delayed` one, as `dask.bag` and `dask.dataframe` give it by `to_delayed`. The
    workers sort the pairs, partition them by key, and write one archive for each partition. `folder` must be the same place for all of
    them. No two keys may be equal: then it raises Error, and the data set is the one that was there before. The same parts make the same
    shards on any number of workers.
    """
    if shards < 1:
        raise ValueError("a data set has at least one shard")
    ordered = dask.persist(*(dask.delayed(_sorted)(part) for part in parts))
    bounds = _bounds(list(dask.compute(*(dask.delayed(_sample)(part) for part in ordered))), shards)
    split = [dask.delayed(_split, nout=len(bounds) + 1)(part, bounds) for part in ordered]
    writes = [
        dask.delayed(_written)(number, [part[number] for part in split], folder, key_type, value_type, levels)
        for number in range(len(bounds) + 1)
    ]
    return publish(dask.compute(*writes), folder, key_type, value_type, levels)
