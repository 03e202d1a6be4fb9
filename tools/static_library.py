#!/usr/bin/env python3
"""Proves and builds the static library for C over what rt ci has just left: tools/static_library.py

rt ci checks the crate and builds no library of it, and leaves the libraries below it without the stamps by which rt lib would take them.
So this takes them as they are, as tools/edits.py --after-ci does, and then does what rt lib does. The status is 0 if it is built.
"""
import os
import pathlib
import sys

from kit import RT

ROOT = pathlib.Path(__file__).resolve().parent.parent
CRATE = "rkyv_btree_ffi"


def main():
    RT.rtlib.guarded()
    crate = next(it for it in RT.rtlib.crates_below(str(ROOT)) if it.name == CRATE)
    lacking = [it.name for it in crate.below() if not os.path.isdir(it.rlib)]
    if lacking:
        sys.exit(f"tools/static_library.py: rt ci has left no {', '.join(lacking)}")
    os.makedirs(f"{crate.folder}/out", exist_ok=True)
    os.chdir(crate.folder)
    return crate.build_static([])


if __name__ == "__main__":
    sys.exit(main())
