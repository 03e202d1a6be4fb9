"""The record of refused wrong bodies, wrong.lock: a line an edit, with its name and a key.

A key is a checksum of what the verdict on an edit depends on: the kit's logic, the edit, the files of its crate, and of the crates below what
interface.py finds there. A line is valid if its key is that of the tree. It says that the prover refused the edit once, with that key.
"""
import hashlib
import math
import pathlib
import random
import subprocess

import interface

ROOT = pathlib.Path(__file__).resolve().parent.parent
LOCK = ROOT / "wrong.lock"
HEADING = "# Wrong bodies that the prover has refused, each with the checksum of what that depends on. tools/edits.py --record writes this file.\n"
# another number makes all lines invalid, where edits.py comes to judge in another way
RULES = 1


def digest(*parts):
    return hashlib.sha256("\0".join(map(str, parts)).encode()).hexdigest()


class Keys:
    """The keys of the edits of a repository. What a crate shows to those above it is read once."""

    def __init__(self, logic, root=ROOT):
        self.logic, self.crates, self.shown = logic, pathlib.Path(root, "crates"), {}

    def below(self, name):
        """Returns the checksum of what crates above see of the crate with this name."""
        if name not in self.shown:
            self.shown[name] = digest(*[text for shown in interface.interface_of(self.crates / name) for text in shown])
        return self.shown[name]

    def of_crate(self, crate):
        """Returns the checksum of all that the crate's edits are tried with."""
        folder = self.crates / crate.name
        files = sorted(it for part in ("src", "specs", "proofs") for it in (folder / part).rglob("*") if it.is_file())
        own = [text for it in files for text in (it.relative_to(folder), it.read_text())]
        return digest(RULES, self.logic, crate.name, *own, *[text for it in crate.below() for text in (it.name, self.below(it.name))])

    def of(self, edits):
        """Returns the key of each edit."""
        sums = {it: self.of_crate(it) for it in {edit.crate for edit in edits}}
        return {it: digest(sums[it.crate], it.name, it.text)[:32] for it in edits}


def read_lock():
    """Returns the key of each line of the record, by the name of its edit with its crate."""
    lines = LOCK.read_text().splitlines() if LOCK.exists() else []
    return dict(it.split() for it in lines if it and not it.startswith("#"))


def write_lock(record):
    LOCK.write_text(HEADING + "".join(f"{name} {key}\n" for name, key in sorted(record.items())))


def sample_of(edits):
    """Returns the edits that the commit's id draws: 5 of 100, and at least 20."""
    commit = subprocess.run(["git", "-C", ROOT, "rev-parse", "HEAD"], capture_output=True, text=True).stdout.strip()
    count = min(len(edits), max(20, math.ceil(len(edits) / 20)))
    # a tree that isn't of a repository has the record in place of a commit
    return random.Random(commit or LOCK.read_text()).sample(sorted(edits, key=lambda it: it.full_name), count)
