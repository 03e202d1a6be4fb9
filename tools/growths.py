#!/usr/bin/env python3
"""Refuses each growth of memory in turn, in calls of the libraries and in the commands of the program.

    tools/growths.py [FAILURES BTREEARC]

FAILURES and BTREEARC are the built programs of these crates, if not those in their folders `out`. A library of tools/refuse.c
stands before the C library and refuses one growth of a run, so that any build is tried as it is. CC builds it, or else cc.

Each line of tools/growths.txt is a call, a name and the results. Those of `btreearc` are its commands, and the other calls are those
of FAILURES, which makes a call twice and prints both results. The refused growth is in one of the two, or in what the
program does before and after them. So one result is that of a growth refused, and the other must be right.

The last line is 'N growths refused', and the status is 0 where all results are those of the file.
"""
import contextlib
import itertools
import os
import subprocess
import sys
import tempfile

TOOLS = os.path.dirname(os.path.abspath(__file__))
PROGRAMS = [os.path.join(TOOLS, "..", "crates", name, "out", name) for name in ("failures", "btreearc")]


class Mismatch(Exception):
    """What a run has done otherwise than it must."""


class Runs:
    """Runs of programs whose growths are counted, and some of them refused."""

    def __init__(self, folder):
        self.count = os.path.join(folder, "count")
        self.library = os.path.join(folder, "refuse.so")
        source = os.path.join(TOOLS, "refuse.c")
        compiler = os.environ.get("CC", "cc")
        subprocess.run([compiler, "-O2", "-shared", "-fPIC", "-o", self.library, source, "-ldl"], check=True)

    def run(self, words, data=b"", first=0, last=0):
        """Status, output, text on standard error, and the number of growths. Those from `first` to `last` are refused."""
        env = {"LD_PRELOAD": self.library, "REFUSE_FROM": str(first), "REFUSE_TO": str(last), "REFUSE_COUNT": self.count}
        with contextlib.suppress(FileNotFoundError):
            os.remove(self.count)
        ran = subprocess.run(words, input=data, env=env, capture_output=True, timeout=60)
        with open(self.count) as file:
            return ran.returncode, ran.stdout, ran.stderr.decode("latin-1"), int(file.read())


def results_of_call(runs, failures, call, name):
    """The results to a call whose growths are refused in turn."""
    words = [failures, call, name]
    status, said, error, growths = runs.run(words)
    right, _, again = said.decode().removesuffix("\n").partition("; then ")
    if status != 0 or right != again or not right.startswith("right"):
        raise Mismatch(f"status {status}, {said.decode()}{error}")
    results = []
    for number in range(1, growths + 1):
        status, said, error, _ = runs.run(words, first=number, last=number)
        if status == 1 and not said and error.startswith("Error: "):
            continue
        first, _, second = said.decode().removesuffix("\n").partition("; then ")
        if status != 0 or error or right not in (first, second):
            raise Mismatch(f"growth {number}: status {status}, {said.decode()}{error}")
        results.append((first, second))
    half = len(results) // 2
    firsts = [first for first, _ in results[:half]]
    seconds = [second for _, second in results[half:]]
    if firsts != seconds or any(second != right for _, second in results[:half]):
        raise Mismatch(f"first call: {grouped(firsts)}; second call: {grouped(seconds)}")
    return firsts


def results_of_command(runs, program, words, data):
    """The lines of a command whose growths are refused in turn. It has status 2 and writes nothing then, or else it does what it does
    without a refusal, which is `right`."""
    status, whole, error, growths = runs.run([program, *words], data)
    if status > 1 or error:
        raise Mismatch(f"status {status}, {error}")
    right = status, whole, error
    lines = []
    for number in range(1, growths + 1):
        status, said, error, _ = runs.run([program, *words], data, number, number)
        if (status, said, error) == right:
            lines.append("right")
            continue
        if status != 2 or said or error.count("\n") != 1:
            raise Mismatch(f"growth {number}: status {status}, {said}, {error}")
        lines.append(error.removesuffix("\n"))
    return lines


def grouped(results):
    """The results in their order, with how many equal ones come in turn."""
    groups = [f"{len(list(same))} {result}" for result, same in itertools.groupby(results)]
    return "; ".join(groups) or "none"


def takes_none(runs, failures):
    """Makes the calls that take no memory not at all, once and twice, and then once with all later growths refused. Returns how
    many calls these are."""
    before, once, twice = (runs.run([failures, "read", times]) for times in "012")
    without = runs.run([failures, "read", "1"], first=before[3] + 1, last=sys.maxsize)
    if before[:3] != (0, b"", "") or without != once or twice[1] != 2 * once[1] or b"WRONG" in once[1]:
        raise Mismatch(f"{once[1].decode()}{without[1].decode()}{without[2]}")
    if not before[3] == once[3] == twice[3]:
        raise Mismatch(f"they take {once[3] - before[3]} growths")
    return once[1].count(b"\n")


def tens(last):
    """Lines of the first keys, each with its tenfold."""
    return "".join(f"{key} {10 * key}\n" for key in range(1, last + 1)).encode()


def main():
    failures, program = map(os.path.abspath, sys.argv[1:] or PROGRAMS)
    wrong = refused = 0
    with tempfile.TemporaryDirectory() as folder, open(os.path.join(TOOLS, "growths.txt")) as rows:
        runs = Runs(folder)
        archive = runs.run([program, "build"], tens(17))[1]
        for row in rows:
            title, _, wanted = row.removesuffix("\n").partition(": ")
            call, _, name = title.partition(", ")
            if row.startswith("#"):
                continue
            try:
                if call == "btreearc":
                    found = results_of_command(runs, program, name.split(), tens(6) if name.startswith("build") else archive)
                else:
                    found = results_of_call(runs, failures, call, name)
                if grouped(found) != wanted:
                    raise Mismatch(f"{grouped(found)}, and not {wanted}")
                refused += len(found)
            except Mismatch as mismatch:
                wrong += 1
                print(f"growths: {title}: {mismatch}")
        try:
            print(f"{takes_none(runs, failures)} calls take no memory")
        except Mismatch as mismatch:
            wrong += 1
            print(f"growths: calls that take no memory: {mismatch}")
    print(f"{refused} growths refused")
    return 1 if wrong else 0


if __name__ == "__main__":
    sys.exit(main())
