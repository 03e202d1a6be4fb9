#!/usr/bin/env python3
"""Compiles functions that must not compile: tools/must_not_compile.py [NAME..]

A case is a file tools/must_not_compile/NAME.txt. Its first line is the code of the compiler's error, as `borrow-e0502`. The rest is a module
over the libraries that users name, in which one line ends with `// refused`. With that line the compiler must give one error, of that code,
at that line or at the one that ends with `// here`. Without it, and with the lines that end with `// instead`, the module must compile: so
no other mistake is what the compiler refuses.

All cases are compiled together, and once more without their lines. A case whose error doesn't come then is compiled alone, since the
compiler may stop before it comes to it. The libraries are compiled from their sources, and nothing is proved. NAME takes some cases. The last
line is `N passed, M failed`, and the status is 0 where all passed. RT is rt's command, if not rt.
"""
import collections
import os
import pathlib
import re
import subprocess
import sys
import tempfile

from kit import RT

ROOT = pathlib.Path(__file__).resolve().parent.parent
CASES = pathlib.Path(__file__).with_suffix("")
# a crate over the libraries that users name
USER = "callers"
REFUSED, INSTEAD, HERE = "// refused", "// instead", "// here"
ERROR = re.compile(r"^src/(\w+)\.rt:(\d+):\d+: error\[([\w-]+)\]", re.M)


class Case:
    """A case: the error that it must have, and its text with the refused line and without it."""

    def __init__(self, file):
        self.name = file.stem
        code, *lines = file.read_text().splitlines()
        marked = [at for at, line in enumerate(lines, 2) if line.endswith(REFUSED)]
        if len(marked) != 1:
            sys.exit(f"{file}: it has not one line that ends with '{REFUSED}'")
        here = [at for at, line in enumerate(lines, 2) if line.endswith(HERE)]
        self.error = ((here or marked)[0], code)
        # an empty line is in the place of each that is left out, so that lines keep their numbers
        self.wrong, self.right = ("\n".join(["", *["" if it.endswith(mark) else it for it in lines]]) for mark in (INSTEAD, REFUSED))


def compile_texts(crate, texts):
    """Compiles modules by their names. Returns the errors of each as pairs of a line and a code, and what is said if there is one."""
    with tempfile.TemporaryDirectory(prefix="must-not-compile-") as room:
        os.mkdir(f"{room}/src")
        root = "".join(f"pub mod {name};\n" for name in texts)
        for name, text in {**texts, "lib": f"#![tactic(auto)]\n{root}"}.items():
            pathlib.Path(room, f"src/{name}.rt").write_text(f"{text}\n")
        # with no function of this name nothing is proved
        words = [RT.rtlib.RATTLE, "check", *crate.words(["--jobs", "1", "--only", ""], as_source=True)]
        how = {"cwd": room, "stdin": subprocess.DEVNULL, "stdout": subprocess.PIPE, "stderr": subprocess.STDOUT, "errors": "replace"}
        ran = subprocess.run([*RT.rtlib.guarded(), *words], **how, check=False)
    errors = collections.defaultdict(list)
    for name, line, code in ERROR.findall(ran.stdout):
        errors[name].append((int(line), code))
    compiles = ran.returncode == 0 and re.search(r"^only=", ran.stdout, re.M)
    return errors, "" if compiles else ran.stdout.strip() or f"status {ran.returncode}"


def faults_of(crate, cases):
    """Returns what is wrong with each case, or nothing."""
    errors, _ = compile_texts(crate, {it.name: it.wrong for it in cases})
    _, unread = compile_texts(crate, {it.name: it.right for it in cases})
    faults = {}
    for case in cases:
        found = errors[case.name] or compile_texts(crate, {case.name: case.wrong})[0][case.name]
        said = unread and compile_texts(crate, {case.name: case.right})[1]
        if found != [case.error]:
            faults[case] = f"not the error {case.error}, but {found}"
        else:
            faults[case] = f"it doesn't compile without that line either: {said}" if said else ""
    return faults


def main():
    RT.rtlib.guarded()
    crate = next(it for it in RT.rtlib.crates_below(str(ROOT)) if it.name == USER)
    files = sorted(CASES.glob("*.txt"))
    strange = {*sys.argv[1:]} - {it.stem for it in files} or {it.name for it in CASES.iterdir() if it not in files}
    if strange:
        sys.exit(f"no cases: {', '.join(sorted(strange))}")
    faults = faults_of(crate, [Case(it) for it in files if it.stem in (sys.argv[1:] or it.stem)])
    for case, fault in faults.items():
        print(f"{case.name}: {fault or f'{case.error[1]}, and it compiles without that line'}")
    failed = sum(map(bool, faults.values()))
    print(f"{len(faults) - failed} passed, {failed} failed")
    return int(failed > 0)


if __name__ == "__main__":
    sys.exit(main())
