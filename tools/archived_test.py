#!/usr/bin/env python3
"""Tests tools/archived.py: what it writes, its layouts and its errors. The last line is `N passed, M failed`.

A case is a file tools/archived/NAME.txt. Its parts begin with a line `== FILE`: a file of the crate `callers` with a struct, and the files that the
script writes of it. Sizes and places are compared with those of ctypes, which lays out fields as C does. tools/archived/errors.txt has a part
for each error: its first line is `== LINE: CAUSE`, and the rest is a file. With --write the script's output becomes the expected one: read
it, and prove it in a crate, before it is committed.
"""
import contextlib
import ctypes
import io
import pathlib
import re
import sys
import tempfile

import archived
import structs

ROOT = pathlib.Path(__file__).resolve().parent.parent
CASES = pathlib.Path(__file__).resolve().parent / "archived"
# the cases whose files are committed in the crate callers, which the gate proves
PROVED = ("ticket", "weather")
C_TYPES = {
    "u8": ctypes.c_uint8, "u16": ctypes.c_uint16, "u32": ctypes.c_uint32, "u64": ctypes.c_uint64, "i8": ctypes.c_int8, "i16": ctypes.c_int16,
    "i32": ctypes.c_int32, "i64": ctypes.c_int64, "bool": ctypes.c_bool, "char": ctypes.c_uint32, "NonZeroU8": ctypes.c_uint8,
    "NonZeroU16": ctypes.c_uint16, "NonZeroU64": ctypes.c_uint64, "NonZeroI16": ctypes.c_int16,
}


def parts_of(file):
    """Returns the parts of a case, by what their first lines say."""
    found = re.split(r"(?m)^== (.*)\n", file.read_text())[1:]
    return dict(zip(found[::2], found[1::2]))


def run(crate, source, text, *words):
    """Runs the script on a file of a crate. Returns what it prints, or its error."""
    file = crate / source
    file.parent.mkdir(parents=True, exist_ok=True)
    file.write_text(text)
    said = io.StringIO()
    try:
        with contextlib.redirect_stdout(said):
            archived.main([*words, str(file)])
    except SystemExit as end:
        return str(end.code).replace(f"{crate}/", "").replace(f"{crate.resolve()}/", "")
    return said.getvalue()


def written(crate, file):
    return (crate / file).read_text() if (crate / file).exists() else ""


def type_in_c(leaf):
    """Returns the type that C has for a field."""
    if leaf.count:
        return ctypes.c_uint8 * leaf.count
    return C_TYPES[leaf.number if leaf.enum else leaf.type]


def as_c(node):
    """Returns the type that C has for a struct."""
    fields = [(name or "number", type_in_c(it) if isinstance(it, structs.Leaf) else as_c(it)) for name, it in node.fields]
    return type(node.struct.name, (ctypes.LittleEndianStructure,), {"_fields_": fields})


def place_in_c(kind, path):
    """Returns where C has a field."""
    at = 0
    for name in path:
        at, kind = at + getattr(kind, name).offset, dict(kind._fields_)[name]
    return at


def has_layout_of_c(text):
    """Tells whether the layout of the struct in a file is that of C."""
    file = structs.Reader(text).read()
    node = structs.layout_of(file, structs.outer_type(file, None))
    kind = as_c(node)
    places = all(place_in_c(kind, leaf.path) == leaf.at for leaf in structs.leaves(node))
    return places and (ctypes.sizeof(kind), ctypes.alignment(kind)) == (node.size, node.align)


class Count:
    def __init__(self):
        self.passed = self.failed = 0

    def expect(self, what, holds):
        self.passed, self.failed = self.passed + holds, self.failed + (not holds)
        if not holds:
            print(f"archived: {what} isn't so", file=sys.stderr)


def test_case(count, crate, file, write):
    (source, text), *wanted = parts_of(file).items()
    said = run(crate, source, text)
    given = {name: written(crate, name) for name in (f"src/{file.stem}_archived.rt", f"specs/{file.stem.capitalize()}.antt")}
    if write:
        file.write_text("".join(f"== {name}\n{part}" for name, part in {source: text, **given}.items()))
        return
    count.expect(f"that the output for {file.name} is the expected one", given == dict(wanted))
    count.expect(f"that the rest is said for {file.name}", f"pub mod {file.stem}_archived;" in said)
    count.expect(f"that {file.name} has the layout of C", has_layout_of_c(text))
    count.expect(f"that specs/Lib.antt has the specs of {file.name}", f"pub mod {file.stem.capitalize()}" in written(crate, "specs/Lib.antt").splitlines())
    if file.stem in PROVED:
        for name, part in parts_of(file).items():
            count.expect(f"that crates/callers has {name} of {file.name}", written(ROOT / "crates" / "callers", name) == part)


def test_errors(count, crate):
    for wanted, text in parts_of(CASES / "errors.txt").items():
        said = run(crate, "src/refused.rt", text)
        count.expect(f"that the error is {wanted!r}, and not {said!r},", said == f"src/refused.rt:{wanted}")


def test_files(count, crate):
    """Tests which files are written."""
    _, text = next(iter(parts_of(CASES / "movie.txt").items()))
    made = f"{crate}/src/layouts/film.rt"
    (crate / "src" / "layouts").mkdir(parents=True)
    run(crate, "src/movie.rt", text, "--out", made)
    count.expect("that --out names the file of the impls", "impl PlainValue for Movie" in written(crate, "src/layouts/film.rt"))
    count.expect("that a second run gives the same", not run(crate, "src/movie.rt", text, "--out", made).startswith("src"))
    (crate / "specs" / "Movie.antt").write_text("-- Written by hand.\n")
    said = run(crate, "src/movie.rt", text)
    count.expect("that a file of the user's own is kept", "specs/Movie.antt is there already" in said and "by hand" in written(crate, "specs/Movie.antt"))
    said = run(crate, "src/two.rt", text + text.replace("Movie", "Play"))
    count.expect("that two types are two answers", "which type is meant of `Movie`, `Play`?" in said)
    run(crate, "src/two.rt", text + text.replace("Movie", "Play"), "--type", "Play")
    count.expect("that --type names the struct", "specs.declared.two.Play.{Play}" in written(crate, "specs/Play.antt"))


def main(words):
    count = Count()
    with tempfile.TemporaryDirectory() as work:
        for file in sorted(CASES.glob("*.txt")):
            if file.stem != "errors":
                test_case(count, pathlib.Path(work, file.stem, "crates", "callers"), file, "--write" in words)
        test_errors(count, pathlib.Path(work, "errors", "crates", "callers"))
        test_files(count, pathlib.Path(work, "files", "crates", "callers"))
    print(f"{count.passed} passed, {count.failed} failed")
    return 1 if count.failed else 0


if __name__ == "__main__":
    sys.exit(main(sys.argv[1:]))
