#!/usr/bin/env python3
"""Compares include/rkyv_btree.h with the sources of crates/rkyv_btree_ffi and with the bindings: tools/header.py [--write]

It compares the codes, the fields of the structs, and the prototypes: names, parameters and results. The lists of the maps' types in the header,
in the sources and in their contracts, and the declarations for Rust and for Python, must be those that bindings/types.json and the header
determine; --write writes them. It compares the types of bindings/types.json with the sizes of docs/FORMAT.md, and the version with that of the
Rust crate and of the Python package. The last line is `1 passed, 0 failed`, or what differs and `0 passed, 1 failed`.
"""
import json
import pathlib
import re
import sys

import declarations

ROOT = pathlib.Path(__file__).resolve().parent.parent
CRATE = ROOT / "crates" / "rkyv_btree_ffi" / "src"
TYPES = declarations.Types(json.loads((ROOT / "bindings" / "types.json").read_text()))
# A piece is the library's own struct.
PIECE = ROOT / "crates" / "rkyv_btree_source" / "src" / "piece.rt"

# The codes of refusals are the fields of `refusal_of`, by the names of the cases.
REFUSALS = {
    "OutOfRange": "OUT_OF_RANGE", "Misaligned": "MISALIGNED", "BadKind": "BAD_KIND", "InvalidLength": "INVALID_LENGTH",
    "BadEntry": "BAD_ENTRY", "TooDeep": "TOO_DEEP", "EntriesLengthMismatch": "LENGTH_MISMATCH", "TooLong": "TOO_LONG",
    "OutOfOrder": "OUT_OF_ORDER",
}
STRUCTS = {
    "BtreeRefusal": "rkyv_btree_refusal", "BtreeItem": "rkyv_btree_item", "BtreeEntry": "rkyv_btree_entry",
    "BtreeColumn": "rkyv_btree_column", "Piece": "rkyv_btree_piece", "BtreeMap": "rkyv_btree_map", "BtreeEdit": "rkyv_btree_edit",
    "BtreeStep": "rkyv_btree_step", "BtreeCursor": "rkyv_btree_cursor",
}
NUMBERS = {"u8": "uint8_t", "u32": "uint32_t", "u64": "uint64_t", "i64": "int64_t", "usize": "size_t"}
RENAMED = {"map_type": "type", "buf": "data"}
# Where the types of maps are listed by their numbers: the texts around the list, the text between two types, and how one is written.
LISTS = {
    "include/rkyv_btree.h": ("writes this list. */\nenum {\n", "\n};", ",\n", "    RKYV_BTREE_{name} = {number}"),
    "crates/rkyv_btree_ffi/src/map_type.rt": (
        "match number {\n", "\n            _ =>", "\n", "            {number} => (ItemType::{key}, ItemType::{value}),",
    ),
    "crates/rkyv_btree_ffi/specs/MapTypes.antt": (
        "type_of n =\n", " None\n", "\n", "    if nat_eq n {number} then Some (typed {key} {value}) else",
    ),
    "crates/rkyv_btree_ffi/src/typed.rt": ("match map_type {\n", "\n        _ =>", "\n", '        {number} => Some("{text}"),'),
}
# The archived types that have other names.
ARCHIVED = {"empty": "()"}
# How docs/FORMAT.md writes the size of a type that isn't in its table.
WORDS = {"eight": "8"}

wrong = []


def differs(what, header, source):
    if header != source:
        wrong.append(f"{what}: the header has {header}, the source {source}")


def wants(place, text, by):
    """Compares a file with the text that it must have, or writes it."""
    path = ROOT / place
    if "--write" in sys.argv[1:]:
        path.write_text(text)
    elif path.read_text() != text:
        wrong.append(f"{place} isn't as {by} it: tools/header.py --write writes it")


def lists():
    """The types of maps by their numbers, in the header, in the source and in its contracts."""
    types = [
        {"number": number, "name": name, "key": key.capitalize(), "value": value.capitalize(), "text": TYPES.text(key, value)}
        for number, key, value, name in TYPES.maps()
    ]
    for place, (start, end, between, form) in LISTS.items():
        before, _, rest = (ROOT / place).read_text().partition(start)
        _, _, after = rest.partition(end)
        wants(place, before + start + between.join(form.format(**each) for each in types) + end + after, "bindings/types.json determines")


def plain(text):
    """Removes comments and clauses, and joins lines."""
    text = re.sub(r"/\*.*?\*/", " ", text, flags=re.S)
    return re.sub(r"\s+", " ", text)


def constants():
    """The codes."""
    source = {name: int(number) for name, number in re.findall(r"pub const (\w+): u32 = (\d+);", SOURCE)}
    refusals = SOURCE[SOURCE.index("pub fn refusal_of") :]
    for case, number in re.findall(r"Refusal::(\w+)[^=]*=> \((\d+),", refusals):
        source[REFUSALS[case]] = int(number)
    named = {name for _, _, _, name in TYPES.maps()}
    header = {name: int(number) for name, number in re.findall(r"RKYV_BTREE_(\w+) = (\d+)", HEADER) if name not in named}
    differs("constants", sorted(header.items()), sorted(source.items()))


def c_fields(name, kind):
    """The fields of the header's struct for a field of this type."""
    name = RENAMED.get(name, name)
    if slice_of := re.fullmatch(r"&'a (mut )?\[u8\]", kind):
        return [f"{'' if slice_of[1] else 'const '}uint8_t *{name}", f"size_t {name}_len"]
    if array := re.fullmatch(r"\[(\w+); (\d+)\]", kind):
        return [f"{STRUCTS[array[1]]} {name}[{array[2]}]"]
    return [f"{NUMBERS.get(kind) or STRUCTS[kind]} {name}"]


def structs():
    for rust, c in STRUCTS.items():
        body = re.search(rf"#\[repr\(C\)\]\n(?:#\[.*\]\n)*pub struct {rust}(?:<'a>)? \{{\n(.*?)\n\}}", SOURCE, re.S)[1]
        source = []
        for name, kind in re.findall(r"^    pub (\w+): (.*),$", body, re.M):
            source += c_fields(name, kind)
        header = re.search(rf"typedef struct \{{([^}}]*)\}} {c};", plain(HEADER))[1]
        header = [field.strip() for field in header.split(";") if field.strip()]
        differs(c, header, source)


def parameter(name, kind):
    """The parameters of the header's prototype for a parameter of this type."""
    name = RENAMED.get(name, name).removesuffix("_out")
    name = {"refusal": "why", "len": "len"}.get(name, name)
    if kind == "Global":
        return []
    if sliced := re.fullmatch(r"&(?:'a )?(mut )?\[(\w+)\]", kind):
        element = NUMBERS.get(sliced[2]) or STRUCTS[sliced[2]]
        return [f"{'' if sliced[1] else 'const '}{element} *{name}", f"size_t {name}_len"]
    if pointed := re.fullmatch(r"&(?:'a )?(mut )?(\w+)(?:<'[_a]>)?", kind):
        element = NUMBERS.get(pointed[2]) or STRUCTS[pointed[2]]
        return [f"{'' if pointed[1] else 'const '}{element} *{name}"]
    return [f"{NUMBERS[kind]} {name}"]


def prototypes():
    source = {}
    exports = re.findall(r'#\[unsafe\(no_mangle\)\]\n(?:#\[.*\]\n)*pub extern "C" fn (\w+)(?:<\'a>)?\((.*?)\) -> (\w+)', SOURCE, re.S)
    for name, parameters, result in exports:
        listed = []
        for pair in re.findall(r"(\w+): ([^,]+(?:<[^>]*>)?)(?:,|$)", plain(parameters).strip()):
            listed += parameter(pair[0], pair[1].strip())
        source[name] = (NUMBERS[result], listed)
    header = {}
    for result, name, parameters in re.findall(r"(\w+) (rkyv_btree_\w+)\(([^)]*)\);", plain(HEADER)):
        header[name] = (result, [p.strip() for p in parameters.split(",")])
    differs("names", sorted(header), sorted(source))
    for name in header.keys() & source.keys():
        differs(name, header[name], source[name])


def types():
    """The types of keys and of values: the codes, and the sizes that docs/FORMAT.md has."""
    codes = set(re.findall(r"RKYV_BTREE_(\w+) = \d+", HEADER))
    differs("codes of bindings/types.json that aren't there", [], sorted(set().union(*TYPES.codes.values()) - codes))
    page = (ROOT / "docs" / "FORMAT.md").read_text()
    for each in [*TYPES.each, TYPES.empty]:
        archived = ARCHIVED.get(each["name"], f"Archived{each['name'].capitalize()}")
        row = re.search(rf"^\|[^|]*`{re.escape(archived)}`[^|]*\|[^|]*\| (\d+) \| (\d+) \|", page, re.M)
        words = re.search(rf"^`{re.escape(archived)}` is (\w+) bytes with alignment (\d+):", page, re.M)
        said = row.groups() if row else (WORDS.get(words[1]), words[2]) if words else None
        if said != (str(each["size"]), str(each["align"])):
            wrong.append(f"bindings/types.json has {each['size']} and {each['align']} as size and alignment of {each['name']}, docs/FORMAT.md {said}")


def bindings():
    """The declarations for Rust and for Python, which the header and the types determine."""
    header = declarations.Header(HEADER)
    texts = {"rust/src/raw.rs": declarations.rust(header, TYPES), "python/rkyv_btree/_raw.py": declarations.python(header, TYPES)}
    for place, text in texts.items():
        wants(f"bindings/{place}", text, "the header and bindings/types.json determine")


def versions():
    """The version in the header, in the Rust crate and in the Python package."""
    macros = dict(re.findall(r"^#define RKYV_BTREE_VERSION(_\w+|) \"?([\d.]+)\"?$", HEADER, re.M))
    version = macros[""]
    differs("RKYV_BTREE_VERSION", version, ".".join(macros[part] for part in ("_MAJOR", "_MINOR", "_PATCH")))
    for place, form in {
        "rust/Cargo.toml": r'^version = "(.*)"$',
        "python/pyproject.toml": r'^version = "(.*)"$',
        "python/rkyv_btree/__init__.py": r'^__version__ = "(.*)"$',
    }.items():
        differs(place, version, re.search(form, (ROOT / "bindings" / place).read_text(), re.M)[1])


lists()
HEADER = (ROOT / "include" / "rkyv_btree.h").read_text()
SOURCE = "\n".join(path.read_text() for path in [*sorted(CRATE.glob("*.rt")), PIECE])
constants()
structs()
prototypes()
types()
bindings()
versions()
for line in wrong:
    print(f"tools/header.py: {line}", file=sys.stderr)
print("0 passed, 1 failed" if wrong else "1 passed, 0 failed")
sys.exit(bool(wrong))
