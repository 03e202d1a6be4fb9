"""The declarations of include/rkyv_btree.h for Rust and for Python, as texts of bindings/rust/src/raw.rs and of rkyv_btree/_raw.py.

With them go the types of keys and of values, and which errors have a position, of bindings/types.json. The header has the number of each map's type.
"""
import itertools
import re

RUST = {"uint8_t": "u8", "uint32_t": "u32", "uint64_t": "u64", "int64_t": "i64", "size_t": "usize"}
PYTHON = {"uint32_t": "_U32", "uint64_t": "_U64", "int64_t": "_I64", "size_t": "_SIZE"}
SIZES = {"uint8_t": 1, "uint32_t": 4, "uint64_t": 8, "int64_t": 8, "size_t": 8}
HEAD = "The declarations of `include/rkyv_btree.h` and the types of `bindings/types.json`. `tools/header.py --write` writes this file."


class Types:
    """The types of keys and of values, and the codes of errors by what they name.

    A type has its size, its alignment, the format of its numbers, and the step in which it came: maps of it have their numbers after those
    of all types that came before it. A set is a map to the empty type, which only values have.
    """

    def __init__(self, table):
        self.each, self.empty, self.first_set = table["types"], table["empty"], table["first_set"]
        self.codes = {"AT_POSITION": table["at_position"], "AT_ENTRY": table["at_entry"]}

    def maps(self):
        """Returns of each type of maps its number, the names of both types, and the name that the header has for it."""
        pairs = sorted(itertools.product(self.each, self.each), key=lambda pair: max(each["step"] for each in pair))
        named = [(key["name"], value["name"]) for key, value in pairs]
        maps = [(number, key, value, f"{key}_TO_{value}".upper()) for number, (key, value) in enumerate(named, 1)]
        keys = [each["name"] for each in self.each]
        return maps + [(number, key, self.empty["name"], f"{key}_SET".upper()) for number, key in enumerate(keys, self.first_set)]

    def text(self, key, value):
        """Returns the name of the type of maps with these keys and values, as the header of a typed file has it."""
        return f"[{key} / 5]" if value == self.empty["name"] else f"[{key} -> {value} / 5]"


class Header:
    """What a header declares: constants, structs by their fields, and functions by their parameters."""

    def __init__(self, text):
        plain = re.sub(r"\s+", " ", re.sub(r"/\*.*?\*/", " ", text, flags=re.S))
        self.constants = [(name, int(number)) for name, number in re.findall(r"RKYV_BTREE_(\w+) = (\d+)", plain)]
        self.structs = {
            name: [self.declared(field) for field in fields.split(";") if field.strip()]
            for fields, name in re.findall(r"typedef struct \{([^}]*)\} (\w+);", plain)
        }
        self.functions = [
            (name, [self.declared(part) for part in parameters.split(",")], result)
            for result, name, parameters in re.findall(r"(\w+) (rkyv_btree_\w+)\(([^)]*)\);", plain)
        ]

    @staticmethod
    def declared(text):
        """Returns the name, the type, whether it is a pointer and to what is constant, and the length of an array."""
        constant, kind, pointer, name, length = re.fullmatch(r"\s*(const )?(\w+) (\*?)(\w+)(?:\[(\d+)\])?\s*", text).groups()
        return name, kind, bool(pointer), bool(constant), int(length or 0)

    def layout(self, kind):
        """Returns the size and the alignment of a type."""
        if kind not in self.structs:
            return SIZES[kind], SIZES[kind]
        end, most = 0, 1
        for _, field, pointer, _, length in self.structs[kind]:
            size, align = (8, 8) if pointer else self.layout(field)
            end = -(-end // align) * align + size * (length or 1)
            most = max(most, align)
        return -(-end // most) * most, most

    def has_pointer(self, kind):
        return any(pointer for _, _, pointer, _, _ in self.structs[kind])


def short(kind):
    """The name of a struct in Rust, and after a `_` in Python."""
    return kind.removeprefix("rkyv_btree_").capitalize()


def rust_types(types):
    """The lines for Rust that the types determine."""
    every = [*types.each, types.empty]
    names = [each["name"] for each in every]
    cases = [f"        Type::{name.capitalize()} => " for name in names]
    lines = ["", "/// A type of keys or of values.", "#[derive(Clone, Copy, Debug, PartialEq, Eq)]", "pub enum Type {"]
    lines += [f"    {name.capitalize()}," for name in names] + ["}", "", "impl Type {"]
    for doc, head, values in (
        ("its name", "name(self) -> &'static str", [f'"{name}"' for name in names]),
        ("its size and its alignment in an archive", "layout(self) -> (u64, u64)", [f"({each['size']}, {each['align']})" for each in every]),
    ):
        lines += ["", f"    /// Returns {doc}.", f"    pub const fn {head} {{", "        match self {"]
        lines += [f"    {case}{value}," for case, value in zip(cases, values)] + ["        }", "    }"]
    lines += ["}", "", "/// Returns the number of the type of a map. No map has keys of the empty type.", "pub const fn number_of(key: Type, value: Type) -> u32 {"]
    lines += ["    match (key, value) {"]
    lines += [f"        (Type::{key.capitalize()}, Type::{value.capitalize()}) => {name}," for _, key, value, name in types.maps()]
    lines += ["        (Type::Empty, _) => 0,", "    }", "}", ""]
    for name, codes in types.codes.items():
        lines += [f"/// The codes of errors that are at {'a position' if name == 'AT_POSITION' else 'an entry'}."]
        lines += [f"pub const {name}: [u32; {len(codes)}] = [{', '.join(codes)}];"]
    return lines


def rust(header, types):
    def named(name):
        return {"type": "kind"}.get(name, name)

    def typed(field):
        _, kind, pointer, constant, length = field
        kind = RUST.get(kind) or short(kind)
        if length:
            return f"[{kind}; {length}]"
        return f"*{'const' if constant else 'mut'} {kind}" if pointer else kind

    lines = [f"//! {HEAD}", "#![allow(dead_code)]", "use std::mem::size_of;", ""]
    lines += [f"pub const {name}: u32 = {number};" for name, number in header.constants] + rust_types(types)
    for kind, fields in header.structs.items():
        derived = "Clone, Copy, Debug" if header.has_pointer(kind) else "Clone, Copy, Debug, Default, PartialEq, Eq"
        lines += ["", "#[repr(C)]", f"#[derive({derived})]", f"pub struct {short(kind)} {{"]
        lines += [f"    pub {named(field[0])}: {typed(field)}," for field in fields] + ["}"]
    lines += [""] + [f"const _: () = assert!(size_of::<{short(kind)}>() == {header.layout(kind)[0]});" for kind in header.structs]
    lines += ["", 'unsafe extern "C" {']
    for name, parameters, result in header.functions:
        lines += [f"    pub fn {name}("] + [f"        {named(part[0])}: {typed(part)}," for part in parameters] + [f"    ) -> {RUST[result]};"]
    return "\n".join([*lines, "}", ""])


def python_types(types):
    """The lines for Python that the types determine."""
    names = ", ".join(f'"{each["name"]}"' for each in types.each)
    lines = ["", f"Type = Literal[{names}]", "# Of each type its size and its alignment in an archive, and the format of its numbers. Texts and bytes have none."]
    lines += ["TYPES = {"] + [f'    "{each["name"]}": ({each["size"]}, {each["align"]}, "{each["format"]}"),' for each in types.each] + ["}"]
    lines += ["# The same of the values of a set, which have no bytes."]
    lines += [f'EMPTY = "{types.empty["name"]}"', f'LAYOUTS = {{**TYPES, EMPTY: ({types.empty["size"]}, {types.empty["align"]}, "")}}']
    lines += ["# The number of the type of a map, of the types of its keys and its values."]
    lines += ["NUMBERS = {"] + [f'    ("{key}", "{value}"): {name},' for _, key, value, name in types.maps()] + ["}"]
    for name, codes in types.codes.items():
        lines += [f"# The codes of errors that are at {'a position' if name == 'AT_POSITION' else 'an entry'}."]
        lines += [f"{name} = ({', '.join(codes)})"]
    return lines


def python(header, types):
    def typed(field):
        _, kind, pointer, _, length = field
        if pointer:
            return "_BYTES"
        kind = PYTHON.get(kind) or f"_{short(kind)}"
        return f"{kind} * {length}" if length else kind

    def passed(part, after):
        name, kind, pointer, _, _ = part
        if not pointer or kind == "uint8_t" or after == f"{name}_len":
            return typed(part)
        return f"_P({PYTHON.get(kind) or '_' + short(kind)})"

    lines = [f'"""{HEAD}"""', "", "import ctypes", "from types import SimpleNamespace", "from typing import Literal", ""]
    lines += ["_U32, _U64, _I64, _SIZE = ctypes.c_uint32, ctypes.c_uint64, ctypes.c_int64, ctypes.c_size_t",
              "_BYTES, _P = ctypes.c_void_p, ctypes.POINTER", ""]
    lines += [f"{name} = {number}" for name, number in header.constants] + python_types(types)
    for kind, fields in header.structs.items():
        lines += ["", "", f"class _{short(kind)}(ctypes.Structure):", "    _fields_ = ["]
        lines += [f'        ("{field[0]}", {typed(field)}),' for field in fields] + ["    ]"]
    lines += ["", "", "def declared(library: ctypes.CDLL) -> SimpleNamespace:"]
    lines += ['    """Returns the functions of the library, by their names after `rkyv_btree_`."""', "    functions = SimpleNamespace()"]
    lines += ["    for name, result, *parameters in ("]
    for name, parameters, result in header.functions:
        after = [part[0] for part in parameters[1:]] + [""]
        types = ", ".join(passed(part, follows) for part, follows in zip(parameters, after))
        lines += [f'        ("{name.removeprefix("rkyv_btree_")}", {PYTHON[result]}, {types}),']
    lines += ["    ):", '        function = getattr(library, f"rkyv_btree_{name}")', "        function.restype, function.argtypes = result, parameters"]
    return "\n".join([*lines, "        setattr(functions, name, function)", "    return functions", ""])
