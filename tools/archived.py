#!/usr/bin/env python3
"""Writes what a type needs to be a key or a value of an archived map: tools/archived.py [--type NAME] [--out FILE.rt] TYPE.rt

TYPE.rt is a file in the folder src of a crate, with an enum NAME without fields, or a struct NAME whose fields are public. Each field is of a type of
SCALARS of structs.py, an array of bytes, or a struct or an enum of the same file. The layout is that of `repr(C)` in rkyv 0.8: little-endian, each field
aligned to its own alignment, and padding at the end to the greatest. An enum is one byte: the place of the variant, from 0 on. Without --type the type is
the one that is no field of a struct. The script writes three files of the crate:

- src/NAME_archived.rt, or the file of --out: the impls
- specs/NAME.antt: the layout, and the proof that bytes are read as the value of which they were written
- specs/Lib.antt: a line for specs/NAME.antt, if there is none

It says what remains to be done. It overwrites no file that it hasn't made. An error names the file, the line and the cause. RT is rt's command,
if not rt.
"""
import argparse
import dataclasses
import pathlib
import re
import subprocess
import sys
import textwrap

from kit import RT
from structs import NON_ZEROS, NUMBERS, SIGNED, Enum, Fault, Leaf, Node, Reader, layout_of, leaves, outer_type

MADE = "by tools/archived.py"
# words of definitions, which a name can't be without marks
WORDS = {"abbrev", "as", "data", "elim", "else", "family", "if", "in", "let", "module", "mutual", "open", "pub", "record", "ruleset", "syntax",
         "then", "unfoldable", "unfolding", "use", "where", "with"}
ALIGNMENTS = {1: "one", 2: "two", 4: "four", 8: "eight"}


# ---- the definitions


def marked(name):
    return f"«{name}»" if name in WORDS else name


def snake(name):
    return re.sub(r"(?<=[a-z0-9])(?=[A-Z])|(?<=[A-Z])(?=[A-Z][a-z])", "_", name).lower()


def broken(parts, mark):
    """Joins parts by a mark: on one line if it is short, else a line each."""
    text = f" {mark} ".join(parts)
    return text if len(text) < 100 else f"\n    {mark} ".join(parts)


def fresh(name, taken):
    while name in taken:
        name += "_"
    return name


class Definitions:
    """Writes the definitions of a layout: how bytes mean a value, and the proof that those of a value mean it."""

    def __init__(self, node, names):
        self.node = node
        self.leaves = list(leaves(node))
        taken = {name for leaf in self.leaves for name in leaf.path}
        self.bytes, self.own, self.is_in, self.i = (fresh(it, taken) for it in ("bytes", "x", "is_in", "i"))
        self.names = names

    def of(self, leaf):
        return ".".join([self.own, *map(marked, leaf.path)])

    def stored(self, leaf):
        """The number that is stored in the bytes."""
        if leaf.size == 1 and leaf.type not in NON_ZEROS:
            number = f"slice_index {self.bytes} {leaf.at}"
        else:
            number = f"from_le (bytes_at {self.bytes} {leaf.at} {leaf.size})"
        return f"cast_signed {leaf.width} ({number})" if leaf.number in SIGNED else number

    def value(self, leaf):
        if leaf.enum:
            return f"{snake(leaf.type)}_of ({self.stored(leaf)})"
        if leaf.count:
            return f"elements {leaf.count} {leaf.at} {self.bytes}"
        if leaf.type == "bool":
            return f"nat_eq ({self.stored(leaf)}) 1"
        return f"{snake_of_non_zero(leaf)} ({self.stored(leaf)})" if leaf.type in NON_ZEROS else self.stored(leaf)

    def test(self, leaf):
        """The condition that the bytes of a field mean a value, or None."""
        if leaf.enum:
            return f"nat_lt ({self.stored(leaf)}) {len(leaf.enum.variants)}"
        if leaf.type == "bool":
            return f"nat_lt ({self.stored(leaf)}) 2"
        if leaf.type == "char":
            return f"scalar ({self.stored(leaf)})"
        if leaf.type in NON_ZEROS:
            number = self.stored(leaf)
            return f"nat_lt 0 (unsigned_abs ({number}))" if leaf.number in SIGNED else f"nat_lt 0 ({number})"
        return None

    def written(self, leaf):
        """The bytes of a field: a list, or one byte that isn't in a list yet, and whether it is one."""
        own = self.of(leaf)
        if leaf.enum:
            return f"{snake(leaf.type)}_number {own}", True
        if leaf.count:
            return f"elements {leaf.count} 0 {own}", False
        if leaf.type in NON_ZEROS:
            return f"{snake_of_non_zero(leaf)}_form.own_bytes {own}", False
        if leaf.type == "bool":
            return f"from_bool {own}", True
        if leaf.type == "char":
            return f"own_char {own}", False
        number = f"cast_unsigned {leaf.width} {own}" if leaf.number in SIGNED else own
        if leaf.size == 1:
            return number, True
        return f"to_le_bytes {leaf.width} {f'({number})' if ' ' in number else number}", False

    def fact(self, leaf):
        """What is known of a field in a program, or None."""
        own = self.of(leaf)
        if leaf.enum:
            return None
        if leaf.count:
            return f"length {own} ≡ {leaf.count}"
        if leaf.type in NON_ZEROS:
            return f"{snake_of_non_zero(leaf)}_form.IsIn {own}"
        if leaf.type == "char":
            return f"IsTrue (scalar {own})"
        if leaf.number in SIGNED:
            return f"FitsSigned {leaf.width} {own}"
        return f"{own} < 2 ^ {8 * leaf.size}" if leaf.size > 1 else None

    def back(self, leaf):
        """The proof that the bytes of a field are read as that field, at a point of the path."""
        own = self.of(leaf)
        if leaf.type == "bool" or leaf.enum:
            return f"back_{snake(leaf.type)} {own} {self.i}"
        if self.fact(leaf) is None:
            return own
        known = [it for it in self.leaves if self.fact(it)]
        fact = self.is_in if len(known) == 1 else f"{self.is_in}.{known.index(leaf)}"
        if leaf.count:
            return f"all_elements {leaf.count} {own} {fact} {self.i}"
        if leaf.type == "i8":
            return f"to_z-of_z w8 {own} {fact} {self.i}"
        form = snake_of_non_zero(leaf) if leaf.type in NON_ZEROS else leaf.type
        return f"{form}_faithful.means {own} {fact} {self.i}"

    def valid(self, leaf):
        """The proof that the bytes of a field are a value."""
        if leaf.type == "bool" or leaf.enum:
            return f"valid_{snake(leaf.type)} {self.of(leaf)}"
        form = snake_of_non_zero(leaf) if leaf.type in NON_ZEROS else leaf.type
        return f"valid_of {form}_form {form}_faithful (omega arith) {self.of(leaf)}"

    def record(self, node, part, indent="    "):
        """A record of a struct, with a line for each field; an enum is its one part."""
        if isinstance(node.struct, Enum):
            return part(node.fields[0][1])
        rows = []
        for name, it in node.fields:
            rows.append(f"{indent}{marked(name)} = {part(it) if isinstance(it, Leaf) else self.record(it, part, indent + '  ')};")
        return "\n".join(["record {", *rows, f"{indent[2:]}}}"])

    def bytes_of(self, part):
        """The bytes of a part, with padding."""
        groups, at = [], part.start
        for leaf in [*part.leaves, None]:
            start = leaf.at if leaf else part.end
            text, is_byte = self.written(leaf) if leaf else ("", True)
            for byte in ["0"] * (start - at) + ([text] if leaf and is_byte else []):
                if groups and isinstance(groups[-1], list):
                    groups[-1].append(byte)
                else:
                    groups.append([byte])
            if not is_byte:
                groups.append(text)
            at = start + (leaf.size if leaf else 0)
        return broken([f"({' ∷ '.join([*it, '[]'])})" if isinstance(it, list) else it for it in groups], "++")

    def parts(self):
        """The definitions of the bytes of each part, if there are several."""
        for part in self.node.parts[1:] and self.node.parts:
            name = self.names.part(part)
            yield from [f"-- the bytes of a `{self.node.struct.name}` from {part.start} to {part.end}",
                        f"unfoldable pub {name} : {self.node.struct.name} → List ℕ",
                        f"{name} {self.own} = {self.bytes_of(part)}", ""]

    def all_bytes(self):
        if len(self.node.parts) == 1:
            return self.bytes_of(self.node.parts[0])
        return " ++ ".join(f"{self.names.part(part)} {self.own}" for part in self.node.parts)

    def all_valid(self):
        proofs = [self.valid(leaf) for leaf in self.leaves if self.test(leaf)]
        text = proofs.pop() if proofs else "refl"
        for proof in reversed(proofs):
            text = f"and_from _ _ ({proof}) ({text})"
        return text

    def all_tests(self):
        tests = [self.test(leaf) for leaf in self.leaves if self.test(leaf)]
        inner = [f"({test}" for test in tests[1:-1]]
        return broken([*tests[:1], *inner, *tests[1:][-1:]], "&&") + ")" * len(inner) or "true"

    def known(self):
        """What is known of a value in a program."""
        facts = [fact for fact in map(self.fact, self.leaves) if fact]
        return broken([f"({it})" if re.search(" [<≡] ", it) and len(facts) > 1 else it for it in facts], "×") or "Unit {0}"

    def places(self):
        """The comment that says where each field is."""
        if isinstance(self.node.struct, Enum):
            return [f"-- which bytes are a `{self.node.struct.name}`, and which one"]
        places = ", ".join(f"`{'.'.join(leaf.path)}` at {leaf.at}" for leaf in self.leaves)
        text = f"which bytes are a `{self.node.struct.name}`, and which one: {places}. Other bytes are padding, which is written as 0."
        return textwrap.wrap(text, 120, initial_indent="-- ", subsequent_indent="-- ")

    def body(self):
        name, low = self.node.struct.name, self.names.low
        helpers = [text for is_needed, text in HELPERS if any(map(is_needed, self.leaves))]
        parts = list(self.parts())
        arrays = [ELEMENTS] if any(leaf.count for leaf in self.leaves) else []
        return "\n".join([
            *arrays,
            *[numbers_of(it) for it in enums_of(self.leaves)],
            *parts,
            *self.places(),
            f"abbrev pub {low}_layout : PlainLayout {name}",
            f"{low}_layout = record {{",
            f"  size = {self.node.size};",
            f"  align = {self.node.align};",
            f"  is_value = λ {self.bytes}. {self.all_tests()};",
            f"  value = λ {self.bytes}. {self.record(self.node, self.value)};",
            f"  bytes = λ {self.own}. {self.all_bytes()};",
            f"  IsIn = λ {self.own}. {self.known()};",
            "}",
            "",
            *helpers,
            *[proofs_of(it) for it in enums_of(self.leaves)],
            f"-- the bytes of a `{name}` are so many, are a value, and are that one",
            f"pub {low}_lawful : IsPlainLayout {low}_layout",
            *([f"unfolding {' '.join(map(self.names.part, self.node.parts))}"] if parts else []),
            f"{low}_lawful = record {{",
            f"  alignment = {ALIGNMENTS[self.node.align]};",
            "  whole = refl;",
            "  small = omega arith;",
            f"  many = λ {self.own}. refl;",
            f"  valid = λ {self.own}. {self.all_valid()};",
            f"  back = λ {self.own} {self.is_in}. λ {self.i}. {self.record(self.node, self.back)};",
            "}",
            "",
        ])

    def declared(self):
        """Yields the imports of the type and of its enums."""
        enums = enums_of(self.leaves)
        for it in [*([] if self.node.struct in enums else [self.node.struct]), *enums]:
            yield f"use Rattle.{self.names.crate}.specs.declared.{self.names.declared(it.name)}.{{{it.name}}}"
        for it in enums:
            yield f"use Rattle.{self.names.crate}.specs.declared.{self.names.declared(it.name)}.TheVariants.{{{', '.join(map(marked, it.variants))}}}"

    def text(self):
        body = self.body()
        return "\n".join([
            f"-- A `{self.node.struct.name}` in {self.node.size} bytes. Made of src/{self.names.source} {MADE}.",
            *uses(body, DEFINED, "use"),
            *self.declared(),
            "",
            body,
        ])


def snake_of_non_zero(leaf):
    return f"non_zero_{leaf.number}"


def enums_of(fields):
    """Returns the enums of fields, each once."""
    return list({leaf.type: leaf.enum for leaf in fields if leaf.enum}.values())


def numbers_of(enum):
    """The definitions of an enum's numbers."""
    name, low = enum.name, snake(enum.name)
    *first, last = map(marked, enum.variants)
    return "\n".join([
        f"-- the number of a `{name}`: its place in the enum, from 0 on",
        f"abbrev pub {low}_number : {name} → ℕ",
        *[f"{low}_number {it} = {k}" for k, it in enumerate([*first, last])],
        "",
        f"-- the `{name}` with a number, or the last one",
        f"abbrev pub {low}_of : ℕ → {name}",
        f"{low}_of {'n' if first else '_'} =" + "".join(f"\n    if nat_eq n {k} then {it} else" for k, it in enumerate(first)) + f" {last}",
        "",
    ])


def proofs_of(enum):
    """The proof that an enum's numbers lead back to it."""
    name, low = enum.name, snake(enum.name)
    variants = list(map(marked, enum.variants))
    return "\n".join([
        f"-- the number of a `{name}` is one, and leads to it",
        f"valid_{low} : (x : {name}) → IsTrue (nat_lt ({low}_number x) {len(variants)})",
        *[f"valid_{low} {it} = refl" for it in variants],
        "",
        f"back_{low} : (x : {name}) → {low}_of ({low}_number x) ≡ x",
        *[f"back_{low} {it} = refl" for it in variants],
        "",
    ])


ELEMENTS = """\
-- so many bytes from a position on
abbrev pub elements : ℕ → ℕ → List ℕ → List ℕ
elements zero at bytes = []
elements (suc n) at bytes = slice_index bytes at ∷ elements n (suc at) bytes
"""

# lemmas that the proof of a layout cites: those of arrays, of truth values, and of other types with bytes that are no value
HELPERS = [
    (lambda leaf: leaf.count, """\
-- the elements of an array are all of it
all_elements : (count : ℕ) (bytes : List ℕ) → length bytes ≡ count → elements count 0 bytes ≡ bytes
all_elements zero [] e = refl
all_elements (suc n) (b ∷ bytes) e = ap (λ (rest : List ℕ). b ∷ rest) (shifted n 0 b bytes ∙ all_elements n bytes (omega (arith, e)))
  where
    shifted : (n at b : ℕ) (bytes : List ℕ) → elements n (suc at) (b ∷ bytes) ≡ elements n at bytes
    shifted zero at b bytes = refl
    shifted (suc n) at b bytes = ap (λ (rest : List ℕ). slice_index bytes at ∷ rest) (shifted n (suc at) b bytes)
all_elements zero (b ∷ bytes) e = absurd (omega (arith, e))
all_elements (suc n) [] e = absurd (omega (arith, e))
"""),
    (lambda leaf: leaf.type == "bool", """\
-- the byte of a truth value is one, and is read as it
valid_bool : (b : Bool) → IsTrue (nat_lt (from_bool b) 2)
valid_bool true = refl
valid_bool false = refl

back_bool : (b : Bool) → nat_eq (from_bool b) 1 ≡ b
back_bool true = refl
back_bool false = refl
"""),
    (lambda leaf: leaf.type == "char" or leaf.type in NON_ZEROS, """\
-- the own bytes of a value are one
valid_of : {X : Type 0} (form : NativeForm X) → IsFaithful form → form.plain.size < 2 ^ 32 → (x : X)
    → IsTrue (form.plain.is_value (bytes_at (form.own_bytes x) 0 form.plain.size))
valid_of form faithful small x =
    let own = faithful.is_own x in
    let size = own.size in
    (own.means (form.own_bytes x) 0 0 0 (omega (arith, size, small)) (omega arith) (omega arith) (omega arith) (omega (arith, size)) (take_all form.plain.size (form.own_bytes x) (omega (arith, size)))).is_value
"""),
]

FORMS = ["char", "u16", "u32", "u64", "i16", "i32", "i64"]
ZERO_FORMS = [f"non_zero_{it}" for it in NON_ZEROS.values()]
# the words of definitions and of clauses, by the module that has them
DEFINED = [
    ("std.specs.Prelude", ["FitsSigned", "◌≡◌", "◌+◌", "◌≤◌", "◌<◌", "◌^◌", "◌∷◌", "◌++◌", "[]", "ℕ", "List", "Bool", "true", "false", "IsTrue", "◌&&◌",
                           "nat_eq", "nat_lt", "length", "slice_index", "suc", "unsigned_abs", "zero", "if◌then◌else◌"]),
    ("std.specs.Int", ["to_le_bytes", "from_bool", "cast_signed", "cast_unsigned", "w8", "w16", "w32", "w64"]),
    ("std.proofs.Common", ["refl", "arith", "ap", "◌∙◌"]),
    ("std.proofs.Math.Utf8", ["scalar"]),
    ("std.proofs.lemmas.Bool", ["and_from"]),
    ("std.proofs.lemmas.Int", ["to_z-of_z"]),
    ("std.proofs.lemmas.List", ["take_all"]),
    ("rkyv_btree_base.specs.Bytes", ["bytes_at", "from_le"]),
    ("rkyv_btree_base.specs.InPlace", ["NativeForm", "IsFaithful"]),
    ("rkyv_btree_base.specs.Natives", ["own_char", "char_form"]),
    ("rkyv_btree_base.specs.NonZeros", [*ZERO_FORMS, *(f"{it}_form" for it in ZERO_FORMS)]),
    ("rkyv_btree_base.specs.Rounding", ["one", "two", "four", "eight"]),
    ("rkyv_btree_base.specs.laws.Natives", [f"{it}_faithful" for it in FORMS]),
    ("rkyv_btree_portable.specs.laws.NonZeros", [f"{it}_faithful" for it in ZERO_FORMS]),
    ("rkyv_btree.specs.PlainValues", ["PlainLayout", "IsPlainLayout"]),
]


def uses(body, table, word):
    """Returns the imports of the words of a text."""
    there = set(re.findall(r"[^\s(){}\[\];.,«»]+|\[\]", re.sub(r"(?m)^ *(--|//).*$", "", body)))
    lines = []
    for module, names in table:
        used = [name for name in names if re.sub("◌.*", "", name.lstrip("◌")) in there]
        if used:
            lines.append(f"{word} Rattle.{module}.{{{', '.join(used)}}}{';' * (word != 'use')}")
    return lines


# ---- the impls


class Impls:
    """Writes the impls of a struct, which read and write its bytes."""

    def __init__(self, node, names):
        self.node, self.names = node, names
        self.leaves = list(leaves(node))
        self.own = "value" if node.parts[1:] else "self"
        self.locals = {}
        for leaf in self.leaves:
            self.locals[leaf.path] = fresh("_".join(leaf.path), self.locals.values())

    def stored(self, leaf):
        """The number that is stored in the bytes."""
        return f"bytes[{leaf.at}]" if leaf.enum or leaf.type in ("u8", "bool") else f"{leaf.number}_at(bytes, {leaf.at})"

    def read(self, leaf):
        if leaf.enum:
            return f"{snake(leaf.type)}_of({self.stored(leaf)})"
        if leaf.count:
            return f"[{', '.join(f'bytes[{leaf.at + k}]' for k in range(leaf.count))}]"
        if leaf.type == "bool":
            return f"{self.stored(leaf)} == 1"
        if leaf.type == "char":
            return f"char_at(bytes, {leaf.at})"
        return f"{snake_of_non_zero(leaf)}({self.stored(leaf)})" if leaf.type in NON_ZEROS else self.stored(leaf)

    def test(self, leaf):
        if leaf.enum:
            return f"{self.stored(leaf)} < {len(leaf.enum.variants)}"
        if leaf.type == "bool":
            return f"{self.stored(leaf)} < 2"
        if leaf.type == "char":
            return f"char::from_u32({self.stored(leaf)}).is_some()"
        return f"{self.stored(leaf)} != 0" if leaf.type in NON_ZEROS else None

    def written(self, leaf):
        """The bytes of a field, and the line that names them, if one does."""
        own, name = ".".join([self.own, *leaf.path]), self.locals[leaf.path]
        if leaf.enum:
            return [f"{snake(leaf.type)}_number({own})"], None
        if leaf.count:
            return [f"{own}[{k}]" for k in range(leaf.count)], None
        if leaf.size == 1 and leaf.type not in NON_ZEROS:
            return [{"u8": own, "bool": f"u8::from({own})", "i8": f"{own}.cast_unsigned()"}[leaf.type]], None
        number = {"char": f"u32::from({own})"}.get(leaf.type, f"{own}.get()" if leaf.type in NON_ZEROS else own)
        parts = [f"{name}_{k}" for k in range(leaf.size)]
        return parts, f"let [{', '.join(parts)}] = {number}.to_le_bytes();"

    def write_of(self, part):
        """The statements that write a part."""
        lines, array, at = [], [], part.start
        for leaf in part.leaves:
            parts, line = self.written(leaf)
            array += ["0"] * (leaf.at - at) + parts
            lines += [line] if line else []
            at = leaf.at + leaf.size
        array += ["0"] * (part.end - at)
        return " ".join([*lines, f"bytes.copy_from_slice(&[{', '.join(array)}]);"])

    def write_body(self):
        """The statements that write all bytes."""
        if len(self.node.parts) == 1:
            return self.write_of(self.node.parts[0])
        lines, rest = [], "bytes"
        for part in self.node.parts[:-1]:
            lines += [f"let (part, rest) = {rest}.split_at_mut({part.end - part.start});", f"write_{part.start}(self, part);"]
            rest = "rest"
        return " ".join([*lines, f"write_{self.node.parts[-1].start}(self, rest);"])

    def writers(self):
        """The functions that write the parts, if there are several."""
        name, crate_specs = self.node.struct.name, f"crate::specs::{self.node.struct.name}"
        return "\n".join(f"""\
/// Writes the bytes of a `{name}` from {part.start} to {part.end}.
#[tactic(auto, unfolding({crate_specs}::{self.names.part(part)}))]
fn write_{part.start}(value: {name}, bytes: &mut [u8])
    requires {{ length bytes.old ≡ {part.end - part.start} }}
    ensures {{ bytes.new ≡ {self.names.part(part)} value }}
{{
    {self.write_of(part)}
}}
""" for part in self.node.parts[1:] and self.node.parts)

    def literal(self, node):
        if isinstance(node.struct, Enum):
            return self.read(node.fields[0][1])
        rows = [f"{name}: {self.read(it) if isinstance(it, Leaf) else self.literal(it)}," for name, it in node.fields]
        return f"{node.struct.name} {{ {' '.join(rows)} }}"

    def structs(self, node):
        """The names of the struct, and of the structs and enums in it."""
        inner = [self.structs(it) if isinstance(it, Node) else {it.type} if it.enum else set() for _, it in node.fields]
        return {node.struct.name}.union(*inner)

    def body(self):
        name, low = self.node.struct.name, self.names.low
        tests = " && ".join(filter(None, map(self.test, self.leaves)))
        return "\n".join([
            f"/// A `{name}` in {self.node.size} bytes.",
            f"pub type Archived{name} = ArchivedPlain<{name}>;",
            "",
            f"impl PlainValue for {name} {{",
            f"    ghost layout = {{ {low}_layout }};",
            "",
            f"    ghost lawful = {{ {low}_lawful }};",
            "",
            f"    fn size_and_align() -> (u32, u32) {{ ({self.node.size}, {self.node.align}) }}",
            "",
            f"    fn is_value({'' if tests else '_'}bytes: &[u8]) -> bool {{ {tests or 'true'} }}",
            "",
            f"    fn from_bytes(bytes: &[u8]) -> {name} {{ {self.literal(self.node)} }}",
            "",
            f"    fn write_bytes(self, bytes: &mut [u8]) {{ {self.write_body()} }}",
            "",
            "    fn is_in(self) {}",
            "}",
            "",
            f"impl Native for {name} {{",
            f"    type Plain = Archived{name};",
            "",
            "    ghost same_plain = { itself _ };",
            "",
            "    fn is_in(self) {}",
            "}",
            "",
        ])

    def text(self):
        body = self.body()
        enums = enums_of(self.leaves)
        helpers = "\n".join(filter(None, [self.writers(), *map(converters_of, enums), helpers_of(body)]))
        numbers = [f"{snake(it.name)}_{word}" for it in enums for word in ("number", "of")]
        words = [f"{self.names.low}_layout", f"{self.names.low}_lawful", *numbers, *map(self.names.part, self.node.parts[1:] and self.node.parts)]
        clauses = "".join(re.findall(r"(?m)^ *(?:requires|ensures) .*$\n?", helpers))
        non_zeros = sorted({snake_of_non_zero(leaf) for leaf in self.leaves if leaf.type in NON_ZEROS})
        return "\n".join([
            f"//! How a `{self.node.struct.name}` is archived. Made of src/{self.names.source} {MADE}: change that, and run the script again.",
            *uses(clauses, DEFINED, "ghost use"),
            "ghost use Rattle.rkyv_btree_base.specs.Archiving.{itself};",
            f"ghost use Rattle.{self.names.crate}.specs.{self.node.struct.name}.{{{', '.join(words)}}};",
            "",
            f"use crate::{self.names.module}{{{', '.join(sorted(self.structs(self.node)))}}};",
            "use rkyv_btree::prelude::{ArchivedPlain, Native, PlainValue};",
            *([f"use rkyv_btree_base::non_zeros::{{{', '.join(non_zeros)}}};"] if non_zeros else []),
            "",
            body,
            helpers,
        ])


def converters_of(enum):
    """Returns the functions from an enum to its number and back."""
    name, low = enum.name, snake(enum.name)
    *first, last = enum.variants
    numbers = " ".join(f"{name}::{it} => {k}," for k, it in enumerate(enum.variants))
    variants = " ".join(f"{k} => {name}::{it}," for k, it in enumerate(first))
    return f"""\
/// Returns the place of a `{name}` in its enum, from 0 on.
fn {low}_number(value: {name}) -> u8
    ensures {{ result ≡ {low}_number value }}
{{
    match value {{ {numbers} }}
}}

/// Returns the `{name}` with a number, or the last one.
fn {low}_of({'number' if first else '_number'}: u8) -> {name}
    ensures {{ result ≡ {low}_of {'number' if first else '_number'} }}
{{
    {f'match number {{ {variants} _ => {name}::{last}, }}' if first else f'{name}::{last}'}
}}
"""


def helpers_of(body):
    """Returns the functions that read a field's bytes, of those that a text calls."""
    called = {name for name in [*NUMBERS, "char"] if f"{name}_at(" in body}
    called |= {"u32"} if "char" in called else set()
    return "\n".join(reader_of(name) for name in [*NUMBERS, "char"] if name in called)


def reader_of(name):
    """Returns the function that reads a number or a character at a position."""
    if name == "char":
        return """\
/// Returns the character of the four bytes at a position.
fn char_at(bytes: &[u8], at: usize) -> char
    requires size { at + 4 ≤ length bytes.now }
    requires value { IsTrue (scalar (from_le (bytes_at bytes.now at 4))) }
    ensures { result ≡ from_le (bytes_at bytes.now at 4) }
{
    let Some(value) = char::from_u32(u32_at(bytes, at)) else { unreachable!() };
    value
}
"""
    size = NUMBERS[name]
    number = f"from_le (bytes_at bytes.now at {size})"
    if name == "i8":
        number = "slice_index bytes.now at"
    value = f"cast_signed w{8 * size} ({number})" if name in SIGNED else number
    parts = ", ".join(f"bytes[at + {k}]" if k else "bytes[at]" for k in range(size))
    return f"""\
/// Returns the number of the {f'{size} bytes' if size > 1 else 'byte'} at a position.
fn {name}_at(bytes: &[u8], at: usize) -> {name}
    requires {{ at + {size} ≤ length bytes.now }}
    ensures {{ result ≡ {value} }}
{{
    {f'{name}::from_le_bytes([{parts}])' if size > 1 else {'u8': 'bytes[at]', 'i8': 'bytes[at].cast_signed()'}[name]}
}}
"""


# ---- the files of a crate


@dataclasses.dataclass
class Names:
    """Where a struct is: its crate, its file below src, and its name in small letters."""
    crate: str
    source: str
    low: str
    struct: str

    @property
    def steps(self):
        """The modules that lead to the file from the root of the crate."""
        steps = list(pathlib.PurePath(self.source).with_suffix("").parts)
        return [] if steps in (["lib"], ["main"]) else steps[:-1] if steps[-1] == "mod" else steps

    def part(self, part):
        """The name of the bytes of a part."""
        return f"{self.low}_bytes_{part.start}"

    def declared(self, type):
        return ".".join([*self.steps, type])

    @property
    def module(self):
        return "".join(f"{it}::" for it in self.steps)


def crate_of(source):
    """Returns the folder of the crate of a source file."""
    for folder in source.resolve().parents:
        if folder.name == "src":
            return folder.parent
    raise Fault(1, "the file isn't in the folder src of a crate")


def may_write(file):
    """Fails if a file is there that this script hasn't made."""
    if file.exists() and MADE not in file.read_text().split("\n", 1)[0]:
        raise Fault(1, f"{file} is there already, and this script hasn't made it: move it, or name another file by --out")


def write_all(crate, out, names, node):
    """Writes the files, in the layout of rt fmt. Returns what remains to be done."""
    specs = crate / "specs" / f"{names.struct}.antt"
    may_write(out)
    may_write(specs)
    specs.parent.mkdir(exist_ok=True)
    out.write_text(Impls(node, names).text())
    specs.write_text(Definitions(node, names).text())
    subprocess.run([RT.rtlib.RATTLE, "fmt", "--write", str(out), str(specs)], check=True)
    listed = crate / "specs" / "Lib.antt"
    lines = listed.read_text() if listed.exists() else "-- What the bytes of values mean.\n"
    if f"pub mod {names.struct}" not in lines.splitlines():
        listed.write_text(f"{lines.rstrip()}\npub mod {names.struct}\n")
    return remaining(crate, out, list(leaves(node)))


def remaining(crate, out, fields):
    """Yields what the user has to write."""
    root = next((it for it in (crate / "src" / "lib.rt", crate / "src" / "main.rt") if it.exists()), crate / "src" / "lib.rt")
    if not root.exists() or not re.search(rf"\bmod {out.stem};", root.read_text()):
        yield f"add `pub mod {out.stem};` to {root.name}"
    wanted = [*(["rkyv_btree_portable"] if any(it.type in NON_ZEROS for it in fields) else []), "rkyv_btree_base", "rkyv_btree"]
    listed = next((it / "crates.txt" for it in crate.parents if (it / "crates.txt").exists()), None)
    line = re.search(rf"(?m)^{crate.name}\b[^:\n]*:(.*)$", listed.read_text()) if listed else None
    missing = [it for it in wanted if not line or it not in line[1].split()]
    if missing:
        yield f"add {' '.join(missing)} to the line of {crate.name} in crates.txt"


def check_names(type, enums):
    """Fails if the definitions can't have the names of a type and of the enums in it."""
    taken = {name for _, names in DEFINED for name in names} | {"Unit"}
    for it in [type, *enums]:
        if it.name in taken:
            raise Fault(it.line, f"`{it.name}` is a word of definitions: give the type another name")
    for it in enums:
        for variant in it.variants:
            if variant in taken or variant in {type.name, *(other.name for other in enums)}:
                raise Fault(it.line, f"`{variant}` is a word of definitions, or the name of a type or of another variant: give the variant another name")
            taken.add(variant)


def main(words):
    parser = argparse.ArgumentParser(description=__doc__.split("\n", 1)[0])
    parser.add_argument("--type", help="the struct or enum, if the file has several")
    parser.add_argument("--out", help="the file of the impls, in the folder src", type=pathlib.Path)
    parser.add_argument("source", help="the file of the type", type=pathlib.Path)
    options = parser.parse_args(words)
    try:
        crate = crate_of(options.source)
        file = Reader(options.source.read_text()).read()
        struct = outer_type(file, options.type)
        node = layout_of(file, struct)
        check_names(struct, enums_of(leaves(node)))
        names = Names(crate.name, options.source.resolve().relative_to(crate / "src").as_posix(), snake(struct.name), struct.name)
        out = options.out or crate / "src" / f"{names.low}_archived.rt"
        for line in write_all(crate, out, names, node):
            print(f"to do: {line}")
    except OSError as fault:
        sys.exit(f"tools/archived.py: {options.source}: {fault.strerror}")
    except Fault as fault:
        sys.exit(f"{options.source}:{fault.line}: {fault}")


if __name__ == "__main__":
    main(sys.argv[1:])
