"""Structs and enums of a Rattle file, and the layout of their fields as `repr(C)` has it. tools/archived.py writes definitions and impls of it."""
import dataclasses
import re

UNSIGNED = {"u8": 1, "u16": 2, "u32": 4, "u64": 8}
SIGNED = {"i8": 1, "i16": 2, "i32": 4, "i64": 8}
NUMBERS = {**UNSIGNED, **SIGNED}
# those of which the impls are proved without a proof file
NON_ZEROS = {f"NonZero{number.upper()}": number for number in ("u8", "u16", "u64", "i16")}
SCALARS = [*NUMBERS, "bool", "char", *NON_ZEROS]
SUPPORTED = f"a field is {', '.join(SCALARS)}, an array of bytes as [u8; 16], or a struct or an enum of the same file"
# an array of bytes, and the most elements that it may have
ARRAY, MOST_ELEMENTS = re.compile(r"\[u8; (\d+)\]"), 64
# the most variants that one byte tells apart
MOST_VARIANTS = 256
# what the type of a key or a value has beside its layout
TRAITS = ["Copy", "Debug", "PartialEq", "Eq", "PartialOrd", "Ord", "Hash"]


class Fault(Exception):
    """What is wrong with a file, and in which line."""

    def __init__(self, line, cause):
        super().__init__(cause)
        self.line = line


# ---- the structs and enums of a file


@dataclasses.dataclass
class Token:
    text: str
    line: int


@dataclasses.dataclass
class Field:
    name: str
    type: str
    line: int


@dataclasses.dataclass
class Struct:
    name: str
    line: int
    fields: list
    traits: set


@dataclasses.dataclass
class Enum:
    """An enum. Its variants are names, or the reason why there is no layout."""
    name: str
    line: int
    variants: list
    traits: set


def tokens(text):
    """Returns the words and marks of a Rattle file, without comments, and without the text in quotes."""
    found, line = [], 1
    form = r"(//[^\n]*)|(/\*.*?\*/)|(\"(?:\\.|[^\"\\])*\"|'(?:\\.|[^'\\])')|(r#\w+|[^\W\d]\w*)|(::|->|\S)|(\s+)"
    for match in re.finditer(form, text, re.S):
        if match[4] or match[5]:
            found.append(Token(match[0], line))
        line += match[0].count("\n")
    return found


class Reader:
    """Reads the structs and enums of a file, item by item."""

    def __init__(self, text):
        self.tokens, self.at = tokens(text), 0
        self.structs, self.enums, self.others = {}, {}, {}

    def peek(self):
        return self.tokens[self.at].text if self.at < len(self.tokens) else ""

    def line(self):
        return self.tokens[min(self.at, len(self.tokens) - 1)].line if self.tokens else 1

    def take(self, wanted=None):
        text = self.peek()
        if not text or wanted not in (None, text):
            raise Fault(self.line(), f"`{wanted or 'more'}` is missing before `{text or 'the end of the file'}`")
        self.at += 1
        return text

    def group(self):
        """Passes over the brackets that begin here, and returns the words within."""
        start, depth = self.at, 0
        while True:
            depth += {"(": 1, "[": 1, "{": 1, ")": -1, "]": -1, "}": -1}.get(self.take(), 0)
            if depth == 0:
                return [token.text for token in self.tokens[start + 1:self.at - 1]]

    def attributes(self):
        """Passes over the attributes that begin here, and returns the traits that they derive."""
        derived = set()
        while self.peek() == "#":
            self.take()
            if self.peek() == "!":
                self.take()
            words = self.group()
            if words[:1] == ["derive"]:
                derived.update(words)
        return derived

    def visibility(self):
        """Passes over `pub` and the like, and returns whether a sibling module can see what follows."""
        if self.peek() != "pub":
            return False
        self.take()
        within = self.group() if self.peek() == "(" else []
        return within != ["self"]

    def read(self):
        """Reads the file: its structs and enums by name, and the kind and line of each other type that it names."""
        while self.at < len(self.tokens):
            derived = self.attributes()
            self.visibility()
            word, line = self.peek(), self.line()
            if word == "struct":
                self.struct(derived)
            elif word == "enum":
                self.enumeration(derived)
            elif word in ("union", "type", "trait"):
                self.take()
                self.others[self.take()] = (word, line)
            elif word == "impl":
                self.implementation()
            elif word in ("{", "(", "["):
                self.group()
            elif word:
                self.take()
        return self

    def implementation(self):
        """Notes which struct an impl gives a trait."""
        words = []
        while self.peek() not in ("{", ""):
            words.append(self.take())
        if "for" in words:
            self.others.setdefault("impls", set()).add((words[words.index("for") - 1], words[-1]))

    def struct(self, derived):
        line = self.line()
        self.take("struct")
        name = self.take()
        if name in self.structs or name in self.enums:
            raise Fault(line, f"the type `{name}` is there twice")
        found = Struct(name, line, [], derived)
        if self.peek() == "<":
            found.fields = f"`{name}` is generic: it needs a layout for each type that it is used with"
        elif self.peek() == "{":
            found.fields = self.fields(name)
        else:
            found.fields = f"`{name}` has no fields with names"
        self.structs[name] = found

    def enumeration(self, derived):
        line = self.line()
        self.take("enum")
        name = self.take()
        if name in self.enums or name in self.structs:
            raise Fault(line, f"the type `{name}` is there twice")
        found = Enum(name, line, f"`{name}` is generic: it needs a layout for each type that it is used with", derived)
        if self.peek() != "<":
            found.variants = self.variants(name)
        self.enums[name] = found

    def variants(self, enum):
        """Reads the variants of an enum. Returns their names, or why there is no layout."""
        found, end = [], self.at + len_of_group(self.tokens, self.at)
        self.take("{")
        while self.at < end - 1:
            self.attributes()
            found.append(self.take())
            if self.peek() in ("(", "{"):
                found = f"the variant `{found[-1]}` of `{enum}` has fields: write its impls by hand"
            elif self.peek() == "=":
                found = f"the variant `{found[-1]}` of `{enum}` has a number of its own: the byte is the place of a variant, from 0 on"
            if isinstance(found, str):
                self.at = end - 1
            elif self.at < end - 1:
                self.take(",")
        self.take("}")
        return found or f"`{enum}` has no variants"

    def fields(self, struct):
        """Reads the fields of a struct. Returns them, or why there is no layout."""
        found = {}
        end = self.at + len_of_group(self.tokens, self.at)
        self.take("{")
        while self.at < end - 1:
            self.attributes()
            line, visible = self.line(), self.visibility()
            name = self.take()
            if name == "ghost":
                raise Fault(line, f"`{struct}` has a ghost field: write its impls by hand")
            if not visible:
                raise Fault(line, f"the field `{name}` of `{struct}` isn't `pub`: the impls are in another module")
            if name in found:
                raise Fault(line, f"the field `{name}` of `{struct}` is there twice")
            self.take(":")
            found[name] = Field(name, self.type(end - 1), line)
        self.take("}")
        return list(found.values()) or f"`{struct}` has no fields"

    def type(self, end):
        """Reads a type up to its comma, or to the end of the struct."""
        words, depth = [], 0
        while self.at < end and (depth or self.peek() != ","):
            depth += {"<": 1, "(": 1, "[": 1, ">": -1, ")": -1, "]": -1}.get(self.peek(), 0)
            words.append(self.take())
        if self.at < end:
            self.take(",")
        return "".join(f"{it} " if it in (";", "&", "dyn", "mut") else it for it in words)


def len_of_group(found, start):
    """Returns the number of tokens of the brackets that begin at a token."""
    depth = 0
    for at in range(start, len(found)):
        depth += {"{": 1, "}": -1}.get(found[at].text, 0)
        if depth == 0:
            return at + 1 - start
    raise Fault(found[start].line, "the brace isn't closed")


def outer_type(file, name):
    """Returns the struct or the enum that is to be archived."""
    types = {**file.structs, **file.enums}
    if not types:
        raise Fault(1, "there is no struct and no enum")
    if name:
        if name not in types:
            raise Fault(1, f"there is no struct or enum `{name}`")
        return types[name]
    within = {field.type for it in file.structs.values() if isinstance(it.fields, list) for field in it.fields}
    outer = [it for it in types.values() if it.name not in within]
    if len(outer) != 1:
        names = ", ".join(f"`{it.name}`" for it in outer or types.values())
        raise Fault(types[next(iter(types))].line, f"which type is meant of {names}? Say it by --type")
    return outer[0]


# ---- the layout


@dataclasses.dataclass
class Leaf:
    """A field of a type of SCALARS, an array of bytes or an enum, at a place among the bytes. Its path leads from the outer type to it."""
    path: tuple
    type: str
    at: int
    enum: Enum = None

    @property
    def number(self):
        """The type of numbers that is stored."""
        if self.enum or self.count:
            return "u8"
        return NON_ZEROS.get(self.type, {"bool": "u8", "char": "u32"}.get(self.type, self.type))

    @property
    def count(self):
        """The number of elements of an array, or None."""
        array = ARRAY.fullmatch(self.type)
        return int(array[1]) if array else None

    @property
    def size(self):
        return self.count or NUMBERS[self.number]

    @property
    def align(self):
        return NUMBERS[self.number]

    @property
    def width(self):
        return f"w{8 * self.size}"


@dataclasses.dataclass
class Node:
    """A struct or an enum at a place among the bytes, with its fields in order."""
    struct: Struct
    fields: list
    size: int
    align: int

    @property
    def parts(self):
        return parts_of(self)


def layout_of(file, outer, path=(), start=0, above=()):
    """Returns the layout of a struct or an enum that begins at a position: a multiple of its alignment. An enum is its one field."""
    if isinstance(outer, Enum):
        return Node(outer, [("", leaf_of(file, outer, path, start))], 1, 1)
    if isinstance(outer.fields, str):
        raise Fault(outer.line, outer.fields)
    if outer.name in above:
        raise Fault(outer.line, f"`{outer.name}` contains itself")
    check_traits(file, outer)
    at, align, fields = start, 1, []
    for field in outer.fields:
        size, own = place_of(file, field, above + (outer.name,))
        at, align = round_up(at, own), max(align, own)
        inner = path + (field.name,)
        if field.type in file.structs:
            fields.append((field.name, layout_of(file, file.structs[field.type], inner, at, above + (outer.name,))))
        elif field.type in file.enums:
            fields.append((field.name, leaf_of(file, file.enums[field.type], inner, at)))
        else:
            fields.append((field.name, Leaf(inner, field.type, at)))
        at += size
    return Node(outer, fields, round_up(at, align) - start, align)


def check_traits(file, type):
    for trait in TRAITS:
        if trait not in type.traits and (trait, type.name) not in file.others.get("impls", ()):
            raise Fault(type.line, f"`{type.name}` has no `{trait}`: derive Clone, {', '.join(TRAITS)}")


def leaf_of(file, enum, path, at):
    """Returns the field that an enum is."""
    if isinstance(enum.variants, str):
        raise Fault(enum.line, enum.variants)
    if len(enum.variants) > MOST_VARIANTS:
        raise Fault(enum.line, f"`{enum.name}` has more than {MOST_VARIANTS} variants")
    check_traits(file, enum)
    return Leaf(path, enum.name, at, enum)


def place_of(file, field, above):
    """Returns the size and the alignment of a field."""
    if field.name.startswith("r#"):
        raise Fault(field.line, f"`{field.name}` is a word of the language: give the field another name")
    if field.type in file.enums:
        return 1, 1
    array = ARRAY.fullmatch(field.type)
    if field.type in SCALARS or array and 1 <= int(array[1]) <= MOST_ELEMENTS:
        leaf = Leaf((), field.type, 0)
        return leaf.size, leaf.align
    if field.type in file.structs:
        inner = layout_of(file, file.structs[field.type], above=above)
        return inner.size, inner.align
    kind, _ = file.others.get(field.type, ("", 0))
    what = {"union": "is a union", "type": "is another name of a type"}.get(kind, "is none of the types that the script knows")
    if array:
        what = f"has no elements or more than {MOST_ELEMENTS}"
    elif field.type.startswith("["):
        what = "is an array of something else than bytes"
    elif "<" in field.type and not field.type.startswith("NonZero"):
        what = "is generic"
    raise Fault(field.line, f"the type `{field.type}` of the field `{field.name}` {what}: {SUPPORTED}")


def round_up(at, align):
    return -(-at // align) * align


def leaves(node):
    """Yields the fields of a struct and of the structs in it, in their order."""
    for _, it in node.fields:
        if isinstance(it, Leaf):
            yield it
        else:
            yield from leaves(it)


@dataclasses.dataclass
class Part:
    """Some fields that are written together, with the padding after them."""
    start: int
    end: int
    leaves: list


# the most bytes, and the most fields of several bytes, of a part, so that a proof of what writes it needs no file
MOST_BYTES, MOST_FIELDS = 24, 4


def parts_of(node):
    """Returns the parts of a struct: one, if it is short."""
    starts, long_fields, fields = [0], 0, list(leaves(node))
    for leaf in fields:
        is_long = leaf.at + leaf.size > starts[-1] + MOST_BYTES or long_fields + (leaf.size > 1) > MOST_FIELDS
        if is_long and leaf.at > starts[-1]:
            starts, long_fields = [*starts, leaf.at], 0
        long_fields += leaf.size > 1
    ends = [*starts[1:], node.size]
    return [Part(start, end, [it for it in fields if start <= it.at < end]) for start, end in zip(starts, ends)]
