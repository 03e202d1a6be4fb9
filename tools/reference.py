#!/usr/bin/env python3
"""Writes the reference, docs/reference: tools/reference.py [--check | --html FILE]

It reads the sources alone: a page for each module of the crates that a user names, with each call's signature, doc comment, promises, clauses and an
example that is code of a program here. With --check it writes nothing: the last line is `1 passed, 0 failed` if the folder has what it
would write, and else `0 passed, 1 failed`. With --html it writes one page with all calls and a search field, which needs no network.
"""
import collections
import html
import pathlib
import re
import sys
import textwrap

from index import closing, crates, owner_of, promise_rows

ROOT = pathlib.Path(__file__).resolve().parent.parent
FOLDER = ROOT / "docs" / "reference"
# the crates that a user names, each with what its pages' names begin with
FACES = {"rkyv_btree": "", "rkyv_btree_base": "base.", "rkyv_btree_update": "update."}
EXAMPLES = ("callers", "prices", "pricebook", "probe", "set_price", "lookup", "movies", "update_tests")
# calls of these names are on many types, so a program that has the word shows nothing
COMMON = {"new", "len", "next", "get", "iter", "clone", "drop", "fmt", "eq", "cmp", "partial_cmp", "hash", "into_iter", "size_hint", "is_empty",
          "keys", "values", "set", "read", "write", "at", "check", "find", "fits"}
# what a type must be, by the trait that a bound names
WORDS = {
    "Portable": "an archived type", "CheckBytes": "an archived type that is validated", "ArchivedMap": "a type of maps or sets",
    "InPlace": "an archived type whose values lie in their own bytes", "ViewOrd": "an archived type whose views are ordered",
    "ViewEq": "an archived type whose views are compared by `==`", "ViewHash": "an archived type whose views have a hash",
    "CompareWith": "an archived type whose values are compared with native ones", "SameAs": "an archived type that is equal to a native one",
    "ToNative": "an archived type whose values become native ones", "Archive": "a native type that is archived",
    "Serialize": "a native type that a writer serializes", "Deserialize": "an archived type that is deserialized",
    "DeserializeKey": "an archived type of keys that is deserialized", "Writer": "a writer", "ReadAt": "a source that reads at a position",
    "Fetch": "an archived type that a source reads", "Shows": "what a closure takes of a key: its view, or a native value",
    "Native": "a native type with one archived type", "PlainValue": "a type of one's own of a fixed number of bytes",
    "FromArchived": "a native type that is read where its archived value lies", "Borrow": "what lends a value: itself, a reference, a `Box` or an `Rc`",
    "StrictEntries": "a type of maps, not of sets", "ShowsEntries": "a type of maps, not of sets", "UnverifiedEntries": "a type of maps, not of sets",
    "RangeBounds": "a range, as `low..high`", "Fn": "a closure", "FnMut": "a closure", "FnOnce": "a closure", "Iterator": "an iterator",
    "ExactSizeIterator": "an iterator that knows how many items are left",
}

Item = collections.namedtuple("Item", "kind name owner trait head signature bounds doc clauses")


def doc_before(text, at):
    """Returns the doc comment above a position."""
    lines = text[:at].splitlines()
    found = []
    while lines and re.match(r"\s*(///|#\[|//)", lines[-1]):
        line = lines.pop().strip()
        if line.startswith("///"):
            found.insert(0, line[3:].removeprefix(" "))
    return "\n".join(found)


def clauses_from(text, at):
    """Yields the word, the name, the comment and the text of each clause from `at` on, up to the body."""
    form = re.compile(r"\s*((?://[^\n]*\n\s*)*)(requires|ensures)\*?\s*([\w-]*)\s*\{")
    while found := form.match(text, at):
        at = closing(text, found.end() - 1)
        said = " ".join(re.findall(r"//\s*(.*)", found[1]))
        yield found[2], found[3], said, textwrap.dedent(" " * 8 + text[found.end():at - 1].strip())


def split_bounds(signature):
    """Returns a signature without its bounds, and the bounds: pairs of a type and what it must have."""
    head, _, where = signature.partition("\nwhere")
    if not where and " where " in head:
        head, _, where = head.partition(" where ")
    generics = re.match(r"(?:pub )?(?:unsafe )?(?:const )?(?:fn|impl|struct|enum|trait)\s*\w*\s*<", head)
    found = []
    if generics:
        depth, end = 1, generics.end()
        while depth:
            depth += (head[end] == "<") - (head[end] == ">" and head[end - 1] != "-")
            end += 1
        inner = head[generics.end():end - 1]
        parts = parts_of(inner)
        found = [tuple(part.split(": ", 1)) for part in parts if ": " in part and not part.startswith("const ")]
        head = head[:generics.end()] + ", ".join(part.split(": ")[0] if not part.startswith("const ") else part for part in parts) + head[end - 1:]
    found += [tuple(part.split(": ", 1)) for part in parts_of(where) if ": " in part]
    return re.sub(r"\n\s*$", "", head).strip(), [(kind, bound) for kind, bound in found if not kind.startswith("'")]


def parts_of(text):
    """Returns the parts of a list between whose brackets commas don't count."""
    parts, depth, last = [], 0, ""
    for sign in text:
        depth += (sign in "<([{") - (sign in ")]}" or (sign == ">" and last not in "-="))
        if sign == "," and depth == 0:
            parts.append("")
        else:
            parts = parts or [""]
            parts[-1] += sign
        last = sign
    return [re.sub(r"\s+", " ", part).strip() for part in parts if part.strip()]


def bound_in_words(kind, bound):
    """Returns what a type must be, as a sentence of a list."""
    words = [WORDS[name] for name in re.findall(r"(?:^|\+ )(\w+)", bound) if name in WORDS]
    return f"`{kind}` is {' and '.join(words)}: `{bound}`" if words else f"`{kind}`: `{bound}`"


def items_of(text):
    """Yields the public items of a module."""
    block = re.compile(r"^(?P<close>\})|^(?P<block>(?:unsafe )?(?:impl|pub trait)\b[^{]*)\{|^(?P<item>pub (?:struct|enum|type|const) (?P<named>\w+))"
                       r"|^ *(?P<fn>(?P<pub>pub )?(?:unsafe )?(?:const )?fn (?P<name>\w+))", re.M)
    owner, trait, head, shown = "", None, "", False
    for match in block.finditer(text):
        if match["close"]:
            owner, trait, head, shown = "", None, "", False
        elif match["block"]:
            owner, trait = owner_of(match["block"] + "{")
            head, shown = match["block"].strip(), match["block"].startswith("pub trait")
            if shown:
                yield Item("trait", owner, "", None, "", split_bounds(head)[0], [], doc_before(text, match.start()), [])
            elif trait:
                yield Item("impl", trait_named(head), owner, trait, head, "", [], "", [])
            if text[match.end()] == "}":
                owner, shown = "", False
        elif match["item"]:
            yield Item("type", match["named"], "", None, "", type_from(text, match), [], doc_before(text, match.start()), [])
        elif match["pub"] or shown:
            end = re.compile(r"\n\s*(?://[^\n]*\n\s*)*(?:requires|ensures)\b|\{|;(?!\s*\d+\])").search(text, match.end())
            indent = match.start("fn") - text.rfind("\n", 0, match.start("fn")) - 1
            signature, bounds = split_bounds(re.sub(rf"\n {{0,{indent}}}", "\n", text[match.start("fn"):end.start()]))
            clauses = list(clauses_from(text, end.start()))
            yield Item("fn", match["name"], owner, trait, head, signature, bounds, doc_before(text, match.start("fn")), clauses)


def type_from(text, match):
    """Returns a type as a caller reads it: an enum with its cases, a struct with its fields if these are plain data, and else its head."""
    end = re.compile(r"[{;=(]").search(text, match.end()).start()
    head = split_bounds(text[match.start():end])[0]
    if text[end] != "{":
        return head
    body = text[end:closing(text, end)]
    fields = re.findall(r"^    (?!//|#)(\w.*)$", body, re.M)
    plain = all(field.startswith("pub ") for field in fields) and not re.search(r"\b(ghost|PhantomData|buf)\b", body)
    return f"{head} {body}" if head.startswith("pub enum") or fields and plain else head


def texts_of(text, name):
    """Returns the texts of a type's `Display`, one for each case."""
    block = re.search(rf"^impl\b[^{{]*\bDisplay for {name}\b[^{{]*\{{.*?^\}}", text, re.M | re.S)
    found = re.findall(r'write!\(\s*f,\s*"([^"]*)"', block[0]) if block else []
    return [one for one in found if re.search(r"\w{2}", re.sub(r"\{\w*\}", "", one))]


def trait_named(head):
    """Returns the trait that the head of an `impl` names, with its parameters."""
    return re.sub(r"\s+", " ", re.sub(r"'\w+(, | |(?=>))|<>", "", re.match(r"(.*?) for ", after_generics(head), re.S)[1])).strip()


def after_generics(head):
    """Returns the head of an `impl` after its parameters."""
    signature = split_bounds(head)[0]
    depth, at = 0, len("impl")
    while at == len("impl") and signature[at] == "<" or depth:
        depth += (signature[at] == "<") - (signature[at] == ">" and signature[at - 1] != "-")
        at += 1
    return signature[at:].strip()


def head_of(module):
    """Returns what a module says of itself."""
    return " ".join(re.findall(r"^//! (.*)$", module, re.M))


def exports_of(face):
    """Yields the modules of a face: the name, what it is, and the names that it has with where each is."""
    folder = ROOT / "crates" / face / "src"
    text = (folder / "lib.rt").read_text()
    for name in re.findall(r"^pub mod (\w+);", text, re.M):
        module = (folder / f"{name}.rt").read_text()
        yield name, head_of(module), [(item.name, face, name) for item in items_of(module) if not item.owner]
    for path, names in re.findall(r"^pub use (\w+)::\{([^}]*)\};", text, re.M):
        for name in re.findall(r"\w+", names):
            module = (ROOT / "crates" / path / "src" / f"{name}.rt").read_text()
            yield name, head_of(module), [(item.name, path, name) for item in items_of(module) if not item.owner]
    for doc, name, body in re.findall(r"((?:^/// [^\n]*\n)+)pub mod (\w+) \{\n(.*?)^\}", text, re.M | re.S):
        found = []
        for path, module, names in re.findall(r"pub use (\w+)::(\w+)::(?:\{([^}]*)\}|\w+);", body):
            listed = re.findall(r"\w+", names) or re.findall(rf"pub use {path}::{module}::(\w+);", body)
            found += [(one, path, module) for one in listed if (one, path, module) not in found]
        if name != "prelude":
            yield name, " ".join(re.findall(r"/// (.*)", doc)), found


class House:
    """All public items of the rooms, by their names and by the types that have them."""

    def __init__(self):
        self.named, self.owned = {}, collections.defaultdict(list)
        for crate in crates():
            if crate.startswith("rkyv_btree"):
                for file in sorted((ROOT / "crates" / crate / "src").glob("*.rt")):
                    for item in items_of(file.read_text()):
                        if item.owner:
                            self.owned[item.owner].append((crate, file.stem, item))
                        else:
                            self.named[item.name, crate, file.stem] = item
        self.promises, self.programs = promises(), programs()

    def lines_of(self, name, crate, module):
        """Returns the section of an exported name: the item and the calls on it."""
        item = self.named.get((name, crate, module))
        if item is None:
            return []
        if item.kind == "fn":
            return self.call(item, module)
        lines = [f"## {name}\n", code(item.signature), item_doc(item.doc)]
        said = texts_of((ROOT / "crates" / crate / "src" / f"{module}.rt").read_text(), name)
        lines += [f"Its text{'s' * (len(said) > 1)}: " + ", ".join(f"`{one}`" for one in said) + ".\n"] * bool(said)
        # methods of types with one name in several rooms are those of this room
        rooms = {room for other, room, _ in self.named if other == name}
        calls = [(file, one) for room, file, one in self.owned[name] if len(rooms) == 1 or room == crate]
        traits = sorted({f"`{one.name}`" for _, one in calls if one.kind == "impl"})
        lines += [f"It has {', '.join(traits)}.\n"] * bool(traits)
        for file, one in calls:
            lines += self.call(one, file) if one.kind == "fn" else []
        return lines

    def call(self, item, module):
        lines = [f"### {item.owner + '::' if item.owner else ''}{item.name}\n", code(item.signature)]
        bounds = item.bounds
        if item.head.startswith("impl"):
            lines.append(f"Of `{after_generics(item.head)}`.\n")
            bounds = split_bounds(item.head)[1] + bounds
        lines += ["\n".join(f"- {bound_in_words(*bound)}" for bound in bounds) + "\n"] * bool(bounds) + [item_doc(item.doc)]
        name = f"{item.owner}::{item.name}" if item.owner else item.name
        names = [name, f"{module}::{name}"]
        said = [one for name in names for one in self.promises.get(name, [])]
        lines += ["\n".join(f"- **{promise}.** {words}" for promise, words in said) + "\n"] * bool(said)
        if item.clauses:
            lines += ["<details><summary>Contract</summary>\n"]
            for word, name, comment, text in item.clauses:
                lines += [f"{word} {f'`{name}`' if name else ''}{f': {comment}' if comment else ''}".strip() + "\n", code(text, "text")]
            lines += ["</details>\n"]
        if example := self.example(item):
            lines += [f"In `crates/{example[0]}`:\n", code(example[1])]
        return lines

    def example(self, item):
        """Returns the shortest function of a program that calls the item, and where it is."""
        if item.name in COMMON or item.kind != "fn":
            return None
        form = re.compile(rf"{'[.:]' if item.owner else chr(92) + 'b'}{item.name}(?:::<[^;]*?>)?\(")
        found = [(len(text), crate, text) for crate, text in self.programs if form.search(text.split("{", 1)[1])]
        return min(found)[1:] if found else None


def promises():
    """Returns the promises of docs/GUARANTEES.md by the calls that they name: each row's title, and what it says."""
    found = collections.defaultdict(list)
    for title, words, calls in promise_rows():
        words = re.sub(r"\]\((?=\w+\.md)", "](../", words.rstrip(".") + ".")
        for part in calls.split(";"):
            for call in re.findall(r"`([\w:]+)`", part.partition(": ")[0]):
                if (title, words) not in found[call]:
                    found[call].append((title, words))
    return found


def programs():
    """Returns the public functions of the small programs, each with its crate."""
    found = []
    for crate in EXAMPLES:
        for file in sorted((ROOT / "crates" / crate / "src").glob("*.rt")):
            text = file.read_text()
            for match in re.finditer(r"^(?:pub )?fn \w+.*?^\}\n", text, re.M | re.S):
                if not re.search(r"^\s*(requires|ensures)\b", match[0], re.M):
                    found.append((crate, match[0].rstrip()))
    return found


def code(text, kind="rust"):
    return f"```{kind}\n{text}\n```\n"


def item_doc(doc):
    """Returns a doc comment, whose headings are below that of the call."""
    return re.sub(r"^# (.*)$", r"**\1**", doc, flags=re.M) + "\n"


def pages():
    """Returns the pages by the names of their files."""
    house, made = House(), {}
    rows = ["# Reference\n", "`tools/reference.py` makes these pages from the sources, and the gate fails if they are stale.\n",
            "| Module | What it has | Names |", "|---|---|---|"]
    for face, prefix in FACES.items():
        for name, said, exported in exports_of(face):
            lines = [f"# {face}::{name}\n", said + "\n"]
            for one in exported:
                lines += house.lines_of(*one)
            made[f"{prefix}{name}.md"] = re.sub(r"\n{3,}", "\n\n", "\n".join(lines)).rstrip() + "\n"
            listed = ", ".join(f"`{one[0]}`" for one in exported)
            rows.append(f"| [`{face}::{name}`]({prefix}{name}.md) | {said} | {listed} |")
    made["README.md"] = "\n".join(rows) + "\n"
    return made


PAGE = """<!DOCTYPE html>
<html lang="en"><head><meta charset="utf-8"><title>rkyv_btree: reference</title><style>
body { margin: 0; font: 16px/1.5 sans-serif; display: grid; grid-template-columns: 20rem minmax(0, 1fr); }
nav { position: sticky; top: 0; height: 100vh; overflow: auto; padding: 1rem; box-sizing: border-box; border-right: 1px solid #ccc; }
main { padding: 1rem 2rem; max-width: 60rem; overflow-wrap: anywhere; }
input { width: 100%%; font: inherit; box-sizing: border-box; }
ul { padding-left: 1.2rem; } nav ul { list-style: none; padding: 0; } nav a { text-decoration: none; overflow-wrap: anywhere; }
pre { overflow: auto; background: #f4f4f4; padding: .6rem; } code { font-size: 90%%; } h3 { border-top: 1px solid #ccc; padding-top: 1rem; }
@media (max-width: 50rem) { body { display: block; } nav { position: static; height: 40vh; } }
</style></head><body>
<nav><label>Search <input id="search" type="search" autofocus></label><p id="count"></p><ul id="found">%s</ul></nav>
<main>%s</main>
<script>
const field = document.getElementById("search"), items = [...document.querySelectorAll("#found li")];
function search() {
    const words = field.value.toLowerCase().split(/\\s+/).filter(word => word);
    let count = 0;
    for (const item of items) {
        item.hidden = !words.every(word => item.dataset.text.includes(word));
        count += !item.hidden;
    }
    document.getElementById("count").textContent = count + " of " + items.length;
}
field.addEventListener("input", search);
field.addEventListener("keydown", event => {
    const first = items.find(item => !item.hidden);
    if (event.key === "Enter" && first) location.hash = first.firstChild.getAttribute("href");
});
search();
</script></body></html>
"""


def inline(text):
    """Returns a line as HTML."""
    text = html.escape(re.sub(r"\[([^\]]*)\]\([^)]*\)", r"\1", text), quote=False)
    return re.sub(r"\*\*(.*?)\*\*", r"<b>\1</b>", re.sub(r"`([^`]*)`", r"<code>\1</code>", text))


def html_of(page, text):
    """Returns a page as HTML, and its headings: pairs of a title and an anchor."""
    made, headings = [], []
    for part in re.split(r"(^```\w*\n.*?^```$|^<[^\n]*>$)", text, flags=re.M | re.S):
        if part.startswith("```"):
            made.append(f"<pre><code>{html.escape(part.split(chr(10), 1)[1].removesuffix('```'), quote=False)}</code></pre>")
        elif part.startswith("<"):
            made.append(part)
        else:
            for block in re.split(r"\n{2,}", part.strip()):
                if heading := re.fullmatch(r"(#+) (.*)", block):
                    level, anchor = len(heading[1]), f"{page}-{len(headings)}"
                    headings.append((heading[2], anchor))
                    made.append(f'<h{level} id="{anchor}">{inline(heading[2])}</h{level}>')
                elif block.startswith("- "):
                    made.append("<ul>" + "".join(f"<li>{inline(line)}</li>" for line in re.split(r"(?:^|\n)- ", block)[1:]) + "</ul>")
                elif block:
                    made.append(f"<p>{inline(block)}</p>")
    return "\n".join(made), headings


def one_page(made):
    """Returns all pages as one of HTML."""
    listed, bodies = [], []
    for name, text in made.items():
        if name != "README.md":
            body, headings = html_of(name.removesuffix(".md"), text)
            bodies.append(body)
            module = headings[0][0]
            for title, anchor in headings:
                shown = html.escape(title)
                listed.append(f'<li data-text="{html.escape(module + " " + title).lower()}"><a href="#{anchor}">{shown}</a></li>')
    return PAGE % ("\n".join(listed), "\n".join(bodies))


def main(words):
    made = pages()
    if words[:1] == ["--html"]:
        pathlib.Path(words[1]).write_text(one_page(made))
        return 0
    if words != ["--check"]:
        FOLDER.mkdir(exist_ok=True)
        for file in FOLDER.glob("*.md"):
            if file.name not in made:
                file.unlink()
        for name, text in made.items():
            (FOLDER / name).write_text(text)
        return 0
    stale = {file.name: file.read_text() for file in FOLDER.glob("*.md")} != made
    if stale:
        print("tools/reference.py: docs/reference is stale; run tools/reference.py", file=sys.stderr)
    print(f"{int(not stale)} passed, {int(stale)} failed")
    return int(stale)


if __name__ == "__main__":
    sys.exit(main(sys.argv[1:]))
