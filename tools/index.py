#!/usr/bin/env python3
"""Writes docs/PROOFS.md, the index of contracts: tools/index.py [--check]

It reads the sources alone. For each function with a contract it lists the clauses, the fields of the records that they state, the
definitions of this repository that they cite, and the edits that turn it. With --check it writes nothing: the last line is
`1 passed, 0 failed` if docs/PROOFS.md is what it would write and each edit turns a function that is there, and else
`0 passed, 1 failed`.
"""
import pathlib
import re
import sys

ROOT = pathlib.Path(__file__).resolve().parent.parent
PAGE = ROOT / "docs" / "PROOFS.md"
LEFT_OUT = {"tests", "client_tests", "bench", "btreearc"}

HEAD = """# Index of contracts

`tools/index.py` makes this page from the sources, and the gate fails if it is stale. [GUARANTEES.md](GUARANTEES.md) says in words what
the contracts promise.

- **Requires** and **Ensures** name the clauses; `·` is a clause without a name. An `impl` lists the ghost members that it defines.
  In parentheses are the promises of a clause that states a record: the record's fields. So it is of a field that states one.
- **Definitions** are those of this repository that the clauses cite. The last section says which file has each.
- **Refused edits** are changes of the function that the prover must refuse. Their files are in the crate's folder `wrong`, with the
  module and the function before the name.

Private functions are in italics. They are listed if an edit turns them.
"""


class Function:
    """A function with its contract, and where its text begins in its module."""

    def __init__(self, module, owner, name, public, start):
        self.module, self.owner, self.name, self.public, self.start = module, owner, name, public, start
        self.requires, self.ensures, self.cites, self.edits = [], [], set(), []
        self.states = []

    def title(self):
        if self.name == "trait" or self.name.startswith("impl "):
            return f"{self.name}{' for' if self.name != 'trait' else ''} {self.module}::{self.owner}"
        return f"{self.module}::{self.owner + '::' if self.owner else ''}{self.name}"


def crates():
    """Yields the names of the repository's crates, in the order of crates.txt."""
    for line in (ROOT / "crates.txt").read_text().splitlines():
        words = line.partition("#")[0].partition(":")[0].split()
        if words:
            yield words[0]


def closing(text, at):
    """Returns the position after the brace that closes the one at `at`."""
    depth = 0
    for index in range(at, len(text)):
        depth += (text[index] == "{") - (text[index] == "}")
        if depth == 0:
            return index + 1
    raise ValueError("a brace isn't closed")


def imported(text):
    """Returns the definitions that the `ghost use` lines of a module name: by their name there, the module that has them."""
    found = {}
    for path, names in re.findall(r"ghost use Rattle\.([\w.]+?)\.\{(.*?)\};", text, re.S):
        for name in names.split(","):
            name = name.strip().split(" as ")[-1]
            found[name] = path
    return {name: path for name, path in found.items() if path.split(".")[0] in set(crates())}


def owner_of(header):
    """Returns the type that an `impl` or a trait's header names, and the trait that is implemented, if one is."""
    header = re.sub(r"\s+", " ", header)
    while re.search(r"<[^<>]*>", header):
        header = re.sub(r"(?<!-)<[^<>]*(?<!-)>", "", header)
    header = header.split(" where ")[0]
    words = re.match(r"(?:pub )?(?:impl|trait) ?(.*)", header)[1].split(" for ")
    names = [re.sub(r"[&' ]", "", word.split(": ")[0]).split("::")[-1].strip("{ ,") or "()" for word in words]
    return names[-1], names[0] if len(names) > 1 else None


def clauses_at(text, at):
    """Yields the word, the name and the text of each clause from `at` on, up to the body."""
    while True:
        found = re.compile(r"\s*(?://[^\n]*\n\s*)*(requires|ensures)\*?\s*([\w-]*)\s*\{").match(text, at)
        if not found:
            return
        end = closing(text, found.end() - 1)
        yield found[1], found[2] or "·", text[found.end():end]
        at = end


def heads(clause):
    """Yields the first word of what a clause states, and that of each last argument within it, or of the function's body there."""
    text = clause.strip()
    while text:
        premises, opened, last = 0, [], ""
        for at, sign in enumerate(text):
            if sign == "(":
                opened.append(at)
            elif sign == ")":
                last = text[opened.pop():at]
            elif sign == "→" and not opened:
                premises = at + 1
        yield re.match(r"\s*([\w-]*)", text[premises:])[1]
        body = re.fullmatch(r"\((?:λ [^.]*\.\s)?(.*)", last, re.S)
        text = body[1] if body and text.endswith(")") else ""


def functions_of(module, text):
    """Returns the functions of a module, and the ghost members of its `impl` blocks as functions of the owner's name."""
    names, found = imported(text), []
    owner, trait, public = "", None, False
    headers = re.compile(
        r"^(?P<close>\})|^(?P<block>(?:pub )?(?:impl|trait)\b[^{]*\{)"
        r"|^ *(?P<fn>(?P<pub>pub )?(?:pub\(crate\) )?(?:unsafe )?(?:const )?(?:extern .C. )?fn (?P<name>\w+))"
        r"|^ *(?P<shown>pub )?const (?P<const>[A-Z_]+):"
        r"|^    ghost (?P<ghost>\w+)(?: =|:) ",
        re.M,
    )
    members = None
    for match in headers.finditer(text):
        if match["close"]:
            owner, trait, public, members = "", None, False, None
        elif match["block"]:
            owner, trait = owner_of(match["block"])
            public = trait is not None or match["block"].startswith("pub trait")
            title = f"impl {trait}" if trait else "trait"
            members = Function(module, owner, title, True, match.start())
        elif match["const"]:
            found.append(Function(module, owner, match["const"], bool(match["shown"]), match.start()))
        elif match["ghost"]:
            if members and match["ghost"] != "use":
                if members not in found:
                    found.append(members)
                brace = text.index("{", match.end() - 1)
                members.ensures.append(match["ghost"])
                words = set(re.findall(r"[\w-]+", text[brace:closing(text, brace)]))
                members.cites |= {name for name in names if name in words}
        else:
            one = Function(module, owner, match["name"], bool(match["pub"]) or public, match.start())
            end = re.compile(r"\n\s*(?:requires|ensures)\b|\{|;(?!\s*\d+\])").search(text, match.end())
            for word, name, clause in clauses_at(text, end.start()):
                getattr(one, word).append(name)
                if word == "ensures":
                    one.states.append(list(heads(clause[:-1])))
                one.cites |= {name for name in names if name in set(re.findall(r"[\w-]+", clause))}
            found.append(one)
    return found, names


def give_edits(crate, functions, texts):
    """Gives each edit of a crate to the function that it turns, and returns the edits that turn none."""
    lost = []
    for file in sorted((crate / "wrong").glob("*.edit")):
        module, name, fault = file.stem.split(".")
        old = re.search(r"^old: (.*)$", file.read_text(), re.M)[1]
        here = [one for one in functions if one.module == module]
        chosen = [one for one in here if one.name == name] or [one for one in here if one.owner == name]
        if len(chosen) > 1:
            at = texts[module].find(old)
            chosen = sorted(chosen, key=lambda one: (one.start > at, abs(at - one.start)))
        if chosen:
            chosen[0].edits.append(fault)
        else:
            lost.append(f"{crate.name}/{file.stem}")
    return lost


def files_of_definitions():
    """Returns the file of each module of definitions, by the path by which contracts name it."""
    files, uses = {}, []
    for crate in crates():
        specs = ROOT / "crates" / crate / "specs"
        for file in specs.rglob("*.antt"):
            path = ".".join([crate, "specs", *file.relative_to(specs).with_suffix("").parts])
            files[path] = file
            outer = path.rsplit(".", 1)[0] if file.stem in ("Lib", "laws", "mirror") else path
            outer = path if file.stem in ("laws", "mirror") else outer
            uses += [(outer, use) for use in re.findall(r"^pub use Rattle\.([\w.]+)$", file.read_text(), re.M)]
    for _ in range(3):
        for outer, use in uses:
            if use in files:
                files.setdefault(f"{outer}.{use.rsplit('.', 1)[1]}", files[use])
    return files


def records_of(file):
    """Returns the records of a file of definitions: by name, the cell's text of the fields, each with those of the record that it states."""
    found = {}
    for name, body in re.findall(r"^ *pub record (\w+).*\n((?: .*\n)*)", file.read_text(), re.M):
        fields = re.findall(r"^ *pub (\w+) : (\w*)", body.split("pub record")[0], re.M)
        found[name] = ", ".join(with_fields(field, found.get(stated, "")) for field, stated in fields)
    return found


def promise_rows():
    """Yields the rows of the promises in docs/GUARANTEES.md: the cells of each table with the column of calls and clauses."""
    for table in re.findall(r"(?:^\|.*\|\n)+", (ROOT / "docs" / "GUARANTEES.md").read_text(), re.M):
        rows = [line.strip("|").strip().split(" | ") for line in table.splitlines()]
        if rows[0][-1] == "Call and clauses":
            yield from rows[2:]


def row(cells):
    return "| " + " | ".join(cells) + " |"


def marked(names):
    return ", ".join(f"`{name}`" if name != "·" else name for name in names)


def with_fields(name, fields):
    """Returns the cell's text of a promise, with that of its fields in parentheses if it has some."""
    return marked([name]) + (f" ({fields})" if fields else "")


def promised(one, fields_of):
    """Returns a cell with the promises of a function: its clauses, each with the fields of the record that it states."""
    fields = [next((fields_of(name) for name in names if fields_of(name)), "") for names in one.states]
    fields = fields or [""] * len(one.ensures)
    return ", ".join(with_fields(name, more) for name, more in zip(one.ensures, fields))


def page():
    """Returns the page, and the edits that turn no function."""
    lines, lost, places = [HEAD], [], {}
    files = files_of_definitions()
    records = {file: records_of(file) for file in set(files.values())}
    for name in crates():
        crate = ROOT / "crates" / name
        functions, texts, named = [], {}, {}
        for file in sorted((crate / "src").rglob("*.rt")):
            module = "::".join(file.relative_to(crate / "src").with_suffix("").parts)
            texts[module] = file.read_text()
            found, imports = functions_of(module, texts[module])
            functions += found
            named.update((one, imports) for one in found)
        lost += give_edits(crate, functions, texts)
        listed = [one for one in functions if one.edits or (one.public and (one.requires or one.ensures))]
        if name in LEFT_OUT or not listed:
            continue
        lines += [f"## {name}\n", row(["Function", "Requires", "Ensures", "Definitions", "Refused edits"]), row(["---"] * 5)]
        for one in listed:
            title = f"`{one.title()}`" if one.public else f"*`{one.title()}`*"
            for cited in one.cites:
                file = files.get(named[one][cited])
                if file:
                    places.setdefault(file, set()).add(cited)
            imports = named[one]
            promises = promised(one, lambda name: records.get(files.get(imports.get(name)), {}).get(name, ""))
            lines.append(row([title, marked(one.requires), promises, marked(sorted(one.cites)), marked(one.edits)]))
        lines.append("")
    lines += ["## Definitions\n", row(["File", "Definitions that contracts cite"]), row(["---"] * 2)]
    for file in sorted(places):
        where = file.relative_to(ROOT / "crates")
        lines.append(row([f"[`{where}`](../crates/{where})", marked(sorted(places[file]))]))
    return re.sub(r"  +\|", " |", "\n".join(lines)) + "\n", lost


def main(words):
    text, lost = page()
    for edit in lost:
        print(f"tools/index.py: {edit} turns no function that is there", file=sys.stderr)
    if words != ["--check"]:
        PAGE.write_text(text)
        return 1 if lost else 0
    stale = not PAGE.exists() or PAGE.read_text() != text
    if stale:
        print("tools/index.py: docs/PROOFS.md is stale; run tools/index.py", file=sys.stderr)
    failed = stale or bool(lost)
    print(f"{int(not failed)} passed, {int(failed)} failed")
    return int(failed)


if __name__ == "__main__":
    sys.exit(main(sys.argv[1:]))
