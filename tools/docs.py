#!/usr/bin/env python3
"""Compares the documents with the repository: tools/docs.py

Each `rust` block of a document, and of a doc comment, is text of a source file of a crate in crates.txt, word for word; each `antt`
block is text of such a crate's definitions or proofs; each `output` block is what such a program has to print. A signature in running text,
`fn name(..)`, is one of the sources. Each call of docs/GUARANTEES.md is in the index with its clauses, and each wrong body of docs/TESTING.md in its crate. Links between documents lead somewhere, and
files that are named in running text are there. README.md has at most 110 lines. The man pages are what tools/man.py makes, and the drawing of the
crates what tools/house.py makes. The last line is `1 passed, 0 failed`, or `0 passed, 1 failed` after what is wrong.
"""
import pathlib
import re
import subprocess
import sys
import textwrap

from index import promise_rows

ROOT = pathlib.Path(__file__).resolve().parent.parent
PAGES = [ROOT / name for name in ("README.md", "CONTRIBUTING.md", "CHANGELOG.md", "bench/README.md")]
SOURCES = {"rust": "src/**/*.rt", "antt": "**/*.antt", "output": "stdout"}
LONGEST_README = 110


def texts(kind):
    """Yields the text of each file of this kind in the crates of crates.txt."""
    for line in (ROOT / "crates.txt").read_text().splitlines():
        names = line.partition("#")[0].partition(":")[0].split()
        if names:
            crate = ROOT / "crates" / names[0]
            for file in sorted(crate.glob(SOURCES[kind])):
                if "out" not in file.relative_to(crate).parts:
                    yield file.read_text(errors="replace")


def lines_of(text):
    return [line.rstrip() for line in text.strip("\n").splitlines()]


def is_in(block, text):
    """Tells whether the lines of a block stand in a text one after another, all indented by as much or not at all."""
    wanted, given = lines_of(textwrap.dedent(block)), lines_of(text)
    for start in range(len(given) - len(wanted) + 1):
        if given[start].lstrip() != wanted[0].lstrip():
            continue
        part = "\n".join(given[start:start + len(wanted)])
        if textwrap.dedent(part).splitlines() == wanted:
            return True
    return False


def blocks(text):
    """Yields the kind and the text of each code block."""
    for match in re.finditer(r"^( *)```(\w*)\n(.*?)^ *```$", text, re.M | re.S):
        yield match[2], match[3]


def prose(text):
    return re.sub(r"^( *)```.*?^ *```$", "", text, flags=re.M | re.S)


def anchors(text):
    """Returns the anchors of a page's headings."""
    return {
        re.sub(r"[^\w\- ]", "", heading.lower()).strip().replace(" ", "-")
        for heading in re.findall(r"^#+ (.*)$", prose(text), re.M)
    }


def wrong_blocks(text, known):
    for kind, block in blocks(text):
        if kind in SOURCES and not any(is_in(block, source) for source in known[kind]):
            yield f"a {kind} block is in no crate: {block.strip().splitlines()[0]}"


def comments(text):
    """Returns the text of the doc comments of a source file."""
    return "\n".join(re.findall(r"^ *///(?: (.*))?$", text, re.M))


def wrong_links(page, text):
    for target in re.findall(r"!?\[[^\]]*\]\(([^)\s]+)\)", prose(text)):
        if re.match(r"\w+://", target):
            continue
        path, _, anchor = target.partition("#")
        file = (page.parent / path).resolve() if path else page
        if not file.exists():
            yield f"no file at {target}"
        elif anchor and anchor not in anchors(file.read_text()):
            yield f"no heading at {target}"


def wrong_names(text, plain):
    """Yields the signatures and the files in running text that are not there."""
    for word in re.findall(r"`([^`\n]+)`", prose(text)):
        if re.match(r"fn \w", word) and word.replace(" ", "") not in plain:
            yield f"no signature `{word}`"
        elif re.fullmatch(r"(crates|docs|tools|bench)/[\w./-]*\w", word) and not (ROOT / word).exists():
            if "/out/" not in word:
                yield f"no file `{word}`"


def wrong_promises():
    """Yields the calls of docs/GUARANTEES.md that the index has not, or not with these clauses."""
    index = {}
    for line in (ROOT / "docs" / "PROOFS.md").read_text().splitlines():
        cells = line.split("|")
        title = re.match(r"\| \*?`(?:trait |impl \w+ for )?([^`]+)`", line)
        if title and len(cells) == 7:
            index.setdefault(title[1], set()).update(re.findall(r"`([^`]+)`", cells[3]))
    for cells in promise_rows():
        for part in cells[-1].split(";"):
            calls, _, clauses = part.partition(": ")
            for call in re.findall(r"`([\w:]+)`", calls):
                found = [index[title] for title in index if f"::{title}".endswith(f"::{re.sub('^btree(arc_commands|kv_types)::', '', call)}")]
                missed = set(re.findall(r"`(\w+)`", clauses)) - set().union(*found)
                if not found or missed:
                    yield f"docs/GUARANTEES.md: the index has no `{call}` with {', '.join(sorted(missed)) or 'a contract'}"


def wrong_edits():
    """Yields the wrong bodies that docs/TESTING.md names and no crate has."""
    text = (ROOT / "docs" / "TESTING.md").read_text()
    for crate, cell in re.findall(r"^\| (\w+) \| ((?:`\w+\.\w+\.\w+`(?:, )?)+) \|", text, re.M):
        for name in re.findall(r"`([^`]+)`", cell):
            if not (ROOT / "crates" / f"rkyv_btree_{crate}" / "wrong" / f"{name}.edit").exists():
                yield f"docs/TESTING.md: the crate {crate} has no wrong body `{name}`"


def faults():
    """Yields what is wrong with each page."""
    known = {kind: list(texts(kind)) for kind in SOURCES}
    plain = re.sub(r",(?=\))", "", re.sub(r"\s", "", "".join(known["rust"])))
    for page in [*PAGES, *sorted((ROOT / "docs").glob("*.md"))]:
        text = page.read_text()
        for fault in [*wrong_blocks(text, known), *wrong_links(page, text), *wrong_names(text, plain)]:
            yield f"{page.relative_to(ROOT)}: {fault}"
    for source in known["rust"]:
        for fault in wrong_blocks(comments(source), known):
            yield f"a doc comment: {fault}"
    yield from wrong_promises()
    yield from wrong_edits()
    if len((ROOT / "README.md").read_text().splitlines()) > LONGEST_README:
        yield f"README.md: more than {LONGEST_README} lines"
    if subprocess.run([ROOT / "tools" / "man.py", "--check"], check=False).returncode:
        yield "a man page is stale; run make man"
    if subprocess.run([ROOT / "tools" / "house.py", "--check"], check=False).returncode:
        yield "the drawing of the crates is stale; run tools/house.py"


def main():
    failed = False
    for fault in faults():
        print(f"tools/docs.py: {fault}", file=sys.stderr)
        failed = True
    print(f"{int(not failed)} passed, {int(failed)} failed")
    return int(failed)


if __name__ == "__main__":
    sys.exit(main())
