#!/usr/bin/env python3
"""Lists sentences that are alike on two pages of the documents: tools/alike.py

A fact is said on one page, and other pages link to it. Two sentences, or cells of tables, of at least LEAST words are alike if they have three
words in a row in common, and if at least SHARE of their words agree in order. The pages are README.md, CONTRIBUTING.md, bench/README.md and those in
docs, without the index, which a script makes. The manuals of the two programs aren't compared with each other, since a man page is made of each.
CHANGELOG.md says what has changed, so it isn't compared. The last line is `1 passed, 0 failed`, or
`0 passed, 1 failed` after the pairs.
"""
import collections
import difflib
import itertools
import pathlib
import re
import sys

ROOT = pathlib.Path(__file__).resolve().parent.parent
PAGES = [ROOT / "README.md", ROOT / "CONTRIBUTING.md", ROOT / "bench" / "README.md", *sorted((ROOT / "docs").glob("*.md"))]
MADE = {"PROOFS.md"}
MANUALS = {ROOT / "docs" / "BTREEARC.md", ROOT / "docs" / "BTREEKV.md"}
LEAST, SHARE = 10, 0.7


def sentences(text):
    """Yields the sentences of a page and the cells of its tables, without code blocks and headings."""
    text = re.sub(r"^ *```.*?^ *```$", "", text, flags=re.M | re.S)
    for part in re.split(r"\n\n+|\n(?=\||- |\d+\. )", text):
        if part.startswith("#"):
            continue
        for cell in part.strip("|").split(" | ") if part.startswith("|") else [part]:
            yield from re.split(r"(?<=[.:;])\s+(?=[A-Z`\[(])", " ".join(cell.split()).removeprefix("- "))


def words_of(sentence):
    """Returns the words of a sentence, without links and marks."""
    sentence = re.sub(r"\]\([^)]*\)", "", sentence)
    return re.findall(r"[\w:]+(?:\.\w+)*|[<>=&]+", sentence.lower().replace("n't", " not"))


def alike(one, other):
    """Tells whether most words of two lists agree, in their order."""
    return difflib.SequenceMatcher(None, one, other, autojunk=False).ratio() >= SHARE


def pairs():
    """Yields the pairs of sentences that are alike, each with its page."""
    said, places = [], collections.defaultdict(list)
    for page in PAGES:
        if page.name not in MADE:
            for sentence in sentences(page.read_text()):
                words = words_of(sentence)
                if len(words) >= LEAST:
                    for at in range(len(words) - 2):
                        places[tuple(words[at:at + 3])].append(len(said))
                    said.append((page, sentence, words))
    near = {pair for found in places.values() for pair in itertools.combinations(sorted(set(found)), 2)}
    for one, other in sorted(near):
        pages = {said[one][0], said[other][0]}
        if len(pages) == 2 and pages != MANUALS and alike(said[one][2], said[other][2]):
            yield said[one][:2], said[other][:2]


def main():
    failed = False
    for (page, sentence), (other, again) in pairs():
        print(f"tools/alike.py: {page.relative_to(ROOT)}: {sentence}\n    {other.relative_to(ROOT)}: {again}", file=sys.stderr)
        failed = True
    print(f"{int(not failed)} passed, {int(failed)} failed")
    return int(failed)


if __name__ == "__main__":
    sys.exit(main())
