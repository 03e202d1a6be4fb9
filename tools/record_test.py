#!/usr/bin/env python3
"""Tests when a line of the record of refused wrong bodies is valid, on a copy of the crates. The last line is `N passed, M failed`."""
import pathlib
import re
import shutil
import sys
import tempfile

import edits
import interface
from kit import LOGIC, RT
from record import ROOT, Keys

# an edit of the first of these crates depends on what is seen of the second, which is below it
CRATE, BELOW, BESIDE = "rkyv_btree_view", "rkyv_btree_walk", "rkyv_btree_shape"


def texts_of(folder, pattern):
    return [(it, it.read_text()) for it in sorted(pathlib.Path(folder).glob(pattern))]


def first(found):
    return next(it for it in found if it)


def a_clause(folder):
    """A file with a clause of a public function in other words."""
    for file, text in texts_of(folder, "src/*.rt"):
        for line in interface.of_source(text).splitlines():
            if "ensures" in line and text.count(line) == 1:
                return file, text.replace(line, line.replace("ensures", "requires"))
    return None


def a_body(folder):
    """A file with a function's body in other words."""
    return first(("\n        let " in text) and (file, text.replace("\n        let ", "\n        let _more = 0;\n        let ", 1)) for file, text in texts_of(folder, "src/*.rt"))


def a_comment(folder):
    return first("\n/// " in text and (file, text.replace("\n/// ", "\n/// More: ", 1)) for file, text in texts_of(folder, "src/*.rt"))


def a_definition(folder):
    return first(" = " in text and (file, text.replace(" = ", " = more ", 1)) for file, text in texts_of(folder, "specs/*.antt"))


def a_statement(folder):
    """A file with another statement of a lemma that crates above can cite."""
    return first("\npub " in text and (file, re.sub(r"\n(pub [^\s:]+ : )", r"\n\1ℕ → ", text, count=1)) for file, text in texts_of(folder, "proofs/*.antt"))


def a_lemmas_proof(folder):
    """A file in which each lemma has one more step in its proof."""
    for file, text in texts_of(folder, "proofs/*.antt"):
        changed = re.sub(r"(?m)^(?!.*\babbrev\b)(?! *(?:pub|use|module|--))( *[\w-]+ [^:=]*) = (?!$)", r"\1 = more ", text)
        if changed != text and not re.search(r"(?m)^ *(abbrev|unfoldable)\b", text):
            return file, changed
    return None


def a_proof(folder):
    return first((file, text + "-- more\n") for file, text in texts_of(folder, "proofs/*/**/Answers.antt"))


CASES = [
    # what changes, in which crate, and whether the line becomes invalid
    (a_clause, BELOW, True),
    (a_definition, BELOW, True),
    (a_statement, BELOW, True),
    (a_proof, BELOW, False),
    (a_lemmas_proof, BELOW, False),
    (a_body, BELOW, False),
    (a_comment, BELOW, False),
    (a_body, CRATE, True),
    (a_proof, CRATE, True),
    (a_clause, BESIDE, True),
    (a_clause, "rkyv_btree_seal", False),
]


def main():
    crates = {it.name: it for it in RT.rtlib.crates_below(str(ROOT))}
    edit = edits.edits_of(crates[CRATE])[0]
    passed = failed = 0

    def expect(what, holds):
        nonlocal passed, failed
        passed, failed = passed + holds, failed + (not holds)
        if not holds:
            print(f"record: {what} isn't so", file=sys.stderr)

    with tempfile.TemporaryDirectory() as work:
        for name in crates:
            shutil.copytree(ROOT / "crates" / name, f"{work}/crates/{name}", ignore=shutil.ignore_patterns("out"))
        recorded = Keys(LOGIC, work).of([edit])[edit]
        for change, name, is_invalid in CASES:
            file, changed = change(f"{work}/crates/{name}")
            kept = file.read_text()
            file.write_text(changed)
            key = Keys(LOGIC, work).of([edit])[edit]
            file.write_text(kept)
            what = change.__name__.replace("_", " ")
            expect(f"that {what} of {name} {'makes' if is_invalid else 'leaves'} the line of an edit of {CRATE} {'in' * is_invalid}valid",
                   changed != kept and (key != recorded) == is_invalid)
        expect("that the same tree has the same key", Keys(LOGIC, work).of([edit])[edit] == recorded)
        expect("that another logic makes the line invalid", Keys("another", work).of([edit])[edit] != recorded)
        edit.text += "\n"
        expect("that a changed edit makes its line invalid", Keys(LOGIC, work).of([edit])[edit] != recorded)
    print(f"{passed} passed, {failed} failed")
    return 1 if failed else 0


if __name__ == "__main__":
    sys.exit(main())
