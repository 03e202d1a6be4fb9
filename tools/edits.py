#!/usr/bin/env python3
"""Tries the wrong bodies of crates, many at a time: tools/edits.py [--gate | --record | --all] [--after-ci] [--only PATTERN] [CRATE..]

A wrong body is a file crates/NAME/wrong/MODULE.FUNCTION.FAULT.edit: lines 'file: PATH', and then pairs 'old: TEXT' and
'new: TEXT', each TEXT one line that is once in that file. An edit counts as refused where the prover reads it and names a
goal that it doesn't prove: more than a name that a proof file cites and the edit has taken away. A crate that isn't proved
without edits refuses none.

A proof can also fail because the body has another shape than its proof file expects. A line 'twin: TEXT' right below a 'new:'
has the same shape and the right value, so that the function means what it did. With the twins in place of its new texts the crate
must be proved, or the edit counts as not refused.

A body is judged by the contracts of what it calls, so the edits of different functions are tried in one check of a copy of the
crate. A function that is refused for itself names its goals; one whose callee is refused says no more than that it calls it, and is
tried again with the others of which that is so. An edit of more than one function's text, or of a function in a cycle of calls, is
tried alone, and so is one whose function doesn't come out as refused. Twins are tried together; of those that aren't proved
together each half is tried.

What was refused is recorded in the file wrong.lock, of which record.py says what a line is and when it is valid.

    --record    tries the edits that have no valid line, and writes the lines of those that are refused
    --gate      tries the edits that have no valid line, and a sample of the others again: 5 of 100, and at least 20, which the commit's
                id draws. It fails each edit that isn't refused, and each line of no edit
    --all       tries all edits, whatever the record says
    (none)      tries the edits that have no valid line, and writes nothing

Each check is rt's own. --after-ci takes what rt ci has just proved and built as it is: of a crate the modules alone are checked that the
edits change. Without it libraries are built where they have changed, and each crate is first checked without edits. --only takes the
edits whose name PATTERN matches.

The last line is `N refused, M not`, and the status is 0 where each was refused. RT is rt's command, if not rt.
"""
import argparse
import collections
import concurrent.futures
import math
import os
import pathlib
import re
import shutil
import sys
import tempfile

from kit import LOGIC, RT
from record import LOCK, Keys, read_lock, sample_of, write_lock

ROOT = pathlib.Path(__file__).resolve().parent.parent
FLAGS = ["--jobs", "1"]
# the words that begin a line of an edit, each with those of the line above it
ABOVE = {"file": ("", "new", "twin"), "old": ("file", "new", "twin"), "new": ("old",), "twin": ("new",)}
# an error of a proof file that says no more than that a name is gone
OF_NAMES = re.compile(r"has no field|is not in scope|has no `|was not admitted|were not checked")
ERROR = re.compile(r"^(?:\./)?(\S+?):\d+:\d+: error: (.*)$", re.M)
FUNCTION = re.compile(r"^( *)(?:pub(?:\(\w+\))? )?(?:const )?(?:unsafe )?(?:extern \"C\" )?fn (\w+)", re.M)
CLAUSE = re.compile(r" *(requires|ensures|ghost)\b")

Change = collections.namedtuple("Change", "path old new twin")


class Place(collections.namedtuple("Place", "path at function head")):
    """Where a function is: its file, its position there, its name, and the head of its impl, if it is in one."""

    def module(self):
        return self.path.removeprefix("src/").removesuffix(".rt").replace("/", "::")


class Edit:
    """An edit: which text of which file becomes which, and what its twins are."""

    def __init__(self, file, crate):
        self.name, self.text, self.changes = file.stem, file.read_text(), []
        self.crate, self.function, above = crate, self.name.split(".")[1], ""
        self.full_name = f"{crate.name}/{self.name}"
        for line in self.text.splitlines():
            word, _, text = line.partition(": ")
            if above not in ABOVE.get(word, ()) or not text.strip():
                sys.exit(f"{file}: no 'file:', 'old:', 'new:' or 'twin:' with a text in its place: {line}")
            if word == "file":
                path = text
            elif word == "old":
                old = text
            elif word == "new":
                self.changes.append(Change(path, old, text, ""))
            else:
                self.changes[-1] = self.changes[-1]._replace(twin=text)
            above = word
        if above not in ("new", "twin"):
            sys.exit(f"{file}: no 'new:' at its end")
        self.has_twin = any(it.twin for it in self.changes)
        if self.has_twin and [it.twin or it.new for it in self.changes] in ([it.old for it in self.changes], [it.new for it in self.changes]):
            sys.exit(f"{file}: a twin that is the old text or the new one shows nothing")

    def read(self, path):
        return pathlib.Path(self.crate.folder, path).read_text()

    def apply(self, texts, is_twin=False):
        """Returns the texts with this edit made too, or its twin, or None where it can't be made."""
        texts = dict(texts)
        for path, old, new, twin in self.changes:
            text = texts.get(path) or self.read(path)
            if text.count(old) != 1:
                return None
            texts[path] = text.replace(old, is_twin and twin or new)
        return texts

    def place(self):
        """Returns the place of the one function whose body this edit changes, or None where it changes more."""
        places = {Place(it.path, *place_of_function(self.read(it.path), it.old)) for it in self.changes}
        place = places.pop()
        return None if places or place.function != self.function or any(CLAUSE.match(it.old) for it in self.changes) else place

    def turned(self, said):
        """Returns the prover's name of the function that this edit changes, of those of which a check says something, or None where that
        isn't known."""
        place = self.place()
        names = re.findall(r"^fn (\S+): ", said, re.M) if place else []
        fitting = [it for it in names if fits(it, f"{self.crate.name}::{place.module()}", place.function, place.head)]
        return fitting[0] if len(fitting) == 1 else None


def place_of_function(text, old):
    """Returns where the function that holds a text begins, its name, and the head of its impl, if it is in one. Of a function in a
    cycle it names none: all of the cycle has one proof."""
    end = text.find("\n", text.find(old))
    function = [*FUNCTION.finditer(text, 0, end)][-1:]
    if not function or "#[cycle(" in text[: function[0].start()].rsplit("\n\n", 1)[-1]:
        return 0, "", ""
    heads = re.findall(r"^impl\b[^{]*", text[: function[0].start()], re.M) if function[0][1] else []
    return function[0].start(), function[0][2], " ".join(heads[-1:])


def fits(name, module, function, head):
    """Returns whether the prover's name can be that of a function of this module, in an impl with this head."""
    *place, last = name.split("::")
    if not head or last != function:
        return name == f"{module}::{function}"
    head = re.sub(r"'\w+|\w+::|->", "", head.removeprefix("impl")).split("where")[0]
    bare, is_here = head, "::".join(place[:-1]) == module
    while "<" in bare:
        bare = re.sub(r"<[^<>]*>", "", bare)
    *of_trait, of_type = [re.findall(r"\w*", it.strip())[0] for it in bare.split(" for ")]
    if of_trait:
        # as EntryPortable or Tuple2Archive
        return is_here and place[-1].lower().startswith(of_type.lower()) and of_trait[0] in place[-1]
    # a method of a type goes by the module of the type, as View, or of the impl, as View+Entry+K+V
    words = re.findall(r"[A-Za-z]\w*", head[head.rfind(f"{of_type}<") :])[1:] if "<" in head else []
    of_some = any(not it.isupper() for it in words)
    return place[-1].split("+")[0] == of_type and of_some == ("+" in place[-1]) and (is_here or not of_some)


def edits_of(crate):
    """Returns the crate's edits. Each file beside them but a page is one."""
    files = sorted(pathlib.Path(crate.folder, "wrong").glob("*"))
    strange = [it for it in files if it.suffix not in (".edit", ".md") or it.suffix == ".edit" and it.name.count(".") != 3]
    if strange or pathlib.Path(crate.folder, "must-fail").exists():
        sys.exit(f"{crate.name}: an edit is a file wrong/MODULE.FUNCTION.FAULT.edit, which isn't so of {strange or 'must-fail'}")
    return [Edit(it, crate) for it in files if it.suffix == ".edit"]


def rounds_of(edits, is_twin=False):
    """Deals the edits out in rounds, in each of which no two turn one function or the same text."""
    rounds = []
    for edit in edits:
        place = edit.place() or edit
        for given in rounds:
            texts = edit.apply(given["texts"], is_twin)
            if texts and place not in given["edits"]:
                break
        else:
            given, texts = {"edits": {}, "texts": {}}, edit.apply({}, is_twin)
            rounds.append(given)
        given["edits"][place] = edit
        given["texts"] = texts
    return [[*it["edits"].values()] for it in rounds]


class Checks:
    """Checks of copies of a crate, over what one has kept for the next. Where they are of modules, each is of the modules alone that its
    edits change, where each changes one function's body."""

    def __init__(self, crate, kept, are_of_modules):
        self.crate, self.kept, self.are_of_modules = crate, kept, are_of_modules

    def check(self, edits, is_twin=False):
        """Checks the crate with these edits or their twins, and returns whether it is proved, and what is said. Nothing is said
        where the prover comes to no verdict, or can't read a changed text."""
        texts = {}
        for edit in edits:
            texts = edit.apply(texts, is_twin)
        return self.check_texts(texts, edits)

    def check_texts(self, texts, edits):
        """Does what `check` says with these changed texts of these edits, of which there may be none."""
        places = [it.place() for it in edits]
        modules = sorted({it.module() for it in places}) if self.are_of_modules and places and all(places) else []
        # the module of the root names no function of its own alone
        only = [] if {"lib", "main"} & {*modules} else [word for it in modules for word in ("--only", it)]
        ran = RT.checked(self.crate, texts, FLAGS + only, self.kept)
        has_verdict = re.search(r"^(logic|only)=", ran.stdout, re.M) and not any(RT.unread(it, texts) for it in ran.stdout.splitlines())
        return not ran.returncode, ran.stdout if has_verdict else ""


def goal_of(error):
    """Returns the goal that an error of a proof names first, if it does."""
    return re.match(r"`([^`]*)`|", error)[1] or "a proof"


def refused_for_themselves(said):
    """Returns which goals refuse each function that is refused for itself, by the prover's name of it."""
    found, goals = {}, []
    errors = collections.defaultdict(list)
    for path, why in ERROR.findall(said):
        # those of a function's proof, whose folder has the function's path, with a + where it calls itself
        errors["::".join(path.split("/")[1:-1]).replace("::+", "::")] += [why] if path.startswith("proofs/") else []
    for line in said.splitlines():
        goals += re.findall(r"^note: src/\S+: .*? \(`(\S+)`\)", line)
        name, why = (re.findall(r"^fn (\S+): (.*)$", line) or [("", "")])[0]
        if why.startswith("not proved") or "`search` did not prove" in why:
            own = [it for it in errors[name.partition("::")[2]] if not OF_NAMES.search(it)]
            goals += map(goal_of, own)
            if goals:
                found[name] = ", ".join(dict.fromkeys(goals))
        goals = goals if not name else []
    return found


def reasons(found):
    return "; ".join(f"{name}: {why}" for name, why in found.items())


def alone(edit, checks):
    """Returns why the prover refuses the crate with this edit alone, if it does for more than a name."""
    is_proved, said = checks.check([edit])
    found = refused_for_themselves(said)
    errors = [why for path, why in ERROR.findall(said) if not path.startswith("proofs/") or not OF_NAMES.search(why)]
    return "" if is_proved or not found and not errors else "alone: " + (reasons(found) or ", ".join(dict.fromkeys(map(goal_of, errors))))


def try_edits(edits, checks):
    """Returns why the prover refuses each edit, or nothing where it doesn't."""
    told, left, more = {}, [it for it in edits if it.place()], True
    # what is left calls what was refused, which the next turn leaves as it was
    while left and more:
        for given in rounds_of(left):
            said = checks.check(given)[1]
            found = refused_for_themselves(said)
            told |= {it: found[it.turned(said)] for it in given if it.turned(said) in found}
        more = any(it in told for it in left)
        left = [it for it in left if it not in told]
    return {it: told.get(it) or alone(it, checks) for it in edits}


def unproved_twins(edits, checks):
    """Returns why the twins aren't proved, for each of these edits whose twin isn't."""
    is_proved, said = checks.check(edits, is_twin=True)
    if is_proved:
        return {}
    if len(edits) == 1:
        return {edits[0]: reasons(refused_for_themselves(said)) or "it can't be read, or a name is gone"}
    half = len(edits) // 2
    return unproved_twins(edits[:half], checks) | unproved_twins(edits[half:], checks)


def begin(crate, edits, is_proved, room):
    """Makes a folder of what checks of a crate without edits keep, for all its parts to begin with, and returns whether the crate is
    proved. Of a crate that is known to be proved only the modules are checked that the edits change, and none where there is one part."""
    kept, begun = f"{room}/{crate.name}", f"{crate.folder}/out/incremental"
    shutil.copytree(begun, kept) if os.path.isdir(begun) else os.mkdir(kept)
    if is_proved and (os.path.isdir(begun) or len(parts_of(edits)) == 1):
        return True
    if Checks(crate, kept, is_proved).check_texts({}, edits if is_proved else [])[0]:
        return True
    print(f"{crate.name}: not proved without edits", flush=True)
    return False


def try_all(crate, edits, is_proved, begun, folder):
    """Says of each edit why the prover refuses it, if it does, and why it doesn't prove its twin, if it doesn't. Of a crate that is
    known to be proved only the modules are checked that the edits change, and else all of it."""
    if not begun.result():
        return [(it, "", "") for it in edits]
    with tempfile.TemporaryDirectory(prefix="edits-") as room:
        kept = f"{room}/kept"
        shutil.copytree(f"{folder}/{crate.name}", kept)
        checks = Checks(crate, kept, is_proved)
        refused, unproved = try_edits(edits, checks), {}
        for given in rounds_of([it for it in edits if it.has_twin], is_twin=True):
            unproved |= unproved_twins(given, checks)
    return [(it, why, unproved.get(it, "")) for it, why in refused.items()]


def parts_of(edits, size=16):
    """Deals a crate's edits out in parts of about this size, in each of which few change one function."""
    count = math.ceil(len(edits) / size)
    by_function = sorted(edits, key=lambda it: (it.changes[0].path, it.function))
    return [by_function[at::count] for at in range(count)]


def try_each(edits, after_ci):
    """Tries edits of any crates, and yields why each is refused, or nothing, and why its twin isn't proved, if it isn't."""
    by_crate = collections.defaultdict(list)
    for edit in edits:
        by_crate[edit.crate].append(edit)
    for crate in by_crate:
        if not after_ci and any(it.build_rlib(FLAGS, anew=False) for it in crate.below()):
            sys.exit(f"a library below {crate.name} is not proved")
    work = [(crate, part) for crate, edits in by_crate.items() for part in parts_of(edits)]
    work.sort(key=lambda it: -len(it[1]) * it[0].count(rb"\n"))
    with tempfile.TemporaryDirectory(prefix="edits-") as room, concurrent.futures.ThreadPoolExecutor(len(os.sched_getaffinity(0))) as pool:
        # these come first, so that no part waits for one that has no thread
        begun = {crate: pool.submit(begin, crate, by_crate[crate], after_ci, room) for crate in dict(work)}
        for done in concurrent.futures.as_completed([pool.submit(try_all, *it, after_ci, begun[it[0]], room) for it in work]):
            yield from done.result()


def is_refused(edit, why, of_twin):
    """Prints of an edit whether it was refused, and returns it."""
    with_twin = " (its twin is proved)" if edit.has_twin else ""
    how = f"TWIN NOT PROVED: {of_twin[:300]}" if of_twin else f"refused: {why[:300]}{with_twin}" if why else "NOT REFUSED"
    print(f"{edit.full_name}: {how}", flush=True)
    return bool(why) and not of_twin


def record(edits, keys, lock, after_ci):
    """Tries edits, writes the lines of those that are refused, and returns how many are."""
    refused = 0
    for edit, why, of_twin in try_each(edits, after_ci):
        lock.pop(edit.full_name, None)
        # (a file that has changed meanwhile may be another than the one that was tried)
        if is_refused(edit, why, of_twin) and Keys(LOGIC).of([edit]) == {edit: keys[edit]}:
            lock[edit.full_name] = keys[edit]
            refused += 1
        write_lock(lock)
    return refused


def gate(every, names, keys, lock, after_ci):
    """Tries the edits without a valid line and a sample of the others, and returns how many are refused and how many not. A line with none
    of these names counts as one that isn't."""
    untried = [it for it in every if lock.get(it.full_name) != keys[it]]
    valid = [it for it in every if it not in untried]
    strange = lock.keys() - names
    for name in sorted(strange):
        print(f"{name}: a line in {LOCK.name} of no edit", flush=True)
    sample = sample_of(valid)
    print(f"{len(every)} edits: {len(valid) - len(sample)} by the record alone, {len(sample)} of it tried again, {len(untried)} without a valid line", flush=True)
    failed = sum(not is_refused(*it) for it in try_each(untried + sample, after_ci))
    return len(every) - failed, len(strange) + failed


def main():
    words = argparse.ArgumentParser(description="Tries the wrong bodies of crates, many at a time.")
    how = words.add_mutually_exclusive_group()
    for name in ("--gate", "--record", "--all"):
        how.add_argument(name, action="store_true")
    words.add_argument("--after-ci", action="store_true")
    words.add_argument("--only", default="", metavar="PATTERN")
    words.add_argument("crates", nargs="*")
    given = words.parse_args()
    RT.rtlib.guarded()
    crates = {it.name: it for it in RT.rtlib.crates_below(str(ROOT))}
    if not {*given.crates} <= {*crates}:
        sys.exit(f"no crates: {', '.join({*given.crates} - {*crates})}")
    of_all = [edit for it in crates.values() for edit in edits_of(it)]
    names = {it.full_name for it in of_all}
    # of all of them, so that a run of a few finds what would stop the gate
    lost = [it.full_name for it in of_all if not it.apply({})]
    if lost:
        sys.exit(f"an old text isn't there once: {', '.join(lost)}")
    every = [it for it in of_all if it.crate.name in (given.crates or crates) and re.search(given.only, it.name)]
    keys, lock = Keys(LOGIC).of(every), read_lock()
    untried = [it for it in every if given.all or lock.get(it.full_name) != keys[it]]
    if given.gate:
        refused, others = gate(every, names, keys, lock, given.after_ci)
    else:
        print(f"{len(every)} edits, {sum(it.has_twin for it in every)} with a twin, {len(every) - len(untried)} by the record", flush=True)
        if given.record:
            write_lock({name: key for name, key in lock.items() if name in names})
            lock = read_lock()
            refused = record(untried, keys, lock, given.after_ci)
        else:
            refused = sum(is_refused(*it) for it in try_each(untried, given.after_ci))
        others = len(untried) - refused
        refused += len(every) - len(untried)
    print(f"{refused} refused, {others} not")
    return 1 if others else 0


if __name__ == "__main__":
    sys.exit(main())
