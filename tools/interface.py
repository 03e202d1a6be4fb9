#!/usr/bin/env python3
"""Prints what crates above can see of a crate: tools/interface.py CRATE..

Of a file of src it is all but comments, the bodies of functions, and private functions. Of a file of specs it is all but comments.
Of a file of lemmas it is the statements, and the definitions that a proof above can unfold. The proofs of functions aren't part
of it. Imports count where what is left of the file names what they import.

The files must be laid out as rt fmt does it: a function's body ends with a brace below its first letter.
"""
import pathlib
import re
import sys

ROOT = pathlib.Path(__file__).resolve().parent.parent
FUNCTION = re.compile(r"(pub(?:\(\w+\))? )?(?:const )?(?:unsafe )?(?:extern \"C\" )?fn \w+")
CLAUSE = re.compile(r"\b(?:requires|ensures|ghost)\*?(?: [\w-]+)? *$")
# what begins an item of antt whose whole text is seen above
SEEN = re.compile(r"(abbrev|unfoldable|record|pub record|data|pub data|infix[lr]?|syntax|simp|ruleset)\b")
WORD = re.compile(r"[\w'-]+|[^\s\w(){},.]")


def indent_of(line):
    return len(line) - len(line.lstrip(" "))


def end_of_signature(text):
    """Returns where the signature of the function at the start of this text ends, and whether a body follows."""
    depth, at = 0, 0
    while at < len(text):
        letter = text[at]
        if text.startswith("//", at):
            at = text.index("\n", at)
        elif letter in "([":
            depth += 1
        elif letter in ")]":
            depth -= 1
        elif letter == "{" and (depth or CLAUSE.search(text[text.rfind("\n", 0, at) + 1 : at])):
            depth += 1
        elif letter == "}":
            depth -= 1
        elif letter == "{" and not depth:
            return at, True
        elif letter == ";" and not depth:
            return at, False
        at += 1
    raise ValueError(f"a function without an end: {text[:80]}")


def is_seen(head, block):
    """Returns whether crates above can call a function with this head in this block: each of a trait, and else a public one."""
    is_of_trait = re.match(r"(pub )?trait\b", block) or re.match(r"impl\b.* for ", block)
    return bool(is_of_trait) or head.startswith("pub ")


def of_source(text):
    """Returns the text of a source file without comments, bodies and private functions."""
    lines, kept, at, block = text.splitlines(), [], 0, ""
    while at < len(lines):
        line = lines[at]
        bare = line.strip()
        if not indent_of(line) and bare and not FUNCTION.match(bare):
            block = bare
            # the head of an impl can take more lines than one
            for more in lines[at + 1 : at + 9] if bare.startswith("impl") and not bare.endswith("{") else []:
                block += " " + more.strip()
                if more.rstrip().endswith("{"):
                    break
        if FUNCTION.match(bare):
            rest = "\n".join(lines[at:]) + "\n"
            end, has_body = end_of_signature(rest)
            signature = rest[:end].rstrip()
            while kept and re.match(r" *#\[", kept[-1]):
                kept.pop()
            if is_seen(bare, block if indent_of(line) else ""):
                kept += [it for it in signature.splitlines() if not it.lstrip().startswith("//")]
            at += rest.count("\n", 0, end)
            if has_body and not lines[at].rstrip().endswith("}"):
                while lines[at] != " " * indent_of(line) + "}":
                    at += 1
        elif bare and not bare.startswith("//"):
            kept.append(line)
        at += 1
    return "\n".join(with_imports(kept, r"(?:ghost )?use "))


def items_of(lines):
    """Deals lines out in items: each begins with a line as far to the left as the first."""
    items, first = [], None
    for line in lines:
        first = indent_of(line) if first is None else first
        if indent_of(line) <= first or not items:
            items.append([line])
        else:
            items[-1].append(line)
    return items


def of_items(lines):
    """Returns the lines of what crates above can see among these items of antt."""
    kept, seen = [], set()
    for item in items_of(lines):
        head = item[0].strip()
        if re.match(r"(pub )?(module|mutual)\b", head):
            body = next((at for at, it in enumerate(item) if re.search(r"\b(where|mutual)$", it.rstrip())), 0) + 1
            inside = of_items(item[body:])
            kept += item[:body] + inside if inside else []
        elif SEEN.match(head):
            seen |= set(re.findall(r"^(?:(?:abbrev|unfoldable) )(?:pub )?([^\s:]+) :", head))
            kept += item
        elif re.match(r"(pub )?[^\s:]+ : ", head):
            kept += item if head.startswith("pub ") else []
        elif re.match(r"use ", head):
            kept += item
        elif seen & {head.split()[0]} or head.startswith("unfolding ") and kept and SEEN.match(kept[-1].strip()):
            # a clause of a definition that unfolds, or the line of what it unfolds itself
            kept += item
    return kept


def with_imports(lines, use):
    """Returns the lines without the imports that the others don't name, and each other import as one of the names that they name."""
    imports = [it for it in lines if re.match(rf" *{use}", it)]
    others = [it for it in lines if not re.match(rf" *{use}", it)]
    words, kept = set(WORD.findall("\n".join(others))), []
    for line in imports:
        path, _, names = line.strip().rstrip(";").partition("{")
        listed = [it.strip() for it in names.rstrip("}").split(",")] if names else [path.rpartition(":")[2]]
        named = [it for it in listed if not it or it == "*" or set(WORD.findall(it.rpartition(" as ")[2].replace("◌", " "))) & words]
        if named:
            kept.append(f"{path}{{{', '.join(named)}}}" if names else path)
    return sorted(kept) + others


def without_comments(text):
    return [it.rstrip() for it in text.splitlines() if it.strip() and not it.lstrip().startswith("--")]


def of_lemmas(text):
    """Returns the statements of a file of lemmas, and what of it can be unfolded."""
    return "\n".join(with_imports(of_items(without_comments(text)), r"use "))


def interface_of(folder):
    """Returns what crates above can see of the crate in a folder: pairs of a file's name and a text."""
    folder = pathlib.Path(folder)
    found = [(it, of_source(it.read_text())) for it in sorted(folder.glob("src/**/*.rt"))]
    found += [(it, "\n".join(without_comments(it.read_text()))) for it in sorted(folder.glob("specs/**/*.antt"))]
    found += [(it, of_lemmas(it.read_text())) for it in sorted(folder.glob("proofs/*.antt")) if it.name != "Lib.antt"]
    return [(str(file.relative_to(folder)), text) for file, text in found if text.strip()]


if __name__ == "__main__":
    for name in sys.argv[1:]:
        for file, text in interface_of(ROOT / "crates" / name):
            print(f"== {name}/{file}\n{text}\n")
