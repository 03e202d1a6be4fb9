#!/usr/bin/env python3
"""Makes the man pages of the programs, as docs/btreearc.1, of their pages, as docs/BTREEARC.md: tools/man.py [--check]

The title of a page is the program's name and what it does. Headings become sections, and tables become lists: the first cell of a row is the term.
With --check nothing is written, and the status is 1 if a man page is stale, which a line names.
"""
import pathlib
import re
import sys

DOCS = pathlib.Path(__file__).resolve().parent.parent / "docs"
PROGRAMS = ("btreearc", "btreekv")


def escaped(text):
    text = text.replace("\\", "\\e").replace("-", "\\-")
    return "\\&" + text if text.startswith((".", "'")) else text


def inline(text):
    """Turns code, strong words and links into roff."""
    text = re.sub(r"\[([^\]]*)\]\([^)]*\)", r"\1", text)
    parts = re.split(r"`([^`]*)`|\*\*([^*]*)\*\*", text)
    roff = escaped(parts[0])
    for code, strong, rest in zip(parts[1::3], parts[2::3], parts[3::3]):
        roff += f"\\fB{escaped(code or strong).removeprefix(chr(92) + '&')}\\fR" + escaped(rest).removeprefix("\\&")
    return roff


def table(rows):
    """Turns the rows of a table, without its head, into a list."""
    for cells in rows:
        rest = "; ".join(inline(cell) for cell in cells[1:] if cell)
        yield f".TP\n{inline(cells[0])}\n{rest}"


def roff(name, page):
    """Returns the man page of a program."""
    title, _, text = page.partition("\n")
    about = title.removeprefix(f"# {name}: ")
    lines = [f'.TH {name.upper()} 1', ".SH NAME", f"{name} \\- {escaped(about)}"]
    for part in re.split(r"\n\n+", text.strip()):
        if part.startswith("## "):
            lines.append(f".SH {part[3:].upper()}")
        elif part.startswith("```"):
            body = "\n".join(escaped(line) for line in part.splitlines()[1:-1])
            lines.append(f".PP\n.nf\n.RS 4\n{body}\n.RE\n.fi")
        elif part.startswith("|"):
            rows = [[cell.strip() for cell in row.strip("|").split(" | ")] for row in part.splitlines()]
            lines += table(rows[2:])
        elif part.startswith("- "):
            items = re.split(r"^- ", part, flags=re.M)[1:]
            lines += [f".IP \\(bu 2\n{inline(' '.join(item.split()))}" for item in items]
        else:
            lines.append(f".PP\n{inline(' '.join(part.split()))}")
    return "\n".join(lines) + "\n"


def main(words):
    stale = 0
    for program in PROGRAMS:
        made, man = roff(program, (DOCS / f"{program.upper()}.md").read_text()), DOCS / f"{program}.1"
        if words != ["--check"]:
            man.write_text(made)
        elif not man.exists() or man.read_text() != made:
            print(f"docs/{man.name}: stale; run make man")
            stale = 1
    return stale


if __name__ == "__main__":
    sys.exit(main(sys.argv[1:]))
