#!/usr/bin/env python3
"""Holds the list of definitions in docs/DEFINITIONS.md: of each file of `specs` of the public crates and of their parts, the first
sentence of its first comment, a long one up to its colon or first comma; of files with rows of states, costs, examples or statements of laws only the
name. What stands above the list is written by hand.

usage: tools/definitions.py [--write]     prints what fails, and ends with 1 if something does; --write writes the list first
"""

import glob
import os
import re
import sys

sys.dont_write_bytecode = True
import usage  # noqa: E402

TOP = os.path.dirname(os.path.dirname(os.path.realpath(__file__)))
PAGE = f"{TOP}/docs/DEFINITIONS.md"
MARK = "<!-- The rest of this page is made by tools/definitions.py. -->\n"
INNER = re.compile(r"^Inner: |An inner file: ")

# the crate whose files have the states of a machine, and what is read stands in another one
MACHINES = ("mdblock_leaf_rows",)
# what the names of crates begin with that are no part of a public one
NO_PARTS = ("mdcases", "mdexamples", "mdtests", "mdbench")


def read(path):
    with open(path, encoding="utf-8") as it:
        return it.read()


def crates():
    """Yields the public crates and their parts, the lowest first."""
    for name in re.findall(r"^(\w+)(?: staticlib)?:", read(f"{TOP}/crates.txt"), flags=re.M):
        if not name.startswith(NO_PARTS):
            yield name


def said(path):
    """Returns the first comment of a file as one line."""
    lines = []
    for line in read(path).split("\n"):
        if not line.startswith("-- "):
            break
        lines.append(line[2:].strip())
    return " ".join(lines)


def short(sentence):
    """Returns a sentence, and of a long one what stands before its first colon or semicolon, and of one of more than twelve words before its first comma."""
    if len(sentence.split()) <= 8:
        return sentence
    parts = re.split(r"(?<=[^:;])(?:[:;] |, )(?![^(]*\))", sentence)
    front = parts[0] if len(sentence.split()) > 12 and len(parts[0].split()) > 3 else re.split(r"[:;] ", sentence)[0]
    return front.removesuffix(".") + "."


def section(crate):
    """Yields the lines of a crate: a line for each file, and one for all inner files. `Laws` has proofs and no definitions."""
    inner, rows = [], []
    for path in sorted(glob.glob(f"{TOP}/crates/{crate}/specs/*.antt")):
        name = os.path.basename(path)[:-5]
        if name in ("Lib", "Laws"):
            continue
        text = said(path)
        if INNER.search(text):
            inner.append(f"`{name}`")
        elif name.endswith(("Rows", "Costs", "Examples", "LawStatements")) or crate in MACHINES:
            rows.append(f"`{name}`")
        else:
            first = short(re.split(r"(?<=[.]) (?=[A-Z`])", text)[0].removeprefix(f"{name}: "))
            yield f"- `{name}`: {first[:1].upper() + first[1:]}"
    if rows:
        yield f"- States, their rows and prices: {', '.join(rows)}."
    if inner:
        yield f"- Inner: {', '.join(inner)}."


def listed():
    """Returns the list."""
    return "".join(f"\n## `{crate}`\n\n" + "\n".join(lines) + "\n" for crate in crates() if (lines := list(section(crate))))


def disagreements():
    """Returns what of the page is not as it would be written."""
    front, mark, rest = read(PAGE).partition(MARK)
    failed = [f"docs/DEFINITIONS.md: no first comment of {line[2:-2]}" for line in listed().split("\n") if line.endswith(": ")]
    if len(front.split()) > 600:
        failed.append(f"docs/DEFINITIONS.md: {len(front.split())} words above the list, and at most 600 are allowed")
    return failed + ([] if mark and rest == listed() else ["docs/DEFINITIONS.md: run tools/definitions.py --write"])


def write():
    """Writes the list below the front of the page."""
    text = read(PAGE).partition(MARK)[0] + MARK + listed()
    with open(PAGE, "w", encoding="utf-8") as it:
        it.write(text)


def main():
    parser = usage.Words(__doc__)
    parser.add_argument("--write", action="store_true")
    if parser.parse_args().write:
        write()
    failed = disagreements()
    print("\n".join(failed), end="\n" if failed else "")
    sys.exit(1 if failed else 0)


if __name__ == "__main__":
    main()
