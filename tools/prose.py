#!/usr/bin/env python3
"""Holds the length of README.md, CHANGELOG.md and docs/: words in all (but for what a tool makes and no one reads from end to end: the list of
docs/DEFINITIONS.md and docs/CONTRACTS.txt), sentences over 30 words, lines and cells of the README, and that each item
of the README's "What is proved", and of the theorems by subject in docs/THEOREMS.md, has a name of the code beside it.

usage: tools/prose.py [--words]     prints what fails, and ends with 1 if something does; --words prints the words of each page
"""

import glob
import os
import re
import sys

sys.dont_write_bytecode = True
import definitions  # noqa: E402
import usage  # noqa: E402

TOP = os.path.dirname(os.path.dirname(os.path.realpath(__file__)))
MOST_WORDS = 30_000  # in all pages
MOST_IN_SENTENCE = 30  # but for one sentence a page
MOST_LINES = 110  # of the README
MOST_IN_CELL = 200  # characters of a cell of the README
LONG_CODE = re.compile(r"`{1,2} ?[^`\n]+?`{1,2}")


def read(page):
    with open(f"{TOP}/{page}", encoding="utf-8") as it:
        return it.read()


def pages():
    """Returns the pages, those at the top first."""
    return ["README.md", "CHANGELOG.md"] + sorted(os.path.relpath(p, TOP) for p in glob.glob(f"{TOP}/docs/**/*.md", recursive=True))


def stretches(text):
    """Yields the stretches of prose of a page: a paragraph, an item of a list, a cell. What is in backticks is one word, and so are
    several names in a row."""
    prose = re.sub(r"^```.*?^```$|<!--.*?-->", "", text, flags=re.S | re.M)
    prose = re.sub(r"name(?: \d+)?(?:,? (?:and |or )?name(?: \d+)?)+", "name", LONG_CODE.sub("name", re.sub(r"``+.+?``+", "name", prose)))
    for part in re.split(r"\n\s*\n|\n(?= *(?:[-*#|]|\d+\.) ?)", prose):
        yield from part.strip().strip("|").split("|") if part.lstrip().startswith("|") else [part]


def sentences(text):
    """Yields the sentences of a page."""
    for stretch in stretches(text):
        bare = re.sub(r"^\s*(?:[-*#]+|\d+\.)\s", "", re.sub(r"\s+", " ", stretch).strip()).replace("*", "")
        yield from re.split(r"(?<=[.?!:])\)? (?=[A-Z(\[\d]|name)", bare)


def long_ones(page):
    """Yields the sentences of a page that are too long."""
    for sentence in sentences(read(page)):
        if len(re.findall(r"[^\s]*\w[^\s]*", sentence)) > MOST_IN_SENTENCE:
            yield sentence


def words():
    """Returns the words of each page, as `wc -w` counts them, without the list that tools/definitions.py makes."""
    return {page: len(read(page).partition(definitions.MARK)[0].split()) for page in pages()}


def of_readme():
    """Yields what fails in the README."""
    text = read("README.md")
    if text.count("\n") > MOST_LINES:
        yield f"README.md: {text.count(chr(10))} lines, and at most {MOST_LINES} are allowed"
    for line in text.split("\n"):
        for cell in line.strip("|").split("|") if line.startswith("|") else []:
            if len(cell.strip()) > MOST_IN_CELL:
                yield f"README.md: a cell of {len(cell.strip())} characters: {cell.strip()[:50]} .."


def claims():
    """Yields the items of the README under "What is proved", and of docs/THEOREMS.md by subject, that have no name of the code beside them."""
    for page, title in (("README.md", "What is proved"), ("docs/THEOREMS.md", "Thirty, by subject")):
        part = re.search(rf"^## {title}$(.*?)^## ", read(page), flags=re.S | re.M)
        items = re.findall(r"^- .*$", part[1] if part else "", flags=re.M)
        for item in items or [f"no section {title}"]:
            if not re.search(r"`[\w:]+`", item):
                yield f"{page}: no clause beside it: {item[:50]} .."


def disagreements():
    """Returns what fails."""
    failed = [*of_readme(), *claims()]
    if sum(words().values()) > MOST_WORDS:
        failed.append(f"README.md and docs: {sum(words().values())} words, and at most {MOST_WORDS} are allowed")
    for page in pages():
        found = list(long_ones(page))
        if len(found) > 1:
            failed += [f"{page}: over {MOST_IN_SENTENCE} words: {sentence}" for sentence in found]
    return failed


def main():
    parser = usage.Words(__doc__)
    parser.add_argument("--words", action="store_true")
    if parser.parse_args().words:
        for page, count in words().items():
            print(f"{count:6} {page}")
        print(f"{sum(words().values()):6} in all")
    failed = disagreements()
    print("\n".join(failed), end="\n" if failed else "")
    sys.exit(1 if failed else 0)


if __name__ == "__main__":
    main()
