"""No tool: tells try.py and by_tests.py what changed in the crates since a commit. Crates that had other names then are read with the
names that they have now, so a file that differs by names of crates alone did not change. Anything else is a change."""

import os
import re
import subprocess

import table

# The names of crates now, by their names before 3c0c2701
RENAMED = {
    "mdconstructs_attention": "mdinline_emphasis",
    "mdconstructs_containers": "mdblock_containers",
    "mdconstructs_costs": "mddocument_costs",
    "mdconstructs_definitions": "mdblock_definitions",
    "mdconstructs_document_laws": "mddocument_laws",
    "mdconstructs_documents": "mddocument",
    "mdconstructs_flow": "mdblock_leaf_machine",
    "mdconstructs_flow_read": "mdblock_leaf_blocks",
    "mdconstructs_full_references": "mdinline_full_references",
    "mdconstructs_inline_constructs": "mdinline_constructs",
    "mdconstructs_inlines": "mdinline_machine",
    "mdconstructs_labels": "mdinline_labels",
    "mdconstructs_lines": "mdblock_lines",
    "mdconstructs_links": "mdinline_links",
    "mdconstructs_references": "mdinline_characters",
    "mdconstructs_resources": "mdinline_link_tails",
    "mdconstructs_rests": "mddocument_parts",
    "mdconstructs_sections": "mddocument_editing",
    "mdconstructs_strings": "mdinline_link_strings",
    "mdconstructs_targets": "mddocument_link_targets",
    "mdconstructs_text": "mdinline_text_machine",
    "mdconstructs_turns": "mdconstructs_loop_counts",
}


def git(*words):
    """Returns what git says, or None if it fails."""
    ran = subprocess.run(["git", "-C", table.TOP, *words], capture_output=True, text=True)
    return None if ran.returncode else ran.stdout


def texts_at(commit, files):
    """Returns the texts of these files at a commit, by file; of one that was not there it is empty."""
    asked = "".join(f"{commit}:{file}\n" for file in files).encode()
    said = subprocess.run(["git", "-C", table.TOP, "cat-file", "--batch"], input=asked, capture_output=True).stdout
    texts, at = {}, 0
    for file in files:
        head, at = said[at : said.index(b"\n", at)], said.index(b"\n", at) + 1
        size = 0 if head.endswith(b" missing") else int(head.split()[-1]) + 1
        texts[file], at = said[at : at + size - (size > 0)].decode(), at + size
    return texts


def text_now(file):
    """Returns the text of a file as it is here; of one that is not there it is empty."""
    if not os.path.exists(f"{table.TOP}/{file}"):
        return ""
    with open(f"{table.TOP}/{file}", encoding="utf-8") as it:
        return it.read()


class Names:
    """The names that crates got since a commit: of those alone that it has, if no crate had the new name yet."""

    def __init__(self, listed):
        had = table.crates(listed)
        self.new = {old: new for old, new in RENAMED.items() if old in had and new not in had}
        self.words = re.compile(rf"\b(?:{'|'.join(self.new)})\b") if self.new else None

    def now(self, text):
        """Returns a text, or a path, with the names of now."""
        return self.words.sub(lambda it: self.new[it[0]], text) if self.words else text

    def pair(self, old, now):
        """Returns an old text with the names of now, and the text of now. If names changed, lines of imports are in order in both."""
        read = self.now(old)
        return (read, now) if read == old else (in_order(read), in_order(now))


def in_order(text):
    """Returns a source whose neighbouring `use` lines are in order, as rattle fmt puts them: a name that changes takes another place."""
    lines = text.split("\n")
    first = 0
    while first < len(lines):
        last = first
        while last < len(lines) and re.match(r"use .*;$", lines[last]):
            last += 1
        lines[first:last] = sorted(lines[first:last])
        first = last + 1
    return "\n".join(lines)


class Changes:
    """What changed in the crates since a commit: `texts` has the old text and the one of now of each file that differs, and `crates` the
    crates that name others in crates.txt."""

    def __init__(self, commit):
        found = git("diff", "--name-only", "--no-renames", commit, "--", "crates", "crates.txt")
        if found is None:
            raise SystemExit(f"no commit {commit} here")
        new = git("ls-files", "-o", "--exclude-standard", "--", "crates").split()
        olds = texts_at(commit, sorted({*found.split(), *new, "crates.txt"}))
        listed = olds.pop("crates.txt")
        names = Names(listed)
        before = table.crates(names.now(listed))
        self.crates = {crate for crate, uses in table.crates().items() if before.get(crate) != uses}
        places = {}
        for file, old in olds.items():
            # (a file of a crate that got another name has moved with it)
            if old or names.now(file) not in places:
                places[names.now(file)] = old
        pairs = {file: names.pair(old, text_now(file)) for file, old in places.items()}
        self.texts = {file: pair for file, pair in pairs.items() if pair[0] != pair[1]}
