#!/usr/bin/env python3
"""Compares the HTML that the program `mdhtml --unsafe` writes, byte for byte: with the HTML of CommonMark's examples, and with what
`cmark --unsafe` writes for real files and for random documents.

A document that differs is explained as tools/random_documents.py explains it: it is made smaller while it differs, and the smallest one tells
the cause. The status is 1 if a document differs by a cause that has no name, or an example that is not one of the two whose comments
CommonMark reads otherwise since 0.31 (625 and 626 of 0.30).

With --gfm it is `mdhtml --gfm --unsafe` beside `cmark-gfm --unsafe` with the extensions table, strikethrough, autolink, tasklist, footnotes and tagfilter, but
for the ids of footnotes. Random documents are of each extension, made of what is hard for it, and of lines of tables and of other blocks.

usage: tools/html_beside_cmark.py PROGRAM [--gfm] [--spec SPEC] [--real DIR] [--random COUNT] [--kind KIND] [--seed S] [--pieces N] [--cmark CMARK] [--differing] [--jobs J]
  PROGRAM         mdhtml
  --spec SPEC     a spec.json: a list of objects with `example`, `section`, `markdown` and `html`. tools/commonmark.py says where there is one
  --real DIR      a folder: its files that end in .md or .markdown. `tools/real_files.py --fetch DIR` fetches 695, into DIR/files
  --random COUNT  so many random documents of each of five kinds: the pieces of tools/random_documents.py, with --wide, and beside that with
                  --links, --definitions or --references; and marks of all kinds, with control bytes. With --gfm, of each of six kinds
  --kind KIND     random documents of this kind alone
  --seed S        the seed of the first one; without it, 1
  --pieces N      at most N pieces in a random document; without it, 24
  --cmark CMARK   cmark's program; without it, the one on the path. Debian's packages cmark and cmark-gfm have it (`apt-get install cmark cmark-gfm`)
  --differing     also each example, file or document that differs: the first line that does, and the causes with the smallest documents
  --jobs J        so many documents at once; without it, 1
"""

import collections
import json
import multiprocessing
import os
import random
import re
import subprocess
import sys

sys.path.insert(0, os.path.dirname(os.path.realpath(__file__)))
sys.dont_write_bytecode = True
import random_documents  # noqa: E402
import real_files  # noqa: E402
import usage  # noqa: E402

# examples of 0.30 with comments that 0.31 reads otherwise
COMMENTS = {625, 626}
# what random documents of marks are made of
MARKS = ["a", "b", " ", "  ", "    ", "\t", "\n", "\n", "\n\n", "\r\n", "é", "\xa0", "*", "_", "**", "***", "`", "``", "```", "~~~", "#", "# ", "## ", "=", "===", "---"]
MARKS += ["-", "- ", "+ ", "1. ", "2) ", "> ", ">", "\\", "<", ">", "<a>", "</a>", "<!-- x -->", "<?", "?>", "<div>", "</div>", "<pre>", "&", "&amp;", "&#35;", "&#0;"]
MARKS += ["&copy;", "&Tab;", ";", "!", ".", ",", "(", ")", '"', "'", "[", "]", "![", "](", '](/u "t")', '[a]: /v "w"\n', "[a]", "[b][a]", "![a]", "<http://a.b>"]
MARKS += ["<a@b.c>", "* * *", "%", "%20", "{", "~", "|", ":", "/", "\0", "\x1b", "\x7f"]
# lines that random documents of tables are made of
LINES = ["| a | b |", "a | b", "|a|b|c|", "| - | - |", "-|-", "|:-|-:|", ":-: | -", ":-", "|-|", "| a |", "a", "x y", "", "  ", "# h", "---", "===", "***", "```", "<div>"]
LINES += ["<b> | c", "    | a |", "| `a \\| b` | c |", "| a \\| b | *c* |", "|", "||", "| |", "|*a|b*|", "[d]: /u", "[d] | e", "| é | ` |", "|\ta\t|\tb\t|", " | a | b |"]
LINES += ["  | - | - |", "1. x", "- x", "> q", "2. y | z", "- | a |", "> | - |", "  | - |"]
LINES += ["<script>", "</STYLE >", "x <scripty> | <title/>", "<!-- <xmp> -->", "x <!-- <xmp> -->", "<div><iframe", "</title/"]
# what random documents of each extension of GFM are made of
PIECES = {
    "strikethrough": ["~", "~", "~~", "~~", "~~~", "*", "**", "_", "a", "b", "c", " ", " ", "\n", ".", "(", ")", "`", "\\", "[", "](u)", "~~a~~", "~b~", "<b>", "é", "&amp;", "!"],
    "tasks": ["- ", "* ", "1. ", "+ ", "2) ", "[ ]", "[x]", "[X]", "[ ] ", "[x] ", " ", "  ", "\t", "a", "b", "\n", "\n", "\n", "\n\n", "> ", "    ", "# ", "---", "*c*", "[x](u)", "`"],
    "cells": ["|", "|", "|", " | ", "-", "-", ":", ":-", "-:", "---", " ", "  ", "a", "b", "c", "\n", "\n", "\n", "\n\n", "\n| - |\n", "\n|-|-|\n", "| a | b |\n| - | - |\n", "a\n:-\n",
              "\\|", "\\", "`", "*", "> ", "\n> ", "- ", "\n  ", "    ", "# ", "===", "<b>", "<div>", "1. ", "2. ", "[a]: /u\n", "[a]", "```\n", "\t"],
    "literals": ["www.", "http://", "https://", "ftp://", "a.b", "a.bc", "a", "b", "c", ".", ",", "?", "!", ":", "*", "_", "~", "(", ")", "/", "&", "&amp;", "&c;", ";", "<", ">", '"', "'",
                 " ", " ", "\n", "@", "a@b.c", "a.b-c_d@", "-", "+", "`", "[", "]", "](u)", "\\", "**", "mailto:", "W", "http", "://", "é", "#", "=", "%20"],
    "footnotes": ["[^a]", "[^b]", "[^a]", "[^a]: ", "\n[^b]: ", "\n\n[^a]: ", "[^a]:", "\n", "\n\n", "\n    ", "a", "b", "c", " ", "*", "> ", "- ", "[^", "]", "[a]", "](u)", "![^a]", "[^c d]",
                  "`", "\\", "[^A]", "[^b][^a]"],
}
# what most of them begin with
STARTS = {
    "tasks": [a + b for a in ("- ", "* ", "1. ", "  - ") for b in ("[ ] ", "[x] ", "[X]\t", "[x]")],
    "cells": ["| a |\n| - |\n", "a | b\n- | -\n", "c\n|a|b|\n|:-|-:|\n", "> | a |\n> | - |\n> ", "- | a |\n  | - |\n  ", "| a |\n|:-:|\n"],
    "footnotes": ["[^a]"],
}
NOTES = ["x", "y\nz", "\n    z", "- q"]
EXTENSIONS = ["-e", "table", "-e", "strikethrough", "-e", "autolink", "-e", "tasklist", "-e", "footnotes", "-e", "tagfilter"]
KINDS = {"wide": {}, "links": {"links": True}, "definitions": {"definitions": True}, "references": {"references": True}}

# causes that events have not, in front of those that they have
CAUSES = [
    random_documents.Cause("the escape byte is written as an entity", "open", "no words say how HTML is written; here it has no escape byte", rb"\x1b", lambda it: it.replace(b"\x1b", b"e")),
    random_documents.Cause("a NUL is beside a run of `*` or `_`", "here", "2.3: it stands for U+FFFD, which is punctuation in 0.31", rb"\0[*_]|[*_]\0", lambda it: it.replace(b"\0", b"0")),
    random_documents.Cause("an instruction ends with `??>`", "here", "6.6: it ends at the first `?>`", rb"\?{2,}>", lambda it: re.sub(rb"\?{2,}>", b"?>", it)),
    random_documents.Cause("a character reference is in an autolink", "cmark by 2.5", "2.5: they are recognized in any context besides code", rb"<[A-Za-z][\w+.-]+:[^\s<>]*&[^\s<>]*>",
                           lambda it: re.sub(rb"(?<=:)[^\s<>]*>", lambda rest: rest[0].replace(b"&", b"+"), it)),
    random_documents.Cause("a line of a code span that is lazy begins with white space", "here", "5.1, 6.1: it is as if its markers were there",
                           rb"`[^\0`]*\n[ \t]+[^`]*`", lambda it: re.sub(rb"\n[ \t]+", b"\n", it)),
]
# causes beside cmark-gfm; docs/DIFFERENCES.md has them
CHECK = rb"\[[ \txX]\]"
SIGN = rb"(?:www\.|://|@)"
FIRST = rb"(?m)^[ ]{0,3}(?:[-+*]|\d{1,9}[.)])[ \t]+"
GFM_CAUSES = [
    random_documents.Cause("what is beside a run is looked for past tildes", "here", "6.2: it is what comes before it, and what follows it", rb"[*_]~|~[*_]",
                           lambda it: re.sub(rb"(?<=[*_])(?=~)|(?<=~)(?=[*_])", b"z", it)),
    random_documents.Cause("the nearest tildes of another length hide others", "here", "6.5: a matching pair of one or two tildes", rb"(?<!~)~(?!~)[^\0]*~~|~~[^\0]*(?<!~)~(?!~)|\\~",
                           lambda it: re.sub(rb"~+", lambda run: b"~~" if len(run[0]) < 3 else run[0], it.replace(b"\\~", b"\\."))),
    random_documents.Cause("white space alone is behind a check", "here", "5.3: white space before any other content", CHECK + rb"[ \t]+(?:\n|\Z)",
                           lambda it: re.sub(rb"(" + CHECK + rb")[ \t]+(?=\n|\Z)", rb"\1 z", it)),
    random_documents.Cause("a later `[x]` in the line checks it", "here", "5.3: the letter x is between the brackets", rb"\[[ \t]\][^\n]*\[[xX]\]",
                           lambda it: re.sub(rb"(?<=\[[ \t]\])[^\n]*", lambda rest: re.sub(rb"\[([xX])\]", rb"{\1}", rest[0]), it)),
    random_documents.Cause("a check is behind two markers, or in a line of its own", "here", "5.3: the first block of an item is a paragraph that begins with it", CHECK,
                           lambda it: re.sub(rb"(?m)^(?P<first>" + FIRST[4:] + rb")?(?P<rest>[^\n]*)", others_checks, it)),
    random_documents.Cause("in a loose list the box of a task stands before the paragraph", "here", "5.3: the check is in the paragraph", CHECK + rb"[^\0]*\n[ \t>]*\n|\n[ \t>]*\n[^\0]*" + CHECK,
                           lambda it: re.sub(rb"\n(?:[ \t>]*\n)+", b"\n", it)),
    random_documents.Cause("what is behind a check would be a block", "here", "5.3: the first block of the item is a paragraph that begins with the check", CHECK + rb"[ \t]+\S",
                           lambda it: re.sub(rb"(" + CHECK + rb")[ \t]+(?=\S)", rb"\1 z", it)),
    random_documents.Cause("a paragraph with a check is underlined", "here", "5.3: then the first block is a heading", CHECK + rb"[^\0]*\n[ \t>]*(?:-+|=+)[ \t]*(?:\n|\Z)",
                           lambda it: re.sub(rb"(?m)^([ \t>]*)(?=[-=]+[ \t]*$)", rb"\1z", it)),
    random_documents.Cause("`mailto:` has no name behind it, or is a name", "here", "6.9: behind `mailto:` is an email address", rb"mailto:(?:@|[\w.+-]*:)",
                           lambda it: it.replace(b"mailto:", b"")),
    random_documents.Cause("a tag begins a lazy line", "here", "4.6: a tag of kind 7 does not interrupt a paragraph, lazy or not", rb"\n[ \t>]*</?[A-Za-z]",
                           lambda it: re.sub(rb"(?m)^([ \t>]*)(?=<)", rb"\1z", it)),
    random_documents.Cause("an email address goes on into a protocol", "here", "6.9: no words say which is first; the address begins first", rb"@[\w.-]*(?:https?|ftp)://", lambda it: it.replace(b"@", b"=")),
    random_documents.Cause("`www.` without a letter or digit behind it is a link", "here", "6.9: `www.` is followed by a valid domain", rb"www\.(?![0-9A-Za-z])",
                           lambda it: re.sub(rb"www\.(?![0-9A-Za-z])", b"wwz.", it)),
    random_documents.Cause("an escaped character is in an address", "here", "2.4: an escape is no character of an address", SIGN + rb"[^\0]*\\|\\[^\0]*@",
                           lambda it: it.replace(b"\\", b"=")),
    random_documents.Cause("a literal goes on over what became emphasis", "here", "no words say which is first", SIGN + rb"[^\0]*[*_~`]|[*_~`][^\0]*@", lambda it: re.sub(rb"[*_~`]", b"=", it)),
    random_documents.Cause("a literal goes on over what became a link", "here", "no words say which is first", SIGN + rb"[^\0]*\[[^\0]*\][\[(]", lambda it: it.replace(b"[", b"{")),
    random_documents.Cause("a literal is behind an open bracket", "here", "6.9: a bracket that is in no link is text", rb"\[[^\0]*" + SIGN, lambda it: it.replace(b"[", b"{")),
    random_documents.Cause("stars of one and of two close by turns", "here, as cmark 0.30", "6.2, rules 9 and 10", rb"\*[^*]+\*\*[^*]+\*\*", lambda it: it.replace(b"*", b"")),
    random_documents.Cause("a paragraph before a table has definitions", "here", "4.7: they are definitions", rb"\]:[^\0]*\n[ \t>]*[|:-]", lambda it: it.replace(b"]:", b"] ")),
    random_documents.Cause("two backslashes before a pipe in a cell are one", "here", "4.10: a pipe is escaped by one; 2.4: two in text are one", rb"\\\\+\|",
                           lambda it: re.sub(rb"\\+(?=\|)", rb"\\", it)),
    random_documents.Cause("brackets that are no call are written as they stand, or lose a line ending", "here", "what is in them is text", rb"\[\^[^\]]*[\\\n*_`&<\[]|\[\\\^",
                           lambda it: re.sub(rb"\[\^(?=[^\]]*[\\\n*_`&<\[])|\[\\\^", b"{+", it)),
    random_documents.Cause("white space in a label is left out", "here", "a label of a footnote has none, as in a definition", rb"\[\^\s*[^\]\s]+\s+\]|\[\^\s", lambda it: re.sub(rb"(?<=\[\^)[^\]]*", lambda label: re.sub(rb"\s", b"z", label[0]), it)),
    random_documents.Cause("`[^` in brackets is text", "here", "GitHub's footnotes have no specification; a call is one wherever text is", rb"\[[^\]]*\[\^",
                           lambda it: re.sub(rb"\[(?=[^\]]*\[\^)", b"{", it)),
    random_documents.Cause("the destination of a definition has a parenthesis that stays open", "here", "6.3: parentheses in it are balanced", rb"\]:\s*[^\s<]*\(", lambda it: it.replace(b"(", b"+")),
    random_documents.Cause("white space in a blank line ends a footnote", "here", "2.1: a line of white space is blank; an item goes on so", rb"\]:[^\0]*\n[ \t]+(?:\n|\Z)",
                           lambda it: re.sub(rb"(?m)^[ \t]+$", b"", it)),
    random_documents.Cause("in a link a call is one", "here", "6.3: no link is in a link", rb"\[\^[^\0]*\][\[(]", lambda it: it.replace(b"](", b"] (").replace(b"][", b"] [")),
    random_documents.Cause("a paragraph before a table has a backslash before a pipe in code", "here", "6.1: in code a backslash is itself", rb"`[^`]*\\\|",
                           lambda it: it.replace(b"`", b"")),
]


def others_checks(line):
    """A line in which brackets are no checks but behind its first marker."""
    first, rest = line["first"] or b"", line["rest"]
    check = re.match(CHECK, rest)[0] if first and re.match(CHECK, rest) else b""
    return first + check + re.sub(rb"\[([ \txX])\]", rb"{\1}", rest[len(check) :])

def written(program, document, words=()):
    """The HTML that the program writes for a document, with these words, or a line that says why there is none."""
    ran = subprocess.run([program, "--unsafe", *words], input=document, capture_output=True, check=False)
    return ran.stdout.decode("utf-8", "replace") if ran.returncode == 0 else f"(status {ran.returncode}: {ran.stderr.decode('utf-8', 'replace').strip()})\n"


def without_ids(html):
    """HTML without what is always otherwise (docs/DIFFERENCES.md): in footnotes their ids, the addresses of these and empty values of attributes; how much white space is behind a box."""
    html = re.sub(r' (id|href)="#?(user-content-)?fn(ref)?-[^"]*"', "", html)
    html = re.sub(r'(<input type="checkbox"[^>]*/>)\s+', r"\1 ", html)
    return re.sub(r' (data-footnotes|data-footnote-ref|data-footnote-backref)(="")?', r" \1", html)


class Beside(random_documents.Beside):
    """The program that writes HTML beside cmark."""

    causes = CAUSES + random_documents.CAUSES

    def both(self, document):
        """The HTML of both."""
        return written(self.program, document), real_files.by_cmark(self.cmark, document, "html")


class BesideGfm(Beside):
    """The same with GFM."""

    causes = GFM_CAUSES + CAUSES + random_documents.CAUSES

    def both(self, document):
        """The HTML of both."""
        made = subprocess.run([self.cmark, "--unsafe", *EXTENSIONS], input=document, capture_output=True, check=True).stdout
        return without_ids(written(self.program, document, ["--gfm"])), without_ids(made.decode("utf-8", "replace"))


def of_extension(generator, pieces, kind):
    """A random document of an extension: of few pieces more often than of many."""
    made = "".join(generator.choice(PIECES[kind]) for _ in range(generator.randint(2, generator.choice((6, 10, 16, pieces)))))
    if kind in STARTS and generator.random() < 0.6:
        made = generator.choice(STARTS[kind]) + made
    if kind == "footnotes" and generator.random() < 0.7:
        made += f"\n\n[^a]: {generator.choice(NOTES)}\n"
    return made.encode()


def tables(generator, pieces):
    """A random document of lines of tables and of other blocks."""
    return "".join(generator.choice(LINES) + generator.choice(["\n", "\n", "\n", "\r\n"]) for _ in range(generator.randint(1, pieces))).encode()


def marks(generator, pieces):
    """A random document of marks."""
    return "".join(generator.choice(MARKS) for _ in range(generator.randint(1, pieces))).encode()


def random_ones(kind, words):
    """Random documents of a kind."""
    generator = random.Random(words.seed)
    if kind in PIECES:
        return [of_extension(generator, words.pieces, kind) for _ in range(words.random)]
    if kind in ("marks", "tables"):
        return [(marks if kind == "marks" else tables)(generator, words.pieces) for _ in range(words.random)]
    return [random_documents.one(generator, words.pieces, True, **KINDS[kind]) for _ in range(words.random)]


def compared(task):
    """Whether a document is the same, and the causes by which it differs."""
    beside, document = task
    return random_documents.reading((beside, document))


def examples_failing(words):
    """Compares the examples. Returns whether one differs that should not."""
    with open(words.spec, encoding="utf-8") as file:
        examples = json.load(file)
    wrong = set()
    for example in examples:
        made = written(words.program, example["markdown"].encode())
        if made != example["html"]:
            wrong.add(example["example"])
            if words.differing:
                print(f"example {example['example']}: {real_files.first_difference(made, example['html'])}")
    print(f"examples: {len(examples) - len(wrong)} of {len(examples)} are the same")
    return not wrong <= COMMENTS


def documents_failing(name, named, words):
    """Compares documents, each with a name. Returns whether one differs by a cause without a name."""
    beside, why, same, size = (BesideGfm if words.gfm else Beside)(words.program, "document", words.cmark), collections.Counter(), 0, 0
    with multiprocessing.Pool(words.jobs) as pool:
        answers = pool.imap(compared, ((beside, document) for _, document in named), chunksize=20)
        for (title, document), (is_same, causes) in zip(named, answers):
            same, size = same + is_same, size + len(document)
            why.update({cause for cause, _ in causes})
            if causes and (words.differing or causes[-1][0] is None):
                print(f"{title}: {real_files.first_difference(*beside.both(document))}")
                print("".join(f"  {cause or 'NO NAME'}: {smallest!r}\n" for cause, smallest in causes), end="", flush=True)
    print(f"{name}: {same} of {len(named)} are the same, byte for byte; {size:,} bytes")
    for cause, times in why.most_common():
        print(f"{times:6} differ: {cause or 'NO NAME'}")
    return bool(why[None])


def main():
    parser = usage.Words(__doc__)
    parser.add_argument("program")
    parser.add_argument("--spec")
    parser.add_argument("--real")
    parser.add_argument("--random", type=int, default=0)
    parser.add_argument("--kind")
    parser.add_argument("--seed", type=int, default=1)
    parser.add_argument("--pieces", type=int, default=24)
    parser.add_argument("--cmark")
    parser.add_argument("--gfm", action="store_true")
    parser.add_argument("--differing", action="store_true")
    parser.add_argument("--jobs", type=int, default=1)
    words = parser.parse_args()
    if not (words.spec or words.real or words.random):
        parser.error("--spec, --real or --random is needed")
    words.cmark = words.cmark or ("cmark-gfm" if words.gfm else "cmark")
    failed = []
    if words.spec:
        failed.append(examples_failing(words))
    if words.real:
        files = real_files.files_in(words.real)
        named = []
        for path in files:
            with open(path, "rb") as it:
                named.append((os.path.relpath(path, words.real), it.read()))
        failed.append(documents_failing("real files", named, words))
    kinds = [*PIECES, "tables"] if words.gfm else [*KINDS, "marks"]
    if words.kind not in (None, *kinds):
        parser.error(f"--kind is one of {', '.join(kinds)}")
    for kind in ([words.kind] if words.kind else kinds) if words.random else []:
        failed.append(documents_failing(f"random documents, {kind}", [(repr(it), it) for it in random_ones(kind, words)], words))
    sys.exit(any(failed))


if __name__ == "__main__":
    main()
