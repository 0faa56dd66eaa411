#!/usr/bin/env python3
"""Compares, for random documents, the HTML that tools/commonmark.py makes of printed events with that of cmark, byte for byte. The
documents are made of pieces that are hard beside one another: markers, indentation, tabs, blank lines, lazy lines, underlines, fences, HTML.

Each difference is explained by name. A document that differs is made smaller, by lines and then by characters, while it differs. The smallest
one tells the cause: one of CAUSES whose shape it has, and that is the only one, as nothing differs if it is taken out. The cause is then
taken out of the whole document, and if that still differs, the next one is sought. So a document may count in more than one row.

It prints a row for each cause: how many documents, the smallest one, who is right, and by which words. The status is 1 if a difference has
no name; its document is shown.

usage: tools/random_documents.py PROGRAM COUNT [--seed S] [--machine NAME] [--cmark CMARK] [--show K] [--pieces N] [--wide] [--links] [--definitions] [--references] [--jobs J]
  PROGRAM         mdevents, or what prints events as it does
  COUNT           how many documents
  --seed S        the seed of the first one; without it, 1
  --machine NAME  the machine that reads them; without it, document
  --cmark CMARK   cmark's program; without it, the one on the path. Debian's package cmark has it
  --show K        the first K that differ, each with its causes; without it, none
  --pieces N      at most N pieces in a document; without it, 24
  --wide          more kinds of pieces: each kind of HTML, wide and long markers, CR LF, inline text
  --links         brackets, and what stands behind them; no escapes and character references
  --definitions   link reference definitions and parts of them, each with a label of its own, which nothing refers to
  --references    definitions of a few labels, and what refers to these: full, collapsed and shortcut references, of links and of images
  --jobs J        so many documents at once; without it, 1
"""

import collections
import itertools
import multiprocessing
import os
import random
import re
import sys

sys.path.insert(0, os.path.dirname(os.path.realpath(__file__)))
sys.dont_write_bytecode = True
import real_files  # noqa: E402
import usage  # noqa: E402

CONTAINERS = ["> ", ">", "- ", "* ", "+ ", "1. ", "2) ", "10. ", "-\n", "  ", "   ", "\t", "\n> ", "\n- ", "\n  ", "\n\t", "\n\n", "\n\n  ", "\n\n    "]
LINES = ["a", "b c", "\n", "\n", "\n===", "\n---", "\n    ", "# ", "```\n", "~~~", "<div>", "<!--", "-->", "***", "`", "*x*", "\\", "&amp;"]
# what --wide adds
CONTAINERS_TOO = [">  ", ">\t", "-   ", "-     ", "-\t", "+\n", "0. ", "1.\t", "3.\n", "999999999. ", "1234567890. ", "      ", "\n\n   "]
LINES_TOO = ["é", "\n", "\r\n", "= =", "#\t", "## a #", "* * *", "- - -", "___\n", "```` \n", "~~~ a b", "``` a", "``", "` `", "_x_", "**", "__"]
LINES_TOO += ["*a **b*", "\\*", "\\\n", "a  \n", "&#65;", "&nope;", "<a>", "</b>\n", "<b c='", "d'>", "<e@f.g>", "<pre>", "</pre>", "<script>"]
LINES_TOO += ["</script>", "<!-- a -->", "<?", "?>", "<!A ", "<![CDATA[", "]]>"]
# what --links adds, in place of backslashes and character references
LINKS = ["[", "]", "](", ")", "![", "[a](b)", "![a](b)", "](b \"c", "\")", "](<", ">)", "[a *b](c)", "*", "(", "](b\n\"c\")"]
# what --definitions adds; `@` is another label each time
DEFINITIONS = ["[@]: /b", "\n[@]: /b\n", "[@]: <b c> 'd'", "[@]:", "[@", "\n[@]: b \"c\nd\"\n", "]:", "\n/b", " 'c'\n", "\n\"c\"\n", "(c", ")", " x\n"]
# what --references adds: `r` and `r s` are defined in some documents, `u` is in none
REFERENCES = ["[r]", "[R]", "[x][r]", "[r][]", "![r]", "![x][R]", "[r s]", "[R\ns]", "[x][R  s]", "[x][u]", "[r][u]", "[u][r]", "[u]", "[r][ ]", "[ ]"]
REFERENCES += ["[", "]", "][r]", "][]", "![", "[r][", "[x *y][r]", "*", "[r](b)", "[r](", "\\[", "\\]", "`", "[`r`]", "[[r]]", "[x [r]][r]", "[r]b"]
REFERENCES += ["[r]: /b", "\n[r]: /b 'c'\n", "\n[R s]: <d>\n", "\n\n[r]: <d> \"e\nf\"\n", "\n[r\ns]: /g\n", "\n\n> [r]: /h\n", "[R]: i\n", "[u"]

MARKER = rb"(?:[-+*]|\d{1,9}[.)])"
# what begins HTML that a blank line does not end
HTML = rb"<(?:!--|\?|!(?=[A-Za-z])|!\[CDATA\[|(?i:pre|script|style|textarea)(?=[\s>]))"
OPEN = rb"(?:```|~~~|" + HTML + rb")"
BREAK = rb"(?m)(?:(?:\*[ \t]*){3,}|(?:-[ \t]*){3,}|(?:_[ \t]*){3,})(?=\n[ \t>]*$)"
# a comment by 0.31 that is none by 0.30
COMMENT = rb"<!--(?=-?>|(?:(?!-->)[^\0])*?--(?:[^>]|->))"
INFO = rb"((?:```|~~~)[^\n]*\\)(?=&)"
DECLARATION = rb"<!(?=[a-z])"
# a declaration whose name has no white space behind it
NAMED = rb"<!(?=[A-Z]+[^A-Z\s])"
# a destination between `<` and `>`, with white space at an end
POINTED = rb"<[ \t]*([^\n<>]*?)[ \t]*>"
# a line that may begin with a title, and a run of backticks that is longer than one and begins no fence
TITLE = rb"(?m)^([ \t>]*)(?=[\"'(])"
RUN = rb"(?<!`)``(?!`)|(?<=[^\s>`])`{3,}|(?<=[^\s>`] )`{3,}|`{3,}(?=[^\n`]+`)"


def put(by, found):
    """What puts something in place of what is found."""
    return lambda document: re.sub(found, by, document)


# Why a document may differ. `shape` is found in a smallest document, and `mended` makes of any one a document without the cause. `words`
# say by CommonMark 0.30, where no other is named, who is right: the events here, or cmark.
Cause = collections.namedtuple("Cause", "name right words shape mended")
CAUSES = [
    Cause("an item begins with two blank lines, the second of white space", "here",
          "5.2: at most one blank line is at an item's beginning; 2.1: a line of white space is blank",
          MARKER + rb"[ \t]*\n[ \t>]*[ \t]\n", put(rb"\1", rb"(?m)^([ \t>]*?)[ \t]+$")),
    Cause("a comment in a text has `--` in it, or is `<!-->` or `<!--->`", "here by 0.31, cmark by 0.30", "6.6, which 0.31 changes",
          rb"(?:[^\s>]|\\>)\s*" + COMMENT, put(rb"<! ", COMMENT)),
    Cause("an open fence, or open HTML, ends with a last line that has no ending, and a prefix alone", "open",
          "2.1: the end of the file may end a line, also one of no bytes; but no such line is in the examples of 4.5",
          OPEN + rb"[^\0]*\n[ \t>]+\Z", put(rb"\n", rb"(?<!\n)\Z")),
    Cause("a tab is in part of a prefix, and in part a fence's indentation", "here", "2.2: where spaces help to define blocks, a tab is as if it were spaces",
          rb"\t(?:```|~~~)", lambda document: document.expandtabs(4)),
    Cause("a tab and two spaces are before a line ending", "cmark", "6.7: a line ending behind two spaces is a hard break",
          rb"\t {2,}\n", put(rb"", rb"[ \t]*\t(?= {2,}\n)")),
    Cause("a blank line is behind a thematic break in an item", "here", "5.3: a list is loose if an item has a blank line between two blocks",
          BREAK, put(rb"#", BREAK)),
    Cause("HTML that ends with its item has a blank line at its end", "open",
          "4.6: HTML goes on to the end of its container; 5.3: blank lines between items make a list loose; no words say which of the two it is",
          HTML + rb"[^\n]*\n[ \t>]*\n", put(rb"< ", HTML)),
    Cause("a lazy line begins with white space", "here",
          "5.1, 5.2: a lazy line is as if its markers were there; 4.8: white space before a line of a paragraph is left out",
          rb"\n[ \t>]*[ \t]\S", put(rb"\1", rb"(?<=\n)((?: {0,3}>)*)[ \t]+(?=\S)")),
    Cause("an escaped `&` begins what would be a reference, in an info string", "here", "2.4: what is escaped has not its meaning for Markdown",
          INFO, put(rb"\1 ", INFO)),
    Cause("white space alone is between brackets behind a reference by its own label", "here", "6.3: a label has a character that is no white space",
          rb"\]\[[ \t\n]+\]", put(rb"] [ ]", rb"\]\[[ \t\n]+\]")),
    Cause("more is behind what would be the title of a definition, in a line of its own", "here", "4.7: then it is no title",
          rb"\]:\s*\S+[ \t]*\n[ \t>]*(?:\"[^\0]*\"|'[^\0]*'|\([^\0]*\))[ \t]*\S", put(rb"\1a", TITLE)),
    Cause("a destination between `<` and `>` has white space at an end", "here", "6.3: all that is between them is the destination",
          rb"<(?:[ \t][^\n<>]*|[^\n<>]*[ \t])>", put(rb"<\1>", POINTED)),
    Cause("two code spans are behind backticks that nothing closes", "here", "6.1: a backtick string of equal length ends a code span",
          rb"`[^\0]*`[^`]+`[^\0]*`", put(rb"~", RUN)),
    Cause("CDATA ends with three brackets or more", "here", "6.6: it ends at the first `]]>`", rb"<!\[CDATA\[[^\0]*\]{3,}>", put(rb"]]>", rb"\]{3,}>")),
    Cause("a declaration has no white space behind its name", "here", "6.6: behind `<!` and an ASCII letter is anything but `>`", NAMED, put(rb"<! ", NAMED)),
    Cause("a declaration begins with a small letter", "here", "4.6: `<!` and an ASCII letter", DECLARATION, put(rb"<! ", DECLARATION)),
]


def with_line_feeds(text):
    """A text whose line endings are each one LF."""
    return text.replace("\r\n", "\n").replace("\r", "\n")


def labelled(made):
    """Pieces in which each `@` is another label."""
    numbers = itertools.count()
    return [re.sub("@", lambda _: f"l{next(numbers)}", it) for it in made]


def one(generator, pieces, wide, links=False, definitions=False, references=False):
    """A random document."""
    containers, lines = (CONTAINERS + CONTAINERS_TOO, LINES + LINES_TOO) if wide else (CONTAINERS, LINES)
    if links:
        lines = [it for it in lines if "\\" not in it and "&" not in it] + LINKS
    if definitions:
        lines = lines + DEFINITIONS + DEFINITIONS
    if references:
        lines = lines + REFERENCES + REFERENCES
    made = [generator.choice(generator.choice((containers, containers, lines))) for _ in range(generator.randint(1, pieces))]
    return "".join(labelled(made)).encode()


class Beside:
    """The program beside cmark."""

    def __init__(self, program, machine, cmark):
        self.program, self.machine, self.cmark, self.known = program, machine, cmark, {}

    def both(self, document):
        """The HTML of both."""
        return real_files.ours(document, self.program, self.machine), real_files.by_cmark(self.cmark, document, "html")

    def differ(self, document):
        """Whether it is read otherwise."""
        if document not in self.known:
            made, wanted = self.both(document)
            self.known[document] = made != wanted
        return self.known[document]

    def smallest(self, document, others):
        """A document of which no line and no character can go, so that it still differs, and not by the other causes alone."""
        before = None
        while before != document:
            before = document
            for split in (lambda it: it.splitlines(True), lambda it: [one.encode() for one in it.decode()]):
                document = self.shorter(split(document), others)
        return document

    def shorter(self, parts, others):
        """A document without parts that can go: halves first, then quarters, and so on."""
        size = len(parts)
        while size > 0:
            at = 0
            while at < len(parts):
                rest = parts[:at] + parts[at + size :]
                shorter = b"".join(rest)
                if self.differ(shorter) and all(self.differ(it.mended(shorter)) for it in others):
                    parts = rest
                else:
                    at += size
            size //= 2
        return b"".join(parts)

    causes = CAUSES

    def cause(self, smallest, others):
        """The cause of a smallest document, if it has a name: nothing differs without it and the others."""
        rest = smallest
        for it in others:
            rest = it.mended(rest)
        fit = (it for it in self.causes if it not in others and re.search(it.shape, smallest) and not self.differ(it.mended(rest)))
        return next(fit, None)

    def explained(self, document):
        """The causes by which a document differs, each with a smallest document. If one has no name, it is the last one, and None."""
        causes, others = [], []
        plain = with_line_feeds(document.decode()).encode()
        if [with_line_feeds(it) for it in self.both(document)] != [with_line_feeds(it) for it in self.both(plain)]:
            return [(None, document)]
        document = plain
        while self.differ(document):
            smallest = self.smallest(document, others)
            cause = self.cause(smallest, others)
            if cause is None:
                return [*causes, (None, smallest)]
            rest = cause.mended(document)
            if rest == document:
                others.append(cause)  # it came in as bytes went
            else:
                causes.append((cause.name, smallest))
                document = rest
        return causes


def reading(task):
    """Whether a document is the same, and the causes by which it differs."""
    beside, document = task
    made, wanted = beside.both(document)
    return made == wanted, [] if made == wanted else beside.explained(document)


def show(beside, document, causes):
    """Prints a document that differs, with its causes."""
    print(repr(document))
    for name, smallest in causes:
        print(f"  {name or 'NO NAME'}: {smallest!r}: {real_files.first_difference(*beside.both(smallest))}", flush=True)


def main():
    parser = usage.Words(__doc__)
    parser.add_argument("program")
    parser.add_argument("count", type=int)
    parser.add_argument("--seed", type=int, default=1)
    parser.add_argument("--machine", default="document")
    parser.add_argument("--cmark", default="cmark")
    parser.add_argument("--show", type=int, default=0)
    parser.add_argument("--pieces", type=int, default=24)
    parser.add_argument("--wide", action="store_true")
    parser.add_argument("--links", action="store_true")
    parser.add_argument("--definitions", action="store_true")
    parser.add_argument("--references", action="store_true")
    parser.add_argument("--jobs", type=int, default=1)
    words = parser.parse_args()
    generator = random.Random(words.seed)
    documents = [one(generator, words.pieces, words.wide, words.links, words.definitions, words.references) for _ in range(words.count)]
    beside = Beside(words.program, words.machine, words.cmark)
    same = differ = 0
    times, least = collections.Counter(), {}
    with multiprocessing.Pool(words.jobs) as pool:
        readings = pool.imap(reading, ((beside, it) for it in documents), chunksize=50)
        for document, (is_same, causes) in zip(documents, readings):
            same, differ = same + is_same, differ + bool(causes)
            if causes and (differ <= words.show or causes[-1][0] is None):
                show(beside, document, causes)
            times.update({name for name, _ in causes})
            for name, smallest in causes:
                least[name] = min(least.get(name, smallest), smallest, key=lambda it: (len(it), it))
    print("| Documents | Cause | Smallest | Right | By |")
    print("|---|---|---|---|---|")
    for cause in CAUSES:
        if times[cause.name]:
            print(f"| {times[cause.name]} | {cause.name} | {least[cause.name]!r} | {cause.right} | {cause.words} |")
    print(f"{same} of {words.count} are the same, {differ} differ, {times[None]} by a cause without a name; seed {words.seed}")
    sys.exit(times[None] > 0)


if __name__ == "__main__":
    main()
