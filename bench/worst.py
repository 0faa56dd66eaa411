"""Reads texts that make a parser of inline text look far ahead, or back, again and again: delimiter runs that fit badly, brackets, code and
HTML that are never closed, labels, definitions, character references, spaces. Each is read by `document` at three lengths, each twice the
one before. It prints a row for each text: processor seconds at each length (the least of three runs), and how many times as long the
longest took as the middle one: some 2 if the time is linear, some 4 if it is a square. A text whose reading takes longer than 20 seconds is
read no further.

With --count the rows have instructions (callgrind's counts, the same in each run, less those of a run over nothing), for texts of a
twentieth of those lengths. With --quoted each text is the paragraph of a quote in an item, in lines of 60 bytes.

With --gfm the program is mdhtml, which reads texts that are bad for tables, strikethrough, tasks, autolink literals or footnotes; cmark-gfm has all its
extensions on.

usage: worst.py [--count] [--quoted] [--only NAME] MDEVENTS [CMARK]. CMARK is a program that makes HTML of standard input, timed beside it.
       worst.py --gfm [--count] [--only NAME] MDHTML [CMARK-GFM]
Texts that are bad for containers are in tools/bad_texts.py.
"""

import os
import re
import resource
import subprocess
import sys
import tempfile

LENGTHS = (100_000, 200_000, 400_000)
LINE = 60
LONGEST = 20


def growing(mark, between):
    """Runs of a mark, each longer by one than the one before, none of them cut off: it would be as long as an earlier one."""

    def made(size):
        parts, length = [], 0
        while length < size:
            parts.append(between + mark * (len(parts) + 1))
            length += len(parts[-1])
        return "".join(parts)

    return made


def again(unit, first="a "):
    """A text that begins so, and then repeats a unit. It begins with a word, as `<!--` would begin HTML and `***` a break."""
    return lambda size: (first + unit * (size // len(unit) + 1))[:size]


def quoted(text):
    """The lines of a text behind the prefixes of a quote in an item, each begun with a letter, as a marker would begin a block."""
    parts = [line[at : at + LINE] for line in text.split("\n") for at in range(0, len(line), LINE)]
    return "".join(f"{'  ' if number else '- '}> a{part}\n" for number, part in enumerate(parts))


def defined(size, behind=lambda number: ""):
    """Definitions, each of another label, and what stands behind them all."""
    count = size // (10 + len(behind(10_000)))
    return "".join(f"[{10_000 + number}]: b\n" for number in range(count)) + "\na " + "".join(behind(10_000 + number) for number in range(count))


TABLES = {
    "rows": again("|c|d|\n", "|a|b|\n|-|-|\n"),
    "tables": again("|a|\n|-|\n\n", ""),
    "tables and headings": again("|a|\n|-|\n# b\n", ""),
    "delimiter rows of another width": again("|-|-|\n", "|a|\n"),
    "a definition that may go on, and delimiter rows": again(":-|:-\n:-\n", '[a]: /u "t\n'),
    "definitions, and delimiter rows": again("[a]:\n/u\n:-\n", ""),
    "definitions before a table": lambda size: "[a]: /u\n" * (size // 8) + "b\n:-\n",
    "a row of empty cells": lambda size: "|" * (size // 4) + "\n" + "|-" * (size // 4) + "|\n" + "|" * (size // 4),
    "rows that lack cells": again("a\n", "|a" * 100 + "|\n" + "|-" * 100 + "|\n"),
    "brackets in a cell": again("[", "|a|\n|-|\n|"),
    "labels that are defined behind all tables": lambda size: "|[a]|\n|-|\n\n" * (size // 11) + "[a]: /u\n",
    "a definition for each table": lambda size: "".join(f"[{10_000 + n}]: /u\n\n|[{10_000 + n}]|\n|-|\n\n" for n in range(size // 27)),
}

TILDES = {
    "openers of tildes, none closed": again("~a ~~b "),
    "closers of tildes without openers": again("a~ b~~ "),
    "tildes of another size": again("~~a b~ "),
    "tildes of all sizes": growing("~", "a "),
    "tildes and stars that cross": again("~~a *b~~ c* "),
}

TASKS = {
    "items with checks": again("- [x] a\n", ""),
    "checks in vain": again("- [ ]\n", ""),
    "checks behind much white space": again("- [ ]" + " " * 60 + "\n", ""),
    "checks in lists in lists": again("- [x] " * 8 + "a\n", ""),
    "an item of many lines with brackets": again("  [x] a\n", "- [x] a\n"),
    "checks that are links": lambda size: "[x]: /u\n\n" + "- [x] a\n" * (size // 8),
    "definitions before a check": lambda size: "- [a]: /u\n" + "  [a]: /u\n" * (size // 10) + "  [x] a\n",
}

LITERALS = {
    "domains with underscores": again("_www._www.", ""),
    "one domain that underscores spoil": lambda size: "www." + "a." * (size // 2) + "a_b.c",
    "domains behind underscores, spoilt at the end": lambda size: "_www.a" * (size // 6) + "_.a",
    "protocols": again("http://", ""),
    "protocols and domains with underscores": again("http://a_b.c", ""),
    "protocols that are spoilt at the end": lambda size: "http://a." * (size // 9) + "a_b.c",
    "literals beside literals": again("www.a.b "),
    "literals of one run": again("www.a.b", ""),
    "opening parentheses": again("(", "www.a.b/"),
    "closing parentheses": again(")", "www.a.b/"),
    "parentheses both ways, in a literal each": again("www.a.b/(()) "),
    "closing parentheses, in one run": again("www.a.b))))", ""),
    "punctuation behind a literal": again("?!.,:*_~'\"", "www.a.b/"),
    "periods behind a literal": again(".", "www.a.b/"),
    "references behind a literal": again("&a;", "www.a.b/"),
    "semicolons behind a literal": again("a;", "www.a.b/"),
    "a long name of a reference": lambda size: "www.a.b/&" + "a" * size + ";",
    "long names of references": again("www.a.b/" + "a" * 50 + ";;; "),
    "addresses in addresses": again("a@", ""),
    "addresses that end with a hyphen": again("a@b-", ""),
    "addresses that end with a digit": again("a@b.1 ", ""),
    "one long address in vain": lambda size: "a" * (size // 2) + "@" + "b." * (size // 4) + "1",
    "one local part": again("a.", ""),
    "addresses behind plus signs": again("+a@b.c", ""),
    "schemes of addresses": again("mailto:", ""),
    "schemes of addresses, and addresses in vain": again("mailto:xmpp:a@b-", ""),
    "schemes behind hyphens": again("-mailto:a_", ""),
    "addresses in literals": again("www.a@b.c", ""),
    "letters of the signs": again("wwhttp:/", ""),
    "escapes and addresses": again("\\.a@b_", ""),
    "literals in brackets": again("[www.a.b"),
    "literals in links": again("[www.a.b](c)"),
    "literals in emphasis": again("*www.a.b* "),
    "literals and references": again("www.a.b&amp;a@b.c&amp;", ""),
    "a literal in each line": again("www.a.b\n", ""),
}

NOTES = {
    "calls that do not end": again("[^a", "[^a]: b\n\n"),
    "calls": again("[^a]", "[^a]: b\n\n"),
    "calls of nothing": again("[^b]", "[^a]: b\n\n"),
    "calls in brackets": lambda size: "[^a]: b\n\n" + "[" * (size // 6) + "[^a]" + "]" * (size // 6),
    "escaped brackets in a call": again("\\[", "[^a]: b\n\n[^"),
    "a long label in vain": again("a", "[^a]: b\n\n[^"),
    "long labels": again(f"[^{'x' * 997}]", "[^a]: b\n\n"),
    "definitions of footnotes": lambda size: "".join(f"[^{10_000 + number}]: b\n\n" for number in range(size // 13)),
    "definitions of footnotes, and a call of each": lambda size: "".join(f"[^{10_000 + number}]: b\n\n" for number in range(size // 21)) + "".join(f"[^{10_000 + number}]" for number in range(size // 21)),
    "definitions in definitions": again("[^a]: ", ""),
    "one definition, again and again": again("[^a]: b\n\n", ""),
    "a definition of many lines": again("    b\n", "[^a]: b\n"),
    "a note that calls itself": again("[^a]", "[^a]: b"),
}

GFM = {**TABLES, **TILDES, **TASKS, **LITERALS, **NOTES}

TEXTS = {
    "openers, none closed": again("*a _b "),
    "strong openers, none closed": again("a **b"),
    "closers without openers": again("a* b_ "),
    "one opener, closers by the rule of three": again("c* ", "a**b "),
    "openers of each kind before closers": lambda size: again("*a **b _c __d ***e ")(size // 2) + again("x* y_ ")(size // 2),
    "closers of all kinds, each in vain": again("*a _b__ c***d x__ y* "),
    "both ways, between letters": again("a*b**c***"),
    "both ways, between punctuation": again(".*._.**.__"),
    "one run": again("*"),
    "alternating marks": again("*_"),
    "nested and closed": lambda size: "a " + "*a " * (size // 6) + " b*" * (size // 6),
    "pairs beside pairs": again("*a* _b_ "),
    "strings of backticks, no two alike": growing("`", "e"),
    "one backtick, then two": again("a``", "`"),
    "comments that do not end": again("<!--"),
    "instructions that do not end": again("<?"),
    "declarations that do not end": again("<!A "),
    "CDATA that does not end": again("<![CDATA["),
    "values of attributes that do not end": again("<a b='x"),
    "values, of either quotes": again("<a b='x c=\"y "),
    "tags that do not end": again("<a b "),
    "autolinks that do not end": again("<ab:c"),
    "emails that do not end": again("<a@b.c-"),
    "references": again("&amp;"),
    "references that do not end": again("&am"),
    "escapes": again("\\*"),
    "spaces within lines": again("a      "),
    "spaces before line endings": again("a     \nb"),
    "left angles": again("<"),
    "opening brackets": again("["),
    "opening brackets of images": again("!["),
    "closing brackets": again("]"),
    "brackets in brackets": lambda size: "a " + "[" * (size // 2) + "]" * (size // 2),
    "links in brackets": lambda size: "a " + "[" * (size // 5) + "](b)" * (size // 5),
    "links beside links": again("[a](b)"),
    "images in images": lambda size: "a " + "![" * (size // 6) + "](b)" * (size // 6),
    "destinations that do not end": again("[a](b"),
    "destinations in angles that do not end": again("[a](<b"),
    "parentheses that do not end": again("[a](("),
    "titles that do not end": again("[a](b \"c"),
    "labels that do not end": again("[a][b"),
    "labels without definitions": again("[a][b]"),
    "long labels without definitions": again(f"[{'x' * 997}][]"),
    "references to one definition": again("[r][] ", "[r]: b\n\na "),
    "definitions": defined,
    "definitions, and a reference to each": lambda size: defined(size, lambda number: f"[{number}]"),
    "definitions whose titles do not end": again("[a]: b (c\n", ""),
}


def run(command, document):
    """The processor seconds that a run takes, or None if it takes too long."""
    took = []
    for _ in range(3):
        with open(document) as text:
            started = subprocess.Popen(command, stdin=text, stdout=subprocess.DEVNULL, preexec_fn=limit)
            _, status, used = os.wait4(started.pid, 0)
        started.returncode = os.waitstatus_to_exitcode(status)
        if started.returncode < 0:
            return None
        if started.returncode > 0:
            raise subprocess.CalledProcessError(started.returncode, command)
        took.append(used.ru_utime + used.ru_stime)
        if took[0] > 2:
            break
    return min(took)


def limit():
    """Ends a run that takes too long."""
    resource.setrlimit(resource.RLIMIT_CPU, (LONGEST, LONGEST))


def count(command, document):
    """The instructions of a run."""
    with tempfile.TemporaryDirectory() as scratch, open(document) as text:
        tool = ["valgrind", "--tool=callgrind", f"--callgrind-out-file={scratch}/counts", *command]
        done = subprocess.run(tool, stdin=text, stdout=subprocess.DEVNULL, stderr=subprocess.PIPE, text=True, check=True)
    return int(re.search(r"Collected : (\d+)", done.stderr).group(1))


def row(name, text, commands, counted, document):
    """Prints the row of a text."""
    cells = []
    for command in commands:
        took, none = [], 0
        if counted:
            open(document, "w").close()
            none = count(command, document)
        for length in LENGTHS:
            with open(document, "w") as written:
                written.write(text(length // 20 if counted else length))
            one = count(command, document) - none if counted else run(command, document)
            if one is None:
                break
            took.append(one)
        shown = [f"{one:,}" if counted else f"{one:.3f}" for one in took]
        cells += shown + [f"over {LONGEST}"] * (len(LENGTHS) - len(shown))
        cells.append(f"{took[2] / took[1]:.1f}" if len(took) == 3 else "")
    print(f"| {name} | {' | '.join(cells)} |", flush=True)


def wrong():
    print("usage: " + __doc__.partition("usage: ")[2].strip(), file=sys.stderr)
    return 2


def main(words):
    counted, in_quote, of_gfm = "--count" in words, "--quoted" in words, "--gfm" in words
    words = [word for word in words if word not in ("--count", "--quoted", "--gfm")]
    only = ""
    if "--only" in words:
        at = words.index("--only")
        only = words[at + 1] if at + 1 < len(words) else sys.exit(wrong())
        del words[at : at + 2]
    if not words or any(word.startswith("-") for word in words):
        sys.exit(wrong())
    if not os.path.isfile(words[0]):
        sys.exit(f"bench: {words[0]} is not there")
    commands = [[words[0], "--machine", "document", "--deep"], *[[other] for other in words[1:]]]
    if of_gfm:
        commands = [[words[0], "--gfm"], *[[other, "-e", "table", "-e", "strikethrough", "-e", "tasklist", "-e", "autolink", "-e", "footnotes"] for other in words[1:]]]
    lengths = [f"{length // 20 if counted else length:,}" for length in LENGTHS]
    heads = lengths + ["Times as much"]
    print(f"| Text | {' | '.join(heads * len(commands))} |")
    print("|" + "---|" * (1 + len(heads) * len(commands)))
    with tempfile.TemporaryDirectory() as scratch:
        document = os.path.join(scratch, "document")
        for name, text in (GFM if of_gfm else TEXTS).items():
            if only in name:
                made = (lambda size, text=text: quoted(text(size))) if in_quote else text
                row(name, made, commands, counted, document)


if __name__ == "__main__":
    if sys.argv[1:] == ["--help"]:
        print(__doc__.strip())
        sys.exit()
    main(sys.argv[1:])
