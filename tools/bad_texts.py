#!/usr/bin/env python3
"""Reads texts whose containers are bad for a reader that walks over all open ones again and again: deep items before blank lines, stairs of
quotes, many markers in a line. Each is read at three lengths, each twice the one before. It prints a row for each text: processor seconds
at each length (the least of three runs), and how many times as long the longest took as the middle one: some 2 if the time is linear, some
4 if it is a square. A text whose reading takes longer than 20 seconds is read no further.

With --count the rows have instructions a byte (callgrind's counts, less those of a run over nothing), for texts of a twentieth of those
lengths; with --only-in NAME only those of the function whose symbol has this name.

usage: tools/bad_texts.py [--count [--only-in NAME]] [--only TEXT] PROGRAM [OPTIONS]. The options are `--machine document` if there are none.
"""

import argparse
import os
import re
import resource
import subprocess
import sys
import tempfile

sys.dont_write_bytecode = True
import usage  # noqa: E402

LENGTHS = (100_000, 200_000, 400_000)
LONGEST = 20


def deep(mark, share):
    """As many markers in one line as this share of the text, and a letter behind them."""
    return lambda size: mark * (size // (len(mark) * share)) + "a\n"


def filled(first, line):
    """A text that begins so, and then repeats a line."""

    def made(size):
        begin = first(size) if callable(first) else first
        return begin + line * max(0, (size - len(begin)) // len(line))

    return made


def lines(line):
    """Lines, each made of its number, until the text is long enough."""

    def made(size):
        parts, length = [], 0
        while length < size:
            parts.append(line(len(parts)))
            length += len(parts[-1])
        return "".join(parts)

    return made


def ended(text, last):
    """A text with another end."""
    return lambda size: text(size) + last


def root(size):
    """So many lines of up to so many markers fill a text."""
    return max(1, int((2 * size) ** 0.5))


TEXTS = {
    "quotes in one line": lambda size: ">" * size,
    "quotes with spaces in one line": lambda size: "> " * (size // 2) + "a",
    "items in one line": lambda size: "- " * (size // 2) + "a",
    "items in one line, no thematic break": lambda size: "* " * (size // 2) + "x",
    "numbered items in one line": lambda size: "1. " * (size // 3) + "a",
    "items with tabs in one line": lambda size: "-\t" * (size // 2) + "a",
    "deep items, blank lines": filled(deep("- ", 2), "\n"),
    "deep items, blank lines, text": ended(filled(deep("- ", 2), "\n"), "b"),
    "deep items, lines of white space": filled(deep("- ", 2), "  \n"),
    "deep items, blank lines, lines of one space": filled(deep("- ", 2), "\n \n"),
    "quote over deep items, lines of quotes": filled(lambda size: "> " + "- " * (size // 4) + "a\n", ">\n"),
    "deep quotes and items, blank lines": filled(deep("> - ", 2), "\n"),
    "deep items, lazy lines": filled(deep("- ", 2), "b\n"),
    "deep quotes, lazy lines": filled(deep("> ", 2), "b\n"),
    "deep quotes, lazy underlines": filled(deep("> ", 2), "===\n"),
    "deep items, a fence, blank lines": filled(lambda size: "- " * (size // 4) + "```\n", "\n"),
    "a fence in a quote": filled("> ```\n", "> a\n"),
    "fences in items": filled("", "- ```\n"),
    "stairs of quotes": lambda size: "".join(">" * i + "a\n" for i in range(root(size))),
    "stairs of quotes, down": lambda size: "".join(">" * i + "a\n" for i in range(root(size), 0, -1)),
    "stairs of items": lambda size: "".join("  " * i + "- a\n" for i in range(int(size**0.5))),
    "stairs of empty items": lambda size: "".join("  " * i + "-\n" for i in range(int(size**0.5))),
    "empty items": filled("", "-\n"),
    "items, blank lines between": filled("", "- a\n\n"),
    "lists of other markers": lines(lambda i: ("- a\n", "* a\n", "+ a\n", "1. a\n", "1) a\n")[i % 5]),
    "stairs of empty items, blank lines": filled(lambda size: "".join("  " * i + "-\n" for i in range(int((size // 2) ** 0.5))), "\n"),
    "quotes in items, blank lines and quotes": filled(lambda size: "- " * (size // 8) + "> a\n", "\n> b\n"),
    "deep items again and again": lines(lambda i: "- " * 64 + "a\n" + "\n" * 32),
}


def run(command, path):
    """Reads a file. Returns processor seconds."""
    before = resource.getrusage(resource.RUSAGE_CHILDREN)
    with open(path) as text:
        subprocess.run(command, stdin=text, stdout=subprocess.DEVNULL, check=True)
    after = resource.getrusage(resource.RUSAGE_CHILDREN)
    return after.ru_utime + after.ru_stime - before.ru_utime - before.ru_stime


def count(command, path, only_in):
    """Reads a file. Returns instructions."""
    tool = ["valgrind", "--tool=callgrind", "--callgrind-out-file=/dev/null"]
    if only_in:
        tool.append(f"--toggle-collect=*{only_in}*")
    kept = dict(os.environ, GLIBC_TUNABLES="glibc.cpu.x86_rep_movsb_threshold=100000000")
    with open(path) as text:
        log = subprocess.run(tool + command, stdin=text, stdout=subprocess.DEVNULL, stderr=subprocess.PIPE, check=True, env=kept).stderr
    return int(re.search(rb"Collected : (\d+)", log)[1])


def main():
    parser = usage.Words(__doc__)
    parser.add_argument("--count", action="store_true")
    parser.add_argument("--only-in")
    parser.add_argument("--only")
    parser.add_argument("program")
    parser.add_argument("options", nargs=argparse.REMAINDER)
    given = parser.parse_args()
    if not os.path.isfile(given.program):
        sys.exit(f"bad_texts: {given.program} is not there")
    command = [given.program] + (given.options or ["--machine", "document"])
    with tempfile.NamedTemporaryFile("w") as nothing:
        least = count(command, nothing.name, given.only_in) if given.count else 0
    for name, text in TEXTS.items():
        if given.only and given.only not in name:
            continue
        row = []
        for length in LENGTHS:
            made = text(length // 20 if given.count else length)
            with tempfile.NamedTemporaryFile("w") as file:
                file.write(made)
                file.flush()
                if given.count:
                    row.append((count(command, file.name, given.only_in) - least) / len(made))
                else:
                    row.append(min(run(command, file.name) for _ in range(3)))
                    if row[-1] > LONGEST:
                        break
        last = "" if len(row) < 2 else f"{row[-1] / row[-2]:6.1f}"
        print(f"{name:45}" + "".join(f"{it:10.1f}" if given.count else f"{it:8.3f}" for it in row) + last, flush=True)


if __name__ == "__main__":
    sys.exit(main())
