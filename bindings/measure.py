#!/usr/bin/env python3
"""Prints the instructions for each byte that calls from Rust need, over documents of 100 KB, as the rows of a table.

They are callgrind's counts of a run that reads a document once, less those of a run that reads it not at all. Needs valgrind, cargo
and bindings/out/liblimecove.a, which bindings/build.sh makes.

usage: measure.py [OTHER]. OTHER is a program of the same words (MACHINE [--deep] FILE TIMES) made from the Rust crate; a machine that
it has not is one for which it fails.
"""

import re
import subprocess
import sys
import tempfile
from pathlib import Path

RUST = Path(__file__).resolve().parent / "rust"
SIZE = 100_000
PLAIN = "The quick brown fox jumps over the lazy dog, and does so once more, slowly.\n"
MARKUP = "Some `code` and <https://example.com/a?b=c> with \\* and \\_ escapes, and ``two ` ticks`` here.\n"
KINDS = {"plain": PLAIN, "columns": "name\tvalue\tother\tlast\n", "tabs": "a\tbc\t\tdef\t\t\tg\th\n", "short": "ab\n", "quoted": ">" + PLAIN, "markup": MARKUP}
WAYS = [
    ("lines", "plain"),
    ("lines", "columns"),
    ("lines", "tabs"),
    ("lines", "short"),
    ("lines", "markup"),
    ("paragraphs", "quoted"),
    ("paragraphs --deep", "quoted"),
    ("peek", "plain"),
    ("back", "plain"),
    ("save", "plain"),
    ("text", "markup"),
    ("text --deep", "plain"),
    ("text --deep", "short"),
    ("text --deep", "markup"),
    ("flow --deep", "markup"),
    ("document --deep", "quoted"),
]


def counted(program, way, path, times):
    """The instructions of a run, if it does not fail."""
    with tempfile.NamedTemporaryFile() as out:
        words = ["valgrind", "--tool=callgrind", f"--callgrind-out-file={out.name}", program, *way.split(), path, str(times)]
        run = subprocess.run(words, capture_output=True, text=True)
    if run.returncode != 0:
        return None
    return int(re.search(r"Collected : (\d+)", run.stderr).group(1))


def per_byte(program, way, path):
    """The instructions for each byte of a call."""
    once, never = counted(program, way, path, 1), counted(program, way, path, 0)
    return None if once is None or never is None else (once - never) / SIZE


def main():
    if sys.argv[1:] == ["--help"]:
        print(__doc__.strip())
        sys.exit()
    if len(sys.argv) > 2 or sys.argv[1:] and sys.argv[1].startswith("-"):
        print("usage: measure.py [OTHER]", file=sys.stderr)
        sys.exit(2)
    subprocess.run(["cargo", "build", "--offline", "--quiet", "--release", "--example", "read"], cwd=RUST, check=True)
    programs = [str(RUST / "target/release/examples/read"), *sys.argv[1:2]]
    print("| Machine | Document | " + " | ".join(["Instructions a byte", "Other", "Ratio"][: 3 if len(programs) == 2 else 1]) + " |")
    print("|---" * (5 if len(programs) == 2 else 3) + "|")
    with tempfile.TemporaryDirectory() as folder:
        for way, kind in WAYS:
            path = f"{folder}/{kind}"
            line = KINDS[kind]
            Path(path).write_text((line * (SIZE // len(line) + 1))[:SIZE])
            found = [per_byte(program, way, path) for program in programs]
            cells = ["-" if value is None else f"{value:.0f}" for value in found]
            if len(found) == 2 and None not in found:
                cells.append(f"{found[0] / found[1]:.2f}")
            print(f"| {way} | {kind} | " + " | ".join(cells) + " |", flush=True)


main()
