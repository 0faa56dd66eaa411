#!/usr/bin/env python3
"""Runs CommonMark's examples through the HTML writer of the crate `limecove`, compares its HTML byte for byte, and prints for each section
how many examples are right. The status is 1 if one is not, but for two of 0.30.

usage: html.py SPEC [PROGRAM] [--failing]
  SPEC       a spec.json: a list of objects with `example`, `section`, `markdown` and `html`. Debian's package
             golang-github-yuin-goldmark-dev has that of CommonMark 0.30 (652 examples), which is its file _test/spec.json
  PROGRAM    what writes HTML; without it, the example `html` of the crate, which is built. It is called with --raw-html --any-scheme
  --failing  also each example that is not right: its Markdown, the HTML that is wanted, and what was written

It needs cargo and the library, where the crate `limecove-sys` looks for it.
"""

import argparse
import collections
import json
import subprocess
import sys
from pathlib import Path

RUST = Path(__file__).resolve().parent / "rust"
# examples of 0.30 with comments that 0.31 reads otherwise
COMMENTS = {625, 626}


def built():
    """The program, once it is built."""
    words = ["cargo", "build", "--offline", "--quiet", "--release", "--example", "html", "--message-format", "json"]
    said = subprocess.run(words, cwd=RUST, check=True, stdout=subprocess.PIPE, text=True).stdout
    (program,) = [it["executable"] for it in map(json.loads, said.splitlines()) if it.get("executable")]
    return program


def written(program, document):
    """The HTML of a document."""
    ran = subprocess.run([program, "--raw-html", "--any-scheme"], input=document.encode(), capture_output=True, check=True)
    return ran.stdout.decode()


def main():
    parser = argparse.ArgumentParser(description=__doc__, formatter_class=argparse.RawDescriptionHelpFormatter, usage=argparse.SUPPRESS)
    parser.add_argument("spec", help=argparse.SUPPRESS)
    parser.add_argument("program", nargs="?", help=argparse.SUPPRESS)
    parser.add_argument("--failing", action="store_true", help=argparse.SUPPRESS)
    words = parser.parse_args()
    program = words.program or built()
    with open(words.spec, encoding="utf-8") as file:
        examples = json.load(file)
    right, of, wrong = collections.Counter(), collections.Counter(), set()
    for example in examples:
        of[example["section"]] += 1
        made = written(program, example["markdown"])
        if made == example["html"]:
            right[example["section"]] += 1
            continue
        wrong.add(example["example"])
        if words.failing:
            print(f"example {example['example']}: {example['markdown']!r}\n  wanted  {example['html']!r}\n  written {made!r}")
    for section in of:
        print(f"{section:40} {right[section]:4} of {of[section]:4}")
    print(f"{'all':40} {right.total():4} of {of.total():4}")
    sys.exit(1 if wrong - COMMENTS else 0)


if __name__ == "__main__":
    main()
