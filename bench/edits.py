#!/usr/bin/env python3
"""Prints what an edit costs, as the rows of a table: instructions by callgrind for an edit of a document of 1,000,000 bytes in paragraphs of 400,
beside what reading the replaced sections takes, and all of the document; and the most that is on the heap while the document is made (massif), beside
what cmark has there while it writes the same document as HTML, if it is installed (Debian's package cmark).
The status is 1 if an edit takes more than three times the reading of what it replaces, and 2,000, or more than 1/500 of reading all; or if the heap is
above twice cmark's.

usage: bench/edits.py [LIBRARY]     needs cc, valgrind, and bindings/out/liblimecove.a (bindings/build.sh), or LIBRARY in its place
"""

import os
import re
import shutil
import subprocess
import sys
import tempfile

HERE = os.path.dirname(os.path.realpath(__file__))
TIMES = 1000
# glibc copies long stretches by one instruction that callgrind counts once a byte
TUNED = {**os.environ, "GLIBC_TUNABLES": "glibc.cpu.x86_rep_movsb_threshold=100000000:glibc.cpu.x86_rep_stosb_threshold=100000000"}


def counted(program, *words):
    """How many instructions a run takes, and the three numbers that it prints."""
    it = subprocess.run(["valgrind", "--tool=callgrind", "--callgrind-out-file=/dev/null", program, *words], env=TUNED, capture_output=True, text=True, check=True)
    return int(re.search(r"Collected : (\d+)", it.stderr)[1]), [int(word) for word in it.stdout.split()]


def heap(program, folder, *words):
    """The most that a run has on the heap at once, in bytes."""
    out = f"{folder}/massif"
    subprocess.run(["valgrind", "--tool=massif", f"--massif-out-file={out}", program, *words], env=TUNED, capture_output=True, check=True)
    with open(out, encoding="utf-8") as it:
        return max(int(line.split("=")[1]) for line in it if line.startswith("mem_heap_B="))


def by_cmark(program, folder, *text):
    """The most that cmark has on the heap at once over the document, in bytes. None if it is not installed."""
    cmark = shutil.which("cmark")
    if not cmark:
        return None
    file = f"{folder}/document.md"
    with open(file, "wb") as it:
        subprocess.run([program, "print", "0", *text], stdout=it, check=True)
    return heap(cmark, folder, file)


def main(library):
    """Prints the table."""
    bad = 0
    if not os.path.isfile(library):
        sys.exit(f"bench: {library} is not there")
    with tempfile.TemporaryDirectory() as folder:
        program = f"{folder}/edits"
        subprocess.run(["cc", "-std=c99", "-O2", "-o", program, f"{HERE}/edits.c", library], check=True)
        print("| Text | Edit | Instructions | Of reading what it replaces | Of reading all | Others |\n|---|---|---|---|---|---|")
        for text in ([], ["plain"]):
            once, (size, _, _) = counted(program, "read", "1", *text)
            none, _ = counted(program, "read", "0", *text)
            whole = once - none
            kept, _ = counted(program, "keep", "0", *text)
            for mode in ("byte", "line", "paragraph"):
                edited, (_, replaced, others) = counted(program, mode, str(TIMES), *text)
                edits = TIMES * (2 if mode == "paragraph" else 1)
                each, touched = (edited - kept) / edits, whole / size * replaced / edits
                bad += each > 3 * touched + 2000 or each > whole / 500
                print(f"| {' '.join(text) or 'markup'} | {mode} | {each:,.0f} | {each / touched:.2f} | 1/{whole / each:,.0f} | {others} |")
            ours, theirs = heap(program, folder, "keep", "0", *text), by_cmark(program, folder, *text)
            bad += theirs is not None and ours > 2 * theirs
            beside = "" if theirs is None else f" (cmark: {theirs / 1024:,.0f})"
            print(f"| {' '.join(text) or 'markup'} | none: it is made, {ours / 1024:,.0f} KiB{beside} | {kept - none:,} | | {(kept - none) / whole:.2f} | |")
    return 1 if bad else 0


if __name__ == "__main__":
    if "--help" in sys.argv:
        print(__doc__.strip())
        sys.exit()
    if len(sys.argv) > 2 or sys.argv[1:] and sys.argv[1].startswith("-"):
        print("usage: bench/edits.py [LIBRARY]", file=sys.stderr)
        sys.exit(2)
    sys.exit(main(sys.argv[1] if len(sys.argv) > 1 else f"{HERE}/../bindings/out/liblimecove.a"))
