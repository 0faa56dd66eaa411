"""Reads 10,000,000 bytes of each document of measure.py, and of some with blocks and containers. It looks whether anything is lost:
mdevents has to end well, and the innermost spans that it prints have to adjoin, from the first byte to the last. The machines `peek`,
`back` and `save` look over text for which they make no events, so of them only the end of the run counts. The machine `deep` is left
out, as it makes a square of calls.

Then it times documents that are long to read: runs of 1, 2, 3 and so on backticks, no two of one length, so that none closes another.
It prints a row for each: seconds of processor time, and the greatest resident set.

usage: large.py MDEVENTS
"""

import os
import subprocess
import sys
import tempfile

from measure import MARKUP, PLAIN, QUOTED, RUNS

SIZE = 10_000_000
WHOLE = ("lines", "paragraphs", "text", "flow", "document")
BLOCKS = [
    ("--machine flow --deep", "markup", MARKUP, ()),
    ("--machine document", "quoted", QUOTED, ()),
    ("--machine document --deep", "quoted", QUOTED, ()),
    ("--machine document --deep", "items in items", "- " + PLAIN + "\n  - " + PLAIN, ()),
]


def adjoin(lines):
    """Where the innermost spans first leave something out, or None, and the place at which the last one ends."""
    end, begun = b"(0+0)", None
    for line in lines:
        kind, place = line[:5], line.rsplit(b" ", 1)[1].strip()
        if kind == b"enter":
            begun = place
        elif begun is not None:
            if begun != end:
                return end, end
            end, begun = place, None
    return None, end


def read(program, options, document, whole):
    """Whether nothing is lost; the seconds, and the most kilobytes that were resident."""
    with open(document) as text:
        run = subprocess.Popen([program, *options], stdin=text, stdout=subprocess.PIPE)
        lost, end = adjoin(run.stdout) if whole else (None, None)
        for _ in run.stdout:
            pass
        _, status, used = os.wait4(run.pid, 0)
    run.returncode = os.waitstatus_to_exitcode(status)
    kept = run.returncode == 0 and lost is None and end in (None, b"(%d+0)" % os.path.getsize(document))
    return kept, used.ru_utime + used.ru_stime, used.ru_maxrss


def backticks(size):
    """Runs of backticks, each longer by one than the one before, with a letter after each."""
    runs, length = [], 0
    while length < size:
        runs.append("`" * (len(runs) + 1) + "a")
        length += len(runs) + 1
    return "".join(runs)[:size]


def main(program, folder):
    document = os.path.join(folder, "document")
    print("| Options | Document | Bytes | Nothing is lost | Seconds | Resident, MB |\n|---|---|---|---|---|---|")
    for options, name, line, _ in RUNS + BLOCKS:
        if options == "--machine deep":
            continue
        with open(document, "w") as text:
            text.write((line * (SIZE // len(line) + 1))[:SIZE])
        words = options.split()
        whole = (words[1] if words else "lines") in WHOLE
        kept, took, most = read(program, words, document, whole)
        print(f"| {options or 'none'} | {name} | {SIZE:,} | {'yes' if kept else 'NO'} | {took:.1f} | {most // 1000:,} |", flush=True)
    for size in (100_000, 1_000_000):
        with open(document, "w") as text:
            text.write(backticks(size))
        kept, took, most = read(program, ["--machine", "text", "--deep"], document, True)
        print(f"| --machine text --deep | backticks | {size:,} | {'yes' if kept else 'NO'} | {took:.1f} | {most // 1000:,} |", flush=True)


if __name__ == "__main__":
    if sys.argv[1:] == ["--help"]:
        print(__doc__.strip())
        sys.exit()
    if len(sys.argv) != 2 or sys.argv[1].startswith("-"):
        print("usage: large.py MDEVENTS", file=sys.stderr)
        sys.exit(2)
    if not os.path.isfile(sys.argv[1]):
        sys.exit(f"bench: {sys.argv[1]} is not there")
    with tempfile.TemporaryDirectory() as scratch:
        main(sys.argv[1], scratch)
