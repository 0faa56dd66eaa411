"""Prints what a run of mdevents needs, for each machine and several documents, as the rows of a table, and then how it grows with
the document, its chunks, its gaps and the edits. If a third program is given, a table compares mdevents with it.

Instructions are callgrind's counts, the same in each run, less the count of a run over nothing. The engine's are the counts of the
functions of the crates markdown_tokenizer and markdown_edits. Peak memory is the most that was on the heap at once (massif), the
same in each run too. Page faults are the ones for which nothing is read, less the ones of a run over nothing: each is a page of
memory that a run touches. (The greatest resident set of a process that this one starts would be this one's.) The bytes per second
are from the fastest of five runs.

The last table has calls of the static library in place of runs: the instructions of a call of limecove_read, which also writes a
record of each event, and of what mdevents does to make the events, without reading its input and without printing.

A table has whole documents, the pages of docs joined, by `flow` and `document`: instructions with printing; choices and allocations by how often their
functions are called; peak memory beside the memory of the final events. States are compiled into the loop, so calls are counted by how
often it jumps to a state by its table: those that the compiler joined to the state before are not among them. If a program cmark is on
the path, its instructions for the same bytes stand beside.

usage: measure.py MDEVENTS MDBENCH ARCHIVE [OTHER]. ARCHIVE is archive.c with the static library. OTHER reads a document from standard
input and writes the events of the machine of lines, as mdevents does without options.

       measure.py --documents MDEVENTS [COMMIT]. Only the table of whole documents, of the pages as they were at a commit.

Texts that people have, and processor time, are in beside.py.

glibc copies and fills long stretches by one instruction that callgrind counts once a byte, so that is switched off here.
"""

import glob
import os
import re
import shutil
import subprocess
import sys
import tempfile
import time

TUNED = {**os.environ, "GLIBC_TUNABLES": "glibc.cpu.x86_rep_movsb_threshold=100000000:glibc.cpu.x86_rep_stosb_threshold=100000000"}
TOP = os.path.dirname(os.path.dirname(os.path.realpath(__file__)))

# bytes of an event in memory
EVENT = 88

PLAIN = "The quick brown fox jumps over the lazy dog, and does so once more, slowly.\n"
TABS = "a\tbc\t\tdef\t\t\tg\th\n"
COLUMNS = "name\tvalue\tother\tlast\n"
SHORT = "ab\n"
QUOTED = ">" + PLAIN
MARKUP = "Some `code` and <https://example.com/a?b=c> with \\* and \\_ escapes, and ``two ` ticks`` here.\n"

SPANS = "a `b` <cd:e>\n"

# options, name of the document, its line, its sizes
RUNS = [
    ("", "plain", PLAIN, (1000, 100000, 1000000)),
    ("", "tabs", TABS, (1000, 100000, 1000000)),
    ("", "columns", COLUMNS, (1000, 100000, 1000000)),
    ("", "short", SHORT, (1000, 100000, 1000000)),
    ("--machine paragraphs", "quoted", QUOTED, (10000, 100000)),
    ("--machine paragraphs", "short", SHORT, (10000, 100000)),
    ("--machine paragraphs --deep", "quoted", QUOTED, (10000, 100000)),
    ("--machine paragraphs --deep", "short", SHORT, (10000, 100000)),
    ("--machine text --deep", "markup", MARKUP, (10000, 100000)),
    ("--machine peek", "plain", PLAIN, (10000, 100000)),
    ("--machine peek", "short", SHORT, (10000, 100000)),
    ("--machine deep", "one line", "a", (500, 1000, 2000)),
    ("--machine back", "plain", PLAIN, (10000, 100000)),
    ("--machine save", "plain", PLAIN, (10000, 100000)),
]

# the documents that the static library reads, with the options of mdevents that say the same
CALLED = [
    ("", "plain", PLAIN),
    ("", "columns", COLUMNS),
    ("", "tabs", TABS),
    ("", "short", SHORT),
    ("--machine paragraphs --deep", "quoted", QUOTED),
    ("--machine text --deep", "plain", PLAIN),
    ("--machine text --deep", "columns", COLUMNS),
    ("--machine text --deep", "tabs", TABS),
    ("--machine text --deep", "short", SHORT),
    ("--machine text --deep", "markup", MARKUP),
    ("--machine flow --deep", "markup", MARKUP),
    ("--machine document --deep", "quoted", QUOTED),
]

# what grows: the program, its options, what is made in it, its line, which is repeated
GROWING = [
    ("mdevents", "", "lines `ab`", SHORT),
    ("mdevents", "--machine text --deep", "lines of text with spans", SPANS),
    ("mdevents", "--machine paragraphs --deep", "chunks of one paragraph", SHORT),
    ("mdevents", "--machine paragraphs --deep", "paragraphs of one chunk", SHORT + "\n"),
    ("mdevents", "--machine paragraphs --deep", "lines that begin with a gap", ">ab\n"),
    ("mdbench", "", "edits at ascending indices", "a"),
    ("mdbench", "", "edits at descending indices", "d"),
    ("mdbench", "", "links of a child", "l"),
]

# the documents on which mdevents is compared with another program
COMPARED = [("plain", PLAIN), ("columns", COLUMNS), ("tabs", TABS), ("short", SHORT)]


def once(program, options, document):
    """The seconds that a run takes, and what it used, as the kernel counts it."""
    with open(document) as text:
        start = time.perf_counter()
        run = subprocess.Popen([program, *options], stdin=text, stdout=subprocess.DEVNULL)
        _, status, used = os.wait4(run.pid, 0)
        took = time.perf_counter() - start
    run.returncode = os.waitstatus_to_exitcode(status)
    if run.returncode != 0:
        raise subprocess.CalledProcessError(run.returncode, run.args)
    return took, used


def fastest(program, options, document):
    """The seconds that the fastest of five runs takes, and the fewest page faults of one."""
    runs = [once(program, options, document) for _ in range(5)]
    return min(took for took, _ in runs), min(used.ru_minflt for _, used in runs)


def valgrind(tool, settings, program, options, document):
    """Runs the program under a tool of valgrind."""
    command = ["valgrind", f"--tool={tool}", *settings, program, *options]
    with open(document) as text:
        subprocess.run(command, env=TUNED, stdin=text, stdout=subprocess.DEVNULL, stderr=subprocess.DEVNULL, check=True)


def peak(program, options, document, counts):
    """The most bytes on the heap at once."""
    valgrind("massif", ["--peak-inaccuracy=0.0", f"--massif-out-file={counts}"], program, options, document)
    with open(counts) as snapshots:
        return max((int(line[11:]) for line in snapshots if line.startswith("mem_heap_B=")), default=0)


def instructions(program, options, document, counts):
    """The instructions of a run, and the engine's part of them."""
    valgrind("callgrind", [f"--callgrind-out-file={counts}"], program, options, document)
    listed = subprocess.run(["callgrind_annotate", "--threshold=100", counts], capture_output=True, text=True, check=True)
    whole = engine = 0
    for line in listed.stdout.splitlines():
        found = re.match(r" *([0-9,]+) \([ 0-9.]+%\)  (.*)", line)
        if found is None:
            continue
        count = int(found.group(1).replace(",", ""))
        if "PROGRAM TOTALS" in found.group(2):
            whole = count
        elif re.search(r"\bmarkdown(_edits|_tokenizer)?::", found.group(2)):
            engine += count
    return whole, engine


def making(program, options, document, counts):
    """The instructions of all that the program does to make the events."""
    valgrind("callgrind", [f"--callgrind-out-file={counts}"], program, options, document)
    listed = subprocess.run(["callgrind_annotate", "--inclusive=yes", "--threshold=100", counts], capture_output=True, text=True, check=True)
    found = re.findall(r"^ *([0-9,]+) \([ 0-9.]+%\)  .*::(?:events_of|read_as) ", listed.stdout, re.M)
    return max(int(count.replace(",", "")) for count in found)


def call(program, archive, folder):
    """Prints the table of calls of the static library."""
    counts = os.path.join(folder, "counts")
    document = os.path.join(folder, "document")
    size = 100000
    print("| Options | Document | A call, instructions/byte | The same events in mdevents |")
    print("|---|---|---|---|")
    for options, name, line in CALLED:
        with open(document, "w") as text:
            text.write((line * (size // len(line) + 1))[:size])
        words = options.split()
        never, once = [instructions(archive, [document, times, *words], document, counts)[0] for times in ("0", "1")]
        made = making(program, words, document, counts)
        print(f"| {options or 'none'} | {name} | {(once - never) / size:.0f} | {made / size:.0f} |", flush=True)


def grow(programs, folder):
    """Prints the table of what grows: the instructions for ten thousand and for a hundred thousand, and by how much they grow."""
    counts = os.path.join(folder, "counts")
    document = os.path.join(folder, "document")
    print("| What | Instructions for 10,000 | For 100,000 | Times as many |")
    print("|---|---|---|---|")
    for name, options, what, line in GROWING:
        few, many = 0, 0
        for times in (10000, 100000):
            with open(document, "w") as text:
                text.write(line * times)
            few, many = many, instructions(programs[name], options.split(), document, counts)[0]
        print(f"| {what} | {few:,} | {many:,} | {many / few:.1f} |", flush=True)


def dispatched(program, options, document, counts):
    """How often a run jumps by a table to a state. In the loop of each machine it is the jump with the most targets."""
    wanted = ["--dump-instr=yes", "--collect-jumps=yes", "--compress-pos=no", "--compress-strings=no", f"--callgrind-out-file={counts}"]
    valgrind("callgrind", wanted, program, options, document)
    jumps, function, jump = {}, "", None
    with open(counts) as profile:
        for line in profile:
            if line.startswith("fn="):
                function = line[3:].strip()
            elif found := re.match(r"jump=(\d+) (0x[0-9a-f]+)", line):
                jump = found
            elif jump and (place := re.match(r"0x[0-9a-f]+", line)):
                if "Tokenizer::run_states" in function:
                    of_loop = jumps.setdefault(function, {})
                    of_loop.setdefault(place[0], {})[jump[2]] = int(jump[1])
                jump = None
    return sum(sum(max(of_loop.values(), key=len).values()) for of_loop in jumps.values())


def called(program, options, document, counts):
    """How often a run calls what ends a choice, and what allocates."""
    valgrind("callgrind", [f"--callgrind-out-file={counts}"], program, options, document)
    names, choices, allocations, callee = {}, 0, 0, ""
    with open(counts) as profile:
        for line in profile:
            if line.startswith("cfn="):
                number, _, name = line[4:].strip().partition(" ")
                callee = names.setdefault(number, name) if name else names[number]
            elif line.startswith("fn="):
                number, _, name = line[3:].strip().partition(" ")
                if name:
                    names[number] = name
            elif line.startswith("calls="):
                times = int(line[6:].split()[0])
                if re.search(r"Tokenizer::go_on\b", callee):
                    choices += times
                elif re.match(r"rattle_(re)?alloc\b", callee):
                    allocations += times
    return choices, allocations


def pages(commit):
    """The pages of docs joined, as they are or were at a commit."""
    if not commit:
        return b"".join(open(page, "rb").read() for page in sorted(glob.glob(f"{TOP}/docs/*.md")))
    git = ["git", "-C", TOP]
    listed = subprocess.run([*git, "ls-tree", "--name-only", commit, "docs/"], capture_output=True, text=True, check=True).stdout.split()
    return b"".join(subprocess.run([*git, "show", f"{commit}:{page}"], capture_output=True, check=True).stdout for page in sorted(listed) if page.endswith(".md"))


def documents(program, folder, commit=None):
    """Prints the table of whole documents."""
    counts = os.path.join(folder, "counts")
    document = os.path.join(folder, "document")
    with open(document, "wb") as text:
        text.write(pages(commit))
    size = os.path.getsize(document)
    print(f"| The pages of docs, {size:,} bytes | Instructions/byte | Calls/byte | Choices/byte | Allocations/byte | Peak heap, KiB | Its events, KiB |")
    print("|---|---|---|---|---|---|---|")
    for options in ("--machine flow", "--machine flow --deep", "--machine document", "--machine document --deep"):
        words = options.split()
        whole, _ = instructions(program, words, document, counts)
        calls = dispatched(program, words, document, counts)
        choices, allocations = called(program, words, document, counts)
        with open(document) as text:
            lines = subprocess.run([program, *words], stdin=text, capture_output=True, check=True).stdout.count(b"\n")
        heap = peak(program, words, document, counts) // 1024
        print(f"| {options} | {whole / size:.1f} | {calls / size:.2f} | {choices / size:.2f} | {allocations / size:.4f} | {heap:,} | {lines * EVENT // 1024:,} |", flush=True)
    if shutil.which("cmark"):
        print(f"| cmark, to HTML | {instructions(shutil.which('cmark'), [], document, counts)[0] / size:.1f} | | | | {peak(shutil.which('cmark'), [], document, counts) // 1024:,} | |")


def main(program, folder):
    """Prints the table of what a run needs."""
    counts = os.path.join(folder, "counts")
    document = os.path.join(folder, "document")
    open(document, "w").close()
    base, _ = instructions(program, [], document, counts)
    least = fastest(program, [], document)[1]
    print("| Options | Document | Bytes | Whole run, instructions/byte | Engine, instructions/byte | Peak heap, KiB | Page faults | Million bytes/second |")
    print("|---|---|---|---|---|---|---|---|")
    for options, name, line, sizes in RUNS:
        for size in sizes:
            with open(document, "w") as text:
                text.write((line * (size // len(line) + 1))[:size])
            words = options.split()
            whole, engine = instructions(program, words, document, counts)
            heap = peak(program, words, document, counts) // 1024
            took, faults = fastest(program, words, document)
            print(f"| {options or 'none'} | {name} | {size:,} | {(whole - base) / size:.0f} | {engine / size:.0f} | {heap:,} | {faults - least:,} | {size / took / 1e6:.1f} |", flush=True)


def compare(program, other, folder):
    """Prints the table of mdevents and another program, on documents of 100,000 bytes."""
    counts = os.path.join(folder, "counts")
    document = os.path.join(folder, "document")
    size = 100000
    open(document, "w").close()
    bases = [instructions(each, [], document, counts)[0] for each in (program, other)]
    least = [fastest(each, [], document)[1] for each in (program, other)]
    print("| Document | Whole run, instructions/byte | The other | Peak heap, KiB | The other | Page faults | The other |")
    print("|---|---|---|---|---|---|---|")
    for name, line in COMPARED:
        with open(document, "w") as text:
            text.write((line * (size // len(line) + 1))[:size])
        row = [name]
        wholes = [instructions(each, [], document, counts)[0] for each in (program, other)]
        row += [f"{(whole - base) / size:.0f}" for whole, base in zip(wholes, bases)]
        row += [f"{peak(each, [], document, counts) // 1024:,}" for each in (program, other)]
        row += [f"{fastest(each, [], document)[1] - few:,}" for each, few in zip((program, other), least)]
        print("| " + " | ".join(row) + " |", flush=True)


if __name__ == "__main__":
    if len(sys.argv) < 3 or "--help" in sys.argv:
        print(__doc__.strip())
        sys.exit(0 if "--help" in sys.argv else 2)
    for it in sys.argv[2:3] if sys.argv[1] == "--documents" else sys.argv[1:3]:
        if not os.path.isfile(it):
            sys.exit(f"bench: {it} is not there")
    with tempfile.TemporaryDirectory() as scratch:
        if sys.argv[1] == "--documents":
            documents(sys.argv[2], scratch, *sys.argv[3:])
            sys.exit(0)
        main(sys.argv[1], scratch)
        print()
        documents(sys.argv[1], scratch)
        print()
        grow({"mdevents": sys.argv[1], "mdbench": sys.argv[2]}, scratch)
        print()
        call(sys.argv[1], sys.argv[3], scratch)
        if len(sys.argv) > 4:
            print()
            compare(sys.argv[1], sys.argv[4], scratch)
