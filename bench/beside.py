#!/usr/bin/env python3
"""Prints what it takes to read texts that people have, beside cmark, which writes them as HTML: a row for each text. mdevents reads by
`document`, with text, and prints the events.

The texts are the pages of docs joined; real files joined, each eighth of those below 120,000 bytes in the packages that tools/real_files.py
names, in order of name; and five single READMEs. Behind ours over cmark's stands the target, and the READMEs have a row of means.

Instructions are callgrind's, a byte, less those of a run over nothing. Time is processor time, user and system, of the run that took least.
Page faults are the fewest of a run, less those of a run over nothing. Heap is the most at once (massif). Then the real files are repeated up
to 20 MB and read in one run: processor time, and the greatest resident set.

usage: bench/beside.py --fetch DIR
       bench/beside.py MDEVENTS DIR [--commit COMMIT] [--runs N] [--quick] [--targets] [--cmark CMARK]
  --fetch DIR      downloads the packages into DIR (75 MB) by `apt-get`, and writes their Markdown files there, unpacked
  MDEVENTS         the program, or what prints events as it does
  DIR              a folder that --fetch has filled
  --commit COMMIT  the pages as they were at a commit; without it, as they are
  --runs N         time and faults are the least of N runs; without it, 25
  --quick          without heap and 20 MB, which take minutes, and with 5 runs
  --targets        the status is 1 if a target is missed
  --cmark CMARK    cmark's program; without it, the one on the path. Debian's package cmark has it
"""

import math
import os
import shutil
import sys
import tempfile

HERE = os.path.dirname(os.path.realpath(__file__))
sys.path[:0] = [HERE, os.path.join(os.path.dirname(HERE), "tools")]
sys.dont_write_bytecode = True
import measure  # noqa: E402
import real_files  # noqa: E402
import usage  # noqa: E402

OURS = ["--machine", "document", "--deep"]
# ours over cmark's: what each may be at most
TARGETS = {"instructions": 1.0, "time": 1.0, "faults": 1.5, "heap": 2.0, "long time": 1.0, "resident": 1.5}
# the single READMEs: Debian's package, and the file in it
READMES = {
    "webpack": ("webpack", "usr/share/doc/node-terser-webpack-plugin/README.md"),
    "undici": ("node-undici", "usr/share/doc/node-undici/README.md"),
    "podman": ("podman", "usr/share/doc/podman/README.md"),
    "buildah": ("buildah", "usr/share/doc/buildah/README.md"),
    "babel": ("node-babel7", "usr/share/doc/node-babel-preset-airbnb/README.md"),
}
BELOW, EACH = 120_000, 8
LONG = 20_000_000


def fetch(folder):
    """Downloads the packages, those of many files and those of single ones apart, and unpacks their Markdown files."""
    for part, names in (("many", real_files.PACKAGES.split()), ("single", [package for package, _ in READMES.values()])):
        files = real_files.fetch(os.path.join(folder, part), names)
        print(f"{len(real_files.files_in(files))} files in {files}")


def content(path):
    with open(path, "rb") as it:
        return it.read()


def texts(folder, commit):
    """The texts, by name."""
    small = [it for it in real_files.files_in(os.path.join(folder, "many", "files")) if os.path.getsize(it) < BELOW][::EACH]
    made = {"pages": measure.pages(commit), f"{len(small)} real files": b"".join(map(content, small))}
    return made | {name: content(os.path.join(folder, "single", "files", path)) for name, (_, path) in READMES.items()}


class Beside:
    """Both programs, and what they take."""

    def __init__(self, words, folder):
        self.programs = [(words.program, OURS), (words.cmark, [])]
        self.counts, self.document = os.path.join(folder, "counts"), os.path.join(folder, "document")
        self.runs, self.missed, self.told = 5 if words.quick else words.runs, 0, 0
        self.quick = words.quick
        self.write(b"")
        self.nothing = self.instructions()
        self.least = [faults for _, _, faults, _ in self.runs_of(self.runs)]

    def write(self, text, times=1):
        with open(self.document, "wb") as it:
            for _ in range(times):
                it.write(text)

    def instructions(self):
        return [measure.instructions(program, options, self.document, self.counts)[0] for program, options in self.programs]

    def runs_of(self, count):
        """Of each program: user and system seconds of the run that took least, and the fewest page faults and greatest resident set. The
        programs run in turns."""
        used = [[measure.once(program, options, self.document)[1] for program, options in self.programs] for _ in range(count)]
        quickest = [min(each, key=lambda it: it.ru_utime + it.ru_stime) for each in zip(*used)]
        faults = [min(it.ru_minflt for it in each) for each in zip(*used)]
        return [(it.ru_utime, it.ru_stime, few, max(run.ru_maxrss for run in each)) for it, few, each in zip(quickest, faults, zip(*used))]

    def measured(self, text):
        """What both take over a text, by the name of the target."""
        self.write(text)
        made = {"instructions": [(whole - base) / len(text) for whole, base in zip(self.instructions(), self.nothing)]}
        runs = self.runs_of(self.runs)
        made["time"] = [(user + system) * 1000 for user, system, _, _ in runs]
        made["faults"] = [faults - least for (_, _, faults, _), least in zip(runs, self.least)]
        if not self.quick:
            made["heap"] = [measure.peak(program, options, self.document, self.counts) / 1024 for program, options in self.programs]
        return made

    def against(self, what, ratio):
        """A ratio, and its target. Nothing if there is no ratio, as cmark took nothing."""
        if ratio is None:
            return ""
        self.told += 1
        self.missed += ratio > TARGETS[what]
        return f"{ratio:.2f} of {TARGETS[what]:.2f}"

    def long_run(self, name, text):
        """Prints the table of a text that is repeated until it is long."""
        times = math.ceil(LONG / len(text))
        self.write(text, times)
        ours, theirs = self.runs_of(3)
        print(f"\n| {name}, {times} times | Bytes | Seconds, user + system | cmark's | Ours/cmark's of target | Resident, MB | cmark's | Ours/cmark's of target |")
        print("|---|---|---|---|---|---|---|---|")
        row = [f"{user:.2f} + {system:.2f}" for user, system, _, _ in (ours, theirs)] + [self.against("long time", sum(ours[:2]) / sum(theirs[:2]))]
        row += [f"{kept // 1000:,}" for _, _, _, kept in (ours, theirs)] + [self.against("resident", ours[3] / theirs[3])]
        print(f"| in one run | {times * len(text):,} | " + " | ".join(row) + " |", flush=True)


HEADS = {"instructions": ("Instructions/byte", ".1f"), "time": ("Milliseconds", ".1f"), "faults": ("Page faults", ",.0f"), "heap": ("Heap, KiB", ",.0f")}


def table(beside, all_texts):
    """Prints the table of the texts."""
    shown = [it for it in HEADS if it != "heap" or not beside.quick]
    print("| Text | Bytes | " + " | ".join(f"{HEADS[it][0]} | cmark's | Ours/cmark's of target" for it in shown) + " |")
    print("|---" * (2 + 3 * len(shown)) + "|")
    single = {it: [] for it in shown}
    for name, text in all_texts.items():
        row = [name, f"{len(text):,}"]
        for what, (ours, theirs) in beside.measured(text).items():
            ratio = ours / theirs if ours > 0 and theirs > 0 else None
            row += [format(ours, HEADS[what][1]), format(theirs, HEADS[what][1]), beside.against(what, ratio)]
            if name in READMES and ratio:
                single[what].append(ratio)
        print("| " + " | ".join(row) + " |", flush=True)
    means = [beside.against(what, math.prod(ratios) ** (1 / len(ratios)) if ratios else None) for what, ratios in single.items()]
    print("| READMEs, geometric mean | | " + " | ".join(f"| | {mean}" for mean in means) + " |", flush=True)


def main():
    if sys.argv[1:2] == ["--fetch"] and len(sys.argv) == 3 and not sys.argv[2].startswith("-"):
        return fetch(sys.argv[2])
    parser = usage.Words(__doc__)
    parser.add_argument("program")
    parser.add_argument("folder")
    parser.add_argument("--commit")
    parser.add_argument("--runs", type=int, default=25)
    parser.add_argument("--quick", action="store_true")
    parser.add_argument("--targets", action="store_true")
    parser.add_argument("--cmark", default=shutil.which("cmark"))
    words = parser.parse_args()
    if not words.cmark:
        parser.error("cmark is missing")
    all_texts = texts(words.folder, words.commit)
    with tempfile.TemporaryDirectory() as folder:
        beside = Beside(words, folder)
        table(beside, all_texts)
        if not words.quick:
            beside.long_run(*list(all_texts.items())[1])
    print(f"\n{beside.missed} of {beside.told} are above their targets")
    sys.exit(1 if words.targets and beside.missed else 0)


if __name__ == "__main__":
    main()
