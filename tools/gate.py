#!/usr/bin/env python3
"""Runs the gate, or another command at the top, and lists what its checks took in seconds of processor time.

usage: tools/gate.py [-C FOLDER] [COMMAND..]        `rt ci` if no command is given; in this checkout or in FOLDER
       tools/gate.py --write LOG                    puts the table of such a run from nothing, whose output is in the file LOG, into
                                                    docs/maintaining/GATE.md, under "By crate"

A crate is proved, and once more, from nothing, if it has two edits or more, as edits are tried over a proof of their own; then come its
edits and its tests. `rt ci` itself prints no times. A run that takes over what an earlier one kept has only what it proved anew.

Each second it looks at the prover's processes that the command has started, so the last second of each is not counted.
An edit's check is recognized by the texts of the copy that it works on. The total is the time of the command and of each process
that it has waited for, as the system counts it: the prover, the tests, the programs and rt itself.
"""

import collections
import glob
import os
import re
import resource
import subprocess
import sys
import time

HERE = os.path.dirname(os.path.dirname(os.path.realpath(__file__)))
TICKS = os.sysconf("SC_CLK_TCK")
PAGE = f"{HERE}/docs/maintaining/GATE.md"
PARTS = ("proof", "second", "edits", "tests")
PROVER = ("rattle", "antt-kernel")  # with more jobs than one, the first begins others, which prove the modules
SMALL = 450  # crates below so many seconds are one row of the page


def text_of(path):
    try:
        with open(path, encoding="utf-8") as it:
            return it.read()
    except OSError:
        return ""


def texts_with(edit, folder):
    """Returns the texts of the files of a crate's folder that an edit changes, by their path, once it has changed them."""
    texts, path, old = {}, "", ""
    for line in text_of(edit).split("\n"):
        word, _, rest = line.partition(": ")
        if word == "file":
            path = rest.strip()
        elif word == "old":
            old = rest
        elif line.startswith("new:"):
            before = texts.get(path) or text_of(f"{folder}/{path}")
            texts[path] = before.replace(old, line[len("new:") :].removeprefix(" "))
    return texts


def edit_in(room, folder):
    """Returns the name of the edit that a copy of a crate's folder has, or a word for a copy with none."""
    for edit in sorted(glob.glob(f"{folder}/must-fail/*.edit")):
        texts = texts_with(edit, folder)
        if all(text_of(f"{room}/{path}") == text for path, text in texts.items()):
            return os.path.basename(edit).removesuffix(".edit")
    return "none"


def seen(process, session):
    """Returns what a process of the prover is called, and its seconds of processor time; None for any process that is
    none of the prover's, or of another session."""
    try:
        with open(f"/proc/{process}/comm") as it:
            if it.read().strip() not in PROVER:
                return None
        with open(f"/proc/{process}/stat") as it:
            fields = it.read().rpartition(")")[2].split()
        with open(f"/proc/{process}/cmdline") as it:
            words = it.read().split("\0")
        room = os.readlink(f"/proc/{process}/cwd")
    except OSError:
        return None
    if int(fields[3]) != session:
        return None
    return (process, fields[19]), words, room, sum(map(int, fields[11:13])) / TICKS


def row_of(crate, cells):
    """Returns a row of the table that a run prints."""
    return f"{crate:32}" + "".join(f"{cell!s:>8}" for cell in cells)


def write(log):
    """Puts the last table of a run's output into the page."""
    lines = text_of(log).split("\n")
    heads = [at for at, line in enumerate(lines) if line == row_of("crate", PARTS)]
    if not heads:
        sys.exit(f"{log}: no table of tools/gate.py")
    rows = []
    for line in lines[heads[-1] + 1 :]:
        if not (m := re.fullmatch(r"(\w+)" + r" +(\d+)" * len(PARTS), line)):
            break
        rows.append((m[1], [int(cell) for cell in m.groups()[1:]]))
    at = lines[heads[-1] + 1 + len(rows)].removeprefix("seconds of processor time at ")
    large = [it for it in rows if sum(it[1]) >= SMALL]
    small = [cells for _, cells in rows if sum(cells) < SMALL]
    shown = [(f"`{crate}`", cells) for crate, cells in sorted(large, key=lambda it: -sum(it[1]))]
    shown += [(f"{len(small)} others", [sum(column) for column in zip(*small)])] if small else []
    shown += [("all", [sum(column) for column in zip(*(cells for _, cells in rows))])]
    table = "".join(f"| {crate} | {' | '.join(map(str, cells))} |\n" for crate, cells in shown)
    head = f"Seconds of processor time, at {at}, written by `tools/gate.py --write`:\n\n| Crate | Proof | Second proof | Edits | Tests |\n|---|---|---|---|---|\n"
    page = text_of(PAGE)
    new = re.sub(r"(?<=^## By crate\n\n).*?(?=^## )", lambda _: f"{head}{table}\n", page, flags=re.S | re.M)
    with open(PAGE, "w", encoding="utf-8") as it:
        it.write(new)


def main(top, command):
    started, names, times = time.time(), {}, {}
    try:
        running = subprocess.Popen(command, cwd=top, start_new_session=True)
    except OSError as error:
        sys.exit(f"gate: {command[0]} does not start: {error.strerror}")
    while running.poll() is None:
        for process in filter(str.isdigit, os.listdir("/proc")):
            it = seen(process, running.pid)
            if it is None or "--crate-name" not in it[1]:
                continue
            key, words, room, spent = it
            if key not in names:
                crate = words[words.index("--crate-name") + 1]
                is_edit = os.path.basename(room).startswith("rt-edit-")
                names[key] = crate, edit_in(room, f"{top}/crates/{crate}") if is_edit else "tests" if "--test" in words else "proof"
            times[key] = spent
        time.sleep(1)
    sums = collections.Counter()
    for key, (crate, name) in names.items():
        sums[crate, {"none": "second"}.get(name, name if name in PARTS else "edits")] += times[key]
    order = list(dict.fromkeys(crate for crate, _ in sums))
    print("\n" + row_of("crate", PARTS))
    for crate in order:
        print(row_of(crate, [round(sums[crate, part]) for part in PARTS]))
    git = ["git", "-C", top, "log", "-1", "--format=%h %cs"]
    print(f"seconds of processor time at {subprocess.run(git, capture_output=True, text=True).stdout.strip()}, {os.cpu_count()} cores")
    used = resource.getrusage(resource.RUSAGE_CHILDREN)
    print(f"these in all: {sum(sums.values()) / 60:.1f} minutes of processor time")
    print(f"the command in all: {(used.ru_utime + used.ru_stime) / 60:.1f}, and {(time.time() - started) / 60:.1f} of the clock")
    print("\nthe dearest edits:")
    edits = [(times[key], *names[key]) for key in names if names[key][1] not in ("proof", "tests", "none")]
    for spent, crate, name in sorted(edits, reverse=True)[:20]:
        print(f"{spent:6.0f}  {crate}/{name}")
    return running.returncode


if __name__ == "__main__":
    words = sys.argv[1:]
    top = HERE
    if words in (["--help"], ["-h"]):
        print(__doc__.strip())
        sys.exit(0)
    is_option = words[:1] and words[0].startswith("-") and words[0] not in ("--write", "-C")
    if words[:1] == ["--write"] and len(words) != 2 or words == ["-C"] or is_option:
        print("usage: " + __doc__.partition("usage: ")[2].partition("\n\n")[0], file=sys.stderr)
        sys.exit(2)
    if words[:1] == ["--write"] and len(words) == 2:
        sys.exit(write(words[1]))
    if words[:1] == ["-C"] and len(words) > 1:
        top, words = os.path.realpath(words[1]), words[2:]
    sys.exit(main(top, words or ["rt", "ci"]))
