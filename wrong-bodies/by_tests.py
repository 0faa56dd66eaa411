#!/usr/bin/env python3
"""Tries the wrong bodies of LIST that meet their contracts, as they return that memory ran out although there is some. No proof can
reject them, so a test must. LIST has for each the path of the test; "refusals" if only a failing allocation shows it
(tools/refusals.py); "call" if only a call of the program with the arguments "--cut 0" shows it, which has status 2; "cases" if the
program mdcases shows it, as it then does not write its stdout.

Works on a copy of the repository, from which it takes the other tests, and runs "rt try --test", once for edits that have different
tests. Prints a row for each edit, and goes on: the test rejects it ("refused"), or passes over it ("PASSED"), or it can't be applied or
compiled ("BAD EDIT"). Writes the commit of the crates into LIST for those that are rejected. The status is 1 if one is not.

usage: wrong-bodies/by_tests.py [--old] [--keep] [--show] [WORD..]

Only edits whose line in LIST has one of the words are tried; with --old only those that have no commit, or since whose commit a source
changed, by more than names of crates (changes.py). With --keep LIST stays as it is, and --show only prints them.
"""

import functools
import os
import re
import shutil
import subprocess
import sys
import tempfile
import time

sys.dont_write_bytecode = True
import table  # noqa: E402
from changes import Changes  # noqa: E402
import usage  # noqa: E402

TEST = re.compile(r"^( *)(?:///[^\n]*\n *)*#\[test\]\n *fn (\w+)\(.*?^\1\}\n", re.M | re.S)
MEMORY = "memory_is_no_fault_of_the_reader"
CALL = "call"
CASES = "cases"
ALONE = (MEMORY, CALL, CASES)


def copy(room):
    """Copies the repository's crates, without what rt made of them."""
    shutil.copytree(
        os.path.join(table.TOP, "crates"),
        os.path.join(room, "crates"),
        ignore=shutil.ignore_patterns("out", "must-fail"),
    )
    for name in ("crates.txt", "HANDLES"):
        shutil.copy(os.path.join(table.TOP, name), room)


def keep(crate, wanted):
    """Removes all tests from a crate except the ones with these names."""
    for folder, _, names in os.walk(os.path.join(crate, "src")):
        for name in names:
            path = os.path.join(folder, name)
            text = open(path, encoding="utf-8").read()
            rest = TEST.sub(lambda found: found[0] if found[2] in wanted else "", text)
            open(path, "w", encoding="utf-8").write(rest)


def tests_of(row):
    """Returns the crate of the tests, and the name of the test."""
    if row.who == CALL:
        return "mdevents", CALL
    if row.who == CASES:
        return "mdcases", CASES
    if row.who == "refusals":
        return "mdtests_program", MEMORY
    return row.who.split("::")[0], row.who.split("::")[-1]


def groups(rows):
    """The edits that are tried together: edits of one crate with different tests. Each is then met only by its own test."""
    found = []
    for row in rows:
        tests, wanted = tests_of(row)
        place = open(os.path.join(table.TOP, table.edit_of(row)), encoding="utf-8").read().split("\nnew:")[0]
        for group in found:
            alone = wanted in ALONE or group[0][2] in ALONE
            if not alone and group[0][1] == tests and all(g[2] != wanted and g[3] != place for g in group):
                group.append((row, tests, wanted, place))
                break
        else:
            found.append([(row, tests, wanted, place)])
    return found


def tried(group):
    """Tries a group. Returns what each edit came to: refused, PASSED or BAD EDIT, with why."""
    came = {}
    with tempfile.TemporaryDirectory() as room:
        copy(room)
        crate = os.path.join(room, "crates", group[0][1])
        left = {}
        for row, _, wanted, _ in group:
            folder = os.path.join(room, "crates", row.crate)
            texts, why = table.apply(os.path.join(table.TOP, table.edit_of(row)), folder)
            if texts is None:
                came[row] = "BAD EDIT", why
                continue
            left[wanted] = row
            for file, text in texts.items():
                open(os.path.join(folder, file), "w", encoding="utf-8").write(text)
        keep(crate, left)
        said = ""
        if CALL in left:
            words = ["rt", "try", "--", "--cut", "0"]
            ran = subprocess.run(words, cwd=crate, input="", capture_output=True, text=True)
            said = ran.stdout + ran.stderr
            ended = re.search(r"^run=ended status=(\d+)", said, re.M)
            if ended:
                came[left.pop(CALL)] = ("refused", "by its status") if ended[1] != "2" else ("PASSED", "status 2")
        if CASES in left:
            given, output, args = (open(f"{crate}/{name}", encoding="utf-8").read() for name in ("stdin", "stdout", "args"))
            words = ["rt", "try", "--seconds", "400", "--", *args.splitlines()]
            ran = subprocess.run(words, cwd=crate, input=given, capture_output=True, text=True, errors="replace")
            said = ran.stdout + ran.stderr
            if re.search(r"^run=ended", said, re.M):
                came[left.pop(CASES)] = ("PASSED", "its stdout") if output in ran.stdout else ("refused", "by what it writes")
        for number in range(9 if MEMORY in left else 1 if left else 0):
            words = ["rt", "try", "--test", "--seconds", "400"]
            words += ["--fail-alloc", str(number)] if number else []
            ran = subprocess.run(words, cwd=crate, capture_output=True, text=True, errors="replace")
            said = ran.stdout + ran.stderr
            for wanted in [w for w in left if number == 0 or w == MEMORY]:
                if re.search(rf"^test (?:\S*::)?{wanted} \.\.\. FAILED", said, re.M):
                    came[left.pop(wanted)] = "refused", wanted
        for wanted, row in left.items():
            passed = re.search(rf"^test (?:\S*::)?{wanted} \.\.\. ok", said, re.M)
            came[row] = ("PASSED", wanted) if passed else ("BAD EDIT", said[-1500:])
    bad = [it for it in group if came[it[0]][0] == "BAD EDIT"]
    if bad and len(group) > 1:
        # what can't be compiled hides the others of its group, and one edit may take away the text of another
        for it in bad:
            came.update(tried([it]))
    return came


@functools.cache
def changes(commit):
    """Returns what changed since a commit."""
    return Changes(commit)


def is_old(row):
    """Returns whether LIST has no commit for a row, or a source changed since: of the test's crate, of the edit's, or below them."""
    commit = table.tried_at(row)
    own = {crate for it in (row.crate, tests_of(row)[0]) for crate in (it, *table.below(it))}
    parts = tuple(f"crates/{crate}/src/" for crate in own)
    return not commit or bool(changes(commit).crates & own) or any(file.startswith(parts) for file in changes(commit).texts)


def main():
    parser = usage.Words(__doc__)
    for word in ("--old", "--keep", "--show"):
        parser.add_argument(word, action="store_true")
    parser.add_argument("words", nargs="*")
    given = parser.parse_intermixed_args()
    words = given.words
    at, is_clean = table.state()
    rows = [row for row in table.read()[1] if row.who not in ("gate", "prover", "?")]
    rows = [row for row in rows if not words or any(word in " ".join(row) for word in words)]
    rows = [row for row in rows if not given.old or is_old(row)]
    if given.show:
        print("\n".join(map(table.edit_of, rows)))
        return 0
    bad = 0
    for group in groups(rows):
        begun = time.time()
        came = tried(group)
        for row, (result, why) in came.items():
            print(f"{result:<8}  {table.edit_of(row)}  {why}", flush=True)
            bad += result != "refused"
        print(f"# {len(group)} edits together, {time.time() - begun:.0f} seconds", flush=True)
        done = [row for row in came if came[row][0] == "refused"]
        if is_clean and not given.keep:
            table.record(done, at)
    print(f"# {len(rows) - bad} of {len(rows)} refused")
    return 1 if bad else 0


if __name__ == "__main__":
    sys.exit(main())
