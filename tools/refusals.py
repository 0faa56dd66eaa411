#!/usr/bin/env python3
"""Makes one allocation fail in each test of mdtests and of the other crates of tests, `mdtests_..`: the first one, then the second,
and so on, up to a given number. Prints a row for each: how many tests passed, and how many ended as memory ran out.

usage: tools/refusals.py [COUNT]     up to this number; without it, 20

Some tests must pass whichever allocation fails: the modules no_memory, and the tests that memory is no fault of the reader. The other
tests of the programs may fail, as they compare without showing. Any other test passes, ends for want of memory and says so, or shows "out of
memory" in what it compares. The status is 1 if anything else is seen. Needs rt.
"""

import glob
import os
import re
import subprocess
import sys

sys.dont_write_bytecode = True
import usage  # noqa: E402

CRATES = os.path.join(os.path.dirname(os.path.abspath(__file__)), "../crates")
# What the names of the tests begin with that have to pass, and of those that compare without showing.
PASSES = (
    "mdtests_engine::no_memory::",
    "mdtests_machines::no_memory::",
    "mdtests_program::calls::memory_is_no_fault_of_the_reader",
    "mdtests_html::program::memory_is_no_fault_of_the_reader",
)
SILENT = ("mdtests_program::calls::", "mdtests_program::written::", "mdtests_html::program::")
REFUSED = re.compile(r"Error: AllocError|Error: Memory$|left: .*out of memory|\bmemory\b", re.M)


def crates():
    """The crates of tests."""
    for folder in sorted(glob.glob(f"{CRATES}/mdtests*")):
        sources = glob.glob(f"{folder}/src/**/*.rt", recursive=True)
        if any("#[test]" in open(path, encoding="utf-8").read() for path in sources):
            yield os.path.basename(folder)


def blocks(said):
    """Each test's name, whether it passed, and what it said."""
    for block in re.split(r"^test (?!result)", said, flags=re.M)[1:]:
        line, _, rest = block.partition("\n")
        name, _, word = line.partition(" ... ")
        yield name, word == "ok", rest


def ran(crate, number):
    """Runs the tests of a crate, with the growth of this number refused in each: as `blocks`, with the crate before each name."""
    words = ["rt", "try", "--test", "--seconds", "400", "--fail-alloc", str(number)]
    it = subprocess.run(words, cwd=f"{CRATES}/{crate}", capture_output=True, text=True, errors="replace")
    return [(f"{crate}::{name}", passed, rest) for name, passed, rest in blocks(it.stdout + it.stderr)]


def refuse(number):
    """Refuses the growth of this number in each test: how many passed, how many did not, and what is seen and may not be."""
    found = {crate: ran(crate, number) for crate in crates()}
    tests = [test for of_crate in found.values() for test in of_crate]
    failed = [(name, rest) for name, passed, rest in tests if not passed]
    other = [
        name
        for name, rest in failed
        if name.startswith(PASSES) or not name.startswith(SILENT) and not REFUSED.search(rest)
    ]
    other += [f"no test {it} ran" for it in PASSES if not any(name.startswith(it) for name, _, _ in tests)]
    other += [f"no test of {crate} ran" for crate, of_crate in found.items() if not of_crate]
    return len(tests) - len(failed), len(failed), other


def main():
    parser = usage.Words(__doc__)
    parser.add_argument("count", nargs="?", type=int, default=20, metavar="COUNT")
    most = parser.parse_args().count
    bad = False
    print("| Growth | Passed | Refused |")
    print("|---|---|---|")
    for number in range(1, most + 1):
        passed, refused, other = refuse(number)
        print(f"| {number} | {passed} | {refused} |", flush=True)
        for name in other:
            print(f"refusals: growth {number}: {name}", file=sys.stderr, flush=True)
        bad = bad or bool(other)
    return 1 if bad else 0


if __name__ == "__main__":
    sys.exit(main())
