#!/usr/bin/env python3
"""Makes a crate with a machine that is proved and tested: the headings of crates/mdexamples, under the crate's own name. Change it
into a machine of yours, as docs/MACHINE-1.md says.

usage: tools/new_machine.py NAME     NAME is small letters, digits and `_`: the crate is crates/NAME, with a line in crates.txt
"""

import os
import re
import sys

sys.dont_write_bytecode = True
import docs  # noqa: E402
import usage  # noqa: E402

FROM = "crates/mdexamples"
TESTS = "crates/mdtests_examples/src/examples.rt"
LIB = """//! A machine of headings.
#![tactic(auto)]

// headings: the machine, its laws and its tests
pub mod headings;
#[cfg(test)]
mod tests;
"""


def tests():
    """Returns the tests of headings, which need no other crate's function."""
    lines = docs.read(TESTS).split("\n")
    start = next(i for i, line in enumerate(lines) if line.startswith("fn headings_have_up_to_six_signs"))
    test = "\n".join(lines[start - 1 : lines.index("}", start) + 1])
    test = re.sub(r"assert_shown\(\s*&rt,\s*made,\s*(.*?),\s*\);\n}", r'let made = made.expect(&rt, "memory");\n    assert_eq!(rt; made.as_str(), \1);\n}', test, flags=re.S)
    used = docs.taken(TESTS, ["lines_of", "refused", "lines"]).rstrip("\n")
    used = used.replace("use markdown::", "use crate::headings::Headings;\nuse markdown::", 1)
    return f"//! Tests of headings, with expected lines worked by hand.\n\n{used}\n\n{test}\n"


def files(crate):
    """Returns the text of each file, by its path in the crate."""
    called = docs.taken(f"{FROM}/proofs/Called.antt", ["headings_called"])
    made = {
        "src/lib.rt": LIB,
        "src/headings.rt": docs.read(f"{FROM}/src/headings.rt"),
        "src/tests.rt": tests(),
        "specs/Lib.antt": "-- headings\npub mod Headings\npub mod Laws\n",
        "specs/Headings.antt": docs.read(f"{FROM}/specs/Headings.antt"),
        "specs/Laws.antt": "-- The laws of the machine.\npub mod Headings\n",
        "specs/Laws/Headings.antt": docs.read(f"{FROM}/specs/Laws/Headings.antt"),
        "proofs/Lib.antt": "-- The proof of each function is in a folder of its own, by its module.\n-- headings\npub mod Called\n",
        "proofs/Called.antt": f"-- What holds when the machine is called is what its states require.\n{called}",
    }
    return {path: text.replace("mdexamples", crate) for path, text in made.items()}


def main():
    parser = usage.Words(__doc__)
    parser.add_argument("crate", metavar="NAME")
    crate = parser.parse_args().crate
    if not re.fullmatch(r"[a-z][a-z0-9_]*", crate) or os.path.exists(f"{docs.TOP}/crates/{crate}"):
        parser.error(f"{crate} is no name, or it is there")
    made = files(crate)
    libraries = re.search(r"^mdexamples: (.*)$", docs.read("crates.txt"), flags=re.M)[1].split()
    named = {"".join(it) for it in re.findall(r"Rattle\.(\w+)|\b(\w+)::", "\n".join(made.values()))}
    for path, text in made.items():
        os.makedirs(os.path.dirname(f"{docs.TOP}/crates/{crate}/{path}"), exist_ok=True)
        with open(f"{docs.TOP}/crates/{crate}/{path}", "w", encoding="utf-8") as it:
            it.write(text)
    with open(f"{docs.TOP}/crates.txt", "a", encoding="utf-8") as it:
        it.write(f"{crate}: {' '.join(name for name in libraries if name in named)}\n")
    print(f"crates/{crate}: there `rt fmt` lays it out, `rt try --test` runs its test, and `rt check` and `rt test` prove it")


if __name__ == "__main__":
    main()
