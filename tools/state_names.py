#!/usr/bin/env python3
"""Copies standard input to standard output, and names states: for `record {number = 290}`, as the checker prints a state, it
writes the name of the state. What a table's `misfits` prints can so be read.

usage: rt check 2>&1 | tools/state_names.py
"""

import os
import re
import sys

sys.dont_write_bytecode = True
import usage  # noqa: E402

TOP = os.path.dirname(os.path.dirname(os.path.realpath(__file__)))
CONST = re.compile(r"pub const (\w+): Name = Name \{ number: (\d+) \};")


def main():
    usage.Words(__doc__).parse_args()
    with open(f"{TOP}/crates/markdown_base/src/state.rt", encoding="utf-8") as source:
        names = {number: name for name, number in CONST.findall(source.read())}
    for line in sys.stdin:
        sys.stdout.write(re.sub(r"record \{ ?number = (\d+);? ?\}", lambda it: names.get(it[1], it[0]), line))


if __name__ == "__main__":
    main()
