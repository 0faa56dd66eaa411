#!/usr/bin/env python3
"""Holds the tables of Unicode's white space and punctuation: in code (mdinline_emphasis/src/unicode.rt), and in specs
(mdinline_emphasis/specs/Unicode.antt), which has lists of its own, so that the prover refuses an entry of the code that differs.

usage: tools/tables.py             compares the two with one another, and each with Python's unicodedata. Ends with 1 if they differ in
                                   another code point than one that Python's version of Unicode has not assigned
       tools/tables.py --write ROWS    writes both from the kit's rows of General_Category (`ucd_category/specs/GeneralCategoryRows.antt`,
                                   lines `(0x0021, 0x0023, OtherPunctuation)`), neighbours joined
"""

import os
import re
import sys
import unicodedata

sys.dont_write_bytecode = True
import usage  # noqa: E402

TOP = os.path.dirname(os.path.dirname(os.path.realpath(__file__)))
CODE = f"{TOP}/crates/mdinline_emphasis/src/unicode.rt"
SPECS = f"{TOP}/crates/mdinline_emphasis/specs/Unicode.antt"
RANGE = re.compile(r"\(0x([0-9A-F]+), 0x([0-9A-F]+)\)")
ROW = re.compile(r"\(0x([0-9A-F]+), 0x([0-9A-F]+), (\w+)\)")
# tab, line feed, form feed, carriage return (CommonMark, "Unicode whitespace character")
CONTROLS = {9, 10, 12, 13}
IN_CODE = {"white_space": "WHITE_SPACE", "punctuation": "PUNCTUATION"}
HEAD = """-- Unicode's white space and punctuation, as CommonMark speaks of them: ranges of code points, each with its first and its last one. They
-- are of Unicode 18.0.0, the general categories of its character database, with neighbours joined. `tools/tables.py` writes them, and
-- compares them with another copy of the database.
use Rattle.std.specs.Prelude.{ℕ, List, [], ◌∷◌}
"""
SAYS = {
    "white_space": "-- the category Zs, tab, line feed, form feed and carriage return (CommonMark 0.31, 2.1, \"Unicode whitespace character\")",
    "punctuation": "-- the categories P (Pc, Pd, Ps, Pe, Pi, Pf, Po) and S (Sm, Sc, Sk, So) (CommonMark 0.31, 2.1, \"Unicode punctuation character\")",
}


def read(path):
    """Returns the text of a file."""
    with open(path, encoding="utf-8") as it:
        return it.read()


def ranges(text):
    """Returns the ranges that a text lists."""
    return [(int(first, 16), int(last, 16)) for first, last in RANGE.findall(text)]


def in_code(name):
    """Returns the ranges of a table of the code."""
    return ranges(re.search(rf"static {IN_CODE[name]}: .*?= \[(.*?)\];", read(CODE), flags=re.S)[1])


def in_specs(name):
    """Returns the ranges of a list of the specs."""
    return ranges(re.search(rf"^{name} =\n(.*?)\[\]$", read(SPECS), flags=re.S | re.M)[1])


def points(table):
    """Returns the code points of a table."""
    return {code for first, last in table for code in range(first, last + 1)}


def joined(codes):
    """Returns code points as ranges, neighbours joined."""
    table = []
    for code in sorted(codes):
        if table and table[-1][1] + 1 == code:
            table[-1] = (table[-1][0], code)
        else:
            table.append((code, code))
    return table


def rows(entries, between, width):
    """Returns entries in lines, each line up to a width."""
    lines = [""]
    for entry in entries:
        more = f"{lines[-1]}{between if lines[-1] else '    '}{entry}"
        if len(more) > width:
            lines.append(f"    {entry}")
        else:
            lines[-1] = more
    return lines


def write(path):
    """Writes both tables from rows of General_Category."""
    of = {"white_space": set(CONTROLS), "punctuation": set()}
    for first, last, category in ROW.findall(read(path)):
        if category == "SpaceSeparator":
            of["white_space"] |= points([(int(first, 16), int(last, 16))])
        elif category.endswith(("Punctuation", "Symbol")):
            of["punctuation"] |= points([(int(first, 16), int(last, 16))])
    code, specs = read(CODE), HEAD
    for name, codes in of.items():
        table = [f"(0x{first:04X}, 0x{last:04X})" for first, last in joined(codes)]
        inside = "\n".join(line + "," for line in rows(table, ", ", 108))
        shape = rf"static {IN_CODE[name]}: \[\(u32, u32\); \d+\] = \[.*?\];"
        code = re.sub(shape, f"static {IN_CODE[name]}: [(u32, u32); {len(table)}] = [\n{inside}\n];", code, flags=re.S)
        inside = "\n".join(line + " ∷" for line in rows(table, " ∷ ", 138))
        specs += f"\n{SAYS[name]}\nunfoldable pub {name} : List (ℕ × ℕ)\n{name} =\n{inside} []\n"
    for to, text in ((CODE, code), (SPECS, specs)):
        with open(to, "w", encoding="utf-8") as it:
            it.write(text)


def of_python(name):
    """Returns the code points of a class by Python's unicodedata, and those that it has not assigned."""
    category = {code: unicodedata.category(chr(code)) for code in range(0x110000)}
    if name == "white_space":
        there = {code for code, is_in in category.items() if is_in == "Zs"} | CONTROLS
    else:
        there = {code for code, is_in in category.items() if is_in[0] in "PS"}
    return there, {code for code, is_in in category.items() if is_in == "Cn"}


def check():
    """Compares, and prints what differs. Returns whether all is well."""
    well = True
    for name in IN_CODE:
        there, free = of_python(name)
        if in_code(name) != in_specs(name):
            print(f"tables: {name}: code and specs differ")
            well = False
        for where, table in (("code", in_code(name)), ("specs", in_specs(name))):
            codes = points(table)
            if table != joined(codes):
                print(f"tables: {name} in {where}: not sorted, or neighbours are not joined")
                well = False
            wrong = sorted((codes ^ there) - free)
            for code in wrong:
                print(f"tables: {name} in {where}: U+{code:04X} {'is not there' if code in there else 'is too much'}")
            well = well and not wrong
            print(f"{name} in {where}: {len(table)} ranges, {len(codes)} code points; {len(codes - there)} that Unicode {unicodedata.unidata_version} has not assigned")
    return well


def main():
    parser = usage.Words(__doc__)
    parser.add_argument("--write", metavar="ROWS")
    rows_of = parser.parse_args().write
    if rows_of:
        write(rows_of)
    elif not check():
        sys.exit(1)


if __name__ == "__main__":
    main()
