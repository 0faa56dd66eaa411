#!/usr/bin/env python3
"""Holds what modules of specs and proofs import: each `use Rattle.CRATE.specs.M.{names}` (or proofs) leads to a file that has these names
or passes them on, in crates/ and, if the toolchain is installed, in std. The prover says so only after it loaded all crates below.

usage: tools/imports.py     prints each import that leads nowhere, and ends with 1 if there is one

Of a module that is made of code, as `specs.declared.MODULE.TYPE` or `proofs.MODULE.FUNCTION.Goals`, each part and each name has to be a
word of the code of its crate. Imports from other roots than `Rattle` are not looked at.
"""

import functools
import glob
import os
import re
import shutil
import sys

TOP = os.path.dirname(os.path.dirname(os.path.realpath(__file__)))
sys.path.insert(0, f"{TOP}/wrong-bodies")
sys.dont_write_bytecode = True
import table  # noqa: E402
import usage  # noqa: E402

STD = os.path.join(os.path.dirname(os.path.dirname(os.path.realpath(shutil.which("rattle") or "/"))), "rattle")
# Words of modules that are made of code, and names in them
MADE = {"Goals", "Given", "Met", "Key", "Statement", "Code", "Proof", "TheLaws", "TheImpl", "TheVariants", "TheConstants", "TheInside"}
FORMS = ("Inside", "Ghosts")
IMPORT = re.compile(r"^ *(?:unfoldable )?(pub |ghost )?use Rattle\.(\w+)\.(specs|proofs)((?:\.[^\s.{};]+)*)(?:\.\{([^}]*)\})?(?: as ([^\s;]+))?", re.M)
OTHER = re.compile(r"^ *(?:unfoldable )?pub use (?!Rattle\.)(\S+?)(?:\.\{([^}]*)\})?(?: as (\S+))?$", re.M)
WORD = r"[^\s(){}:,;]+"
TYPE = re.compile(rf"^( *)(?:abbrev )?(?:pub )?(?:abbrev )?(data|record) ({WORD})")
PUBLIC = re.compile(rf"^ *(?:\w+ )*?pub (?!mod )(?:(?:abbrev|data|record|module|ruleset) )?({WORD}(?: {WORD})*?)(?= ?[:({{=]| where|$)")
MODULE = re.compile(rf"^ *pub mod ({WORD})", re.M)


def read(path):
    """Returns the text of a file, without its lines of comments."""
    with open(path, encoding="utf-8") as it:
        return re.sub(r"^ *(--|//).*", "", it.read(), flags=re.M)


def names_in(words):
    """Returns the names between braces, each with the name that it has here; a module that is imported itself has none."""
    pairs = [it.strip().partition(" as ") for it in (words or "").split(",") if it.strip()]
    return [(name.strip(), known.strip() or name.strip()) for name, _, known in pairs]


@functools.cache
def folder_of(crate, part):
    """Returns the folder of specs, proofs or src of a crate that is here or in the toolchain, or None."""
    return next((it for it in (f"{TOP}/crates/{crate}/{part}", f"{STD}/{crate}/{part}") if os.path.isdir(it)), None)


@functools.cache
def file_of(crate, part, modules):
    """Returns the file of a module, or None."""
    path = f"{folder_of(crate, part)}/{'/'.join(modules) or 'Lib'}.antt"
    return path if os.path.isfile(path) else None


class Module:
    """What others can name of a module: its own public names, those of its types (constructors and fields), and what it passes on."""

    def __init__(self, path):
        text = read(path)
        self.own, self.types, self.passed = set(), {}, {}
        self.modules = set(MODULE.findall(text))
        for found in IMPORT.finditer(text):
            if found[1] == "pub ":
                modules = tuple(found[4].split(".")[1:])
                itself = [(None, found[6] or (modules or (found[2],))[-1])]
                self.passed |= {known: (found[2], found[3], modules, name) for name, known in (itself if found[5] is None else names_in(found[5]))}
        for found in OTHER.finditer(text):
            self.own |= {found[3] or found[1].split(".")[-1]} if found[2] is None else {known for _, known in names_in(found[2])}
        self.read([line for line in text.split("\n") if line.strip()])

    def read(self, lines):
        """Reads its definitions: a type goes as far as lines stand behind it."""
        now, deep, is_data = None, 0, False
        for line in lines:
            spaces = len(line) - len(line.lstrip())
            if now and spaces > deep:
                names = set(re.findall(WORD, re.split(r"[:({]", line)[0])) - {"pub", "constructor"}
                self.types[now] |= names
                self.own |= names if is_data or "constructor" in line else set()
                continue
            found = TYPE.match(line)
            now, deep, is_data = (found[3], spaces, found[2] == "data") if found else (None, 0, False)
            if found:
                self.types[now] = set(re.findall(WORD, line.partition(" where")[2]))
                self.own |= self.types[now] if is_data else set()
            if found := PUBLIC.match(line):
                self.own |= set(found[1].split())


@functools.cache
def module(path):
    return Module(path)


@functools.cache
def words_of(crate):
    """Returns the words of the code of a crate, and of the names of its files."""
    folder = folder_of(crate, "src")
    files = glob.glob(f"{folder}/**/*.rt", recursive=True) if folder else []
    return {word for it in files for word in re.findall(r"\w+", os.path.relpath(it, folder) + "\n" + read(it))}


def is_made(part, modules):
    """Returns whether a module is made of code: what a type or a contract is, or what a proof has to show."""
    return part == "specs" and modules[:1] in (("declared",), ("contracts",)) or part == "proofs" and bool(MADE & set(modules))


@functools.cache
def of_code(crate, modules, name):
    """Returns what is no word of the code that a module is made of, or None. The code of a facade is that of its parts."""
    wanted = [it.split("+")[0] for it in modules if it not in MADE and it not in ("declared", "contracts")]
    wanted += [name] if name and modules[0] == "declared" and not name.startswith(FORMS) else []
    words = set().union(*(words_of(it) for it in (crate, *table.crates().get(crate, ()))))
    # (the name of an `impl` is that of a type and that of a trait)
    return next((it for it in wanted if not any({it[:at], it[at:] or it} <= words for at in range(1, len(it) + 1))), None)


@functools.cache
def lost(crate, part, modules, name):
    """Returns what of a name of a module is not there, or None; without a name, what of the module itself."""
    if is_made(part, modules) and not file_of(crate, part, modules):
        return of_code(crate, modules, name) if words_of(crate) else None
    there = next((at for at in range(len(modules), -1, -1) if file_of(crate, part, modules[:at])), None)
    if there is None:
        return f"Lib of {part}"
    it, rest = module(file_of(crate, part, modules[:there])), modules[there:] + ((name,) if name else ())
    if not rest or name and rest == (name,) and name in it.modules:
        return None
    first, behind = rest[0], rest[1:]
    if first in it.passed:
        to, part_to, modules_to, name_to = it.passed[first]
        on = modules_to + ((name_to,) if name_to else ()) + behind
        is_whole = not name_to and not behind
        return (lost(to, part_to, on, None) if is_whole else lost(to, part_to, on[:-1], on[-1])) if folder_of(to, "src") else None
    if first in it.own:
        return next((word for word in behind[:1] if word not in it.types.get(first, {word})), None)
    return first


def disagreements():
    """Returns each import that leads nowhere."""
    failed = []
    patterns = ("specs/**/*.antt", "proofs/**/*.antt", "src/**/*.rt")
    for path in sorted(it for pattern in patterns for it in glob.glob(f"{TOP}/crates/*/{pattern}", recursive=True)):
        text = read(path)
        for found in IMPORT.finditer(text):
            _, crate, part, dotted, words, _ = found.groups()
            place = f"{os.path.relpath(path, TOP)}:{text.count(chr(10), 0, found.start()) + 1}"
            if not folder_of(crate, "src"):
                failed += [f"{place}: there is no crate {crate}"] if os.path.isdir(STD) else []
                continue
            for name, _ in names_in(words) if words is not None else [(None, None)]:
                if it := lost(crate, part, tuple(dotted.split(".")[1:]), name):
                    failed.append(f"{place}: Rattle.{crate}.{part}{dotted} has no {it}")
    return failed


if __name__ == "__main__":
    usage.Words(__doc__).parse_args()
    found = disagreements()
    print("\n".join(found), end="\n" if found else "")
    sys.exit(1 if found else 0)
