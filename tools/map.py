#!/usr/bin/env python3
"""Prints the map of the code: of each crate its rooms, with what is in them and their modules.

usage: tools/map.py [--files] [CRATE ..]    all crates, the lowest first, or these. With --files each file has a line, with the first
                                            sentence of its comment
       tools/map.py --check                 prints what has no room, and ends with 1 if something has none. tools/docs.py does so too

A room is said where its modules are listed, in `src/lib.rt` (or `main.rt`), `specs/Lib.antt` and `proofs/Lib.antt`: in the line of
comment above them. All modules up to the next such line are in the room. The line is `NAME: WHAT`, once in a crate, and else `NAME`.
`Prelude` needs no room, as it has what a crate's proofs cite from below, and in `proofs` no folder in small letters, as it belongs to
the module of `src` that has its name.
"""

import glob
import os
import re
import sys

sys.dont_write_bytecode = True
import usage  # noqa: E402

TOP = os.path.dirname(os.path.dirname(os.path.realpath(__file__)))
LISTS = (("src", "src/lib.rt"), ("src", "src/main.rt"), ("specs", "specs/Lib.antt"), ("proofs", "proofs/Lib.antt"))
MODULE = re.compile(r"(?:pub )?mod (\w+);?$")
COMMENT = re.compile(r"(?://|--) ([^:]+?)(?:: (.*))?$")
ROOTS = ("lib", "main", "Lib", "Prelude")


def read(path):
    with open(path, encoding="utf-8") as it:
        return it.read()


def crates():
    """Returns the names of all crates, the lowest first."""
    return re.findall(r"^(\w+)(?: staticlib)?:", read(f"{TOP}/crates.txt"), flags=re.M)


def listed(text):
    """Yields the modules that a file lists, each with the name of its room and what the line above says of it, both None if no room is said."""
    lines, name, what = text.split("\n"), None, None
    for at, line in enumerate(lines):
        if not (module := MODULE.match(line)):
            continue
        above = at - 1
        while lines[above].startswith("#["):
            above -= 1
        if at and (said := COMMENT.match(lines[above])):
            name, what = said.groups()
        yield module[1], name, what
        what = None


def modules(crate):
    """Yields the modules of a crate that are to have rooms: of each the folder, its path in it, the room, what is said of the room. A
    module may list others with rooms of their own."""
    for folder, path in LISTS:
        path = f"{TOP}/crates/{crate}/{path}"
        for module, name, what in listed(read(path)) if os.path.exists(path) else ():
            if module == "Prelude":
                continue
            yield folder, module, name, what
            inner = f"{TOP}/crates/{crate}/{folder}/{module}.rt"
            for part, room, said in listed(read(inner)) if os.path.exists(inner) else ():
                if room:
                    yield folder, f"{module}/{part}", room, said


def rooms(crate):
    """Returns the rooms of a crate, in the order in which they are met: of each what is said of it, once or more, and its modules."""
    found = {}
    for folder, module, name, what in modules(crate):
        said, of = found.setdefault(name, ([], {}))
        said += [what] if what else []
        of.setdefault(folder, []).append(module)
    return found


def disagreements():
    """Returns which modules and files have no room, and which rooms are not said."""
    failed = []
    for crate in sorted(os.path.basename(path) for path in glob.glob(f"{TOP}/crates/*")):
        found = rooms(crate)
        for name, (said, of) in found.items():
            if name is None:
                failed += [f"crates/{crate}/{folder}: no room above `mod {module}`" for folder, some in of.items() for module in some]
            elif not said:
                failed.append(f"crates/{crate}: what is in the room `{name}` is not said")
        known = {(folder, module) for _, of in found.values() for folder, some in of.items() for module in some}
        for folder in ("src", "specs", "proofs"):
            for path in sorted(glob.glob(f"{TOP}/crates/{crate}/{folder}/**/*.*t*", recursive=True)):
                file = os.path.relpath(path, f"{TOP}/crates/{crate}/{folder}")
                first = file.split("/")[0].split(".")[0]
                of_code = folder == "proofs" and "/" in file and (first[0].islower() or first[0] == "+")
                if path.endswith((".rt", ".antt")) and not of_code and first not in ROOTS and (folder, first) not in known:
                    failed.append(f"crates/{crate}/{folder}/{file}: no list has it, so it has no room")
    return failed


def first_sentence(path):
    """Returns the first sentence of a file's first comment."""
    lines = []
    for line in read(path).split("\n"):
        if not (said := re.match(r"(?://!|--) (.*)", line)):
            break
        lines.append(said[1])
    return re.split(r"(?<=[.]) (?=[A-Z`])", " ".join(lines))[0]


def show(crate, is_by_files):
    """Prints the map of a crate."""
    root = next((path for path in (f"{TOP}/crates/{crate}/src/{name}.rt" for name in ("lib", "main")) if os.path.exists(path)), None)
    print(f"{crate}: {first_sentence(root) if root else ''}")
    for name, (said, of) in rooms(crate).items():
        print(f"  {name}: {'; '.join(said)}")
        for folder, some in of.items():
            if is_by_files:
                suffix = "rt" if folder == "src" else "antt"
                for module in some:
                    print(f"    {folder}/{module}: {first_sentence(f'{TOP}/crates/{crate}/{folder}/{module}.{suffix}')}")
            else:
                print(f"    {folder}: {' '.join(some)}")


def main():
    parser = usage.Words(__doc__)
    parser.add_argument("--check", action="store_true")
    parser.add_argument("--files", action="store_true")
    parser.add_argument("crates", nargs="*", metavar="CRATE")
    given = parser.parse_args()
    if given.check:
        failed = disagreements()
        print("\n".join(failed), end="\n" if failed else "")
        sys.exit(1 if failed else 0)
    for crate in given.crates:
        if crate not in crates():
            parser.error(f"no crate {crate}")
    for crate in given.crates or crates():
        show(crate, given.files)


if __name__ == "__main__":
    main()
