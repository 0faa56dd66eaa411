#!/usr/bin/env python3
"""Prints the files that a definition stands on, the lowest first: of each, how many of its definitions are needed, and how many lines these have.
A definition stands on those that it names, and on what these stand on; files with no such definition are not listed, though they may be
imported by one that is.

usage: tools/reading.py [NAME [MODULE]]    `document_events` of `mddocument.specs.DocumentEvents`, if no name is given
       tools/reading.py --check            prints where the list of docs/READING.md differs from these files, and ends with 1 if it does
"""

import os
import re
import sys

sys.dont_write_bytecode = True
import usage  # noqa: E402

TOP = os.path.dirname(os.path.dirname(os.path.realpath(__file__)))
HEAD = re.compile(r"^(?P<space> *)(?:pub )?(?P<kind>abbrev|record|data|enum)?(?: ?pub)? ?(?P<name>[^ :(){}]+)(?: [({].*)? : ")
WHOLE = ("document_events", "mddocument.specs.DocumentEvents")
MADE = re.compile(r" +(?:pub )?([^\s:(){}]+)(?: [({].*)? : ")
WORD = re.compile(r"[^\s(){}\[\],;λ∷→×≡]+")


def module_of(path):
    return os.path.relpath(path, f"{TOP}/crates")[: -len(".antt")].replace("/", ".")


def path_of(module):
    return f"{TOP}/crates/{module.replace('.', '/')}.antt"


class File:
    """A file of specs: what it imports, by the name it has there, and its definitions, by name; `inside` has the definition of each
    constructor."""

    def __init__(self, module):
        self.module, self.names, self.modules, self.parts, self.lines, self.inside = module, {}, {}, {}, {}, {}
        with open(path_of(module), encoding="utf-8") as it:
            text = it.read()
        self.comment = text.split("\n", 1)[0].removeprefix("-- ")
        current, header = None, ""
        for line in text.split("\n"):
            used = line.startswith(("use ", "pub use ")) and re.match(r"(?:pub )?use Rattle\.([\w.]+?)(?:\.\{(.*)\}| as (\S+))?$", line)
            if used:
                if used.group(3):
                    self.modules[used.group(3)] = used.group(1)
                elif used.group(2) is None:
                    self.modules[used.group(1).split(".")[-1]] = used.group(1)
                for said in re.split(r", *", used.group(2) or ""):
                    if said:
                        name, _, other = said.partition(" as ")
                        self.names[other or name] = (used.group(1), name)
                continue
            said = line.strip()
            if said.startswith("module _"):
                header, current = (header if line.startswith(" ") else "") + line + "\n", None
                continue
            if said.startswith("--") or not said:
                continue
            if not line.startswith(" ") and not HEAD.match(line):
                header = header if current else ""
            found = HEAD.match(line)
            if found and (found["kind"] or (len(found["space"]) <= 2 and not self.in_record(current))):
                header = header if line.startswith(" ") else ""
                current = found["name"]
                self.parts.setdefault(current, header)
                self.lines.setdefault(current, 0)
            if current:
                if (made := MADE.match(line)) and re.search(r"\b(data|enum)\b", self.parts[current]):
                    self.inside.setdefault(made[1], current)
                self.parts[current] += line + "\n"
                self.lines[current] += 1

    def in_record(self, current):
        """Whether lines behind a definition are its fields or constructors."""
        return current is not None and re.search(r"\b(record|data|enum)\b", self.parts[current]) is not None


class Library:
    """The files of specs of all crates, read once, and where names lead: through what a file imports, and through the lists of facades."""

    def __init__(self):
        self.files, self.lists, self.met, self.found = {}, {}, {}, {}

    def file(self, module):
        """Returns a file of specs, or None if there is none: of std, or what code declares."""
        if module not in self.files:
            is_spec = ".specs." in module and os.path.isfile(path_of(module))
            self.files[module] = File(module) if is_spec else None
        return self.files[module]

    def placed(self, module):
        """Returns where a module stands that a facade may pass on."""
        crate, _, rest = module.partition(".specs.")
        if not rest or os.path.isfile(path_of(module)):
            return module
        if crate not in self.lists:
            path = path_of(f"{crate}.specs.Lib")
            text = open(path, encoding="utf-8").read() if os.path.isfile(path) else ""
            found = re.findall(r"^pub use Rattle\.([\w.]+)\.(\w+)(?: as (\w+))?$", text, flags=re.M)
            self.lists[crate] = {other or name: f"{front}.{name}" for front, name, other in found}
        first, dot, inner = rest.partition(".")
        return self.lists[crate].get(first, f"{crate}.specs.{first}") + dot + inner

    def defined(self, module, name):
        """Returns the module and the definition that a name of a module leads to, or None if it leads out of specs."""
        key = (module, name)
        if key not in self.met:
            self.met[key] = None
            if file := self.file(self.placed(module)):
                what = name if name in file.parts else file.inside.get(name)
                self.met[key] = (file.module, what) if what else self.defined(*file.names[name]) if name in file.names else None
        return self.met[key]

    def cited(self, text, names, modules, own=None):
        """Returns the definitions that a text cites, in their order in it. `names` are those that are imported, `modules` those of whole
        files, and `own` is the module in which the text stands."""
        found, here = {}, self.files[own] if own else None
        for word in dict.fromkeys(WORD.findall(text)):
            for name in dict.fromkeys((word, word.split(".")[0], word.strip(".:"))) if "." in word or ":" in word else (word,):
                at = None
                if here and (name in here.parts or name in here.inside):
                    at = (own, name if name in here.parts else here.inside[name])
                elif name in names:
                    at = self.defined(*names[name])
                elif name in modules and "." in word:
                    at = self.defined(modules[name], word.split(".")[1])
                if at:
                    found[at] = None
        return list(found)

    def cited_by(self, at):
        """Returns the definitions that a definition cites, without itself."""
        if at not in self.found:
            file = self.files[at[0]]
            self.found[at] = [it for it in self.cited(file.parts[at[1]], file.names, file.modules, at[0]) if it != at]
        return self.found[at]

    def under(self, tops):
        """Returns these definitions and all that they stand on, each with those that it cites."""
        found, left = {}, list(tops)
        while left:
            at = left.pop()
            if at not in found:
                found[at] = self.cited_by(at)
                left += found[at]
        return found


def stands_on(name, module):
    """Returns the files that a definition stands on, each with the definitions that are needed, in the order in which they are met from below."""
    library, needed, order = Library(), {}, []

    def need(at):
        if at[1] in needed.setdefault(at[0], []):
            return
        needed[at[0]].append(at[1])
        for it in library.cited_by(at):
            need(it)
        if at[0] not in order:
            order.append(at[0])

    if top := library.defined(module, name):
        need(top)
    return [(it, library.files[it], needed[it]) for it in order]


def listed():
    """Returns the files that docs/READING.md lists under "To read" behind the name `document_events`: `CRATE`: `File`, `File`."""
    with open(f"{TOP}/docs/READING.md", encoding="utf-8") as it:
        part = it.read().split("## To read\n")[1].split("\n## ")[0]
    crate, files = "", []
    for word in re.findall(r"`([^`]+)`", part.split("`document_events`", 1)[1]):
        word = word.replace("..", "mdconstructs", 1) if word.startswith("..") else word
        if os.path.isdir(f"{TOP}/crates/{word}"):
            crate = word
        elif re.fullmatch(r"[A-Z]\w+", word):
            files.append(f"{crate}.specs.{word}")
    return files


def disagreements():
    """Returns what the list of docs/READING.md has too much or too little."""
    needed, said = {it for it, _, _ in stands_on(*WHOLE)}, listed()
    return [f"docs/READING.md: `document_events` stands on {it} too" for it in sorted(needed - set(said))] + [
        f"docs/READING.md: `document_events` does not stand on {it}" for it in said if it not in needed
    ]


def main():
    parser = usage.Words(__doc__)
    parser.add_argument("--check", action="store_true")
    parser.add_argument("name", nargs="?", default=WHOLE[0], metavar="NAME")
    parser.add_argument("module", nargs="?", default=WHOLE[1], metavar="MODULE")
    given = parser.parse_args()
    if given.check:
        failed = disagreements()
        print("\n".join(failed), end="\n" if failed else "")
        sys.exit(1 if failed else 0)
    found = stands_on(given.name, given.module)
    if not found:
        parser.error(f"{given.module} has no {given.name}")
    for where, file, needed in found:
        lines = sum(file.lines[it] for it in needed)
        print(f"{where.replace('.specs.', ' ')}: {len(needed)} of {len(file.parts)} definitions, {lines} lines")
    print(f"{len(found)} files")


if __name__ == "__main__":
    main()
