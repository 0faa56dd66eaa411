#!/usr/bin/env python3
"""Prints the contracts of public functions: the comment, the signature and the clauses of each, with its file.

usage: tools/contracts.py WORD..     each WORD is a crate, which includes its parts, or the name of a function. Of crates and names
                                     it prints the functions with these names in these crates
       tools/contracts.py --write    writes docs/CONTRACTS.txt, where a clause that was changed or deleted is a line of a diff: of each file
                                     the clauses of public functions, of traits and of their impls, and the ghost items of these and of
                                     public types, each behind a sum of the definitions that it cites; and these definitions and all that
                                     they stand on, each behind a sum of its text. Laws are functions of `laws.rt`. tools/docs.py says if
                                     it is not today's, and which definitions are others

Crates of tests are not in docs/CONTRACTS.txt.
"""

import glob
import hashlib
import os
import re
import sys

sys.dont_write_bytecode = True
import reading  # noqa: E402
import usage  # noqa: E402

TOP = os.path.dirname(os.path.dirname(os.path.realpath(__file__)))
PAGE = f"{TOP}/docs/CONTRACTS.txt"
SHOWN = 12  # definitions that are not as the page has them
HEADER = """The public contracts, file by file, and behind them the definitions on which they stand, file by file. `tools/contracts.py --write`
wrote this, and `tools/docs.py` holds it: it is no page to be read from end to end.

In front of a clause is a sum of the definitions that it cites. In front of a definition is a sum of its text, without comments and white
space, and of the names that it cites. All that clauses stand on is listed, however deep. So a definition that changes or goes is a line
of a diff, and so are the clauses that cite it."""
HEAD = re.compile(r'^ *pub (?:const |extern "C" )*fn (\w+)')


def functions(path):
    """Yields the name and the text of each public function of a file, without its body."""
    with open(path, encoding="utf-8") as it:
        lines = it.read().split("\n")
    for i, line in enumerate(lines):
        if head := HEAD.match(line):
            start = i
            while start > 0 and re.match(r" *(///|#\[)", lines[start - 1]):
                start -= 1
            indent = re.match(" *", line)[0]
            end = next(j for j in range(i, len(lines)) if re.search(r"(^| )\{(\})?$", lines[j]))
            text = lines[start:end] + [lines[end].rstrip("{}")]
            yield head[1], "\n".join(part.removeprefix(indent) for part in text).rstrip()


def opened(line):
    """Returns what a line at the margin opens whose items are public: a trait or an impl of one, another impl, or a type."""
    if re.match(r"pub (?:unsafe )?trait |(?:unsafe )?impl\b.* for ", line):
        return "trait"
    return "impl" if re.match(r"(?:unsafe )?impl\b", line) else "type" if re.match(r"pub (?:struct|enum|union) ", line) else None


def clauses(text):
    """Yields the lines of a file's public contracts, without comments, attributes and bodies."""
    lines, at, block = text.split("\n"), 0, None
    shown = []  # lines of the block, its head first
    while at < len(lines):
        line = lines[at]
        if line[:1] not in ("", " ") and not line.startswith(("{", "}", ")", "where")):
            block, shown = opened(line), [line]
        indent = " " * (len(line) - len(line.lstrip(" ")))
        ends = (indent + "{", indent + "{}")
        is_public = HEAD.match(line) or block == "trait" and re.match(r"    (?:const |unsafe )*fn ", line)
        if is_public and (indent == "" or block in ("trait", "impl")):
            end = next(j for j in range(at, len(lines)) if lines[j] in ends or lines[j].endswith((" {", " {}", ";")))
            part = lines[at : end + (lines[end] not in ends)]
            if any(re.match(r" +(?:requires|ensures)\b", it) for it in part) or HEAD.match(line):
                yield from [*(shown if indent else []), *part]
                shown = []
            at = end
        elif block and "ghost " in line and re.match(r"    (?:pub(?:\([^)]*\))? )?ghost (?!use )", line):
            end = next(j for j in range(at, len(lines)) if lines[j].endswith((";", ",")) and lines[at : j + 1] and "".join(lines[at : j + 1]).count("{") == "".join(lines[at : j + 1]).count("}"))
            yield from [*shown, *lines[at : end + 1]]
            shown, at = [], end
        at += 1


def sum_of(text):
    """Returns eight digits that tell a text from others."""
    return hashlib.blake2b(text.encode(), digest_size=4).hexdigest()


def imported(text):
    """Returns what a file of code imports from specs: names, each with its module and its name there, and whole modules."""
    names, modules = {}, {}
    for module, some, other in re.findall(r"^ *ghost use Rattle\.([\w.]+?)(?:\.\{(.*)\}| as (\w+))?;$", text, flags=re.M):
        for said in re.split(r", *", some) if some else ():
            name, _, here = said.partition(" as ")
            names[here or name] = (module, name)
        if not some:
            modules[other or module.split(".")[-1]] = module
    return names, modules


class Sums:
    """The sums of definitions and of clauses, and the definitions that clauses cite. Proofs, also those in `Laws`, have none."""

    def __init__(self):
        self.library, self.known, self.tops = reading.Library(), {}, {}

    def is_definition(self, at):
        return re.search(r"\.specs\.(?!Laws\b)", at[0])

    def of(self, at):
        """Returns the sum of a definition: of its text without comments and white space, and of the names that it cites, with their files."""
        if at not in self.known:
            text = re.sub(r"(?:^|\s)--\s.*", "", self.library.files[at[0]].parts[at[1]], flags=re.M)
            cited = sorted(f"{module.split('.')[-1]}.{name}" for module, name in self.library.cited_by(at))
            self.known[at] = sum_of("".join(text.split()) + " ".join(cited))
        return self.known[at]

    def of_clause(self, text, names, modules):
        """Returns the sum of what a clause cites, or blanks if it cites no definition."""
        cited = [it for it in self.library.cited(text, names, modules) if self.is_definition(it)]
        self.tops.update(dict.fromkeys(cited))
        return sum_of(" ".join(sorted(f"{name} {self.of((module, name))}" for module, name in cited))) if cited else " " * 8

    def lines(self):
        """Yields a line for each definition that clauses stand on, file by file."""
        found = {}
        for module, name in filter(self.is_definition, self.library.under(self.tops)):
            found.setdefault(module, []).append(name)
        for module in sorted(found):
            yield from ("", f"== {os.path.relpath(reading.path_of(module), TOP)}")
            names = self.library.files[module].parts
            yield from (f"{self.of((module, name))} {name}" for name in sorted(found[module], key=list(names).index))


def summed(lines, text, sums):
    """Yields the lines of a file's contracts, each clause behind its sum."""
    names, modules = imported(text)
    at = 0
    while at < len(lines):
        end = at + 1
        if re.match(r" +(?:requires|ensures|ghost|pub(?:\([^)]*\))? ghost)\b", lines[at]):
            while "".join(lines[at:end]).count("{") > "".join(lines[at:end]).count("}") and end < len(lines):
                end += 1
            yield f"{sums.of_clause(chr(10).join(lines[at:end]), names, modules)} {lines[at]}"
            yield from (f"{' ' * 9}{line}" for line in lines[at + 1 : end])
        else:
            yield f"{' ' * 9}{lines[at]}"
        at = end


def surface():
    """Returns the text of the page of contracts."""
    said, sums = HEADER.split("\n"), Sums()
    for crate in sorted(os.path.basename(path) for path in glob.glob(f"{TOP}/crates/*")):
        if crate.startswith(("mdtests", "mdcases", "mdbench")):
            continue
        for path in sorted(glob.glob(f"{TOP}/crates/{crate}/src/**/*.rt", recursive=True)):
            with open(path, encoding="utf-8") as it:
                text = it.read()
            found = list(summed(list(clauses(text)), text, sums))
            said += ["", f"== {os.path.relpath(path, TOP)}", *found] if found else []
    return "\n".join(said + list(sums.lines())) + "\n"


def write():
    with open(PAGE, "w", encoding="utf-8") as it:
        it.write(surface())


def definitions(text):
    """Returns the definitions of the page, each with its sum, by their files and names."""
    found = {}
    for part in text.split("\n== ")[1:]:
        path, _, rest = part.partition("\n")
        if path.endswith(".antt"):
            found |= {f"{path} {line[9:]}": line[:8] for line in rest.split("\n") if line}
    return found


def disagreements():
    """Returns which contracts and definitions are not as the page has them: the first line that is another one, and some definitions."""
    try:
        with open(PAGE, encoding="utf-8") as it:
            old = it.read()
    except OSError:
        old = ""
    new = surface()
    if old == new:
        return []
    lines = list(zip(old.split("\n"), new.split("\n")))
    at = next((i for i, (one, other) in enumerate(lines) if one != other), len(lines))
    was, is_now = definitions(old), definitions(new)
    other = [f"{name}: {'new' if name not in was else 'gone' if name not in is_now else 'changed'}" for name in sorted(was | is_now) if was.get(name) != is_now.get(name)]
    more = [f"and {len(other) - SHOWN} definitions more"] if len(other) > SHOWN else []
    return [f"docs/CONTRACTS.txt:{at + 1}: not today's contracts: run tools/contracts.py --write, and read what changed", *other[:SHOWN], *more]


def main():
    parser = usage.Words(__doc__)
    parser.add_argument("--write", action="store_true")
    parser.add_argument("words", nargs="*", metavar="WORD")
    given = parser.parse_args()
    if given.write == bool(given.words):
        parser.error("either words or --write")
    if given.write:
        return write()
    crates = [os.path.basename(path) for path in sorted(glob.glob(f"{TOP}/crates/*"))]
    named = [word for word in given.words if word in crates]
    names = set(given.words) - set(named)
    for crate in crates:
        if named and not any(crate == word or crate.startswith(f"{word}_") for word in named):
            continue
        for path in sorted(glob.glob(f"{TOP}/crates/{crate}/src/**/*.rt", recursive=True)):
            for name, text in functions(path):
                if not names or name in names:
                    print(f"// {os.path.relpath(path, TOP)}\n{text}\n")


if __name__ == "__main__":
    main()
