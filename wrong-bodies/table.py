#!/usr/bin/env python3
"""Reads, checks and updates LIST, the table of all wrong bodies. Its head says what the columns are.

usage: wrong-bodies/table.py [--check]   prints what does not agree, and ends with 1 if something does not. tools/docs.py does so too
       wrong-bodies/table.py --write     updates LIST: a line for each new edit, none for one that is gone. Who tries a new edit of
                                         by-tests, and the promise that a new edit of the gate breaks, are written by hand, in
                                         place of the question mark; so is the promise of an edit that try.sh tries
       wrong-bodies/table.py --promises  prints the promises, each with the edits that break it and who tries them
"""

import collections
import fcntl
import glob
import hashlib
import os
import re
import subprocess
import sys

HERE = os.path.dirname(os.path.realpath(__file__))
TOP = os.path.dirname(HERE)
sys.path.insert(0, f"{TOP}/tools")
sys.dont_write_bytecode = True
import usage  # noqa: E402

LIST = f"{HERE}/LIST"
COLUMNS = ("CRATE", "FUNCTION", "WHAT IS WRONG", "TRIED BY", "COMMIT", "PROMISE")
HEAD = re.compile(r"( *)(pub )?(?:pub\([^)]*\) )?(?:const |unsafe |extern \"C\" )*fn (\w+)")
BLOCK = re.compile(r"(?:unsafe )?(impl|trait)\b(.*)")
CONST = re.compile(r" *(?:pub(?:\([^)]*\))? )?(?:const|static) (\w+)")

Row = collections.namedtuple("Row", "crate function what who commit promise")
Place = collections.namedtuple("Place", "file module owner trait name public first body last")


def kind(row):
    """Returns which kind of folder a row's edit is in."""
    return row.who if row.who in ("gate", "prover") else "tests"


def edit_of(row):
    """Returns where the file of a row's edit is, from the top of the repository."""
    folder = {"gate": f"crates/{row.crate}/must-fail", "prover": f"wrong-bodies/{row.crate}", "tests": f"wrong-bodies/by-tests/{row.crate}"}[kind(row)]
    return f"{folder}/{row.function}-{row.what}.edit"


def stamp(row, commit):
    """Returns what LIST says of a row that was rejected at a commit: the commit, and the beginning of the sum of its edit."""
    with open(f"{TOP}/{edit_of(row)}", "rb") as it:
        return f"{commit}/{hashlib.sha256(it.read()).hexdigest()[:4]}"


def tried_at(row):
    """Returns the commit at which a row's edit, as it is now, was last rejected, or None."""
    commit = row.commit.split("/")[0]
    return commit if row.commit == stamp(row, commit) else None


def read():
    """Returns the head of LIST, and its rows."""
    lines = open(LIST, encoding="utf-8").read().split("\n")
    head = [line for line in lines if line.startswith("#")]
    cells = [re.split(r"  +", line.strip()) for line in lines if line.strip() and not line.startswith("#")]
    return head, [Row(*them) for them in cells if len(them) == len(COLUMNS) and them != list(COLUMNS)]


def write(head, rows):
    """Writes LIST: the lines of each crate together, in columns."""
    order = {name: at for at, name in enumerate(crates())}
    rows = sorted(rows, key=lambda row: (order.get(row.crate, 99), row.function, row.what, row.who))
    said = list(head)
    for crate in dict.fromkeys(row.crate for row in rows):
        own = [COLUMNS] + [row for row in rows if row.crate == crate]
        wide = [max(len(row[at]) for row in own) for at in range(len(COLUMNS) - 1)]
        said.append("")
        said += ["  ".join([cell.ljust(to) for cell, to in zip(row, wide)] + [row[-1]]) for row in own]
    with open(LIST, "w", encoding="utf-8") as it:
        it.write("\n".join(said) + "\n")


def record(done, commit):
    """Writes into LIST that these rows were rejected at a commit. Several runs may do so at once."""
    with open(LIST, encoding="utf-8") as it:
        fcntl.flock(it, fcntl.LOCK_EX)
        keys = {row[:4] for row in done}
        head, rows = read()
        write(head, [row._replace(commit=stamp(row, commit)) if row[:4] in keys else row for row in rows])


def crates(text=None):
    """Returns the crates that crates.txt lists, or this text of it, and for each the ones below it that it names."""
    text = open(f"{TOP}/crates.txt", encoding="utf-8").read() if text is None else text
    lines = [line for line in text.split("\n") if line and not line.startswith("#")]
    return {line.split(":")[0].split()[0]: line.split(":")[1].split() for line in lines}


def below(crate):
    """Returns all crates below a crate."""
    uses = crates()
    found = list(uses[crate])
    for name in found:
        found += [it for it in uses[name] if it not in found]
    return found


def places(file, text):
    """Returns the functions and constants of a file of src, in the layout of rt fmt: lines of head, body and end."""
    lines = text.split("\n")
    module = ".".join(file.removeprefix("src/").removesuffix(".rt").removesuffix("/mod").split("/"))
    owner = trait = ""
    for at, line in enumerate(lines):
        if m := BLOCK.match(line):
            said = re.sub(r"<[^<>]*(?:<[^<>]*>[^<>]*)*>", "", m[2].split(" where ")[0]).strip(" {}")
            trait, _, owner = said.rpartition(" for ") if m[1] == "impl" else ("", "", said)
            trait, owner = (it.split("::")[-1].strip().split(":")[0].strip("&'_ ") for it in (trait, owner))
        elif line == "}":
            owner = trait = ""
        if m := CONST.match(line):
            last = next(i for i in range(at, len(lines)) if lines[i].endswith(";"))
            yield Place(file, module, owner * (line[0] == " "), "", m[1], False, at, at, last)
        if not (m := HEAD.match(line)):
            continue
        body = at
        while not re.fullmatch(rf"{m[1]}\{{\}}?|{m[1]}[)f\w].*(\{{|\}}|;)", lines[body]):
            body += 1
        last = body
        while lines[body].endswith("{") and lines[last] != m[1] + "}":
            last += 1
        inside = bool(m[1])
        yield Place(file, module, owner * inside, trait * inside, m[3], bool(m[2]), at, body, last)


def apply(path, folder):
    """Applies an edit to the texts of a crate. Returns the texts that it changes by their file, and the lines that it is made at
    (the file, the line, and the text as it is just before), or why it can't be applied."""
    file, old, texts, made = "", None, {}, []
    for line in open(path, encoding="utf-8").read().split("\n"):
        if line.startswith("file: "):
            file = line[6:].strip()
        elif line.startswith("old: "):
            old = line[5:]
        elif line.startswith("new:"):
            if not file or old is None or not os.path.isfile(f"{folder}/{file}"):
                return None, f"there is no file {file}"
            text = texts.get(file) or open(f"{folder}/{file}", encoding="utf-8").read()
            if text.count(old) != 1:
                return None, f"its text is in {file} {text.count(old)} times: {old.strip()}"
            made.append((file, text[: text.index(old)].count("\n"), text))
            texts[file], old = text.replace(old, line[4:].removeprefix(" ")), None
    return (texts, made) if made else (None, "it has no pair of an old and a new text")


def turned(made):
    """Returns the functions and constants whose code an edit changes, and whether each of its changes is in code."""
    found, is_code = [], True
    for file, line, text in made:
        here = [it for it in places(file, text) if it.first <= line <= it.last] if file.startswith("src/") else []
        here = [it for it in here if line >= it.body or line == it.first]
        is_code = is_code and bool(here)
        found += here[-1:]
    return found, is_code


def names(place):
    """Returns the names that an edit of this function may have."""
    owners = [place.owner, place.trait, f"{place.owner}.{place.trait}", ""]
    ends = {".".join(filter(None, (owner, name))) for owner in owners for name in (place.name, place.trait)}
    modules = {place.module} | ({""} if place.module == "lib" else set())
    return {".".join(filter(None, (module, end))) for module in modules for end in ends}


def promises():
    """Returns the rows of the edits that break a promise, by the promise."""
    found = {}
    for row in read()[1]:
        if row.promise != "-":
            found.setdefault(row.promise, []).append(row)
    return found


def files():
    """Returns the crate, name and kind of each edit that there is."""
    for kind, pattern in (("gate", "crates/*/must-fail/*.edit"), ("prover", "wrong-bodies/*/*.edit"), ("tests", "wrong-bodies/by-tests/*/*.edit")):
        for path in sorted(glob.glob(f"{TOP}/{pattern}")):
            folder = os.path.dirname(path).removesuffix("/must-fail")
            yield os.path.basename(folder), os.path.basename(path).removesuffix(".edit"), kind


def without(head):
    """Returns the functions that the head says need no edit; a star is all of a crate."""
    return {tuple(m) for line in head for m in re.findall(r"^# without: (\w+) ([\w.*]+): ", line)}


def listed(rows):
    """Holds the rows against the files."""
    named = [(row.crate, f"{row.function}-{row.what}", kind(row)) for row in rows]
    there = set(files())
    yield from (f"wrong-bodies/LIST: twice: {' '.join(it)}" for it, times in collections.Counter(named).items() if times > 1)
    yield from (f"wrong-bodies/LIST: no file of {' '.join(it)}" for it in sorted(set(named) - there))
    yield from (f"wrong-bodies/LIST: no line for {' '.join(it)}" for it in sorted(there - set(named)))


def is_tried(row):
    """Returns whether it is known who tries a row's edit: a test must be there."""
    if row.who in ("gate", "prover", "call", "cases", "refusals"):
        return True
    crate, *modules, test = row.who.split("::")
    source = f"{TOP}/crates/{crate}/src/{'/'.join(modules)}.rt"
    return os.path.isfile(source) and bool(re.search(rf"#\[test\]\n *fn {test}\(", open(source, encoding="utf-8").read()))


def stands(row, found, is_code):
    """Holds a row against what its edit turns. One of the gate names the promise that it breaks. One that try.sh tries may name one: then
    LIST has the commit at which it was rejected."""
    name, path = f"{row.function}-{row.what}", edit_of(row)
    if is_code and not any(row.function in names(it) for it in found):
        yield f"{path}: it turns {', '.join('.'.join(filter(None, (it.module, it.owner, it.name))) for it in found)}, and not what its name says"
    if row.promise == "?" or row.who == "gate" and row.promise == "-":
        yield f"wrong-bodies/LIST: {name}: an edit of the gate breaks a promise that has a name"
    if kind(row) == "tests" and row.promise != "-":
        yield f"wrong-bodies/LIST: {name}: an edit that breaks a promise is rejected by the prover, and not by a test"
    if row.who == "prover" and row.promise != "-" and not tried_at(row):
        yield f"{path}: it breaks a promise, and was not rejected as it is now: wrong-bodies/try.sh --promises {row.crate}"
    if not is_tried(row):
        yield f"wrong-bodies/LIST: no test {row.who}, which should reject {name}"


def uncovered(seen, free):
    """Returns the public functions that no edit turns, and the ones of the head that need not be there. Methods of traits are not asked."""
    needed = set()
    for crate in crates():
        for path in sorted(glob.glob(f"{TOP}/crates/{crate}/src/**/*.rt", recursive=True)):
            file = os.path.relpath(path, f"{TOP}/crates/{crate}")
            for it in places(file, open(path, encoding="utf-8").read()):
                name = ".".join(filter(None, (it.module, it.owner, it.name)))
                if not it.public or it.trait or it.module in ("laws", "tests") or (crate, it) in seen:
                    continue
                excused = {(crate, name), (crate, "*")} & free
                needed |= excused
                if not excused:
                    yield f"crates/{crate}/{file}: no wrong body of {name}"
    yield from (f"wrong-bodies/LIST: its head need not name {name} of {crate}" for crate, name in sorted(free - needed))


def disagreements():
    """Returns what of LIST, of the edits, of the sources and of the pages does not agree."""
    head, rows = read()
    seen, kept = set(), set()
    failed = list(listed(rows))
    for row in rows:
        if not os.path.isfile(f"{TOP}/{edit_of(row)}"):
            continue
        texts, made = apply(f"{TOP}/{edit_of(row)}", f"{TOP}/crates/{row.crate}")
        if texts is None:
            failed.append(f"{edit_of(row)}: {made}")
            continue
        found, is_code = turned(made)
        failed += stands(row, found, is_code)
        if is_code:
            seen |= {(row.crate, it) for it in found}
            kept.add(row.promise)
    failed += [f"wrong-bodies/LIST: no edit of code breaks the promise: {it}" for it in promises() if it not in kept]
    return failed + list(uncovered(seen, without(head)))


def update():
    """Brings LIST up to the files. An edit that changed has no commit."""
    head, rows = read()
    old = {(row.crate, row.function, row.what): row for row in rows}
    moved = {(row.crate, row.what): row.promise for row in rows}
    new = []
    for crate, name, kind in files():
        function, what = name.split("-", 1)
        row = old.get((crate, function, what), Row(crate, function, what, "?", "-", "-"))
        who = kind if kind == "gate" else row.who if row.who not in ("gate", "?") else {"prover": "prover", "tests": "?"}[kind]
        row = row._replace(who=who)
        row = row._replace(commit=row.commit if tried_at(row) else "-")
        is_new = (crate, function, what) not in old
        promise = moved.get((crate, what), "-") if row.promise == "-" and (is_new or kind == "gate") else row.promise
        new.append(row._replace(promise="-" if kind == "tests" else "?" if kind == "gate" and promise == "-" else promise))
    write(head, new)


def state():
    """Returns the commit that last changed what is tried, and whether the files here are those of that commit."""
    git = lambda *words: subprocess.run(["git", "-C", TOP, *words], capture_output=True, text=True).stdout.strip()
    parts = ("crates", "crates.txt", "HANDLES")
    return git("log", "-1", "--format=%h", "--", *parts), not git("status", "--porcelain", "--", *parts)


if __name__ == "__main__":
    parser = usage.Words(__doc__)
    only = parser.add_mutually_exclusive_group()
    for word in ("--check", "--write", "--promises"):
        only.add_argument(word, action="store_true")
    given = parser.parse_args()
    if given.promises:
        for promise, rows in promises().items():
            print(f"{promise}: {', '.join(f'{row.crate} {row.function}-{row.what} ({row.who})' for row in rows)}")
        sys.exit()
    if given.write:
        update()
        sys.exit()
    found = disagreements()
    print("\n".join(found), end="\n" if found else "")
    sys.exit(1 if found else 0)
