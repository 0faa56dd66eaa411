#!/usr/bin/env python3
"""Checks README.md, CHANGELOG.md and docs/ against the files that they name, the wrong bodies against their table, and crates.txt against what each
crate names. Prints what fails, and ends with 1 if something does.

usage: tools/docs.py [--write] [--hand-in]
  --write    each code block is first rewritten from the items that it names; the numbers of wrong bodies, the list of definitions and
             the public contracts are put in
  --hand-in  also fails if crates changed since the last whole gate, or if a change can reach a wrong body since it was last rejected

A fence names its file behind the language, and the items that it shows: ```rust crates/C/src/f.rt item item. `*` is the whole
file. With no item each stretch between blank lines is text of the file. A block of code that names no file fails. Shown with items
are the `use` lines that they need, with the names that they use, but if `-` stands before the items. tools/definitions.py,
tools/prose.py, tools/cases.py, tools/contracts.py, tools/imports.py, tools/map.py and tools/reading.py are called, too.
"""

import os
import re
import subprocess
import sys

TOP = os.path.dirname(os.path.dirname(os.path.realpath(__file__)))
sys.path.insert(0, f"{TOP}/wrong-bodies")
sys.dont_write_bytecode = True
import cases  # noqa: E402
import contracts  # noqa: E402
import definitions  # noqa: E402
import imports  # noqa: E402
import map as room_map  # noqa: E402
import prose  # noqa: E402
import reading  # noqa: E402
import table  # noqa: E402
import usage  # noqa: E402

FILES = subprocess.run(["git", "-c", "safe.directory=*", "-C", TOP, "ls-files", "-co", "--exclude-standard"], capture_output=True, text=True).stdout.split("\n")
FILES = [f for f in FILES if f and os.path.exists(f"{TOP}/{f}")] or sys.exit(f"git lists no files of {TOP}")
PATHS = set(FILES) | {f[:i] for f in FILES for i in range(len(f)) if f[i] == "/"}
PAGES = ["README.md", "CHANGELOG.md"] + [f for f in FILES if f.startswith("docs/") and f.endswith(".md")]
MAP = "docs/maintaining/MAP.md"
# Words in backticks that are of Rust, of the system or of the prover
FOREIGN = set("unsafe debug_assert unwrap respects_eq allocate cap ptr grep steal Lts rattle-kit-13b rattle-kit-13f _rows NAME_in".split())
TRAITS = {"Read", "Write"}  # their methods are used without their names
FENCE = re.compile(r"^```(\w+) (\S+)((?: \S+)*)\n(.*?)^```$", flags=re.S | re.M)
FILE = re.compile(r"[\w./+-]+\.(?:rt|antt|md|py|sh|edit|txt)|(?:crates|docs|tools|bench|bindings|wrong-bodies|specs|proofs|src)/[\w./+-]*")
PATH = re.compile(r"(?:\w+::)+\{?\w+\}?")  # markdown::tokenizer
LEMMAS = re.compile(r"[A-Z]\w+\.[A-Z]\w+")  # Runs.Whole
CITED = re.compile(r"Rattle\.(\w+)\.(specs|proofs)((?:\.\w+)*)")
NAME = re.compile(r"[A-Za-z_][\w-]{2,}")
# Sentences with numbers of wrong bodies
COUNTED = {
    "docs/maintaining/GATE.md": "`wrong-bodies/LIST` has all {all} wrong bodies: `wrong-bodies/try.sh` tries {prover}, and `wrong-bodies/by_tests.py` {tests}. They break {promises} promises that have a name.",
    "docs/READING.md": "All {outside} wrong bodies are tried outside the gate, those of promises before each handing in. `wrong-bodies/LIST` has the commit at which each was last rejected, or `-` if it was not since its code changed.",
}
failed = []


def read(path):
    with open(f"{TOP}/{path}", encoding="utf-8") as it:
        return it.read()


def item(lines, name, rust):
    """Returns the text of an item: its comment, its head, and all up to its end."""
    head = re.compile(rf"(?:pub(?:\(crate\))? )?(?:abbrev |record |data |fn |struct |enum |trait |type |const |impl .*)*(?:pub )?{re.escape(name)}(?![\w-])")
    starts = [i for i, line in enumerate(lines) if head.match(line) and not line.startswith(("use ", "ghost use "))]
    if not starts:
        return None
    start = end = starts[0]
    while start and lines[start - 1].startswith(("///", "#[", "--")):
        start -= 1
    while end + 1 < len(lines) and not (lines[end] in ("}", "{}") or lines[end][:1] != " " and lines[end].endswith(" {}") or lines[end].endswith(";") and lines[end][0] != " " if rust else lines[end + 1] == ""):
        end += 1
    return "\n".join(lines[start : end + 1])


def narrowed(line, words, text):
    """Returns a `use` line with only the names that a text uses, or None if it uses none."""
    head, brace, names = line.rstrip("};").partition("{")
    if not brace:
        last = re.split(r"[.:]+| as ", line.rstrip(";"))[-1]
        return line if last in words else None
    module = re.split(r"[.:]+", head.rstrip(".:"))[-1]
    used = words | TRAITS | {f"◌{sign}◌" for sign in re.findall(r"(?<= )[^\s\w]+(?= )", text)} | {name for name, of in (("self", module in words), ("[]", "[]" in text)) if of}
    kept = [name for name in names.split(", ") if name in used]
    if not kept or line.startswith("use ") and set(kept) <= TRAITS:
        return None
    if line.startswith("use ") and line.endswith(";") and len(kept) == 1:
        return head.rstrip(":") + ("" if kept == ["self"] else f"::{kept[0]}") + ";"
    return f"{head}{{{', '.join(kept)}}}" + ";" * line.endswith(";")


def taken(path, names):
    """Returns the text that a block with these items should have: the items, and above them what they import."""
    text = read(path)
    if names == ["*"]:
        return text
    lines = text.split("\n")
    items = [item(lines, name, path.endswith(".rt")) for name in names if name != "-"]
    if None in items:
        return None
    shown = re.sub(r"^ *(?:///?|--).*", "", "\n\n".join(items), flags=re.M)
    words = set(re.findall(r"[^\s(),.;:{}\[\]&<>!?'-]+(?:-[^\s(),.;:{}\[\]&<>!?'-]+)*", shown))
    uses = [(kind, use) for kind in ("ghost use ", "use ") for line in lines if line.startswith(kind) if (use := narrowed(line, words, shown))]
    heads = ["\n".join(use for of, use in uses if of == kind) for kind in ("ghost use ", "use ") if "-" not in names]
    return "\n\n".join([head for head in heads if head] + items) + "\n"


def blocks(page, text, take):
    """Holds each block against its file; with `take` it is written anew."""
    for bare in re.finditer(r"^```(?:rust|antt)$", text, flags=re.M):
        failed.append(f"{page}:{text.count(chr(10), 0, bare.start()) + 1}: a block of code that names no file")
    for block in reversed(list(FENCE.finditer(text))):
        path, names, shown = block[2], block[3].split(), block[4]
        at = f"{page}:{text.count(chr(10), 0, block.start()) + 1}"
        if path not in FILES:
            failed.append(f"{at}: no file {path}")
        elif not names:
            whole = "\n" + read(path)
            failed.extend(f"{at}: not in {path}: {part.split(chr(10))[0]}" for part in shown.strip("\n").split("\n\n") if "\n" + part + "\n" not in whole)
        elif (wanted := taken(path, names)) is None:
            failed.append(f"{at}: {path} has not all of {' '.join(names)}")
        elif wanted != shown:
            if take:
                text = text[: block.start(4)] + wanted + text[block.end(4) :]
            else:
                failed.append(f"{at}: not the text of {path}, {' '.join(names)}")
    return text


def there(path):
    """Returns whether a file or folder of the repository is called so, by its whole path or the end of it."""
    return any(p == path or p.endswith("/" + path) for p in PATHS)


def is_found(word, page, source):
    """Returns whether what a word in backticks names is found; words that look like no name are."""
    if FILE.fullmatch(word):
        is_room = page == MAP and re.match(r"(src|specs|proofs)/", word)
        return is_room or bool(re.search(r"NAME|CRATE|FUNCTION|/out/", word)) or there(word.rstrip("/"))
    if PATH.fullmatch(word):
        return set(re.findall(r"\w+", word)) <= source
    if LEMMAS.fullmatch(word):
        return there(word.replace(".", "/") + ".antt")
    if cited := CITED.fullmatch(word):
        return cited[1] == "std" or cited[3] in ("", ".X") or there((cited[2] + cited[3]).replace(".", "/") + ".antt")
    return not NAME.fullmatch(word) or any(name in source or name in FOREIGN for name in (word, word.rsplit("-", 1)[0]))


def names(page, text, source):
    """Holds what looks like a file, a folder, a name or a path of the code, and links."""
    prose = re.sub(r"^```.*?^```$", "", text, flags=re.S | re.M)
    failed.extend(f"{page}: no {word}" for word in re.findall(r"`([^`\s]+)`", prose) if not is_found(word, page, source))
    for link in re.findall(r"\]\(([^)#]+)", text):
        if "://" not in link and not os.path.exists(os.path.join(TOP, os.path.dirname(page), link)):
            failed.append(f"{page}: dead link {link}")


def rooms():
    """Holds the map: each module and each file of a crate is in a room."""
    failed.extend(room_map.disagreements())


def tools_listed():
    """Holds the list of tools: each has a line."""
    said = read("tools/README.md")
    failed.extend(f"tools/README.md: no line for {file}" for file in FILES if re.fullmatch(r"tools/\w+\.py", file) and f"\n| `{file[6:]}` |" not in said)


def counted(page, text, take):
    """Holds the numbers of wrong bodies that a page has; with `take` they are written anew."""
    if page not in COUNTED:
        return text
    of = [row.who if row.who in ("gate", "prover") else "tests" for row in table.read()[1]]
    numbers = {"all": len(of), "outside": len(of) - of.count("gate"), **{who: of.count(who) for who in ("gate", "prover", "tests")}, "promises": len(table.promises())}
    wanted = COUNTED[page].format(**numbers)
    found = re.search(re.sub(r"\\{\w+\\}", r"\\d+", re.escape(COUNTED[page])), text)
    if found and take:
        text = text.replace(found[0], wanted)
    elif not found or found[0] != wanted:
        failed.append(f"{page}: not there: {wanted}")
    return text


def lines_of_crates():
    """Holds crates.txt: the line of a crate lists the crates that its files name, in paths of the code and in modules, and no others."""
    crates = table.crates()
    for crate, listed in crates.items():
        named = {}
        for file in FILES:
            if re.match(rf"crates/{crate}/(src|specs|proofs)/.*\.(rt|antt)$", file):
                text = re.sub(r"//.*" if file.endswith(".rt") else r"--.*", "", read(file))
                for name in re.findall(r"\bRattle\.(\w+)\.|\b(\w+)::", text):
                    named.setdefault("".join(name), file)
        used = {name for name in named if name in crates and name != crate}
        failed.extend(f"crates.txt: {crate} lists {name}, which none of its files names" for name in listed if name not in used)
        failed.extend(f"crates.txt: {crate} does not list {name}, which {named[name]} names" for name in sorted(used - set(listed)))
        failed.extend(f"crates.txt: {crate} lists {name} twice" for name in sorted(set(listed)) if listed.count(name) > 1)


def last_gate(is_handed_in):
    """Holds the status of the README against the first row of the gate's page; before handing in also against what changed since."""
    row = re.search(r"^\| [\d-]+ \| (\w{7,40}), .*?`(\d+ passed, 0 failed)`", read("docs/maintaining/GATE.md"), flags=re.M)
    status = re.search(r"^Status: .* at commit (\w+), ended with `([^`]+)`", read("README.md"), flags=re.M)
    if not row or not status or row.groups() != status.groups():
        failed.append("README.md: its status is not that of the first row of docs/maintaining/GATE.md")
    if not row or not is_handed_in:
        return
    git = ["git", "-C", TOP]
    if subprocess.run([*git, "cat-file", "-e", f"{row[1]}^{{commit}}"], capture_output=True).returncode:
        print(f"{row[1]} is not in this history: not asked what changed since")
        return
    changed = subprocess.run([*git, "diff", "--name-only", row[1], "--", "crates", "crates.txt", "HANDLES", ".ci"], capture_output=True, text=True).stdout.split()
    failed.extend([f"docs/maintaining/GATE.md: {len(changed)} files changed since the last whole gate, as {changed[0]}"] if changed else [])
    for words in (["try.py", "--gate"], ["by_tests.py"]):
        old = subprocess.run([sys.executable, f"{TOP}/wrong-bodies/{words[0]}", *words[1:], "--old", "--show"], capture_output=True, text=True).stdout
        failed.extend(f"{line}: not rejected since a change that reaches it" for line in old.split())


def words():
    """Returns what was asked for: whether pages are written, and whether they are handed in."""
    parser = usage.Words(__doc__)
    parser.add_argument("--write", "--take", action="store_true")
    parser.add_argument("--hand-in", action="store_true")
    given = parser.parse_args()
    return given.write, given.hand_in


def main():
    is_written, is_handed_in = words()
    code = "\n".join(read(f) for f in FILES if re.match(r"(crates|bench|bindings|tools|wrong-bodies)/.*\.(rt|antt|py|sh|rs|c|h)$", f) and f != "tools/docs.py")
    source = {"std", "core"} | set(re.findall(r"\w+", code)) | set(re.findall(r"[\w'-]+", code))
    source |= {part for p in PATHS for part in re.findall(r"[\w-]+", os.path.basename(p))} | set(re.findall(r"\w+", " ".join(PATHS)))
    for page in PAGES:
        text = read(page)
        new = counted(page, blocks(page, text, is_written), is_written)
        if new != text:
            with open(f"{TOP}/{page}", "w", encoding="utf-8") as it:
                it.write(new)
        names(page, new, source)
    rooms()
    tools_listed()
    lines_of_crates()
    last_gate(is_handed_in)
    if is_written:
        definitions.write()
        contracts.write()
    failed.extend(definitions.disagreements() + prose.disagreements() + cases.disagreements() + contracts.disagreements() + imports.disagreements() + reading.disagreements() + table.disagreements())
    print("\n".join(failed), end="\n" if failed else "")
    sys.exit(1 if failed else 0)


if __name__ == "__main__":
    main()
