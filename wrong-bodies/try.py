#!/usr/bin/env python3
"""Tries the wrong bodies of LIST that the prover must reject, and writes the commit of the crates into LIST for those that it does.

usage: wrong-bodies/try.sh [--gate] [--promises] [--since COMMIT | --old] [--log FILE] [--keep] [--show] [CRATE..] [WORD..]
  CRATE, WORD     only edits of these crates; only edits whose name has one of these words
  --since COMMIT  only edits that a change since COMMIT can reach, and edits that LIST has no commit for
  --old           only edits that a change can reach since the commit that LIST has for them, or that have none
  --log FILE      what a run of rt ci printed that proved these crates as they are here: they are not proved once more before their edits
  --gate          edits of the gate too
  --promises      only edits that break a promise that has a name
  --keep          LIST stays as it is
  --show          only prints which edits would be tried

A change reaches an edit if it is in the file or the proof of the function that the edit turns, in `specs`, or in what stands around the
bodies of functions in `src`: of the crate, or of a crate below it. Bodies of other functions do not count, nor do comments, nor do
names that crates got since (changes.py).

It works on a copy of the repository. Edits that turn different functions are tried together, in one check of these functions: a
function's goals see only what others ensure, so each wrong body has to fail by itself. A function counts as rejected if one of its own
goals failed. If only a name was missing in a proof, if the function was proved, or if the edit turns no function's body (but a constant,
or a clause), the edit is tried alone by rt must-fail.
"""

import os
import re
import shutil
import subprocess
import sys
import tempfile
import time

sys.dont_write_bytecode = True
import table  # noqa: E402
from changes import Changes  # noqa: E402
import usage  # noqa: E402

NAMES = re.compile(r"has no field|is not in scope|has no `|was not admitted|was rejected, w|were rejected, w|is no name|is not checked")
PARTS = ("src", "specs", "proofs")


def put(room, crate, texts, whole=False):
    """Puts a crate's files into the copy as the repository has them, and then these texts."""
    for part in PARTS if whole else sorted({file.split("/")[0] for file in texts}):
        shutil.rmtree(f"{room}/crates/{crate}/{part}", ignore_errors=True)
        if os.path.isdir(f"{table.TOP}/crates/{crate}/{part}"):
            shutil.copytree(f"{table.TOP}/crates/{crate}/{part}", f"{room}/crates/{crate}/{part}")
    for file, text in texts.items():
        with open(f"{room}/crates/{crate}/{file}", "w", encoding="utf-8") as it:
            it.write(text)


def check(room, crate, symbols):
    """Checks these functions of a crate, or all if there are none. Returns what was said, without what is said on the way."""
    words = [word for it in symbols for word in ("--only", it)]
    ran = subprocess.run(["rt", "check", *words], cwd=f"{room}/crates/{crate}", capture_output=True, text=True, errors="replace")
    lines = (ran.stdout + ran.stderr).split("\n")
    return ran.returncode, [line for line in lines if not re.match(r"so far: |checked |rt: ", line)]


def symbol(place, crate, symbols):
    """Returns the name of a function as a check has it."""
    start = "::".join([crate] + [it for it in place.module.split(".") if it not in ("", "lib", "main")])
    found = []
    for it in symbols:
        middle = it.removeprefix(start + "::").removesuffix("::" + place.name)
        if not place.owner and it == f"{start}::{place.name}" or place.trait and it == f"{start}::{middle}::{place.name}" and "::" not in middle and middle.startswith(place.owner) and place.trait in middle:
            found.append(it)
        elif place.owner and not place.trait and it == f"{start}::{place.owner}::{place.name}":
            found.append(it)
    if not found and place.owner and not place.trait:
        # (a method is named after its type, which may stand in another module than the method)
        found = [it for it in symbols if it.endswith(f"::{place.owner}::{place.name}")]
    return found[0] if len(found) == 1 else None


class Said:
    """What a check said of each function."""

    def __init__(self, crate, lines):
        self.words, self.errors, before = {}, {}, []
        for line in lines:
            if m := re.match(r"(?:note: )?(?:\./)?proofs/(\S+)/\w+\.antt:\d+:\d+: error: `", line):
                if not NAMES.search(line):
                    self.errors.setdefault(m[1].replace("/+", "/"), line)
            elif m := re.match(r"fn (\S+): (.*)", line):
                self.words[m[1]] = m[2]
                place = "/".join(m[1].split("::")[1:])
                if before:
                    self.errors.setdefault(place, before[-1])
                elif "did not prove `" in m[2] or "expected a measure" in m[2]:
                    self.errors.setdefault(place, m[2])
                before = []
            elif m := re.match(r"note: \S+: it is not proved that .*\(`\S+`\)|note: \S+:\d+:\d+: .*not proved.*\(`\S+`\)", line):
                before.append(line)

    def own(self, name):
        """Returns a function, and the closures in it, by the names of their proofs."""
        closures = {it: it.replace("::fn::", "::").split("+")[0] for it in self.words if "::fn::" in it}
        return [it for it in self.words if it == name or closures.get(it, "").startswith(name + "::")]

    def error(self, name):
        """Returns the first own goal of a function that failed."""
        places = ["/".join(it.split("::")[1:]) for it in self.own(name)]
        return next((self.errors[at] for at in places if at in self.errors), None)

    def waits_for(self, name):
        """Returns the functions without a proof that one's proof waits for, at any depth."""
        found = self.own(name)
        for it in found:
            found += [other for other in re.findall(r"`(\S+?)`", self.words.get(it, "")) if other in self.words and other not in found]
        return {it for it in found if it != name and not self.words[it].startswith("proved")}


class Edit:
    def __init__(self, row):
        self.row, self.path = row, table.edit_of(row)
        folder = f"{table.TOP}/crates/{row.crate}"
        self.texts, self.made = table.apply(f"{table.TOP}/{self.path}", folder)
        self.found, self.is_code = table.turned(self.made) if self.texts else ([], False)
        self.symbols, self.waits, self.tries = set(), set(), 0
        self.result = None

    def told(self, result, why):
        self.result = result
        print(f"{result:<12}  {self.path}  {why.strip()[:160]}", flush=True)

    def apply_over(self, texts, folder):
        """Applies this edit over texts that other edits made. Returns all texts, or None if its own text is not there once."""
        texts, file, old = dict(texts), "", None
        for line in open(f"{table.TOP}/{self.path}", encoding="utf-8").read().split("\n"):
            if line.startswith("file: "):
                file = line[6:].strip()
            elif line.startswith("old: "):
                old = line[5:]
            elif line.startswith("new:"):
                text = texts.get(file) or open(f"{folder}/{file}", encoding="utf-8").read()
                if text.count(old) != 1:
                    return None
                texts[file] = text.replace(old, line[4:].removeprefix(" "))
        return texts


def alone(room, crate, edits):
    """Tries each of these edits alone."""
    folder = f"{room}/crates/{crate}/must-fail"
    shutil.rmtree(folder, ignore_errors=True)
    if not edits:
        return
    put(room, crate, {}, whole=True)
    os.mkdir(folder)
    for it in edits:
        shutil.copy(f"{table.TOP}/{it.path}", folder)
    ran = subprocess.run(["rt", "must-fail", crate], cwd=room, capture_output=True, text=True, errors="replace")
    said = dict(re.findall(rf"must-fail {crate}/(\S+): (.*)", ran.stdout + ran.stderr))
    for it in edits:
        why = said.get(os.path.basename(it.path), "NOT TRIED: rt must-fail says nothing of it")
        result = why.split(":")[0] if why[:1].isupper() else "refused"
        if result == "refused":
            result = "BY NAME" if "only because a proof file names" in why else "BY A LIMIT" if "only by a limit" in why else "refused"
        it.told(result, why)


def round_of(waiting, folder):
    """Returns the next edits that are tried together, and the texts of the crate with all of them."""
    chosen, texts, taken, spared = [], {}, set(), set()
    for it in sorted(waiting, key=lambda it: -it.tries):
        if it.symbols & (taken | spared) or it.waits & taken:
            continue
        more = it.apply_over(texts, folder)
        if more is not None:
            chosen.append(it)
            texts = more
            taken |= it.symbols
            spared |= it.waits
    return chosen, texts


def together(room, crate, chosen, texts):
    """Tries edits together. Those that the front end does not take are found by halves."""
    put(room, crate, texts)
    symbols = sorted(set().union(*(it.symbols for it in chosen)))
    status, lines = check(room, crate, symbols)
    if not any(line.startswith("fn ") for line in lines):
        if len(chosen) == 1:
            chosen[0].tries = 9
            return
        for half in (chosen[: len(chosen) // 2], chosen[len(chosen) // 2 :]):
            texts = {}
            for it in half:
                texts = it.apply_over(texts, f"{table.TOP}/crates/{crate}")
            together(room, crate, half, texts)
        return
    said = Said(crate, lines)
    for it in chosen:
        errors = [said.error(name) for name in it.symbols if said.error(name)]
        if errors:
            it.told("refused", errors[0])
            continue
        it.waits = set().union(*(said.waits_for(name) for name in it.symbols)) & set(symbols)
        it.tries = it.tries + 1 if it.waits else 9


def try_crate(room, crate, edits, log):
    """Tries the edits of a crate. The lines of a log say which functions it has, if it was proved there."""
    status, lines = (0, log) if f"rt: {crate} proved" in log else check(room, crate, [])
    if status:
        sys.exit("\n".join(lines[-5:]) + f"\n{crate} itself is not proved")
    symbols = sorted({m[1] for line in lines if (m := re.match(rf"fn ({crate}::\S+): proved", line))})
    folder = f"{table.TOP}/crates/{crate}"
    for it in edits:
        names = [symbol(place, crate, symbols) for place in it.found]
        it.symbols = set(names) if it.is_code and names and all(names) else set()
        if it.texts is None:
            it.told("BAD EDIT", it.made)
    last = [it for it in edits if not it.symbols and not it.result]
    waiting = [it for it in edits if it.symbols and not it.result]
    while waiting:
        chosen, texts = round_of(waiting, folder)
        begun = time.time()
        together(room, crate, chosen, texts)
        print(f"# {crate}: {len(chosen)} edits together, {time.time() - begun:.0f} seconds", flush=True)
        put(room, crate, {file: open(f"{folder}/{file}", encoding="utf-8").read() for file in texts})
        last += [it for it in waiting if not it.result and it.tries > 3]
        waiting = [it for it in waiting if not it.result and it.tries <= 3]
    alone(room, crate, last)


def bare(text, file):
    """Returns a file without comments, and of src also without the bodies of functions."""
    if file.endswith(".rt"):
        lines = text.split("\n")
        for it in table.places(file, text):
            if it.body < it.last:
                lines[it.body + 1 : it.last] = [""] * (it.last - it.body - 1)
        text = "\n".join(lines)
    return plain(text)


def plain(text):
    """Returns a text without lines of comments and empty ones."""
    return [line for line in text.split("\n") if not re.match(r"\s*(//|--|$)", line)]


class Since:
    """What changed in the crates since a commit."""

    def __init__(self, commit):
        changes = Changes(commit)
        self.files, self.around = set(), set(changes.crates)
        for file, (old, now) in changes.texts.items():
            if m := re.match(r"crates/(\w+)/((src|specs|proofs)/.*\.(?:rt|antt))$", file):
                if plain(old) != plain(now):
                    self.files.add(file)
                if m[3] != "proofs" and bare(old, m[2]) != bare(now, m[2]):
                    self.around.add(m[1])

    def reaches(self, edit):
        """Returns whether a change can reach an edit."""
        crate = edit.row.crate
        if self.around & {crate, *table.below(crate)}:
            return True
        modules = ["" if it.module in ("lib", "main") else it.module.replace(".", "/") + "/" for it in edit.found]
        proofs = [f"crates/{crate}/proofs/{it}" for it in modules]
        names = {it.name for it in edit.found}
        own = {f"crates/{crate}/{file}" for file, _, _ in edit.made} if edit.texts else set()
        return bool(own & self.files) or any(file.startswith(tuple(proofs)) and names & set(re.split(r"[/+]", file)) for file in self.files)


def is_old(edits):
    """Returns the edits that have no commit in LIST, or that a change can reach since."""
    since = {}
    for it in edits:
        commit = table.tried_at(it.row)
        if commit and commit not in since:
            since[commit] = Since(commit)
        if not commit or since[commit].reaches(it):
            yield it


def main():
    parser = usage.Words(__doc__)
    for word in ("--gate", "--promises", "--old", "--keep", "--show"):
        parser.add_argument(word, action="store_true")
    parser.add_argument("--since", metavar="COMMIT")
    parser.add_argument("--log", metavar="FILE")
    parser.add_argument("words", nargs="*")
    given = parser.parse_intermixed_args()
    words, log = given.words, []
    if given.log:
        with open(given.log, encoding="utf-8") as it:
            log = it.read().split("\n")
    head, rows = table.read()
    wanted, parts = [it for it in words if it in table.crates()], [it for it in words if it not in table.crates()]
    edits = [Edit(row) for row in rows if row.who == "prover" or row.who == "gate" and given.gate]
    edits = [it for it in edits if it.row.promise != "-" or not given.promises]
    edits = [it for it in edits if (not wanted or it.row.crate in wanted) and (not parts or any(part in it.path for part in parts))]
    if given.since:
        since = Since(given.since)
        edits = [it for it in edits if since.reaches(it) or not table.tried_at(it.row)]
    if given.old:
        edits = list(is_old(edits))
    if given.show:
        print("\n".join(it.path for it in edits))
        return 0
    at, is_clean = table.state()
    print(f"# {len(edits)} edits at {at}{'' if is_clean else ', with changes that no commit has: LIST stays as it is'}", flush=True)
    begun = time.time()
    with tempfile.TemporaryDirectory(prefix="wrong-bodies-") as room:
        shutil.copytree(f"{table.TOP}/crates", f"{room}/crates", ignore=shutil.ignore_patterns("out", "must-fail"))
        for name in ("crates.txt", "HANDLES"):
            shutil.copy(f"{table.TOP}/{name}", room)
        for crate in table.crates():
            own = [it for it in edits if it.row.crate == crate]
            if not own:
                continue
            try_crate(room, crate, own, log)
            if is_clean and not given.keep:
                table.record([it.row for it in own if it.result == "refused"], at)
    bad = [it for it in edits if it.result != "refused"]
    print(f"# {len(edits) - len(bad)} of {len(edits)} refused, {time.time() - begun:.0f} seconds; not so:")
    for it in bad:
        print(f"{it.result:<12}  {it.path}")
    return 1 if bad else 0


if __name__ == "__main__":
    sys.exit(main())
