#!/usr/bin/env python3
"""Proves limecove and builds it as a static library, for each target that is named. bindings/build.sh calls it.

usage: bindings/archive.py FOLDER TARGET.. [-WORD..]    (writes FOLDER/TARGET.a; the words are passed to the prover, as --jobs 2)

If `rt ci` kept all the libraries below on this machine, they are taken as the gate takes them: by the sum of all that their proofs read.
Then limecove alone is proved, in a copy of the crates, and once for all targets. Else `rt lib` proves what it has not built itself, as it
takes no library that the gate kept.
"""

import importlib.machinery
import importlib.util
import os
import shutil
import subprocess
import sys
import tempfile

CRATE = "limecove"
ROOT = os.path.dirname(os.path.dirname(os.path.realpath(__file__)))
# Each processor of the target. If x86-64 is not asked for, the code needs x86-64-v2, and ends by a signal where that is lacking.
CPU = {"x86_64-unknown-linux-gnu": "x86-64", "aarch64-unknown-linux-gnu": "generic"}


def load(path):
    """Returns the program as a module."""
    sys.dont_write_bytecode = True
    spec = importlib.util.spec_from_loader("rt", importlib.machinery.SourceFileLoader("rt", path))
    made = importlib.util.module_from_spec(spec)
    spec.loader.exec_module(made)
    return made


def words_for(target, words):
    chosen = any(it.startswith("--cpu") for it in words)
    return ["--target", target, *([] if chosen or target not in CPU else ["--cpu", CPU[target]]), *words]


def take_kept(rt, repo):
    """Gives a copy of the crates the libraries that the gate kept. Returns the crate that is to be built, or None if one is not kept."""
    print("bindings: looks for the libraries that the gate kept, by the sums of their texts", flush=True)
    rt.copy_crates(ROOT, repo)
    # it is the top of a repository
    os.mkdir(f"{repo}/.git")
    rt.Crate.allowed = rt.handles_of(repo)
    crates = rt.crates_of(repo)
    crate = next(it for it in crates if it.name == CRATE)
    kept = rt.Kept(crates)
    for it in crate.below():
        if not kept.give(it, False, kept.key(it)):
            print(f"bindings: the gate has not kept {it.name} as it is now, so `rt lib` builds the library", flush=True)
            return None
        kept.is_built(it)
    os.makedirs(f"{crate.folder}/out", exist_ok=True)
    return crate


def build_over_kept(folder, targets, words):
    """Builds over what the gate kept. Returns the status, or None if it kept too little, or in a way that is not known here."""
    with tempfile.TemporaryDirectory(prefix="limecove-") as room:
        try:
            rt = load(f"{os.path.dirname(subprocess.check_output(['rt', 'doc'], text=True).strip())}/bin/rt")
            rt.rtlib.guarded()
            crate = take_kept(rt, f"{room}/repo")
        except (AttributeError, OSError, TypeError) as error:
            print(f"bindings: what the gate kept cannot be taken ({error}), so `rt lib` builds the library", flush=True)
            return None
        for target in targets if crate else []:
            print(f"bindings: proves {CRATE}, and compiles it for {target}", flush=True)
            status = crate.compile(words_for(target, words), f"out/{target}.a")
            if status:
                return status
            shutil.copyfile(f"{crate.folder}/out/{target}.a", f"{folder}/{target}.a")
        return 0 if crate else None


def build_by_rt(folder, targets, words):
    """Builds in the crate's own folder, over what `rt lib` built before. Returns the status."""
    crate = f"{ROOT}/crates/{CRATE}"
    for target in targets:
        print(f"bindings: rt lib, for {target}", flush=True)
        status = subprocess.run(["rt", "lib", *words_for(target, words)], cwd=crate).returncode
        if status:
            return status
        shutil.copyfile(f"{crate}/out/lib{CRATE}.a", f"{folder}/{target}.a")
    return 0


def main(folder, *words):
    first = next((at for at, it in enumerate(words) if it.startswith("-")), len(words))
    given = os.path.abspath(folder), words[:first], words[first:]
    status = build_over_kept(*given)
    return build_by_rt(*given) if status is None else status


if __name__ == "__main__":
    if sys.argv[1:] == ["--help"]:
        print(__doc__.strip())
        sys.exit()
    if len(sys.argv) < 3 or sys.argv[2].startswith("-"):
        print(__doc__.strip(), file=sys.stderr)
        sys.exit(2)
    sys.exit(main(*sys.argv[1:]))
