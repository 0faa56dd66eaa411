#!/usr/bin/env python3
"""Compares, for each Markdown file under a folder, the HTML that tools/commonmark.py makes of printed events with that of cmark, byte for
byte. Prints how many files are the same, and of the others which constructs cmark finds in them that the machine does not read, or, if it
reads all of them, the causes that tools/random_documents.py names.

usage: tools/real_files.py DIR PROGRAM [--machine NAME] [--cmark CMARK] [--no-brackets] [--differing]
       tools/real_files.py --packages
       tools/real_files.py --fetch DIR
  DIR             a folder: its files that end in .md or .markdown, at any depth, links passed over
  PROGRAM         mdevents, or what prints events as it does
  --machine NAME  the machine that reads the files; without it, flow
  --cmark CMARK   cmark's program; without it, the one on the path. Debian's package cmark has it
  --no-brackets   each `[` is read as `(`, so that no file has links, images and definitions
  --differing     also each file that differs: its name, the constructs or causes, and the first line that differs
  --packages      the names of packages of Debian 12 whose files were compared
  --fetch DIR     downloads these packages into DIR/packages by `apt-get` (55 MB), and writes their Markdown files into DIR/files (6 MB),
                  unpacked
"""

import collections
import glob
import gzip
import itertools
import os
import subprocess
import sys
import tarfile

sys.path.insert(0, os.path.dirname(os.path.realpath(__file__)))
sys.dont_write_bytecode = True
import commonmark  # noqa: E402
import usage  # noqa: E402

sys.setrecursionlimit(1_000_000)
PACKAGES = """
ansible-core git-buildpackage golang-github-aws-aws-sdk-go-dev golang-github-docker-docker-dev golang-github-go-kit-kit-dev
golang-github-gorilla-mux-dev golang-github-sirupsen-logrus-dev golang-github-urfave-cli-dev golang-google-grpc-dev
golang-gopkg-src-d-go-git.v4-dev libcurl4-doc libjs-bootstrap4 librust-bindgen-dev librust-chrono-dev librust-clap-dev librust-hyper-dev
librust-nom-dev librust-rand-dev librust-rayon-dev librust-regex-dev librust-reqwest-dev librust-rustix-dev librust-serde-dev
librust-syn-dev librust-tokio-dev librust-toml-edit-dev nlohmann-json3-dev node-babel7 node-express node-lodash node-react
node-typescript node-undici node-ws nodejs-doc npm pandoc-data ruby-commonmarker ruby-kramdown ruby-rails ruby-rspec-core ruby-sinatra
rust-doc rustc yarnpkg zstd
"""
# cmark's names of what a machine does not read, as they begin its XML's tags
UNREAD = {"flow": ("list", "block_quote", "link", "image"), "document": ()}


def files_in(folder):
    """The Markdown files under a folder, in order."""
    found = [os.path.join(at, name) for at, _, names in os.walk(folder) for name in names if name.lower().endswith((".md", ".markdown"))]
    return sorted(it for it in found if os.path.isfile(it) and not os.path.islink(it))


def unpack(package, folder):
    """Writes the Markdown files of a package into a folder, each where it stands in the package. Those that end in .gz are unpacked."""
    tar = subprocess.Popen(["dpkg-deb", "--fsys-tarfile", package], stdout=subprocess.PIPE)
    with tarfile.open(fileobj=tar.stdout, mode="r|") as parts:
        for part in parts:
            packed = part.name.lower().endswith(".gz")
            name = os.path.normpath(part.name[:-3] if packed else part.name)
            if part.isreg() and name.lower().endswith((".md", ".markdown")) and not name.startswith(("..", "/")):
                content = parts.extractfile(part).read()
                os.makedirs(os.path.dirname(os.path.join(folder, name)), exist_ok=True)
                with open(os.path.join(folder, name), "wb") as it:
                    it.write(gzip.decompress(content) if packed else content)
    if tar.wait() != 0:
        sys.exit(f"{package} is no package")


def fetch(folder, names):
    """Downloads packages into a folder, and writes their Markdown files beside them. Returns the folder of these."""
    packages, files = os.path.join(folder, "packages"), os.path.join(folder, "files")
    os.makedirs(packages, exist_ok=True)
    run = subprocess.run(["apt-get", "download", *names], cwd=packages, capture_output=True, text=True)
    if run.returncode != 0:
        sys.exit(run.stderr)
    for name in names:
        for package in glob.glob(os.path.join(packages, f"{name}_*.deb")):
            unpack(package, files)
    return files


def by_cmark(cmark, document, form):
    """What cmark makes of a document, in one of its forms."""
    made = subprocess.run([cmark, "--unsafe", "-t", form], input=document, capture_output=True, check=True).stdout
    return made.decode("utf-8", "replace")


def ours(document, program, machine):
    """The HTML of our events, or a line that says why there is none."""
    try:
        return commonmark.rendered(document, commonmark.events_of(document, program, machine))
    except commonmark.NoRule as why:
        return f"({why})\n"


def first_difference(made, wanted):
    """The first line that differs, of both."""
    for one, other in itertools.zip_longest(made.split("\n"), wanted.split("\n")):
        if one != other:
            return f"{one!r}, and not {other!r}"
    return ""


def causes_of(document, words):
    """Why the HTML of a document differs, by name."""
    tags = by_cmark(words.cmark, document, "xml")
    unread = [it for it in UNREAD[words.machine] if f"<{it} " in tags or f"<{it}>" in tags]
    if unread or words.machine != "document":
        return "+".join(unread) or "none of these"
    import random_documents  # which imports this file

    explained = random_documents.Beside(words.program, words.machine, words.cmark).explained(document)
    return "; ".join(name or "NO NAME" for name, _ in explained)


def main():
    if sys.argv[1:] == ["--packages"]:
        print("\n".join(PACKAGES.split()))
        return
    if sys.argv[1:2] == ["--fetch"] and len(sys.argv) == 3 and not sys.argv[2].startswith("-"):
        files = fetch(sys.argv[2], PACKAGES.split())
        print(f"{len(files_in(files))} files in {files}")
        return
    parser = usage.Words(__doc__)
    parser.add_argument("folder")
    parser.add_argument("program")
    parser.add_argument("--machine", default="flow", choices=UNREAD)
    parser.add_argument("--cmark", default="cmark")
    parser.add_argument("--no-brackets", action="store_true")
    parser.add_argument("--differing", action="store_true")
    words = parser.parse_args()
    files, right, size, why = files_in(words.folder), 0, 0, collections.Counter()
    for path in files:
        with open(path, "rb") as it:
            document = it.read().replace(b"[", b"(") if words.no_brackets else it.read()
        size += len(document)
        made, wanted = ours(document, words.program, words.machine), by_cmark(words.cmark, document, "html")
        if made == wanted:
            right += 1
            continue
        causes = causes_of(document, words)
        why[causes] += 1
        if words.differing:
            print(f"{os.path.relpath(path, words.folder)}: {causes}: {first_difference(made, wanted)}")
    print(f"{right} of {len(files)} files are the same, byte for byte; {size:,} bytes")
    for causes, times in why.most_common():
        print(f"{times:6} differ: {causes}")


if __name__ == "__main__":
    main()
