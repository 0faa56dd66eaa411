#!/bin/sh
# Builds the library and the program, and tests the library: from C, from Rust with random documents against the program, and as a
# release, with Python too. It needs rt, ar, cc, clang, cargo and python3, and no network; for the library of aarch64 also
# gcc-aarch64-linux-gnu and qemu-user. Programs over musl are tested if there is musl-gcc.
# usage: bindings/test.sh [--jobs N] [--cpu NAME]. These words are passed to `rt`.
set -eu
if [ "${1-}" = --help ]; then
    sed -n '2,/^[^#]/s/^# //p' "$0"
    exit 0
fi
# words for rt: these alone, as the build takes long before rt sees them
known() {
    while [ $# -gt 0 ]; do
        case $1 in
        --jobs=?* | --cpu=?*) shift ;;
        --jobs | --cpu) [ $# -gt 1 ] && shift 2 || return 1 ;;
        *) return 1 ;;
        esac
    done
}
if ! known "$@"; then
    echo "usage: bindings/test.sh [--jobs N] [--cpu NAME]" >&2
    exit 2
fi
for tool in rt ar cc clang cargo python3; do
    if ! command -v "$tool" >/dev/null; then
        echo "bindings: $tool is missing" >&2
        exit 1
    fi
done
here=$(cd "$(dirname "$0")" && pwd)
work=$(mktemp -d)
trap 'rm -rf "$work"' EXIT
say() { echo "bindings: $*"; }

say "the names are those that are proved, and the layouts and numbers are the same in Rattle, C and Rust"
python3 "$here/names.py"
say "build the library and the program"
"$here/build.sh" x86_64-unknown-linux-gnu aarch64-unknown-linux-gnu "$@"
if ! (cd "$here/../crates/mdevents" && rt run "$@" </dev/null >"$work/log" 2>&1); then
    cat "$work/log" >&2
    exit 1
fi
"$here/tests_of_c.sh" "$here/limecove.h" "$here/out/liblimecove.a" "$here/c"
if command -v musl-gcc >/dev/null; then
    say "programs over musl, linked statically"
    for example in layout example edit; do
        musl-gcc -static -std=c11 -Wall -Wextra -pedantic -Werror -o "$work/$example" "$here/c/$example.c" "$here/out/liblimecove.a"
        (cd "$here/c" && "$work/$example" >"$work/printed")
        if [ -f "$here/c/$example.out" ]; then diff "$here/c/$example.out" "$work/printed"; fi
    done
fi
say "heap.c does what the toolchain's object does"
for compiler in cc clang; do
    "$compiler" -std=c99 -Wall -Wextra -pedantic -Werror -c -o "$work/heap.o" "$here/heap.c"
    "$compiler" -std=c99 -Wall -Wextra -pedantic -Werror -o "$work/heap" "$here/c/heap.c" "$work/heap.o"
    "$work/heap"
done

say "random documents, read by the library and by the program"
"$here/random.sh" 5000

# A library of another version must be found out by its version alone: it says so if it writes.
refused() {
    if "$@" >"$work/said" 2>&1; then
        echo "bindings: $1 takes a library of another version" >&2
        exit 1
    fi
    if ! grep -q 'liblimecove.a has another version' "$work/said" || grep -q 'has written' "$work/said"; then
        cat "$work/said" >&2
        exit 1
    fi
}
say "a library of another version is refused before it writes"
cd "$here/c"
mkdir "$work/other"
cc -std=c99 -Wall -Wextra -pedantic -Werror -c -o "$work/other.o" other_version.c
ar rc "$work/other/liblimecove.a" "$work/other.o"
cc -std=c99 -o "$work/other_example" example.c "$work/other/liblimecove.a"
refused "$work/other_example"
(cd "$here/rust" && LIMECOVE_LIB=$work/other cargo build --offline --quiet --example code_spans --target-dir "$work/other/target")
refused "$work/other/target/debug/examples/code_spans"

say "1,000,000 backticks are 4 events, with 500 MB of addresses"
(cd "$here/rust" && cargo build --offline --quiet --release --example read --target-dir "$work/target")
head -c 1000000 /dev/zero | tr '\0' '`' >"$work/backticks"
test "$(ulimit -v 500000 && "$work/target/release/examples/read" text --deep "$work/backticks" 1)" = 4

say "the crates in Rust, and 10,000 random documents for each machine against the program"
cd "$here/rust"
MDEVENTS=$here/../crates/mdevents/out/mdevents cargo test --offline --quiet --workspace -- --include-ignored
if command -v nvim >/dev/null; then
    say "the language server, with neovim"
    "$here/rust/limecove-lsp/tests/neovim.sh" 20 1
else
    say "the language server is not tried with neovim, as there is no nvim"
fi
say "what a user of the crates does without the library: documentation and checks"
mkdir "$work/none"
LIMECOVE_LIB=$work/none cargo doc --offline --quiet --no-deps --target-dir "$work/doc"
LIMECOVE_LIB=$work/none cargo check --offline --quiet --all-targets --target-dir "$work/doc"
say "a release, in an empty folder, without rt"
"$here/release.sh" "$work/release" >/dev/null
"$here/try_release.sh" "$work/release"
say "all is well"
