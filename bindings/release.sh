#!/bin/sh
# Makes a folder that builds, and passes its tests, where there is no rt, and says each step. For each target it has a folder with the library
# as .a and .so, the header and limecove.pc; and for all the crates limecove-sys, limecove and limecove-lsp, the tests in C, the module for
# Python, html.py, and a test.sh. Libraries that are not in bindings/out, or older than a source, bindings/build.sh first makes and proves,
# with rt. Beside that it needs a C compiler: cc, and for the .so of another target than this machine's the one that Debian names after it,
# as aarch64-linux-gnu-gcc. Without that one the release has no such .so.
# usage: bindings/release.sh FOLDER [--jobs N] [--cpu NAME]   (FOLDER must not be there yet; the words are passed to bindings/build.sh)
# TARGETS names the targets; if it is not set, they are all that rt can build.
set -eu
if [ "${1-}" = --help ]; then
    sed -n '2,/^[^#]/s/^# //p' "$0"
    exit 0
fi
here=$(cd "$(dirname "$0")" && pwd)
targets=${TARGETS:-x86_64-unknown-linux-gnu aarch64-unknown-linux-gnu}
wrong() {
    echo "usage: bindings/release.sh FOLDER [--jobs N] [--cpu NAME]   (FOLDER must not be there yet)" >&2
    exit 2
}
if [ $# = 0 ] || [ -e "$1" ]; then wrong; fi
case $1 in -*) wrong ;; esac
say() { echo "release: $*"; }
folder=$1
shift
case ${1-} in '' | --jobs* | --cpu*) ;; *) wrong ;; esac
archive_of() {
    case $1 in
    x86_64-unknown-linux-gnu) echo "$here/out/liblimecove.a" ;;
    *) echo "$here/out/$1/liblimecove.a" ;;
    esac
}
# a source that is newer than the archive, if there is one
newer() { find "$here/heap.c" "$here/../crates.txt" "$here"/../crates/*/src "$here"/../crates/*/specs "$here"/../crates/*/proofs -type f -newer "$1" | head -n 1; }
lacking=
for target in $targets; do
    archive=$(archive_of "$target")
    if [ ! -f "$archive" ]; then
        say "$target: there is no library yet"
        lacking="$lacking $target"
    elif [ -n "$(newer "$archive")" ]; then
        say "$target: the library is older than $(newer "$archive")"
        lacking="$lacking $target"
    else
        say "$target: the library is there"
    fi
done
if [ -n "$lacking" ]; then
    say "proves and builds the library, in minutes behind a gate and else in an hour or more"
    # shellcheck disable=SC2086
    "$here/build.sh" $lacking "$@"
fi
version=$(sed -n 's/^version = "\(.*\)"$/\1/p' "$here/rust/limecove/Cargo.toml")
layout=$(sed -n 's/^#define LIMECOVE_VERSION \([0-9]*\)$/\1/p' "$here/limecove.h")
# the commit of the sources, if that is known, and whether something differs from it
commit=$(git -C "$here" describe --always --dirty=", and changes" --abbrev=40 --exclude='*' 2>/dev/null || echo unknown)
# shellcheck disable=SC2086
names=$(printf ', %s' $targets)
say "version $version, LIMECOVE_VERSION $layout, commit $commit"
say "copies crates, tests and the module for Python to $folder"
mkdir -p "$folder/rust"
out=$(cd "$folder" && pwd)
cp "$here/../LICENSE" "$here/html.py" "$out"
cp -r "$here/c" "$out/c"
mkdir "$out/python"
cp "$here"/python/*.py "$out/python"
# the programs include the header of the release by its name
sed -i 's|"../limecove.h"|<limecove.h>|' "$out"/c/*.c "$out"/c/cases.h
cp "$here/tests_of_c.sh" "$out/c"
for crate in limecove-sys limecove limecove-lsp; do
    mkdir "$out/rust/$crate"
    (cd "$here/rust/$crate" && cp -r Cargo.toml README.md LICENSE src tests "$out/rust/$crate")
done
cp "$here/rust/limecove-sys/build.rs" "$out/rust/limecove-sys"
cp -r "$here/rust/limecove/examples" "$out/rust/limecove"
cp -r "$here/rust/limecove-lsp/examples" "$out/rust/limecove-lsp"
rm "$out/rust/limecove/tests/names.rs"
cp "$here/rust/Cargo.toml" "$out/rust"
for target in $targets; do
    archive=$(archive_of "$target") lib=$out/$target/lib
    say "$target: header, archive, limecove.pc and liblimecove.so.$layout"
    mkdir -p "$out/$target/include" "$lib/pkgconfig"
    cp "$here/limecove.h" "$out/$target/include"
    cp "$archive" "$lib"
    cat >"$lib/pkgconfig/limecove.pc" <<PC
prefix=\${pcfiledir}/../..
includedir=\${prefix}/include
libdir=\${prefix}/lib

Name: limecove
Description: A proved tokenizer engine for Markdown
Version: $version
Cflags: -I\${includedir}
Libs: -L\${libdir} -llimecove
PC
    compiler=$(echo "$target" | sed 's/-unknown//')-gcc
    if [ "$target" = "$(uname -m)-unknown-linux-gnu" ]; then
        compiler=cc
    elif ! command -v "$compiler" >/dev/null; then
        echo "release: $target gets no liblimecove.so, as there is no $compiler" >&2
        continue
    fi
    # a shared library with the functions of the header, and no other names
    printf '{ global: limecove_*; local: *; };\n' >"$lib/limecove.map"
    "$compiler" -shared -o "$lib/liblimecove.so.$layout" -Wl,-soname,"liblimecove.so.$layout" -Wl,--version-script="$lib/limecove.map" \
        -Wl,--whole-archive "$archive" -Wl,--no-whole-archive -Wl,-z,defs
    rm "$lib/limecove.map"
    ln -s "liblimecove.so.$layout" "$lib/liblimecove.so"
done
cat >"$out/README.md" <<MD
# Limecove $version

The library was proved and built from its sources by \`bindings/build.sh\`; this folder needs no prover. Their commit: $commit.
Each target has a folder: ${names#, }.

- C: let T be the folder of your target. \`cc -IT/include prog.c T/lib/liblimecove.a\`, or
  \`cc prog.c \$(PKG_CONFIG_PATH=T/lib/pkgconfig pkg-config --cflags --libs limecove)\`, which links \`T/lib/liblimecove.so.$layout\` if that is
  there. \`limecove.h\` says what each function does. To install, copy \`include\` and \`lib\` of T to \`/usr/local\`.
- Rust: \`limecove = { path = ".../rust/limecove" }\` in \`Cargo.toml\`. It finds the target's \`lib\` by itself. It needs Rust 1.63.
- Python: \`python/limecove.py\` is a module of one file. It finds the \`lib\` of this release by itself, and elsewhere in the folder that
  \`LIMECOVE_LIB\` names. It needs Python 3.8.
- Examples: \`c/outline.c\`, and in \`rust/limecove/examples\` linters, a highlighter, a list of links and a writer of HTML.
- An editor: \`rust/limecove-lsp\` is a language server.
- \`./html.py SPEC\` runs CommonMark's examples, which are not here, through that writer: 650 of the 652 of 0.30 are right.
- \`./test.sh\` compares \`SHA256SUMS\`, and builds and runs the tests: it needs cc, and for the crates cargo. It takes a minute or two, and no
  network. \`TARGET=aarch64-unknown-linux-gnu ./test.sh\` tests another target than the machine's, by qemu.
MD
cat >"$out/test.sh" <<'SH'
#!/bin/sh
# Compares the checksums, and builds and runs the tests of this release. Needs cc; for the crates cargo. No network. If SPEC names a
# spec.json of CommonMark, html.py runs its examples, with python3. If TARGET names another target than this machine's, its C compiler and
# an emulator are needed, as aarch64-linux-gnu-gcc and qemu-aarch64, and for the crates Rust's libraries for that target.
set -eu
here=$(cd "$(dirname "$0")" && pwd)
own=$(uname -m)-unknown-linux-gnu
target=${TARGET:-$own}
echo "release: each file is the one that was made"
(cd "$here" && sha256sum --quiet --check SHA256SUMS)
prefix=$here/$target
if [ ! -d "$prefix" ]; then
    echo "release: there is no library for $target" >&2
    exit 1
fi
CPATH=$prefix/include
export CPATH
# words for cargo test: an emulator is too slow for some other tests, which have limits of time
tests=--workspace
if [ "$target" != "$own" ]; then
    gnu=$(echo "$target" | sed 's/-unknown//')
    CC=$gnu-gcc RUN="qemu-${target%%-*} -L /usr/$gnu"
    export CC RUN
    variable=CARGO_TARGET_$(echo "$target" | tr 'a-z-' 'A-Z_')
    export CARGO_BUILD_TARGET="$target" "${variable}_LINKER=$CC" "${variable}_RUNNER=$RUN"
    tests="--workspace --test layout --test calls --test failing --test tree"
fi
"$here/c/tests_of_c.sh" "$prefix/include/limecove.h" "$prefix/lib/liblimecove.a" "$here/c" 100 40
work=$(mktemp -d)
trap 'rm -rf "$work"' EXIT
if [ -e "$prefix/lib/liblimecove.so" ]; then
    echo "release: the example, with the shared library"
    set -- "-I$prefix/include" "-L$prefix/lib" -llimecove
    if command -v pkg-config >/dev/null; then
        eval "set -- $(PKG_CONFIG_PATH="$prefix/lib/pkgconfig" pkg-config --cflags --libs limecove)"
    fi
    "${CC:-cc}" -std=c99 -o "$work/example" "$here/c/example.c" "$@"
    # shellcheck disable=SC2086
    env LD_LIBRARY_PATH="$prefix/lib" ${RUN:-} "$work/example" | diff "$here/c/example.out" -
    if [ "$target" = "$own" ] && command -v python3 >/dev/null; then
        echo "release: the module for Python"
        env -u LIMECOVE_LIB python3 -B "$here/python/test_limecove.py" 2>"$work/said" || { cat "$work/said" >&2; exit 1; }
    fi
fi
if command -v cargo >/dev/null; then
    if [ "$target" != "$own" ] && [ ! -d "$(rustc --print sysroot)/lib/rustlib/$target" ]; then
        echo "release: the crates are not tested, as Rust has no libraries for $target here"
    else
        echo "release: the crates"
        export CARGO_TARGET_DIR="$work/target"
        # shellcheck disable=SC2086
        (cd "$here/rust" && cargo test --offline --quiet $tests)
    fi
    if [ -n "${SPEC:-}" ] && [ "$target" = "$own" ]; then
        echo "release: the examples of CommonMark"
        python3 "$here/html.py" "$SPEC"
    fi
fi
echo "release: all is well"
SH
chmod +x "$out/test.sh"
(cd "$out" && find . -type f ! -name SHA256SUMS | LC_ALL=C sort | tr '\n' '\0' | xargs -0 sha256sum >SHA256SUMS)
say "$(wc -l <"$out/SHA256SUMS") files, with their sums: $folder. bindings/try_release.sh tests it, and its own test.sh"
