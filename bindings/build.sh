#!/bin/sh
# Proves and builds the static library for x86-64 Linux, or for the targets that are named, and puts it with the functions through which it
# allocates into bindings/out: as liblimecove.a, or for another target as TARGET/liblimecove.a. Only that file is to be linked.
# usage: bindings/build.sh [TARGET..] [--jobs N] [--cpu NAME]. These words are passed to rt. Targets that rt can build are x86_64-unknown-linux-gnu and aarch64-unknown-linux-gnu.
# Behind the gate it takes minutes, as it proves limecove alone (archive.py). Without it rt proves all crates, in an hour or more.
set -eu
if [ "${1-}" = --help ]; then
    sed -n '2,/^[^#]/s/^# //p' "$0"
    exit 0
fi
# words for rt: these alone, as the build takes long before rt sees them
known() {
    while [ $# -gt 0 ]; do
        case $1 in
        --jobs=?* | --cpu=?*) shift ;;
        --jobs | --cpu) [ $# -gt 1 ] && shift 2 || return 1 ;;
        *) return 1 ;;
        esac
    done
}
for tool in rt python3; do
    if ! command -v "$tool" >/dev/null; then
        echo "bindings: $tool is missing" >&2
        exit 1
    fi
done
here=$(cd "$(dirname "$0")" && pwd)
kit=$(dirname "$(rt doc)")
native=x86_64-unknown-linux-gnu
targets=
while [ $# -gt 0 ] && [ "${1#-}" = "$1" ]; do
    targets="$targets $1"
    shift
done
targets=${targets:-$native}
for target in $targets; do
    case $target in
    x86_64-unknown-linux-gnu | aarch64-unknown-linux-gnu) ;;
    *) set -- no-such-target ;;
    esac
done
if ! known "$@"; then
    echo "usage: bindings/build.sh [TARGET..] [--jobs N] [--cpu NAME]" >&2
    exit 2
fi
work=$(mktemp -d)
trap 'rm -rf "$work"' EXIT
# shellcheck disable=SC2086
python3 "$here/archive.py" "$work" $targets "$@"
for target in $targets; do
    archive=$work/$target.a to=$here/out/$target
    mkdir "$work/$target"
    # the three functions through which the library calls malloc, realloc and free: the kit has them for its own processor
    if [ "$target" = "$native" ]; then
        to=$here/out
        (cd "$work/$target" && "$kit/toolchain/bin/llvm-ar" x "$kit/c/liblibc_c.a")
    else
        "$kit/toolchain/bin/clang" --target="$target" -std=c99 -O2 -fPIC -c -o "$work/$target/heap.o" "$here/heap.c"
    fi
    "$kit/toolchain/bin/llvm-ar" q "$archive" "$work/$target"/*.o
    mkdir -p "$to"
    mv "$archive" "$to/liblimecove.a"
    ls -l "$to/liblimecove.a"
done
