#!/usr/bin/env bash
# Builds the programs and the static library, and prints tables of what they need: see measure.py, and beside.py for texts that people
# have. Needs rt, ar, cc, valgrind and python3.
# usage: bench/run.sh [--real DIR] [OTHER]
#   --real DIR  also the table of real files beside cmark, from a folder that bench/beside.py --fetch DIR has filled
#   OTHER       a program that is compared with mdevents, as one made from the Rust crate
set -eu
real=
case "${1-}" in
--help)
    sed -n '2,6s/^# //p' "$0"
    exit 0
    ;;
--real)
    real=$(cd "${2:?bench: --real needs a folder}" && pwd)
    shift 2
    ;;
-*)
    sed -n '4,6s/^# //p' "$0" >&2
    exit 2
    ;;
esac
for tool in rt ar cc valgrind callgrind_annotate python3; do
    if ! command -v "$tool" >/dev/null; then
        echo "bench: $tool is missing" >&2
        exit 1
    fi
done
here=$(cd "$(dirname "$0")" && pwd)

# proves and builds a program; it is then in the crate's folder out/
build() {
    if ! (cd "$here/../crates/$1" && rt run </dev/null >/dev/null 2>"$log"); then
        cat "$log" >&2
        echo "bench: crates/$1 was not built" >&2
        exit 1
    fi
}

log=$(mktemp)
archive=$(mktemp)
trap 'rm -f "$log" "$archive"' EXIT
# another program is built so, and measured by a script next to measure.py that prints a table of its own
build mdevents
build mdbench
"$here/../bindings/build.sh" >"$log" 2>&1 || { cat "$log" >&2; exit 1; }
cc -std=c99 -O2 -o "$archive" "$here/archive.c" "$here/../bindings/out/liblimecove.a"
python3 "$here/measure.py" "$here/../crates/mdevents/out/mdevents" "$here/../crates/mdbench/out/mdbench" "$archive" "$@"
if [ -n "$real" ]; then
    echo
    python3 "$here/beside.py" "$here/../crates/mdevents/out/mdevents" "$real"
fi
