#!/bin/sh
# Reads random documents by the library and by the program, and compares their events one by one, and the links: 1,000,000, or as many as
# the argument says. It needs cc, bindings/out/liblimecove.a (bindings/build.sh) and crates/mdevents/out/mdevents (`rt run` there).
# usage: bindings/random.sh [COUNT [SEED]]   (the seed is 1 if none is given)
set -eu
if [ "${1-}" = --help ]; then
    sed -n '2,/^[^#]/s/^# //p' "$0"
    exit 0
fi
case "${1-0}${2-0}" in
*[!0-9]*)
    echo "usage: bindings/random.sh [COUNT [SEED]]" >&2
    exit 2
    ;;
esac
here=$(cd "$(dirname "$0")" && pwd)
work=$(mktemp -d)
trap 'rm -rf "$work"' EXIT
cc -std=c99 -O2 -Wall -Wextra -pedantic -Werror -o "$work/random" "$here/c/random.c" "$here/out/liblimecove.a"
"$work/random" "$here/../crates/mdevents/out/mdevents" "${1:-1000000}" "${2:-1}"
echo "bindings: ${1:-1000000} random documents have the events of the program"
