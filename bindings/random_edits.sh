#!/bin/sh
# Edits random documents, and those of this repository's Markdown files, by the library. After each edit the events are compared with those
# that the library reads anew of the edited bytes, one by one. It stops with 1 at the first difference.
# It needs cc and bindings/out/liblimecove.a (bindings/build.sh).
# usage: bindings/random_edits.sh [COUNT [EDITS [SEED [FILE..]]]]   (10,000 random documents, 20 edits of each and of each file, the seed 1, and
# all Markdown files of the repository, if they are not given)
set -eu
if [ "${1-}" = --help ]; then
    sed -n '2,/^[^#]/s/^# //p' "$0"
    exit 0
fi
case "${1-0}${2-0}${3-0}" in
*[!0-9]*)
    echo "usage: bindings/random_edits.sh [COUNT [EDITS [SEED [FILE..]]]]" >&2
    exit 2
    ;;
esac
here=$(cd "$(dirname "$0")" && pwd)
work=$(mktemp -d)
trap 'rm -rf "$work"' EXIT
count=${1:-10000} edits=${2:-20} seed=${3:-1}
if [ $# -gt 3 ]; then
    shift 3
else
    set -- "$here"/../*.md "$here"/../docs/*.md "$here"/../docs/*/*.md "$here"/rust/*/*.md
fi
cc -std=c99 -O2 -Wall -Wextra -pedantic -Werror -o "$work/edits" "$here/c/edits.c" "$here/out/liblimecove.a"
"$work/edits" "$count" "$edits" "$seed" "$@"
echo "bindings: $count random documents and $# files, each edited $edits times, have the events that are read anew"
