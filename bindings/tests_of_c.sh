#!/bin/sh
# The tests of the library from C, which need no rt: its header, its layout, its examples, every room, readings, edits, and each allocation
# failing.
# usage: tests_of_c.sh HEADER ARCHIVE FOLDER [rooms failing]   (FOLDER has the programs; then how many random documents: 500 and 200)
# For another target than this machine's, CC is its compiler, and RUN what runs its programs, as "qemu-aarch64 -L /usr/aarch64-linux-gnu".
set -eu
if [ "${1-}" = --help ]; then
    sed -n '2,/^[^#]/s/^# //p' "$0"
    exit 0
fi
if [ $# -lt 3 ]; then
    echo "usage: tests_of_c.sh HEADER ARCHIVE FOLDER [rooms failing]" >&2
    exit 2
fi
header=$1 archive=$2 folder=$3 rooms=${4:-500} failing=${5:-200}
cc=${CC:-cc} emulator=${RUN:-}
work=$(mktemp -d)
trap 'rm -rf "$work"' EXIT
say() { echo "bindings: $*"; }
# shellcheck disable=SC2086
run() { $emulator "$@"; }
say "the header is C90, C99, C11 and C17, and C++98 to C++20, for $cc and clang"
printf '#include "%s"\n' "$header" >"$work/header.c"
has_cpp() { echo 'int main() { return 0; }' | "$1" -x c++ -fsyntax-only - 2>/dev/null; }
for compiler in "$cc" clang; do
    command -v "$compiler" >/dev/null || continue
    standards="c90 c99 c11 c17"
    if has_cpp "$compiler"; then
        standards="$standards c++98 c++11 c++14 c++17 c++20"
    else
        say "$compiler has no C++ here"
    fi
    for standard in $standards; do
        language=c
        case $standard in c++*) language=c++ ;; esac
        "$compiler" -x "$language" -std="$standard" -Wall -Wextra -pedantic -Werror -fsyntax-only "$work/header.c"
    done
done
cd "$folder"
say "each field lies where the library has it, in C and in C++"
"$cc" -std=c11 -Wall -Wextra -pedantic -Werror -o "$work/layout" layout.c "$archive"
run "$work/layout"
if has_cpp "$cc"; then
    "$cc" -x c++ -std=c++11 -Wall -Wextra -pedantic -Werror -c -o "$work/layout.o" layout.c
    "$cc" -o "$work/layout" "$work/layout.o" "$archive"
    run "$work/layout"
fi
say "the examples in C"
for example in example outline edit; do
    "$cc" -std=c99 -Wall -Wextra -pedantic -Werror -o "$work/$example" $example.c "$archive"
    run "$work/$example" | diff $example.out -
done
say "the functions through which the library allocates"
"$cc" -std=c99 -Wall -Wextra -pedantic -Werror -o "$work/heap" heap.c "$archive"
run "$work/heap"

compiler=$cc
if [ -z "${CC:-}" ] && command -v clang >/dev/null; then
    compiler=clang
fi
sanitize=
for sanitizer in address undefined; do
    if echo 'int main(void) { return 0; }' | "$compiler" -x c -fsanitize=$sanitizer -o "$work/empty" - 2>/dev/null && run "$work/empty" 2>/dev/null; then
        sanitize="$sanitize -fsanitize=$sanitizer -fno-sanitize-recover=$sanitizer"
    else
        say "$compiler has no $sanitizer sanitizer here"
    fi
done
say "the outline of a file, and of none, under:$sanitize"
# shellcheck disable=SC2086
"$compiler" -std=c99 -g -Wall -Wextra -Werror $sanitize -o "$work/outline" outline.c "$archive"
printf '> # a\n>\n> b\r\n>  > e\n> ===\n- [c](<d>)\n' >"$work/file"
run "$work/outline" "$work/file" | tr '\n' '|' | grep -qx 'a|        a list|        to d|'
printf '> # a #\n>\n> b\r\n>   e\n> ===\n- [c](<d>)\n' >"$work/file"
run "$work/outline" "$work/file" | tr '\n' '|' | grep -qx 'a|b e|        a list|        to d|'
: >"$work/file"
test -z "$(run "$work/outline" "$work/file")"
if run "$work/outline" "$work/none" 2>"$work/said"; then exit 1; fi
grep -q 'cannot be read' "$work/said"
say "every room, under:$sanitize"
# shellcheck disable=SC2086
"$compiler" -std=c99 -g -Wall -Wextra -Werror $sanitize -o "$work/rooms" rooms.c "$archive"
run "$work/rooms" "$rooms"
say "readings that are copied in rooms of each kind, under:$sanitize"
# shellcheck disable=SC2086
"$compiler" -std=c99 -g -Wall -Wextra -Werror $sanitize -o "$work/readings" readings.c "$archive"
run "$work/readings" "$rooms"
say "documents that are edited have the events that are read anew, under:$sanitize"
# shellcheck disable=SC2086
"$compiler" -std=c99 -g -Wall -Wextra -Werror $sanitize -o "$work/edits" edits.c "$archive"
run "$work/edits" "$rooms" 20
racing=
if echo 'int main(void) { return 0; }' | "$compiler" -x c -fsanitize=thread -o "$work/empty" - 2>/dev/null && run "$work/empty" 2>/dev/null; then
    racing=-fsanitize=thread
fi
say "readings that go from thread to thread, under: $racing"
# shellcheck disable=SC2086
"$compiler" -std=c99 -g -Wall -Wextra -Werror -pthread $racing -o "$work/threads" threads.c "$archive"
run "$work/threads" 50
say "each allocation failing, under:$sanitize"
# shellcheck disable=SC2086
"$compiler" -std=c99 -g -Wall -Wextra -Werror $sanitize -Wl,--wrap=malloc,--wrap=realloc,--wrap=free -o "$work/failing" failing.c "$archive"
run "$work/failing" "$failing"
if [ -z "$emulator" ] && command -v valgrind >/dev/null; then
    say "every room, and readings, under valgrind, which sees the library's own reads and writes"
    for program in rooms readings edits; do
        "$compiler" -std=c99 -gdwarf-4 -o "$work/$program" $program.c "$archive"
        valgrind --quiet --error-exitcode=1 --leak-check=full "$work/$program" 10
    done
fi
