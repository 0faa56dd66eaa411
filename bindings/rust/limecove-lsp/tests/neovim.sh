#!/bin/sh
# Types random edits in neovim, and compares its text, after each, with the server's, and what the server keeps with reading that anew.
# usage: tests/neovim.sh [EDITS [SEED [FILE..]]]   (20 edits of each file, the seed 1, and the repository's pages, if they are not given)
# Each file ends with a line ending: where one has none, neovim 0.7 sends ranges as if it had.
set -eu
if [ "${1-}" = --help ]; then
    sed -n '2,/^[^#]/s/^# //p' "$0"
    exit 0
fi
case "${1-0}${2-0}" in
*[!0-9]*)
    echo "usage: tests/neovim.sh [EDITS [SEED [FILE..]]]" >&2
    exit 2
    ;;
esac
here=$(cd "$(dirname "$0")" && pwd)
EDITS=${1:-20} SEED=${2:-1}
export EDITS SEED
if [ $# -gt 2 ]; then
    shift 2
else
    set -- "$here"/../../../../*.md "$here"/../../../../docs/*.md
fi
cd "$here/.."
cargo build --offline --quiet --release
SERVER=${CARGO_TARGET_DIR:-$here/../../target}/release/limecove-lsp
export SERVER
nvim --headless -u NONE -n -i NONE -c "luafile $here/neovim.lua" "$@"
