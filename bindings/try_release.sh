#!/bin/sh
# Tries a release as somebody has it who has no rt and no network: a copy of it in an empty folder passes its tests, a project of its own
# depends on its crate, and `cargo package` is clean.
# usage: bindings/try_release.sh FOLDER   (that release.sh made; with SPEC set to a spec.json, CommonMark's examples are run too)
# If there is a C compiler and an emulator for another target that it has, as aarch64-linux-gnu-gcc and qemu-aarch64, that is tried too.
set -eu
if [ "${1-}" = --help ]; then
    sed -n '2,/^[^#]/s/^# //p' "$0"
    exit 0
fi
if [ $# != 1 ] || [ ! -d "$1" ]; then
    echo "usage: bindings/try_release.sh FOLDER   (that release.sh made)" >&2
    exit 2
fi
temporary=$(mktemp -d)
trap 'rm -rf "$temporary"' EXIT
# as some have it in their path
work="$temporary/a folder"
mkdir "$work"
cp -r "$1" "$work/limecove"
# a path with the system's programs and cargo's, and without rt
path=/usr/bin:/bin
if cargo=$(command -v cargo); then
    path=$(dirname "$cargo"):$path
fi
if PATH=$path command -v rt >/dev/null; then
    echo "bindings: rt is on the path $path" >&2
    exit 1
fi
spec=${SPEC:+$(realpath "$SPEC")}
alone() { env -i PATH="$path" HOME="$work/home" CARGO_HOME="$work/cargo" RUSTUP_HOME="${RUSTUP_HOME:-$HOME/.rustup}" SPEC="$spec" "$@"; }
mkdir "$work/home" "$work/cargo"
alone "$work/limecove/test.sh"
own=$(uname -m)-unknown-linux-gnu
for lib in "$work"/limecove/*/lib/liblimecove.a; do
    target=$(basename "${lib%/lib/liblimecove.a}")
    gnu=$(echo "$target" | sed 's/-unknown//')
    if [ "$target" = "$own" ]; then
        continue
    elif command -v "$gnu-gcc" >/dev/null && command -v "qemu-${target%%-*}" >/dev/null; then
        echo "release: $target, by qemu"
        alone TARGET="$target" "$work/limecove/test.sh"
    else
        echo "release: $target is not tried, as there is no $gnu-gcc or qemu-${target%%-*}"
    fi
done
if [ -n "${cargo:-}" ]; then
    echo "release: a project of its own, by a path"
    mkdir -p "$work/own/src"
    printf '[package]\nname = "own"\nversion = "0.1.0"\nedition = "2021"\n[dependencies]\nlimecove = { path = "../limecove/rust/limecove" }\n' >"$work/own/Cargo.toml"
    printf 'fn main() {\n    let events = limecove::tokenize("a `b`", &limecove::Options::default()).unwrap();\n    println!("{}", events.len());\n}\n' >"$work/own/src/main.rs"
    test "$(cd "$work/own" && alone cargo run --offline --quiet)" = 12
    echo "release: cargo package"
    (cd "$work/limecove/rust" && LIMECOVE_LIB=$work/limecove/$own/lib && alone LIMECOVE_LIB="$LIMECOVE_LIB" cargo package --offline --workspace --allow-dirty) >"$work/log" 2>&1 || { cat "$work/log" >&2; exit 1; }
    # the crates name no page, as none of the project is public yet
    if grep -i warning "$work/log" | grep -v 'no documentation, homepage or repository'; then
        exit 1
    fi
fi
echo "release: a file that was changed is found out"
echo >>"$work/limecove/$own/include/limecove.h"
if alone "$work/limecove/test.sh" >"$work/log" 2>&1 || ! grep -q 'limecove.h: FAILED' "$work/log"; then
    exit 1
fi
echo "release: it stands alone"
