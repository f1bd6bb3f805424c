#!/bin/sh
# Proves and makes the programs and the archive for C, where they have changed, and puts them into target/bin and target/staticlib.
#     sh tools/make.sh [tool | archive]
# With a name it makes the tool alone, or the archive alone. It prints what the kit says where something fails.
cd "$(dirname "$0")/.." || exit 2
root=$PWD
said=$(mktemp) || exit 2
trap 'rm -f "$said"' EXIT

# program NAME: proves, compiles and runs it once, on an empty input, since the kit has no command that compiles alone.
program() {
    mkdir -p "$root/target/bin"
    (cd "$root/crates/$1" && rt run -- version </dev/null >"$said" 2>&1) || { cat "$said" >&2; return 1; }
    cp "$root/crates/$1/out/$1" "$root/target/bin/$1"
}

archive() {
    mkdir -p "$root/target/staticlib"
    (cd "$root/crates/capi" && rt lib >"$said" 2>&1) || { cat "$said" >&2; return 1; }
    cp "$root/crates/capi/out/libcapi.a" "$root/target/staticlib/libcapi.a"
}

case ${1:-all} in
tool) program fibexp ;;
archive) archive ;;
all) program fibexp && program list && archive ;;
*) echo "usage: sh tools/make.sh [tool | archive]" >&2; exit 2 ;;
esac
