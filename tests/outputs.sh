#!/bin/sh
# What the programs cases, figures and compare must print, made anew with the implementation in reference/; and the drawn script that
# compare runs. The scripts are the programs' standard input; docs/TOOL.md says what their lines mean.
#     sh tests/outputs.sh          compares with crates/*/stdin and crates/*/stdout; none differs, and its status is 0
#     sh tests/outputs.sh write    writes crates/compare/stdin and the three stdout
# Every verdict of figures must be yes.
cd "$(dirname "$0")/.." || exit 2
work=$(mktemp -d) || exit 2
trap 'rm -rf "$work"' EXIT
reference() { cargo run --quiet --release --manifest-path reference/Cargo.toml --package reference --bin "$1"; }
mkdir "$work/cases" "$work/figures" "$work/compare" || exit 2
cp crates/cases/stdin "$work/cases/stdin" || exit 2
cp crates/figures/stdin "$work/figures/stdin" || exit 2
reference draw >"$work/compare/stdin" || exit 2
for program in cases figures compare; do
    reference script <"$work/$program/stdin" >"$work/$program/stdout" || exit 2
done
if grep '^= .*: no$' "$work/figures/stdout" >&2; then
    echo "a figure isn't what document 01 or the paper says" >&2
    exit 1
fi
if [ "$1" = write ]; then
    cp "$work/compare/stdin" crates/compare/stdin || exit 2
    for program in cases figures compare; do
        cp "$work/$program/stdout" "crates/$program/stdout" || exit 2
    done
fi
for file in cases/stdout figures/stdout compare/stdin compare/stdout; do
    # Quoted words have bytes above 126 in the scripts, so the files are compared as bytes.
    cmp "$work/$file" "crates/$file" || exit 1
done
echo "cases, figures and compare: $(cat "$work"/*/stdin | wc -l) lines print what reference/ prints; $(grep -c '^= .*: yes$' "$work/figures/stdout") figures hold"
