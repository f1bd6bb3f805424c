#!/bin/sh
# Measures the proved library beside reference/ in one run, and writes the section "Measured" of docs/PERFORMANCE.md anew.
#     sh reference/measure.sh [ROUNDS]
# FIBEXP_ARCHIVE names a folder that has libcapi.a; without it the archive is made first.
cd "$(dirname "$0")/.." || exit 2
page=docs/PERFORMANCE.md
[ -n "$FIBEXP_ARCHIVE" ] || sh tools/make.sh archive || exit
said=$(mktemp) || exit 2
trap 'rm -f "$said"' EXIT
{
    sed '/^## Measured$/,$d' "$page"
    echo "## Measured"
    echo
    echo "$(date -u +%Y-%m-%d), at commit $(git rev-parse --short HEAD). Proved side: $(rt version). Other side: $(rustc --version), opt-level 3, lto. Load before the run: $(cut -d ' ' -f 1 /proc/loadavg)."
    echo
    cargo run --quiet --release --manifest-path reference/linked/Cargo.toml --bin bench -- "$@" || exit
} >"$said" || exit 2
cp "$said" "$page"
