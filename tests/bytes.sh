#!/bin/sh
# Runs the command lines of tests/bytes.txt with the tool, and compares the text; the other stream must be empty.
#     sh tools/make.sh tool && sh tests/bytes.sh
#     sh tests/bytes.sh TOOL    with the tool in C, whose exit status is compared too
cd "$(dirname "$0")/.." || exit 2
tool=${1:-target/bin/fibexp} has_status=${1:+yes}
[ -x "$tool" ] || { echo "no $tool" >&2; exit 2; }
work=$(mktemp -d) || exit 2
trap 'rm -rf "$work"' EXIT
input() {
    case $1 in
        zeros\ *) head -c "${1#zeros }" /dev/zero ;;
        *) printf "$1" ;;
    esac
}
count=0
while IFS= read -r line; do
    case $line in '' | '#'*) continue ;; esac
    IFS='|'; set -f; set -- $line; set +f; unset IFS
    bytes=$1 status=$2 text=$3; shift 3
    input "$bytes" | { "$tool" "$@" >"$work/out" 2>"$work/error"; echo $? >"$work/status"; }
    said=out silent=error
    [ "$status" = 0 ] || { said=error silent=out; }
    # The tool always ends with status 0.
    [ -n "$has_status" ] || status=0
    printf '%s\n' "$text" >"$work/text"
    if [ "$(cat "$work/status")" != "$status" ] || [ -s "$work/$silent" ] || ! cmp -s "$work/text" "$work/$said"; then
        echo "not so: $line" >&2
        exit 1
    fi
    count=$((count + 1))
done <tests/bytes.txt
echo "$tool: $count command lines on bytes answer as they must"
