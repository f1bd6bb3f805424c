#!/bin/sh
# Runs the commands of the README's session with the tool, and compares what they print with what the README says: a line that comes on
# standard error has `! ` in front there, so the two streams are compared apart. Then the same with the tool in C, which has an exit
# status too, 0 where nothing comes on standard error, 1 for a refusal, else 2; it has no scripts.
#     sh tools/make.sh tool && sh tests/session.sh [C_TOOL]
# The tool in C is C_TOOL, else target/fibexp-c where that is; the README has the line that compiles it.
cd "$(dirname "$0")/.." || exit 2
root=$PWD
work=$(mktemp -d) || exit 2
trap 'rm -rf "$work"' EXIT

# The session: every block of the README that begins with a command, up to the empty line after it.
awk '/^    \$ / { on = 1 } /^$/ { on = 0 } on { print substr($0, 5) }' README.md >"$work/readme"
[ -s "$work/readme" ] || { echo "the README has no session" >&2; exit 2; }

# What standard error says of the exit status.
status_of() {
    if [ ! -s "$1" ]; then
        echo 0
    elif grep -q '^fibexp: refused ' "$1"; then
        echo 1
    else
        echo 2
    fi
}

# session TOOL NAME: runs each command of $work/said in a folder of its own, in which target/bin/fibexp is TOOL.
session() {
    [ -x "$1" ] || { echo "no $1" >&2; exit 2; }
    rm -rf "$work/here"
    mkdir -p "$work/here/target/bin" && ln -s "$1" "$work/here/target/bin/fibexp" || exit 2
    grep '^\$ ' "$work/said" >"$work/commands"
    : >"$work/did"
    while IFS= read -r line; do
        command=${line#??}
        (cd "$work/here" && exec sh -c "$command") >"$work/out" 2>"$work/error" </dev/null
        status=$?
        { printf '%s\n' "$line"; cat "$work/out"; sed 's/^/! /' "$work/error"; } >>"$work/did"
        wanted=0
        [ "$2" = "the tool" ] || wanted=$(status_of "$work/error")
        if [ "$status" -ne "$wanted" ]; then
            echo "$2: exit status $status, and not $wanted: $command" >&2
            exit 1
        fi
    done <"$work/commands"
    diff "$work/said" "$work/did" >&2 || { echo "$2: the session isn't what the README says" >&2; exit 1; }
    echo "$2: $(grep -c . "$work/commands") commands print what the README says"
}

cp "$work/readme" "$work/said"
session "$root/target/bin/fibexp" "the tool"

case $1 in
    '') c_tool=$root/target/fibexp-c ;;
    /*) c_tool=$1 ;;
    *) c_tool=$root/$1 ;;
esac
if [ -n "$1" ] || [ -x "$c_tool" ]; then
    awk '/^\$ / { on = !/fibexp script/ } on' "$work/readme" >"$work/said"
    session "$c_tool" "the tool in C"
fi
