#!/bin/sh
# Prints a table in Markdown of what each crate and its must-fail edits cost in a run of the gate, from what that run printed.
#     .ci/run >LOG; sh tests/gate_costs.sh LOG
#     .ci/run | sh tests/gate_costs.sh
# The rows are the crates in the order of crates.txt, then those that the log has and crates.txt doesn't, then the totals. Seconds are
# those that rt says: of one job, while others run beside it, so the totals are more than the gate takes. A cell without a number says
# that the log has none: the gate isn't over, it failed there, or the crate has no edits. The programs' runs are not counted.
crates=$(dirname "$0")/../crates.txt
log=${1:--}
[ -r "$crates" ] || { echo "no $crates" >&2; exit 2; }
[ "$log" = - ] || [ -r "$log" ] || { echo "no $log" >&2; exit 2; }
LC_ALL=C awk '
    # The number in front of "s)" at the end of the line; nothing where there is none.
    function seconds() {
        if (!match($0, /[0-9]+ s\)$/)) return ""
        return substr($0, RSTART, RLENGTH - 3)
    }
    function row_for(crate) {
        if (!(crate in known)) { known[crate] = 1; order[++rows] = crate }
    }
    function print_row(name, prove, count, edits) {
        printf "| %s |%s |", name, prove == "" ? "" : " " prove
        if (count) printf " %d | %d | %.1f |\n", count, edits, edits / count
        else print " | | |"
    }

    # crates.txt: NAME: DEPENDENCIES
    NR == FNR {
        if ($0 ~ /^[^#:]+:/) { sub(/:.*/, ""); row_for($1) }
        next
    }
    # rt: NAME proved (N s), rt: NAME NOT PROVED (exit STATUS, N s)
    $1 == "rt:" && ($3 == "proved" || ($3 == "NOT" && $4 == "PROVED")) && seconds() != "" {
        row_for($2)
        prove[$2] += seconds()
        all_prove += seconds()
    }
    # rt: must-fail NAME/LABEL: refused, as it must be (first at PLACE; N s)
    $1 == "rt:" && $2 == "must-fail" && seconds() != "" {
        crate = $3
        sub(/\/.*/, "", crate)
        row_for(crate)
        count[crate]++
        edits[crate] += seconds()
        all_count++
        all_edits += seconds()
    }
    END {
        print "| crate | s to prove | edits | s of all edits | s per edit |"
        print "|---|---:|---:|---:|---:|"
        for (i = 1; i <= rows; i++) print_row(order[i], prove[order[i]], count[order[i]], edits[order[i]])
        print_row("all", all_prove + 0, all_count, all_edits)
    }' "$crates" "$log"
