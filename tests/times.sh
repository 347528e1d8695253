#!/bin/sh
# Where the last run of tests/edits/run.py, and so of ./test, spent its time on wrong answers: for each crate the seconds of its check as it
# stands, over what was kept; its files of wrong answers, how many these have, and the seconds of their checks, of which a file has more than
# one where names were turned. The seconds are those that passed, with several checks at a time, so their sum is more than the run took. rt
# ci says no times.
root=$(cd "$(dirname "$0")/.." && pwd)
log=$root/${1:-target/edits/times}
[ -f "$log" ] || { echo "times: $log is missing: run ./test first" >&2; exit 1; }
{
    grep -cE '^# [a-z0-9_]+: .*\.$' "$root"/crates/*/must-fail/*.edit | sed -E 's|.*/crates/([a-z0-9_]+)/.*:([0-9]+)$|answers \1 \2|'
    cat "$log"
} | awk '
    /^answers / { answers[$2] += $3 }
    /^check / { check[$2] = $3; order[++k] = $2 }
    /^edit / { split($2, part, "/"); if (!seen[$2]++) files[part[1]]++; cost[part[1]] += $3 }
    END {
        printf "%-12s %7s %7s %7s %9s\n", "crate", "check s", "answers", "files", "files s"
        for (i = 1; i <= k; i++) {
            name = order[i]
            printf "%-12s %7d %7d %7d %9d\n", name, check[name], answers[name], files[name], cost[name]
            a += check[name]; b += answers[name]; c += files[name]; d += cost[name]
        }
        printf "%-12s %7d %7d %7d %9d\n", "all", a, b, c, d
    }'
