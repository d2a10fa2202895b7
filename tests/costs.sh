#!/bin/sh
# sh tests/costs.sh OUTPUT TIMES: what a whole run cost, in one line. OUTPUT is what `rt ci` printed, TIMES what the shell's `times` said behind it. The
# prover says of no crate and of no edit how long it took, and keeps what an earlier run on the machine passed; so the sum is of what was done in this run,
# and says how much that was. What one crate or one edit costs, docs/GATE.md says how to measure.
set -eu
[ $# -eq 2 ] && [ -r "$1" ] && [ -r "$2" ] || { echo "usage: sh tests/costs.sh OUTPUT TIMES" >&2; exit 2; }
awk '
    # 1m2.34s in seconds
    function seconds(s,    part) { split(s, part, "m"); return part[1] * 60 + part[2] }
    FILENAME == ARGV[1] { if (FNR == 2) spent = seconds($1) + seconds($2); next }
    /^rt: [A-Za-z0-9_]+ proved$/ { crates++; done++; next }
    /^rt: [A-Za-z0-9_]+: its tests are proved$/ { tests++; next }
    /^rt: [A-Za-z0-9_]+ is kept: / { crates++; next }
    /^rt: [A-Za-z0-9_]+: [0-9]+ of its [0-9]+ must-fail edits were tried by an earlier run/ { old += $3; next }
    /^rt: must-fail [A-Za-z0-9_]+\/[^ ]+\.edit: / { edits++ }
    END {
        if (!crates) { print "no crate was proved in this output"; exit 1 }
        printf "costs: %d of %d crates proved, the tests of %d, and %d of %d edits tried in this run, in %d s of processor time\n", done, crates, tests, edits - old, edits, spent
    }' "$2" "$1"
