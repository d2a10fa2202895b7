#!/bin/sh
# The verdict of a whole ./test, kept with the commit that it is of, for the page PROOF of ./dist.
#   sh tests/verdict.sh begin              prints the commit that is checked out, or nothing where a file differs from it
#   sh tests/verdict.sh end BEGUN LAST     keeps the line in the file LAST, if BEGUN, a file with what `begin` printed, is still the commit
#   sh tests/verdict.sh COMMIT             prints the line kept for this commit, or 'not run on this commit'
# A run in a changed tree is no commit's; a run that fails does not get as far as `end`, and ./test then takes away what an earlier one left. Nothing is
# written before the prover has begun.
set -eu
cd "$(dirname "$0")/.."
kept=target/verdict.txt
commit() {
    commit=$(git rev-parse --verify --quiet HEAD 2>/dev/null) || return 0
    [ -n "$(git status --porcelain)" ] || echo "$commit"
}
case $1 in
begin) commit ;;
end)
    begun=$(cat "$2")
    rm -f "$kept"
    if [ -n "$begun" ] && [ "$begun" = "$(commit)" ] && tail -n 1 "$3" | grep -q '[0-9] passed, 0 failed$'; then
        mkdir -p target
        { echo "$begun" && tail -n 1 "$3"; } >"$kept"
    fi
    ;;
*)
    if [ -f "$kept" ] && [ "$(head -n 1 "$kept")" = "$1" ]; then sed -n 2p "$kept"; else echo 'not run on this commit'; fi
    ;;
esac
