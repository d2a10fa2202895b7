#!/bin/sh
# Proves the archive and writes target/staticlib/libzebrankai.a: first the crates that it rests on, side by side as `rt all check` proves them, then the
# archive itself by `rt lib`. On a terminal one line on standard error says how far it is and about how long the rest will take, by the crates done;
# elsewhere there is a line for every ten crates. What the prover said is in target/prove_archive.log, and is shown of crates that are not proved. An
# archive that was proved and built from the files as they stand is not built again. Where ZBK_ARCHIVE names another archive, seen from the top folder, it
# only sees that this is there.
set -eu
cd "$(dirname "$0")/.."
say() { printf '%s\n' "$*" >&2; }
if [ -n "${ZBK_ARCHIVE:-}" ]; then
    [ -f "$ZBK_ARCHIVE" ] || { say "there is no archive $ZBK_ARCHIVE"; exit 1; }
    exit 0
fi
command -v rt >/dev/null || { say "rt, the Rattle toolchain, is not on the path"; exit 1; }
. tests/made_of.sh
archive=target/staticlib/libzebrankai.a
log=target/prove_archive.log
if built zebrankai "$archive"; then
    say "the archive is proved and built"
    exit 0
fi

crates=$(closure zebrankai)
all=$(printf '%s\n' "$crates" | wc -l | tr -d ' ')
began=$(date +%s)
took() { t=$(($(date +%s) - began)) && printf '%d:%02d' $((t / 60)) $((t % 60)); }
mkdir -p target/staticlib
rm -f "$archive.of"
: >"$log"
say "proving and building the archive, $all crates: from nothing it takes a while"

# the crates that are done: the prover says `== NAME` when one ends
ended() { sed '/^== summary$/,$d' "$log" | grep -c '^== ' || true; }
# about how long the rest takes: by the bytes of the crates proved so far and of those to come, once there is a tenth of them; crates that had not
# changed took no time, of which nothing is said, and do not count
for crate in $crates; do
    echo "$crate $(($(find "crates/$crate/src" "crates/$crate/specs" "crates/$crate/proofs" -type f -exec cat {} + 2>/dev/null | wc -c) + 6000))"
done >"$log.bytes"
rest() {
    awk -v so_far=$(($(date +%s) - began)) '
        function end() { if (crate in bytes) { all -= bytes[crate]; if (said) { all += bytes[crate]; done += bytes[crate] }; delete bytes[crate] } }
        NR == FNR { bytes[$1] = $2; all += $2; next }
        /^== summary$/ { exit }
        /^== / { end(); crate = $2; said = 0; next }
        { said = 1 }
        END {
            end()
            if (done == 0 || done * 10 < all) exit
            s = so_far * (all - done) / done
            if (s < 60) printf ", less than a minute to go"; else printf ", about %d minutes to go", int(s / 60 + 1)
        }' "$log.bytes" "$log" | sed 's/about 1 minutes/about a minute/'
}
# one line, kept up to date
line() {
    while kill -0 $$ 2>/dev/null; do
        wide=$(stty size <&2 2>/dev/null | cut -d' ' -f2)
        [ "${wide:-0}" -gt 0 ] || wide=80
        printf "\r\033[K%.$((wide - 1))s" "proved $(ended) of $all crates, $(took) so far$(rest)" >&2
        sleep 1 >/dev/null 2>&1
    done
}
# a line for every ten crates
lines() {
    told=0
    while kill -0 $$ 2>/dev/null; do
        n=$(ended)
        if [ $((n / 10)) -gt $((told / 10)) ]; then
            say "proved $n of $all crates, $(took) so far$(rest)"
            told=$n
        fi
        sleep 1 >/dev/null 2>&1
    done
}

if [ -t 2 ] && [ "${TERM:-dumb}" != dumb ]; then
    line &
    clear='\r\033[K'
else
    lines &
    clear=
fi
shower=$!
quiet() {
    [ -n "$shower" ] || return 0
    kill "$shower" 2>/dev/null || true
    wait "$shower" 2>/dev/null || true
    shower=
    # shellcheck disable=SC2059 # the control characters
    printf "$clear" >&2
    rm -f "$log.bytes"
}
trap quiet EXIT
trap 'exit 130' INT
trap 'exit 143' TERM HUP

first=$(made_of zebrankai)
jobs=$(sh tests/jobs.sh)
outcome=0
(cd crates/zebrankai && rt all check --jobs "$jobs") >"$log" 2>&1 || outcome=$?
if [ "$outcome" -eq 0 ]; then (cd crates/zebrankai && rm -f out/libzebrankai.a && rt lib --cpu=x86-64) >>"$log" 2>&1 || outcome=$?; fi
if [ "$outcome" -eq 0 ]; then cp crates/zebrankai/out/libzebrankai.a "$archive" 2>>"$log" || outcome=$?; fi
if [ "$outcome" -ne 0 ]; then
    quiet
    # of crates that are proved, or that were not come to, nothing is shown
    awk '
        NR == FNR { if (/^== summary$/) summary = 1; if (summary && / failed \([0-9]+\)$/) { n = $1; sub(/:$/, "", n); failed[n] }; next }
        FNR == 1 { on = 1 }
        /^== summary$/ { on = 1; next }
        /^== / { on = ($2 in failed); if (on) print; next }
        on && !/: ok$/ && !/: not run, since / { print }' "$log" "$log" >&2
    say "the archive could not be proved and built; all that the prover said is in $log"
    exit 1
fi
quiet
is_built zebrankai "$archive" "$first"
say "the archive is proved and built, $all crates in $(took)"
