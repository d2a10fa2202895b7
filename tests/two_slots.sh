#!/bin/sh
# The C example that keeps a file through power failures, examples/c/two_slots.c: as a person uses it, with files; stopped at many bytes of a command,
# with a read after each; and over a medium in memory (tests/two_slots/cuts.c) cut at every byte that it writes, and with bytes that come to the medium in
# any order: each time the file from before the command or from behind it is read, and nothing else. Then the same of programs with one fault each, as
# one slot in the place of two: each must be reported. Proves and builds the archive where it is not built; ZBK_ARCHIVE names another one to use instead,
# seen from the top folder. One line for each step; what differs is shown, and the exit code is then 1.
set -eu
cd "$(dirname "$0")/.."
top=$PWD
archive=${ZBK_ARCHIVE:-target/staticlib/libzebrankai.a}
sh tests/prove_archive.sh
work=$(mktemp -d)
trap 'rm -rf "$work"' EXIT
fail() {
    echo "FAIL two slots: $*"
    if [ -s "$work/said" ]; then cat "$work/said"; fi
    exit 1
}

strict='-std=c99 -O2 -pedantic -Wall -Wextra -Wconversion -Wshadow -Werror -Iinclude'
# shellcheck disable=SC2086 # the options are words
gcc $strict examples/c/two_slots.c "$archive" -o "$work/two_slots" || fail "it does not compile"
gcc -O1 -Wall -Wextra -Werror -shared -fPIC tests/two_slots/stop.c -o "$work/stop.so" -ldl
echo "ok two_slots.c compiles as C99"

# ---- as a person uses it
cd "$work"
printf 'aspirin 100 mg: 42 boxes\nibuprofen 400 mg: 17 boxes\nsaline 500 ml: 120 bags\n' >stock
printf 'aspirin 100 mg: 40 boxes\n' >other
# try STATUS WORDS..: it ends with this exit code; is FILE: the store has this file
try() {
    due=$1
    shift
    status=0
    ./two_slots "$@" >out 2>said || status=$?
    [ "$status" -eq "$due" ] || fail "two_slots $*: exit code $status, not $due"
    if [ "$due" -ne 0 ] && [ ! -s said ]; then fail "two_slots $*: it said nothing"; fi
}
is() {
    try 0 store read
    cmp -s "$1" out || fail "the store has not the file $1"
}
try 1 store read
try 0 store new stock first
is stock
try 1 store new other
is stock
sed 's/120 bags/144 bags/' stock >edited
try 0 store edit "$(($(grep -ob 120 stock | cut -d: -f1)))" 144
is edited
try 1 store edit 70 'beyond the end'
try 1 store lose 8
try 0 store lose 3
try 0 store lose 7
try 1 store carry
grep -q 'DOWN (9)' said || fail "a carry with boards out of service is not DOWN"
is edited
try 0 store write other
is other
# a write has not put boards 3 and 7 into service
try 1 store carry
try 0 store lose 0
try 1 store repair
grep -q 'DOWN (9)' said || fail "a repair by five boards is not DOWN"
is other
try 0 store anew
try 0 store lose 0
try 0 store lose 3
try 0 store repair
try 0 store carry
try 0 store check
is other
# a worn byte on a board of the current slot: it is named, and the file is the last one all the same
try 0 store edit 0 A
sed '1s/^a/A/' other >edited
is edited
for slot in 0 1; do
    cp store worn
    # the slot's boards stand behind its head; a board has 832 bytes
    printf '\377' | dd of=worn bs=1 seek=$((slot * 12288 + 4096 + 832 * 2 + 1)) conv=notrunc 2>/dev/null
    ./two_slots worn read >out 2>said || fail "a store with a worn board cannot be read"
    cmp -s out edited || fail "a worn board gives another file"
    if grep -q 'board 2 is not as it was kept' said; then named=$slot; fi
done
[ -n "${named:-}" ] || fail "a worn board is not named"
# a head that is not whole: it is said, and the other slot is there
for slot in 0 1; do
    cp store worn
    printf '\377' | dd of=worn bs=1 seek=$((slot * 12288 + 100)) conv=notrunc 2>/dev/null
    ./two_slots worn read >out 2>said || fail "a store with one head cannot be read"
    grep -q 'a head is not whole' said || fail "a head that is not whole is not said"
done
try 2 store
try 2 store edit x y
try 2 store carry now
if [ -e /dev/full ]; then
    if ./two_slots store read >/dev/full 2>said; then fail "standard output that takes nothing"; fi
fi
head -c 3000 /dev/zero >long
try 1 store write long
head -c 5000 store >shorter
try 1 shorter read
# eight at once: each waits for the others, and nothing is lost
try 0 store write stock
pids=
for at in 0 1 2 3 4 5 6 7; do
    ./two_slots store edit "$at" "$at" &
    pids="$pids $!"
done
for pid in $pids; do wait "$pid" || fail "one of eight edits at once: exit code $?"; done
sed '1s/^......../01234567/' stock >edited
is edited
try 0 store write other
try 0 store edit 0 A
sed '1s/^a/A/' other >edited
is edited
: >said
echo "ok it keeps, changes, repairs and carries over a file"

# ---- other sizes at the top
for sizes in '3 1 1 1' '5 2 3 2' '12 6 8 2' '32 16 24 8'; do
    # shellcheck disable=SC2086 # four numbers
    set -- $sizes
    sed "s/enum { N = 8, K = 4, D = 6, R = 2, CAPACITY = 64 }/enum { N = $1, K = $2, D = $3, R = $4, CAPACITY = 100 }/" "$top/examples/c/two_slots.c" >sized.c
    # shellcheck disable=SC2086
    gcc $strict -I"$top/include" sized.c "$(case $archive in /*) ;; *) printf '%s/' "$top" ;; esac)$archive" -o sized || fail "$sizes: it does not compile"
    rm -f sized.store
    for words in 'new stock first' 'edit 0 A' 'lose 1' repair carry 'lose 0' 'edit 1 B' repair check anew read; do
        # shellcheck disable=SC2086 # the words of a command
        ./sized sized.store $words >out 2>said || fail "$sizes: $words"
    done
    sed '1s/^as/AB/' stock | cmp -s - out || fail "$sizes: another file"
    if ./sized store read >out 2>said; then fail "$sizes: a store of other sizes is read"; fi
done
: >said
echo "ok so it does at four other sizes"

# ---- stopped at many bytes of a command, with real files
cp store before
try 0 store write stock
cp store behind
bytes=0 old=0 new=0
while [ "$bytes" -le 7200 ]; do
    cp before store
    status=0
    STOP_AFTER=$bytes LD_PRELOAD=$work/stop.so ./two_slots store write stock 2>said || status=$?
    case $status in 0 | 99) ;; *) fail "stopped after $bytes bytes: exit code $status" ;; esac
    ./two_slots store read >out 2>said || fail "stopped after $bytes bytes: the store cannot be read"
    if cmp -s out edited && [ "$status" -eq 99 ]; then old=$((old + 1)); elif cmp -s out stock; then new=$((new + 1)); else fail "stopped after $bytes bytes: another file"; fi
    bytes=$((bytes + 97))
done
if [ "$old" -le 50 ] || [ "$new" -eq 0 ]; then fail "stopped: $old times the old file, $new times the new one"; fi
echo "ok stopped at $((old + new)) places of a write: $old times the file from before, $new times the one from behind"
valgrind=$(command -v valgrind || true)
if [ -n "$valgrind" ]; then
    cp before store
    for words in 'lose 2' repair check carry 'edit 3 xyz' read; do
        # shellcheck disable=SC2086 # the words of a command
        "$valgrind" --quiet --error-exitcode=9 --leak-check=full ./two_slots store $words >out 2>said || fail "valgrind: $words"
    done
    echo "ok valgrind finds nothing in it"
else
    echo "skipped valgrind: it is not on this machine"
fi
cd "$top"

# ---- cut at every byte, over a medium in memory: the same program, with room for four stripes
sed 's/CAPACITY = 64 }/CAPACITY = 4 }/' examples/c/two_slots.c >"$work/small.c"
wrap=$(for call in open close access rename fsync fcntl pread pwrite; do printf ' -Wl,--wrap=%s' $call; done)
# cuts FILE: what cuts.c says of this program
cuts() {
    # shellcheck disable=SC2086
    gcc -std=c99 -O2 -U_FORTIFY_SOURCE -pedantic -Wall -Wextra -Wshadow -Werror -Wno-unused -Iinclude -DTWO_SLOTS="\"$1\"" tests/two_slots/cuts.c "$archive" $wrap \
        -o "$work/cuts" 2>"$work/said" || fail "cuts.c does not compile"
    "$work/cuts" >"$work/out" 2>"$work/said"
}
cuts "$work/small.c" || { cat "$work/out"; fail "a power failure left something else"; }
echo "ok $(sed -n 's/^cuts: //p' "$work/out")"

# ---- a program with a fault is reported
reported=0
# faulty WHAT EDIT: with this edit, for sed
faulty() {
    sed "$2" "$work/small.c" >"$work/faulty.c"
    if cmp -s "$work/small.c" "$work/faulty.c"; then fail "$1: the edit changes nothing"; fi
    status=0
    cuts "$work/faulty.c" || status=$?
    if [ "$status" -ne 1 ] || ! grep -q '^WRONG ' "$work/out"; then fail "$1: not reported"; fi
    reported=$((reported + 1))
}
faulty "one slot" 's/SLOTS = 2,/SLOTS = 1,/'
faulty "a change to the slot that is current" 's/turn = s->turn + 1;/turn = s->turn + 2;/'
faulty "slots that share a block of the medium" 's/BLOCK = 4096,/BLOCK = 512,/'
faulty "no sync between boards and head" '/the boards cannot be synced/d'
faulty "no sync behind the head" '/the head cannot be synced/d'
faulty "no sync before the store is loaded" '/the store cannot be synced/d'
faulty "a head that is cut is taken" 's/ || check(head, AT_CHECK) != number_at(head + AT_CHECK)//'
faulty "the last slot, not the newer one" 's/if (turn > s->turn) s/if (turn > 0) s/'
faulty "a head that cannot be read is passed over" 's/return said("the store", "a head cannot be read")/continue/'
faulty "a board that was altered is taken" 's/if (there && check(bytes, BOARD) == .*/if (there) continue;/'
faulty "a new store's name is not synced" 's/if (above < 0 || fsync(above) != 0)/if (above < 0)/'
faulty "a new store has its name before it is there" 's/kept = kept \&\& save(s);/kept = kept \&\& rename(other, name) == 0 \&\& save(s); if (kept) return 1;/'
echo "ok programs with a fault are reported: $reported of $reported"
echo "two slots: all passed"
