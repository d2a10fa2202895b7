#!/bin/sh
# The program `trial` (request A.2) against the unrelated coder's own generator and ledger (`coder --trial`), byte for byte: loads that the coder draws,
# numbers at both ends of what is taken, malformed lines, inputs of many bytes, each at once and in parts (tests/printer.sh); reads that fail, which give
# `refused=1`, and writes that fail, after which nothing is written any more; and more calls than anyone waits for, up to a reader that goes away. Every
# answer that a call of a load can have must have been met. Proves and builds program and archive where they are not built; TRIAL names another program
# to try instead. Ends with exit code 1 where something differs, or where there is no program.
set -eu
cd "$(dirname "$0")/.."
program=${TRIAL:-$(sh tests/program.sh trial)}
[ -x "$program" ] || { echo "FAIL trial: there is no program $program"; exit 1; }
sh tests/prove_archive.sh
CARGO_TARGET_DIR=$PWD/target/cargo
export CARGO_TARGET_DIR
cargo build --offline --quiet --release -j1 --manifest-path tests/coder/Cargo.toml
coder=target/cargo/release/coder
LC_ALL=C
export LC_ALL
. tests/printer.sh
gcc -O1 -Wall -shared -fPIC tests/sizes_write.c -o "$work/write.so" -ldl
gcc -O1 -Wall tests/sizes_pipe.c -o "$work/pipe"
# a program that takes more calls than it may is ended after thirty million bytes; a load of a million calls prints 26 million
ulimit -f 60000
in=$work/in
due=$work/due
# the same as in tests/printer.sh, with a line for what differs alone
held() {
    if [ "$2" -eq 0 ] && cmp -s "$out" "$3"; then
        passed=$((passed + 1))
    else
        echo "FAIL trial: $1 (exit code $2)"
        failed=$((failed + 1))
    fi
}
# load N K D R C SEED LENGTH CALLS: the input that says so
load() {
    printf 'n=%s\nk=%s\nd=%s\nr=%s\nC=%s\nseed=%s\nlength=%s\ncalls=%s\n' "$@"
}
# compared NAME: what is in `in`, at once and in parts
compared() {
    "$coder" --trial <"$in" >"$due"
    tried "$1" "$in" "$due"
}
# settled NAME WHETHER: the same, where it is plain without the coder whether it is taken
settled() {
    compared "$1"
    if { [ "$2" = refused ] && ! cmp -s "$due" "$work/refused"; } || { [ "$2" = taken ] && grep -q '^refused=' "$due"; }; then
        echo "FAIL trial: $1: the coder says that it is not $2"
        failed=$((failed + 1))
    fi
}
taken() { load "$@" >"$in" && settled "the load $*" taken; }
refused() { load "$@" >"$in" && settled "the load $*" refused; }

# the coder itself, on a load that was worked out by hand, and on the input of the program's own check
load 4 2 2 1 1 3081 5 8 >"$work/known"
cat >"$due" <<'LINES'
op=repair answer=8 moved=0
op=read answer=8 moved=0
op=write answer=0 moved=0
op=lose answer=0 moved=0
op=repair answer=14 moved=0
op=read answer=0 moved=0
op=read answer=9 moved=0
op=repair answer=0 moved=4
LINES
"$coder" --trial <"$work/known" | cmp - "$due" || { echo "FAIL trial: the coder on the known load"; exit 1; }
tried "the known load" "$work/known" "$due"
own=crates/trial/stdin
if [ -f $own ]; then
    "$coder" --trial <$own | cmp - crates/trial/stdout || { echo "FAIL trial: the coder on the program's own input"; exit 1; }
    tried "the program's own input" $own crates/trial/stdout
elif [ -z "${TRIAL:-}" ]; then
    echo "FAIL trial: there is no $own"
    exit 1
fi

# loads that the coder draws, some of them altered
: >"$work/all"
case=0
while [ "$case" -lt 400 ]; do
    "$coder" --seed 2 --load "$case" >"$in"
    compared "coder --seed 2 --load $case"
    cat "$due" >>"$work/all"
    case=$((case + 1))
done
# every answer that a call of a load can have, and no other
cat >"$due" <<'KINDS'
op=lose answer=0 moved=0
op=read answer=0 moved=0
op=read answer=8 moved=0
op=read answer=9 moved=0
op=repair answer=0 moved=0
op=repair answer=0 moved=some
op=repair answer=14 moved=0
op=repair answer=8 moved=0
op=repair answer=9 moved=0
op=write answer=0 moved=0
op=write answer=3 moved=0
refused=1
KINDS
sed 's/moved=[1-9][0-9]*$/moved=some/' "$work/all" | sort -u >"$out"
held "each kind of line is met" 0 "$due"

# the ends of what is taken. Sizes:
taken 2 1 1 1 1 1 2 20
taken 32 31 31 1 16 2 992 20
taken 32 1 1 31 31 3 31 20
taken 32 1 1 1 512 4 1024 20
taken 32 16 16 16 10 5 1024 20
refused 33 1 1 1 1 1 1 20
refused 1 1 1 1 1 1 1 20
refused 0 0 0 0 1 1 1 20
refused 4 0 2 1 1 1 1 20
refused 4 3 2 1 1 1 1 20
refused 4 2 2 0 1 1 1 20
refused 4 2 2 3 1 1 1 20
refused 4 2 4 1 1 1 1 20
# the capacity, 1 to 4,096 stripes, and the area, n C (2d + r - 1) bytes up to 32,768
taken 2 1 1 1 1 6 2 20
refused 2 1 1 1 0 6 2 20
taken 2 1 1 1 4096 6 8192 20
refused 2 1 1 1 4097 6 2 20
taken 8 1 1 3 1024 7 4096 20
refused 8 1 1 3 1025 7 4096 20
taken 11 1 4 2 330 8 2970 20
refused 11 1 4 2 331 8 2970 20
taken 32 31 31 1 16 9 1 20
refused 32 31 31 1 17 9 1 20
taken 3 2 2 1 2730 10 16380 20
refused 3 2 2 1 2731 10 16380 20
refused 32 31 31 1 4096 9 1 20
# the length, up to 16,384; one that the store has no room for is LONG in each write, and nothing is ever read
taken 3 2 2 1 2730 11 16380 40
taken 3 2 2 1 2730 11 16381 40
taken 3 2 2 1 2730 11 16384 40
refused 3 2 2 1 2730 11 16385 40
taken 4 2 2 1 1 12 6 40
taken 4 2 2 1 1 12 7 40
taken 4 2 2 1 1 12 0 40
taken 4 2 2 1 1 12 16384 40
refused 4 2 2 1 1 12 16385 40
# the seed, up to 4,294,967,295
for seed in 0 1 2147483647 2147483648 4294967294 4294967295; do taken 4 2 2 1 3 $seed 13 60; done
for seed in 4294967296 4294967297 8589934592 18446744073709551615 18446744073709551616 18446744073709551623; do refused 4 2 2 1 3 $seed 13 60; done
# the calls: none; many are below
taken 4 2 2 1 3 5 13 0
[ ! -s "$due" ] || { echo "FAIL trial: the coder writes something for no calls"; failed=$((failed + 1)); }
taken 4 2 2 1 3 5 13 1
taken 4 2 2 1 3 5 13 5000
for calls in 4294967296 4294967297 18446744073709551616 18446744073709551617; do refused 4 2 2 1 3 5 13 $calls; done
# each number as another one that is the same modulo 2 to the 8, to the 32 and to the 64, and with very many digits
for place in 1 2 3 4 5 6 7 8; do
    set -- 4 2 2 1 1 3081 5 8
    eval "number=\${$place}"
    for other in $((number + 256)) $((number + 4294967296)) 18446744073709$((number + 551616)) 9999999999999999999999 1000000000000000000000000000000000000000; do
        awk -v place=$place -v other="$other" -F= 'NR == place { $0 = $1 "=" other } { print }' "$work/known" >"$in"
        # 256 more is a seed, a length and a number of calls as good as others
        if [ "$other" = $((number + 256)) ] && [ "$place" -ge 5 ]; then compared "number $place as $other"; else settled "number $place as $other" refused; fi
    done
done

# malformed lines, each of the eight in each way
# spoilt PLACE NAME NEW: the line of this place is another one, as printf would write it
spoilt() {
    awk -v place="$1" -v new="$3" 'NR == place { printf "%s", new; next } { print }' "$work/known" >"$in"
    settled "line $1: $2" refused
}
place=1
while [ $place -le 8 ]; do
    old=$(sed -n "${place}p" "$work/known")
    name=${old%%=*}
    number=${old#*=}
    lower=$(printf %s "$name" | tr '[:upper:]' '[:lower:]')
    upper=$(printf %s "$name" | tr '[:lower:]' '[:upper:]')
    [ "$name" = "$lower" ] || spoilt $place "lower case" "$lower=$number\n"
    [ "$name" = "$upper" ] || spoilt $place "upper case" "$upper=$number\n"
    spoilt $place "another name" "x=$number\n"
    spoilt $place "a longer name" "${name}s=$number\n"
    spoilt $place "a shorter name" "${name#?}=$number\n"
    spoilt $place "no name" "$number\n"
    spoilt $place "no equals sign" "$name$number\n"
    spoilt $place "a colon" "$name:$number\n"
    spoilt $place "two equals signs" "$name==$number\n"
    spoilt $place "a leading zero" "$name=0$number\n"
    spoilt $place "two zeros" "$name=00\n"
    spoilt $place "no digit" "$name=\n"
    spoilt $place "the name alone" "$name\n"
    spoilt $place "an empty line in its place" "\n"
    spoilt $place "an empty line before it" "\n$old\n"
    spoilt $place "an empty line behind it" "$old\n\n"
    spoilt $place "a space before it" " $old\n"
    spoilt $place "a space before the number" "$name= $number\n"
    spoilt $place "a space behind the number" "$old \n"
    spoilt $place "a tab behind the number" "$old\t\n"
    spoilt $place "a carriage return" "$old\r\n"
    spoilt $place "a carriage return for the line's end" "$old\r"
    spoilt $place "no line's end" "$old"
    spoilt $place "a space for the line's end" "$old "
    spoilt $place "a plus sign" "$name=+$number\n"
    spoilt $place "a minus sign" "$name=-$number\n"
    spoilt $place "a point" "$name=$number.0\n"
    spoilt $place "a letter" "$name=${number}a\n"
    spoilt $place "hexadecimal" "$name=0x$number\n"
    spoilt $place "a byte below 0" "$name=$number/\n"
    spoilt $place "a byte above 9" "$name=$number:\n"
    spoilt $place "a digit of three bytes" "$name=\342\221\240\n"
    spoilt $place "it is missing" ""
    spoilt $place "it stands twice" "$old\n$old\n"
    if [ $place -lt 8 ]; then
        sed "${place}{h;d;}; $((place + 1)){G;}" "$work/known" >"$in"
        settled "line $place: exchanged with the next" refused
    fi
    # a byte 00, which awk may not write
    { head -n $((place - 1)) "$work/known"; printf '%s\000\n' "$old"; tail -n +$((place + 1)) "$work/known"; } >"$in"
    settled "line $place: a byte 00 behind the number" refused
    place=$((place + 1))
done
# every byte left out, twice, and another digit; and every beginning
bytes=$(wc -c <"$work/known")
place=0
while [ $place -lt "$bytes" ]; do
    { head -c $place "$work/known"; tail -c +$((place + 2)) "$work/known"; } >"$in"
    compared "byte $place is left out"
    { head -c $((place + 1)) "$work/known"; tail -c +$((place + 1)) "$work/known"; } >"$in"
    compared "byte $place stands twice"
    { head -c $place "$work/known"; printf 3; tail -c +$((place + 2)) "$work/known"; } >"$in"
    compared "byte $place is 3"
    head -c $place "$work/known" >"$in"
    settled "the first $place bytes" refused
    place=$((place + 1))
done
# bytes behind, and before
for more in '\n' ' ' '\000' x '8' 'calls=8\n' 'n=4\n' '\r\n' '\032'; do
    # shellcheck disable=SC2059 # the format is the bytes
    { cat "$work/known"; printf "$more"; } >"$in"
    settled "with '$more' behind" refused
    # shellcheck disable=SC2059
    { printf "$more"; cat "$work/known"; } >"$in"
    settled "with '$more' before" refused
done
cat "$work/known" "$work/known" >"$in"
settled "twice" refused
printf '\357\273\277' | cat - "$work/known" >"$in"
settled "with a byte order mark" refused
sed 's/$/\r/' "$work/known" >"$in"
settled "with carriage returns" refused
sort "$work/known" >"$in"
settled "in another order" refused
tr -d '\n' <"$work/known" >"$in"
settled "in one line" refused
printf '\n' >"$in"
settled "a line's end alone" refused
# of many bytes: zeros, digits, line ends and lines behind what would be taken; digits of a number; and nothing but zeros
for count in 72 73 74 127 128 129 130 255 256 257 4096 100000; do
    for filler in '0' '\n' '\000' 'n'; do
        # shellcheck disable=SC2059
        { cat "$work/known"; head -c $count /dev/zero | tr '\000' "$filler"; } | head -c $count >"$in"
        settled "$count bytes, filled up with '$filler'" refused
    done
    { printf 'n=4\nk=2\nd=2\nr=1\nC=1\nseed='; head -c $((count - 50)) /dev/zero | tr '\000' 1; printf '\nlength=5\ncalls=8\n'; } >"$in"
    settled "$((count - 50)) digits" refused
    { printf 'n='; head -c $((count - 50)) /dev/zero | tr '\000' 0; tail -c +3 "$work/known"; } >"$in"
    settled "$((count - 50)) zeros" refused
    while :; do cat "$work/known"; done | head -c $count >"$in"
    settled "$count bytes of many loads" refused
    head -c $count /dev/zero >"$in"
    settled "$count bytes 00" refused
done
: >"$in"
settled "an empty input" refused

# reads that fail: at once; within a line; behind the lines, where a load would be taken
unread
cut "$work/known" 0 4096
cut "$work/known" 1 4
cut "$work/known" 1 9
cut "$work/known" 1 $((bytes - 1))
cut "$work/known" 1 "$bytes"
cut "$work/known" 1 4096
cut "$work/known" 7 7
cut "$work/known" "$bytes" 1
# one byte a read
status=0
LD_PRELOAD=$work/read.so READ_MOST=1 "$program" <"$work/known" >"$out" || status=$?
"$coder" --trial <"$work/known" >"$due"
held "one byte a read" "$status" "$due"
# a pipe that gives a line now and then; and one that gives a byte more after a while: nothing may be written before it ends
slowly() {
    while IFS= read -r line; do
        printf '%s\n' "$line"
        sleep 0.02
    done <"$work/known"
}
status=0
slowly | "$program" >"$out" || status=$?
held "a slow pipe" "$status" "$due"
status=0
{ slowly && sleep 0.2 && printf x; } | "$program" >"$out" || status=$?
held "a slow pipe, and a byte behind" "$status" "$work/refused"

# ---- writes that fail
# beginning NAME STATUS: the program ended by itself, and what came out begins what it must write
beginning() {
    count=$(wc -c <"$out")
    if [ "$2" -ne 124 ] && head -c "$count" "$due" | cmp -s - "$out"; then
        passed=$((passed + 1))
    else
        echo "FAIL trial: $1: what came out does not begin the lines ($count bytes, exit code $2)"
        failed=$((failed + 1))
    fi
}
load 4 2 2 1 3 77 13 3000 >"$in"
"$coder" --trial <"$in" >"$due"
# a write takes some bytes alone; all must go out all the same
for most in 1 10 1000; do
    status=0
    LD_PRELOAD=$work/write.so WRITE_MOST=$most timeout 60 "$program" <"$in" >"$out" || status=$?
    held "at most $most bytes a write" "$status" "$due"
done
# one write fails, and those behind it would go through
for fails in 0 1 2 7 100 2999; do
    status=0
    LD_PRELOAD=$work/write.so WRITE_FAILS=$fails timeout 60 "$program" <"$in" >"$out" || status=$?
    beginning "write $fails fails" "$status"
    if [ $fails -lt 2 ] && cmp -s "$out" "$due"; then
        echo "FAIL trial: write $fails fails: all came out"
        failed=$((failed + 1))
    fi
    status=0
    LD_PRELOAD=$work/write.so WRITE_FAILS=$fails WRITE_MOST=10 timeout 60 "$program" <"$in" >"$out" || status=$?
    beginning "write $fails of at most 10 bytes fails" "$status"
done
# a pipe that may not wait, and a slow reader
for turn in 1 2 3; do
    status=0
    timeout 60 "$work/pipe" "$program" <"$in" >"$out" || status=$?
    beginning "a full pipe, turn $turn" "$status"
done
# as many calls as some loop might leave out, whole
load 4 2 2 1 3 79 13 1000000 >"$in"
"$coder" --trial <"$in" >"$due"
status=0
timeout 60 "$program" <"$in" >"$out" || status=$?
held "1000000 calls" "$status" "$due"
# more calls than anyone waits for: the first lines; then no room, no output, and readers that go away, where the program must end at once
load 4 2 2 1 3 78 13 4294967295 >"$in"
"$coder" --trial <"$in" 2>/dev/null | head -n 20000 >"$due"
# written: runs the program, and keeps its exit code
written() {
    status=0
    timeout 20 "$program" <"$in" 2>/dev/null || status=$?
    echo "$status" >"$work/status"
}
for lines in 1 2 100 20000; do
    written | head -n $lines >"$out"
    beginning "the first $lines lines of 4294967295" "$(cat "$work/status")"
    if [ "$(wc -l <"$out")" -ne $lines ]; then
        echo "FAIL trial: there are not $lines lines"
        failed=$((failed + 1))
    fi
done
for count in 1 4096 100000; do
    { trap '' PIPE && written; } | head -c $count >"$out"
    beginning "a reader of $count bytes, and writes that fail" "$(cat "$work/status")"
done
: >"$out"
written >/dev/full
beginning "a full device" "$(cat "$work/status")"
written >&-
beginning "a closed output" "$(cat "$work/status")"
# what is refused goes into these too
printf x >"$in"
written >/dev/full
beginning "a full device, refused" "$(cat "$work/status")"
ended trial
