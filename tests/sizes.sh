#!/bin/sh
# The program size_printer (request A.12) against the unrelated coder's own list, byte for byte, for every limit from 2 to 32, each also with one byte a
# read; input that is none of these gives `refused=1`, and so does a read that fails. Where a write fails the program ends, and what it wrote is a
# beginning of the list: no line is left out before another. Ends with exit code 1 where something differs.
set -eu
cd "$(dirname "$0")/.."
CARGO_TARGET_DIR=$PWD/target/cargo
export CARGO_TARGET_DIR
sh tests/prove_archive.sh
cargo build --offline --quiet --release -j1 --manifest-path tests/coder/Cargo.toml
program=$(sh tests/program.sh size_printer)
coder=target/cargo/release/coder
work=$(mktemp -d)
trap 'rm -rf "$work"' EXIT
gcc -O1 -Wall -shared -fPIC tests/share_printer_read.c -o "$work/read.so" -ldl
gcc -O1 -Wall -shared -fPIC tests/sizes_write.c -o "$work/write.so" -ldl
gcc -O1 -Wall tests/sizes_pipe.c -o "$work/pipe"
passed=0
failed=0
# holds what was written, with the exit code before it, to a file
held() {
    if [ "$2" -eq 0 ] && cmp -s "$work/out" "$3"; then
        passed=$((passed + 1))
    else
        echo "FAIL sizes: $1"
        failed=$((failed + 1))
    fi
}
limit=2
while [ "$limit" -le 32 ]; do
    "$coder" --sizes "$limit" >"$work/due"
    count=$(((limit + 2) * (limit + 1) * limit * (limit - 1) / 24))
    if [ "$(wc -l <"$work/due")" -ne "$count" ]; then
        echo "FAIL sizes: the coder has not $count lines up to $limit"
        failed=$((failed + 1))
    fi
    printf '%s\n' "$limit" >"$work/in"
    status=0
    "$program" <"$work/in" >"$work/out" || status=$?
    held "all up to $limit" "$status" "$work/due"
    status=0
    LD_PRELOAD=$work/read.so READ_MOST=1 "$program" <"$work/in" >"$work/out" || status=$?
    held "all up to $limit, a byte a read" "$status" "$work/due"
    limit=$((limit + 1))
done

# the input and the output of the program's own check
printf '32\n' | cmp - crates/size_printer/stdin || { echo "FAIL sizes: crates/size_printer/stdin is not 32"; exit 1; }
cmp "$work/due" crates/size_printer/stdout || { echo "FAIL sizes: the coder's list is not crates/size_printer/stdout"; exit 1; }

# writes that fail, with all sizes up to 32 to be written
# beginning NAME STATUS: the program ended by itself, and what came out begins the list
beginning() {
    bytes=$(wc -c <"$work/out")
    if [ "$2" -ne 124 ] && head -c "$bytes" "$work/due" | cmp -s - "$work/out"; then
        passed=$((passed + 1))
    else
        echo "FAIL sizes: $1: what came out does not begin the list ($bytes bytes, exit code $2)"
        failed=$((failed + 1))
    fi
}
# one write fails, and those behind it would go through, as into a pipe that was full for a moment: of a whole block, and of a part of one
for fails in 0 1 2 7 44 45; do
    status=0
    LD_PRELOAD=$work/write.so WRITE_FAILS=$fails timeout 60 "$program" <"$work/in" >"$work/out" || status=$?
    beginning "write $fails fails" "$status"
    status=0
    LD_PRELOAD=$work/write.so WRITE_FAILS=$fails WRITE_MOST=1000 timeout 60 "$program" <"$work/in" >"$work/out" || status=$?
    beginning "write $fails of at most 1000 bytes fails" "$status"
done
# no room, and no output
: >"$work/out"
status=0
timeout 60 "$program" <"$work/in" >/dev/full || status=$?
beginning "a full device" "$status"
status=0
timeout 60 "$program" <"$work/in" >&- || status=$?
beginning "a closed output" "$status"
# a reader that goes away: the program is ended by it, or its writes fail
written() {
    status=0
    timeout 60 "$program" <"$work/in" 2>/dev/null || status=$?
    echo "$status" >"$work/status"
}
for bytes in 1 4096 100000; do
    written | head -c "$bytes" >"$work/out"
    beginning "a reader of $bytes bytes" "$(cat "$work/status")"
    { trap '' PIPE && written; } | head -c "$bytes" >"$work/out"
    beginning "a reader of $bytes bytes, and writes that fail" "$(cat "$work/status")"
done
# a pipe that may not wait, and a slow reader
for turn in 1 2 3 4 5; do
    status=0
    timeout 60 "$work/pipe" "$program" <"$work/in" >"$work/out" || status=$?
    beginning "a full pipe, turn $turn" "$status"
done

# any other input
echo refused=1 >"$work/refused"
refused() {
    status=0
    # shellcheck disable=SC2059 # the format is the input
    printf -- "$1" | "$program" >"$work/out" || status=$?
    held "refused: $1" "$status" "$work/refused"
}
for input in '' '\n' '0\n' '1\n' '33\n' '34\n' '99\n' '100\n' '320\n' '02\n' '00\n' '032\n' '2' '32' '2\r\n' '2\n\n' '2\n2\n' '2\n\000' '32\n ' '32 \n' ' 2\n' \
    '2 \n' '+2\n' '-2\n' '2.0\n' '2a\n' 'a\n' 'n=2\n' 'n=32\n' '0x2\n' '\000\n' '2\000\n' '\3772\n' '4294967298\n' '18446744073709551618\n' '99999999999999999999999999\n'; do
    refused "$input"
done
# reads that fail: at once; within the line; behind its last byte
status=0
"$program" <tests >"$work/out" || status=$?
held "a directory as the input" "$status" "$work/refused"
status=0
"$program" <&- >"$work/out" || status=$?
held "a closed input" "$status" "$work/refused"
for times in 0 1 2 3; do
    status=0
    LD_PRELOAD=$work/read.so READ_TIMES=$times READ_MOST=1 "$program" <"$work/in" >"$work/out" || status=$?
    held "a read fails after $times" "$status" "$work/refused"
done
echo "sizes: $passed passed, $failed failed"
[ "$failed" -eq 0 ]
