#!/bin/sh
# shellcheck disable=SC2154 # the program
# What tests/share_printer.sh and tests/points_printer.sh have in common; they read it, and have set `program` before. A program that reads standard
# input is held to what it must write, byte for byte, and to the exit code 0; the same where a read gives at most 7 bytes. Where a read fails, at
# once or after some bytes, it must write `refused=1` and nothing else: never the text of a file that was cut.
work=$(mktemp -d)
trap 'rm -rf "$work"' EXIT
gcc -O1 -Wall -shared -fPIC tests/share_printer_read.c -o "$work/read.so" -ldl
out=$work/out
echo refused=1 >"$work/refused"
passed=0
failed=0

# held NAME STATUS DUE: holds what was written, and the exit code, to a file
held() {
    if [ "$2" -eq 0 ] && cmp -s "$out" "$3"; then
        echo "ok $1"
        passed=$((passed + 1))
    else
        echo "FAIL $1"
        failed=$((failed + 1))
    fi
}

# tried NAME INPUT DUE: the input at once, and in parts
tried() {
    status=0
    "$program" <"$2" >"$out" || status=$?
    held "$1" "$status" "$3"
    status=0
    LD_PRELOAD=$work/read.so READ_MOST=7 "$program" <"$2" >"$out" || status=$?
    held "$1, in parts" "$status" "$3"
}

# unread: no input that can be read
unread() {
    status=0
    "$program" <tests >"$out" || status=$?
    held "a directory as the input" "$status" "$work/refused"
    status=0
    "$program" <&- >"$out" || status=$?
    held "a closed input" "$status" "$work/refused"
}

# cut INPUT READS BYTES: a read fails after so many reads of at most so many bytes
cut() {
    status=0
    LD_PRELOAD=$work/read.so READ_TIMES=$2 READ_MOST=$3 "$program" <"$1" >"$out" || status=$?
    held "$(basename "$1" .in), a read fails after $2 of $3 bytes" "$status" "$work/refused"
}

# ended NAME: how many passed; fails where a case did
ended() {
    echo "$1: $passed passed, $failed failed"
    [ "$failed" -eq 0 ]
}
