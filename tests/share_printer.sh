#!/bin/sh
# The share printer on every case of tests/share_printer: with NAME.in as its standard input it must write NAME.out, and end with exit code 0; at
# once and in parts, and where reads fail (tests/printer.sh). So it must with the input of the program's own check, whose file takes more than three
# full reads and has no byte 00. Proves and builds the program where it is not built. Ends with exit code 1 where a case failed.
set -eu
cd "$(dirname "$0")/.."
program=$(sh tests/program.sh share_printer)
. tests/printer.sh
for input in tests/share_printer/*.in; do
    tried "$(basename "$input" .in)" "$input" "${input%.in}.out"
done
own=crates/share_printer/stdin
tried "the program's own input" $own crates/share_printer/stdout

# reads that fail: at once; within a line; behind the lines, where a text of no bytes would stand; within the file; behind its last byte; and in a
# file of more than one full read
unread
example=tests/share_printer/example.in
long=tests/share_printer/bytes_16384_at_b_992.in
cut $example 0 4096
cut $example 1 9
cut $example 1 23
cut $example 1 24
cut $example 1 4096
cut $long 1 4096
cut $long 4 4096
cut $long 5 4096
cut $own 1 4096
cut $own 2 4096
cut $own 3 4096
cut $own 4 4096
cut $own 1500 7
ended "share printer"
