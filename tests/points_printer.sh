#!/bin/sh
# The points printer on every case of tests/points_printer, at once and in parts, and where reads fail (tests/printer.sh). What it must write is
# worked out by the unrelated coder (`coder --printer points`), which is first held to the share printer's stored answers, and to the outputs of both
# programs' own checks. With points 0 to n − 1 it must write what the share printer writes. Proves and builds program and archive where they are not
# built; POINTS_PRINTER names another program to try instead. Ends with exit code 1 where a case failed, or where there is no program.
set -eu
cd "$(dirname "$0")/.."
program=${POINTS_PRINTER:-$(sh tests/program.sh points_printer)}
[ -x "$program" ] || { echo "FAIL there is no program $program"; exit 1; }
sh tests/prove_archive.sh
CARGO_TARGET_DIR=$PWD/target/cargo
export CARGO_TARGET_DIR
cargo build --offline --quiet --release -j1 --manifest-path tests/coder/Cargo.toml
coder=target/cargo/release/coder
. tests/printer.sh

# the coder itself
for input in tests/share_printer/*.in; do
    if ! "$coder" --printer share <"$input" | cmp - "${input%.in}.out"; then
        echo "FAIL the coder on the share printer's case $input"
        exit 1
    fi
done
for printer in share points; do
    if ! "$coder" --printer "$printer" <"crates/${printer}_printer/stdin" | cmp - "crates/${printer}_printer/stdout"; then
        echo "FAIL the coder on the $printer printer's own input"
        exit 1
    fi
done
# answer NUMBER NAME..: what is plain without it
answer() {
    number=$1
    shift
    for name; do
        if [ "$("$coder" --printer points <"tests/points_printer/$name.in")" != "refused=$number" ]; then
            echo "FAIL the coder does not refuse $name with $number"
            exit 1
        fi
    done
}
answer 1 pair_too_few pair_too_many upper_case odd_digit_fewer repeated missing line_before_node sizes_n_33 upper_case_with_16385
answer 3 node_n_with_16385
answer 5 node_n

for input in tests/points_printer/*.in; do
    "$coder" --printer points <"$input" >"$work/due"
    tried "$(basename "$input" .in)" "$input" "$work/due"
done
own=crates/points_printer/stdin
tried "the program's own input" $own crates/points_printer/stdout

# the share printer's cases with the line of the points 0 to n − 1 behind node=; where a line is malformed there is no such place
for input in tests/share_printer/*.in; do
    due=${input%.in}.out
    if ! cmp -s "$due" "$work/refused"; then
        n=$(sed -n '1s/^n=//p;1q' "$input")
        line=points=$(i=0; while [ "$i" -lt "$n" ]; do printf %02x "$i"; i=$((i + 1)); done)
        LC_ALL=C sed "5a $line" "$input" >"$work/in"
        tried "$(basename "$input" .in) of the share printer" "$work/in" "$due"
    fi
done

# reads that fail: at once; within a line; behind node=; within the points, behind them, where a text of no bytes would stand; within the file;
# behind its last byte; and in a file of more than one full read
unread
example=tests/points_printer/example.in
long=tests/points_printer/bytes_16384_at_b_992.in
cut $example 0 4096
cut $example 1 9
cut $example 1 23
cut $example 1 32
cut $example 1 34
cut $example 1 35
cut $example 1 36
cut $example 1 4096
cut $long 1 4096
cut $long 4 4096
cut $long 5 4096
cut $own 1 4096
cut $own 2 4096
cut $own 3 4096
cut $own 4 4096
cut $own 1500 7
ended "points printer"
