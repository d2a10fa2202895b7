#!/bin/sh
# sh tests/program.sh NAME: proves and builds the program NAME where that is not done, and prints its path, target/bin/NAME. What the prover says is on
# standard error. The prover runs a program that it has built, here on no input.
#
#   sh tests/program.sh take SUMS     takes the programs that `rt ci` has just proved, built and run; SUMS is what `sums` printed before it began
#   sh tests/program.sh sums          prints of each program what it is made of
set -eu
cd "$(dirname "$0")/.."
. tests/made_of.sh
programs() { for main in crates/*/src/main.rt; do main=${main#crates/} && echo "${main%%/*}"; done; }
case ${1:-}/$# in
sums/1)
    for name in $(programs); do echo "$name $(made_of "$name")"; done
    exit 0
    ;;
take/2)
    mkdir -p target/bin
    for name in $(programs); do
        cp "crates/$name/out/$name" "target/bin/$name"
        is_built "$name" "target/bin/$name" "$(sed -n "s/^$name //p" "$2")"
    done
    exit 0
    ;;
*/1) [ -f "crates/$1/src/main.rt" ] || { echo "there is no program $1" >&2 && exit 1; } ;;
*)
    echo "usage: sh tests/program.sh NAME | sums | take SUMS" >&2
    exit 2
    ;;
esac
program=target/bin/$1
if ! built "$1" "$program"; then
    first=$(made_of "$1")
    mkdir -p target/bin
    (
        cd "crates/$1"
        # what it rests on, side by side; then the program itself
        rt all check --jobs "$(sh ../../tests/jobs.sh)"
        rm -f "out/$1"
        rt run </dev/null >/dev/null || true
        [ -x "out/$1" ]
    ) >&2 || { echo "the program $1 could not be proved and built" >&2 && exit 1; }
    cp "crates/$1/out/$1" "$program"
    is_built "$1" "$program" "$first"
fi
echo "$program"
