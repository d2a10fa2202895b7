#!/bin/sh
# All that stands on the archive: the C header, the helpers for C and the C example, the Rust bindings, the demo, ./install, and the unrelated coder, which runs the
# figures of document 01 and random calls through the archive, small ones and at real sizes, and must report no mismatch, and must report one that
# is made on purpose. Proves and builds the archive first; ZBK_ARCHIVE names another one to use instead, seen from the top folder. One line for each
# step; ends with exit code 1 where a step fails.
set -eu
cd "$(dirname "$0")/.."
CARGO_TARGET_DIR=$PWD/target/cargo
export CARGO_TARGET_DIR
work=target/archive
mkdir -p "$work"

# step NAME COMMAND...: runs a command quietly; what it said is shown where it fails
step() {
    name=$1
    shift
    if "$@" >"$work/log" 2>&1; then
        echo "ok $name"
    else
        cat "$work/log"
        echo "FAIL $name"
        exit 1
    fi
}

archive=${ZBK_ARCHIVE:-target/staticlib/libzebrankai.a}
sh tests/prove_archive.sh || { echo "FAIL the archive: $archive"; exit 1; }
echo "ok the archive: $archive"
step "how far the proof is, as it is shown" sh tests/progress.sh
step "./install, and a C program by its two lines and each other way" sh tests/install.sh

strict='-Wall -Wextra -Werror -Iinclude'
# shellcheck disable=SC2086 # the options are words
step "the C example compiles" gcc -std=c11 -pedantic $strict examples/c/shelf.c "$archive" -o "$work/shelf"
step "the C example writes, loses, repairs and reads" "$work/shelf"
valgrind=$(command -v valgrind || true)
if [ -n "$valgrind" ]; then
    step "valgrind finds nothing in it" "$valgrind" --error-exitcode=1 --leak-check=full "$work/shelf"
else
    echo "skipped valgrind: it is not on this machine"
fi

# the header against the archive: names, parameters, constants, and each call from C and from C++
sh tests/header.sh || { echo "FAIL the header"; exit 1; }
# the helpers for C against the archive, over all sizes
sh tests/util.sh || { echo "FAIL the helpers for C"; exit 1; }

step "the Rust bindings' tests" cargo test --offline --quiet -j1 --manifest-path bindings/rust/Cargo.toml
step "the demo compiles" cargo build --offline --quiet --release -j1 --manifest-path bindings/rust/Cargo.toml --example demo
# demo: it prints what stands in tests/demo.stdout
demo() { target/cargo/release/examples/demo | diff tests/demo.stdout -; }
step "the demo prints what it must" demo
step "the bench's two coders in plain Rust are alike" cargo test --offline --quiet --release -j1 --manifest-path tests/plain_kernels/Cargo.toml
step "the bench compiles" cargo build --offline --quiet --release -j1 --manifest-path tests/bench/Cargo.toml
step "the unrelated coder compiles" cargo build --offline --quiet --release -j1 --manifest-path tests/coder/Cargo.toml

coder=target/cargo/release/coder
echo "the unrelated coder, figures and random calls:"
"$coder" --verbose
if [ -n "$valgrind" ]; then
    step "valgrind finds nothing in its first calls" "$valgrind" --error-exitcode=1 "$coder" --seed 2 --calls 400
fi

# falsified SEED KIND: the coder reports just the call whose answer it altered itself
falsified() {
    status=0
    "$coder" --seed "$1" --calls 4000 --wrong "$2" || status=$?
    [ "$status" -eq 1 ]
}
for kind in answer eleven byte word; do
    for seed in 1 2 3 4; do
        name="a wrong $kind is reported (seed $seed)"
        step "$name" falsified "$seed" "$kind"
        altered=$(sed -n 's/^WRONG call \([0-9]*\):.*/\1/p' "$work/log")
        reported=$(sed -n 's/^MISMATCH call \([0-9]*\) .*/\1/p' "$work/log")
        if [ -z "$altered" ] || [ "$altered" != "$reported" ]; then
            cat "$work/log"
            echo "FAIL $name: altered at call '$altered', reported at '$reported'"
            exit 1
        fi
        if [ "$kind" = eleven ] && ! grep -q '^MISMATCH .* the answer has the number 11, which is not used$' "$work/log"; then
            cat "$work/log"
            echo "FAIL $name: it is not said that 11 is not used"
            exit 1
        fi
    done
done
echo "archive: all passed"
