#!/bin/sh
# Tries the unrelated coder itself: each edit of tests/slips turns the plain Rust coder into one that is wrong in a way that document 01 or the
# buyer names, and the unrelated coder, linked with it in the place of the archive, must report mismatches. An edit says which file of
# tests/plain/src it changes, the old text, which stands there once, and the new one; it may make several changes, one after another, each with its
# three lines. Not in the gate: it takes some minutes. Names of edits may be given.
set -eu
cd "$(dirname "$0")/.."
work=$PWD/target/slips
rm -rf "$work/tests"
mkdir -p "$work/tests"
cp -r tests/names tests/plain tests/standin "$work/tests"
CARGO_TARGET_DIR=$work/cargo
ZBK_ARCHIVE=$work/cargo/release/libstandin.a
# no speed is needed here; the coder itself stays as it is, and is only linked again
CARGO_PROFILE_RELEASE_OPT_LEVEL=1
CARGO_INCREMENTAL=1
export CARGO_TARGET_DIR ZBK_ARCHIVE CARGO_PROFILE_RELEASE_OPT_LEVEL CARGO_INCREMENTAL

# field NAME EDIT TURN: what stands after 'NAME: ', in the first change, the second, and so on
field() { sed -n "s/^$1: //p" "$2" | sed -n "$3p"; }

# change EDIT TURN: puts the new text of one change in the place of its old one, in the copy
change() {
    to=$work/tests/plain/src/$(field file "$1" "$2")
    old=$(field old "$1" "$2") new=$(field new "$1" "$2") awk '
        { at = index($0, ENVIRON["old"]) }
        at { $0 = substr($0, 1, at - 1) ENVIRON["new"] substr($0, at + length(ENVIRON["old"])); found++ }
        { print }
        END { if (found != 1) { print "the old text stands there " found + 0 " times" >"/dev/stderr"; exit 1 } }
    ' "$to" >"$work/changed" && cp "$work/changed" "$to"
}

# slip EDIT: makes all changes of an edit, in the copy
slip() {
    changes=$(grep -c '^file: ' "$1")
    for turn in $(seq "$changes"); do
        change "$1" "$turn" || return 1
    done
}

build() { cargo build --offline --quiet --release -j1 --manifest-path "$1" 2>"$work/log"; }

# run: builds the coder with the copy in the place of the archive, and runs it; what it said is in the log
run() {
    if ! build "$work/tests/standin/Cargo.toml" || ! build tests/coder/Cargo.toml; then
        cat "$work/log"
        exit 1
    fi
    # a coder that is wrong may also break off
    "$work/cargo/release/coder" --calls 25000 --first >"$work/log" 2>&1 || true
}

# reported EDIT: the coder reports a mismatch
reported() {
    slip "$1" || exit 1
    run
    cp tests/plain/src/*.rs "$work/tests/plain/src/"
    grep -q '^MISMATCH' "$work/log"
}

run
if ! grep -q ' calls, 0 mismatches ' "$work/log"; then
    cat "$work/log"
    echo "FAIL: the coder reports a mismatch where nothing was edited"
    exit 1
fi
[ $# -gt 0 ] || set -- tests/slips/*.edit
failed=0
for edit; do
    name=$(basename "$edit" .edit)
    if reported "tests/slips/$name.edit"; then
        printf "ok %s: %s\n" "$name" "$(grep -m 1 "^MISMATCH" "$work/log" | cut -c 1-100)"
    else
        echo "FAIL $name: it was not reported"
        failed=$((failed + 1))
    fi
done
echo "slips: $# tried, $failed not reported"
[ "$failed" -eq 0 ]
