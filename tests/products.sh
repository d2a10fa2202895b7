#!/bin/sh
# All 65,536 products and 256 inverses by the compiled functions `gf256_mul::mul` and `gf256_rows::inverse`, which the program product_printer
# writes, against the unrelated coder's own field, byte for byte. And all products, and all quotients by the 255 bytes other than 00, through the
# compiled archive: by shares and writes, and by files, reads and helper packets, at points that bring them about. Ends with exit code 1 where a
# byte differs.
set -eu
cd "$(dirname "$0")/.."
CARGO_TARGET_DIR=$PWD/target/cargo
export CARGO_TARGET_DIR
sh tests/prove_archive.sh
program=$(sh tests/program.sh product_printer)
cargo build --offline --quiet --release -j1 --manifest-path tests/coder/Cargo.toml
work=$(mktemp -d)
trap 'rm -rf "$work"' EXIT

# every byte once
b=0
while [ "$b" -lt 256 ]; do
    # shellcheck disable=SC2059 # the format is the byte
    printf "\\$(printf %03o "$b")"
    b=$((b + 1))
done >"$work/bytes"
"$program" <"$work/bytes" >"$work/made"
target/cargo/release/coder --products >"$work/due"
if [ "$(wc -c <"$work/due")" -eq 65792 ] && cmp "$work/made" "$work/due"; then
    echo "ok 65,536 products and 256 inverses are the unrelated coder's"
else
    echo "FAIL products and inverses"
    exit 1
fi
if target/cargo/release/coder --multiply >"$work/calls"; then
    echo "ok 65,536 products and 65,280 quotients through the archive: $(tail -n 1 "$work/calls")"
else
    cat "$work/calls"
    echo "FAIL products and quotients through the archive"
    exit 1
fi
