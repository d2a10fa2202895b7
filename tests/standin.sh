#!/bin/sh
# Builds the stand-in for the archive, the plain Rust coder under the archive's C names, and prints its path. Nothing of it is proved. Where
# there is no prover, it tries all that stands on the archive:  ZBK_ARCHIVE=$(sh tests/standin.sh) sh tests/archive.sh
set -eu
cd "$(dirname "$0")/.."
CARGO_TARGET_DIR=$PWD/target/cargo
export CARGO_TARGET_DIR
cargo build --offline --quiet --release -j1 --manifest-path tests/standin/Cargo.toml >&2
echo target/cargo/release/libstandin.a
