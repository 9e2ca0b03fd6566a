#!/bin/sh
# Holds a libsolfadrus.a against the Rust rendering. compare.sh DIRECTORY [WORDS...]: the words go to the program.
set -eu
SOLFADRUS_LIB_DIR=$(cd "$1" && pwd)
export SOLFADRUS_LIB_DIR
shift
cd "$(dirname "$0")/.."
cargo build --quiet --release --offline -j1 --manifest-path tests/compare/Cargo.toml --target-dir target/compare
exec target/compare/release/compare "$@"
