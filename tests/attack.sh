#!/bin/sh
# Mounts the linear attack: from published proofs, solves for the witness (tests/attack). Against a prover with one mask
# it must succeed; against the library (or that of SOLFADRUS_LIB_DIR) it must do no better than guessing. Words go to
# the program.
set -eu
cd "$(dirname "$0")/.."
. tests/need.sh
need gcc gcc
need_cargo
SOLFADRUS_LIB_DIR=$(library)
export SOLFADRUS_LIB_DIR
cargo build --quiet --release --offline -j1 --manifest-path tests/attack/Cargo.toml --target-dir target/attack
exec target/attack/release/attack "$@"
