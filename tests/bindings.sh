#!/bin/sh
# The Rust wrapper's tests, with its documented examples, against the library of SOLFADRUS_LIB_DIR, or else the one that
# rt builds. First, that a relative SOLFADRUS_LIB_DIR is refused.
set -eu
cd "$(dirname "$0")/.."
. tests/need.sh
SOLFADRUS_LIB_DIR=$(library)
export SOLFADRUS_LIB_DIR

# wrapper COMMAND: cargo's, on the wrapper.
wrapper() {
    command=$1
    shift
    RUSTFLAGS='-D warnings' cargo "$command" --quiet --release --offline -j1 --manifest-path bindings/rust/Cargo.toml \
        --target-dir target/bindings "$@"
}
# From the package's folder it would be found.
if said=$(SOLFADRUS_LIB_DIR=$(realpath --relative-to bindings/rust "$SOLFADRUS_LIB_DIR") wrapper build 2>&1) ||
    ! echo "$said" | grep -q 'SOLFADRUS_LIB_DIR must be an absolute path'; then
    echo "a relative SOLFADRUS_LIB_DIR is not refused: $said" >&2
    exit 1
fi
wrapper test -- --test-threads=1
