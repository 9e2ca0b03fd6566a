#!/bin/sh
# Every test of the repository: first `rt ci`, which proves each crate, tries the must-fail edits, and runs each program
# and the tests of the crates; then what it does not know of. The last line is rt ci's 'N passed, 0 failed', and is
# printed only when all the rest passed too.
set -eu
cd "$(dirname "$0")/.."
. tests/need.sh
need_kit
need_all
log=$(mktemp)
proved=$(mktemp)
trap 'rm -f "$log" "$proved" "$proved.status"' EXIT
trap 'exit 1' HUP INT TERM

fail() {
    echo "FAILED: $1"
    exit 1
}

# Runs a test, and shows its output only where it fails.
step() {
    name=$1
    shift
    start=$(date +%s)
    if "$@" >"$log" 2>&1; then
        echo "$name: passed ($(($(date +%s) - start)) s)"
    else
        tail -n 60 "$log"
        fail "$name"
    fi
}

# The tests of the Rust rendering, and of the shapes that tests share.
rendering() {
    cargo test --quiet --release --offline --manifest-path tests/reference/Cargo.toml -- --test-threads=1 &&
        cargo test --quiet --release --offline --manifest-path tests/shapes/Cargo.toml --target-dir target/shapes
}

crates=$(grep -c : crates.txt)
echo "Every proof and every test. First $crates crates are proved, and" \
    "$(find crates/*/must-fail -name '*.edit' | wc -l) edits tried that must be refused; what an earlier run on this" \
    "machine proved of the same files is kept."
with_progress "$crates" "$proved" rt ci || {
    tail -n 60 "$proved"
    fail "rt ci"
}
passed "$proved" || fail "rt ci"
verdict=$(tail -n 1 "$proved")

step "why each edit was refused" sh tests/edits.sh "$proved"
step "line counts of the audit guide" sh tests/counts.sh
step "the forms that 01 names" sh tests/forms.sh
step "literals of the kernels" sh tests/literals.sh
step "no division in the walk of the leaf sums" sh tests/division.sh
step "what the scripts share" sh tests/scripts.sh
step "the Rust rendering" rendering
# As rt ci proved and built it.
step "the check program" env MQCHECK=crates/mqcheck/out/mqcheck sh tests/mqcheck.sh
step "the library from C, C++ and Rust" sh tests/c.sh
echo "$verdict"
