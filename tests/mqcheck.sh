#!/bin/sh
# Runs the check program (that of MQCHECK, or else the one that rt proves and builds) on the toy, 01's edges, the
# vectors and random inputs. Each line is held against the Rust rendering's.
set -eu
cd "$(dirname "$0")/.."
. tests/need.sh
MQCHECK=${MQCHECK:-$(program mqcheck)}
cargo build --quiet --release --offline -j1 --manifest-path tests/mqcheck/Cargo.toml --target-dir target/mqcheck
test=target/mqcheck/release/mqcheck-test

echo "a program that reads nothing must be found out"
control=$(mktemp -d)
trap 'rm -rf "$control"' EXIT
# found_out WORD WHAT: the program $control/check must fail the test.
found_out() {
    chmod +x "$control/check"
    if "$test" "$1" "$control/check" >"$control/log"; then
        echo "the test passes $2" >&2
        exit 1
    fi
    tail -n 1 "$control/log"
}
for line in 'unread 0 0' 'accepted 0 0'; do
    printf '#!/bin/sh\necho %s\n' "$line" >"$control/check"
    found_out --count "a program that always writes: $line"
done
echo "and so must one with room for 65,536 bytes, which does not see that there are more, or for one less"
for room in 65536 65535; do
    printf '#!/bin/sh\nhead -c %s | "%s"\n' "$room" "$(realpath "$MQCHECK")" >"$control/check"
    found_out --totals "a program with room for $room bytes"
done

echo "the check program"
"$test" "$MQCHECK"
