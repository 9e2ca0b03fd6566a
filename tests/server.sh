#!/bin/sh
# Compiles the example server against the library (or that of SOLFADRUS_LIB_DIR), and sends it honest, damaged and
# random requests for all six calls: every word and every output must be the Rust rendering's, and its memory must stay
# as it is. Words go to the program. First five faults are put into the server, and each must be found.
set -eu
cd "$(dirname "$0")/.."
. tests/need.sh
need gcc gcc
lib=$(library)
mkdir -p target
compile="gcc -std=c99 -O2 -Wall -Wextra -pedantic -Werror -Iinclude -pthread"
cargo build --quiet --release --offline -j1 --manifest-path tests/server/Cargo.toml --target-dir target/requests

# control FAULT PATTERN: the program must fail, and say so in these words.
control() {
    $compile -DFAULT="$1" -c tests/server/faulty.c -o target/faulty.o
    $compile -Dmq_hash=faulty_hash -Dmq_test=faulty_test examples/server.c target/faulty.o "$lib/libsolfadrus.a" \
        -o target/faulty-server
    if target/requests/release/server target/faulty-server --requests 40000 >target/faulty.log 2>&1 ||
        ! grep "$2" target/faulty.log; then
        cat target/faulty.log
        echo "a server with a fault was not found out: $1"
        exit 1
    fi
}
echo "controls, which must fail"
control 1 '^FAILED: request .* the rendering answers'
control 2 '^FAILED: request .* another output'
control 3 '^FAILED: after .* memory is'
control 4 '^FAILED: request .* (test, .*11 place .* the rendering answers 11 place'
control 5 '^FAILED: request .* (test, .*11 place .* the rendering answers 11 place'

$compile examples/server.c "$lib/libsolfadrus.a" -o target/server
exec target/requests/release/server target/server "$@"
