#!/bin/sh
# The tests around the library, from C, C++ and Rust: builds it (or takes that of SOLFADRUS_LIB_DIR), and runs each.
# The two longest run beside the others, one after the other, since the machine has two cores.
set -eu
cd "$(dirname "$0")/.."
. tests/need.sh
# Before two of the tests could ask for it at once.
need_all
mkdir -p target
lib=$(library)
export SOLFADRUS_LIB_DIR="$lib"
strict="-Wall -Wextra -pedantic -Werror -Iinclude"

trap end_aside EXIT
trap 'exit 1' HUP INT TERM
aside target/beside.log sh -c '
    echo "secrets in branches and addresses" && sh tests/secrets.sh "$1" &&
        echo "fuzzing" && sh tests/fuzz.sh' sh "$lib"

echo "the symbols of the archive"
sh tests/symbols.sh

echo "the header alone, as C99 and as C++11"
gcc -std=c99 $strict -x c -fsyntax-only include/solfadrus.h
g++ -std=c++11 $strict -x c++ -fsyntax-only include/solfadrus.h

echo "size macros and size functions"
sh tests/sizes.sh

echo "the stack that the header states"
gcc -std=c11 -O2 -Wall -Wextra -Werror -Iinclude -Itests tests/stack.c "$lib/libsolfadrus.a" -o target/stack
target/stack

echo "the helpers"
sh tests/util.sh

echo "what a call leaves on the stack"
sh tests/burn.sh

echo "a caller in C++"
g++ -std=c++11 -O2 $strict tests/header.cpp "$lib/libsolfadrus.a" -o target/header
target/header

echo "the test vectors"
sh tests/vectors.sh

echo "the comparison with the Rust rendering"
sh tests/compare.sh "$lib" --selftest
sh tests/compare.sh "$lib"

echo "all choices of hidden leaves"
sh tests/hiding.sh

echo "the linear attack"
sh tests/attack.sh

echo "the example"
sh tests/demo.sh

echo "the published lists"
sh tests/lists.sh

echo "the manual pages"
sh tests/man.sh

echo "the Rust wrapper"
sh tests/bindings.sh

echo "installing and uninstalling"
sh tests/install.sh

echo "the example server"
sh tests/server.sh

echo "the programs of the benchmark, once"
sh bench/run.sh --once
sh bench/leaf_sums.sh --once

passed=0
wait_aside || passed=$?
cat target/beside.log
exit "$passed"
