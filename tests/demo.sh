#!/bin/sh
# Compiles the example in C against the library, and runs it at both degrees. The library is proved and built first,
# where a source has changed since it was built last; else nothing is proved again.
set -eu
cd "$(dirname "$0")/.."
. tests/need.sh
need gcc gcc
lib=$(library)
mkdir -p target
for degree in 8 4; do
    gcc -std=c99 -O2 -Wall -Wextra -pedantic -Werror -DDEGREE=$degree -Iinclude examples/demo.c \
        "$lib/libsolfadrus.a" -o target/demo
    target/demo
done
