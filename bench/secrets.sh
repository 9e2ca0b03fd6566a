#!/bin/sh
# Tests that in the C programs of this folder no branch and no address depends on leaves or witness: all bits of both
# are marked undefined, and valgrind must report nothing. The programs mark what their answers tell (MARK_SECRETS).
set -eu
cd "$(dirname "$0")/.."
. tests/need.sh
need gcc gcc
need clang clang
need valgrind valgrind
work=target/secrets
mkdir -p "$work"
for compiler in gcc clang; do
    for program in baseline plain; do
        compile="$compiler -std=c11 -O3 -Wall -Wextra -Werror -Iinclude -Ibench -Itests -DMARK_SECRETS"
        for degree in 8 4; do
            $compile -DDEGREE=$degree -c bench/$program.c -o "$work/at_$degree.o"
        done
        $compile tests/secrets.c "$work/at_8.o" "$work/at_4.o" bench/dispatch.c bench/archive.c -o "$work/$program"
        valgrind --quiet --error-exitcode=9 "$work/$program" mark leaves witness
        echo "$program.c by $compiler: nothing reported"
    done
done
