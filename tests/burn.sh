#!/bin/sh
# What the calls leave on the stack, and that mq_burn_stack overwrites it: tests/burn.c by gcc and clang, with and
# without optimising, against the library of SOLFADRUS_LIB_DIR, or else the one that rt builds.
# Three faults of the burn must be found out: left out by the compiler, put into its caller's frame, and too short.
set -eu
cd "$(dirname "$0")/.."
. tests/need.sh
need gcc gcc
need clang clang
lib=$(library)
header=include/solfadrus_util.h
work=$(mktemp -d)
trap 'rm -rf "$work"' EXIT

# built COMPILER OPTION DIRECTORY: the test, against the header of that directory.
built() {
    "$1" -std=c11 "$2" -Wall -Wextra -Werror -I"$3" -Itests -Iinclude tests/burn.c "$lib/libsolfadrus.a" -o "$work/burn"
}

# fault WHAT SED: a control, the header changed by a sed command.
fault() {
    sed "$2" "$header" >"$work/solfadrus_util.h"
    ! cmp -s "$header" "$work/solfadrus_util.h" || { echo "nothing is changed: $1" >&2; exit 1; }
    built gcc -O2 "$work"
    if "$work/burn" >"$work/said" || ! grep -q 'after the burn' "$work/said"; then
        cat "$work/said"
        echo "not found out: $1" >&2
        exit 1
    fi
    echo "found out: $1"
}
fault "a burn that the compiler leaves out" '/__asm__ __volatile__/d; s/noinline, //'
fault "a burn in its caller's frame" 's/((noinline, unused)) static void/((always_inline, unused)) static inline void/'
fault "a burn of fewer bytes" 's/below\[MQ_STACK_BYTES\]/below[MQ_STACK_BYTES \/ 8]/'

for compiler in gcc clang; do
    for option in -O0 -O2 -O3; do
        built "$compiler" "$option" include
        "$work/burn" >"$work/said" || { cat "$work/said"; echo "by $compiler $option" >&2; exit 1; }
    done
done
cat "$work/said"
