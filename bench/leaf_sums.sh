#!/bin/sh
# The leaf sums alone: builds the archive of the crate leaf_sums (or takes that of LEAF_SUMS), and a plain walk of
# coordinates in C that divides, by gcc and by clang; then holds their bytes against each other and times them in one
# run, at the largest key and both degrees. Nothing here passes or fails by a time.
#
#   leaf_sums.sh [REPETITIONS]
#   BEFORE=ARCHIVE leaf_sums.sh ..   another libleaf_sums.a is timed beside this one: the crate leaf_sums, put into an
#                                    earlier state of the repository and built there (`rt lib` in its folder)
#   leaf_sums.sh --once              the gate's run: each program is built, the bytes are compared, each is timed once
set -eu
cd "$(dirname "$0")/.."
. tests/need.sh
need gcc gcc clang clang objdump binutils
if [ "${1-}" = --once ]; then
    set -- 1
fi
work=target/bench
mkdir -p "$work"

if [ -n "${LEAF_SUMS-}" ]; then
    archive=$LEAF_SUMS
else
    archive=$(archive leaf_sums)/libleaf_sums.a
fi

# divides ARCHIVE: whether its code has a division, or takes a number of more than a byte apart as one by 8 would be.
divides() {
    objdump -d --no-show-raw-insn "$1" | awk '
        # AT&T names: the width is that of the last operand, a register; those of a byte end in b, l or h.
        $2 ~ /^i?div/ { found = 1 }
        $2 ~ /^(shr|sar)/ && $3 ~ /^\$0x3,/ && $3 !~ /,%([a-d][lh]|[sd]il|[sb]pl|r[0-9]+b)$/ { found = 1 }
        $2 ~ /^(and|test)/ && $3 ~ /^\$0x7,/ { found = 1 }
        END { exit !found }'
}

compile="-std=c11 -O3 -Wall -Wextra -Werror -Iinclude -Ibench"
for compiler in gcc clang; do
    # shellcheck disable=SC2086 # flags are words
    $compiler $compile "-DPREFIX=walk_${compiler}_" -c bench/walk.c -o "$work/walk_$compiler.o"
    # The control: the walk, as its compiler has it.
    divides "$work/walk_$compiler.o" || { echo "no division is seen in bench/walk.c by $compiler" >&2 && exit 1; }
done
! divides "$archive" || { echo "$archive divides by 8" >&2 && exit 1; }
echo "the archive has no division, and no shift by three places or mask of 7 in its stead; the walk has"

before=
if [ -n "${BEFORE-}" ]; then
    before=$work/before_sums.o
    ld -r --whole-archive "$BEFORE" -o "$before"
    objcopy --redefine-sym sum_leaves=before_sum_leaves --keep-global-symbol=before_sum_leaves "$before"
fi
# shellcheck disable=SC2086 # empty, or words
gcc -std=c11 -O2 -Wall -Wextra -Werror -Wno-unused-function -Iinclude -Itests ${before:+-DBEFORE $before} \
    bench/leaf_sums.c "$work/walk_gcc.o" "$work/walk_clang.o" "$archive" -o "$work/leaf_sums"
gcc --version | head -n 1
clang --version | head -n 1
grep -m 1 'model name' /proc/cpuinfo || true
"$work/leaf_sums" "$@"
