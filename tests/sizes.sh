#!/bin/sh
# Size macros and size functions: each macro of a length (..._SIZE, ..._BYTES) has its function, each function its
# macro, and tests/sizes.c has them all; then tests/sizes.c compares their values. The library is that of
# SOLFADRUS_LIB_DIR, or else the one that rt builds.
set -eu
cd "$(dirname "$0")/.."
. tests/need.sh
need gcc gcc
lib=$(library)
work=$(mktemp -d)
trap 'rm -rf "$work"' EXIT

# covered HEADER TEST: fails, and shows the names, where macros, functions and the test's table differ.
covered() {
    sed -nE 's/^#define MQ_([A-Z0-9_]*)_(SIZE|BYTES)[ (].*/\1/p' "$1" | sort >"$work/macros"
    sed -nE 's/^size_t mq_([a-z0-9_]*)_(size|bytes)\(.*/\1/p' "$1" | tr '[:lower:]' '[:upper:]' |
        sort >"$work/functions"
    sed -nE 's/^    \{ "[a-z0-9_]*", mq_([a-z0-9_]*)_(size|bytes), macro_[A-Z0-9_]* \},$/\1/p' "$2" |
        tr '[:lower:]' '[:upper:]' | sort >"$work/tested"
    # No function: parts of lengths, for places inside a string; and the stack, which is neither lent nor written.
    printf '%s\n' COUNT FIELD HASH_ROW HEADER LEAF STACK STRING | sort - "$work/functions" >"$work/named"
    [ -s "$work/functions" ] && diff "$work/macros" "$work/named" && diff "$work/functions" "$work/tested"
}

# missed WHAT HEADER TEST: a control, in which something is missing.
missed() {
    if covered "$2" "$3" >"$work/log"; then
        echo "not found out: $1" >&2
        exit 1
    fi
    echo "found out: $1: $(grep '^[<>]' "$work/log")"
}
for name in MQ_SEED_SIZE 'MQ_SHA3_256_SIZE(n)' MQ_SEED_BYTES; do
    { cat include/solfadrus.h; echo "#define $name 16"; } >"$work/more.h"
    missed "a macro without a function" "$work/more.h" tests/sizes.c
done
grep -v 'define MQ_DELTA_SIZE' include/solfadrus.h >"$work/less.h"
missed "a function without a macro" "$work/less.h" tests/sizes.c
grep -v '"proof"' tests/sizes.c >"$work/less.c"
missed "a function that is not compared" include/solfadrus.h "$work/less.c"

covered include/solfadrus.h tests/sizes.c
echo "$(wc -l <"$work/functions") lengths, each with macro, function and a line in tests/sizes.c"

gcc -std=c99 -O2 -Wall -Wextra -pedantic -Werror -Iinclude tests/sizes.c "$lib/libsolfadrus.a" -o "$work/sizes"
"$work/sizes"

# stated FILE: whether its prose says how long the longest strings are.
"$work/sizes" largest >"$work/largest"
stated() {
    sed 's/^ \* *//' "$1" | tr -s '\n' ' ' | grep -qF "$(cat "$work/largest")"
}
for file in include/solfadrus.h docs/man/solfadrus.3; do
    stated "$file" || { echo "$file does not say: $(cat "$work/largest")" >&2 && exit 1; }
    sed 's/leaves 1517760/leaves 1517761/' "$file" >"$work/other"
    ! stated "$work/other" || { echo "not found out: another length in $file" >&2 && exit 1; }
done
echo "the longest strings: as the header and solfadrus.3 say"
