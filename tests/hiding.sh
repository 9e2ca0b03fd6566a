#!/bin/sh
# Request 8 by counting: at tiny sizes all choices of hidden leaves are tried, and exactly one must be left for each
# solution, by a prover of the test's own and by mq_prove. Controls: with one mask for all repetitions, and with the
# masks exchanged, the count must fail. The library is that of SOLFADRUS_LIB_DIR, or else the one that rt builds.
set -eu
cd "$(dirname "$0")/.."
. tests/need.sh
need gcc gcc
lib=$(library)
work=$(mktemp -d)
trap 'rm -rf "$work"' EXIT

gcc -std=c99 -O2 -Wall -Wextra -pedantic -Werror -Iinclude -DLIBRARY tests/hiding.c "$lib/libsolfadrus.a" \
    -o "$work/hiding"

# count WORD: what is counted there, each line with its word.
count() {
    "$work/hiding" "$1" >"$work/said" || status=$?
    sed "s/^/$1, /" "$work/said"
    [ -s "$work/said" ] && return "${status:-0}"
}
count own
count library
for word in shared exchanged; do
    if count "$word" || grep -qv 'not one for each$' "$work/said"; then
        echo "not found out: masks that are $word" >&2
        exit 1
    fi
done
