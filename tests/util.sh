#!/bin/sh
# The helpers of solfadrus_util.h, held against the library (that of SOLFADRUS_LIB_DIR, or else the one that rt builds):
# they compile alone, as C99 and as C++11; tests/util.c finds nothing wrong, and finds each fault that is put into the
# header; the messages are those of the Rust wrapper; and no branch or address goes by a secret (gcc, valgrind).
set -eu
cd "$(dirname "$0")/.."
. tests/need.sh
need gcc gcc
need g++ g++
need clang clang
need valgrind valgrind
lib=$(library)
header=include/solfadrus_util.h
work=$(mktemp -d)
trap 'rm -rf "$work"' EXIT

# As a caller includes it, so that a helper that he does not use gives no warning.
strict="-Wall -Wextra -Wconversion -Wshadow -pedantic -Werror -Iinclude -fsyntax-only -include solfadrus_util.h"
for compiler in gcc clang; do
    $compiler -std=c99 $strict -x c /dev/null
done
for compiler in g++ clang++; do
    $compiler -std=c++11 $strict -x c++ /dev/null
done
g++ -std=c++11 -O2 -Wall -Wextra -pedantic -Werror -Iinclude tests/util.cpp "$lib/libsolfadrus.a" -o "$work/cpp"
"$work/cpp"

# built DIRECTORY PROGRAM OPTION: the test, against the header of that directory.
built() {
    gcc -std=c11 "$3" -Wall -Wextra -Werror -I"$1" -Itests -Iinclude tests/util.c "$lib/libsolfadrus.a" -o "$2"
}

# fault WHAT SED: a control, the header changed by a sed command. It must still compile, and be found out.
faults=0
fault() {
    sed "$2" "$header" >"$work/solfadrus_util.h"
    ! cmp -s "$header" "$work/solfadrus_util.h" || { echo "nothing is changed: $1" >&2; exit 1; }
    built "$work" "$work/faulty" -O0
    if "$work/faulty" small >"$work/said"; then
        echo "not found out: $1" >&2
        exit 1
    fi
    [ -s "$work/said" ] || { echo "ended without a word: $1" >&2; exit 1; }
    faults=$((faults + 1))
}
fault "a size that is out of range" 's/t > MQ_MAX_HASH_ROWS/t > MQ_MAX_HASH_ROWS + 1/'
fault "no variable" 's/n < 1 || //'
fault "no equation, which is taken" 's/m > MQ_MAX_EQUATIONS/m < 1 || &/'
fault "a header that is not there whole" 's/key_len < MQ_HEADER_SIZE/key_len < MQ_HEADER_SIZE - 1/'
fault "the high byte of a size" 's/key\[0\] | (size_t)key\[1\] << 8/key[0]/'
for name in A B Y C D U V QS0 QS1; do
    fault "MQ_OFFSET_$name" "/MQ_OFFSET_$name(/,/)\$/s/MQ_OFFSET_$name(n, m, tau, t, degree)/& -1 +/"
done
fault "spare bits that are kept" 's/0xFF >> (8 \* len - bits)/0xFF/'
fault "one spare bit that is kept" 's/0xFF >> (8 \* len - bits)/0x1FF >> (8 * len - bits)/'
fault "the last row alone is cleared" 's/for (i = 0; i < count; i++)/for (i = count - 1; i < count; i++)/'
fault "y without its linear part" 's/= mq_util_shared(b, witness, witness_len)/= 0/'
fault "y of every row" 's/= 0u - (witness\[r \/ 8\] >> r % 8 & 1u)/= ~0u/'
fault "half a parity" '/byte ^= byte >> 4/d'
fault "a key that is cut" 's/ || key_len != MQ_KEY_SIZE(s.n, s.m, s.tau, s.t, 8)//'
fault "the leaf at delta" 's/leaves + before + leaf, after/leaves + before, after/'
fault "opened leaves that are too short" 's/|| out_len != MQ_OPENED_SIZE(s.n, s.m, s.tau, s.t, degree)/|| out_len == 0/'
fault "a degree that is not served" 's/degree != 8 \&\& degree != 4/degree == 0/'
fault "a delta that is no element" '/delta\[e\] >= each/{n;s/return 0/return 1/;}'
fault "a place past the last equation" 's/places = MQ_MAX_EQUATIONS;/places = 65536;/'
fault "a place where there is none" 's/places = 1;/places = 2;/'
fault "a number that is not published" \
    's/number >= sizeof messages \/ sizeof messages\[0\]/number > 19/; s/messages\[number\]/messages[number % 19]/'
echo "$faults faults in the header: all found out"

built include "$work/util" -O2
"$work/util"

# Messages: number and text, from the Rust wrapper's two lists.
refusals=bindings/rust/src/refusal.rs
"$work/util" messages >"$work/messages"
sed -nE 's/^ +Reason::([A-Za-z]+) => ([0-9]+),$/\1 \2/p' "$refusals" | while read -r reason number; do
    echo "$number $(sed -nE "s/^ +Reason::$reason => \"(.*)\",\$/\1/p" "$refusals")"
done >"$work/of_wrapper"
diff "$work/of_wrapper" "$work/messages"
sed 's/consistency/nothing/' "$work/messages" | if diff -q "$work/of_wrapper" - >/dev/null; then
    echo "not found out: another message" >&2
    exit 1
fi
echo "$(wc -l <"$work/messages") messages: those of the Rust wrapper"

# Witness and leaves marked undefined; what is written must be so too, or the program fails.
under_valgrind() {
    valgrind --error-exitcode=9 "$work/util" "$1" >"$work/log" 2>&1
}
under_valgrind mark || { cat "$work/log"; echo "a helper branches on a secret" >&2; exit 1; }
if under_valgrind mark-leak || ! grep -q 'Conditional jump or move depends' "$work/log"; then
    echo "not found out: a branch on the witness" >&2
    exit 1
fi
echo "witness and leaves marked: no branch and no address by them"
