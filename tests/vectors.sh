#!/bin/sh
# The test vectors: the committed files are what the generator writes, and the library (or that of SOLFADRUS_LIB_DIR)
# answers and writes what they say. `vectors.sh --write` writes the files anew.
set -eu
cd "$(dirname "$0")/.."
. tests/need.sh
need gcc gcc
cargo build --quiet --release --offline -j1 --manifest-path tests/vectors/Cargo.toml --target-dir target/vectors
generator=target/vectors/release/vectors
if [ "${1-}" = --write ]; then
    exec "$generator" vectors
fi
lib=$(library)
work=$(mktemp -d)
trap 'rm -rf "$work"' EXIT

mkdir "$work/anew" "$work/committed"
"$generator" "$work/anew"
cp vectors/*.rsp "$work/committed"
diff -rq "$work/committed" "$work/anew" || {
    echo "the files of vectors/ are not those that the generator writes" >&2
    exit 1
}
echo "the committed files are those that the generator writes"

gcc -std=c99 -O2 -Wall -Wextra -pedantic -Werror -Iinclude -Itests tests/vectors.c "$lib/libsolfadrus.a" -o "$work/check"

# spoiled FILE NAME FROM TO: in the first line of that name whose value ends with FROM, puts TO there. The check must
# report that one difference, and no other.
spoiled() {
    cp vectors/*.rsp "$work/anew"
    awk -v name="$2" -v from="$3" -v to="$4" '
        !done && index($0, name " = ") == 1 && substr($0, length($0) - length(from) + 1) == from {
            $0 = substr($0, 1, length($0) - length(from)) to
            done = 1
        }
        { print }' "vectors/$1" >"$work/anew/$1"
    if "$work/check" "$work"/anew/*.rsp >"$work/log" || ! grep -q ' calls, 1 differ$' "$work/log"; then
        cat "$work/log" >&2
        echo "a $2 that ends with $4 in place of $3 is not reported, alone" >&2
        exit 1
    fi
    sed -n "s|^$work/anew/|reported: |p" "$work/log" | grep COUNT
}
spoiled proofs.rsp commit 02 03
spoiled proofs.rsp batch 04 05
spoiled answers.rsp number 13 14
spoiled answers.rsp place 1 0
spoiled answers.rsp place 0 1
spoiled answers.rsp degree 8 9
spoiled answers.rsp number 17 16
spoiled answers.rsp number 18 13
# spoiled_digest NAME: another last digit.
spoiled_digest() {
    last=$(sed -n "s/^$1 = .*\(.\)\$/\1/p" vectors/digests.rsp | head -n 1)
    spoiled digests.rsp "$1" "$last" "$(printf %s "$last" | tr 0-9a-f 1-9a-f0)"
}
spoiled_digest leaves
spoiled_digest hash
spoiled_digest proof

echo "# no case" >"$work/anew/proofs.rsp"
if "$work/check" "$work"/anew/*.rsp >"$work/log"; then
    echo "a file without a case is taken" >&2
    exit 1
fi
if "$work/check" vectors/proofs.rsp vectors/digests.rsp >"$work/log" ||
    ! grep -q 'no case in which mq_commit answers 9 at degree 4' "$work/log"; then
    echo "that an answer of a call never comes is not reported" >&2
    exit 1
fi

"$work/check" --selftest vectors/*.rsp
