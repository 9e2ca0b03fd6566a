#!/bin/sh
# SHAKE256 as compiled, against all of NIST's vectors that Debian ships: builds the archive of the crate shake_calls (or
# takes that of SHAKE_CALLS). And that the two rounds of keccak are one function. Controls: in each file one byte of an
# output is changed, and three slips are made in keccak; each must be reported.
set -eu
cd "$(dirname "$0")/.."
. tests/need.sh
need gcc gcc
nist=/usr/lib/python3/dist-packages/cryptography_vectors/hashes/SHAKE
# No program: it is asked for by its files.
[ -f "$nist/SHAKE256Monte.rsp" ] || need "NIST's vectors" python3-cryptography-vectors
work=target/shake
mkdir -p "$work"

if [ -n "${SHAKE_CALLS-}" ]; then
    archive=$SHAKE_CALLS
else
    archive=$(archive shake_calls)/libshake_calls.a
fi
gcc -std=c11 -O2 -Wall -Wextra -Werror tests/shake.c "$archive" -o "$work/shake"

for kind in ShortMsg LongMsg VariableOut Monte; do
    # One digit of the fiftieth output, in its first byte.
    awk '/^Output = / && ++count == 50 { $3 = substr($3, 1, 1) (substr($3, 2, 1) == "0" ? "1" : "0") substr($3, 3) }
        { print }' "$nist/SHAKE256$kind.rsp" >"$work/$kind.rsp"
    ! cmp -s "$nist/SHAKE256$kind.rsp" "$work/$kind.rsp" || { echo "$kind: nothing was changed" >&2 && exit 1; }
    if "$work/shake" "$work/$kind.rsp" >/dev/null 2>&1; then
        echo "not found out: a byte of $kind that was changed" >&2
        exit 1
    fi
done
"$work/shake" "$nist/SHAKE256ShortMsg.rsp" "$nist/SHAKE256LongMsg.rsp" "$nist/SHAKE256VariableOut.rsp" \
    "$nist/SHAKE256Monte.rsp"

# one_round FOLDER: whether the round stands once in the crate's sources, is called in both its instances, and nowhere
# asks which of the two it is.
one_round() {
    [ "$(cat "$1"/*.rt | grep -cE '^ *(pub(\([a-z]+\))? )?(const )?fn round\b')" = 1 ] &&
        [ "$(grep -cE '(^|[^:_[:alnum:]])round::<true>\(' "$1/lib.rt")" = 1 ] &&
        [ "$(grep -cE '(^|[^:_[:alnum:]])round::<false>\(' "$1/lib.rt")" = 1 ] &&
        [ "$(cat "$1"/*.rt | grep -v '^ *//' | grep -c '\bODD\b')" = 1 ]
}
keccak=crates/keccak/src
one_round $keccak || { echo "the two rounds of keccak are not one function" >&2 && exit 1; }
for slip in 's/^    let d = effects(a);/    let d = if ODD { effects(a) } else { effects(a) };/' \
    's/round::<true>(/round::<false>(/' 's/ round::<true>(/ odd::round::<true>(/'; do
    rm -rf "$work/keccak" && cp -r $keccak "$work/keccak"
    sed "$slip" $keccak/lib.rt >"$work/keccak/lib.rt"
    ! cmp -s $keccak/lib.rt "$work/keccak/lib.rt" || { echo "nothing was changed in keccak" >&2 && exit 1; }
    ! one_round "$work/keccak" || { echo "not found out: $slip" >&2 && exit 1; }
done
rm -rf "$work/keccak"
echo "the two rounds of keccak are one function; each of 4 changed bytes and of 3 slips was found"
