#!/bin/sh
# Request 5: the walk from the lent leaves to u, v and W takes no division and no remainder by 8 for a coordinate. In
# the code of these crates a number is divided, or its remainder taken, by 2 or 4 alone, nothing is shifted by three
# places or masked by 7, and no function of another crate is called that divides by 8, itself or by those that it
# calls. Comments, contracts and imports may say what they like, and a constant is computed when it is compiled.
set -eu
cd "$(dirname "$0")/.."
. tests/need.sh
work=$(mktemp -d)
trap 'rm -rf "$work"' EXIT
walk='trees tables tables_opened chunks leaf_sums'

fail() {
    echo "division: $1" >&2
    exit 1
}

# code FILE...: the code alone, each line after its file and number.
code() {
    awk '
        FNR == 1 { contract = 0 }
        {
            line = $0
            sub(/\/\/.*/, "", line)
            if (line ~ /^ *(ghost )?use /) next
            if (line ~ /^ *(requires|ensures)[a-z0-9_ ]* *[{]/) contract = 1
            if (contract) {
                if (line ~ /[}] *$/) contract = 0
                next
            }
            if (line ~ /[^ ]/) print FILENAME ":" FNR ": " line
        }' "$@"
}

# sources ROOT CRATE...: their files.
sources() {
    root=$1
    shift
    for crate; do find "$root/crates/$crate/src" -name '*.rt'; done | LC_ALL=C sort
}

# eights FILE...: the names of constants that are 8, or another such name; one to a line.
eights() {
    sed -nE 's/^ *(pub )?const ([A-Z0-9_]+): *[a-z0-9]+ = ([A-Za-z0-9_:]+);.*/\2 \3/p' "$@" | awk '
        # a name may be given to more than one constant
        $2 ~ /^(8|0x0*8|0b1000)(_?[iu](8|16|32|64|size))?$/ { eight[$1] = 1; next }
        { value[$1] = $2; sub(/.*::/, "", value[$1]) }
        END {
            for (more = 1; more;) {
                more = 0
                for (name in value) if (!(name in eight) && value[name] in eight) eight[name] = more = 1
            }
            for (name in eight) print name
        }' | LC_ALL=C sort
}

# dividing NAMES FILE...: the functions that divide by 8 or by one of the names, or call such a function.
dividing() {
    names=$1
    shift
    code "$@" | awk -v names="$names" '
        BEGIN {
            by_eight = "[\\/%]=? *[(]*([a-zA-Z0-9_]+::)*(8|0x0*8|" names ")[^A-Za-z0-9_:]"
            by_eight = by_eight "|>>=? *[(]*3[^0-9]|&=? *[(]*7[^0-9]"
        }
        {
            sub(/^[^ ]* /, "")
            line = $0 " "
            if (match(line, /(^| )fn [a-z_0-9]+/)) {
                name = substr(line, RSTART, RLENGTH)
                sub(/.*fn /, "", name)
                if (!(name in body)) body[name] = ""
            } else if (line ~ /^(pub )?(const|struct|enum)/) name = ""
            if (name == "") next
            body[name] = body[name] " " line
        }
        END {
            for (name in body) if (body[name] ~ by_eight) divides[name] = 1
            for (more = 1; more;) {
                more = 0
                for (name in body)
                    if (!(name in divides))
                        for (other in divides)
                            if (body[name] ~ ("[^a-z_0-9]" other "[(]")) {
                                divides[name] = more = 1
                                break
                            }
            }
            for (name in divides) print name
        }' | LC_ALL=C sort
}

# know ROOT: which names are 8, and which functions below the walk divide by it.
# shellcheck disable=SC2046,SC2086 # crates and files are words
know() {
    eights $(sources "$1" $below $walk) >"$work/eights"
    dividing "$(paste -sd '|' "$work/eights")" $(sources "$1" $below) >"$work/dividing"
}

# strays ROOT: the lines of the walk that divide otherwise than by 2 or 4, or call a function that divides by 8.
# shellcheck disable=SC2046,SC2086 # crates and files are words
strays() {
    code $(sources "$1" $walk) | awk -v calls="$(paste -sd '|' "$work/dividing")" '
        BEGIN { other = ">>=? *[(]*3[^0-9]|&=? *[(]*(7|0x0*7|0b0*111)[^0-9]|[^a-z_0-9](" calls ")[(]" }
        {
            line = $0 " "
            sub(/^[^ ]* /, "", line)
            rest = line
            # each division and each remainder, by what stands behind its sign
            while (match(rest, /[\/%]=? */)) {
                rest = substr(rest, RSTART + RLENGTH)
                if (rest !~ /^[24][^0-9a-zA-Z_]/) { print; next }
            }
            if (line ~ other) print
        }'
}

# The crates below the walk, whose functions it may call.
# shellcheck disable=SC2086 # crates are words
below=$(for crate in $walk; do below "$crate"; done | tr ' ' '\n' | LC_ALL=C sort -u)
for crate in $walk; do below=$(echo "$below" | grep -vx "$crate"); done
below=$(for crate in $below; do [ ! -d "crates/$crate/src" ] || echo "$crate"; done | xargs)

for crate in $walk; do [ -d "crates/$crate/src" ] || fail "there is no crate $crate"; done
know .
strays . >"$work/strays"
[ ! -s "$work/strays" ] || {
    cat "$work/strays" >&2
    fail "a division in the walk that is not by 2 or 4, or one by 8 in another spelling, or in what is called"
}
for name in BITS WORD DEGREE; do grep -qx "$name" "$work/eights" || fail "$name is not seen to be 8"; done
for name in bit_at xor_bit clear_spare bytes_for leaf_bytes; do
    grep -qx "$name" "$work/dividing" || fail "$name is not seen to divide by 8"
done
named=$(xargs <"$work/eights")

# The controls, in a copy.
# shellcheck disable=SC2086 # crates are words
with_crates "$work/copy" $walk $below

# with FILE LINE: what is found where a function with the line is added to the file.
with() {
    cp "$work/copy/$1" "$work/kept"
    printf 'fn added(c: usize) {\n    %s\n}\n' "$2" >>"$work/copy/$1"
    strays "$work/copy" | sed 's/^[^ ]* *//; s/ *$//'
    cp "$work/kept" "$work/copy/$1"
}
# found FILE LINE: the line is found. stands LINE: it may stand in the code.
found() {
    [ "$(with "$1" "$2")" = "$2" ] || fail "not found out, in $1: $2"
}
stands() {
    [ -z "$(with crates/tables/src/lib.rt "$1")" ] || fail "found, though it may stand: $1"
}
for divided in 'c / 8' 'c % 8' 'c/8' 'c%8' 'c / 8usize' 'c / 0x8' 'c / BITS' 'c % BITS' 'c / strings::BITS' \
    'c % (BITS)' 'c / WORD' 'c / Gf256::DEGREE' 'c >> 3' 'c >> 3usize' 'c & 7' 'c & 0x07' 'c / 16' 'c % 40' 'c / w'; do
    for crate in $walk; do found "crates/$crate/src/lib.rt" "let b = $divided;"; done
done
found crates/trees/src/fours.rt 'c /= 8;'
found crates/trees/src/sixteens.rt 'c %= 8;'
found crates/chunks/src/turns.rt 'c >>= 3;'
found crates/tables/src/parts.rt 'let b = strings::bit_at(s, c);'
found crates/tables/src/lib.rt 'strings::xor_bit(s, c, 1);'
found crates/tables_opened/src/lib.rt 'let b = leaf_bytes(s);'
stands 'let b = c / 2 + c % 4 + c / 4 * 4;'
stands 'let b = (s >> i) % 2 & 15 & 73;'
stands 'let b = c; // byte c / 8, bit c % 8'
stands 'let b = c << 3;'
# A function below the walk that divides by a name of its own for 8, and one that calls it.
printf 'pub const OCTET: usize = BITS;\n' >>"$work/copy/crates/strings/src/lib.rt"
printf 'pub fn %s(c: usize) -> usize {\n    %s\n}\n' place 'c % OCTET' turned '7 - place(c)' \
    >>"$work/copy/crates/strings/src/lib.rt"
know "$work/copy"
found crates/trees/src/lib.rt 'let b = strings::place(c);'
found crates/trees/src/lib.rt 'let b = strings::turned(c);'
# A contract may divide, on more lines than one too.
cat >>"$work/copy/crates/tables/src/lib.rt" <<'RT'
fn stated(c: usize)
    requires { (c / 8 < 8)
        × (c % 8 < 8) }
    ensures by_index_2 { c / 8 < 8 }
{
}
RT
[ -z "$(strays "$work/copy")" ] || fail "found, though it stands in a contract"

echo "no division or remainder by 8 ($named), and no call of one, in the code of: $walk"
