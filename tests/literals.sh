#!/bin/sh
# The numbers of the kernels have names. In their code, contracts and definitions no limit, no size or degree of the
# field, and nothing that is computed from these stands as a number, but for the places of tests/literals.tsv.
#
# The table has a line for each such place: the file, the text that stands in it once, and why it may. What is left of
# the line may have no such number. Comments may.
set -eu
cd "$(dirname "$0")/.."
. tests/need.sh
work=$(mktemp -d)
trap 'rm -rf "$work"' EXIT
kernels='lanes chunks trees tables tables_opened hash equations
    forms_choices forms_columns forms_folds forms_planes forms_batching forms_pieces forms'

# The limits; the most equations in one pass; the elements of the field, and those besides 0; and lengths of buffers
# that follow from them: the cells, the table of sums of a block, the table of the v_e, Ṽ, the vectors, and a leaf for
# each repetition.
numbers='320 288 160 256 255 133120 32768 47616 13824 15360 5952'

fail() {
    echo "literals: $1" >&2
    exit 1
}

# strays ROOT TABLE: each line with a number that the table does not allow, and each line of the table that is not so.
# A number may be written in hexadecimal, with underscores, or with its type.
strays() {
    (
        cd "$1"
        for kernel in $kernels; do
            find "crates/$kernel/"* -path "crates/$kernel/src/*.rt" -o -path "crates/$kernel/specs/*.antt"
        done |
            LC_ALL=C xargs awk -F '\t' -v numbers="$numbers" '
        # whether the text has one of the numbers, or says that a degree is 8, or is bounded by it
        function literal(text) {
            text = " " tolower(text) " "
            while (match(text, /[0-9]_[0-9]/)) text = substr(text, 1, RSTART) substr(text, RSTART + 2)
            return text ~ number || text ~ degree || text ~ degree_last
        }
        BEGIN {
            count = split(numbers, each, " ")
            for (i = 1; i <= count; i++) any = any each[i] "|" sprintf("0x0*%x", each[i]) "|"
            sub(/[|]$/, "", any)
            typed = "(_?[iu](8|16|32|64|128|size))?[^0-9a-z_]"
            number = "[^0-9a-z_](" any ")" typed
            # the signs of programs, and of definitions: equal, at most, at least
            is = " *([=<>:]+|\342\211\241|\342\211\244|\342\211\245) *"
            degree = "degree[a-z_]*([.](now|old|new))?( *: *[a-z0-9]+|[(][a-z0-9_]*[)]| +[a-z0-9_]+)?[)]?" is "(8|0x0*8)" typed
            degree_last = "[^0-9a-z_](8|0x0*8)" is "[(]?[a-z0-9_ .:]*degree"
        }
        FNR == NR {
            if (NF != 3 || $3 == "" || !literal($2)) print "no file, or no number, or no reason: " $0
            places++
            file[places] = $1
            text[places] = $2
            next
        }
        {
            line = $0
            sub(FILENAME ~ /[.]rt$/ ? "//.*" : "--.*", "", line)
            for (i = 1; i <= places; i++)
                if (file[i] == FILENAME && (at = index(line, text[i]))) {
                    found[i]++
                    line = substr(line, 1, at - 1) " " substr(line, at + length(text[i]))
                }
            if (literal(line)) print FILENAME ":" FNR ": " $0
        }
        END {
            for (i = 1; i <= places; i++)
                if (found[i] != 1) print file[i] ": must have once, and has " found[i] + 0 " times: " text[i]
        }' "$2"
    )
}

for kernel in $kernels; do [ -d "crates/$kernel/src" ] || fail "there is no crate $kernel"; done
strays . tests/literals.tsv >"$work/strays"
[ ! -s "$work/strays" ] || {
    cat "$work/strays" >&2
    fail "numbers that want their name, or a line of tests/literals.tsv that says why they stand there"
}

# The controls, in a copy of the kernels.
# shellcheck disable=SC2086 # kernels are words
with_crates "$work/copy" $kernels

# with FILE LINE: what is found where the line is added to the file.
with() {
    cp "$work/copy/$1" "$work/kept"
    printf '%s\n' "$2" >>"$work/copy/$1"
    strays "$work/copy" "$PWD/tests/literals.tsv" | sed 's/^[^:]*:[0-9]*: //'
    cp "$work/kept" "$work/copy/$1"
}
# found FILE LINE: the line is found. stands LINE: it may stand in code.
found() {
    [ "$(with "$1" "$2")" = "$2" ] || fail "not found out, in $1: $2"
}
stands() {
    [ -z "$(with crates/chunks/src/lib.rt "$1")" ] || fail "found, though it may stand: $1"
}
for number in $numbers; do
    found crates/forms/src/lib.rt "const ROOM: usize = $number;"
    found crates/hash/src/lib.rt "    requires { length s.now ≤$number×2 }"
    found crates/chunks/specs/Chunks.antt "room = $number"
    stands "const ROOM: usize = ROOM_$number; // at most $number"
    stands "const ROOM: usize = 1$number + ${number}0 + room${number}_of;"
done
found crates/trees/src/lib.rt 'let mask = 255u8;'
found crates/lanes/src/lib.rt 'let mask = bit * 0xFF;'
found crates/tables/src/lib.rt 'let sums = [0u8; 133_120];'
found crates/lanes/src/lib.rt 'const DEGREE: usize = 8;'
found crates/forms/src/lib.rt '        degree: 8,'
found crates/lanes/src/lib.rt '    requires { (s.degree ≡ 8) × (e < lanes) }'
found crates/tables/src/lib.rt '    requires { s.degree ≤ 8 }'
found crates/tables/src/lib.rt '    ensures degree_kept { s.degree.new ≡ 8 }'
found crates/hash/src/lib.rt '    if degree_of(s) == 8 {'
found crates/trees/specs/Partial.antt 'Wide s = 8 ≡ s.degree'
stands '    requires { (at + gf256.degree ≤ length u * 8) × (r < 8) }'
stands 'const WORDS: usize = Gf256::DEGREE * 80;'

# missed WHAT SED: the table changed by a sed command, in which | is a tab.
missed() {
    sed "$(printf %s "$2" | tr '|' '\t')" tests/literals.tsv >"$work/table"
    [ -n "$(strays . "$work/table")" ] || fail "not found out: $1"
}
missed "a place that is not in the table" 1d
missed "a place that is twice in the table" 1p
missed "a place that has gone" '1s/|[^|]*/&, as it was/'
missed "a place without a number" '1s/|[^|]*|/|const|/'
missed "a place without a reason" '1s/|[^|]*$/|/'
echo "literals of the kernels: $(wc -l <tests/literals.tsv) places, each with its reason"
