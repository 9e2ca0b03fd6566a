#!/bin/sh
# One table of refusals, docs/refusals.tsv: what REFUSALS.md, the header, solfadrus.3, the Rust wrapper, tests/vectors.c
# and the crate format say of numbers, names, questions, places and calls is what the table has. Also the numbers that
# prose repeats: limits, the stack, the check program's most bytes.
#
# The table has a line for each number: the constant of C, the variant of Rust and of the code, what the place is, for
# each call whether it puts the question (in 5 and 17 the challenges that it asks of), a short text, and the question.
# The lines are in the order in which the questions are put.
set -eu
cd "$(dirname "$0")/.."
work=$(mktemp -d)
trap 'rm -rf "$work"' EXIT
header=include/solfadrus.h
helpers=include/solfadrus_util.h
page=docs/man/solfadrus.3
list=docs/REFUSALS.md
table=docs/refusals.tsv
wrapper=bindings/rust/src
format=crates/format

# in_ascii: the list's signs as the others write them.
in_ascii() {
    sed 's/τ/tau/g; s/H′/hash_matrix/g; s/χ/batching/g; s/Δ/delta/g; s/ũ/u~/g; s/Ṽ/V~/g; s|⌈n/8⌉|ceil(n / 8)|g; s/ *●/ ●/g'
}

# of_table WHAT TABLE: what the others must have, from the table, one line each.
of_table() {
    awk -F'\t' -v what="$1" '
        NR == 1 { for (i = 5; i <= 10; i++) name[i] = $i; next }
        what == "questions" { print $1, $12 ($4 == "0" ? "" : " place") }
        what == "constants" { print $1, $2 }
        what == "variants" { print $1, $3 }
        what == "texts" { print $3, $11 }
        what == "messages" { print $1, $11 }
        what == "numbers" { for (i = 5; i <= 10; i++) if ($i != "-") line[i] = line[i] " " $1 }
        what == "challenges" && ($1 == 5 || $1 == 17) {
            for (i = 5; i <= 10; i++) if ($i != "-") { gsub(",", " ", $i); line[i] = line[i] " " $1 " " $i }
        }
        END { for (i = 5; i <= 10; i++) if (i in line) print name[i] ":" line[i] }' "$2"
}

# Questions, one line each: number, text, and whether it has a place.
questions_of_header() {
    sed -nE '/^ \* 3\. ANSWERS/,/^ \* 4\. /s/^ \* +([0-9]+)  ([A-Z].*\?) *(place)?.*/\1 \2 \3/p' "$1" | sed 's/ *$//'
}
questions_of_page() {
    awk 'function show() {
             place = text ~ /The place is/ ? " place" : ""
             if (sub(/\?.*/, "?", text)) print text place
             text = ""
         }
         /^\.It [0-9]+ Dv MQ_REFUSED/ { show(); text = $2; next }
         /^\.El/ { show() }
         text { sub(/^\.Fa /, ""); text = text " " $0 }' "$1"
}
questions_of_list() {
    in_ascii <"$1" | awk -F' *[|] *' '$2 ~ /^[0-9]+$/ { print $2, $3 ($4 == "0" ? "" : " place") }'
}

# Calls, one line each: name, and its numbers, those of questions 5 and 17 with the challenges in brackets.
calls_of_header() {
    awk '$2 == "questions" { sub(/.*questions */, ""); text = $0 }
         /^uint32_t mq_/ && text { name = substr($2, 4); sub(/\(.*/, "", name); print name, text; text = "" }' "$1"
}
calls_of_page() {
    awk '/^\.It Fn mq_/ { name = substr($3, 4) }
         sub(/^Questions /, "") { text = name }
         text { if (sub(/^\.Pq /, "")) $0 = "(" $0 ")"; text = text " " $0 }
         text && /\.$/ { sub(/\.$/, "", text); print text; text = "" }' "$1"
}
calls_of_list() {
    in_ascii <"$1" | awk -F' *[|] *' '
        $2 == "Number" { for (i = 5; i < NF; i++) text[i] = $i }
        $2 ~ /^[0-9]+$/ { for (i = 5; i < NF; i++)
                              if ($i != "") text[i] = text[i] " " $2 ($i == "●" ? "" : " (" $i ")") }
        END { for (i = 5; i in text; i++) print text[i] }'
}
calls_of_wrapper() {
    awk 'sub(/^\/\/\/ Refusals /, "") { sub(/\..*/, ""); text = $0 }
         /^pub fn / && text { name = $3; sub(/\(.*/, "", name); print name, text; text = "" }' "$1"
}
# 0, which is an acceptance, is no question.
calls_of_vectors() {
    sed -nE '/^} calls/,/^};/s/^    \{ "([a-z]*)".*, (BITS.*) \},$/\1 \2/p' "$1" |
        sed -E 's/BITS\(([0-9]+), \1\)/\1/g; s/BITS\(([0-9]+), ([0-9]+)\)/\1 to \2/g; s/ \|//g; s/ 0 to / 1 to /'
}

# numbers, challenges: such lines with each number written out; and what questions 5 and 17 ask of.
numbers() {
    sed 's/([^)]*)//g; s/,/ /g' | awk '{
        text = $1 ":"
        for (i = 2; i <= NF; i++)
            if ($i != "to") text = text " " $i
            else for (k = $(i - 1) + 1; k < $(i + 1); k++) text = text " " k
        print text }'
}
challenges() {
    awk '{
        text = $1 ":"
        while (match($0, / (5|17) \([^)]*\)/)) {
            asked = substr($0, RSTART, RLENGTH)
            $0 = substr($0, RSTART + RLENGTH)
            text = text (asked ~ /^ 5/ ? " 5" : " 17")
            if (asked ~ /delta/) text = text " delta"
            if (asked ~ /hash_matrix/) text = text " hash_matrix"
            if (asked ~ /batching/) text = text " batching"
        }
        if (text !~ /:$/) print text }'
}

# Names of the numbers, one line each: number and name.
constants_of_header() {
    sed -nE 's/^#define (MQ_REFUSED_[A-Z0-9_]+) ([0-9]+).*/\2 \1/p' "$1"
}
constants_of_page() {
    sed -nE 's/^\.It ([0-9]+) Dv (MQ_REFUSED_[A-Z0-9_]+)$/\1 \2/p' "$1"
}
# The enum: each variant below a comment that begins with its number. The list of the published ones is by number.
variants_of_wrapper() {
    awk '/^pub enum Reason/ { inside = 1 }
         inside && /^    \/\/\/ [0-9]+: / { number = $2; sub(/:/, "", number) }
         inside && /^    [A-Z][A-Za-z]*,$/ { sub(/,/, ""); print number, $1 }
         /^}/ { inside = 0 }' "$1"
}
published_by_wrapper() {
    awk '/^const PUBLISHED/ { inside = 1; next }
         inside && /^];/ { exit }
         inside { gsub(/ *Reason::|,/, ""); print ++count, $0 }' "$1"
}
numbers_of_code() {
    sed -nE 's/^ *Reason::([A-Za-z]+) => ([0-9]+),$/\2 \1/p' "$1"
}
texts_of_wrapper() {
    sed -nE 's/^ *Reason::([A-Za-z]+) => "(.*)",$/\1 \2/p' "$1"
}
# The messages of the helpers for C, in the order of the numbers, from 0 for an acceptance.
messages_of_helpers() {
    awk -F'"' '/ messages\[\] = \{/ { inside = 1; next }
         inside && /\};/ { exit }
         inside { if (count++) print count - 1, $2 }' "$1"
}
variants_of_code() {
    awk '/^pub enum Reason/ { inside = 1; next }
         inside && /^}/ { exit }
         inside && /^    [A-Z]/ { sub(/,/, ""); print ++count, $1 }' "$1"
}
numbers_of_enum() {
    sed -nE 's/^    ([A-Z][A-Za-z]+) = ([0-9]+),$/\2 \1/p' "$1"
}
numbers_of_specs() {
    sed -nE 's/^number_for ([A-Za-z]+) = ([0-9]+)$/\2 \1/p' "$1"
}

# rising: the numbers of each line, rising.
rising() {
    while read -r name all; do
        # shellcheck disable=SC2086 # numbers are words
        echo "$name $(printf '%s\n' $all | sort -n | xargs)"
    done
}

# held WHAT COMMAND FILE: what the command prints of the file is what the table has. Questions must be in its order.
held() {
    of_table "$1" "$work/at/$table" >"$work/expected"
    "$2" "$work/at/$3" >"$work/found"
    case $1 in
    variants | messages) sort -n -o "$work/expected" "$work/expected" ;;
    constants | texts) sort -o "$work/expected" "$work/expected" && sort -o "$work/found" "$work/found" ;;
    esac
    diff "$work/expected" "$work/found" >"$work/diff" || {
        echo "$3, by $2, is not $table:"
        cat "$work/diff"
        return 1
    }
}
# calls COMMAND FILE: the same of the numbers that each call puts, and of its challenges.
calls() {
    "$1" "$work/at/$2" >"$work/calls"
    numbers <"$work/calls" >"$work/numbers"
    of_table numbers "$work/at/$table" >"$work/expected"
    case $1 in
    # The degree is an enum there, so that 16 cannot come up.
    calls_of_wrapper) sed 's/: 16 /: /' "$work/expected" | diff - "$work/numbers" ;;
    # Sets, which have no order.
    calls_of_vectors) rising <"$work/expected" | diff - "$work/numbers" ;;
    *) diff "$work/expected" "$work/numbers" ;;
    esac || { echo "the calls of $2"; return 1; }
    [ "$1" != calls_of_vectors ] || return 0
    challenges <"$work/calls" >"$work/challenges"
    of_table challenges "$work/at/$table" | diff - "$work/challenges" || { echo "the challenges of $2"; return 1; }
}

# same: everything, as it stands below $work/at. Fewer than 18 lines would mean that the table was not read.
same() {
    if [ "$(of_table variants "$work/at/$table" | wc -l)" != 18 ] ||
        [ "$(of_table numbers "$work/at/$table" | wc -l)" != 6 ]; then
        echo "$table was not read"
        return 1
    fi
    held questions questions_of_header $header && held questions questions_of_page $page &&
        held questions questions_of_list $list && held constants constants_of_header $header &&
        held constants constants_of_page $page && held variants variants_of_wrapper $wrapper/refusal.rs &&
        held variants published_by_wrapper $wrapper/refusal.rs && held variants numbers_of_code $wrapper/refusal.rs &&
        held texts texts_of_wrapper $wrapper/refusal.rs && held variants variants_of_code $format/src/lib.rt &&
        held variants numbers_of_enum $format/src/lib.rt && held variants numbers_of_specs $format/specs/Verdict.antt &&
        calls calls_of_header $header && calls calls_of_page $page && calls calls_of_list $list &&
        calls calls_of_wrapper $wrapper/calls.rs && calls calls_of_vectors tests/vectors.c || return
    [ ! -f $helpers ] || held messages messages_of_helpers $helpers
}
# copied: all that is compared, below $work/at.
copied() {
    for file in $header $page $list $table $wrapper/refusal.rs $wrapper/calls.rs $format/src/lib.rt \
        $format/specs/Verdict.antt tests/vectors.c $helpers; do
        [ -f "$file" ] || [ "$file" != $helpers ] || continue
        mkdir -p "$work/at/$(dirname "$file")"
        cp "$file" "$work/at/$file"
    done
}
# other WHAT FILE SED: a control, one of the files changed by a sed command.
other() {
    copied
    sed "$3" "$2" >"$work/at/$2"
    if cmp -s "$2" "$work/at/$2" || same >/dev/null; then
        echo "not found out: $1" >&2
        exit 1
    fi
}
other "a question in other words" $list 's/Has the output exactly/Has the output at least/'
other "a place that is missing" $list '/^| 14 /s/| the first[^|]*|/| 0 |/'
other "a number that a call does not put" $list '/^| 9 /s/| |/| ● |/'
other "a challenge that a call does not take" $list '/^| 5 /s/H′, χ/H′/'
other "elements of a challenge that a call does not ask of" $list '/^| 17 /s/Δ, χ/χ/'
other "a question that is put later" $list '/^| 16 /{h;d};/^| 1 /G'
other "a question of the header that is put later" $header '/^ \*   17  /{h;d};/^ \*    7  /G'
other "a question of a call that is put later" $header '/questions .*12, 13, 18, 14/s/13, 18, 14/13, 14, 18/'
other "a degree that is neither" $list 's/Is the degree 8 or 4/Is the degree 8/'
other "a question of the page in other words" $page 's/^Has the key at least/Has the key more than/'
other "a number of the page" $page 's/^7, 8, 12, 13, 18, 14, 15\.$/7, 8, 12, 13, 14, 15./'
other "a constant of the page" $page 's/^\.It 14 Dv/.It 13 Dv/'
other "a number of the header" $header '/questions  *16, 1 2 3 4, 7 8, 9/s/10, 11/11/'
other "a constant of the header" $header 's/^#define MQ_REFUSED_LEAF_LENGTH 7/#define MQ_REFUSED_LEAF_LENGTH 8/'
other "a constant that the table has not" $header '/^#define MQ_REFUSED_PRODUCT_DIFFERS/a #define MQ_REFUSED_MORE 19'
other "a text of the wrapper" $wrapper/refusal.rs 's/"a spare bit of a leaf is not 0"/"a bit of a leaf is not 0"/'
other "a number of the wrapper" $wrapper/refusal.rs 's/Reason::KeyLength => 3,/Reason::KeyLength => 4,/'
other "the order of the published reasons" $wrapper/refusal.rs '/^const PUBLISHED/,/^];/s/KeyLength/KeySpareBit/'
other "a comment's number in the wrapper" $wrapper/refusal.rs 's|/// 6: |/// 7: |'
other "the numbers of a call of the wrapper" $wrapper/calls.rs 's/Refusals 1 to 4, 9, 11/Refusals 1 to 4, 9/'
other "a number of the code" $format/src/lib.rt 's/^    LeafLength = 7,/    LeafLength = 8,/'
other "a number of the specification" $format/specs/Verdict.antt 's/^\(number_for Inconsistent\) = 14/\1 = 15/'
other "the numbers of a call in vectors.c" tests/vectors.c '/{ "commit", call_commit/s/BITS(7, 11)/BITS(7, 10)/'
[ ! -f $helpers ] || other "a message for C" $helpers 's/"consistency does not hold"/"consistency holds"/'
other "a line of the table" $table '/^12\t/d'
other "a call of the table" $table '/^9\t/s/\tyes\t/\t-\t/'
copied
same
echo "18 refusals: numbers, names, questions, places, calls and texts are those of $table in the header, the page," \
    "REFUSALS.md, the Rust wrapper, vectors.c and the crate format"

# defined NAME: a number of the header.
defined() {
    sed -n "s/^#define $1 \([0-9]*\)\$/\1/p" $header
}
# says FILE SENTENCE: prose, whose lines are broken.
says() {
    sed 's/^ \* *//; s|^//! *||' "$1" | tr -s '\n' ' ' | grep -qF "$2" || { echo "$1 does not say: $2" >&2 && exit 1; }
}
says $list "n is 1 to $(defined MQ_MAX_VARIABLES), m is 0 to $(defined MQ_MAX_EQUATIONS), τ is 1 to \
$(defined MQ_MAX_REPETITIONS)"
says $list "t is 1 to $(defined MQ_MAX_HASH_ROWS)"
says bindings/rust/src/size.rs "(n: 1 to $(defined MQ_MAX_VARIABLES); m: 0 to $(defined MQ_MAX_EQUATIONS); tau: 1 to \
$(defined MQ_MAX_REPETITIONS); t: 1 to $(defined MQ_MAX_HASH_ROWS))"
kib=$(($(defined MQ_STACK_BYTES) / 1024))
for file in $header $page SECURITY.md bindings/rust/src/lib.rs; do
    [ "$(grep -o '[0-9]* KiB' "$file" | sort -u)" = "$kib KiB" ] ||
        { echo "$file: not $kib KiB of stack" >&2 && exit 1; }
done
most=$(sed -n 's/^const MOST_INPUT: usize = \([0-9]*\);$/\1/p' crates/checking/src/input.rt)
[ "$(grep -o '[0-9][0-9,]* bytes' docs/man/mqcheck.1 | tr -d , | sort -u)" = "$most bytes" ] ||
    { echo "mqcheck.1: not $most bytes" >&2 && exit 1; }
echo "limits, $kib KiB of stack and the check program's $most bytes: as in the header and the code"
