#!/bin/sh
# The line counts of docs/AUDIT.md: `counts.sh` compares, `counts.sh --write` writes them anew. First, that its reading
# list is closed: what a contract or a listed file imports is listed, and above the file.
set -eu
cd "$(dirname "$0")/.."

# The definitions to be believed, in reading order: a file, or the definitions of a file from one name to another.
order=tests/reading-order.txt

# uses FILE...: what the files import from this repository. (`declared` is the code's own enums and structs.)
uses() {
    grep -hE '^ *(ghost |pub )?use Rattle\.' "$@" |
        sed -E 's/.*use Rattle\.([a-z_0-9]+)\.(specs|proofs)\.([A-Za-z0-9]+)\..*/\1\/\2\/\3/; /\/declared$/d' |
        sort -u | while read -r used; do
        # What the kit has is no crate here. A line that is read otherwise is left as it is, and then on no list.
        case $used in
        [a-z]*/*/*) [ ! -d "crates/${used%%/*}" ] || echo "$used" ;;
        *) echo "$used" ;;
        esac
    done
}

# within LIST WHAT NAME...: fails, and shows them, where names are not in the list.
within() {
    list=$1
    what=$2
    shift 2
    for name; do
        case " $list " in
        *" $name "*) ;;
        *)
            echo "$what $name, which is not on the reading list, or not above it"
            return 1
            ;;
        esac
    done
}

# closed ORDER: the list has what the exports, the check program, the reader of sections and the finder promise, and is
# closed under imports. A file of proofs is no definition: it may be listed by names only, and is then not gone into.
# Entries, and what is printed one name to a line, are split.
# shellcheck disable=SC2046,SC2086
closed() {
    above=
    while IFS='|' read -r entry what; do
        set -- $entry
        case $1,$# in
        */specs/*,1) within "$above" "$1 imports" $(uses "crates/$1.antt") || return ;;
        */proofs/*,3) ;;
        *)
            echo "$entry: of a file of proofs the definitions are listed, from a name to a name"
            return 1
            ;;
        esac
        above="$above $1"
    done <"$1"
    within "$above" "a contract cites" \
        $(uses crates/solfadrus/src/lib.rt crates/solfadrus/src/sizes.rt crates/checking/src/*.rt crates/sections/src/reader.rt crates/sections/src/lib.rt) &&
        within "$above" "there are statements in" \
            $(ls crates/theorems/specs/*.antt crates/hiding/specs/*.antt crates/demands/specs/*.antt crates/solfadrus/specs/*.antt crates/checking/specs/*.antt | sed 's|crates/||; s|\.antt$||; /\/Lib$/d; /\/Small/d')
}

# missed WHAT SED: a control, the list changed by a sed command.
missed() {
    sed "$2" "$order" >"$work/other"
    if closed "$work/other" >/dev/null; then
        echo "not found out: $1" >&2
        exit 1
    fi
}

# listed FILE [FIRST LAST]: its lines, each with its number; or those of its definitions from FIRST to LAST.
listed() {
    awk -v first="${2-}" -v last="${3-}" '
        first == "" || index($0, "abbrev pub " first " :") == 1 { inside = 1 }
        inside { print NR " " $0 }
        last != "" && index($0, last " ") == 1 { ending = 1 }
        ending && /^}/ { exit }' "crates/$1.antt"
}

counts() {
    echo '| File | Lines | What it defines |'
    echo '|---|---|---|'
    while IFS='|' read -r entry what; do
        # shellcheck disable=SC2086
        set -- $entry
        listed "$@" >"$lines"
        [ -s "$lines" ] || { echo "$entry: not found" >&2 && exit 1; }
        name="\`$1\`"
        [ $# = 1 ] || name="$name, \`$2\` to \`$3\` (lines $(sed 's/ .*//; 1!{$!d}' "$lines" | xargs printf '%s to %s'))"
        echo "| $name | $(wc -l <"$lines") | $what |"
        cat "$lines" >>"$all"
    done <"$order"
    echo
    echo "In all: $(wc -l <"$all") lines, $(grep -cE '^[0-9]+ (pub )?use ' "$all") of them imports."
}

# lines FOLDER NAME: of the files of a crate's folder.
lines() {
    find "$1" -type f -name "$2" -exec cat {} + 2>/dev/null | wc -l
}

# Each crate by what its lines are.
sizes() {
    echo '| Crate | Code | Definitions and statements | Proofs | Edits |'
    echo '|---|---:|---:|---:|---:|'
    sed 's/[ :].*//' crates.txt | while read -r crate; do
        at=crates/$crate
        echo "| \`$crate\` | $(lines "$at/src" '*.rt') | $(lines "$at/specs" '*.antt') | $(lines "$at/proofs" '*.antt') | $(find "$at/must-fail" -name '*.edit' 2>/dev/null | wc -l) |"
    done
    echo "| in all | $(find crates/*/src -name '*.rt' -exec cat {} + | wc -l) | $(cat crates/*/specs/*.antt | wc -l) | $(find crates/*/proofs -name '*.antt' -exec cat {} + | wc -l) | $(find crates/*/must-fail -name '*.edit' | wc -l) |"
}

# between NAME: the page with what NAME prints between its two marks.
between() {
    sed "/$1: begin/q" "$page" >"$next"
    "$1" >>"$next"
    sed -n "/$1: end/,\$p" "$page" >>"$next"
    cp "$next" "$page"
}

work=$(mktemp -d)
trap 'rm -rf "$work"' EXIT
page=$work/page
next=$work/next
lines=$work/lines
all=$work/all
missed "an import that is not listed" '/^protocol.specs.Reader|/d'
missed "an import that is listed below" '1h; 1d; $G'
missed "statements that are not listed" '/^demands.specs.Forgery|/d'
missed "a file of proofs, all of it" '$a algebra/proofs/BitFieldLaws|laws'
closed "$order"
cp docs/AUDIT.md "$page"
between counts
between sizes
if [ "${1-}" = --write ]; then
    cat "$page" >docs/AUDIT.md
else
    diff docs/AUDIT.md "$page"
fi
