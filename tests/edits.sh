#!/bin/sh
# Fails where a must-fail edit was refused for a bad reason: because something that a proof names is gone, so that the
# edit made the proof file unfit for the code and shows nothing, or only by a limit of the prover, which gave no
# verdict. rt tells such refusals apart, and of any other it tells an error that is not of that kind.
# edits.sh LOG [CRATE...]: LOG is what `rt ci` or `rt must-fail` wrote; of these crates alone, or of all.
set -eu
log=$(realpath "$1")
shift
cd "$(dirname "$0")/.."
work=$(mktemp -d)
trap 'rm -rf "$work"' EXIT

# said LOG EDIT: what rt says of the edit CRATE/NAME.edit, a line each time that it does.
said() {
    awk -v start="rt: must-fail $2: " 'index($0, start) == 1 { print substr($0, length(start) + 1) }' "$1"
}

# What is said where something cannot be named.
unnamed='can be named|has no (field|`)|is not in scope|is no name|was not admitted'

# judged CRATES LOG: names what is wrong with each edit of the crates below CRATES, by what rt says in LOG.
judged() {
    find "$1"/*/must-fail -name '*.edit' | sort | while read -r edit; do
        crate=$(basename "${edit%/must-fail/*}")
        name=$crate/$(basename "$edit")
        [ -z "$wanted" ] || case " $wanted " in *" $crate "*) ;; *) continue ;; esac
        said "$2" "$name" >"$work/said"
        case $(wc -l <"$work/said") in
        0) echo "$name: rt does not say what came of it" ;;
        1) ;;
        *) echo "$name: rt says more than one thing of it" ;;
        esac
        while read -r result; do
            case $result in
            'refused, as it must be (only '*) echo "$name: refused, but for no good reason: ${result#*: }" ;;
            'refused, as it must be: '*)
                if echo "$result" | grep -qE "$unnamed"; then
                    echo "$name: refused because something cannot be named: ${result#*: }"
                fi
                ;;
            'refused, as it must be') echo "$name: refused, and rt tells no error" ;;
            *) echo "$name: not refused: $result" ;;
            esac
        done <"$work/said"
    done
    sed -n 's/^rt: must-fail \([^ :]*\): .*/\1/p' "$2" | sort -u | while read -r name; do
        [ -f "$1/${name%/*}/must-fail/${name#*/}" ] || echo "$name: a result, and no edit"
    done
}

# A repository of made-up edits, and what rt says of each: they must be judged as their names say.
wanted=
# edit CRATE NAME [RESULT]: an edit, and what rt says of it.
edit() {
    mkdir -p "$work/crates/$1/must-fail"
    touch "$work/crates/$1/must-fail/$2.edit"
    [ -z "${3-}" ] || printf 'rt: must-fail %s/%s.edit: %s\n' "$1" "$2" "$3" >>"$work/log"
}
refused='refused, as it must be'
gone='only because a proof file names what the edit took away, so this says little of the contract: change a value and keep the names'
limit='only by a limit of the prover, which gave no verdict, so this says less of the contract: choose a change that it refuses sooner'
printf '%s\n' 'rt: add proved' 'rt: good: trying its must-fail edits (2)' >"$work/log"
edit good by_error "$refused: ./proofs/add/Answers.antt:12:17: error: \`returns\`: expected type \`◌≡◌ {A = ℕ} 2 1\`, but this has type \`◌≡◌ {A = ℕ} 2 2\`"
edit good by_note "$refused: note: src/lib.rt:44:5: it is not proved that what the function ensures holds when it returns (\`returns\`)"
judged "$work/crates" "$work/log" >"$work/none"
edit bad gone "$refused ($gone): ./proofs/add/Answers.antt:12:17: error: \`bound\` is not in scope"
edit bad limit "$refused ($limit): antt ran out of the steps that the check of one declaration may take"
edit bad unnamed "$refused: ./proofs/add/Answers.antt:12:17: error: module \`add.Tie\` has no \`need-add\` that can be named from here"
edit bad out_of_scope "$refused: note: src/lib.rt:44:5: \`bound\` is not in scope"
edit bad silent "$refused"
edit bad unlogged
edit bad unapplied "BAD EDIT: an 'old:' text is in src/lib.rt 0 times, and not once"
edit bad untried 'NOT TRIED: its check was killed, most likely for memory, so nothing is known of it: run this again'
edit bad proved 'NOT REFUSED: the crate is still proved with this edit'
edit bad twice "$refused: note: src/lib.rt:44:5: it is not proved"
edit bad twice "$refused: note: src/lib.rt:45:5: it is not proved"
edit bad unknown "$refused: note: src/lib.rt:44:5: it is not proved"
rm "$work/crates/bad/must-fail/unknown.edit"
judged "$work/crates" "$work/log" | sed 's/:.*//' | sort >"$work/found"
printf 'bad/%s.edit\n' gone limit out_of_scope proved silent twice unapplied unknown unlogged unnamed untried >"$work/expected"
if [ -s "$work/none" ] || ! diff "$work/expected" "$work/found"; then
    cat "$work/none" >&2
    echo "edits.sh does not judge the made-up results as it should" >&2
    exit 1
fi

# Of the crates that are named, or of all.
wanted=$*
judged crates "$log" >"$work/found"
if [ -s "$work/found" ]; then
    cat "$work/found" >&2
    exit 1
fi
if [ -n "$wanted" ]; then
    # Names of crates are words.
    # shellcheck disable=SC2086
    tried=$(cd crates && find $wanted -path '*/must-fail/*.edit' | wc -l)
else
    tried=$(find crates/*/must-fail -name '*.edit' | wc -l)
fi
[ "$tried" -gt 0 ] || { echo "no edit was looked at" >&2 && exit 1; }
echo "$tried must-fail edits, each refused by an error that names what no longer holds"
