#!/bin/sh
# Holds the table of named forms in docs/ARCHITECTURE.md against the code: each place must be there, once. With --write
# it makes the table.
set -eu
cd "$(dirname "$0")/.."
table=$(mktemp)
trap 'rm -f "$table"' EXIT

rows() {
    printf '| 01 says | Where | What stands there |\n|---|---|---|\n'
    while IFS="$(printf '\t')" read -r says file text what; do
        found=$(grep -nF -- "$text" "$file" | cut -d: -f1)
        case $found in
        '' | *[!0-9]*)
            echo "forms: \"$text\" must stand once in $file" >&2
            exit 1
            ;;
        esac
        printf '| "%s" | `%s:%s` | %s |\n' "$says" "$file" "$found" "$what"
    done <docs/forms.tsv
}

rows >"$table"
made() {
    sed -n '1,/^<!-- forms: begin -->$/p' docs/ARCHITECTURE.md
    cat "$table"
    sed -n '/^<!-- forms: end -->$/,$p' docs/ARCHITECTURE.md
}
if [ "${1:-}" = --write ]; then
    made >"$table.new"
    mv "$table.new" docs/ARCHITECTURE.md
    exit
fi
made | diff docs/ARCHITECTURE.md - || {
    echo "docs/ARCHITECTURE.md: the places of the forms have moved; tests/forms.sh --write makes them anew" >&2
    exit 1
}
echo "the forms that 01 names: $(wc -l <docs/forms.tsv) places"
