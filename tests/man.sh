#!/bin/sh
# The manual pages: rendered without a warning; solfadrus.3 has the header's declarations, numbers and limits; its
# example compiles against the library (that of SOLFADRUS_LIB_DIR, or else the one that rt builds), and says what it is
# meant to.
set -eu
cd "$(dirname "$0")/.."
. tests/need.sh
need gcc gcc
need groff groff-base
lib=$(library)
page=docs/man/solfadrus.3
work=$(mktemp -d)
trap 'rm -rf "$work"' EXIT

# rendered PAGE: the warnings go to the output, and there must be none.
rendered() {
    groff -mandoc -ww -Tutf8 "$1" 2>&1 >"$work/text" | tee "$work/warnings"
    [ -s "$work/text" ] && [ ! -s "$work/warnings" ]
}
for name in docs/man/*.[13]; do
    rendered "$name"
done
{ cat "$page"; echo '.NoSuchMacro'; } >"$work/bad.3"
if rendered "$work/bad.3" >/dev/null; then
    echo "a macro that is not there gives no warning" >&2
    exit 1
fi

# What a reader of the header and of the page must find the same, one line each, sorted.
of_header() {
    awk '/^(uint32_t|size_t) mq_/ { open = 1; text = "" }
         open { sub(/^ +/, ""); text = text (text == "" ? "" : " ") $0 }
         open && /;$/ { sub(/;$/, "", text); print text; open = 0 }' "$1"
    sed -n 's/^#define \(MQ_REFUSED_[A-Z0-9_]*\) \([0-9]*\).*/\2 \1/p
            s/^#define \(MQ_MAX_[A-Z0-9_]*\) \([0-9]*\)$/\1 \2/p' "$1"
    sed -n 's/^size_t \(mq_\([a-z0-9_]*\)_size\)(.*/\1 \2/p' "$1" | while read -r function name; do
        echo "MQ_$(echo "$name" | tr '[:lower:]' '[:upper:]')_SIZE $function"
    done
}
of_page() {
    awk -F'"' '/^\.Sh SYNOPSIS/ { synopsis = 1 } /^\.Sh DESCRIPTION/ { synopsis = 0 }
         !synopsis { next }
         /^\.Ft / { answer = substr($0, 5) }
         /^\.Fn / { split($1, word, " "); list = word[3]
                    for (i = 2; i < NF; i += 2) list = list (list == "" ? "" : ", ") $i
                    print answer " " word[2] "(" list ")" }
         /^\.Fo / { name = substr($0, 5); list = "" }
         /^\.Fa / { list = list (list == "" ? "" : ", ") $2 }
         /^\.Fc/ { print answer " " name "(" list ")" }' "$1"
    sed -n 's/^\.It \([0-9]*\) Dv \(MQ_REFUSED_[A-Z0-9_]*\)$/\1 \2/p
            s/^\.It .* Dv \(MQ_MAX_[A-Z0-9_]*\) Ta \([0-9]*\)$/\1 \2/p
            s/^\.It Dv \(MQ_[A-Z0-9_]*_SIZE\) Ta Fn \(mq_[a-z0-9_]*\) Ta .*/\1 \2/p' "$1"
}
# same HEADER PAGE: shows what differs.
same() {
    of_header "$1" | sort >"$work/header"
    of_page "$2" | sort >"$work/page"
    [ -s "$work/header" ] && diff "$work/header" "$work/page"
}
# other WHAT SED: a control, the page changed by a sed command.
other() {
    sed "$2" "$page" >"$work/other.3"
    if same include/solfadrus.h "$work/other.3" >/dev/null; then
        echo "not found out: $1" >&2
        exit 1
    fi
}
other "a parameter that is missing" '/^\.Fa "size_t proof_len"/d'
other "a number that is another" 's/^\.It 14 /.It 13 /'
other "a limit that is another" 's/MQ_MAX_REPETITIONS Ta 48/MQ_MAX_REPETITIONS Ta 49/'
same include/solfadrus.h "$page"
echo "solfadrus.3 has the header's $(wc -l <"$work/header") declarations, numbers, limits and lengths"

sed -n '/^\.\\" example: begin/,/^\.\\" example: end/p' "$page" | grep -v '^\.' | sed 's/\\e/\\/g' >"$work/example.c"
gcc -std=c99 -O2 -Wall -Wextra -pedantic -Werror -Iinclude "$work/example.c" "$lib/libsolfadrus.a" -o "$work/example"
"$work/example" >"$work/said"
cat "$work/said"
[ "$(tail -n 1 "$work/said")" = "verify: refused 15 place 0" ]
