#!/bin/sh
# The archive's global symbols are those of tests/symbols.txt: the calls of the header, and of others memcpy and memset
# alone. It has no variable, so that calls can be made at once. The library is that of SOLFADRUS_LIB_DIR, or else the
# one that rt builds.
set -eu
cd "$(dirname "$0")/.."
. tests/need.sh
need gcc gcc nm binutils
lib=$(library)
list=tests/symbols.txt
work=$(mktemp -d)
trap 'rm -rf "$work"' EXIT

# held ARCHIVE LIST HEADER: shows what is not as it should be.
held() {
    nm "$1" 2>/dev/null | awk 'NF >= 2 { print $(NF - 1), $NF }' >"$work/all"
    grep '^[A-Z]' "$work/all" | LC_ALL=C sort -u >"$work/found"
    grep -v '^#' "$2" | LC_ALL=C sort >"$work/listed"
    diff "$work/listed" "$work/found" || return
    if grep '^[bBdDsSgGC] ' "$work/all"; then
        echo "a variable"
        return 1
    fi
    sed -nE 's/^(uint32_t|size_t) (mq_[a-z0-9_]+)\(.*/\2/p' "$3" | LC_ALL=C sort >"$work/declared"
    sed -n 's/^T //p' "$work/listed" | diff "$work/declared" -
}

# missed WHAT ARCHIVE LIST HEADER: a control.
missed() {
    if held "$2" "$3" "$4" >/dev/null; then
        echo "not found out: $1" >&2
        exit 1
    fi
}
# with WHAT TEXT: the archive with an object more, compiled from C.
with() {
    echo "$2" | gcc -x c -c - -o "$work/more.o"
    cp "$lib/libsolfadrus.a" "$work/more.a"
    ar r "$work/more.a" "$work/more.o" 2>/dev/null
    missed "$1" "$work/more.a" $list include/solfadrus.h
}
with "a function of another name" 'int helper(void) { return 0; }'
with "a function that is not in the header" 'int mq_helper(void) { return 0; }'
with "another function that is called" 'void abort(void); __attribute__((used)) static void call(void) { abort(); }'
with "a variable" 'static int calls; __attribute__((used)) static int count(void) { return calls++; }'
sed '/mq_hash_size/d' $list >"$work/less.txt"
missed "a symbol that is not listed" "$lib/libsolfadrus.a" "$work/less.txt" include/solfadrus.h
grep -v 'mq_version(' include/solfadrus.h >"$work/less.h"
missed "a function that the header does not declare" "$lib/libsolfadrus.a" $list "$work/less.h"

held "$lib/libsolfadrus.a" $list include/solfadrus.h
echo "$(grep -c '^T' $list) functions are defined, those of the header; memcpy and memset are to be linked; no variable"
