#!/bin/sh
# `make install` and `make uninstall` into a temporary directory: what is installed serves callers in C, C++ and Rust
# by pkg-config, its versions agree, its example and its check program run, its manual pages are found, and nothing is
# left afterwards. The library is that of SOLFADRUS_LIB_DIR, or else the one that rt builds; the check program is that
# of MQCHECK, or else the one that rt has built, and where there is none the test fails.
set -eu
cd "$(dirname "$0")/.."
. tests/need.sh
need gcc gcc g++ g++ pkg-config pkg-config groff groff-base man man-db make make
SOLFADRUS_LIB_DIR=$(library)
export SOLFADRUS_LIB_DIR
work=$(mktemp -d)
trap 'rm -rf "$work"' EXIT
prefix=$work/prefix

# made TARGET NAME=VALUE...: the make command, without what an outer make has set.
made() {
    env -u MAKEFLAGS -u MAKELEVEL make --no-print-directory "$@"
}

fail() {
    echo "$1" >&2
    exit 1
}

files() {
    (cd "$1" && find . ! -type d | sort)
}

# checked LINE: the installed check program's line on the standard input.
checked() {
    line=$("$prefix/bin/mqcheck") || fail "mqcheck ends with status $?"
    [ "$line" = "$1" ] || fail "mqcheck says '$line' in place of '$1'"
}

[ -x "${MQCHECK:-crates/mqcheck/out/mqcheck}" ] || fail "no check program: rt run in crates/mqcheck builds it"

echo "installed:"
made install PREFIX="$prefix" >/dev/null
files "$prefix" | tee "$work/files"
mqcheck=${MQCHECK:-crates/mqcheck/out/mqcheck}
set -- ./include/solfadrus.h ./include/solfadrus_util.h ./lib/libsolfadrus.a ./lib/pkgconfig/solfadrus.pc \
    ./share/man/man1/mqcheck.1 ./share/man/man3/solfadrus.3
[ ! -x "$mqcheck" ] || set -- ./bin/mqcheck "$@"
printf '%s\n' "$@" | diff - "$work/files" || fail "these are not the files to be installed"
cmp "$SOLFADRUS_LIB_DIR/libsolfadrus.a" "$prefix/lib/libsolfadrus.a"
cmp include/solfadrus.h "$prefix/include/solfadrus.h"

cmp "$mqcheck" "$prefix/bin/mqcheck"
# The program's own example is the toy example of 01 at 02.
checked 'accepted 0 0' <crates/mqcheck/stdin
checked 'unread 0 0' </dev/null
echo "the check program: the toy is accepted, an empty input is unread"

PKG_CONFIG_PATH=$prefix/lib/pkgconfig
export PKG_CONFIG_PATH
pkg-config --validate solfadrus

# A caller that knows the library by pkg-config alone. It prints the macro's version and the function's.
cat >"$work/caller.c" <<'C'
#include <solfadrus.h>
#include <stdio.h>

static void show(unsigned long version)
{
    printf("%lu.%lu.%lu\n", version / 65536, version / 256 % 256, version % 256);
}

int main(void)
{
    show(MQ_VERSION);
    show(mq_version());
    return mq_test(NULL, 0, 8, NULL, 0) == MQ_REFUSED_SHORT_HEADER * 65536 ? 0 : 1;
}
C
cp "$work/caller.c" "$work/caller.cpp"
# pkg-config's words are options, to be split.
# shellcheck disable=SC2046
gcc -std=c99 -Wall -Wextra -pedantic -Werror $(pkg-config --cflags solfadrus) "$work/caller.c" \
    $(pkg-config --libs solfadrus) -o "$work/c"
# shellcheck disable=SC2046
g++ -std=c++11 -Wall -Wextra -pedantic -Werror $(pkg-config --cflags solfadrus) "$work/caller.cpp" \
    $(pkg-config --libs solfadrus) -o "$work/cpp"
version=$(pkg-config --modversion solfadrus)
for program in c cpp; do
    "$work/$program" >"$work/versions" || fail "the caller's call is not answered 1"
    printf '%s\n' "$version" "$version" | diff - "$work/versions" || fail "versions of .pc file, header and library"
done
echo "callers in C and C++: version $version from the .pc file, the header and the library"

# shellcheck disable=SC2046
gcc -std=c99 -O2 -Wall -Wextra -pedantic -Werror $(pkg-config --cflags solfadrus) examples/demo.c \
    $(pkg-config --libs solfadrus) -o "$work/demo"
"$work/demo" >"$work/said" || fail "$(cat "$work/said")"
echo "the example: $(tail -n 1 "$work/said")"

# wrapper DIRECTORY: the wrapper's tests, by the pkg-config file of that directory.
wrapper() {
    env -u SOLFADRUS_LIB_DIR PKG_CONFIG_PATH="$1" cargo test --quiet --release --offline -j1 \
        --manifest-path bindings/rust/Cargo.toml --target-dir target/bindings-installed --lib -- --test-threads=1
}
echo "the Rust wrapper, by pkg-config"
wrapper "$prefix/lib/pkgconfig"
mkdir "$work/other"
sed 's/^Version: .*/Version: 65535.0.0/' "$prefix/lib/pkgconfig/solfadrus.pc" >"$work/other/solfadrus.pc"
if wrapper "$work/other" >"$work/log" 2>&1 || ! grep -q "pkg-config has no solfadrus = " "$work/log"; then
    fail "the wrapper takes a library of another version"
fi

for section in 1:mqcheck 3:solfadrus; do
    LC_ALL=C.UTF-8 MANPATH=$prefix/share/man man --warnings "${section%%:*}" "${section#*:}" \
        >"$work/text" 2>"$work/warnings"
    [ -s "$work/text" ] || fail "${section#*:} is not rendered"
    [ ! -s "$work/warnings" ] || fail "$(cat "$work/warnings")"
done
echo "manual pages: found and rendered, without a warning"

made uninstall PREFIX="$prefix" >/dev/null
[ -z "$(files "$prefix")" ] || fail "left after uninstall: $(files "$prefix")"

# Staged below DESTDIR, and without a check program: the paths in the .pc file are those of PREFIX.
made install PREFIX=/opt/solfadrus DESTDIR="$work/stage" MQCHECK="$work/none" >/dev/null
grep -qx 'prefix=/opt/solfadrus' "$work/stage/opt/solfadrus/lib/pkgconfig/solfadrus.pc"
[ ! -e "$work/stage/opt/solfadrus/bin/mqcheck" ] || fail "mqcheck is installed, and was not built"
made uninstall PREFIX=/opt/solfadrus DESTDIR="$work/stage" >/dev/null
[ -z "$(files "$work/stage")" ] || fail "left after uninstall: $(files "$work/stage")"
echo "uninstalled: nothing is left"

for prefix in relative '/with space' '/with|bar'; do
    if made install PREFIX="$prefix" DESTDIR="$work/refused" >/dev/null 2>&1; then
        fail "the PREFIX $prefix is taken"
    fi
done
[ ! -e "$work/refused" ] || fail "a refused PREFIX leaves files"
