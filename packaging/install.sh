#!/bin/sh
# install.sh install|uninstall: puts library, header, pkg-config file, manual pages and check program below
# $DESTDIR$PREFIX, or takes them away. `make install` and `make uninstall` call it.
#
# The archive is that of SOLFADRUS_LIB_DIR, or else the one that rt proves and builds. The check program is that of
# MQCHECK, or else the one that rt has built; where there is none, it is left out.
set -eu
cd "$(dirname "$0")/.."
. tests/need.sh
PREFIX=${PREFIX:-/usr/local}
case $PREFIX in
/*) ;;
*)
    echo "PREFIX must be an absolute path" >&2
    exit 2
    ;;
esac
case $PREFIX in
*[!A-Za-z0-9/._+-]*)
    # Other characters would have to be escaped in the pkg-config file.
    echo "PREFIX may have letters, digits and /._+- only" >&2
    exit 2
    ;;
esac
root=${DESTDIR:-}$PREFIX

# The header's version, so that it is not written again for the pkg-config file.
version() {
    awk '$1 == "#define" && $2 ~ /^MQ_VERSION_(MAJOR|MINOR|PATCH)$/ { part[$2] = $3 }
         END { print part["MQ_VERSION_MAJOR"] "." part["MQ_VERSION_MINOR"] "." part["MQ_VERSION_PATCH"] }' \
        include/solfadrus.h
}

put() {
    mkdir -p "$root/$(dirname "$3")"
    install -m "$1" "$2" "$root/$3"
    echo "$root/$3"
}

install_all() {
    lib=$(library)
    made=$(mktemp)
    trap 'rm -f "$made"' EXIT
    sed -e "s|@PREFIX@|$PREFIX|" -e "s|@VERSION@|$(version)|" packaging/solfadrus.pc.in >"$made"
    put 644 "$lib/libsolfadrus.a" lib/libsolfadrus.a
    put 644 include/solfadrus.h include/solfadrus.h
    put 644 include/solfadrus_util.h include/solfadrus_util.h
    put 644 "$made" lib/pkgconfig/solfadrus.pc
    put 644 docs/man/solfadrus.3 share/man/man3/solfadrus.3
    put 644 docs/man/mqcheck.1 share/man/man1/mqcheck.1
    program=${MQCHECK:-crates/mqcheck/out/mqcheck}
    if [ -x "$program" ]; then
        put 755 "$program" bin/mqcheck
    else
        echo "mqcheck is left out: it has not been built (rt run in crates/mqcheck)"
    fi
}

# Directories stay: others may use them.
uninstall_all() {
    for file in lib/libsolfadrus.a include/solfadrus.h include/solfadrus_util.h lib/pkgconfig/solfadrus.pc \
        share/man/man3/solfadrus.3 share/man/man1/mqcheck.1 bin/mqcheck; do
        rm -f "$root/$file"
    done
}

case ${1-} in
install) install_all ;;
uninstall) uninstall_all ;;
*)
    echo "usage: install.sh install|uninstall" >&2
    exit 2
    ;;
esac
