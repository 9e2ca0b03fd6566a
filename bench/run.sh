#!/bin/sh
# Benchmark: builds the library (or takes that of SOLFADRUS_LIB_DIR), the C programs by gcc and by clang, and the
# rendering; holds the C programs against the rendering; then times all in one run, and plots the verifier's times
# to target/bench/verify.svg; the ratios, with date and commit, go to target/bench/ratios.tsv. Nothing here passes or
# fails by a time.
#
#   run.sh [--keep] [REPETITIONS]   --keep adds the ratios to bench/history.tsv, where they are kept (those up to
#                                   981c830 are to an earlier and slower baseline.c)
#   BEFORE=ARCHIVE run.sh ..        another libsolfadrus.a, of the same interface, is timed beside this one, at the
#                                   sizes and degrees that it serves; with BEFORE_DEGREE=none one whose calls take no
#                                   degree; with BEFORE_MASKS=shared one of these from before each repetition had a
#                                   mask of its own, which is lent leaves of its own length
#   run.sh --once                   the gate's run: each program is built and makes each call once. The timing program
#                                   holds the bytes against the library's, and the comparison is left out
set -eu
cd "$(dirname "$0")/.."
. tests/need.sh
need gcc gcc clang clang
keep=no
once=no
case ${1-} in
--keep)
    keep=yes
    shift
    ;;
--once)
    once=yes
    set -- 1
    ;;
esac
lib=$(library)
work=target/bench
mkdir -p "$work"

# compiled COMPILER PROGRAM FOLDER FLAGS...: a program of this folder, compiled for each degree, and what hands on to
# them.
compiled() {
    compile="$1 -std=c11 -O3 -Wall -Wextra -Werror -Iinclude -Ibench"
    program=$2
    to=$3
    shift 3
    mkdir -p "$to"
    for degree in 8 4; do
        $compile "$@" "-DDEGREE=$degree" -c "bench/$program.c" -o "$to/at_$degree.o"
    done
    $compile "$@" -c bench/dispatch.c -o "$to/dispatch.o"
}

# The same under a prefix of its own; and as a whole libsolfadrus.a, for the comparison.
build() {
    compiled "$1" "$2" "$work/$2_$1_named" "-DPREFIX=$2_$1_"
    archive=$work/$2_$1
    compiled "$1" "$2" "$archive"
    $compile -c bench/archive.c -o "$archive/archive.o"
    rm -f "$archive/libsolfadrus.a"
    ar crs "$archive/libsolfadrus.a" "$archive"/*.o
}

for compiler in gcc clang; do
    for program in baseline plain; do
        build "$compiler" "$program"
        [ $once = no ] || continue
        echo "$program.c by $compiler, held against the rendering:"
        sh tests/compare.sh "$PWD/$work/${program}_$compiler" --seconds 0 | tail -n 1
    done
done

case ${BEFORE_DEGREE-},${BEFORE_MASKS-} in
,) interface= ;;
none,) interface=-DBEFORE_BARE ;;
none,shared | ,shared) interface='-DBEFORE_BARE -DBEFORE_SHARED' ;;
*)
    echo "BEFORE_DEGREE is not 'none', or BEFORE_MASKS is not 'shared'" >&2
    exit 2
    ;;
esac
# The other archive, its six calls under a prefix of their own and nothing else of it to be seen.
before=
if [ -n "${BEFORE-}" ]; then
    before=$work/before.o
    ld -r --whole-archive "$BEFORE" -o "$before"
    set_names=
    for call in test commit hash batch prove verify; do
        set_names="$set_names --redefine-sym mq_$call=before_$call --keep-global-symbol=before_$call"
    done
    # shellcheck disable=SC2086 # the names are words
    objcopy $set_names "$before"
fi

cargo build --quiet --release --offline -j1 --manifest-path bench/rendering/Cargo.toml --target-dir "$work/rendering"
# shellcheck disable=SC2086 # empty, or words
gcc -std=c11 -O2 -Wall -Wextra -Werror -Iinclude -Itests ${before:+-DBEFORE $before} $interface bench/bench.c \
    "$work"/*_named/*.o "$lib/libsolfadrus.a" "$work/rendering/release/librendering.a" -lpthread -ldl -lm \
    -o "$work/bench"
echo
gcc --version | head -n 1
clang --version | head -n 1
cargo --version
grep -m 1 'model name' /proc/cpuinfo || true
echo
stamp="$(date -u +%Y-%m-%d)	$(git describe --always --dirty 2>/dev/null || echo unknown)"
rm -f "$work/ratios.tsv" "$work/verify.svg"
"$work/bench" "$work/verify.svg" "$work/ratios.tsv" "$stamp" "$@"
# Five shapes with three calls each.
if [ "$(wc -l <"$work/ratios.tsv")" != 15 ] || [ ! -s "$work/verify.svg" ]; then
    echo "ratios or plot are missing" >&2
    exit 1
fi
if [ $keep = yes ]; then
    cat "$work/ratios.tsv" >>bench/history.tsv
    echo "ratios added to bench/history.tsv"
else
    echo "ratios in $work/ratios.tsv; with --keep (make bench KEEP=1) they are added to bench/history.tsv"
fi
