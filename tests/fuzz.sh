#!/bin/sh
# Fuzzes the six calls of the built library, each against the Rust rendering (tests/fuzz). The library is that of
# SOLFADRUS_LIB_DIR, or else the one that rt proves and builds.
#
#   fuzz.sh            the gate's run: from the seeds alone, so many cases for each call
#   fuzz.sh SECONDS    other cases, so many seconds for each call; what was learnt is kept for the next such run
#
# First faults are planted in the library's place, and each must be found. What differs is left in target/fuzz, as a
# file crash-...: the target of that call, given its name, does it again.
set -eu
cd "$(dirname "$0")/.."
. tests/need.sh
need_fuzzer
lib=$(library)
seconds=${1:-}
work=target/fuzz
calls="test commit hash batch prove verify"
mkdir -p "$work"

# The rendering with libFuzzer's counters in it.
RUSTFLAGS="-Cpasses=sancov-module -Cllvm-args=-sanitizer-coverage-level=3 \
-Cllvm-args=-sanitizer-coverage-inline-8bit-counters -Cllvm-args=-sanitizer-coverage-pc-table \
-Cllvm-args=-sanitizer-coverage-trace-compares" \
    cargo build --quiet --release --offline -j1 --manifest-path tests/fuzz/Cargo.toml --target-dir "$work/cargo"
# case.h has functions that not every file uses.
compile="clang -std=c11 -O1 -g -Wall -Wextra -Werror -Wno-unused-function -Iinclude -Itests
    -fsanitize=fuzzer,address,undefined -fno-sanitize-recover=undefined"
for part in target edits lend; do
    $compile -c tests/fuzz/$part.c -o "$work/$part.o"
done
for call in $calls; do
    $compile "tests/fuzz/$call.c" "$work/target.o" "$work/edits.o" "$work/lend.o" "$lib/libsolfadrus.a" \
        "$work/cargo/release/librendering.a" -lpthread -ldl -lm -o "$work/$call"
done

# byte NUMBER...: writes these bytes.
byte() {
    for number; do
        # shellcheck disable=SC2059 # the byte is the format
        printf "\\$(printf %03o "$number")"
    done
}

# A file for each seed. The fuzzer puts what it finds into the first directory that it is given, so that is another.
seeds=$work/seeds
started=$work/cases
rm -rf "$seeds" "$started" "$work/new"
mkdir "$seeds" "$started" "$work/new"
cargo build --quiet --release --offline -j1 --manifest-path tests/shapes/Cargo.toml --target-dir "$work/shapes"
# Those of alphabet 2, which alone the library serves until request 11.
shapes=$work/shapes.txt
"$work/shapes/release/shapes" | grep ' 2$' >"$shapes"
cases=$(wc -l <"$shapes")
# Those of degree 8 come first: this is the number of the first case of degree 4.
four=$(grep -c ' 8 2$' "$shapes")
if [ "$four" -lt 2 ] || [ "$cases" -lt $((four + 2)) ]; then
    echo "no shapes" >&2
    exit 1
fi
# The case of the small sizes with no equations, at each degree.
none=$(grep -n '^9 0 2 5 [84] 2$' "$shapes" | cut -d: -f1)
[ "$(echo "$none" | wc -w)" = 2 ] || { echo "no shapes with no equations" >&2 && exit 1; }
# seed NAME HEX...: a file of these bytes.
seed() {
    seed_file=$seeds/$1
    shift
    for hex; do
        byte "0x$hex"
    done >"$seed_file"
}
# Bytes are words.
# shellcheck disable=SC2086
grep -v '^#' tests/fuzz/seeds.txt | while read -r name bytes; do
    case $bytes in
    00*) seed "$name-at-4" "$(printf %02X "$four")" ${bytes#00} ;;
    m0*)
        for line in $none; do
            seed "$name-$line" "$(printf %02X $((line - 1)))" ${bytes#m0}
        done
        continue
        ;;
    esac
    seed "$name" $bytes
done
# One for each case as it is, by its number; and the last of each degree, of long leaves, opened at other challenges.
case=0
while [ $case -lt "$cases" ]; do
    byte $case >"$started/case-$case"
    case=$((case + 1))
done
for delta in $("$work/shapes/release/shapes" challenges 8); do
    byte $((four - 1)) 0x2F 0 0 "$delta" >"$started/opened-at-$delta"
done
for delta in $("$work/shapes/release/shapes" challenges 4); do
    byte $((cases - 1)) 0x2F 0 0 "$delta" >"$started/opened-at-$delta-of-16"
done

# fuzz CALL WORDS...: what it says goes into a file. Leaks are not looked for: only the rendering allocates.
fuzz() {
    target=$1
    shift
    ASAN_OPTIONS=detect_leaks=0 "$work/$target" -max_len=256 -timeout=20 -artifact_prefix="$work/" "$@" \
        >"$work/$target.log" 2>&1
}

# planted FAULT CALL PATTERN: the run must fail, and say so in these words. It starts from the edits alone, which are of
# the small case: the rendering takes its time for the others.
planted() {
    if (export FUZZ_PLANT="$1" && fuzz "$2" -seed=1 -runs=2000 -exact_artifact_path=/dev/null "$work/new" "$seeds") ||
        ! grep -q "$3" "$work/$2.log"; then
        echo "FAILED: a planted fault was not found: $1 in mq_$2"
        exit 1
    fi
    found=$((found + 1))
}

found=0
for call in $calls; do
    planted word "$call" 'DIFFERS: .* another word'
    planted degree "$call" 'DIFFERS: .* the rendering 16 place 0'
    planted read-after "$call" 'SEGV on unknown address'
    planted read-before "$call" 'SEGV on unknown address'
    planted write-input "$call" 'SEGV on unknown address'
done
for call in test commit batch prove; do
    planted place "$call" 'DIFFERS: .* another word'
    planted last-equation "$call" 'DIFFERS: .* answers 11 place .*, the rendering 11 place'
    planted second-equation "$call" 'DIFFERS: .* answers 11 place .*, the rendering 11 place'
done
for call in batch prove verify; do
    planted element "$call" 'DIFFERS: .* answers 0 place 0, the rendering 1[78] place 0'
done
for call in commit hash batch prove; do
    planted output "$call" 'DIFFERS: .* not the rendering'
    planted refused-output "$call" 'DIFFERS: .* a refused call wrote'
    planted beside-output "$call" 'DIFFERS: .* beside the output'
    planted after-output "$call" 'SEGV on unknown address'
done
echo "planted faults: $found, each found"

for call in $calls; do
    if [ -n "$seconds" ]; then
        mkdir -p "$work/corpus/$call"
        set -- -max_total_time="$seconds" "$work/corpus/$call" "$seeds" "$started"
    else
        rm -rf "$work/new" && mkdir "$work/new"
        set -- -seed=1 -runs=3000 "$work/new" "$seeds" "$started"
    fi
    if ! fuzz "$call" "$@"; then
        grep -E 'DIFFERS|FAILED|ERROR|SUMMARY|Test unit' "$work/$call.log" || tail -n 20 "$work/$call.log"
        echo "FAILED: mq_$call; see $work/$call.log"
        exit 1
    fi
    grep "^mq_$call: " "$work/$call.log"
done
echo "fuzz: no word and no byte differs from the rendering's, no fault"
