#!/bin/sh
# Tests that no branch and no address of the built library depends on leaves or witness, but for what the answers to 8,
# 9 and 11 tell. secrets.sh [DIRECTORY]: the library of that directory, else the one that rt builds. Tested, not proved.
#
#   1. Leaves marked undefined: memcheck must report nothing.
#   2. Leaves and witness marked: what memcheck reports must be branches on the answer to 11.
#      In 1 and 2 all that an accepted call writes must be undefined, in every repetition: else a call that is not made,
#      or leaves that are not marked, would pass.
#   3. Two sets of leaves and two witnesses of one key: the traces of all instructions and addresses must be the same.
#   4. Controls, branches and addresses on a secret: each test must report them.
#
# What is declassified, one by one:
#
#    8   The spare bits of the leaves, by leaving them unmarked. Memcheck follows single bits: a branch on a byte that
#        has others in it is still reported.
#    9   The spare bits of the witness, likewise. Its length is no secret.
#   11   Whether an equation fails, and which: the instructions that branch on it. They are not listed here, where a
#        list would age with the compiler, but found on the same program: y is public, and in these calls it enters
#        nothing but the errors of the equations (left side plus y_i), so that with y alone marked memcheck reports the
#        branches on the errors and nothing else. With leaves and witness marked no other instruction may be reported.
#        The calls are made with a witness that solves, and again with one at which the last equation fails.
#
# Shapes, in secrets.c, at both degrees: small ones, n a multiple of 8 and not; many variables with few equations, and
# the other way round; the usual sizes (n = m = 150, t = 144, tau = 19 at degree 8 and 43 at degree 4) and the largest
# (320, 320, 48, 288); some with no equations; at degree 8 the set of 224 variables. The traces, which are long, are of
# small shapes, and of four at which every kernel has more than one round, two of these at degree 4 too: secrets.c says
# how.
set -eu
cd "$(dirname "$0")/.."
. tests/need.sh
need gcc gcc
need valgrind valgrind
lib=${1:-$(library)}
work=target/secrets
mkdir -p "$work"
compile="gcc -std=c11 -O1 -Wall -Wextra -Werror -Iinclude -Itests tests/secrets.c $lib/libsolfadrus.a"
# Not to be moved when it is loaded: an instruction has the same address in every run.
$compile -no-pie -o "$work/secrets"
# For the traces linked statically: the dynamic loader's own is not the same from run to run.
$compile -static -o "$work/traced"

for case in 0 1; do
    "$work/secrets" make $case "$work/case$case"
    "$work/secrets" trace "$work/case$case" || { echo "case $case is not accepted"; exit 1; }
done

# sites NAME WORDS...: writes into the file NAME the instructions that memcheck reports, each once, by kind, address and
# function. (What memcheck says of their callers is not used: the archive has no tables to unwind by.)
sites() {
    name=$1
    shift
    valgrind --error-limit=no "$work/secrets" mark "$@" >"$work/$name.log" 2>&1 ||
        { cat "$work/$name.log"; echo "wrong answers with: $*"; exit 1; }
    awk '/Conditional jump or move depends/ { kind = "branch" }
         /Use of uninitialised value/ { kind = "address" }
         kind != "" && / at 0x/ { sub(/^.* at /, ""); print kind, $1, $2; kind = ""; read++ }
         /ERROR SUMMARY/ && $7 != read + 0 { print "other" }' "$work/$name.log" | sort -u >"$work/$name"
    ! grep -q '^other' "$work/$name" || { cat "$work/$name.log"; echo "errors of another kind with: $*"; exit 1; }
}

# The traced instructions and addresses: how many, and their sum. Valgrind's own lines begin with its process number.
# It writes each line by itself, which through a pipe would wake the reader as often. A trace, of some hundred
# megabytes, is not kept.
traced() {
    valgrind --tool=lackey --trace-mem=yes --log-file="$work/trace" "$work/traced" "$1" "$2" >/dev/null
    grep -v '^==' "$work/trace" >"$work/lines"
    echo "$(wc -l <"$work/lines") $(sha256sum <"$work/lines")"
    rm "$work/trace" "$work/lines"
}

# same_traces MODE LEAST: a trace has at least so many lines, or there was none.
same_traces() {
    a=$(traced "$1" "$work/case0")
    b=$(traced "$1" "$work/case1")
    [ "${a%% *}" -gt "$2" ] || { echo "no trace"; exit 1; }
    [ "$a" = "$b" ]
}

failed=0
say() {
    echo "$1: $2"
    [ "$2" = "$3" ] || failed=1
}

sites leaves leaves fails
say "leaves marked" "$(wc -l <"$work/leaves") reported" "0 reported"
cat "$work/leaves"

for call in test commit hash batch prove; do
    sites answer y fails $call
    sites secret leaves witness fails $call
    comm -23 "$work/secret" "$work/answer" >"$work/beyond"
    sed "s/^/mq_$call, declassified as the answer to 11: /" "$work/answer"
    # Where 11 is put it must be seen, or the marks do not reach the end.
    if [ $call = hash ]; then seen=no; else seen=yes; fi
    say "mq_$call, leaves and witness marked: the answer to 11 is seen" \
        "$([ -s "$work/secret" ] && echo yes || echo no)" $seen
    say "mq_$call, leaves and witness marked: reported beyond it" "$(wc -l <"$work/beyond")" 0
    cat "$work/beyond"
done

# The kernels' rounds alone are some millions.
if same_traces trace 5000000; then found=same; else found=different; fi
say "traces of two witnesses and two sets of leaves" $found same

# control WORDS...: how many instructions of the controls are reported beyond the answer to 11.
sites answer y fails
control() {
    sites control "$@"
    comm -23 "$work/control" "$work/answer" | grep -c leak_by || true
}
say "control: a branch on a leaf, reported" "$(control leaves branch)" 1
say "control: a branch on the witness, reported" "$(control leaves witness fails branch)" 1
say "control: an address by the witness, reported" "$(control leaves witness fails index)" 1
if same_traces trace-leak 100000; then found=same; else found=different; fi
say "control: an address by the witness, traces" $found different
exit $failed
