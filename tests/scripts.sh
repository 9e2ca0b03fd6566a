#!/bin/sh
# What the scripts share (need.sh): a script that fails leaves nothing running; a missing program is named with its
# package before anything is installed; rt's progress is shown as it goes, and its status is kept; a run of rt ci in
# which an edit could not be tried is no pass; an archive is built again where a source has changed, and else is not; a
# program is taken where it writes what its crate says.
set -eu
cd "$(dirname "$0")/.."
work=$(mktemp -d)
trap 'rm -rf "$work"' EXIT

fail() {
    echo "$1" >&2
    exit 1
}

# What runs aside starts another process, says its number, and waits.
cat >"$work/aside" <<'SH'
sleep 600 &
echo "$!" >"$1/child"
echo "$$" >"$1/parent"
mv "$1/parent" "$1/started"
wait
SH

# ended WAY: the script, which ends in this way, has status 1, and both processes are gone.
ended() {
    rm -f "$work/started"
    status=0
    sh -c '
        set -eu
        . tests/need.sh
        trap '"'$1'"' EXIT
        trap "exit 1" HUP INT TERM
        aside "$1/log" sh "$1/aside" "$1"
        until [ -e "$1/started" ]; do sleep 0.1; done
        '"$2" sh "$work" || status=$?
    [ "$status" = 1 ] || fail "status $status in place of 1: $2"
    # A process that was killed is gone as soon as the system has seen to it.
    for _ in 1 2 3 4 5 6 7 8 9 10; do
        left=
        for number in $(cat "$work/child" "$work/started"); do
            # What is dead, and only waits to be looked at, is no process left.
            case $(sed 's/.*) //; s/ .*//' "/proc/$number/stat" 2>/dev/null) in
            '' | Z) ;;
            *) left="$left $number" ;;
            esac
        done
        [ -n "$left" ] || return 0
        sleep 0.2
    done
    return 1
}

for way in false 'kill -TERM $$' 'exit 1'; do
    ended end_aside "$way" || fail "left running after '$way':$left"
done
# The control: without the trap they are left, and this test sees them.
! ended : false || fail "two processes that were left running are not seen"
# They are this script's own, by their numbers.
# shellcheck disable=SC2086
kill -KILL $left
echo "after a failure and after a signal nothing is left running"

# as USER PROGRAMS: needs programs that are not there, as a user of that number. There is an apt-get, which says what it
# is given, where APT is set.
mkdir "$work/bin" "$work/apt"
printf '#!/bin/sh\necho %s\n' "\$USER_NUMBER" >"$work/bin/id"
printf '#!/bin/sh\necho "apt-get $*" >>"%s"\n' "$work/said" >"$work/apt/apt-get"
chmod +x "$work/bin/id" "$work/apt/apt-get"
as() {
    : >"$work/said"
    (
        . tests/need.sh
        export USER_NUMBER="$1" PATH="$work/bin:$2"
        need sh dash no-such-one package-one no-such-two package-two
    ) 2>>"$work/said"
}
named='needs: no-such-one (Debian package package-one)
needs: no-such-two (Debian package package-two)'
if as 1000 "$work/apt:$PATH"; then fail "a user who is not root goes on without the programs"; fi
[ "$(cat "$work/said")" = "$named
to be installed first: apt-get install package-one package-two" ] || fail "not root: $(cat "$work/said")"
as 0 "$work/apt:$PATH"
[ "$(cat "$work/said")" = "$named
installing: package-one package-two
apt-get update -qq
apt-get install -y -qq package-one package-two" ] || fail "root: $(cat "$work/said")"
echo "a missing program is named with its package, and then installed or asked for"

# What rt says, in a made-up run that ends with a status.
cat >"$work/rt" <<'SH'
echo "library algebra: modules loaded=20 checked=0"
echo "rt: rt check --fix-imports removes those imports, and so does rt tidy once the crate is proved"
echo "rt: algebra proved"
echo "rt: algebra: its tests are proved"
echo "rt: field is kept: an earlier run on this machine proved the same files over the same libraries" >&2
echo "rt: format NOT PROVED"
echo "rt: must-fail field/size.edit: refused, as it must be: note: src/lib.rt:44:5: it is not proved"
echo "2 passed, 0 failed"
exit "$1"
SH
edits=$(find crates/*/must-fail -name '*.edit' | wc -l)
for status in 0 3; do
    told=0
    (. tests/need.sh && with_progress 30 "$work/log" sh "$work/rt" $status) >"$work/shown" || told=$?
    [ $told = $status ] || fail "status $told of rt in place of $status"
    printf '%s\n' "          rt check --fix-imports removes those imports, and so does rt tidy once the crate is proved" \
        "[  1/30] algebra proved" \
        "          algebra: its tests are proved" \
        "[  2/30] field is kept: an earlier run on this machine proved the same files over the same libraries" \
        "          format NOT PROVED" \
        "[  1/$edits] must-fail field/size.edit: refused, as it must be: note: src/lib.rt:44:5: it is not proved" |
        diff - "$work/shown" || fail "the progress is not shown as it should be"
    [ "$(tail -n 1 "$work/log")" = "2 passed, 0 failed" ] || fail "what rt says is not kept"
done
echo "what rt proves is shown as it goes"

# judged STATUS TEXT: whether what rt ci wrote, with this for its line 'rt: ok' and its last line, is a pass.
judged() {
    printf 'rt: must-fail field/size.edit: BAD EDIT: it changes nothing\n%s\n' "$2" >"$work/log"
    told=0
    (. tests/need.sh && passed "$work/log") >"$work/shown" || told=$?
    [ $told = "$1" ] || fail "status $told of passed in place of $1: $2"
}
ok='rt: ok; handles allowed: none; must-fail edits: 3 refused'
rest='done in this run: 2 of the 2 proofs (of crates and of their tests) and 3 of the 3 must-fail edits'
judged 0 "$ok; $rest
5 passed, 0 failed"
judged 0 "$ok, 1 of them only by a limit; $rest
5 passed, 0 failed"
judged 1 "$ok, 1 bad; $rest
5 passed, 0 failed"
grep -q 'field/size.edit: BAD EDIT' "$work/shown" || fail "an edit that is bad is not named"
judged 1 "$ok, 1 of them only by a limit, 12 bad; $rest
5 passed, 0 failed"
judged 1 "rt: FAILED: field
5 passed, 1 failed"
judged 1 "$ok; $rest
5 passed, 10 failed"
judged 1 "$ok; $rest"
judged 1 "5 passed, 0 failed"
judged 1 "$ok; $rest
5 passed, 0 failed (field and the crates below alone: not the gate)"
echo "a run of rt ci passes where nothing failed and every edit was tried"

# An archive, with an rt that writes another each time, in a copy of what it is made from.
mkdir -p "$work/copy/tests" "$work/rt-bin"
cp tests/need.sh "$work/copy/tests"
cp crates.txt "$work/copy"
cat >"$work/rt-bin/rt" <<'SH'
[ "$1" = lib ] || { echo kit; exit; }
mkdir -p out
echo "built $$" >"out/lib$(basename "$PWD").a"
SH
chmod +x "$work/rt-bin/rt"
# The crates that the two stand on are those of the library.
# shellcheck disable=SC2046 # crates are words
(. tests/need.sh && with_crates "$work/copy" solfadrus leaf_sums $(below solfadrus))
[ -z "$(find "$work/copy/crates" -name out)" ] || fail "what rt made is copied"
# archive_of CRATE: which one its archive is.
archive_of() {
    (
        cd "$work/copy"
        . tests/need.sh
        PATH="$work/rt-bin:$PATH"
        unset SOLFADRUS_LIB_DIR
        case $1 in
        solfadrus) cat "$(library 2>/dev/null)/libsolfadrus.a" ;;
        *) cat "$(archive "$1" 2>/dev/null)/lib$1.a" ;;
        esac
    )
}
for crate in solfadrus leaf_sums; do
    first=$(archive_of $crate)
    [ -n "$first" ] || fail "no archive of $crate"
    [ "$(archive_of $crate)" = "$first" ] || fail "an unchanged archive of $crate is built again"
    echo >>"$work/copy/crates/field/src/lib.rt"
    second=$(archive_of $crate)
    [ "$second" != "$first" ] || fail "a changed source of $crate is not seen"
    [ "$(archive_of $crate)" = "$second" ] || fail "the changed archive of $crate is built twice"
    # What rt makes beside it is no source.
    echo more >"$work/copy/crates/$crate/out/more"
    [ "$(archive_of $crate)" = "$second" ] || fail "what rt makes is taken for a source of $crate"
    echo other >"$work/copy/crates/$crate/out/lib$crate.a"
    case $(archive_of $crate) in other) fail "an archive of $crate of other hands is taken" ;; esac
done
echo "an archive is built where a source has changed, and only there"

# A program that writes what its crate says, and one that does not, or ends with another status.
cat >"$work/rt-bin/rt" <<'SH'
[ "$1" = run ] && cat && exit "$ENDS"
SH
mkdir -p "$work/copy/crates/echoing"
echo said >"$work/copy/crates/echoing/stdin"
# runs STATUS OUTPUT: whether the program is taken that ends so, where this is wanted of it.
runs() {
    echo "$2" >"$work/copy/crates/echoing/stdout"
    (
        cd "$work/copy"
        . tests/need.sh
        export PATH="$work/rt-bin:$PATH" ENDS="$1"
        program echoing >/dev/null 2>&1
    )
}
runs 0 said || fail "a program that writes what it should is refused"
! runs 0 another || fail "a program that writes something else is taken"
! runs 1 said || fail "a program that fails is taken"
echo "a program is taken that writes what its crate says"
