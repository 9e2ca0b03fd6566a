# shellcheck shell=sh
# Read by the other scripts: what they need, where the library is, what rt says as it goes, and what runs beside them.

# need PROGRAM PACKAGE ...: names each program that is missing, with its Debian package. Only then are the packages
# installed, where that can be done here.
need() {
    packages=
    while [ $# -ge 2 ]; do
        command -v "$1" >/dev/null 2>&1 || {
            echo "needs: $1 (Debian package $2)" >&2
            packages="$packages $2"
        }
        shift 2
    done
    [ -n "$packages" ] || return 0
    if [ "$(id -u)" != 0 ] || ! command -v apt-get >/dev/null 2>&1; then
        echo "to be installed first: apt-get install$packages" >&2
        exit 1
    fi
    echo "installing:$packages" >&2
    # The packages are words.
    # shellcheck disable=SC2086
    { apt-get update -qq && apt-get install -y -qq $packages; } >/dev/null
}

# clang, and libFuzzer: which is no program, so that it is asked for by its file.
need_fuzzer() {
    need clang clang
    ls "$(clang -print-runtime-dir)"/libclang_rt.fuzzer*.a >/dev/null 2>&1 ||
        need libFuzzer "libclang-rt-$(clang -dumpversion | cut -d. -f1)-dev"
}

# What is not installed here: no Debian package has it, or has it new enough.
need_kit() {
    command -v rt >/dev/null 2>&1 || {
        echo "needs: rt (the Rattle kit, which proves and compiles the crates)" >&2
        exit 1
    }
}
need_cargo() {
    command -v cargo >/dev/null 2>&1 || {
        echo "needs: cargo, 1.78 or later (from rustup, or the Debian package cargo of a release that has it)" >&2
        exit 1
    }
}

# All that the tests need beside the kit: named, and installed, at once.
need_all() {
    need gcc gcc g++ g++ clang clang nm binutils make make valgrind valgrind pkg-config pkg-config \
        groff groff-base man man-db
    need_fuzzer
    need_cargo
}

# progress CRATES LOG: reads what rt writes, keeps it in LOG, and shows rt's own lines: each crate as it is proved, and
# each edit as it is told of, with how many there are. A loop of sh, since awk may hold lines back.
progress() {
    proved=0
    told=0
    edits=$(find crates/*/must-fail -name '*.edit' | wc -l)
    : >"$2"
    while IFS= read -r line; do
        printf '%s\n' "$line" >>"$2"
        said=${line#rt: }
        name=${said%% *}
        case $line in
        'rt: must-fail '*)
            told=$((told + 1))
            printf '[%3d/%d] %s\n' "$told" "$edits" "$said"
            ;;
        "rt: $name proved" | "rt: $name is kept: "*)
            proved=$((proved + 1))
            printf '[%3d/%d] %s\n' "$proved" "$1" "$said"
            ;;
        'rt: '*) printf '          %s\n' "$said" ;;
        esac
    done
}

# with_progress TOTAL LOG COMMAND...: its status is the command's.
with_progress() {
    total=$1
    said_to=$2
    shift 2
    { "$@" 2>&1 && echo 0 >"$said_to.status" || echo $? >"$said_to.status"; } | progress "$total" "$said_to"
    return "$(cat "$said_to.status")"
}

# passed LOG: whether what `rt ci` wrote is a pass. An edit that could not be tried fails nothing there, and fails here.
passed() {
    case $(tail -n 1 "$1") in
    *' passed, 0 failed') ;;
    *)
        echo "rt ci: $(tail -n 1 "$1")"
        return 1
        ;;
    esac
    if ! grep -q '^rt: ok' "$1"; then
        echo "rt ci: no line 'rt: ok'"
        return 1
    fi
    if grep '^rt: ok' "$1" | grep -qE ', [0-9]+ bad'; then
        grep 'BAD EDIT' "$1" || true
        echo "rt ci: edits that could not be tried"
        return 1
    fi
}

# below CRATE: the crates that it stands on, as crates.txt has them.
below() {
    sed -nE "s/^$1( [^:]*)?: *//p" crates.txt
}

# with_crates TO CRATE...: copies the crates, without what rt made of them, into the folder TO/crates.
with_crates() {
    copy=$1
    shift
    for crate; do
        mkdir -p "$copy/crates/$crate"
        for part in "crates/$crate"/*; do
            [ "$part" = "crates/$crate/out" ] || cp -r "$part" "$copy/crates/$crate"
        done
    done
}

# What an archive is made from: the kit, its line of crates.txt, and the crate with those that it stands on.
sources() {
    rt version
    grep -E "^$1( [^:]*)?:" crates.txt
    for crate in "$1" $(below "$1"); do
        find "crates/$crate/"* -type f ! -path "crates/$crate/must-fail/*" ! -path "crates/$crate/out/*"
    done | LC_ALL=C sort | xargs sha256sum
}

# The sum of the sources, and that of the archive which was built from them.
built_from() {
    echo "$(sources "$1" | sha256sum) $(sha256sum <"crates/$1/out/lib$1.a")"
}

# archive CRATE: the directory that has its archive, which rt proves and builds. It is built anew where a source has
# changed since.
archive() {
    need_kit
    mkdir -p target
    if [ ! -f "crates/$1/out/lib$1.a" ] || [ "$(cat "target/$1.from" 2>/dev/null)" != "$(built_from "$1")" ]; then
        crates=$(($(below "$1" | wc -w) + 1))
        echo "The archive of $1 is proved and built: $crates crates. An unchanged crate is not proved again." >&2
        rm -f "target/$1.from" "crates/$1/out/lib$1.a"
        # shellcheck disable=SC2016 # the inner shell reads $1
        with_progress "$crates" "target/$1.log" sh -c 'cd "crates/$1" && exec rt lib' sh "$1" >&2 || {
            tail -n 60 "target/$1.log" >&2
            return 1
        }
        built_from "$1" >"target/$1.from"
    fi
    echo "$PWD/crates/$1/out"
}

# The directory that has libsolfadrus.a: that of SOLFADRUS_LIB_DIR, or else the one that rt proves and builds.
library() {
    if [ -n "${SOLFADRUS_LIB_DIR:-}" ]; then
        (cd "$SOLFADRUS_LIB_DIR" && pwd)
        return
    fi
    archive solfadrus
}

# program CRATE: the program, which rt proves and builds where a source has changed since. It runs it once, on the
# input of the crate, and what it writes must be the output of the crate.
program() {
    need_kit
    mkdir -p target
    if ! (cd "crates/$1" && exec rt run <stdin) >"target/$1.out" 2>"target/$1.log" ||
        ! cmp "target/$1.out" "crates/$1/stdout" >&2; then
        tail -n 60 "target/$1.log" >&2
        return 1
    fi
    echo "$PWD/crates/$1/out/$1"
}

# aside LOG COMMAND...: runs it in the background, in a process group of its own, whose number is then in `group`.
# The script that calls this has `trap end_aside EXIT`: whatever fails, nothing of the group is left.
group=
aside() {
    log_aside=$1
    shift
    setsid "$@" >"$log_aside" 2>&1 &
    group=$!
}

# Answers with the status of what runs aside.
wait_aside() {
    status_aside=0
    wait "$group" || status_aside=$?
    end_aside
    return "$status_aside"
}

# Ends what runs aside, with all that it has started. What that runs aside in turn is of another group, and ended by its
# own trap: so it is asked to end, and killed if it has not within five seconds.
end_aside() {
    [ -n "$group" ] || return 0
    if kill -s TERM -- "-$group" 2>/dev/null; then
        (sleep 5 && kill -s KILL -- "-$group") >/dev/null 2>&1 &
        killer=$!
        wait "$group" 2>/dev/null || true
        { kill "$killer" && wait "$killer"; } 2>/dev/null || true
        kill -s KILL -- "-$group" 2>/dev/null || true
    fi
    group=
}
