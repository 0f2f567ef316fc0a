# shellcheck shell=sh
# Makes the archive that C programs link, target/staticlib/libheap.a, where it is missing or older than the crates: by hand `sh tests/libheap.sh`. Read by the
# test scripts, at the repository's root: `. tests/libheap.sh`.
#   libheap_ready NAME [ARCHIVE]    sets libheap to ARCHIVE, or to the project's own, which it makes; NAME is the script's, for messages

libheap=target/staticlib/libheap.a

# newer_than FILE: a source of the crates that is newer
newer_than() {
    find crates.txt crates/*/src crates/*/specs crates/*/proofs -newer "$1" 2>/dev/null | head -n 1
}

# What `rt lib` does of the crate heap_c, over the libraries that `rt ci` has just proved and left in out/: `rt lib` would prove each of them once more. Fails
# where they are not those of the sources as they are now, or other commands of rt have put their own beside them (those write a stamp).
libheap_over_rt_ci() {
    [ -f target/rt-ci.passed ] && [ -z "$(newer_than target/rt-ci.passed)" ] || return 1
    for libheap_part in crates/*/out/rlib/stamp; do
        [ ! -e "$libheap_part" ] || return 1
    done
    libheap_kit=$(dirname "$(rt doc | tail -n 1)")
    set -- --extern "std=$libheap_kit/rlibs/std.rlib" -L "dependency=$libheap_kit/rlibs"
    for libheap_part in $(sed -n 's/^heap_c staticlib: *//p' crates.txt); do
        set -- "$@" --extern "$libheap_part=../$libheap_part/out/rlib/$libheap_part.rlib"
    done
    for libheap_part in crates/*/out/rlib; do
        set -- "$@" -L "dependency=../../$libheap_part"
    done
    (cd crates/heap_c && mkdir -p out && "$libheap_kit/bin/rattle" build --crate-name heap_c src/lib.rt --crate-type staticlib "$@" --links heap_c= \
        --antt-project "$libheap_kit/rattle/logic/antt-project.json" --logic-built "$libheap_kit/logic_built" --toolchain "$libheap_kit/toolchain" \
        -o out/libheap_c.a)
}

libheap_ready() {
    if [ $# -gt 1 ]; then
        libheap=$2
        if [ ! -f "$libheap" ]; then
            echo "$1: no archive '$libheap'; name one that is there, or none to have the project's own made" >&2
            return 1
        fi
        return 0
    fi
    if [ -f "$libheap" ] && [ -z "$(newer_than "$libheap")" ]; then
        return 0
    fi
    mkdir -p target/staticlib
    # the archive is as old as the sources that it was made from
    : >target/libheap.began
    if ! { libheap_over_rt_ci || (cd crates/heap_c && rt lib); } >target/libheap.out 2>&1 || ! cp crates/heap_c/out/libheap_c.a "$libheap.new"; then
        tail -n 20 target/libheap.out
        echo "$1: 'rt lib' in crates/heap_c made no archive; its last lines stand above, all of them in target/libheap.out" >&2
        return 1
    fi
    touch -r target/libheap.began "$libheap.new"
    mv "$libheap.new" "$libheap"
}

case $0 in
*libheap.sh)
    cd "$(dirname "$0")/.." || exit 2
    libheap_ready tests/libheap.sh && echo "$libheap"
    ;;
esac
