# shellcheck shell=sh
# What the launchers share: a program is proved and built where it is missing or older than its sources, and run. Read by each: `. "$root/launch.sh"`, with
# root, the repository's folder, and name, the program's, set.
#   say TEXT                      a message on standard error
#   built_program                 proves and builds the program where needed; ends the launcher where that fails
#   run_program WORDS..           runs it, with the C library and the emulator that it needs
# and for those that read an image, or write one with -o FILE:
#   image_to_read                 ends the launcher where standard input is a keyboard
#   image_to_write TEXT WORDS..   ends it where WORDS are neither none nor -o and a FILE to write; TEXT says what comes on standard input
#   run_writing WORDS..           runs the program, and says so where the image was not written; its status is the launcher's

program=$root/crates/$name/out/$name
built=$root/target/$name.built

say() { echo "$name: $1" >&2; }

# The crates of crates.txt that the program stands on, in the order in which rt takes them, the program's own last.
crates_below() {
    awk -F: -v top="$name" '
        function visit(name, names, n, i) {
            if (!(name in below) || name in met)
                return
            met[name] = 1
            n = split(below[name], names, " ")
            for (i = 1; i <= n; i++)
                visit(names[i])
            print name
        }
        { sub(/#.*/, "") }
        NF > 1 { sub(/ .*/, "", $1); below[$1] = $2 }
        END { visit(top) }' "$root/crates.txt"
}

# Hands on what 'rt run' prints, and says how far it is: in one line that is overwritten on a terminal, in a line for each crate otherwise. A crate's last two
# lines have its name and what is proved of it; of one that was built before, rt prints none.
progress() {
    crates=$(crates_below)
    in_all=$(echo "$crates" | grep -c .)
    crate=
    proved=
    while IFS= read -r line; do
        printf '%s\n' "$line"
        case $line in
        'crate '*': modules '*)
            crate=${line#crate }
            crate=${crate%%:*}
            ;;
        'logic=proved '*)
            proved=$(echo "$crates" | grep -nFx "$crate" | cut -d : -f 1)
            if [ -t 2 ]; then
                printf '\r%s: %s of %s crates proved' "$name" "$proved" "$in_all" >&2
            else
                say "$proved of $in_all crates proved"
            fi
            ;;
        esac
    done
    if [ -t 2 ] && [ -n "$proved" ]; then
        echo >&2
    fi
}

# Whether the program is there, and nothing that it is made from is newer than when it was last built: by 'rt run' below, or by the gate's 'rt ci'.
is_built() {
    [ -x "$program" ] || return 1
    for when in "$built" "$root/target/rt-ci.passed"; do
        if [ -f "$when" ] \
            && [ -z "$(find "$root/crates.txt" "$root"/crates/*/src "$root"/crates/*/specs "$root"/crates/*/proofs -newer "$when" 2>/dev/null | head -n 1)" ]; then
            return 0
        fi
    done
    return 1
}

built_program() {
    if is_built; then
        return
    fi
    if ! command -v rt >/dev/null 2>&1; then
        say "no 'rt' on the PATH; install the Rattle toolchain and put its bin/ folder on the PATH"
        exit 2
    fi
    say "proving and building the program by 'rt run' in crates/$name; the first time takes many minutes"
    # `built` is as old as the sources that the program was last built from.
    if ! mkdir -p "$root/target" || ! : >"$built.new"; then
        say "cannot write in $root/target; make the repository writable"
        exit 2
    fi
    # rt also runs the program, which ends with status 0 on no input. A pipe has the status of its last command alone: that of rt goes through a file.
    { (cd "$root/crates/$name" && rt run) </dev/null 2>&1; echo $? >"$built.status"; } | progress >"$root/target/$name.out"
    if [ "$(cat "$built.status")" != 0 ] || [ ! -x "$program" ]; then
        tail -n 20 "$root/target/$name.out" >&2
        say "'rt run' failed in crates/$name; its last lines stand above, all of them in target/$name.out"
        exit 1
    fi
    mv "$built.new" "$built"
    rm -f "$built.status"
}

run_program() {
    if [ "$(uname -m)" = x86_64 ]; then
        "$program" "$@"
        return
    fi
    # The program is for x86-64. The toolchain has an emulator, and the C library to go with it.
    tools=$(dirname "$(rt doc | tail -n 1)")/on/$(uname -m)/toolchain
    if [ ! -x "$tools/bin/qemu-x86_64" ]; then
        say "no emulator for x86-64 programs in $tools/bin; install the Rattle toolchain for this machine ($(uname -m))"
        exit 2
    fi
    "$tools/bin/qemu-x86_64" "$tools/lib/ld-linux-x86-64.so.2" --library-path "$tools/lib" "$program" "$@"
}

image_to_read() {
    if [ -t 0 ]; then
        say "an image is no text to type; give it on standard input: ./$name < FILE"
        exit 2
    fi
}

image_to_write() {
    input=$1
    shift
    if [ $# -eq 2 ] && [ "$1" = -o ] && [ -n "$2" ]; then
        if [ -e "$2" ] && [ ! -f "$2" ]; then
            say "$2 is no file that an image could take the place of; name another"
            exit 2
        fi
    elif [ $# -ne 0 ]; then
        say "the one option is a file for the image, -o FILE; $input"
        exit 2
    fi
}

run_writing() {
    if [ $# -eq 0 ]; then
        run_program
        return
    fi
    # The program says on standard error what kept it from writing the file, and nothing else.
    errors=$(mktemp) || exit 2
    trap 'rm -f "$errors"' EXIT
    run_program "$@" 2>"$errors"
    status=$?
    if [ -s "$errors" ]; then
        sed "s/^/$name: /" "$errors" >&2
        say "the image was not written"
        return 1
    fi
    return "$status"
}
