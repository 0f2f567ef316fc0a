# Builds and runs C programs for x86-64, where Rattle's archives belong. On x86-64 with the machine's own compiler; on Arm with the toolchain's clang,
# linker, C library and emulator, found through rt. Read by the test scripts: `. tests/x86.sh`.
#   x86_build OUTPUT FLAGS SOURCES-AND-ARCHIVES..    FLAGS is one word, possibly empty
#   x86_run PROGRAM ARGUMENTS..

x86_kit=$(dirname "$(rt doc | tail -n 1)")
x86_tools=$x86_kit/on/$(uname -m)/toolchain

if [ "$(uname -m)" = x86_64 ]; then
    x86_build() {
        x86_output=$1
        x86_flags=$2
        shift 2
        # the flags are several words
        # shellcheck disable=SC2086
        "${CC:-cc}" -std=c11 $x86_flags "$@" -o "$x86_output"
    }
    x86_run() { "$@"; }
else
    # The C library's headers of this machine serve: what the tests use of them is the same on both.
    x86_headers="-isystem $(gcc -print-file-name=include) -isystem /usr/include/$(gcc -print-multiarch) -isystem /usr/include"
    x86_build() {
        x86_output=$1
        x86_flags=$2
        shift 2
        x86_objects=
        for x86_source in "$@"; do
            case $x86_source in
            *.c)
                x86_object=$x86_output.$(basename "$x86_source" .c).o
                # shellcheck disable=SC2086
                "$x86_tools/bin/clang" --target=x86_64-linux-gnu -std=c11 -fPIE $x86_flags $x86_headers -c "$x86_source" -o "$x86_object" || return 1
                x86_objects="$x86_objects $x86_object"
                ;;
            *) x86_objects="$x86_objects $x86_source" ;;
            esac
        done
        # shellcheck disable=SC2086
        "$x86_tools/bin/ld.lld" -pie -dynamic-linker /lib64/ld-linux-x86-64.so.2 -o "$x86_output" \
            "$x86_tools/lib/Scrt1.o" "$x86_tools/lib/crti.o" "$x86_tools/lib/crtbeginS.o" $x86_objects \
            "$x86_tools/lib/libc.so.6" "$x86_tools/lib/libc_nonshared.a" "$x86_tools/lib/libgcc.a" "$x86_tools/lib/libgcc_s.so.1" \
            "$x86_tools/lib/crtendS.o" "$x86_tools/lib/crtn.o"
    }
    x86_run() { "$x86_tools/bin/qemu-x86_64" "$x86_tools/lib/ld-linux-x86-64.so.2" --library-path "$x86_tools/lib" "$@"; }
fi
