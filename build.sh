#!/bin/sh
# build.sh: builds the proved libraries, and over them the programs bench, assemble, disassemble and crank,
# which are then in target/cargo/release.
# build.sh LIBRARY...: builds these libraries alone, of capi, session and program.
#
# The libraries are then in target/staticlib.
set -e
cd "$(dirname -- "$0")"
built=target/staticlib
mkdir -p "$built"

# prove CRATE: proves a static library and builds crates/CRATE/out/libCRATE.a
prove() {
    echo "$1:"
    (cd "crates/$1" && rt lib)
}

# whole FROM TO CALL: the archive TO of all that is in the archive FROM and of what it takes of the kit's C
# code, with no other name to be seen from outside than CALL
whole() {
    ld -r -o "$2.o" --whole-archive "$1" --no-whole-archive "$(dirname -- "$(rt doc)")/c/libos_c.a"
    objcopy --keep-global-symbol="$3" "$2.o"
    rm -f "$2"
    ar rcs "$2" "$2.o"
    rm "$2.o"
}

for library in ${*:-capi session program}; do
    case $library in
    program)
        # The crate program is a library for the crate crank; program_c has its call for C. It reads and
        # writes, and asks the kit's C code for the number of an error.
        prove program_c
        whole crates/program_c/out/libprogram_c.a "$built/libprogram.a" crank_program
        ;;
    *)
        prove "$library"
        cp "crates/$library/out/lib$library.a" "$built/"
        ;;
    esac
done
[ $# -gt 0 ] || cargo build --release
