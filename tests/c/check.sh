#!/bin/sh
# Checks the C calls: check.sh LIBRARIES IMAGE...
#
# Compiles the header alone, as C and, where there is a C++ compiler, as C++;
# looks in it for a declaration of every call that the static libraries in the
# folder LIBRARIES export; looks whether these want names from outside that
# docs/CALLS.md doesn't say; links roundtrip.c with those of the calls, as both, and
# runs it on the images, which must make every call; then does what docs/CALLS.md
# says. Exits with 1 where one of these fails.

if [ $# -lt 2 ]; then
    echo "usage: check.sh LIBRARIES IMAGE..." >&2
    exit 2
fi
libraries=$1
shift
cc=${CC:-cc}
cxx=${CXX:-c++}
folder=$(dirname -- "$0")
include=$folder/../../include
header=$include/crank.h
scratch=$(mktemp -d) || exit 2
trap 'rm -rf "$scratch"' EXIT

fail() {
    echo "C calls: $1"
    exit 1
}

# compile COMPILER OPTION...: with all warnings as errors
compile() {
    "$@" -Wall -Wextra -Werror -pedantic -I"$include"
}

# exported LIBRARY...: the calls that these export, one per line
exported() {
    for library; do
        nm -g --defined-only "$libraries/lib$library.a"
    done | awk '$2 == "T" { print $3 }'
}

compile "$cc" -std=c11 -fsyntax-only -x c "$header" || fail 'the header is no C11'
if command -v "$cxx" >/dev/null 2>&1; then
    compile "$cxx" -fsyntax-only -x c++ "$header" || fail 'the header is no C++'
else
    echo "header: there is no $cxx, so it is not tried as C++"
    cxx=
fi

# wanting LIBRARY NAME...: names that the library asks for from outside, other than these, one per line
wanting() {
    library=$1
    shift
    nm -u "$libraries/lib$library.a" | awk '$1 == "U" { print $2 }' | sort -u >"$scratch/wanted"
    for name; do
        grep -vx "$name" "$scratch/wanted" >"$scratch/others"
        mv "$scratch/others" "$scratch/wanted"
    done
    cat "$scratch/wanted"
}
for library in capi session; do
    outside=$(wanting $library memset)
    [ -z "$outside" ] || fail "lib$library.a wants $outside"
done
outside=$(wanting program memset read write __errno_location)
[ -z "$outside" ] || fail "libprogram.a wants $outside"
[ -n "$(wanting program)" ] || fail 'nm shows no name that libprogram.a wants'

# Preprocessed, since comments mention calls too.
compile "$cc" -std=c11 -E -P -x c "$header" >"$scratch/declarations" || fail 'the preprocessor'
count=0
for call in $(exported capi session program); do
    grep -q "[ *]$call(" "$scratch/declarations" || fail "the header lacks $call"
    count=$((count + 1))
done
[ "$count" -gt 0 ] || fail 'the libraries export nothing'
echo "header: $count calls"

# roundtrip COMPILER OPTION...: builds the round trip
roundtrip() {
    compile "$@" -O1 -o "$scratch/roundtrip" "$folder/roundtrip.c" "$folder/calls.c" \
        -x none "$libraries/libcapi.a" "$libraries/libsession.a"
}
roundtrip "$cc" -std=c11 -x c || fail 'roundtrip.c'
"$scratch/roundtrip" "$@" >"$scratch/covered" || fail 'the round trip'
cat "$scratch/covered"
for call in $(exported capi session); do
    grep -q " $call [1-9]" "$scratch/covered" || fail "the round trip makes no $call"
done
if [ -n "$cxx" ]; then
    roundtrip "$cxx" -x c++ || fail 'roundtrip.c as C++'
    "$scratch/roundtrip" "$@" | cmp -s - "$scratch/covered" || fail 'the round trip as C++'
fi

# The programs of docs/CALLS.md, built and run by the commands there. A block
# fenced by ```c is the file that the comment in its first line names.
calls=$folder/../../docs/CALLS.md
for part in include target examples; do
    ln -s "$(cd "$folder/../.." && pwd)/$part" "$scratch/$part"
done
awk -v folder="$scratch" '
    /^```/ { on = !on; program = on && $0 == "```c"; plain = on && $0 == "```"; file = ""; next }
    program && file == "" { file = folder "/" $2; print $2 }
    program { print >file }
    plain { print >(folder "/shown") }
' "$calls" >"$scratch/programs"
grep '^\$ ' "$scratch/shown" | sed 's/^\$ //' >"$scratch/commands"
grep -v '^\$ ' "$scratch/shown" >"$scratch/output"
[ -s "$scratch/programs" ] && [ -s "$scratch/commands" ] || fail 'CALLS.md has no program'
for program in $(cat "$scratch/programs"); do
    grep -q "^gcc -std=c11 .* $program " "$scratch/commands" || fail "CALLS.md does not build $program"
done
# shown COMMANDS: runs them; they must end, and print what CALLS.md shows
shown() {
    (cd "$scratch" && timeout 20 sh -e "$1" >printed 2>&1) ||
        fail "CALLS.md, $1: $(cat "$scratch/printed")"
    cmp -s "$scratch/output" "$scratch/printed" || fail "CALLS.md, $1: prints something else"
}
shown commands
if [ -n "$cxx" ]; then
    # The same programs as C++ find the calls by their C names.
    sed "s|^gcc -std=c11 \(.*\.c\) |$cxx -x c++ \1 -x none |" "$scratch/commands" >"$scratch/as_c++"
    cmp -s "$scratch/commands" "$scratch/as_c++" && fail 'CALLS.md has no command for C++'
    shown as_c++
fi
echo "CALLS.md: $(wc -l <"$scratch/programs") programs, $(wc -l <"$scratch/commands") commands"
