#!/bin/sh
# Checks the examples: check.sh CRANK ASSEMBLE
#
# For every NAME.qasm beside this script: assembles it and compares the image
# with NAME.img byte for byte, then runs crank on NAME.img and compares its
# output with NAME.out. Exits with 1 on any difference, or if there is no
# example.

if [ $# -ne 2 ]; then
    echo "usage: check.sh CRANK ASSEMBLE" >&2
    exit 2
fi
crank=$1
assemble=$2
# A name without a slash is looked up in PATH.
for program in "$crank" "$assemble"; do
    if ! command -v "$program" >/dev/null 2>&1; then
        echo "check.sh: cannot run $program" >&2
        exit 2
    fi
done

folder=$(dirname -- "$0")
scratch=$(mktemp -d) || exit 2
trap 'rm -rf "$scratch"' EXIT

# Prints ok, or what is wrong with the example $1.
examine() {
    if ! "$assemble" <"$folder/$1.qasm" >"$scratch/img" 2>"$scratch/err"; then
        echo "the source is refused: $(cat "$scratch/err")"
    elif ! cmp -s "$scratch/img" "$folder/$1.img"; then
        echo "the image differs"
    elif ! "$crank" <"$folder/$1.img" | cmp -s - "$folder/$1.out"; then
        echo "the output differs"
    else
        echo ok
    fi
}

good=0
bad=0
for source in "$folder"/*.qasm; do
    [ -f "$source" ] || continue
    name=$(basename -- "$source" .qasm)
    result=$(examine "$name")
    echo "$name: $result"
    if [ "$result" = ok ]; then
        good=$((good + 1))
    else
        bad=$((bad + 1))
    fi
done

# Every stored image and output must have its source.
for stored in "$folder"/*.img "$folder"/*.out; do
    [ -f "$stored" ] || continue
    if [ ! -f "${stored%.*}.qasm" ]; then
        echo "$(basename -- "$stored"): no source"
        bad=$((bad + 1))
    fi
done

if [ "$bad" -ne 0 ] || [ "$good" -eq 0 ]; then
    echo "examples: $good ok, $bad bad"
    exit 1
fi
echo "examples: $good ok"
