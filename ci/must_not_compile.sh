#!/usr/bin/env bash
# Tries the programs that must not compile. Each folder of ci/must-not-compile/ has
#   reaches.txt    the crates of this repository that the program reaches, lowest first, in one line
#   compiles.txt   a program that compiles
#   refused.txt    the same program with the misuse in it
#   error.txt      the name of the error by which the compiler must refuse it
# The texts do not end in .rt, since the gate takes such a file for a part of a crate. Each is tried as a program over
# copies of the crates, and nothing has to be proved first.
set -eu
top=$(cd "$(dirname "$0")/.." && pwd)
work=$(mktemp -d)
trap 'rm -rf "$work"' EXIT
mkdir -p "$work/crates/tried/src"

# compile TEXT CRATES: what the compiler says of the text as a program over these crates is left in $work/said
compile() {
    cp "$1" "$work/crates/tried/src/main.rt"
    { cat "$top/crates.txt"; echo "tried: $2"; } > "$work/crates.txt"
    (cd "$work/crates/tried" && rt try) > "$work/said" 2>&1
}

for crate in $(sed 's/#.*//; s/:.*//' "$top/crates.txt"); do
    mkdir "$work/crates/$crate"
    for part in src specs proofs; do
        if [ -d "$top/crates/$crate/$part" ]; then
            cp -r "$top/crates/$crate/$part" "$work/crates/$crate/"
        fi
    done
done

for folder in "$top"/ci/must-not-compile/*/; do
    name=$(basename "$folder")
    error=$(cat "$folder/error.txt")
    crates=$(cat "$folder/reaches.txt")
    if ! compile "$folder/compiles.txt" "$crates"; then
        cat "$work/said"
        echo "must not compile, $name: the program without the misuse does not compile either"
        exit 1
    fi
    if compile "$folder/refused.txt" "$crates"; then
        echo "must not compile, $name: it compiles"
        exit 1
    fi
    if ! grep -qF "error[$error]" "$work/said"; then
        cat "$work/said"
        echo "must not compile, $name: refused, but not by $error"
        exit 1
    fi
    echo "must not compile, $name: refused by $error, as it must be"
done
