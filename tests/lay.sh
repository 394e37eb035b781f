#!/bin/bash
# Lays a copy of the repository into a folder, in which the oracles are crates like others: tests/lay.sh FOLDER PART..,
# of each crate these parts, as src, specs, proofs, must-fail. In the repository the sources of the oracles have the ending
# .txt more, since rt ci takes no source that is of no crate.
set -e
cd "$(dirname "${BASH_SOURCE[0]}")/.."
copy=$1
shift
rm -rf "$copy"
mkdir -p "$copy/.git" "$copy/crates"
cp HANDLES "$copy"
grep -v '^#' oracles/list | cat crates.txt - > "$copy/crates.txt"
for folder in crates/* oracles/*/; do
    crate=$copy/crates/$(basename "$folder")
    mkdir "$crate"
    for part in "$@"; do
        [ ! -e "$folder/$part" ] || cp -r "$folder/$part" "$crate"
    done
done
find "$copy/crates" -name '*.txt' | grep -E '\.(rt|antt)\.txt$' | while read -r file; do
    mv "$file" "${file%.txt}"
done
