#!/bin/bash
# Runs the tests of the oracles (oracles/), plain and slow programs with which fast ones are compared, unproved, in a copy of the
# repository in which they are crates like others. With the word `prove` it proves the oracles and their tests, as the gate proves
# the crates, which takes half an hour and longer.
cd "$(dirname "${BASH_SOURCE[0]}")/.." || exit 1
work=$(mktemp -d)
trap 'rm -rf "$work"' EXIT
names=$(sed -n 's/^\(ug_[a-z_]*\):.*/\1/p' oracles/list)
if [ "$1" = prove ]; then
    tests/lay.sh "$work/copy" src specs proofs must-fail || exit
    for name in $names; do
        (cd "$work/copy/crates/$name" && rt check) || exit
        ! grep -rq '#\[test\]' "oracles/$name/src" || (cd "$work/copy/crates/$name" && rt test) || exit
    done
    cd "$work/copy" && rt must-fail $names
    exit
fi
tests/lay.sh "$work/copy" src specs
passed=0
failed=0
for name in $names; do
    grep -rq '#\[test\]' "oracles/$name/src" || continue
    (cd "$work/copy/crates/$name" && rt try --test --steps 1 --seconds 400) > "$work/said" 2> "$work/told"
    counts=$(sed -nE 's/^test result: .* ([0-9]+) passed; ([0-9]+) failed;.*/\1 \2/p' "$work/said")
    [ -n "$counts" ] || { tail -n 20 "$work/said" "$work/told"; counts="0 1"; }
    grep -E '^test .* \.\.\. ' "$work/said"
    passed=$((passed + ${counts% *}))
    failed=$((failed + ${counts#* }))
done
echo "$passed passed, $failed failed"
[ "$failed" = 0 ]
