#!/bin/bash
# Draws sessions beside the tables that they have to follow, right ones and damaged ones, as messages and as bytes, and asks that
# the auditor and a plain and slow one answer the same of each; then makes drawn calls on subgroups, as the machine has them and
# plain and slow, side by side, and compares both after each call. Both are one program (tests/comparisons), which is run and not
# proved, over the crates and oracles as they stand, in a copy of them (tests/lay.sh), so that these are built once. With the word
# `bugs` and names of wrong bodies (tests/comparisons/bugs has those of no names) each of them is tried in the copy, where the
# program has to find a difference.
cd "$(dirname "$0")/.." || exit 1
uses="ug_slow_auditor ug_hearing ug_update ug_groups ug_slow_subgroup ug_outbound ug_policy ug_intern ug_types rand_pcg rand_core"
work=$(mktemp -d)
trap 'rm -rf "$work"' EXIT

# lay: the crates and the program among them.
lay() {
    tests/lay.sh "$work/copy" src specs
    mkdir -p "$work/copy/crates/comparisons"
    (cd tests/comparisons && find . -name '*.rt.txt') | while read -r file; do
        install -D -m 644 "tests/comparisons/$file" "$work/copy/crates/comparisons/src/${file%.txt}"
    done
    echo comparisons: $uses >> "$work/copy/crates.txt"
}

# play: its status is whether everything passed.
play() {
    (cd "$work/copy/crates/comparisons" && rt try --steps 1 --seconds 400) > "$work/said" 2> "$work/told"
    grep -qE '^[0-9]+ passed, 0 failed$' "$work/said"
}

# plant CRATE NAME: puts a wrong body of must-fail/ in.
plant() {
    python3 - "$work/copy/crates/$1" {crates,oracles}/"$1"/must-fail/"$2".edit* << 'END'
import pathlib, sys
lines = next(path for path in map(pathlib.Path, sys.argv[2:]) if path.is_file()).read_text().splitlines()
file = pathlib.Path(sys.argv[1]) / next(line[6:] for line in lines if line.startswith("file: "))
texts = [line[5:] for line in lines if line[:5] in ("old: ", "new: ")]
text = file.read_text()
for old, new in zip(texts[::2], texts[1::2]):
    assert text.count(old) == 1, old
    text = text.replace(old, new)
file.write_text(text)
END
}

if [ "$1" = bugs ]; then
    shift
    [ $# -gt 0 ] || set -- $(cat tests/comparisons/bugs)
    passed=0
    failed=0
    for bug in "$@"; do
        lay
        if plant "${bug%%/*}" "${bug#*/}" && ! play && grep -qE '^[0-9]+ passed, [1-9][0-9]* failed$|fault' "$work/said" "$work/told"; then
            passed=$((passed + 1))
            echo "$bug: $(grep -hoE "(differ:|and then) .*$|^checked: fault.*" "$work/said" "$work/told" | sort | uniq -c | sort -rn | sed -E 's/^ *([0-9]+) +((differ:|and then) )?/\1 /' | head -n 3 | tr '\n' ';')"
        else
            failed=$((failed + 1))
            echo "$bug is not noticed:"
            tail -n 3 "$work/said" "$work/told"
        fi
    done
    echo "$passed passed, $failed failed"
    [ "$failed" = 0 ]
    exit
fi

lay
play
status=$?
cat "$work/said"
if ! grep -qE '^[0-9]+ passed, [0-9]+ failed$' "$work/said"; then
    tail -n 20 "$work/told"
    echo "0 passed, 1 failed"
fi
exit $status
