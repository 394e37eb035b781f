#!/bin/bash
# Runs the program over a day of eight peers, with workers and without, and compares its report and what each last session
# leaves with what tests/day.py worked out from the rules. PROGRAM is the program, or else out/ug_main.
# With a word N the day has an Nth of the prefixes and of the lines.
export LC_ALL=C
cd "$(dirname "$0")/.." || exit 1
program=${PROGRAM:-$PWD/out/ug_main}
[ -x "$program" ] || { echo "no program at $program"; echo "0 passed, 1 failed"; exit 1; }
work=$(mktemp -d)
trap 'rm -rf "$work"' EXIT
passed=0
failed=0

. tests/same.sh

python3 tests/day.py "$work" "${1:-1}" || { echo "0 passed, 1 failed"; exit 1; }
for how in 0 1; do
    rm -rf "$work/there"
    mkdir "$work/there"
    code=0
    start=$(date +%s.%N)
    "$program" run "$work/config.toml" "$work/events" "$work/there" --workers $how > "$work/said" 2> "$work/errors" || code=$?
    end=$(date +%s.%N)
    awk -v a="$start" -v b="$end" -v w=$how 'BEGIN { printf "a day with --workers %d: %.2f s\n", w, b - a }'
    echo 0 > "$work/wanted"
    (echo "$code"; cat "$work/errors") > "$work/ended"
    same "the end with --workers $how" "$work/ended" "$work/wanted"
    # How many messages a mark counts depends on when it is made; but the last ones count all.
    sed -E 's/^((refresh|sync) .*) [0-9]+$/\1 */' "$work/said" > "$work/masked"
    same "the report with --workers $how" "$work/masked" "$work/report"
    while read -r peer session options; do
        "$program" check $options "$work/there/$peer.$session" > "$work/rows.all" 2>&1
        sed -E 's/^messages [0-9]+ (eors )/\1/' "$work/rows.all" > "$work/rows.said"
        same "the rows of $peer with --workers $how" "$work/rows.said" "$work/rows/$peer.$session"
        sed -n -E 's/^messages ([0-9]+) .*/\1/p' "$work/rows.all" > "$work/counted"
        grep "^sync [0-9]* $peer $session " "$work/said" | tail -n 1 | awk '{ print $5 }' > "$work/marked"
        same "the last mark of $peer with --workers $how" "$work/counted" "$work/marked"
    done < "$work/sessions"
done
echo "$passed passed, $failed failed"
[ "$failed" = 0 ]
