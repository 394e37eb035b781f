#!/bin/bash
# Tries the captures of examples/audit: what is made of them, the verdicts, the same captures written otherwise, and planted faults; by
# the plain, slow auditor, and by PROGRAM, or else out/ug_main, where it has the options. COUNT (10) faults of each kind are planted, and
# ROUNDS (1) captures of each kind are written; with COUNT=40 and ROUNDS=4 it takes two minutes. With RECORD=1 another day of each daemon
# that is installed is recorded and judged too, as root: half a minute each.
export LC_ALL=C
cd "$(dirname "$0")/.." || exit 1
source tests/counting.sh
program=${PROGRAM:-$PWD/out/ug_main}
work=$(mktemp -d)
trap 'rm -rf "$work"' EXIT

# counted WORDS..: what tests/captures.py counts is added.
counted() {
    local last
    python3 tests/captures.py "$@" > "$work/said" 2>> "$work/times" || true
    last=$(tail -n 1 "$work/said")
    sed '$d' "$work/said"
    if [[ $last =~ ^([0-9]+)\ passed,\ ([0-9]+)\ failed$ ]]; then
        passed=$((passed + BASH_REMATCH[1]))
        failed=$((failed + BASH_REMATCH[2]))
    else
        note "tests/captures.py $*" "doesn't end: $last $(tail -n 3 "$work/times")"
    fi
}

# by_the_page DAY SPEAKER WITHIN: the words of docs/AUDIT.md come to the verdict that is kept, by the slow auditor, and by the program
# where it has the options.
by_the_page() {
    local day=examples/audit/$1
    bridges/audit_of_pcap.py "$day/capture.pcap" "$day/config.toml" "$work/$1" --speaker "$2" --within "$3" --also "$day/also" > "$work/line" 2> "$work/told"
    [ "$(cat "$work/line")" = "ug_main audit $day/config.toml $work/$1/events $work/$1/report $work/$1/dir" ] &&
        note "the line of $1" ok || note "the line of $1" "$(cat "$work/line" "$work/told")"
    tests/auditor.py audit --explain --unordered "$day/config.toml" "$work/$1/events" "$work/$1/report" "$work/$1/dir" > "$work/verdict"
    cmp -s "$work/verdict" "$day/verdict" && note "the verdict of $1" ok || note "the verdict of $1" "$(diff "$work/verdict" "$day/verdict" | head -n 5)"
    if "$program" audit --explain --unordered a b c d 2>&1 | grep -q '^status 3'; then
        "$program" audit --explain --unordered "$day/config.toml" "$work/$1/events" "$work/$1/report" "$work/$1/dir" > "$work/verdict"
        cmp -s "$work/verdict" "$day/verdict" && note "the program's verdict of $1" ok || note "the program's verdict of $1" "$(diff "$work/verdict" "$day/verdict" | head -n 5)"
    fi
}

# recorded SPEAKER WITHIN DAEMON: another day, in which the sessions that are right in the day that is kept are right as well.
recorded() {
    local name="another day of $1" wrong
    [ -x "$3" ] || { echo "passed over, for want of $3: $name"; return; }
    python3 examples/audit/record.py "$1" "$work/day" > "$work/log" 2>&1 || { note "$name" "$(tail -n 3 "$work/log")"; return; }
    bridges/audit_of_pcap.py "$work/day/capture.pcap" "$work/day/config.toml" "$work/other" --speaker "$1" --within "$2" --also "$work/day/also" > "$work/line" 2> "$work/told"
    tests/auditor.py audit --explain --unordered "$work/day/config.toml" "$work/other/events" "$work/other/report" "$work/other/dir" > "$work/verdict"
    # FRR answers a request of client1 while best paths change, and may be wrong there.
    wrong=$(grep '^breach' "$work/verdict" | { [ "$1" = frr ] && grep -v '^breach client1 ' || cat; } | head -n 3)
    [ -z "$wrong" ] && grep -q '^session client1 1 messages' "$work/verdict" && note "$name" ok || note "$name" "$wrong $(tail -n 1 "$work/verdict")"
    rm -r "$work/day" "$work/other"
}

by_the_page frr-8.4.4 frr 3
by_the_page bird-2.0.12 bird 1
for day in frr-8.4.4 bird-2.0.12; do
    counted kept $day
    counted segments $day "${ROUNDS:-1}"
    counted planted $day "${COUNT:-10}"
done
if [ "${RECORD:-0}" = 1 ]; then
    recorded frr 3 /usr/lib/frr/bgpd
    recorded bird 1 /usr/sbin/bird
fi
echo "$passed passed, $failed failed"
[ "$failed" = 0 ]
