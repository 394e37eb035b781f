#!/bin/bash
# Audits the files of a run over 50,000 and 200,000 prefixes, ten an attribute set, to 32 external peers of one group, without
# `sync` lines and with 10,000 of them. Prints for each the time and the peak memory of `audit`, beside the time of `check` over
# the same sessions, of reading the events alone (a run with no session up) and of the run; how the time grows; and what of the
# aims is met: at most twice the time of `check` and of reading, less than a fifth more by the `sync` lines, and at most 400 bytes a
# prefix and 16 bytes a route and session of the certificate. Last a session of nearly 1 GiB beside one of 1 MiB.
# Of RUNS runs (3) the shortest counts. What is written goes to TMPDIR, a gigabyte and a half. PEERS, PREFIXES, SYNCS and LONGEST are
# other numbers than these.
set -e
source "$(dirname "$0")/measure.sh"
source bench/fabric.sh
runs=${RUNS:-3}
peers=${PEERS:-32}
syncs=${SYNCS:-10000}
longest=${LONGEST:-1073741824}

# events PREFIXES PEERS SYNCS: the sessions, and then the routes with so many `sync` lines among them.
events() {
    awk -v n="$1" -v peers="$2" -v syncs="$3" 'BEGIN {
        for (i = 1; i <= peers; i++) printf "up p%d\n", i
        for (i = 0; i < n; i++) {
            printf "paths %d.%d.%d.0/24 id=1 from=local nh=0.0.0.0 origin=igp as=- med=%d\n", 20 + int(i / 65536), int(i / 256) % 256, i % 256, int(i / 10)
            for (; marked < int((i + 1) * syncs / n); marked++) print "sync"
        } }'
}

# measured PREFIXES SYNCS: makes the files of such a run, prints the line of their audit, and leaves its time in `audited`.
measured() {
    local n=$1 marks=$2 told reading checking=0 session kib status=0
    events "$n" "$peers" "$marks" > "$work/events"
    grep '^paths' "$work/events" > "$work/routes"
    rm -rf "$work/there" "$work/none"
    mkdir "$work/there" "$work/none"
    told=$(measure 1 run "$work/config" "$work/events" "$work/there" --workers 0)
    mv "$work/report" "$work/run.report"
    reading=$(measure "$runs" run "$work/config" "$work/routes" "$work/none" --workers 0)
    for session in "$work"/there/*; do
        checking=$(echo "$checking $(measure "$runs" check "$session")" | awk '{ print $1 + $2 }')
    done
    set -- audit "$work/config" "$work/events" "$work/run.report" "$work/there"
    "$program" "$@" > "$work/certificate" || status=$?
    [ "$status" = 0 ] || { echo "the audit ends with $status: $(head -n 1 "$work/certificate")"; exit 1; }
    audited=$(measure "$runs" "$@")
    kib=$(peak "$@")
    echo "$n prefixes to $peers peers, $marks sync lines: $(cat "$work"/there/* | wc -c) bytes, $(wc -l < "$work/certificate") lines of certificate"
    echo "$audited $checking $reading $told $kib" | awk -v n="$n" -v peers="$peers" '{
        beside = $2 + $3
        each = ($5 * 1024 - 16 * n * peers) / n
        printf "    audit %.2f s, peak %d KiB; check %.2f s, reading the events %.2f s, the run %.2f s\n", $1, $5, $2, $3, $4
        printf "    %.2f times the time of check and reading (the aim: at most 2): %s\n", $1 / beside, $1 <= 2 * beside ? "met" : "not met"
        printf "    %.0f bytes a prefix besides 16 a route and session (the aim: at most 400): %s\n", each, each <= 400 ? "met" : "not met" }'
}

# long BYTES: makes a session of End-of-RIBs alone of at most so many bytes, and prints the line of its audit.
long() {
    local count=$(($1 / 23)) kib seconds
    printf 'up p1\n' > "$work/events"
    printf 'accepted 1 refused 0\n' > "$work/run.report"
    rm -rf "$work/there"
    mkdir "$work/there"
    LC_ALL=C awk 'BEGIN {
        for (i = 0; i < 16; i++) marker = marker sprintf("%c", 255)
        for (i = 0; i < 45590; i++) printf "%s%c%c%c%c%c%c%c", marker, 0, 23, 2, 0, 0, 0, 0 }' > "$work/piece"
    while cat "$work/piece"; do :; done 2> /dev/null | head -c "$((count * 23))" > "$work/there/p1.1"
    set -- audit "$work/config" "$work/events" "$work/run.report" "$work/there"
    seconds=$(measure 1 "$@")
    [ "$(cat "$work/report")" = "session p1 1 messages $count" ] || { echo "the audit says $(head -n 1 "$work/report")"; exit 1; }
    kib=$(peak "$@")
    echo "a session of $((count * 23)) bytes, $count messages: $seconds s, peak $kib KiB"
}

config "$peers" 1 4096 > "$work/config"
for marks in 0 "$syncs"; do
    times=()
    for n in ${PREFIXES:-50000 200000}; do
        measured "$n" "$marks"
        times+=("$n $audited")
    done
    printf '%s\n' "${times[@]}" | awk -v marks="$marks" '
        NR > 1 { printf "growth from %d to %d prefixes with %d sync lines: %.2f times\n", n, $1, marks, $2 / t }
        { n = $1; t = $2 }'
    [ "$marks" = 0 ] && without=$audited
done
awk -v a="$without" -v b="$audited" -v marks="$syncs" 'BEGIN {
    printf "%d sync lines add %.0f parts of a hundred (the aim: less than 20): %s\n", marks, 100 * (b - a) / a, b < 1.2 * a ? "met" : "not met" }'
long 1048576
long "$longest"
