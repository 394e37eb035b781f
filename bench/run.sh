#!/bin/bash
# Runs `run` over 200,000 prefixes, ten an attribute set, to 1, 8, 32 and 64 external peers of one group and of four, with
# `coalesce` 4096 and 1, with the routes after the sessions and before them, and with --workers 0 and 1. Prints for each the
# time, the processors' time, the peak memory and the bytes written; then how the time grows from 100,000 to 400,000 prefixes,
# to 8 peers of one group with `coalesce` 4096. Of RUNS runs (3) the shortest counts; runs with other workers come in turn. What
# is written goes to TMPDIR, up to a gigabyte a run. PEERS, GROUPS_OF, COALESCE, PREFIXES and WORKERS are other numbers than
# these, and ORDERS other orders than `after before`; KEYS is `random`, `scattered` or `shuffled` for other orders of the lines
# and their attributes (fabric.sh). GROWTH=no leaves out the growth.
set -e
source "$(dirname "$0")/measure.sh"
source bench/fabric.sh
runs=${RUNS:-3}
prefixes=${PREFIXES:-200000}

# one_time WORKERS: the time and the processors' time of a run, in seconds.
one_time() {
    rm -rf "$work/there"
    mkdir "$work/there"
    { TIMEFORMAT='%R %U %S'; time "$program" run "$work/config" "$work/events" "$work/there" --workers "$1" > "$work/report"; } 2>&1 |
        tail -n 1 | awk '{ print $1, $2 + $3 }'
}

# timed WORKERS..: leaves the time and the processors' time of the shortest run with each of these in `best`. They come in turn,
# since the same run takes longer in one minute than in the next.
declare -A best
timed() {
    local workers
    best=()
    for _ in $(seq "$runs"); do
        for workers in "$@"; do
            best[$workers]=$(echo "${best[$workers]:-} $(one_time "$workers")" | awk '{ print (NF == 2 || $1 <= $3) ? $1 " " $2 : $3 " " $4 }')
        done
    done
}

# in_turn PREFIXES PEERS GROUPS COALESCE ORDER WORKERS..: prints the line of such a run with each of these workers, and leaves
# their times in `best`.
in_turn() {
    local n=$1 peers=$2 groups=$3 coalesce=$4 order=$5 workers kib bytes
    shift 5
    config "$peers" "$groups" "$coalesce" > "$work/config"
    events "$n" "$peers" "$order" > "$work/events"
    timed "$@"
    for workers in "$@"; do
        rm -rf "$work/there"
        mkdir "$work/there"
        kib=$(peak run "$work/config" "$work/events" "$work/there" --workers "$workers")
        bytes=$(cat "$work"/there/* | wc -c)
        echo "$n prefixes to $peers peers of $groups groups, coalesce $coalesce, routes $order the sessions, --workers $workers: ${best[$workers]% *} s, processors ${best[$workers]#* } s, peak $kib KiB, $bytes bytes written; $(tail -n 1 "$work/report")"
    done
}

for peers in ${PEERS:-1 8 32 64}; do
    for groups in ${GROUPS_OF:-1 4}; do
        [ "$groups" -le "$peers" ] || continue
        for coalesce in ${COALESCE:-4096 1}; do
            for order in ${ORDERS:-after before}; do
                in_turn "$prefixes" "$peers" "$groups" "$coalesce" "$order" ${WORKERS:-0 1}
            done
        done
    done
done
[ "${GROWTH:-yes}" = yes ] || exit 0
for order in after before; do
    declare -A small=()
    in_turn $((prefixes / 2)) 8 1 4096 "$order" 0 1 > /dev/null
    for workers in 0 1; do small[$workers]=${best[$workers]% *}; done
    in_turn $((prefixes * 2)) 8 1 4096 "$order" 0 1 > /dev/null
    for workers in 0 1; do
        awk -v n="$prefixes" -v a="${small[$workers]}" -v b="${best[$workers]% *}" -v o="$order" -v w="$workers" 'BEGIN {
            printf "growth from %d to %d prefixes to 8 peers of one group, coalesce 4096, routes %s the sessions, --workers %d: %.2f times (%.2f s, %.2f s)\n", n / 2, n * 2, o, w, b / a, a, b }'
    done
done
