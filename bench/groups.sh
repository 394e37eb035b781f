#!/bin/bash
# What groups cost that share nothing, as at a route server: 20,000 prefixes, ten an attribute set, that one peer told, to 60
# external peers, each with a map of its own (`set_med`), with the sessions and with the routes first, and with the keys sorted and
# in random order. Prints the processors' time a prefix and group and the peak memory of whole runs: of this program with one thread
# and with threads, and of FRR and BIRD where they are installed (bench/daemons.py). Then what a session costs that comes alone
# when another one of its group was told all, of 200,000 prefixes, and what 32 sessions cost that come one by one over as many
# with `coalesce` 1. Of REPEAT runs (3), which come in turn, the least and the one that half of them don't exceed.
# GROUPS_OF, PREFIXES and TABLE are other numbers of groups and prefixes, and KEYS_OF and ORDERS other orders than
# `sorted random` and `after before`. PROGRAM is another program than out/ug_main. PARTS names what is measured, of `many alone each`.
set -e
source "$(dirname "$0")/measure.sh"
source bench/fabric.sh
repeat=${REPEAT:-3}
groups=${GROUPS_OF:-60}
prefixes=${PREFIXES:-20000}
table=${TABLE:-200000}
[ -x /usr/bin/time ] || { echo "install GNU time first" >&2; exit 1; }
speakers="one-thread threads"
[ ! -x /usr/lib/frr/bgpd ] || speakers="$speakers frr"
[ ! -x /usr/sbin/bird ] || speakers="$speakers bird"

# of_feeder: the lines of `events`, as what one peer told, with a community that differs where they differ.
of_feeder() {
    sed -E 's/from=local nh=0.0.0.0 origin=igp as=- med=/from=feeder nh=10.9.9.9 origin=igp as=64999 comm=64600:/'
}

# config_of_groups PEERS GROUPS COALESCE: the configuration with the peer that tells the routes. All are sent communities.
config_of_groups() {
    config "$1" "$2" "$3" med | sed 's/^subnet = .*/&\nsend_community = true/'
    printf '\n[[peer]]\nname = "feeder"\nas = 64999\nrouter_id = "10.9.9.9"\naddress = "10.9.9.9"\nlocal_address = "10.9.9.1"\nsubnet = "10.9.9.0/24"\n'
}

# spent WORKERS: the processors' time of a run in seconds, its peak memory in KiB, and its time.
spent() {
    rm -rf "$work/there"
    mkdir "$work/there"
    /usr/bin/time -f '%U %S %M %e' -o "$work/spent" "$program" run "$work/config" "$work/events" "$work/there" --workers "$1" > "$work/report"
    awk '{ print $1 + $2, $3, $4 }' "$work/spent"
}

# speaker NAME: the same of one of the speakers; of a daemon without its time.
speaker() {
    case $1 in
        one-thread) spent 0 ;;
        threads) spent 1 ;;
        *) python3 bench/daemons.py "$1" "$work/events" "$groups" ;;
    esac
}

# least_and_median COLUMN: of the lines that come in.
least_and_median() {
    awk -v column="$1" '{ print $column }' | sort -g | awk '{ value[NR] = $1 } END { print value[1], value[int((NR + 1) / 2)] }'
}

# many KEYS ORDER: the lines of the table of groups that share nothing.
many() {
    local name
    config_of_groups "$groups" "$groups" 4096 > "$work/config"
    KEYS=$1 events "$prefixes" "$groups" "$2" | of_feeder > "$work/events"
    rm -f "$work"/runs.*
    for _ in $(seq "$repeat"); do
        for name in $speakers; do speaker "$name" >> "$work/runs.$name"; done
    done
    for name in $speakers; do
        echo "$(least_and_median 1 < "$work/runs.$name") $(least_and_median 2 < "$work/runs.$name")" |
            awk -v name="$name" -v keys="$1" -v order="$2" -v routes="$((prefixes * groups))" -v n="$prefixes" -v groups="$groups" '{
                printf "%d prefixes, %d groups, %s keys, routes %s the sessions, %s: %.2f (%.2f) microseconds a prefix and group, peak %d KiB\n", n, groups, keys, order, name, 1e6 * $1 / routes, 1e6 * $2 / routes, $3 }'
    done
}

# alone KEYS: what a session costs that comes when another one of its group was told all: beside a run without it.
alone() {
    local run
    config_of_groups 2 1 4096 > "$work/config"
    KEYS=$1 events "$table" 1 after | of_feeder > "$work/told"
    echo sync >> "$work/told"
    rm -f "$work"/runs.*
    for _ in $(seq "$repeat"); do
        for run in without with; do
            { cat "$work/told"; [ "$run" = without ] || echo "up p2"; } > "$work/events"
            spent 0 >> "$work/runs.$run"
        done
    done
    for run in without with; do echo "$(least_and_median 1 < "$work/runs.$run") $(least_and_median 2 < "$work/runs.$run")"; done | xargs |
        awk -v keys="$1" -v n="$table" '{
            printf "%d prefixes, %s keys, a session alone over the table of its group: %.2f (%.2f) microseconds a prefix, peak %.0f bytes a prefix more\n", n, keys, 1e6 * ($5 - $1) / n, 1e6 * ($6 - $2) / n, 1024 * ($7 - $3) / n }'
}

# each WORKERS: what 32 sessions cost that come one by one over a table with `coalesce` 1.
each() {
    config_of_groups 32 1 1 > "$work/config"
    events "$table" 32 before | of_feeder > "$work/events"
    rm -f "$work"/runs.*
    for _ in $(seq "$repeat"); do spent "$1" >> "$work/runs.each"; done
    echo "$(least_and_median 3 < "$work/runs.each") $(least_and_median 1 < "$work/runs.each") $(least_and_median 2 < "$work/runs.each")" |
        awk -v workers="$1" -v n="$table" '{
            printf "%d prefixes, 32 sessions one by one, coalesce 1, --workers %d: %.2f (%.2f) s, processors %.2f (%.2f) s, peak %d KiB\n", n, workers, $1, $2, $3, $4, $5 }'
}

for part in ${PARTS:-many alone each}; do
    case $part in
        many) for keys in ${KEYS_OF:-sorted random}; do for order in ${ORDERS:-after before}; do many "$keys" "$order"; done; done ;;
        alone) for keys in ${KEYS_OF:-sorted random}; do alone "$keys"; done ;;
        each) for workers in 0 1; do each "$workers"; done ;;
        *) echo "there is no part $part" >&2; exit 1 ;;
    esac
done
