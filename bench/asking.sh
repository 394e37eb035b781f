#!/bin/bash
# What it costs to ask whether something has to be done before an event: EVENTS events (200,000) that change nothing (`policy`
# lines with the policy that the peer has), to 64 peers that are not up, that are up and share one subgroup, and that are up in a
# group and so a subgroup each. Prints the time of such an event in each, with --workers 0 and `coalesce` 4096, and for the two
# latter how much of it is beyond the first: at each event it is asked three times. Of RUNS runs (5) the shortest counts.
set -e
source "$(dirname "$0")/measure.sh"
runs=${RUNS:-5}
events=${EVENTS:-200000}

# config MAPS: 64 external peers; with maps each has one of its own, which lets all through, and else none.
config() {
    awk -v maps="$1" 'BEGIN {
        printf "[local]\nas = 65001\nrouter_id = \"10.255.0.1\"\ncoalesce = 4096\n"
        for (i = 1; maps && i <= 64; i++) {
            printf "\n[[route_map]]\nname = \"m%d\"\nentry = [{ seq = 10, action = \"permit\" }]\n", i
            printf "\n[[policy]]\nname = \"m%d\"\nroute_map = \"m%d\"\n", i, i
        }
        for (i = 1; i <= 64; i++) {
            printf "\n[[peer]]\nname = \"p%d\"\nas = %d\nrouter_id = \"10.200.%d.2\"\naddress = \"10.200.%d.2\"\nlocal_address = \"10.200.%d.1\"\nsubnet = \"10.200.%d.0/24\"\n", i, 65100 + i, i, i, i, i
            if (maps) printf "policy = \"m%d\"\n", i
        } }' > "$work/config"
}

# cost MAPS UP: the processor's time of the least of the runs, in seconds.
cost() {
    local policy=-
    [ "$1" = 0 ] || policy=m1
    config "$1"
    awk -v n="$events" -v up="$2" -v policy="$policy" 'BEGIN {
        for (i = 1; up && i <= 64; i++) print "up p" i
        print "sync"
        for (i = 0; i < n; i++) print "policy p1 " policy }' > "$work/events"
    for _ in $(seq "$runs"); do
        rm -rf "$work/there"
        mkdir "$work/there"
        { TIMEFORMAT='%U %S'; time "$program" run "$work/config" "$work/events" "$work/there" --workers 0 > "$work/report"; } 2>&1 | tail -n 1 | awk '{ print $1 + $2 }'
    done | sort -n | head -n 1
}

awk -v n="$events" -v none="$(cost 0 0)" -v one="$(cost 0 1)" -v maps="$(cost 1 0)" -v many="$(cost 1 1)" 'BEGIN {
    printf "an event that changes nothing: %.0f ns without sessions, %.0f ns with one subgroup of 64 (%.0f ns more), %.0f ns with 64 subgroups (%.0f ns more)\n", none * 1e9 / n, one * 1e9 / n, (one - none) * 1e9 / n, many * 1e9 / n, (many - maps) * 1e9 / n }'
