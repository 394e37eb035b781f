#!/bin/bash
# Runs 50,000 events of one prefix each, ten an attribute set, to 1, 8 and 32 sessions that are up, and prints the processor's
# time of an event that is read, judged and taken, and beside it that of telling it to a session: making its message, handing
# it out and writing it to a file. Then the same of a session that begins over 50,000 and 200,000 prefixes. All is done in one
# thread (--workers 0) by the program, and what other work is told apart by the difference of two runs. Of five runs the
# least counts. What is written goes to TMPDIR.
set -e
source "$(dirname "$0")/measure.sh"

# 33 external peers.
awk 'BEGIN {
    printf "[local]\nas = 65001\nrouter_id = \"10.255.0.1\"\n"
    for (i = 1; i <= 33; i++)
        printf "\n[[peer]]\nname = \"p%d\"\nas = %d\nrouter_id = \"10.200.%d.2\"\naddress = \"10.200.%d.2\"\nlocal_address = \"10.200.%d.1\"\nsubnet = \"10.200.%d.0/24\"\n", i, 65100 + i, i, i, i, i }' > "$work/config"

# events PREFIXES BEFORE AFTER: the routes, with so many sessions before them and after them.
events() {
    awk -v n="$1" -v before="$2" -v after="$3" 'BEGIN {
        for (i = 1; i <= before; i++) print "up p" i
        for (i = 0; i < n; i++)
            printf "paths %d.%d.%d.0/24 id=1 from=local nh=0.0.0.0 origin=igp as=- med=%d\n", 20 + int(i / 65536), int(i / 256) % 256, i % 256, int(i / 10)
        for (i = 1; i <= after; i++) print "up p" i }' > "$work/events"
}

# cost PREFIXES BEFORE AFTER: the processor's time of the least of five runs, in seconds.
cost() {
    local best= now
    events "$@"
    for _ in 1 2 3 4 5; do
        rm -rf "$work/there"
        mkdir "$work/there"
        now=$( { TIMEFORMAT='%U %S'; time "$program" run "$work/config" "$work/events" "$work/there" --workers 0 > "$work/report"; } 2>&1 | tail -n 1 | awk '{ print $1 + $2 }')
        best=$(awk -v a="$now" -v b="$best" 'BEGIN { print (b == "" || a < b) ? a : b }')
    done
    echo "$best"
}

alone=$(cost 50000 0 0)
for peers in 1 8 32; do
    awk -v alone="$alone" -v all="$(cost 50000 "$peers" 0)" -v peers="$peers" 'BEGIN {
        printf "an event of one prefix to %d sessions: %.0f ns to take it, and %.0f ns a session to tell it\n", peers, alone * 1e9 / 50000, (all - alone) * 1e9 / 50000 / peers }'
done
for prefixes in 50000 200000; do
    awk -v without="$(cost "$prefixes" 0 0)" -v all="$(cost "$prefixes" 0 8)" -v n="$prefixes" 'BEGIN {
        printf "a session that begins over %d prefixes, ten an attribute set: %.0f ms, %.0f ns a prefix (of 8 that begin)\n", n, (all - without) * 1e3 / 8, (all - without) * 1e9 / 8 / n }'
done
