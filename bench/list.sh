#!/bin/bash
# What a `list` line costs where no policy and no route map names the list: 200,000 prefixes to 64 peers of one group, and then
# LINES such lines (100), beside the same without them. Prints the processors' time and the memory that a line takes, and says
# whether a line took less than a tenth of a second. Of RUNS runs (3) the shortest counts. PREFIXES and PEERS are other numbers.
set -e
source "$(dirname "$0")/measure.sh"
source bench/fabric.sh
runs=${RUNS:-3}
prefixes=${PREFIXES:-200000}
peers=${PEERS:-64}
lines=${LINES:-100}

{
    config "$peers" 1 4096
    printf '\n[[prefix_list]]\nname = "unused"\n'
} > "$work/config"

# events LINES: the sessions, the routes, a sync, and so many lines of the list.
events() {
    awk -v n="$prefixes" -v peers="$peers" -v lines="$1" 'BEGIN {
        for (i = 1; i <= peers; i++) printf "up p%d\n", i
        for (i = 0; i < n; i++)
            printf "paths %d.%d.%d.0/24 id=1 from=local nh=0.0.0.0 origin=igp as=- med=%d\n", 20 + int(i / 65536), int(i / 256) % 256, i % 256, int(i / 10)
        print "sync"
        for (i = 0; i < lines; i++) printf "list unused %d:permit:10.0.0.0/8:le=24\n", 5 + i }'
}

# spent WORDS..: the processors' time of the shortest of the runs, in seconds.
spent() {
    for _ in $(seq "$runs"); do
        { TIMEFORMAT='%U %S'; time "$program" "$@" > "$work/report"; } 2>&1 | tail -n 1 | awk '{ print $1 + $2 }'
    done | sort -n | head -n 1
}

# one LINES: the processors' time in seconds and the peak memory in KiB of a run with so many lines.
one() {
    local taken kib
    events "$1" > "$work/events"
    mkdir "$work/there"
    taken=$(spent run "$work/config" "$work/events" "$work/there" --workers 0)
    kib=$(peak run "$work/config" "$work/events" "$work/there" --workers 0)
    rm -rf "$work/there"
    echo "$taken $kib"
}

without=$(one 0)
with=$(one "$lines")
echo "$without $with" | awk -v n="$lines" -v prefixes="$prefixes" -v peers="$peers" '{
    each = ($3 - $1) / n
    printf "%d prefixes, %d peers: %.2f s and %d KiB without a list line, %.2f s and %d KiB with %d of them: %.4f s and %.1f KiB a line\n", prefixes, peers, $1, $2, $3, $4, n, each, ($4 - $2) / n
    if (each >= 0.1) { print "a line takes a tenth of a second or more"; exit 1 } }'
