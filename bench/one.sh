#!/bin/bash
# Runs `one` over 100,000 and 400,000 distinct prefixes, and prints for each the time, the instructions where the
# machine counts them, the peak memory and the bytes written, and then how they grow from the one to the other.
set -e
source "$(dirname "$0")/measure.sh"

# A file of that many lines, each of another /24.
events() {
    awk -v n="$1" 'BEGIN { for (i = 0; i < n; i++)
        printf "paths %d.%d.%d.0/24 id=1 from=local nh=0.0.0.0 origin=igp as=-\n", 1 + int(i / 65536), int(i / 256) % 256, i % 256 }'
}

instructions() {
    if command -v perf > /dev/null 2>&1; then
        perf stat -x, -e instructions:u "$program" one "$1" "$2" 2>&1 > /dev/null | awk -F, '/instructions/ { print ($1 ~ /^[0-9]+$/) ? $1 : "not counted"; exit }'
    else
        echo "not counted"
    fi
}

declare -A seconds
for n in 100000 400000; do
    mkdir "$work/$n"
    events "$n" > "$work/$n.txt"
    seconds[$n]=$(measure 7 one "$work/$n.txt" "$work/$n")
    echo "$n prefixes: ${seconds[$n]} s, instructions $(instructions "$work/$n.txt" "$work/$n"), peak $(peak one "$work/$n.txt" "$work/$n") KiB, $(stat -c %s "$work/$n/p1.1") bytes written; $(cat "$work/report")"
done
awk -v a="${seconds[100000]}" -v b="${seconds[400000]}" 'BEGIN { printf "growth from 100000 to 400000: %.2f times\n", b / a }'
