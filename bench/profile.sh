#!/bin/bash
# Where the time of a run goes, by function and by crate: `perf` over a run of PREFIXES (200,000) to PEERS (32) external peers of
# one group, with `coalesce` COALESCE (4096) and --workers 0, with the routes after the sessions and before them. Prints the
# functions that take 1.5 parts in a hundred or more, and then the parts of each crate. It wants perf.
set -e
source "$(dirname "$0")/measure.sh"
source bench/fabric.sh

# profile ORDER: the profile of a run with the routes in this order.
profile() {
    config "${PEERS:-32}" 1 "${COALESCE:-4096}" > "$work/config"
    events "${PREFIXES:-200000}" "${PEERS:-32}" "$1" > "$work/events"
    mkdir -p "$work/there"
    perf record -q -F 4999 -o "$work/profile" "$program" run "$work/config" "$work/events" "$work/there" --workers 0 > "$work/report" 2> /dev/null
    rm -rf "$work/there"
    perf report -i "$work/profile" --stdio --sort symbol 2> /dev/null | awk '$1 ~ /%$/ {
        sub(/%/, "", $1)
        name = $3
        sub(/::<#.*/, "", name)
        parts[name] += $1
        room = $2 == "[k]" ? "the kernel" : (name ~ /::/ ? name : "the C library")
        sub(/::.*/, "", room)
        rooms[room] += $1
    }
    END {
        for (name in parts) if (parts[name] >= 1.5) printf "%5.1f %s\n", parts[name], name
        print "by crate"
        for (room in rooms) if (rooms[room] >= 1.5) printf "%5.1f %s\n", rooms[room], room
    }' | awk '/^by crate/ { close(sort); print; next } { print | sort }' sort="sort -rn"
}

for order in ${ORDERS:-after before}; do
    echo "routes $order the sessions"
    profile "$order"
done
