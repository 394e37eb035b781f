#!/bin/bash
# Runs 100,000 and 1,000,000 IPv4 keys, no two alike, through an Adj-RIB-Out: each is set, announced once in packets as
# first_alike gives them, cleared, and withdrawn once. Ten keys have a value, or one, or all the same; they come in sorted
# and in random order. Prints for each the processor's time a key, of RUNS runs (5) the least, how that run's time fell on the
# four parts, and the peak memory a key; then how the processor's time grows from 100,000 to 1,000,000. The program,
# bench/adjout, is no part of the gate: it is proved and built in a copy of the repository.
# With PROGRAM it is taken as built. It wants GNU time.
set -e
cd "$(dirname "${BASH_SOURCE[0]}")/.."
[ -x /usr/bin/time ] || { echo "no /usr/bin/time" >&2; exit 1; }
work=$(mktemp -d)
trap 'rm -rf "$work"' EXIT
program=$PROGRAM
if [ -z "$program" ]; then
    git clone -q . "$work/copy"
    mkdir -p "$work/copy/crates/adjout/src"
    cp bench/adjout/main.rt.txt "$work/copy/crates/adjout/src/main.rt"
    for kept in ug_types ug_short_key ug_intern ug_adjout; do
        [ ! -d "crates/$kept/out" ] || cp -r "crates/$kept/out" "$work/copy/crates/$kept/out"
    done
    echo "adjout: ug_adjout ug_short_key ug_types" >> "$work/copy/crates.txt"
    (cd "$work/copy/crates/adjout" && rt run -- 1000 10 1) > "$work/log" 2>&1 || { tail -n 20 "$work/log"; exit 1; }
    program=$work/copy/crates/adjout/out/adjout
fi

# run KEYS SHARE SCATTER: of the runs the one that took least: its processor's seconds (its own and the system's), its peak
# memory in KiB, its line.
run() {
    local TIMEFORMAT='%3U %3S'
    for _ in $(seq "${RUNS:-5}"); do
        { time /usr/bin/time -f '%M' -o "$work/said" "$program" "$@" > "$work/report"; } 2> "$work/took"
        echo "$(awk '{ print $1 + $2 }' "$work/took") $(cat "$work/said" "$work/report" | tr '\n' ' ')"
    done | sort -n | head -n 1
}

for order in sorted random; do
    scatter=1
    [ "$order" = sorted ] || scatter=2654435761
    for share in 10 1 all; do
        before=
        for keys in 100000 1000000; do
            each=$share
            [ "$share" != all ] || each=$keys
            run "$keys" "$each" "$scatter" > "$work/line"
            awk -v keys="$keys" -v share="$share" -v order="$order" -v before="$before" '{
                if ($17 != keys || $18 != 0) { print "keys were lost: " $0; exit 1 }
                all = $12 + 0
                printf "%d keys in %s order, %s a value: %d ns a key (set %d in 100, announced %d, cleared %d, withdrawn %d), peak %d bytes a key",
                    keys, order, share, $1 * 1e9 / keys, 100 * $9 / all, 100 * ($10 - $9) / all, 100 * ($11 - $10) / all, 100 * ($12 - $11) / all, $2 * 1024 / keys
                if (before) printf "; growth %.2f", $1 / before
                print ""
            }' "$work/line"
            before=$(cut -d ' ' -f 1 "$work/line")
        done
    done
done
