#!/bin/bash
# Runs 200,000 and 1,000,000 lines of `paths`, ten prefixes an attribute set, through reading, judging and taking, and prints
# how long a line takes, without the making of its text, the peak memory a line in the world, and how much more an event takes
# where it is kept, as the history of a run keeps it, without the entry that points at it; then how the time grows. Of five runs
# the shortest counts. The program, bench/lines, is no part of the gate: it is proved and built in a copy of the repository.
set -e
cd "$(dirname "${BASH_SOURCE[0]}")/.."
work=$(mktemp -d)
trap 'rm -rf "$work"' EXIT
git clone -q . "$work/copy"
mkdir -p "$work/copy/crates/lines/src"
cp bench/lines/main.rt.txt "$work/copy/crates/lines/src/main.rt"
for kept in crates/*/out; do
    [ ! -d "$kept" ] || cp -r "$kept" "$work/copy/$kept"
done
echo "lines: ug_world ug_events ug_outbound ug_types" >> "$work/copy/crates.txt"
(cd "$work/copy/crates/lines" && rt run) > "$work/log" 2>&1 || { tail -n 20 "$work/log"; exit 1; }
program=$work/copy/crates/lines/out/lines

# nanos WORDS..: the least time a line of five runs, in nanoseconds.
nanos() {
    for _ in 1 2 3 4 5; do "$program" "$@"; done | awk '{ for (i = 1; i < NF; i++) if ($(i + 1) == "ns" && $(i + 2) == "a") print $i }' | sort -n | head -n 1
}

# peak WORDS..: the peak memory in KiB that was seen on the way.
peak() {
    "$program" "$@" > "$work/said" &
    local pid=$! most=0 now
    while now=$(awk '/VmHWM/ { print $2 }' "/proc/$pid/status" 2> /dev/null) && [ -n "$now" ]; do
        [ "$now" -gt "$most" ] && most=$now
    done
    wait "$pid"
    echo "$most"
}

declare -A least
for lines in 200000 1000000; do
    words=()
    [ "$lines" = 200000 ] || words=(many)
    least[$lines]=$(nanos "${words[@]}")
    kib=$(peak "${words[@]}")
    kept=$(peak "${words[@]}" keep)
    awk -v n="$lines" -v s="${least[$lines]}" -v k="$kib" -v h="$kept" 'BEGIN {
        printf "%d lines: %d ns a line, peak %d KiB, %.0f bytes a line in the world, %.0f an event kept\n",
            n, s, k, k * 1024 / n, (h - k) * 1024 / n - 8 }'
done
awk -v a="${least[200000]}" -v b="${least[1000000]}" 'BEGIN { printf "growth from 200000 to 1000000 lines: %.2f times\n", 5 * b / a }'
