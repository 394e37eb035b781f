#!/bin/bash
# Runs 1,000,000 packets through a queue with 1, 8 and 64 members, with a queue of 40 and of 4,000 packets, and prints for
# each how long a packet takes a member: its turn at `is_member`, `left`, `stand`, `next` and `advance`. The program,
# bench/queue, is no part of the gate: it is proved and built in a copy of the repository.
set -e
cd "$(dirname "${BASH_SOURCE[0]}")/.."
work=$(mktemp -d)
trap 'rm -rf "$work"' EXIT
git clone -q . "$work/copy"
mkdir -p "$work/copy/crates/queue/src"
cp bench/queue/main.rt.txt "$work/copy/crates/queue/src/main.rt"
for kept in crates/ug_types/out crates/ug_segchain/out crates/ug_queue/out; do
    [ ! -d "$kept" ] || cp -r "$kept" "$work/copy/$kept"
done
echo "queue: ug_queue ug_types" >> "$work/copy/crates.txt"
cd "$work/copy/crates/queue"
rt run | tee "$work/log" | awk '/ members, / { printf "%s members, queue of %s: %d ns a packet, %.1f a packet and member\n", $1, $5, $6, $6 / $1 }'
grep -q ' members, ' "$work/log" || { tail -n 20 "$work/log"; exit 1; }
