#!/bin/bash
# Runs 1, 2, 4, 8 and 33 threads that take turns in a loop, and prints for each how long a turn takes and how evenly the
# turns fall; then how long one thread works beside 1 and 32 that wait for the turn, or take it and nap, with all
# processors and with two; and last 1,000,000 packets of 100 bytes through 1, 8 and 32 lanes over wires in memory, which
# one thread pumps in turn or a thread each; and then what an event and a session cost in a run (bench/events.sh). The programs, bench/turns and bench/pumps, are no part of the gate: they are
# proved and built in a copy of the repository, where their files lose the ending `.txt`.
set -e
cd "$(dirname "${BASH_SOURCE[0]}")/.."
work=$(mktemp -d)
trap 'rm -rf "$work"' EXIT
git clone -q . "$work/copy"
for crate in ug_types ug_edge ug_turnstile ug_board ug_sender; do
    [ ! -d "crates/$crate/out" ] || cp -r "crates/$crate/out" "$work/copy/crates/$crate/out"
done
cat >> "$work/copy/crates.txt" << 'END'
turns: ug_turnstile ug_types
pumps: ug_sender ug_edge ug_board ug_turnstile ug_types atomic_table
END

for name in turns pumps; do
    find "bench/$name" -name '*.txt' | while read -r file; do
        to="$work/copy/crates/${file#bench/}"
        mkdir -p "$(dirname "$to")"
        cp "$file" "${to%.txt}"
    done
done

# Proves, builds and runs a program.
run() {
    (cd "$work/copy/crates/$1" && rt run) > "$work/log" 2>&1 || { tail -n 20 "$work/log"; exit 1; }
    grep -E '^[0-9]+ (threads|lanes): |^one works ' "$work/log"
}

run turns
if command -v taskset > /dev/null; then
    echo "on two processors:"
    taskset -c 0,1 "$work/copy/crates/turns/out/turns"
fi
run pumps
bench/events.sh
