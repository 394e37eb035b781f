#!/bin/bash
# Fails each allocation of some cases of tests/runs in turn, with workers and without, and of the other commands: see tests/memory.py. It is no part of
# the gate, and wants a C compiler (CC) and Python 3. PROGRAM is the program, or else out/ug_main. CASES names other cases.
cd "$(dirname "$0")/.." || exit 1
program=${PROGRAM:-$PWD/out/ug_main}
[ -x "$program" ] || { echo "no program at $program"; exit 1; }
work=$(mktemp -d)
trap 'rm -rf "$work"' EXIT
"${CC:-cc}" -shared -fPIC -O1 -o "$work/memory.so" tests/memory.c -ldl || exit 1
python3 tests/memory.py "$program" "$work/memory.so" ${CASES:-a-filter-later a-map-and-a-list a-refresh-between-marks an-ipv6-refresh-between-marks every-attribute filters paths-that-come-and-go splits-and-merges slow-peers check groups audit one selfrun}
