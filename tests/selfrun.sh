#!/bin/bash
# Fifty drawn workloads, each compared with what an independent program in Python says of it (tests/selfrun.py): `selfrun` twice,
# and `run` over files with 1 to 16 peers, with workers and without, whose files audit to 0. PROGRAM is the program, or else out/ug_main.
cd "$(dirname "$0")/.." || exit 1
program=${PROGRAM:-$PWD/out/ug_main}
[ -x "$program" ] || { echo "no program at $program"; echo "0 passed, 1 failed"; exit 1; }
exec python3 tests/selfrun.py try "$program" 50
