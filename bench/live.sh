#!/bin/bash
# Runs `bridges/live.py` over loopback with 1, 16 and 64 neighbors of one group that read (bench/live_readers.py, in Python as well),
# and prints how many routes a second they get, beside the time of `run` alone over the same events into files; how long 1,000
# routes take; and how long it takes from an event's line to the UPDATE at a neighbor. Routes are ten an attribute set. PEERS,
# PREFIXES (100,000), COALESCE (1) and RUNS (3, of which the least counts) are other numbers than these; a COALESCE above 1 wants a
# program that has a verb `flush`.
set -e
source "$(dirname "$0")/measure.sh"
exec python3 bench/live_readers.py "$program"
