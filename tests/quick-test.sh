#!/bin/bash
# Tries all cases, and the scripts that run the program, without a proof: by PROGRAM, or else out/ug_main-unproved. What only the
# gate does: proofs, wrong bodies, and what tests/oracles.sh and tests/comparisons.sh build.
cd "$(dirname "${BASH_SOURCE[0]}")/.." || exit 1
export PROGRAM=${PROGRAM:-$PWD/out/ug_main-unproved}
work=$(mktemp -d)
trap 'rm -rf "$work"' EXIT
source tests/counting.sh

start=$SECONDS
(cd crates/ug_cases && rt try --steps 1 --seconds 400 < stdin) > "$work/came" 2> "$work/told"
diff crates/ug_cases/stdout "$work/came" > "$work/other" && note cases ok || note cases "$(head -n 20 "$work/other" "$work/told")"
echo "cases: $((SECONDS - start)) s"
for script in tests/program.sh tests/runs.sh tests/audit.sh tests/captures.sh tests/day.sh tests/selfrun.sh tests/slow.sh tests/refused.sh tests/pages.sh bridges/test.sh; do
    start=$SECONDS
    "$script" > "$work/said" 2>&1 && note "$script" ok || note "$script" "$(tail -n 20 "$work/said")"
    echo "$script: $(tail -n 1 "$work/said"), $((SECONDS - start)) s"
done
echo "$passed passed, $failed failed"
[ "$failed" = 0 ]
