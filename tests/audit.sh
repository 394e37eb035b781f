#!/bin/bash
# Tries `audit`: rows whose answers were worked out by hand, drawn runs with drawn damage beside the plain, slow auditor of
# tests/auditor.py, and what the program itself leaves: the cases of tests/runs that end with 0 or 8, the examples, and the day,
# with workers and without, which all audit to 0. PROGRAM is the program, or else out/ug_main. RUNS (24) is how many runs are drawn.
# With the words rows, outside, drawn, cases, examples or day it tries these alone.
export LC_ALL=C
cd "$(dirname "$0")/.." || exit 1
source tests/counting.sh
root=$PWD
program=${PROGRAM:-$root/out/ug_main}
[ -x "$program" ] || { echo "no program at $program"; echo "0 passed, 1 failed"; exit 1; }
work=$(mktemp -d)
trap 'rm -rf "$work"' EXIT

# compared WORDS..: what tests/audit.py counts is added.
compared() {
    local last
    python3 tests/audit.py "$@" > "$work/compared" || true
    last=$(tail -n 1 "$work/compared")
    sed '$d' "$work/compared"
    if [[ $last =~ ^([0-9]+)\ passed,\ ([0-9]+)\ failed$ ]]; then
        passed=$((passed + BASH_REMATCH[1]))
        failed=$((failed + BASH_REMATCH[2]))
    else
        note "tests/audit.py $1" "doesn't end: $last"
    fi
}

# run CONFIG EVENTS WORKERS [LIMIT]: leaves the sessions in $work/there, the report in $work/report and the status in $status.
run() {
    status=0
    (
        cd "$work" || exit 99
        [ -z "$4" ] || { trap '' XFSZ; ulimit -f "$4"; }
        exec "$program" run "$1" "$2" there --workers "$3"
    ) > "$work/report" 2> "$work/errors" || status=$?
}

# empty: a folder for sessions.
empty() {
    rm -rf "$work/there"
    mkdir "$work/there"
}

# right NAME CONFIG EVENTS: what was run audits to 0, with a line for each session.
right() {
    local code=0 sessions
    "$program" audit "$2" "$3" "$work/report" "$work/there" > "$work/certificate" 2> "$work/errors" || code=$?
    sessions=$(find "$work/there" -type f | wc -l)
    if [ "$code" = 0 ] && [ ! -s "$work/errors" ] && [ "$(grep -c '^session ' "$work/certificate")" = "$sessions" ]; then
        note "$1" ok
    else
        note "$1" "ends with $code, $(head -n 1 "$work/certificate"), of $sessions sessions"
    fi
}

# slowly NAME CONFIG EVENTS: the certificate is that of the slow auditor.
slowly() {
    python3 tests/auditor.py audit "$2" "$3" "$work/report" "$work/there" > "$work/slow" 2> "$work/errors"
    cmp -s "$work/slow" "$work/certificate" && note "$1" ok || note "$1" "other certificates: $(diff "$work/slow" "$work/certificate" | head -n 5)"
}

# A session whose file could not be made is lost, and has no file: an audit asks for it, and an empty one is right.
without_files() {
    local name=$1 config=$2 events=$3 word peer n code=0
    local lost=()
    while read -r word peer n; do
        [ -f "$work/there/$peer.$n" ] && [ ! -L "$work/there/$peer.$n" ] && continue
        rm -rf "$work/there/$peer.$n"
        lost+=("$work/there/$peer.$n")
    done < <(grep '^lost ' "$work/report")
    [ ${#lost[@]} = 0 ] && return
    "$program" audit "$config" "$events" "$work/report" "$work/there" > "$work/certificate" 2> "$work/errors" || code=$?
    [ "$code" = 3 ] && [ "$(cat "$work/certificate")" = "status 3 read" ] && note "$name" ok || note "$name" "without its files ends with $code"
    touch "${lost[@]}"
}

# ended NAME STATUS TEXT: whether an audit ended so, with the status in $code, and said this.
ended() {
    [ "$code" = "$2" ] && [ "$(cat "$work/said")" = "$3" ] && [ ! -s "$work/errors" ] && note "$1" ok || note "$1" "ends with $code, $(cat "$work/said")"
}

# Files that are pipes, which can be read once, and a report that can't be written.
outside() {
    local config=$root/examples/configurations/c1.toml code=0 certificate
    printf 'up p1\npaths 10.0.0.0/8 id=1 from=local nh=0.0.0.0 origin=igp as=-\nsync\nwithdraw 10.0.0.0/8\n' > "$work/events"
    certificate=$(printf 'session p1 1 messages 3\nclimb 10.0.0.0/8 id=0 2@2 3@3')
    empty
    run "$config" "$work/events" 0
    cp "$work/there/p1.1" "$work/session"
    rm "$work/there/p1.1"
    mkfifo "$work/there/p1.1"
    cat "$work/session" > "$work/there/p1.1" &
    "$program" audit <(cat "$config") <(cat "$work/events") <(cat "$work/report") "$work/there" > "$work/said" 2> "$work/errors" || code=$?
    wait
    ended "files that are pipes" 0 "$certificate"

    # The word that comes is the status, whether or not its line can be written.
    rm "$work/there/p1.1"
    : > "$work/said"
    for end in 4 10 11; do
        head -c $([ $end = 10 ] && echo 68 || echo 93) "$work/session" > "$work/there/p1.1"
        [ $end = 11 ] && echo lost >> "$work/report"
        code=0
        "$program" audit "$config" "$work/events" "$work/report" "$work/there" > /dev/full 2> "$work/errors" || code=$?
        ended "what is said can't be written, status $end" $end ""
    done
    head -c 93 "$work/session" > "$work/there/p1.1"
    code=0
    (cd "$work" && "$program" audit "$config" events /dev/null there/ > said 2> errors) || code=$?
    ended "a folder with a slash, and no report" 0 "$certificate"
}

# The cases of tests/runs that read all and so end with 0 or 8.
cases() {
    local case name want how config events limit
    for case in "$root"/tests/runs/*/; do
        case=${case%/}
        name=$(basename "$case")
        want=0
        [ -f "$case/status" ] && want=$(cat "$case/status")
        [ "$want" = 0 ] || [ "$want" = 8 ] || continue
        config=$case/config.toml
        [ -f "$case/config" ] && config=$root/examples/configurations/$(cat "$case/config").toml
        events=$case/events
        [ -f "$case/events.sh" ] && bash "$case/events.sh" > "$work/events" && events=$work/events
        limit=
        [ -f "$case/limit" ] && limit=$(cat "$case/limit")
        for how in 0 1; do
            [ -f "$case/workers" ] && ! grep -qw "$how" "$case/workers" && continue
            empty
            [ -f "$case/before.sh" ] && (cd "$work/there" && . "$case/before.sh")
            run "$config" "$events" "$how" "$limit"
            [ "$status" = "$want" ] || note "$name, workers $how" "the run ends with $status"
            without_files "$name, workers $how" "$config" "$events"
            right "$name, workers $how" "$config" "$events"
            slowly "$name, workers $how" "$config" "$events"
        done
    done
}

examples() {
    local name how example
    for name in route-reflector route-server spine; do
        example=$root/examples/configurations/$name
        for how in 0 1; do
            empty
            run "$example.toml" "$example.events" "$how"
            right "$name, workers $how" "$example.toml" "$example.events"
            slowly "$name, workers $how" "$example.toml" "$example.events"
        done
    done
}

# The whole day, and a hundredth of it, which is little enough for the slow auditor.
day() {
    local part how start
    for part in 1 100; do
        mkdir "$work/day.$part"
        python3 tests/day.py "$work/day.$part" "$part"
        for how in 0 1; do
            empty
            run "$work/day.$part/config.toml" "$work/day.$part/events" "$how"
            start=$(date +%s.%N)
            right "a day, workers $how" "$work/day.$part/config.toml" "$work/day.$part/events"
            if [ "$part" = 1 ]; then
                awk -v a="$start" -v b="$(date +%s.%N)" -v w="$how" 'BEGIN { printf "a day with --workers %d is audited in %.2f s\n", w, b - a }'
            else
                slowly "a part of a day, workers $how" "$work/day.$part/config.toml" "$work/day.$part/events"
            fi
        done
    done
}

for part in "${@:-all}"; do
    case $part in
        rows) compared rows "$program" ;;
        drawn) compared drawn "$program" "${RUNS:-24}" ;;
        outside | cases | examples | day) $part ;;
        all)
            compared rows "$program"
            outside
            compared drawn "$program" "${RUNS:-24}"
            cases
            examples
            day
            ;;
    esac
done
echo "$passed passed, $failed failed"
[ "$failed" = 0 ]
