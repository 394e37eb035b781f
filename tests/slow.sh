#!/bin/bash
# Runs `run` with a thread for each session to three peers that share, one of which (p1) is read through a pipe that nobody
# reads for a while. The others are told everything in the meantime; the slow one is told what it lacks when it is read, and
# shares again. Each table is the same at the end. Then, with one thread, one peer leaves its subgroup and comes back many times.
# PROGRAM is the program, or else out/ug_main. TIMES is how often each run with threads is made.
export LC_ALL=C
cd "$(dirname "$0")/.." || exit 1
source tests/counting.sh
program=${PROGRAM:-$PWD/out/ug_main}
[ -x "$program" ] || { echo "no program at $program"; echo "0 passed, 1 failed"; exit 1; }
times=${TIMES:-3}
work=$(mktemp -d)
trap 'rm -rf "$work"' EXIT
cd "$work" || exit 1

# peer NAME NUMBER
peer() {
    printf '\n[[peer]]\nname = "%s"\nas = 65002\nrouter_id = "10.200.%d.2"\naddress = "10.200.%d.2"\nlocal_address = "10.200.%d.1"\nsubnet = "10.200.%d.0/24"\n' "$1" "$2" "$2" "$2" "$2"
}

# routes FROM TO MED: a route a line, each of another prefix.
routes() {
    seq "$1" "$2" | awk -v med="$3" '{ printf "paths 20.%d.%d.0/24 id=1 from=local nh=0.0.0.0 origin=igp as=- med=%d\n", int($1 / 256), $1 % 256, med }'
}

{
    printf '[local]\nas = 65001\nrouter_id = "10.255.0.1"\nqueue_limit = 20\nslow_after = 2\n'
    peer p1 1
    peer p2 2
    peer p3 3
} > config

# rows FILE: the routes that a session leaves, without their next hops, and how many they are.
rows() {
    "$program" check "$1" | sed -E 's/ nh=[0-9.]+//; s/^messages [0-9]+ eors/eors/'
}

# told PEER PREFIX MED [COMMAND]: whether the peer's session has this route within half a minute. Each time that it hasn't yet,
# the command is run.
told() {
    local start=$SECONDS
    while [ $((SECONDS - start)) -lt 30 ]; do
        "$program" check "there/$1.1" 2> errors | grep -q "^$2 .* med=$3\$" && return
        $4
        sleep 0.1
    done
    return 1
}

# A further event, which changes nothing: what waited behind a full queue is formatted before it, as far as there is room.
nudge() {
    echo 'policy p2 -' >&3
    nudges=$((nudges + 1))
}

# All sessions end as they should, and with the same routes.
compare() {
    local name=$1 want=$2
    [ "$code" = 0 ] && note "$name" ok || note "$name" "ends with $code, report '$(cat report)', errors '$(cat said)'"
    [ "$(cat report)" = "$want" ] && note "$name" ok || note "$name" "reports '$(cat report)'"
    rows piped > rows1
    rows there/p2.1 > rows2
    rows there/p3.1 > rows3
    cmp -s rows1 rows2 && cmp -s rows2 rows3 && note "$name" ok || note "$name" "tables differ: $(diff rows1 rows2 | head -n 5)"
}

# Nobody reads p1's pipe before the end of the file of events: the others are told all of it, and the run waits for p1 then.
until_the_end() {
    local name="a pipe that nobody reads until the end of the events"
    rm -rf there piped
    mkdir there
    mkfifo there/p1.1
    { echo 'up p2'; echo 'up p3'; echo 'up p1'; routes 0 999 1; routes 0 999 2; } > events
    "$program" run config events there --workers 1 > report 2> said &
    local run=$!
    told p2 20.3.231.0/24 2 && note "$name" ok || note "$name" "p2 isn't told all"
    told p3 20.3.231.0/24 2 && note "$name" ok || note "$name" "p3 isn't told all"
    kill -0 "$run" 2> errors && note "$name" ok || note "$name" "the run doesn't wait for p1"
    cat there/p1.1 > piped
    code=0
    wait "$run" || code=$?
    compare "$name" "accepted 2003 refused 0"
    # Of what changed while it was behind it is told the last state alone.
    [ "$("$program" check piped | sed -nE 's/^messages ([0-9]+) .*/\1/p')" -lt 2001 ] && note "$name" ok || note "$name" "p1 is told every change"
}

# p1 is read in the midst of the events, catches up, and is told what comes then with the others.
in_between() {
    local name="a pipe that is read again" run reader marks before after
    nudges=0
    rm -rf there piped lines
    mkdir there
    mkfifo there/p1.1 lines
    "$program" run config lines there --workers 1 > report 2> said &
    run=$!
    exec 3> lines
    { echo 'up p2'; echo 'up p3'; echo 'up p1'; routes 0 999 1; } >&3
    told p2 20.3.231.0/24 1 nudge && note "$name" ok || note "$name" "p2 isn't told all"
    told p3 20.3.231.0/24 1 nudge && note "$name" ok || note "$name" "p3 isn't told all"
    cat there/p1.1 > piped 3>&- &
    reader=$!
    { echo sync; routes 0 9 2; echo sync; echo 'withdraw 20.0.0.0/24'; } >&3
    exec 3>&-
    code=0
    wait "$run" || code=$?
    wait "$reader"
    marks=$(sed -nE 's/^sync ([0-9]+) (p[0-9]) 1 .*/\1 \2/p' report | tr '\n' ' ')
    before=$((1003 + nudges))
    after=$((1013 + nudges))
    [ "$marks" = "$before p1 $before p2 $before p3 $after p1 $after p2 $after p3 " ] && note "$name" ok || note "$name" "marks $marks"
    grep -v '^sync ' report > ended
    mv ended report
    compare "$name" "accepted $((1014 + nudges)) refused 0"
    # What came behind the first mark is the same packets for all: eleven messages of the same lengths.
    [ "$(last_sizes piped)" = "$(last_sizes there/p2.1)" ] && [ "$(last_sizes there/p2.1)" = "$(last_sizes there/p3.1)" ] && note "$name" ok || note "$name" "other packets behind the mark"
}

# last_sizes FILE: the lengths of the last eleven messages.
last_sizes() {
    od -An -v -tu1 -w1 "$1" | awk '
        left == 0 { place = 0; left = 19 }
        { place++; left-- }
        place == 17 { high = $1 }
        place == 18 { size = high * 256 + $1; left = size - 18; print size }' | tail -n 11 | tr '\n' ' '
}

# A peer leaves its subgroup and comes back a hundred thousand times: what is gone takes no time, the other peer is told nothing
# of it, and both have the same at the end.
splits_and_merges() {
    local name="splits and merges" pairs code
    {
        printf '[local]\nas = 65001\nrouter_id = "10.255.0.1"\n'
        peer p1 1
        peer p2 2
        printf '\n[[prefix_list]]\nname = "some"\n[[prefix_list.entry]]\nseq = 5\naction = "permit"\nprefix = "20.0.0.0/24"\n'
        printf '\n[[policy]]\nname = "some"\nprefix_list = "some"\n\n[[policy]]\nname = "all"\n'
    } > split-config
    for pairs in 1 100000; do
        {
            printf 'policy p1 all\npolicy p2 all\nup p1\nup p2\n'
            routes 0 1 7
            echo sync
            awk -v n="$pairs" 'BEGIN { for (i = 0; i < n; i++) { print "policy p2 some"; print "policy p2 all" } }'
        } > split-events
        rm -rf there
        mkdir there
        code=0
        (ulimit -t 60; "$program" run split-config split-events there --workers 0 > report 2> errors) || code=$?
        [ "$code" = 0 ] && [ "$(tail -n 1 report)" = "accepted $((2 * pairs + 6)) refused 0" ] && note "$name" ok || note "$name" "$pairs: status $code, $(tail -n 1 report)"
        [ "$(rows there/p1.1)" = "$(rows there/p2.1)" ] && note "$name" ok || note "$name" "$pairs: other tables"
        mv there/p1.1 "p1.$pairs"
    done
    cmp -s p1.1 p1.100000 && note "$name" ok || note "$name" "the other peer was told something"
}

for _ in $(seq "$times"); do
    until_the_end
    in_between
done
splits_and_merges
echo "$passed passed, $failed failed"
[ "$failed" = 0 ]
