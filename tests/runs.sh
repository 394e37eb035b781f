#!/bin/bash
# Runs `run` over the cases of tests/runs, with workers and without: what it ends with, what it reports, and the bytes of
# every session. PROGRAM is the program, or else out/ug_main. TIMES is how often each case runs with workers. With names of
# cases, `stories` or `statuses` it runs these alone.
#
# A case is a folder:
#   config.toml         the configuration, or `config`: the name of one of examples/configurations
#   events              the events, or `events.sh`, which prints them
#   report              the report, exactly
#   status              the exit status, where it isn't 0
#   PEER.N.hex          the bytes of session N, as hexadecimal text: M is a marker, 3*AB is ABABAB, # begins a comment
#   PEER.N.front        a message a line: the session has some of them, from the first on
#   PEER.N.sizes        the lengths of the session's messages, one a line
#   PEER.N.rows         what `check` prints of the session, with the options in PEER.options
#   before.sh           is run in the folder of the sessions first
#   limit               so many times 1,024 bytes a file may have
#   workers             with which values of --workers alone the outcome is settled
# A session that no file names must not be there.
export LC_ALL=C
cd "$(dirname "$0")/.." || exit 1
root=$PWD
program=${PROGRAM:-$root/out/ug_main}
times=${TIMES:-5}
[ -x "$program" ] || { echo "no program at $program"; echo "0 passed, 1 failed"; exit 1; }
work=$(mktemp -d)
trap 'rm -rf "$work"' EXIT
passed=0
failed=0

# note NAME PROBLEM..: counts a test that passed where no problem is given.
note() {
    if [ $# = 1 ]; then
        passed=$((passed + 1))
    else
        failed=$((failed + 1))
        echo "$*"
    fi
}

# spelled FILE: the hexadecimal text of a file, a line for each of its lines that has some.
spelled() {
    sed -e 's/#.*//' "$1" | tr 'A-Z' 'a-z' | awk 'NF { line = ""
        for (i = 1; i <= NF; i++) {
            word = $i
            count = 1
            if (split(word, part, "*") == 2) { count = part[1]; word = part[2] }
            if (word == "m") word = "ffffffffffffffffffffffffffffffff"
            while (count-- > 0) line = line word
        }
        print line }'
}

# bytes FILE: its bytes as hexadecimal text.
bytes() {
    od -An -v -tx1 "$1" | tr -d ' \n'
}

# sizes FILE: the lengths of the messages of a session, and what is left over.
sizes() {
    od -An -v -tu1 -w1 "$1" | awk '
        left == 0 { place = 0; left = 19 }
        { place++; left-- }
        place == 17 { high = $1 }
        place == 18 { size = high * 256 + $1; left = size - 18; print size }
        END { if (left > 0) print "and a rest" }'
}

# has_front TEXT FILE: whether the text is some lines of the file, from the first on.
has_front() {
    local text=$1 line
    while IFS= read -r line; do
        [ -z "$text" ] && return 0
        [ "${text#"$line"}" = "$text" ] && return 1
        text=${text#"$line"}
    done < <(spelled "$2")
    [ -z "$text" ]
}

# session CASE FILE: what is wrong with a session's file, if anything.
session() {
    local case=$1 name=${2##*/} peer options=() status=0 known=no
    peer=${name%.*}
    [ -f "$case/$peer.options" ] && read -r -a options < "$case/$peer.options"
    if [ -f "$case/$name.hex" ]; then
        known=yes
        [ "$(bytes "$2")" = "$(spelled "$case/$name.hex" | tr -d '\n')" ] || echo "$name is $(bytes "$2")"
    fi
    if [ -f "$case/$name.front" ]; then
        known=yes
        has_front "$(bytes "$2")" "$case/$name.front" || echo "$name is $(bytes "$2")"
    fi
    if [ -f "$case/$name.sizes" ]; then
        known=yes
        [ "$(sizes "$2")" = "$(cat "$case/$name.sizes")" ] || echo "$name has other messages"
    fi
    if [ -f "$case/$name.rows" ]; then
        known=yes
        "$program" check "${options[@]}" "$2" > "$work/rows" 2>&1 || status=$?
        [ "$status" = 0 ] || echo "check of $name ends with $status"
        cmp -s "$work/rows" "$case/$name.rows" || { echo "rows of $name:"; diff "$work/rows" "$case/$name.rows" | head -n 10; }
    fi
    [ $known = yes ] || echo "$name is there"
}

# problems CASE WORDS..: runs a case once, with these words in place of the folder of the sessions, and says what is wrong.
problems() {
    local case=$1 config events status=0 want=0 file name
    shift
    config=$case/config.toml
    [ -f "$case/config" ] && config=$root/examples/configurations/$(cat "$case/config").toml
    events=$case/events
    [ -f "$work/events" ] && events=$work/events
    rm -rf "$work/there"
    mkdir "$work/there"
    [ -f "$case/before.sh" ] && (cd "$work/there" && . "$case/before.sh")
    (
        cd "$work" || exit 99
        [ -f "$case/limit" ] && { trap '' XFSZ; ulimit -f "$(cat "$case/limit")"; }
        exec "$program" run "$config" "$events" "$@"
    ) > "$work/report" 2> "$work/errors" || status=$?
    [ -f "$case/status" ] && want=$(cat "$case/status")
    [ "$status" = "$want" ] || echo "ends with $status"
    [ -s "$work/errors" ] && echo "says $(head -c 200 "$work/errors")"
    cmp -s "$work/report" "$case/report" || { echo "report:"; diff "$work/report" "$case/report" | head -n 10; }
    for file in "$work"/there/*; do
        [ -f "$file" ] && session "$case" "$file"
    done
    for file in "$case"/*.hex "$case"/*.front "$case"/*.sizes "$case"/*.rows; do
        [ -f "$file" ] || continue
        name=$(basename "$file")
        [ -f "$work/there/${name%.*}" ] || echo "${name%.*} isn't there"
    done
}

# try_case CASE: runs a case with workers and without.
try_case() {
    local case=$1 name said how
    name=$(basename "$case")
    rm -f "$work/events"
    [ -f "$case/events.sh" ] && bash "$case/events.sh" > "$work/events"
    for how in 0 1 default; do
        [ -f "$case/workers" ] && ! grep -qw "$how" "$case/workers" && continue
        said=
        case $how in
            0) said=$(problems "$case" there --workers 0) ;;
            1) for _ in $(seq "$times"); do said+=$(problems "$case" --workers=1 there); done ;;
            default) said=$(problems "$case" there) ;;
        esac
        if [ -z "$said" ]; then note "$name"; else note "$name, workers $how:" "$said"; fi
    done
}

# The stories of the examples.
stories() {
    for name in route-reflector route-server spine; do
        example=$root/examples/configurations/$name
        for how in 0 1; do
            rm -rf "$work/there"
            mkdir "$work/there"
            code=0
            "$program" run "$example.toml" "$example.events" "$work/there" --workers $how > "$work/report" 2> "$work/errors" || code=$?
            if [ "$code" = 0 ] && [ ! -s "$work/errors" ] && cmp -s "$work/report" "$example.report"; then
                note "$name"
            else
                note "$name, workers $how:" "ends with $code, report: $(diff "$work/report" "$example.report" | head -n 10)"
            fi
            "$root/examples/rows.sh" "$example.toml" "$work/there" "$program" > "$work/rows" 2>&1
            if cmp -s "$work/rows" "$example.rows"; then
                note "sessions of $name"
            else
                note "sessions of $name, workers $how:" "$(diff "$work/rows" "$example.rows" | head -n 10)"
            fi
        done
    done
}

# ends NAME STATUS REPORT WORDS..: whether the program ends so, and leaves no file in an empty folder.
ends() {
    local name=$1 status=$2 want=$3 code=0
    shift 3
    rm -rf there
    mkdir there
    "$program" "$@" > report 2> errors || code=$?
    if [ "$code" = "$status" ] && [ "$(cat report)" = "$want" ] && [ ! -s errors ] && [ -z "$(ls there)" ]; then
        note "$name"
    else
        note "$name:" "ends with $code, report '$(cat report)', errors '$(cat errors)', files '$(ls there)'"
    fi
}

# leaves NAME STATUS REPORT WORDS..: the same of a run that has told both peers everything.
leaves() {
    local name=$1 status=$2 want=$3 code=0
    shift 3
    rm -rf there
    mkdir there
    "$program" "$@" > report 2> errors || code=$?
    if [ "$code" = "$status" ] && [ "$(cat report)" = "$want" ] && [ ! -s errors ] &&
        [ "$(bytes there/p1.1)" = "$(spelled "$root/tests/runs/two-peers/p1.1.hex" | tr -d '\n')" ] &&
        [ "$(bytes there/p2.1)" = "$(spelled "$root/tests/runs/two-peers/p2.1.hex" | tr -d '\n')" ]; then
        note "$name"
    else
        note "$name:" "ends with $code, report '$(cat report)', errors '$(cat errors)', files '$(ls there)'"
    fi
}

# Statuses that the words and the files make.
statuses() {
    cd "$work" || exit 1
    cp "$root/examples/configurations/c2.toml" config
    printf '[local]\nas = 65001\nrouter_id = "192.0.2.254"\n[[policy]]\nname = "p"\nroute_map = "m9"\n' > refused
    printf 'up p1\nup p2\npaths 10.0.0.0/8 id=1 from=local nh=0.0.0.0 origin=igp as=-\n' > events
    head -c 1048577 /dev/zero | tr '\0' '#' > long
    mkdir -p folder
    touch file

    ends "no words" 1 "status 1 usage"
    ends "run alone" 1 "status 1 usage" run
    ends "two words behind run" 1 "status 1 usage" run config events
    ends "four words behind run" 1 "status 1 usage" run config events there there
    ends "another value of --workers" 1 "status 1 usage" run config events there --workers 2
    ends "a value of --workers with more digits" 1 "status 1 usage" run config events there --workers 00
    ends "--workers without a value" 1 "status 1 usage" run config events there --workers
    ends "--workers= without a value" 1 "status 1 usage" run config events there --workers=
    ends "--workers twice" 1 "status 1 usage" run config events there --workers 0 --workers 0
    ends "--workers twice, in two forms" 1 "status 1 usage" run config --workers 1 events there --workers=1
    ends "an option of another command" 1 "status 1 usage" run --add-path config events there
    ends "--workers of another command" 1 "status 1 usage" groups config --workers 0
    ends "--workers before the command" 1 "status 1 usage" --workers 0 run config events there
    ends "--help" 1 "status 1 usage" run --help
    ends "a value before the option" 1 "status 1 usage" run config events there 0 --workers
    ends "--workers behind --" 1 "status 1 usage" run config events there -- --workers 0
    ends "words that are no text" 1 "status 1 usage" run config events $'\xff'

    leaves "--workers behind the command" 0 "accepted 3 refused 0" run --workers 0 config events there
    leaves "--workers=0 between the words" 0 "accepted 3 refused 0" run config --workers=0 events there
    leaves "--workers 1 at the end" 0 "accepted 3 refused 0" run config events there --workers 1
    leaves "-- before the words" 0 "accepted 3 refused 0" run --workers 1 -- config events there
    leaves "-- between the words" 0 "accepted 3 refused 0" run config -- events there
    leaves "a folder with a slash" 0 "accepted 3 refused 0" run config events there/

    ends "a configuration that is refused" 2 "status 2 config 6 policy.0.route_map" run refused events there
    ends "an empty configuration" 2 "status 2 config 2 local" run file events there
    ends "a refused configuration and no events" 2 "status 2 config 6 policy.0.route_map" run refused nothing there
    ends "a refused configuration and no folder" 2 "status 2 config 6 policy.0.route_map" run refused events nowhere
    ends "no configuration" 3 "status 3 read" run nothing events there
    ends "no configuration and no folder" 3 "status 3 read" run nothing events nowhere
    ends "a folder as the configuration" 3 "status 3 read" run folder events there
    ends "no events" 3 "status 3 read" run config nothing there
    ends "a folder as the events" 3 "status 3 read" run config folder there
    ends "no folder" 5 "status 5 site" run config events nowhere
    ends "no folder and no events" 5 "status 5 site" run config nothing nowhere
    ends "a file as the folder" 5 "status 5 site" run config events file
    ends "a configuration that is too long" 7 "status 7 too-long" run long events there
    ends "a configuration that is too long and no folder" 7 "status 7 too-long" run long events nowhere

    # A report that can't be written: the sessions are front parts of what they would be.
    for how in 0 1; do
        rm -rf there
        mkdir there
        code=0
        (echo 'down p2'; cat events) > many
        "$program" run config many there --workers $how > /dev/full 2> errors || code=$?
        whole=$(spelled "$root/tests/runs/two-peers/p1.1.hex" | tr -d '\n')
        sent=
        [ -f there/p1.1 ] && sent=$(bytes there/p1.1)
        if [ "$code" = 4 ] && [ ! -s errors ] && [ "${whole#"$sent"}" != "$whole" -o -z "$sent" ]; then
            note "a report that can't be written"
        else
            note "a report that can't be written, workers $how:" "ends with $code, p1.1 is $sent, errors '$(cat errors)'"
        fi
        "$program" run refused events there > /dev/full 2> errors
        [ $? = 2 ] && note "the report of a refused configuration can't be written" || note "the report of a refused configuration can't be written" "ends with another status"
    done

    # What stands in the folder already: a session's file is written anew, any other stays.
    rm -rf there
    mkdir there
    head -c 1000 /dev/zero > there/p1.1
    echo kept > there/p1.2
    echo kept > there/other
    "$program" run config events there > report 2> errors
    if [ "$(bytes there/p1.1)" = "$(spelled "$root/tests/runs/two-peers/p1.1.hex" | tr -d '\n')" ] && [ "$(cat there/p1.2 there/other)" = $'kept\nkept' ]; then
        note "files that were there"
    else
        note "files that were there:" "$(ls -l there)"
    fi
}

if [ $# -gt 0 ]; then
    for name in "$@"; do
        case $name in
            stories | statuses) $name ;;
            *) try_case "$root/tests/runs/$name" ;;
        esac
    done
else
    for case in "$root"/tests/runs/*/; do
        try_case "${case%/}"
    done
    stories
    statuses
fi
echo "$passed passed, $failed failed"
[ "$failed" = 0 ]
