#!/bin/bash
# Tries the bridges. What needs a tool that isn't there is passed over. PROGRAM is the program, or else out/ug_main; without
# one the tests that run it are passed over.
export LC_ALL=C
cd "$(dirname "$0")/.." || exit 1
program=${PROGRAM:-$PWD/out/ug_main}
examples=examples/configurations
work=$(mktemp -d)
trap 'rm -rf "$work"' EXIT
passed=0
failed=0

. tests/same.sh

# missing NAME TOOL..: says what is passed over where one of the tools isn't there.
missing() {
    local name=$1 tool
    shift
    for tool in "$@"; do
        command -v "$tool" > /dev/null || { echo "passed over, for want of $tool: $name"; return 0; }
    done
    return 1
}

# ---- events of an MRT file

bridges/events_of_mrt.py bridges/tests/mrt.toml < bridges/tests/mrt.lines > "$work/events" 2> "$work/told"
same "events of the lines of a dump" "$work/events" bridges/tests/mrt.events
same "what the lines of a dump have that can't be said" "$work/told" bridges/tests/mrt.told
if ! missing "the lines of an MRT file" bgpdump; then
    bridges/tests/mrt.py > "$work/mrt"
    bgpdump -m "$work/mrt" 2> "$work/log" > "$work/lines"
    same "the lines of an MRT file" "$work/lines" bridges/tests/mrt.lines
fi

# ---- captures

if ! missing "captures of real streams" tshark text2pcap; then
    for name in frr-full bird-external gobgp-refresh openbgpd-ipv6-addpath frr-day; do
        stream=tests/samples/$name
        bridges/pcap_of_session.py $stream.bin "$work/capture" 2> "$work/log"
        bridges/session_of_pcap.py "$work/capture" 192.0.2.1 > "$work/stream" 2> "$work/log"
        same "a stream that was made a capture and cut out again ($name)" "$work/stream" $stream.bin
        bridges/rows_of_pcap.py "$work/capture" > "$work/rows"
        grep -v '^messages ' $stream.rows > "$work/wanted"
        same "what tshark reads of a real stream ($name)" "$work/rows" "$work/wanted"
    done
fi

# ---- JSON

for name in route-reflector route-server spine; do
    bridges/json_of.py groups < $examples/$name.groups > "$work/groups.json"
    bridges/json_of.py run < $examples/$name.report > "$work/run.json"
    for kind in groups run; do
        python3 -c 'import json, sys; [json.loads(line) for line in sys.stdin]' < "$work/$kind.json" > "$work/log" 2>&1
        same "each line of $kind is JSON ($name)" "$work/log" /dev/null
    done
done
bridges/json_of.py check < bridges/tests/check.text > "$work/check.json"
same "rows and faults of check as JSON" "$work/check.json" bridges/tests/check.json
bridges/json_of.py run < bridges/tests/run.text > "$work/run.json"
same "the lines of a report as JSON" "$work/run.json" bridges/tests/run.json

# ---- captures of all sessions of a speaker

bridges/tests/captured.py > "$work/log" 2>&1
same "small captures, written packet by packet" "$work/log" /dev/null

# ---- pages of audits, of the captures that are kept

# in_browser NAME PAGE TEXT..: the page in a browser, as wide as a phone, without an error; it shows the texts.
in_browser() {
    local name=$1
    shift
    missing "$name" chromium && return
    bridges/tests/in_browser.py "$@" > "$work/log" 2>&1
    same "$name" "$work/log" /dev/null
}

for name in frr-8.4.4 bird-2.0.12; do
    kept=examples/audit/$name
    bridges/audit_of_pcap.py $kept/capture.pcap $kept/config.toml "$work/$name" --also $kept/also --speaker ${name%%-*} > "$work/line" 2> "$work/told"
    bridges/page_of_audit.py "$work/$name" $kept/verdict > "$work/page"
    bridges/tests/page.py "$work/page" > "$work/log" 2>&1
    same "the page of an audit is whole ($name)" "$work/log" /dev/null
    sessions=$(grep -c '^session ' $kept/verdict)
    breaches=$(grep -c '^breach ' $kept/verdict)
    in_browser "the page of an audit in a browser ($name)" "$work/page" "Sessions: $sessions." "Breaches: $breaches." "$(sed -n 's/^  may/may/p' $kept/verdict | head -n 1)"
done

# ---- runs of the program

if [ -x "$program" ]; then
    for name in route-reflector route-server spine; do
        rm -rf "$work/there" && mkdir "$work/there"
        "$program" run $examples/$name.toml $examples/$name.events "$work/there" > "$work/report"
        bridges/page_of_run.py $examples/$name.toml $examples/$name.events "$work/report" "$work/there" --groups $examples/$name.groups > "$work/page"
        bridges/tests/page.py "$work/page" > "$work/log" 2>&1
        same "the page of a run is whole ($name)" "$work/log" /dev/null
        in_browser "the page of a run in a browser ($name)" "$work/page" "$(sed -n 's/^accepted \([0-9]*\) .*/accepted \1/p' "$work/report")"
        missing "what tshark reads of the sessions of $name" tshark text2pcap && continue
        examples/rows.sh $examples/$name.toml "$work/there" "$program" > "$work/rows"
        for session in "$work"/there/*; do
            peer=${session##*/}
            bridges/pcap_of_session.py "$session" "$work/capture" 2> "$work/log"
            bridges/rows_of_pcap.py "$work/capture" > "$work/read"
            awk -v session="$peer" '/^[a-z0-9_-]+\.[0-9]+$/ { mine = $0 == session; next } mine && !/^messages /' "$work/rows" > "$work/wanted"
            same "what tshark reads of $peer of $name" "$work/read" "$work/wanted"
        done
    done
else
    echo "passed over, for want of a program at $program: pages and captures of runs, and live sessions"
fi

# ---- live sessions

# counted WORDS..: runs tests that count for themselves.
counted() {
    "$@" > "$work/counted" 2>&1
    sed '$d' "$work/counted"
    passed=$((passed + $(sed -nE '$s/^([0-9]+) passed, [0-9]+ failed$/\1/p' "$work/counted")))
    failed=$((failed + $(sed -nE '$s/^[0-9]+ passed, ([0-9]+) failed$/\1/p' "$work/counted")))
    tail -n 1 "$work/counted" | grep -qE '^[0-9]+ passed, [0-9]+ failed$' || { tail -n 1 "$work/counted"; failed=$((failed + 1)); }
}

if [ -x "$program" ]; then
    counted bridges/tests/live.py "$program"
    counted bridges/tests/daemons.py "$program"
fi
echo "$passed passed, $failed failed"
[ "$failed" = 0 ]
