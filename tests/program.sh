#!/bin/bash
# Runs the program on real files: what it ends with, what it says, and which files it leaves. PROGRAM is the program, or
# else out/ug_main.
cd "$(dirname "$0")/.." || exit 1
source tests/counting.sh
program=${PROGRAM:-$PWD/out/ug_main}
[ -x "$program" ] || { echo "no program at $program"; echo "0 passed, 1 failed"; exit 1; }
examples=$PWD/examples
samples=$PWD/tests/samples
page=$PWD/docs/RUNNING.md
work=$(mktemp -d)
trap 'rm -rf "$work"' EXIT
cd "$work" || exit 1
mkdir there
printf 'paths 10.0.0.0/8 id=1 from=local nh=0.0.0.0 origin=igp as=-\n' > events
(cat events; echo 'withdraw 10.0.0.0/8') > gone
(cat gone; echo 'withdraw 10.0.0.0/8') > gone-twice

# run WORDS..: runs the program, and keeps its exit number, its report and what it says of errors. One that doesn't end within a
# minute has 124.
run() {
    said=$(timeout 60 "$program" "$@" 2> errors)
    code=$?
    errors=$(cat errors)
}

# ends NAME STATUS REPORT: whether the last run ended so.
ends() {
    if [ "$code" = "$2" ] && [ "$said" = "$3" ] && [ -z "$errors" ]; then
        note "$1" ok
    else
        note "$1" "status $code, report '$said', errors '$errors'"
    fi
}

# expect NAME STATUS REPORT BYTES WORDS..: BYTES is how many the session has, and - where there is no file.
expect() {
    local name=$1 status=$2 report=$3 bytes=$4 size=-
    shift 4
    rm -rf there/*
    run "$@"
    ends "$name" "$status" "$report"
    [ -f there/p1.1 ] && size=$(stat -c %s there/p1.1)
    [ "$size" = "$bytes" ] && note "$name" ok || note "$name" "$size bytes"
}

# same NAME FILE FILE: whether the files are equal.
same() {
    cmp -s "$2" "$3" && note "$1" ok || note "$1" "$2 and $3 differ"
}

# ---- what `one` reads and writes

expect "one announcement" 0 "accepted 1 refused 0" 68 one events there
cp there/p1.1 announced
expect "an announcement and its withdrawal" 0 "accepted 2 refused 0" 93 one gone there
expect "a withdrawal of no prefix" 0 $'line 3 refused 4 no-such-prefix\naccepted 2 refused 1' 93 one gone-twice there
expect "no file of events" 3 "status 3 read" - one nothing there
expect "a folder as the file of events" 3 "status 3 read" 23 one there there
expect "no folder" 5 "status 5 site" - one events nowhere
expect "a file as the folder" 5 "status 5 site" - one events events
expect "no words" 1 "status 1 usage" -
expect "an unknown option" 1 "status 1 usage" - one --fast events there
expect "words that are no text" 1 "status 1 usage" - one events $'\xff'

# Lines of a file that is read in many pieces, and cut within a line by most of them.
for n in $(seq 1 250); do
    for m in 1 2 3 4 5 6 7 8; do
        echo "paths 10.$n.$m.0/24 id=1 from=local nh=0.0.0.0 origin=igp as=-"
    done
done > pieces
run one pieces there
ends "a file that is read in pieces" 0 "accepted 2000 refused 0"
run check there/p1.1
tail -n 1 <<< "$said" > counted
grep -c ' nh=192.0.2.1 origin=igp as=65001$' <<< "$said" >> counted
printf 'messages 2001 eors 1 rows 2000 rest 0\n2000\n' > wanted
same "all routes of a file that is read in pieces" counted wanted

head -c 2000000 /dev/zero | tr '\0' '\n' > lines
expect "as many lines as are read" 0 "accepted 0 refused 0" 23 one lines there
echo >> lines
expect "a line too many" 7 "status 7 too-long" 23 one lines there

run one "$examples/first/events.txt" there
od -A d -t x1 there/p1.1 > dump
sed -n '/^    od -A d -t x1/,/^$/p' "$page" | sed -e 1d -e '/^$/d' -e 's/^    //' > dump.page
same "the bytes that docs/RUNNING.md shows" dump dump.page

# ---- sessions and reports that can't be written

lost=$'lost p1 1\naccepted 1 refused 0\nstatus 8 lost p1 1'
rm -rf there/*
ln -s /dev/full there/p1.1
run one events there
ends "a full device as the session's file" 8 "$lost"
rm -rf there/*
mkdir there/p1.1
run one events there
ends "a folder as the session's file" 8 "$lost"
rm -rf there/*

# ---- what stands already under a session's name

rm -rf there/*
head -c 1000 /dev/zero > there/p1.1
run one events there
ends "a session whose file was there" 0 "accepted 1 refused 0"
same "a session that replaces a longer file" there/p1.1 announced
rm -rf there/*

echo "of another folder" > elsewhere
cp elsewhere untouched
ln -s "$work/elsewhere" there/p1.1
run one events there
ends "a symbolic link under a session's name" 8 "$lost"
same "the file that a symbolic link leads to" elsewhere untouched
rm -rf there/*
ln elsewhere there/p1.1
run one events there
ends "a hard link under a session's name" 8 "$lost"
same "a file that has another name too" elsewhere untouched
rm -rf there/*
mkfifo there/p1.1
cat there/p1.1 > piped &
run one events there
wait $!
ends "a pipe under a session's name" 0 "accepted 1 refused 0"
same "what went through a pipe" piped announced
rm -rf there/*

# A file may have 1,024 bytes, and the last of these messages goes past them.
for n in $(seq 1 23); do
    echo "paths $n.0.0.0/8 id=1 from=local nh=0.0.0.0 origin=igp as=-"
done > many
run one many there
ends "a session of 1058 bytes" 0 "accepted 23 refused 0"
rm -rf there/*
said=$(trap '' XFSZ; ulimit -f 1; "$program" one many there)
code=$?
ends "a session's file that grows no further" 8 $'lost p1 1\naccepted 23 refused 0\nstatus 8 lost p1 1'

rm -rf there/*
said=
"$program" one events there > /dev/full 2> errors
code=$?
ends "a report that can't be written" 4 ""
same "the session of a run without a report" there/p1.1 announced

# ---- no file of the program takes the place of a standard stream

rm -rf there/*
(exec "$program" one events there <&- >&- 2>&-)
code=$?
ends "closed standard streams" 4 ""
same "the session of a run with closed standard streams" there/p1.1 announced
rm -rf there/*
(exec "$program" one events there >&-)
code=$?
ends "closed standard output" 4 ""
same "the session of a run with closed standard output" there/p1.1 announced
rm -rf there/*
said=$(exec "$program" one events there <&- 2>&-)
code=$?
ends "closed standard input" 0 "accepted 1 refused 0"
same "the session of a run with closed standard input" there/p1.1 announced

# With room for two files more the standard streams can't be held, which a command needs: words that are none are that first.
said=$(ulimit -n 5; exec "$program" groups config.toml)
code=$?
ends "a command without room for its streams" 3 "status 3 read"
said=$(ulimit -n 5; exec "$program" bogus)
code=$?
ends "words that are no command without room for the streams" 1 "status 1 usage"

# ---- what `check` reads

run check announced
ends "check of a session" 0 $'10.0.0.0/8 id=0 nh=192.0.2.1 origin=igp as=65001\nmessages 2 eors 1 rows 1 rest 0'
(printf '\0'; tail -c +2 announced) > faulty
run check faulty
ends "check of a stream with a fault" 9 "status 9 malformed 1 0"
run check there
ends "check of a folder" 3 "status 3 read"

# Streams that routers sent, each with the options of `check` and what it prints.
for stream in "$samples"/*.bin; do
    name=$(basename "$stream" .bin)
    mapfile -t options < "$samples/$name.options"
    status=0
    grep -q '^status 9 ' "$samples/$name.rows" && status=9
    "$program" check "${options[@]}" "$stream" > rows 2> errors
    code=$?
    [ "$code" = "$status" ] && [ ! -s errors ] && note "check of $name" ok || note "check of $name" "status $code"
    same "rows of $name" rows "$samples/$name.rows"
done

# ---- what `groups` lists

for name in c2 route-reflector route-server spine; do
    "$program" groups "$examples/configurations/$name.toml" > listed 2> errors
    code=$?
    [ "$code" = 0 ] && [ ! -s errors ] && note "groups of $name" ok || note "groups of $name" "status $code"
    same "lines of $name" listed "$examples/configurations/$name.groups"
done
run groups
ends "groups of no file" 1 "status 1 usage"
run groups listed listed
ends "groups of two files" 1 "status 1 usage"
printf '[local]\nas = 65001\nrouter_id = "192.0.2.254"\n[[policy]]\nname = "p"\nroute_map = "m9"\n' > refused
run groups refused
ends "groups of a configuration that is refused" 2 "status 2 config 6 policy.0.route_map"
run groups nothing
ends "groups of a file that isn't there" 3 "status 3 read"
said=
"$program" groups "$examples/configurations/c2.toml" > /dev/full 2> errors
code=$?
ends "groups with a report that can't be written" 4 ""
head -c 1048577 /dev/zero | tr '\0' '#' > long
run groups long
ends "groups of a configuration that is too long" 7 "status 7 too-long"

# A configuration may have 1,048,576 bytes.
(cat "$examples/configurations/c2.toml"; head -c 1048576 /dev/zero | tr '\0' '#') | head -c 1048576 > as-long-as-can-be
run groups as-long-as-can-be
ends "groups of a configuration as long as can be" 0 "$(cat "$examples/configurations/c2.groups")"
(cat as-long-as-can-be; printf '#') > too-long
run groups too-long
ends "groups of a configuration of a byte more" 7 "status 7 too-long"
rm -rf there/*
run run too-long events there
ends "run of a configuration of a byte more" 7 "status 7 too-long"

# 64 peers in four policies, and one more.
awk 'BEGIN {
    print "[local]\nas = 65001\nrouter_id = \"10.255.0.1\""
    print "[[prefix_list]]\nname = \"la\"\n[[prefix_list]]\nname = \"lb\"\n[[route_map]]\nname = \"ma\"\n[[route_map]]\nname = \"mb\""
    print "[[policy]]\nname = \"q0\"\nprefix_list = \"la\"\nroute_map = \"ma\"\n[[policy]]\nname = \"q1\"\nprefix_list = \"lb\""
    print "[[policy]]\nname = \"q2\"\nroute_map = \"mb\"\n[[policy]]\nname = \"q3\""
    for (i = 0; i < 64; i++)
        printf "[[peer]]\nname = \"p%d\"\nas = %d\nrouter_id = \"10.200.%d.2\"\naddress = \"10.200.%d.2\"\nlocal_address = \"10.200.%d.1\"\nsubnet = \"10.200.%d.0/24\"\npolicy = \"q%d\"\n", i, 65100 + i, i, i, i, i, i % 4
}' > many-peers
awk 'BEGIN {
    split("la lb - -", list)
    split("ma - mb -", map)
    for (g = 1; g <= 4; g++) {
        names = ""
        for (i = g - 1; i < 64; i += 4) names = names (names == "" ? "" : ",") "p" i
        printf "group %d external list=%s map=%s add-path=no next-hop-self=no as-override=- remove-private=no send-community=no extended=no enhanced-refresh=no peers=%s\n", g, list[g], map[g], names
    }
}' > many-groups
run groups many-peers
ends "groups of 64 peers in four policies" 0 "$(cat many-groups)"
(cat many-peers; printf '[[peer]]\nname = "p64"\nas = 65200\nrouter_id = "10.200.64.2"\naddress = "10.200.64.2"\nlocal_address = "10.200.64.1"\nsubnet = "10.200.64.0/24"\n') > too-many-peers
run groups too-many-peers
ends "groups of 65 peers" 2 "status 2 config 7 peer"

# ---- what is shared, and what works beside

# 20,000 routes with the same 128 communities, told in messages of several hundred routes each.
(head -n 3 "$examples/configurations/c1.toml"; printf 'coalesce = 4096\n'; tail -n +4 "$examples/configurations/c1.toml"; printf 'send_community = true\n') > sending
awk 'BEGIN {
    for (i = 0; i < 128; i++) communities = communities (i ? "," : "") "65001:" i
    print "up p1"
    for (i = 0; i < 20000; i++) printf "paths 10.%d.%d.0/24 id=1 from=local nh=0.0.0.0 origin=igp as=- comm=%s\n", int(i / 256), i % 256, communities
}' > alike
rm -rf there/*
run run sending alike there --workers 0
ends "run over routes with the same communities" 0 "accepted 20001 refused 0"
# A copy of the attributes for each route would take 20 MB.
said=$(ulimit -v 12000; "$program" check there/p1.1 2> errors | tail -n 1)
[ "$said" = "messages 26 eors 1 rows 20000 rest 0" ] && note "check of routes that share their attributes" ok || note "check of routes that share their attributes" "$said"

# Waits until what was begun last has ended, and keeps its exit number: 137 where it doesn't end within a minute.
end_last() {
    for ((looks = 0; looks < 3000; looks++)); do
        [ -n "$(readlink /proc/$!/exe)" ] || break
        sleep 0.02
    done
    kill -KILL $! 2> errors
    wait $! 2> errors
    code=$?
}

# How many threads there are before the session begins and after it, while EVENTS is a pipe into which nothing more is written. The
# report tells the refused line once it is read. Then the file ends, and all threads with it: a run that doesn't has status 137.
threads() {
    rm -rf there/*
    mkfifo slowly
    "$program" run "$examples/configurations/c1.toml" slowly there --workers "$1" > report 2> errors &
    exec 7> slowly
    printf 'unknown\n' >&7
    for ((looks = 0; looks < 500; looks++)); do
        [ -s report ] && break
        sleep 0.02
    done
    said=$(ls /proc/$!/task | wc -l)
    printf 'up p1\n' >&7
    for ((looks = 0; looks < 500; looks++)); do
        [ -s there/p1.1 ] && break
        sleep 0.02
    done
    said+=" $(ls /proc/$!/task | wc -l)"
    exec 7>&-
    end_last
    rm slowly
}
threads 1
[ "$said" = "1 2" ] && note "a thread beside that of the events for each peer with a session" ok ||
    note "a thread beside that of the events for each peer with a session" "$said threads"
[ "$code" = 0 ] && note "threads end where the file does" ok || note "threads end where the file does" "status $code"
threads 0
[ "$said" = "1 1" ] && note "one thread without workers" ok || note "one thread without workers" "$said threads"

# More than one thread is seen while a selfrun works, which takes half a second.
"$program" selfrun 1 > report 2> errors &
said=1
while [ "$said" = 1 ] && [ -n "$(readlink /proc/$!/exe)" ]; do
    said=$(ls /proc/$!/task | wc -l)
done
end_last
[ "$said" -gt 1 ] && [ "$code" = 0 ] && note "threads of a selfrun" ok || note "threads of a selfrun" "$said threads, status $code"

# ---- what `run` takes at most

head -n 2000000 lines > as-many-lines
rm -rf there/*
run run "$examples/configurations/c1.toml" as-many-lines there
ends "run over as many lines as are read" 0 "accepted 0 refused 0"
run run "$examples/configurations/c1.toml" lines there
ends "run over a line too many" 7 "status 7 too-long"
(cat as-many-lines; printf '#') > as-many-and-a-byte
run run "$examples/configurations/c1.toml" as-many-and-a-byte there
ends "run over a line too many, without its newline" 7 "status 7 too-long"
(head -n 1999998 lines; echo 'up p1'; printf 'up p1') > up-at-the-end
run run "$examples/configurations/c1.toml" up-at-the-end there
ends "run over a last line without its newline" 0 $'line 2000000 refused 2 already-up\naccepted 1 refused 1'

# A table has 1,048,576 prefixes and 2,097,152 paths.
printf '[local]\nas = 65001\nrouter_id = "192.0.2.254"\n' > no-peers
awk 'BEGIN {
    for (i = 0; i <= 1048576; i++) printf "paths 10.%d.%d.%d/32 id=1 from=local nh=0.0.0.0 origin=igp as=-\n", int(i / 65536), int(i / 256) % 256, i % 256
    print "paths 10.0.0.0/32 id=1 from=local nh=0.0.0.0 origin=egp as=-"
    print "paths 2001:db8::/32 id=1 from=local nh=:: origin=igp as=-"
    print "withdraw 10.0.0.0/32"
    print "paths 2001:db8::/32 id=1 from=local nh=:: origin=igp as=-"
    print "paths 10.0.0.0/32 id=1 from=local nh=0.0.0.0 origin=igp as=-"
    print "paths 10.0.0.0/32 id=1 from=p1 nh=0.0.0.0 origin=igp as=-"
    print "paths 10.0.0.0/32 id=1 from=local nh=0.0.0.0 origin=igp as=- | id=1 from=local nh=0.0.0.0 origin=igp as=-"
    print "paths 10.0.0.0/32 id=1"
    print "paths 10.0.0.0/33 id=1"
    print "paths 10.0.0.0/32 id=0"
    print "paths 10.0.0.0/32 id=1 from=P1"
}' > many-prefixes
run run no-peers many-prefixes there
ends "run over as many prefixes as there can be" 0 $'line 1048577 refused 9 table-full\nline 1048579 refused 9 table-full\nline 1048582 refused 9 table-full\nline 1048583 refused 1 unknown-peer\nline 1048584 refused 7 same-path-id\nline 1048585 refused 22 bad-words\nline 1048586 refused 23 bad-prefix\nline 1048587 refused 24 bad-attribute\nline 1048588 refused 25 bad-name\naccepted 1048579 refused 9'
rm many-prefixes
awk '
    function paths(n,   j, text) {
        for (j = 1; j <= n; j++) text = text (j == 1 ? "" : " | ") "id=" j " from=local nh=0.0.0.0 origin=igp as=-"
        return text
    }
    BEGIN {
        eight = paths(8)
        for (i = 0; i < 262144; i++) printf "paths 10.%d.%d.%d/32 %s\n", int(i / 65536), int(i / 256) % 256, i % 256, eight
        print "paths 11.0.0.0/8 " paths(1)
        print "paths 10.0.0.0/32 " paths(9)
        print "paths 10.0.0.0/32 " eight
        print "paths 10.0.0.0/32 " paths(7)
        print "paths 11.0.0.0/8 " paths(2)
        print "paths 11.0.0.0/8 " paths(1)
        print "paths 10.0.0.0/32 " eight
        print "withdraw 11.0.0.0/8"
        print "paths 10.0.0.0/32 " eight
    }' > many-paths
run run no-peers many-paths there
ends "run over as many paths as there can be" 0 $'line 262145 refused 9 table-full\nline 262146 refused 8 too-many-paths\nline 262149 refused 9 table-full\nline 262151 refused 9 table-full\naccepted 262149 refused 4'
rm many-paths

echo "$passed passed, $failed failed"
[ "$failed" = 0 ]
