#!/bin/bash
# Refuses the program its threads: as a user who may have no further task, so that the lanes of all peers are pumped by the one that
# reads the events. Each run has to come to the same bytes as with one thread. PROGRAM is the program, or else out/ug_main. It wants to
# be root, to become that user, and is passed over otherwise.
cd "$(dirname "$0")/.." || exit 1
program=${PROGRAM:-$PWD/out/ug_main}
[ -x "$program" ] || { echo "no program at $program"; echo "0 passed, 1 failed"; exit 1; }
# A number that no other process has: what its tasks are counted by is this run alone.
user=$((20000 + $$ % 40000))
if [ "$(id -u)" != 0 ] || ! prlimit --nproc=1 setpriv --reuid="$user" --regid="$user" --clear-groups true 2> /dev/null; then
    echo "passed over: here nobody may become a user who is refused threads"
    echo "0 passed, 0 failed"
    exit 0
fi
work=$(mktemp -d)
trap 'rm -rf "$work"' EXIT
chmod 755 "$work"
source tests/counting.sh
cp "$program" "$work/program"
cp -r examples/configurations "$work/files"
chmod -R a+rX "$work"

# alone WORD ..: runs the program as that user, who may have one task.
alone() {
    prlimit --nproc=1 setpriv --reuid="$user" --regid="$user" --clear-groups "$work/program" "$@"
}

for name in route-reflector route-server spine; do
    mkdir "$work/$name-one" "$work/$name-refused"
    chown "$user" "$work/$name-refused"
    "$work/program" run "$work/files/$name.toml" "$work/files/$name.events" "$work/$name-one" --workers 0 > "$work/one"
    one=$?
    alone run "$work/files/$name.toml" "$work/files/$name.events" "$work/$name-refused" --workers 1 > "$work/refused"
    refused=$?
    if [ "$one" = "$refused" ] && cmp -s "$work/one" "$work/refused" && diff -r "$work/$name-one" "$work/$name-refused" > "$work/other"; then
        note "$name" ok
    else
        note "$name" "status $refused in place of $one: $(diff "$work/one" "$work/refused" | head -n 3) $(head -n 3 "$work/other")"
    fi
done
echo "$passed passed, $failed failed"
[ "$failed" = 0 ]
