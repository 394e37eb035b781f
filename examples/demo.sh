#!/bin/bash
# demo.sh NAME PROGRAM: runs an example by a program, and leaves its sessions in out/NAME. Of `first` it shows the report and the
# bytes of the session; of one of examples/configurations the report and what each session leaves at its receiver.
export LC_ALL=C
cd "$(dirname "$0")/.." || exit 1
name=$1
program=$2
sessions=out/$name
case $program in
    *-unproved) echo "by $program, which is not proved: make build proves the program, and leaves it at out/ug_main" ;;
    *) echo "by $program" ;;
esac
rm -rf "$sessions" && mkdir -p "$sessions" || exit 1
if [ "$name" = first ]; then
    "$program" one examples/first/events.txt "$sessions" || exit
    od -A d -t x1 "$sessions/p1.1"
else
    example=examples/configurations/$name
    "$program" run "$example.toml" "$example.events" "$sessions" --workers 0 || exit
    examples/rows.sh "$example.toml" "$sessions" "$program"
fi
