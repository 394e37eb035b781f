#!/bin/bash
# rows.sh CONFIG DIR COMMAND..: for each session of a run in DIR its name, and what it leaves at the receiver. COMMAND is
# the program, to which the words of `check` are added, with the options that CONFIG gives the session's peer.
export LC_ALL=C

# options PEER: those of `check` for the sessions of a peer.
options() {
    awk -v peer="$1" '
        function value(line) { sub(/^[^=]*=[ \t]*/, "", line); sub(/[ \t]*(#.*)?$/, "", line); gsub(/"/, "", line); return line }
        /^[ \t]*\[/ { mine = 0; is_peer = /^[ \t]*\[\[[ \t]*peer[ \t]*\]\]/ }
        is_peer && /^[ \t]*name[ \t]*=/ { mine = value($0) == peer }
        mine && /^[ \t]*add_path[ \t]*=/ && value($0) == "true" { print "--add-path" }
        mine && /^[ \t]*extended[ \t]*=/ && value($0) == "true" { print "--extended" }
        mine && /^[ \t]*family[ \t]*=/ && value($0) == "ipv6" { print "--ipv6" }' "$config"
}

config=$1
folder=$2
shift 2
for session in "$folder"/*; do
    name=${session##*/}
    echo "$name"
    "$@" check $(options "${name%.*}") "$session" || exit 1
done
