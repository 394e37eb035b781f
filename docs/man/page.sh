#!/bin/bash
# Prints the manual page: ug_main.1.in, in which what the tables of the pages say takes the place of the words @..@.
set -e
cd "$(dirname "${BASH_SOURCE[0]}")/../.."
running=docs/RUNNING.md

# roff: text of a page as text of a manual page.
roff() {
    sed -E 's/\[([^]]*)\]\([^)]*\)/\1/g; s/`//g; s/\*\*//g; s/\\/\\e/g'
}

# rows PAGE HEADING: the rows of the table behind a line, without the first two, a cell a field between tabs.
rows() {
    awk -v heading="$2" '
        $0 == heading { behind = 1; next }
        behind && /^\|/ { if (++row > 2) { gsub(/^\| | \|$/, ""); gsub(/ \| ?/, "\t"); print } next }
        row { exit }' "$1"
}

# items FORM: the first two cells of each row as an item of a list.
items() {
    awk -F '\t' -v form="$1" '{ sub(/^`/, "", $1); sub(/`$/, "", $1); printf ".It %s\n%s\n", sprintf(form, $1), $2 }' | roff
}

synopsis() {
    rows README.md "## The commands" | awk -F '\t' '{ gsub(/`/, "", $1); sub(/^ug_main /, "", $1); print ".Nm\n" $1 "\n.br" }' | sed '$d'
}

commands() {
    rows README.md "## The commands" | awk -F '\t' '{ gsub(/`/, "", $1); sub(/^ug_main /, "", $1); printf ".It Ic %s\n%s.\n", $1, $2 }' | roff
}

# Of each verb the first line of text behind its heading and its example.
verbs() {
    awk '
        /^## / { inside = $0 == "## The file of events" }
        inside && /^### `/ { sub(/^### /, ""); print ".It Ic " $0; wanted = 1; next }
        wanted && /^[A-Z]/ { print; wanted = 0 }' "$running" | roff
}

statuses() {
    echo ".Bl -tag -width 4n"
    rows "$running" "## The end" | awk -F '\t' '{ printf ".It %s\n%s.\n", $1, $2; if ($3 != "none") printf "The last line is\n.Ql %s .\n", $3 }' | roff
    echo ".El"
}

# The example of the README, what is typed and what comes.
example() {
    awk '/^    \$ / { shown = 1 } shown && /^    / { print substr($0, 5) } shown && !/^    / { exit }' README.md | roff
}

version() {
    sed -nE 's/^## ([0-9]+\.[0-9]+\.[0-9]+).*/\1/p' CHANGELOG.md | head -n 1
}

while IFS= read -r line; do
    case $line in
        @SYNOPSIS@) synopsis ;;
        @COMMANDS@) commands ;;
        @VERBS@) verbs ;;
        @FIELDS@) rows "$running" "### \`paths PREFIX PATH\`" | items "Cm %s" ;;
        @REPORT@) rows "$running" "## The report" | items "Li %s" ;;
        @STATUSES@) statuses ;;
        @EXAMPLE@) example ;;
        *@VERSION@*) echo "${line/@VERSION@/$(version)}" ;;
        *@DATE@*) echo "${line/@DATE@/$(date '+%B %-d, %Y')}" ;;
        *) echo "$line" ;;
    esac
done < docs/man/ug_main.1.in
