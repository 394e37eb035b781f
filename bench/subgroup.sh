#!/bin/bash
# Runs 100,000 and 1,000,000 IPv4 keys, no two alike and ten to a set of attributes, through a subgroup with 1, 8 and 32
# members: each key is desired, formatted in packets of ten, and taken by each member, 40 packets at a time. The keys come in
# sorted and in random order. Beside it the same keys are set and announced in an Adj-RIB-Out alone (bench/adjout), in turn
# with it. Prints for each how many nanoseconds a key takes, of RUNS runs (5) the least of each figure, what it takes beside the
# Adj-RIB-Out, what each further member takes a packet, how it grows from 100,000 to 1,000,000, and the peak memory a key.
# All of it is done with pages of memory of 4 KB, and then with pages of 2 MB, for which the C library asks the system (docs/RUNNING.md).
# The programs are no part of the gate: they are proved and built in a copy of the repository. With SUBGROUP and ADJOUT they
# are taken as built. It wants GNU time.
set -e
cd "$(dirname "${BASH_SOURCE[0]}")/.."
[ -x /usr/bin/time ] || { echo "no /usr/bin/time" >&2; exit 1; }
work=$(mktemp -d)
trap 'rm -rf "$work"' EXIT
subgroup=$SUBGROUP
adjout=$ADJOUT

# below NAME: the crates of the repository on which this one stands.
below() {
    local use
    for use in $(sed -n "s/^$1: *//p" crates.txt); do
        [ ! -d "crates/$use" ] || { echo "$use"; below "$use"; }
    done
}

# build NAME WORDS..: proves, builds and runs the program once.
build() {
    local name=$1
    shift
    (cd "$work/copy/crates/$name" && rt run -- "$@") > "$work/log" 2>&1 || { tail -n 20 "$work/log"; exit 1; }
}

if [ -z "$subgroup" ] || [ -z "$adjout" ]; then
    git clone -q . "$work/copy"
    for name in $(below ug_groups | sort -u) ug_groups; do
        [ ! -d "crates/$name/out" ] || cp -r "crates/$name/out" "$work/copy/crates/$name/out"
    done
    mkdir -p "$work/copy/crates/adjout/src"
    cp bench/adjout/main.rt.txt "$work/copy/crates/adjout/src/main.rt"
    find bench/subgroup -name '*.txt' | while read -r file; do
        to="$work/copy/crates/${file#bench/}"
        mkdir -p "$(dirname "$to")"
        cp "$file" "${to%.txt}"
    done
    cat >> "$work/copy/crates.txt" << 'END'
adjout: ug_adjout ug_short_key ug_types
subgroup: ug_groups ug_pack ug_adjout ug_intern ug_group_rules ug_outbound ug_policy ug_update ug_message ug_types
END
    build adjout 1000 10 1
    build subgroup 1000 10 1 1
    adjout=$work/copy/crates/adjout/out/adjout
    subgroup=$work/copy/crates/subgroup/out/subgroup
fi

# run KEYS SCATTER: runs all in turn, and leaves the least of each figure in $work/least, as lines NAME FIGURE: of the
# Adj-RIB-Out `alone` and `alone-memory`, of a subgroup with M members `desire-M`, `format-M`, `take-M`, `all-M` and `memory-M`.
run() {
    local keys=$1 scatter=$2 members
    for _ in $(seq "${RUNS:-5}"); do
        /usr/bin/time -f '%M' -o "$work/memory" "$adjout" "$keys" 10 "$scatter" > "$work/said"
        awk '{ print "alone", $8 }' "$work/said"
        awk '{ print "alone-memory", $1 }' "$work/memory"
        for members in 1 8 32; do
            /usr/bin/time -f '%M' -o "$work/memory" "$subgroup" "$keys" 10 "$scatter" $members > "$work/said"
            awk -v keys="$keys" '{
                if ($8 != keys / 10 + 1) { print "packets were lost: " $0 > "/dev/stderr"; exit 1 }
                print "desire-" $1, $4; print "format-" $1, $5; print "take-" $1, $6 + 0; print "all-" $1, $4 + $5 + $6
            }' "$work/said"
            awk -v members=$members '{ print "memory-" members, $1 }' "$work/memory"
        done
    done | awk '!($1 in least) || $2 < least[$1] { least[$1] = $2 } END { for (name in least) print name, least[name] }' > "$work/least"
}

for pages in "4 KB" "2 MB"; do
    [ "$pages" = "4 KB" ] || export GLIBC_TUNABLES=glibc.malloc.hugetlb=1
    echo "pages of $pages"
    for order in sorted random; do
        scatter=1
        [ "$order" = sorted ] || scatter=2654435761
        rm -f "$work/before"
        for keys in 100000 1000000; do
            run $keys $scatter
            touch "$work/before"
            awk -v keys=$keys -v order=$order '
                FILENAME == ARGV[1] { before[$1] = $2; next }
                { least[$1] = $2 }
                function growth(name) { return name in before ? sprintf(", growth %.1f", least[name] / before[name]) : "" }
                END {
                    printf "%d keys in %s order: an Adj-RIB-Out alone %d ns a key, %d bytes%s\n",
                        keys, order, least["alone"] / keys, 1024 * least["alone-memory"] / keys, growth("alone")
                    split("1 8 32", all, " ")
                    for (i = 1; i <= 3; i++) {
                        m = all[i]
                        printf "  %2d members: %d ns a key (desire %d, format %d, take %d), %d beside the Adj-RIB-Out, %d bytes%s",
                            m, least["all-" m] / keys, least["desire-" m] / keys, least["format-" m] / keys, least["take-" m] / keys,
                            (least["all-" m] - least["alone"]) / keys, 1024 * least["memory-" m] / keys, growth("all-" m)
                        printf "; %d ns a member and packet\n", least["take-" m] / m / (keys / 10)
                    }
                }' "$work/before" "$work/least"
            cp "$work/least" "$work/before"
        done
    done
done
