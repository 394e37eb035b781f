# What the benchmarks share: the program, a folder to work in, and how a run of the program is measured.
cd "$(dirname "${BASH_SOURCE[0]}")/.."
program=${PROGRAM:-$PWD/out/ug_main}
[ -x "$program" ] || { echo "make build first" >&2; exit 1; }
work=$(mktemp -d)
trap 'rm -rf "$work"' EXIT

# measure RUNS WORDS..: the least time of so many runs, in seconds.
measure() {
    local runs=$1 best= start end
    shift
    for _ in $(seq "$runs"); do
        start=$(date +%s.%N)
        "$program" "$@" > "$work/report"
        end=$(date +%s.%N)
        best=$(awk -v a="$start" -v b="$end" -v c="$best" 'BEGIN { t = b - a; print (c == "" || t < c) ? t : c }')
    done
    echo "$best"
}

# peak WORDS..: the peak memory in KiB: what the system says at the end where it can be asked, else the most that was
# seen on the way.
peak() {
    if [ -x /usr/bin/time ]; then
        /usr/bin/time -f %M "$program" "$@" 2>&1 > "$work/report"
        return
    fi
    "$program" "$@" > "$work/report" &
    local pid=$! most=0 now
    while now=$(awk '/VmHWM/ { print $2 }' "/proc/$pid/status" 2> /dev/null) && [ -n "$now" ]; do
        [ "$now" -gt "$most" ] && most=$now
    done
    wait "$pid"
    echo "$most"
}
