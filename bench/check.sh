#!/bin/bash
# Runs `check` over streams of 100,000 and 1,000,000 routes, ten to an UPDATE, in the order of their prefixes and in
# random order, and prints for each the time, the time a route, the peak memory and how much of it a route takes, and
# then how the times grow. The longest one is also read through a pipe in small pieces. Last comes a stream of 196 KB
# whose routes share 32 KB of communities, and so has some 2 GB of rows.
#
# With --ipv6 it runs over 1,000,000 routes of each family instead, and prints how many times as long those of IPv6 take.
set -e
source "$(dirname "$0")/measure.sh"

# End-of-RIB, and then a stream of that many routes, each of another /24: UPDATEs of 83 bytes.
stream() {
    LC_ALL=C awk -v n="$1" -v order="$2" 'BEGIN {
        srand(1)
        for (i = 0; i < n; i++) number[i] = i
        if (order == "random") for (i = n - 1; i > 0; i--) { k = int(rand() * (i + 1)); t = number[i]; number[i] = number[k]; number[k] = t }
        for (i = 0; i < 16; i++) marker = marker sprintf("%c", 255)
        printf "%s%c%c%c%c%c%c%c", marker, 0, 23, 2, 0, 0, 0, 0
        for (i = 0; i < n; i += 10) {
            printf "%s%c%c%c%c%c%c%c", marker, 0, 83, 2, 0, 0, 0, 20
            printf "%c%c%c%c%c%c%c%c%c%c%c%c%c%c%c%c%c%c%c%c", 64, 1, 1, 0, 64, 2, 6, 2, 1, 0, 0, 253, 233, 64, 3, 4, 192, 0, 2, 1
            for (j = i; j < i + 10; j++) printf "%c%c%c%c", 24, 1 + int(number[j] / 65536), int(number[j] / 256) % 256, number[j] % 256
        }
    }'
}

# The same of IPv6: routes of another /48 each, in UPDATEs of 130 bytes.
ipv6_stream() {
    LC_ALL=C awk -v n="$1" -v order="$2" 'BEGIN {
        srand(1)
        for (i = 0; i < n; i++) number[i] = i
        if (order == "random") for (i = n - 1; i > 0; i--) { k = int(rand() * (i + 1)); t = number[i]; number[i] = number[k]; number[k] = t }
        for (i = 0; i < 16; i++) marker = marker sprintf("%c", 255)
        printf "%s%c%c%c%c%c%c%c%c%c%c%c%c%c", marker, 0, 29, 2, 0, 0, 0, 6, 128, 15, 3, 0, 2, 1
        for (i = 0; i < n; i += 10) {
            printf "%s%c%c%c%c%c%c%c", marker, 0, 130, 2, 0, 0, 0, 107
            printf "%c%c%c%c%c%c%c%c%c%c%c%c%c", 64, 1, 1, 0, 64, 2, 6, 2, 1, 0, 0, 253, 233
            printf "%c%c%c%c%c%c%c", 128, 14, 91, 0, 2, 1, 16
            printf "%c%c%c%c%c%c%c%c%c%c%c%c%c%c%c%c%c", 32, 1, 13, 184, 0, 0, 0, 0, 0, 0, 0, 0, 0, 0, 0, 1, 0
            for (j = i; j < i + 10; j++) printf "%c%c%c%c%c%c%c", 48, 32, 1, 13, 1 + int(number[j] / 65536), int(number[j] / 256) % 256, number[j] % 256
        }
    }'
}

# Three UPDATEs of 6,500 routes each, with 8,000 communities.
shared() {
    LC_ALL=C awk 'BEGIN {
        for (i = 0; i < 16; i++) marker = marker sprintf("%c", 255)
        for (m = 0; m < 3; m++) {
            printf "%s%c%c%c%c%c%c%c", marker, 252, 35, 2, 0, 0, 125, 24
            printf "%c%c%c%c%c%c%c%c%c%c%c%c%c%c%c%c%c%c%c%c", 64, 1, 1, 0, 64, 2, 6, 2, 1, 0, 0, 253, 233, 64, 3, 4, 192, 0, 2, 1
            printf "%c%c%c%c", 208, 8, 125, 0
            for (i = 0; i < 8000; i++) printf "%c%c%c%c", int(i / 256), i % 256, int(i / 256), i % 256
            for (j = 0; j < 6500; j++) printf "%c%c%c%c%c", 32, 10 + m, 0, int(j / 256), j % 256
        }
    }'
}

if [ "$1" = --ipv6 ]; then
    for order in sorted random; do
        stream 1000000 "$order" > "$work/ipv4"
        ipv6_stream 1000000 "$order" > "$work/ipv6"
        ipv4=$(measure 5 check "$work/ipv4")
        ipv6=$(measure 5 check --ipv6 "$work/ipv6")
        kib=$(peak check --ipv6 "$work/ipv6")
        awk -v o="$order" -v a="$ipv4" -v b="$ipv6" -v k="$kib" 'BEGIN {
            printf "1000000 routes in %s order: IPv4 %.3f s, IPv6 %.3f s, %.2f times, peak %d KiB, %.0f bytes a route\n", o, a, b, b / a, k, k * 1024 / 1000000 }'
        tail -n 1 "$work/report"
    done
    exit
fi

for order in sorted random; do
    declare -A seconds
    for n in 100000 1000000; do
        stream "$n" "$order" > "$work/$order.$n"
        seconds[$n]=$(measure 5 check "$work/$order.$n")
        kib=$(peak check "$work/$order.$n")
        awk -v n="$n" -v o="$order" -v s="${seconds[$n]}" -v k="$kib" 'BEGIN {
            printf "%d routes in %s order: %.3f s, %.2f microseconds a route, peak %d KiB, %.0f bytes a route\n", n, o, s, s * 1000000 / n, k, k * 1024 / n }'
        tail -n 1 "$work/report"
    done
    awk -v a="${seconds[100000]}" -v b="${seconds[1000000]}" -v o="$order" 'BEGIN { printf "growth from 100000 to 1000000 in %s order: %.2f times\n", o, b / a }'
done

mkfifo "$work/pipe"
for size in 65536 1000 100; do
    start=$(date +%s.%N)
    dd if="$work/sorted.1000000" of="$work/pipe" bs="$size" 2> /dev/null &
    "$program" check "$work/pipe" > "$work/report"
    end=$(date +%s.%N)
    wait
    awk -v a="$start" -v b="$end" -v s="$size" 'BEGIN { printf "1000000 routes through a pipe, %d bytes a write: %.2f s\n", s, b - a }'
done

shared > "$work/shared"
start=$(date +%s.%N)
size=$("$program" check --extended "$work/shared" | wc -c)
end=$(date +%s.%N)
awk -v a="$start" -v b="$end" -v s="$size" 'BEGIN { printf "19500 routes that share their attributes: %d bytes of rows in %.2f s, %.0f MB a second\n", s, b - a, s / 1000000 / (b - a) }'
