#!/bin/sh
# A collector: the load and the memory of a Linux machine.
#
# usage: system.sh EVERY [ROUNDS]
#
# It prints the text that `nda collect` and `nda run` read: the definitions once, and then a block of each chart
# each EVERY seconds. It ends with 0 after so many rounds; without ROUNDS it goes on until its output is closed.
set -eu

every=$1
rounds=${2:-}

define() {
    printf '%s\n' \
        "CHART system.load '' 'Load of the system' load load system.load line 100 $every" \
        "DIMENSION load1 '' absolute 1 100" \
        "DIMENSION load5 '' absolute 1 100" \
        "DIMENSION load15 '' absolute 1 100" \
        "CHART system.ram '' 'Memory of the system' MiB ram system.ram stacked 200 $every" \
        "DIMENSION used '' absolute 1 1024" \
        "DIMENSION cached '' absolute 1 1024" \
        "DIMENSION free '' absolute 1 1024"
}

# The numbers of /proc/loadavg have two decimals: without the point they are hundredths.
load() {
    read -r load1 load5 load15 others </proc/loadavg
    printf '%s\n' \
        "BEGIN system.load" \
        "SET load1 = ${load1%.*}${load1#*.}" \
        "SET load5 = ${load5%.*}${load5#*.}" \
        "SET load15 = ${load15%.*}${load15#*.}" \
        "END"
}

# The numbers of /proc/meminfo are KiB.
memory() {
    total=0 free=0 buffers=0 cached=0
    while read -r name amount unit; do
        case $name in
        MemTotal:) total=$amount ;;
        MemFree:) free=$amount ;;
        Buffers:) buffers=$amount ;;
        Cached:) cached=$amount ;;
        esac
    done </proc/meminfo
    printf '%s\n' \
        "BEGIN system.ram" \
        "SET used = $((total - free - buffers - cached))" \
        "SET cached = $((buffers + cached))" \
        "SET free = $free" \
        "END"
}

define
round=0
while [ -z "$rounds" ] || [ "$round" -lt "$rounds" ]; do
    [ "$round" -eq 0 ] || sleep "$every"
    load
    memory
    round=$((round + 1))
done
