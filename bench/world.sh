#!/bin/bash
# Builds bench_world and times it: a script with so many high-speed bulk IN endpoints, fates and words of memory, where some of the endpoints
# are opened and asked for 4,096 bytes each, which come after 300,000 NAKs; two packets of each endpoint are lost, and the other fates are of
# packets that never come; then steps of the controller and of the driver, 100 by turns.
# It prints what the report came to, and events per second of the process's own time, in the fastest of several runs, reading included.
# Usage: bench/world.sh [ENDPOINTS [FATES [STREAMS [WORDS [EVENTS [RUNS]]]]]]     at most 256, 4096, 64, 262144 and 4000000
set -e
endpoints=${1:-256}
fates=${2:-4096}
streams=${3:-64}
words=${4:-131072}
events=${5:-4000000}
runs=${6:-5}
cd "$(dirname "$0")/../crates/bench_world"
rt run <stdin >/dev/null
script=$(mktemp)
trap 'rm -f "$script"' EXIT
awk -v endpoints="$endpoints" -v fates="$fates" -v streams="$streams" -v words="$words" -v events="$events" '
    function ep(k) { return int(k / 15) + 1 " " k % 15 + 1 " in" }
    BEGIN {
        print "ehci 1"
        print "mem " words
        for (k = 0; k < endpoints; k++) {
            if (k % 15 == 0) print "dev " int(k / 15) + 1 " high"
            print "ep " ep(k) " bulk 512"
        }
        for (k = 0; k < streams; k++) {
            print "reply " ep(k) " nak 300000"
            print "reply " ep(k) " fill 4096 7"
        }
        for (k = 0; k < fates; k++) print "fate " ep(k % endpoints) " high " (k < 2 * endpoints ? 10 : 1000000) + int(k / endpoints) " lost"
        for (k = 0; k < streams; k++) {
            print "open " ep(k)
            print "order d 20"
            print "get " ep(k) " 4096"
            print "order d 20"
        }
        for (n = 40 * streams; n + 200 <= events; n += 200) {
            print "order c 100"
            print "order d 100"
        }
    }' >"$script"
./out/bench_world <"$script"
TIMEFORMAT=%U
for _ in $(seq "$runs"); do
    { time ./out/bench_world <"$script" >/dev/null; } 2>&1
done | sort -n | head -1 | {
    read -r seconds
    awk -v s="$seconds" -v e="$events" 'BEGIN { printf "%.0f events per second\n", e / s }'
}
