#!/bin/bash
# Builds bench_controller and times it: what the controller did, and the events and transactions per second of the process's own time,
# in the fastest of several runs.
# Usage: bench/controller.sh [KIND [QUEUES [BYTES [EVENTS [RUNS]]]]]     KIND is in, out, control or interrupt
set -e
kind=${1:-in}
queues=${2:-32}
bytes=${3:-512}
events=${4:-20000000}
runs=${5:-5}
cd "$(dirname "$0")/../crates/bench_controller"
rt run </dev/null >/dev/null
load="$kind $queues $bytes $events"
answer=$(echo "$load" | ./out/bench_controller)
echo "$answer"
TIMEFORMAT=%U
for _ in $(seq "$runs"); do
    { time echo "$load" | ./out/bench_controller >/dev/null; } 2>&1
done | sort -n | head -1 | {
    read -r seconds
    transactions=$(sed 's/.*: \([0-9]*\) transactions.*/\1/' <<<"$answer")
    awk -v s="$seconds" -v e="$events" -v t="$transactions" 'BEGIN { printf "%.0f events and %.0f transactions per second\n", e / s, t / s }'
}
