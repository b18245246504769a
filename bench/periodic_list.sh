#!/bin/sh
# Builds bench_periodic_list and times it: 256 interrupt queue heads of periods 1 to 8,192 linked in one frame list.
# Usage: bench/periodic_list.sh [ROUNDS]
set -e
rounds=${1:-100}
cd "$(dirname "$0")/../crates/bench_periodic_list"
rt run <stdin >/dev/null
begin=$(date +%s%N)
yes go | head -n "$rounds" | ./out/bench_periodic_list | sort -u
end=$(date +%s%N)
echo "$(((end - begin) / rounds / 1000)) microseconds for 256 queue heads"
