#!/bin/sh
# Builds bench_script and times it: a script of one mebibyte, made in memory and read once.
# Usage: bench/script.sh [RUNS]
set -e
runs=${1:-5}
cd "$(dirname "$0")/../crates/bench_script"
rt run </dev/null >/dev/null
./out/bench_script </dev/null
for _ in $(seq "$runs"); do
    begin=$(date +%s%N)
    ./out/bench_script </dev/null >/dev/null
    end=$(date +%s%N)
    echo "$(((end - begin) / 1000000)) ms"
done
