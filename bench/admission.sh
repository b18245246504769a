#!/bin/bash
# Builds bench_admission and times it. First what a plan takes for one endpoint that comes and goes (an admission and a removal, in
# microseconds of the process's own time) beside 0, 100 and 256 placed ones; then the admissions per second of plans that are filled.
# Usage: bench/admission.sh [ROUNDS [SEED [ENDPOINTS]]]
set -e
rounds=${1:-20000}
seed=${2:-7}
wants=${3:-256000}
cd "$(dirname "$0")/../crates/bench_admission"
rt run <stdin >/dev/null
TIMEFORMAT=%U
seconds() {
    for _ in 1 2 3; do
        { time echo "$1" | ./out/bench_admission >/dev/null; } 2>&1
    done | sort -n | head -1
}
for kind in drawn high long short long-in short-in; do
    for placed in 0 100 256; do
        echo "$kind $placed placed: $(echo "rounds $kind $placed $rounds" | ./out/bench_admission)," \
            "$(awk -v s="$(seconds "rounds $kind $placed $rounds")" -v n="$rounds" 'BEGIN { printf "%.1f", 1e6 * s / n }') microseconds"
    done
done
echo "fill: $(echo "fill $seed $wants" | ./out/bench_admission)," \
    "$(awk -v s="$(seconds "fill $seed $wants")" -v n="$wants" 'BEGIN { printf "%.0f", n / s }') admissions per second"
