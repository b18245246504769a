#!/usr/bin/env bash
# What a microframe costs from C, and what an event of the ring costs the program, each in the fastest of five runs. Usage: bench/library.sh
set -eu
cd "$(dirname "$0")/.."
tools/library.sh >/dev/null
program=$(mktemp)
cc -std=c11 -O2 -Iinclude bench/library.c crates/ehci_c/out/libehci.a -o "$program"
for _ in 1 2 3 4 5; do "$program"; done | awk -F': ' '
  { split($2, value, " ") }
  !($1 in least) { order[++kinds] = $1 }
  !($1 in least) || value[1] < least[$1] { least[$1] = value[1]; said[$1] = $0 }
  END { for (i = 1; i <= kinds; i++) print said[order[i]] }'
rm -f "$program"
echo "the program's own:"
bench/controller.sh in 1 512 5000000 5
