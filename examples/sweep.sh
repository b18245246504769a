#!/usr/bin/env bash
# Loses each single packet of one endpoint in turn, or each pair of packets, every run one of its own, and tells which runs change which line of the report.
# Usage: examples/sweep.sh [--pairs] SCRIPT ENDPOINT PACKETS [PROGRAM]     as in: examples/sweep.sh examples/nyet-and-ping.ehci '3 2 out' 12
# ENDPOINT is spelled as in a script. A run is a pure function of its script, so that the runs may go to as many machines: GNU parallel takes the
# lines that xargs gets here.
set -eu
pairs=
if [ "$1" = --pairs ]; then
  pairs=yes
  shift
fi
script=$1 endpoint=$2 packets=$3 program=${4:-$(dirname "$0")/../ehci}
export script endpoint program
work=$(mktemp -d)
trap 'rm -rf "$work"' EXIT
export work

# The script with these packets lost too: a fate more for each, behind its last world line.
lose() {
  awk -v endpoint="$endpoint" -v lost="$1" '
    !done && $1 ~ /^(open|get|put|control|iso|cancel|order)$/ {
      n = split(lost, packets, "-")
      for (i = 1; i <= n; i++) print "fate " endpoint " high " packets[i] " lost"
      done = 1
    }
    { print }' "$script" >"$work/$1.ehci"
  "$program" run <"$work/$1.ehci" >"$work/$1.report" || true
}
export -f lose

# The runs: 0, 1, 2 and so on, or 0-1, 0-2, 1-2 and so on.
runs() {
  for k in $(seq 0 $((packets - 1))); do
    if [ -z "$pairs" ]; then
      echo "$k"
    else
      for j in $(seq 0 $((k - 1))); do echo "$j-$k"; done
    fi
  done
}

"$program" run <"$script" >"$work/whole.report"
runs | xargs -P "$(nproc)" -I K bash -c 'lose K'
for run in $(runs); do
  case $run in
    *-*) lost="packets ${run/-/ and } lost" ;;
    *) lost="packet $run lost" ;;
  esac
  if cmp -s "$work/whole.report" "$work/$run.report"; then
    echo "$lost: the same report"
  else
    echo "$lost:"
    diff "$work/whole.report" "$work/$run.report" | grep '^[<>]' | cut -c1-76 | sed 's/^/  /' || true
  fi
done
