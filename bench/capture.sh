#!/usr/bin/env bash
# Shows the packets of a script's run as Wireshark decodes them: tokens, SPLITs, data and handshakes, with their checks.
# Usage: bench/capture.sh SCRIPT [OPTION ..]     such as: bench/capture.sh examples/lost-acknowledgement.ehci --endpoint 3.1.in
# It wants tshark 4.0 or later (link types 293 to 295); without it the capture is left for another program to read. Nothing of the gate runs it.
set -eu
top=$(cd "$(dirname "$0")/.." && pwd)
script=$1
shift
capture=$(mktemp --suffix=.pcap)
"$top/ehci-trace" --pcap "$@" <"$script" >"$capture"
if ! command -v tshark >/dev/null; then
  echo "tshark isn't installed; the capture is $capture, $(stat -c %s "$capture") bytes" >&2
  exit 1
fi
tshark -r "$capture" -T fields -E separator=' ' -e frame.time_epoch -e frame.len -e _ws.col.Protocol -e _ws.col.Info
rm -f "$capture"
