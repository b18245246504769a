#!/usr/bin/env bash
# The checks of what no prover sees, in seconds: names in documents, pages that are written from the sources, that what is said stands in
# crates of claims, scripts and their reports, the wrappers, and the length of lines. Says what is wrong, and ends with the first status that isn't 0.
cd "$(dirname "$0")/.." || exit 2
first=0
run() { "$@" || { local status=$?; [ "$first" -ne 0 ] || first=$status; }; }
run python3 -B docs/check_rules.py
run python3 -B docs/check_documents.py
run python3 -B docs/theorem.py --check
run python3 -B docs/check_claims.py
run python3 -B docs/laws.py --check
run python3 -B docs/crates.py --check
run python3 -B docs/footprints.py --check
run python3 -B docs/fanout.py --check
run python3 -B docs/lines.py
run python3 -B docs/ways.py
run python3 -B docs/edits.py
run python3 -B docs/check_tools.py
run examples/same.sh
exit "$first"
