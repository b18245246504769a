#!/usr/bin/env bash
# Writes the pages that come from the sources, follows definitions that were moved in RULES.md, and says what is still wrong.
# docs/long_lines.txt is written by `docs/lines.py --write` alone, since it should only get shorter.
cd "$(dirname "$0")/.." || exit 2
python3 -B docs/check_rules.py --mend >/dev/null
python3 -B docs/theorem.py
python3 -B docs/laws.py
python3 -B docs/crates.py
python3 -B docs/fanout.py --write
docs/check.sh
