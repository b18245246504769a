#!/usr/bin/env bash
# Tries the edits of edits/CRATE that the gate doesn't try: `edits/try.sh CRATE ..` (none: all). It works on a copy of the repository.
cd "$(dirname "$0")/.." || exit 1
room=$(mktemp -d) || exit 1
trap 'rm -rf "$room"' EXIT
git ls-files -z crates crates.txt HANDLES | xargs -0 cp --parents -t "$room" || exit 1
cp -r edits "$room/edits" || exit 1
cd "$room" && git init -q . || exit 1
[ $# -gt 0 ] || set -- $(ls -d edits/*/ | xargs -n1 basename)
for crate in "$@"; do
    mkdir -p "crates/$crate/must-fail" && cp "edits/$crate/"*.edit "crates/$crate/must-fail/" || exit 1
done
rt must-fail "$@"
