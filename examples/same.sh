#!/usr/bin/env bash
# Each script of this folder and its report are a row of the gate too: says which differ from it, and exits with 1 if one does.
cd "$(dirname "$0")" || exit 2
rows=../crates/gate_examples/data
status=0
for script in *.ehci; do
    name=${script%.ehci}
    cmp -s "$script" "$rows/example-$name.in" || { echo "$script differs from its row"; status=1; }
    cmp -s "$name.report" "$rows/example-$name.out" || { echo "$name.report differs from its row"; status=1; }
done
exit $status
