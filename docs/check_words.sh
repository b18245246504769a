#!/usr/bin/env bash
# Compares what the wrapper says at once with what the built programs `ehci` and `ehci_machine` say at the same words: standard output,
# standard error and status. Then come the rows of docs/check_tools.py, of which many want a program that is built.
cd "$(dirname "$0")/.." || exit 2
top=$PWD
programs=("$top/crates/ehci/out/ehci" "$top/crates/ehci_machine/out/ehci_machine")
for program in "${programs[@]}"; do
  [ -x "$program" ] || { echo "docs/check_words.sh: $program isn't built" >&2; exit 2; }
done
. tools/about.sh
status=0

# Compares all at these words. The number 70 is that of words that the wrapper leaves to the program.
same() {
  local ours theirs program
  ours=$( (about ehci "$@"; exit 70) 2>&1 </dev/null; echo "status $?")
  for program in "${programs[@]}"; do
    theirs=$("$program" "$@" 2>&1 </dev/null; echo "status $?")
    if [ "$ours" != "$theirs" ]; then
      printf 'the wrapper differs from %s at the words:' "${program##*/}"; printf ' %q' "$@"; echo
      diff <(echo "$theirs") <(echo "$ours")
      status=1
    fi
  done
}

# Says whether the wrapper leaves these words to the program.
left() {
  ( (about ehci "$@"; exit 70) >/dev/null 2>&1 )
  [ $? -eq 70 ] || { echo "the wrapper keeps the words: $*"; status=1; }
}

same --help
same --version
same
same --help run
same run fast
same load
same load 01
same load 1000000
same load -1
same load 5 6
same runs
same ''
same 'run '
for form in run image check dump "load 0" "load 7" "load 999999"; do
  left $form
done
python3 -B docs/check_tools.py || status=1
exit "$status"
