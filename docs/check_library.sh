#!/usr/bin/env bash
# Builds libehci.a and runs what stands above it: the examples from C, Rust and Python, and microframes over memory images against the
# program `ehci`, from C under the address and undefined sanitizers. What can't be built here for want of a tool is said in a line.
cd "$(dirname "$0")/.." || exit 2
top=$PWD
room=$(mktemp -d)
trap 'rm -rf "$room"' EXIT
status=0
has() { command -v "$1" >/dev/null; }
left() { echo "docs/check_library.sh: $1 left out, as there is no $2"; }
failed() { echo "docs/check_library.sh: $1"; status=1; }

if ! has cc || ! has ar; then left "the library" "C compiler"; exit 0; fi
tools/library.sh >"$room/library.log" 2>&1 || { cat "$room/library.log"; exit 1; }
library=$top/crates/ehci_c/out/libehci.a
flags=(-std=c11 -Wall -Wextra -Werror -O1 -g -Iinclude)

# A sanitized build where the compiler has the sanitizers.
if echo 'int main(void) { return 0; }' | cc -x c - -fsanitize=address,undefined -o "$room/tried" 2>/dev/null && "$room/tried"; then
  flags+=(-fsanitize=address,undefined -fno-sanitize-recover=all)
else
  left "the sanitizers" "compiler that has them"
fi

for name in emulator events edges compare; do
  cc "${flags[@]}" "examples/library/$name.c" "$library" -o "$room/$name" || failed "$name.c isn't built"
done
for name in emulator events edges; do
  "$room/$name" >"$room/c.out" || failed "$name.c ended with $?"
  diff "examples/library/$name.expected" "$room/c.out" || failed "$name.c differs"
done

if echo "fn main() {}" | rustc --edition 2024 - -o "$room/tried" 2>/dev/null; then
  rustc --edition 2024 -O examples/library/emulator.rs -L "$top/crates/ehci_c/out" -l static=ehci -o "$room/rust" && "$room/rust" >"$room/rust.out" ||
    failed "emulator.rs doesn't run"
  diff examples/library/emulator.expected "$room/rust.out" || failed "emulator.rs differs"
else
  left "emulator.rs" "rustc of 2024"
fi

if python3 -c '' 2>/dev/null; then
  cc -shared -o "$room/libehci.so" -Wl,--whole-archive "$library" -Wl,--no-whole-archive && python3 -B examples/library/emulator.py "$room/libehci.so" >"$room/python.out" ||
    failed "emulator.py doesn't run"
  diff examples/library/emulator.expected "$room/python.out" || failed "emulator.py differs"
else
  left "emulator.py and the comparison" "python3"
  exit $status
fi

# From the same words, so many microframes by the library and so many events by the program leave the same words.
ehci=$top/crates/ehci/out/ehci
trace=$top/crates/ehci_trace/out/ehci_trace
if [ ! -x "$ehci" ] || [ ! -x "$trace" ]; then left "the comparison" "built program"; exit $status; fi
script=examples/library/compare.ehci
"$ehci" image <"$script" >"$room/start" && { cat "$script"; echo "order c 20000"; } | "$trace" --pcap >"$room/capture" &&
  python3 -B examples/library/answers.py "$room/capture" "$room/answers" || failed "no image or capture of $script"
compare() {
  read -r events differ < <("$room/compare" "$room/start" "$room/answers" "$1" "$2" "$room/words")
  { cat "$script"; echo "order c ${events:-0}"; } | "$ehci" image | tail -c +25 >"$room/program"
  [ "${differ:-1}" = 0 ] || failed "${differ:-all} transactions of $2 $1 aren't those of the program"
  cmp "$room/words" "$room/program" || failed "the words after $2 $1 differ from the program's after ${events:-no} events"
}
for count in 1 4 17 40 100; do compare microframes $count; done
for count in 1 4 17 40 100; do compare runs $count; done
for count in 1 2 3 5 8 13 21 34 55 89 144 233 377 610 987 1597 2584 4181 6400; do compare events $count; done
exit $status
