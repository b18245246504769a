#!/usr/bin/env bash
# Makes crates/ehci_c/out/libehci.a: the library for C, proved as it is built, with the kit's three heap functions, which call malloc, realloc
# and free. It takes the libraries below as the gate has left them; where one is lacking all are proved, in a quarter of an hour or more.
cd "$(dirname "$0")/../crates/ehci_c" || exit 2
kit=$(dirname "$(rt doc)")
made=out/libehci_c.a
sources() { find ../*/src ../*/specs ../*/proofs ../../crates.txt -newer $made -print -quit 2>/dev/null; }

# The names on the lines of ehci_c and of all crates below it.
below=$(awk -v top=ehci_c '
  { sub(/#.*/, ""); split($0, part, ":"); split(part[1], head, " "); names[head[1]] = part[2] }
  function visit(name,   i, n, words) { if (name in seen) return; seen[name] = 1; n = split(names[name], words, " "); for (i = 1; i <= n; i++) visit(words[i]) }
  END { visit(top); for (name in seen) if (name != top) print name }' ../../crates.txt)

build() {
  local words=(--crate-name ehci_c src/lib.rt --crate-type staticlib --extern core="$kit/rlibs/core.rlib" --extern std="$kit/rlibs/std.rlib")
  for name in $below; do
    if [ -d ../$name ]; then
      [ -f ../$name/out/rlib/$name.rlib/format ] || return 1
      words+=(--extern "$name=../$name/out/rlib/$name.rlib")
    else
      words+=(--extern "$name=$kit/rlibs/$name.rlib")
    fi
  done
  mkdir -p out
  "$kit/bin/rattle" build "${words[@]}" -L dependency="$kit/rlibs" --antt-project "$kit/rattle/logic/antt-project.json" --logic-built "$kit/logic_built" \
    --jobs 2 --toolchain "$kit/toolchain" -o $made
}

if [ ! -f $made ] || [ -n "$(sources)" ]; then
  build || rt lib || exit 1
fi
ar -M <<END || exit 1
create out/libehci.a
addlib $made
addlib $kit/c/liblibc_c.a
save
end
END
