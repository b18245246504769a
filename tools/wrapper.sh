# What the wrappers `ehci` and `ehci-trace` have in common: which program they run, and how it is proved and built. They set `top`, their
# folder, and `me`, their name, and then read this file.
#
# In a checkout a program is taken where it is built and no older than the sources that it stands on; else the sources run as they stand,
# unproved. Where `make install` put it, a program stands in libexec/ehci beside these files.

tools=$(cd "$(dirname "${BASH_SOURCE[0]}")" && pwd)
log=$top/$me.log

installed() { [ ! -f "$top/crates.txt" ]; }

# The crates that a crate stands on, itself too.
crates_below() {
  awk -v root="$1" '
    { sub(/#.*/, "") }
    /:/ { name = $1; sub(/:$/, "", name); uses[name] = $0; sub(/^[^:]*:/, "", uses[name]) }
    END {
      all[1] = root; n = 1; seen[root] = 1
      for (i = 1; i <= n; i++) {
        m = split(uses[all[i]], below, " ")
        for (j = 1; j <= m; j++) if ((below[j] in uses) && !(below[j] in seen)) { seen[below[j]] = 1; all[++n] = below[j] }
      }
      for (i = 1; i <= n; i++) print all[i]
    }' "$top/crates.txt"
}

# Where the program of a crate stands once it is built.
path_of() {
  if installed; then echo "$tools/$1"; else echo "$top/crates/$1/out/$1"; fi
}

is_current() {
  local program
  program=$(path_of "$1")
  [ -x "$program" ] || return 1
  installed && return 0
  [ -z "$(cd "$top/crates" && crates_below "$1" |
    xargs -I{} find {} -name out -prune -o \( -name '*.rt' -o -name '*.antt' \) -newer "$program" -print | head -n 1)" ]
}

# The first of these programs that is current, as `program`; none: empty.
choose() {
  local name
  program=
  for name in "$@"; do
    if is_current "$name"; then
      program=$(path_of "$name")
      return 0
    fi
  done
  return 1
}

# Whether there are sources to prove.
has_sources() {
  installed || return 0
  echo "$me: there are no sources here to prove" >&2
  return 1
}

# Says on standard error how far the proofs of so many crates are, by the lines that it reads.
tell_progress() {
  tee -a "$log" | awk -v me="$me" -v all="$1" '
    /^== / && $2 != "summary" { print me ": " ++done " of " all ": " $2 > "/dev/stderr"; fflush("/dev/stderr") }'
}

# Builds the program of a crate whose libraries are proved.
build_program() {
  if ! (cd "$top/crates/$1" && rt run -- --version) >>"$log" 2>&1 </dev/null; then
    echo "$me: not proved; the whole output is in $log" >&2
    return 1
  fi
  touch "$(path_of "$1")"
  echo "$me: proved and built" >&2
}

# Proves every crate, with all processors, and builds the programs of these.
prove() {
  local crates name
  has_sources || return
  crates=$(sed -E 's/#.*//; /^ *$/d' "$top/crates.txt" | wc -l)
  echo "$me: proves $crates crates; a first pass over all sources takes minutes, then each crate has a line" >&2
  : >"$log"
  (cd "$top" && rt all check --jobs "$(nproc)") 2>&1 </dev/null | tell_progress "$crates"
  for name in "$@"; do build_program "$name" || return; done
}

# Proves the crates that a program stands on, as many at once as there are processors, and builds it. A crate waits for those below it.
build() {
  local crates
  has_sources || return
  crates=$(crates_below "$1")
  echo "$me: proves $(wc -w <<<"$crates") crates; a first pass over their sources takes a minute, then each crate has a line" >&2
  : >"$log"
  (cd "$top/crates/$1" && rt all check --jobs "$(nproc)") 2>&1 </dev/null | tell_progress "$(wc -w <<<"$crates")"
  build_program "$1"
}

# Runs the sources of a crate without a proof, on the words behind its name. What the tool says of the run goes into the log; the last line
# of it has the program's own status.
try() {
  local crate=$1 said status
  shift
  echo "$me: this run is of the sources as they stand, unproved; './$me --build' or './$me --prove' proves and builds programs" >&2
  said=$(mktemp) || exit 1
  (cd "$top/crates/$crate" && rt try -- "$@") 2>"$said"
  status=$(sed -nE 's/^run=ended status=([0-9]+) .*/\1/p' "$said" | tail -n 1)
  if [ -n "$status" ]; then
    grep -vE '^(checked|interpreted): |^run=' "$said" >&2
  else
    cp "$said" "$log"
    echo "$me: the sources didn't run; $log says why" >&2
    status=1
  fi
  rm -f "$said"
  return "$status"
}

# The first current one of the programs before `--`, else the sources of the last, which stand on the fewest, on the words behind it.
start() {
  local crates=()
  while [ "$1" != -- ]; do crates+=("$1"); shift; done
  shift
  if choose "${crates[@]}"; then
    "$program" "$@"
  elif installed; then
    echo "$me: there is no program in $tools" >&2
    return 1
  else
    try "${crates[-1]}" "$@"
  fi
}

# Takes standard input into a file, as much of it as the programs read.
take_input() {
  head -c 1048601 >"$1" 2>/dev/null
}

# Runs as `start`, with the input and the output in files, so that what was refused can be explained on standard error. Sets `status`.
start_explained() {
  take_input "$room/input" || return 4
  start "$@" <"$room/input" >"$room/output"
  status=$?
  cat "$room/output" 2>/dev/null || status=5
  case $status in 0 | 3) explain ;; esac
  return "$status"
}

# Says on standard error what the refusals in the output mean. For an open that found no placement the trace has the budgets; where it isn't
# built, its sources run for that.
explain() {
  local schedule=
  command -v python3 >/dev/null || return
  LC_ALL=C grep -aqE '^(line|offset) [0-9]+: |^[0-9]+ [0-9.]+ command of line [0-9]+ refused ' "$room/output" || return
  if LC_ALL=C grep -aq ' refused no-placement$' "$room/output"; then
    schedule=$room/schedule
    start ehci_trace -- --schedule <"$room/input" >"$schedule" 2>/dev/null || schedule=
  fi
  python3 "$tools/explain.py" "$room/input" "$room/output" ${schedule:+"$schedule"} >&2 2>/dev/null
}

# A folder for the files of a run, which goes with it.
make_room() {
  room=$(mktemp -d) || return 1
  trap 'rm -rf "$room"' EXIT
}

# What is said of a version beside the program's own line: the kit, and the commit where `make install` knew it.
tell_kit() {
  if installed; then
    cat "$tools/version" 2>/dev/null
  else
    rt version 2>/dev/null | head -n 1
  fi
}
