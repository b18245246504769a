# Sourced by the wrappers: `about CRATE WORDS..` answers at once what a program says of itself, its help, its version and its usage at words
# that have none of its forms, and ends the shell with the program's status. At words of a form it returns.
#
# The texts are read from the constants of the program's main.rt, so they are its own; docs/check_words.sh compares both once it is built.

# The text of a constant HELP, USAGE or VERSION of a program.
text_of() {
  awk -v name="$2" '
    $0 ~ "^const " name ": &str" { on = 1; sub(/^[^=]*= */, "") }
    on { text = text $0 "\n" }
    on && /";$/ { exit }
    END {
      sub(/^[ \n]*"/, "", text); sub(/";\n$/, "", text)
      gsub(/\\\n */, "", text); gsub(/\\n/, "\n", text)
      printf "%s", text
    }' "$top/crates/$1/src/main.rt"
}

# Whether the words have one of the forms of `ehci`.
is_form() {
  case "$#:${1-}" in
    1:run | 1:image | 1:check | 1:dump) true ;;
    2:load) [[ $2 =~ ^(0|[1-9][0-9]{0,5})$ ]] ;;
    *) false ;;
  esac
}

about() {
  local crate=$1
  shift
  [ -f "$top/crates/$crate/src/main.rt" ] || return 0
  case "$#:${1-}" in
    1:--help) text_of "$crate" HELP; exit ;;
    1:--version) text_of "$crate" VERSION; exit ;;
  esac
  is_form "$@" && return
  echo "$(text_of "$crate" USAGE)" >&2
  exit 2
}
