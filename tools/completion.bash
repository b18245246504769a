# Completion of ehci and ehci-trace for bash: `make install` puts it where bash finds it, and `. tools/completion.bash` reads it at once.

_ehci() {
  local word=${COMP_WORDS[COMP_CWORD]} before=${COMP_WORDS[COMP_CWORD - 1]}
  case $before in
    run | image | check | dump) mapfile -t COMPREPLY < <(compgen -f -- "$word") ;;
    load | probe) COMPREPLY=() ;;
    --strict) mapfile -t COMPREPLY < <(compgen -W "run" -- "$word") ;;
    --fold | --svg) mapfile -t COMPREPLY < <(compgen -W "dump" -- "$word") ;;
    *)
      if [ "$COMP_CWORD" -eq 1 ]; then
        mapfile -t COMPREPLY < <(compgen -W "run image check dump load probe --strict --fold --svg --build --prove --help --version" -- "$word")
      fi
      ;;
  esac
}

_ehci_trace() {
  local word=${COMP_WORDS[COMP_CWORD]} before=${COMP_WORDS[COMP_CWORD - 1]}
  case $before in
    --endpoint | --from | --to) COMPREPLY=() ;;
    *)
      mapfile -t COMPREPLY < <(
        compgen -W "--endpoint --from --to --quiet --wait --explain --pcap --schedule --svg --progress \
          --build --prove --help --version" -- "$word"
      )
      ;;
  esac
}

complete -o filenames -F _ehci ehci ./ehci
complete -F _ehci_trace ehci-trace ./ehci-trace
