# Completions of pps for bash: source it, or install it as bash-completion/completions/pps.

_pps_values() {
  # The value of the option before the word, if that takes one.
  case $1 in
    --image | --save | --history) mapfile -t COMPREPLY < <(compgen -f -- "$2") ;;
    --limit) mapfile -t COMPREPLY < <(compgen -W "16 256 4096 65535" -- "$2") ;;
    --workers) mapfile -t COMPREPLY < <(compgen -W "1 2 3 4 5 6 7 8" -- "$2") ;;
    *) return 1 ;;
  esac
  compopt -o filenames 2>/dev/null
  return 0
}

_pps() {
  local word=${COMP_WORDS[COMP_CWORD]} before=${COMP_WORDS[COMP_CWORD - 1]} command=${COMP_WORDS[1]:-}
  COMPREPLY=()
  _pps_values "$before" "$word" && return
  if [ "$COMP_CWORD" -eq 1 ]; then
    mapfile -t COMPREPLY < <(compgen -W "run frames serve --version --help -h" -- "$word")
    return
  fi
  case $command in
    run) mapfile -t COMPREPLY < <(compgen -W "--show --interactive --image --save --limit --help -h" -- "$word") ;;
    frames) mapfile -t COMPREPLY < <(compgen -W "--image --save --limit --help -h" -- "$word") ;;
    serve)
      mapfile -t COMPREPLY < <(compgen -W "--workers --history --help -h" -- "$word")
      case $word in
        -*) ;;
        *)
          mapfile -t COMPREPLY < <(compgen -f -- "$word")
          compopt -o filenames 2>/dev/null
          ;;
      esac
      ;;
  esac
}

complete -F _pps pps
