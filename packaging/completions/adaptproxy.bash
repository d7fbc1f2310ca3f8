# Completion of `adaptproxy`, `icapd` and `adaptproxy-top` for bash.
_adaptproxy() {
  local words="book capacity drain exchanges refresh reload reopen stats stop trace" word=2
  if [ "${1##*/}" = adaptproxy-top ]; then
    case ${COMP_WORDS[COMP_CWORD - 1]} in
      --admin | --config | --interval) return 0 ;;
    esac
    # shellcheck disable=SC2207
    COMPREPLY=($(compgen -W "--admin --config --interval --once --help" -- "$2"))
    return 0
  fi
  [ "${COMP_WORDS[2]}" != --config ] || word=4
  # The path behind --config is left to the shell.
  case ${1##*/}:${COMP_WORDS[1]} in
    adaptproxy:serve | adaptproxy:check) words= ;;
    adaptproxy:tell) ;;
    *) word=0 ;;
  esac
  if [ "$COMP_CWORD" -ge 2 ] && [ "$COMP_CWORD" -eq "$word" ]; then
    [ "$word" -eq 4 ] || words="--config $words"
    # shellcheck disable=SC2207
    COMPREPLY=($(compgen -W "$words" -- "$2"))
  fi
  # shellcheck disable=SC2207
  [ "$word" -eq 0 ] || [ "$COMP_CWORD" -ne $((word + 1)) ] || [ "${COMP_WORDS[word]}" != exchanges ] ||
    COMPREPLY=($(compgen -W waiting -- "$2"))
  if [ "$COMP_CWORD" -ge 2 ] && [ "${COMP_WORDS[1]}" = probe ]; then
    words="--only --count"
    [ "${COMP_WORDS[COMP_CWORD - 1]}" != --count ] || words=
    [ "${COMP_WORDS[COMP_CWORD - 1]}" != --only ] ||
      words="no-body below below-allow preview preview-allow above above-allow million million-allow chunked eicar"
    # shellcheck disable=SC2207
    COMPREPLY=($(compgen -W "$words" -- "$2"))
  fi
  [ "$COMP_CWORD" -eq 1 ] || return 0
  words="serve check tell probe trace chunks --help --version"
  [ "${1##*/}" != icapd ] || words="serve check once --help --version"
  # shellcheck disable=SC2207
  COMPREPLY=($(compgen -W "$words" -- "$2"))
}
complete -o default -F _adaptproxy adaptproxy icapd adaptproxy-top
