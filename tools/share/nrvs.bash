# bash completion for nrvs
_nrvs() {
  local word=${COMP_WORDS[COMP_CWORD]} previous=${COMP_WORDS[COMP_CWORD - 1]} options=
  case $previous in
    --levels) COMPREPLY=($(compgen -W '4 5' -- "$word")); return ;;
    --replica | --replicas | --tables | --turns | --segment | --address) return ;;
  esac
  if [ "$previous" = --steps ] && [ "${COMP_WORDS[1]}" = order ]; then return; fi
  if [ "$COMP_CWORD" -eq 1 ]; then
    COMPREPLY=($(compgen -W 'audit explain order resolve pages simulate run help --help --version' -- "$word"))
    return
  fi
  case ${COMP_WORDS[1]} in
    audit) options='--json --chain --quiet --progress --least-overlap --tap' ;;
    explain) options='--json --all --chain' ;;
    order) options='--trace --steps' ;;
    resolve) options='--address --replica --steps' ;;
    pages) options='--replica --ranges --chain --start --end' ;;
    simulate) options='--levels --replicas --tables --trace' ;;
    run) options='--levels --replicas --tables --turns --chain --segment --trace' ;;
    help) COMPREPLY=($(compgen -W 'audit explain order resolve pages simulate run' -- "$word")); return ;;
  esac
  # a word that begins no option is a file's name, which bash completes itself
  case $word in
    -*) COMPREPLY=($(compgen -W "$options --help" -- "$word")) ;;
  esac
}
complete -o default -F _nrvs nrvs
