# Completion of abd's words for bash: source it, or install it as /usr/share/bash-completion/completions/abd.

_abd() {
  local word=${COMP_WORDS[COMP_CWORD]} before=${COMP_WORDS[COMP_CWORD - 1]} command=${COMP_WORDS[1]} options
  COMPREPLY=()
  if [ "$COMP_CWORD" -eq 1 ]; then
    mapfile -t COMPREPLY < <(compgen -W "check decide draw explain justify monitor simulate split trace run help --help --version" -- "$word")
    return
  fi
  case $before in
    --reads)
      mapfile -t COMPREPLY < <(compgen -W "full short" -- "$word")
      return
      ;;
    --by)
      mapfile -t COMPREPLY < <(compgen -W "tags values" -- "$word")
      return
      ;;
    --into)
      mapfile -t COMPREPLY < <(compgen -d -- "$word")
      return
      ;;
    --workers | --parts | --key | --most | --around | --give-up | --replicas | --callers | --calls | --keys | --rounds | --drop | --double | --halls | --show | --votes | --ask | --put)
      return
      ;;
  esac
  case $command in
    check) options="--workers --json --help" ;;
    draw) options="--by --key --most --calls --around --whole --help" ;;
    decide) options="--key --most --json --help" ;;
    explain) options="--key --most --help" ;;
    justify) options="--by --unchecked --help" ;;
    monitor) options="--all --give-up --json --help" ;;
    split) options="--parts --into --help" ;;
    trace) options="--most --draw --help" ;;
    run)
      options="--replicas --callers --calls --keys --rounds --drop --double --halls --show --reads --votes --ask --put --help"
      ;;
    help)
      mapfile -t COMPREPLY < <(compgen -W "check decide draw explain justify monitor simulate split trace run" -- "$word")
      return
      ;;
    *) options="--help" ;;
  esac
  if [[ $word == -* || $command == run ]]; then
    mapfile -t COMPREPLY < <(compgen -W "$options" -- "$word")
  else
    mapfile -t COMPREPLY < <(compgen -f -- "$word")
    compopt -o filenames 2>/dev/null
  fi
}

complete -F _abd abd
