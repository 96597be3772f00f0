# Completion of svahost for bash. Installed as share/bash-completion/completions/svahost; by hand: source it.

_svahost() {
  local current=${COMP_WORDS[COMP_CWORD]} command=${COMP_WORDS[1]-} before=${COMP_WORDS[COMP_CWORD - 1]-}
  local words='replay check storm plain test show why chart explore judge trace help --help --version'
  COMPREPLY=()
  # behind < or > the shell's own completion of files
  if [[ $before == [\<\>] || $current == [\<\>]* ]]; then
    compopt -o default 2> /dev/null
    return
  fi
  if [ "$COMP_CWORD" -eq 1 ]; then
    # the script of the repository proves too
    [[ $1 == */* ]] && words+=' prove'
  elif [ "$command" = help ]; then
    words="${words%% help *} scenarios scripts races drivers statuses all"
  else
    words=--help
    # readline takes the = of --most=N for a word
    [[ $before == --@(most|part|jobs|turns|after) || $before == = ]] && return
    if [[ $current != -* ]]; then
      local kind='[as]'
      case $command in
        judge) kind=d ;;
        explore) kind=r ;;
        replay | check | storm) kind=a ;;
      esac
      compopt -o filenames 2> /dev/null
      mapfile -t COMPREPLY < <(compgen -f -X "!*.sv$kind" -- "$current"; compgen -d -- "$current")
      return
    fi
    case $command in
      check | test | why) words='--part --jobs --help' ;;
      judge) words='--run --strict --all --needed --platforms --chart --most --part --jobs --help' ;;
      explore) words='--why --ends --most --part --jobs --help' ;;
      trace) words='--live --why --help' ;;
      chart) words='--svg --help' ;;
      storm) words='--turns --help' ;;
      show) words='--after --help' ;;
    esac
  fi
  mapfile -t COMPREPLY < <(compgen -W "$words" -- "$current")
}

complete -F _svahost svahost
