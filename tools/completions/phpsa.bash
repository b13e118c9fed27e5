# Completes the words of phpsa in bash.

_phpsa() {
  local at=$COMP_CWORD command=${COMP_WORDS[1]}
  local word=${COMP_WORDS[at]} before=${COMP_WORDS[at - 1]} list
  COMPREPLY=()
  # Bash takes `--dtd=mini` as three words.
  if [[ $word == = ]]; then
    word=
  elif [[ $before == = ]]; then
    before=${COMP_WORDS[at - 2]}
  fi
  if ((at == 1)); then
    mapfile -t COMPREPLY < <(compgen -W 'check run page grammar make match site help --help --version' -- "$word")
    return
  fi
  case $before in
    --limit | --steps) return ;;
    --dtd)
      mapfile -t COMPREPLY < <({ compgen -W 'strict mini' -- "$word"; compgen -f -- "$word"; })
      compopt -o filenames 2>/dev/null
      return
      ;;
    --root)
      mapfile -t COMPREPLY < <(compgen -d -- "$word")
      compopt -o filenames 2>/dev/null
      return
      ;;
    --request | --stubs | --policy)
      mapfile -t COMPREPLY < <(compgen -f -- "$word")
      compopt -o filenames 2>/dev/null
      return
      ;;
  esac
  case $command in
    check) list='--dtd --limit --nesting --json --shortest --root --stubs --help' ;;
    run) list='--request --steps --root --stubs --help' ;;
    page) list='--dtd --root --help' ;;
    grammar) list='--root --stubs --help' ;;
    make) list='--check --help' ;;
    match) list='--policy --root --stubs --help' ;;
    site) list='--dtd --limit --nesting --root --stubs --help' ;;
    *) list= ;;
  esac
  if [[ $word == -* ]]; then
    mapfile -t COMPREPLY < <(compgen -W "$list" -- "$word")
  elif [[ $command == check || $command == run || $command == page || $command == grammar || $command == match || $command == site ]]; then
    mapfile -t COMPREPLY < <(compgen -f -- "$word")
    compopt -o filenames 2>/dev/null
  fi
}

complete -F _phpsa phpsa
